//! The specification's section "Rings, lines, search" from "Search" on, read plainly: what the Rust
//! does, and beside it the rooms and the number of expansions, which the Rust does not have.

#![allow(deprecated)]

use crate::expected::{Refusal, COORD_OVERFLOW};
use crate::paths::reading::{neighbors, parity, Rooms};
use oracle::id::CellID;
use std::collections::{BTreeMap, BTreeSet};

/// What is searched: the ends, the cells that the rule shuts, and the limit.
#[derive(Debug, Clone)]
pub struct Plan {
    pub start: CellID,
    pub goal: CellID,
    pub shut: BTreeSet<CellID>,
    pub limit: u64,
}

/// What an answer says. The cost is its bits.
#[derive(Debug, Clone, PartialEq, Eq)]
pub struct Route {
    pub cells: Vec<CellID>,
    pub cost: u64,
    pub expansions: u64,
}

/// What a search refuses, with all that the refusal carries.
#[derive(Debug, Clone, Copy, PartialEq, Eq)]
pub enum Stop {
    Limit { expansions: u64, limit: u64 },
    NoPath { start: CellID, goal: CellID },
    Other(Refusal),
}

impl From<Refusal> for Stop {
    fn from(refusal: Refusal) -> Stop {
        Stop::Other(refusal)
    }
}

/// What is known of a cell: its cost from the start on, and the cell before it.
struct Known {
    g: f64,
    before: Option<CellID>,
    closed: bool,
}

struct Search<'a> {
    plan: &'a Plan,
    known: BTreeMap<CellID, Known>,
    /// By f, then the cell, then the g that it was pushed with: "smaller first out". No cost is
    /// negative, so the bits have the order of the costs.
    waiting: BTreeSet<(u64, u128, u64)>,
    most_waiting: usize,
    expansions: u64,
}

/// "CoordOverflow when a difference leaves i32; else squares and sums rounded in source order, then
/// the root", of two cells of one parity each.
fn distance(from: CellID, to: CellID) -> Result<f64, Refusal> {
    let less = |one: i32, other: i32| match one.checked_sub(other) {
        Some(difference) => Ok(f64::from(difference)),
        None => Err(Refusal::plain(COORD_OVERFLOW)),
    };
    let (x, y, z) = (
        less(from.x(), to.x())?,
        less(from.y(), to.y())?,
        less(from.z(), to.z())?,
    );
    Ok((x * x + y * y + z * z).sqrt())
}

impl Search<'_> {
    fn new(plan: &Plan) -> Search<'_> {
        Search {
            plan,
            known: BTreeMap::new(),
            waiting: BTreeSet::new(),
            most_waiting: 0,
            expansions: 0,
        }
    }

    fn know(&mut self, cell: CellID, g: f64, before: Option<CellID>) {
        let closed = false;
        self.known.insert(cell, Known { g, before, closed });
    }

    fn wait(&mut self, cell: CellID, g: f64, h: f64) {
        let entry = ((g + h).to_bits(), cell.raw_value(), g.to_bits());
        assert!(self.waiting.insert(entry), "no entry comes twice");
        self.most_waiting = self.most_waiting.max(self.waiting.len());
    }

    /// "Start = goal answers with cost 0.0, zero expansions, though mixed or blocked; parity of
    /// start, then goal; heuristic overflow."
    fn go(&mut self, rooms: Rooms) -> Result<Route, Stop> {
        let (start, goal) = (self.plan.start, self.plan.goal);
        if start == goal {
            self.know(start, 0.0, None);
            self.most_waiting = 1;
            return self.answer(rooms);
        }
        parity(start)?;
        parity(goal)?;
        let h = distance(start, goal)?;
        self.know(start, 0.0, None);
        self.wait(start, 0.0, h);
        while let Some((_, raw, _)) = self.waiting.pop_first() {
            let cell = CellID::from_bytes(raw.to_be_bytes());
            if self.pop(cell, rooms)? {
                return self.answer(rooms);
            }
        }
        Err(Stop::NoPath { start, goal })
    }

    /// "Per pop: skip if closed, count and close, limit, goal, neighbour overflow." Whether it is
    /// the goal.
    fn pop(&mut self, cell: CellID, rooms: Rooms) -> Result<bool, Stop> {
        let known = self.known.get_mut(&cell).unwrap();
        if known.closed {
            return Ok(false);
        }
        known.closed = true;
        let g = known.g;
        self.expansions += 1;
        if self.expansions > self.plan.limit {
            return Err(Stop::Limit {
                expansions: self.expansions,
                limit: self.plan.limit,
            });
        }
        if cell == self.plan.goal {
            return Ok(true);
        }
        for neighbor in neighbors(cell)? {
            self.see(neighbor, cell, g, rooms)?;
        }
        Ok(false)
    }

    /// "Per neighbour: skip if closed; skip if blocked under the avoiding rule; if g falls: known
    /// room, heuristic overflow, waiting room."
    fn see(&mut self, cell: CellID, from: CellID, g: f64, rooms: Rooms) -> Result<(), Refusal> {
        let known = self.known.get(&cell);
        if known.is_some_and(|known| known.closed) || self.plan.shut.contains(&cell) {
            return Ok(());
        }
        let g = g + distance(from, cell)?;
        match known {
            Some(known) if g >= known.g => return Ok(()),
            Some(_) => {}
            None if self.known.len() >= rooms.known => return Err(Refusal::no_room(1)),
            None => {}
        }
        let h = distance(cell, self.plan.goal)?;
        if self.waiting.len() >= rooms.waiting {
            return Err(Refusal::no_room(2));
        }
        self.know(cell, g, Some(from));
        self.wait(cell, g, h);
        Ok(())
    }

    /// "Any answer longer than its buffer ... is NoRoom 3."
    fn answer(&self, rooms: Rooms) -> Result<Route, Stop> {
        let route = self.route();
        if route.cells.len() > rooms.output {
            return Err(Refusal::no_room(3).into());
        }
        Ok(route)
    }

    /// From the goal back to the start, which alone has no cell before it.
    fn route(&self) -> Route {
        let mut cells = vec![self.plan.goal];
        while let Some(before) = self.known[&cells[cells.len() - 1]].before {
            cells.push(before);
        }
        cells.reverse();
        Route {
            cells,
            cost: self.known[&self.plan.goal].g.to_bits(),
            expansions: self.expansions,
        }
    }
}

/// The search within rooms that are 1 or more where cells are known and wait.
pub fn search(plan: &Plan, rooms: Rooms) -> Result<Route, Stop> {
    Search::new(plan).go(rooms)
}

/// How a search went within its rooms: what it takes of them, the cells that it closes, its end.
pub struct Went {
    pub taken: Rooms,
    pub expansions: u64,
    pub end: Result<Route, Stop>,
}

pub fn went(plan: &Plan, rooms: Rooms) -> Went {
    let mut search = Search::new(plan);
    let end = search.go(rooms);
    let taken = Rooms {
        known: search.known.len().max(1),
        waiting: search.most_waiting.max(1),
        output: end.as_ref().map_or(0, |route| route.cells.len()),
    };
    Went {
        taken,
        expansions: search.expansions,
        end,
    }
}
