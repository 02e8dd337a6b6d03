//! The search for a route.

use crate::face;
use crate::listing::most;
use crate::{Cell, Claim, FlagLayer, Refusal, Rule};

/// What is lent to a search: two buffers, which may hold anything, and the rooms that they have.
///
/// Known cells are all that the search has seen and not found blocked; a cell that is reached again
/// at a lower cost waits once more. A call is [`Refusal::BadWorkspace`], before anything else, where a
/// room is not from 1 to 65,536 or a buffer is shorter than [`known_bytes`](SearchWorkspace::known_bytes)
/// and [`waiting_bytes`](SearchWorkspace::waiting_bytes) say; that leaves both buffers as they were. Every
/// other answer or refusal leaves all of both zero.
#[derive(Debug)]
pub struct SearchWorkspace<'w> {
    /// Room for known cells.
    pub known: usize,
    /// Room for waiting entries.
    pub waiting: usize,
    /// The buffer of the known cells.
    pub known_buffer: &'w mut [u8],
    /// The buffer of the waiting entries.
    pub waiting_buffer: &'w mut [u8],
}

impl<'w> SearchWorkspace<'w> {
    /// These buffers with all the rooms that they have, 65,536 of each at most.
    pub const fn new(
        known_buffer: &'w mut [u8],
        waiting_buffer: &'w mut [u8],
    ) -> SearchWorkspace<'w> {
        SearchWorkspace {
            known: most(known_buffer.len().saturating_sub(64) / 44),
            waiting: most(waiting_buffer.len() / 32),
            known_buffer,
            waiting_buffer,
        }
    }

    /// The bytes of a buffer with room for so many known cells.
    pub const fn known_bytes(known: usize) -> usize {
        known.saturating_mul(44).saturating_add(64)
    }

    /// The bytes of a buffer with room for so many waiting entries.
    pub const fn waiting_bytes(waiting: usize) -> usize {
        waiting.saturating_mul(32)
    }

    fn rooms(&self) -> (usize, usize) {
        (self.known, self.waiting)
    }

    fn buffers(&mut self) -> (&mut [u8], &mut [u8]) {
        (self.known_buffer, self.waiting_buffer)
    }
}

/// A route that a search found.
#[derive(Clone, Copy, PartialEq, Debug)]
pub struct Route<'o> {
    /// Its cells, start and goal included.
    pub cells: &'o [Cell],
    /// The sum of its steps.
    pub cost: f64,
    /// How many cells were closed.
    pub expansions: u64,
}

impl<'o> Route<'o> {
    /// What is claimed of this route, for the checker: that it leads from one cell to another, at its cost.
    pub const fn claim(&self, start: Cell, goal: Cell) -> Claim<'o> {
        Claim {
            route: self.cells,
            start,
            goal,
            cost: self.cost,
        }
    }
}

fn found(said: face::SearchAnswer, out: &[Cell]) -> Result<Route<'_>, Refusal> {
    said.answer()?;
    Ok(Route {
        cells: &out[..said.cells as usize],
        cost: f64::from_bits(said.cost),
        expansions: said.expansions,
    })
}

/// A route from start to goal that closes no more cells than 100,000: as [`astar_with_limit`].
///
/// ```
/// use tishkolan::{astar, route_verdict, Cell, Coord, FlagLayer, Refusal, Rule, SearchWorkspace, Verdict};
///
/// let at = |x, y, z| Cell::from_coords(0, 3, Coord::new(x, y, z)).unwrap();
/// let (start, goal) = (at(0, 0, 0), at(2, 2, 0));
/// let flags = FlagLayer::new(&mut []);
/// let mut workspace = SearchWorkspace {
///     known: 100,
///     waiting: 100,
///     known_buffer: &mut [0; SearchWorkspace::known_bytes(100)],
///     waiting_buffer: &mut [0; SearchWorkspace::waiting_bytes(100)],
/// };
/// let mut out = [Cell::default(); 10];
///
/// let found = astar(&start, &goal, &flags, Rule::Avoiding, &mut workspace, &mut out)?;
/// assert_eq!(found.cells, [start, at(1, 1, 1), goal]);
/// assert_eq!((found.cost.to_bits(), found.expansions), (0x400B_B67A_E858_4CAA, 3));
///
/// let claim = found.claim(start, goal);
/// assert_eq!(route_verdict(&claim, &flags, Rule::Avoiding), Verdict::Accepted);
/// # Ok::<(), Refusal>(())
/// ```
pub fn astar<'o>(
    start: &Cell,
    goal: &Cell,
    flags: &FlagLayer<'_>,
    rule: Rule,
    workspace: &mut SearchWorkspace<'_>,
    out: &'o mut [Cell],
) -> Result<Route<'o>, Refusal> {
    let asked = (start, goal, flags.lent(), rule as u32);
    let rooms = workspace.rooms();
    found(face::astar(asked, rooms, workspace.buffers(), out), out)
}

/// A route from start to goal that closes no more cells than a limit.
///
/// A* in the order of the Rust that was ported, by the Euclidean distance to the goal: over all cells under
/// [`Rule::Free`], over those that are not blocked in the flag layer under [`Rule::Avoiding`] (the start
/// itself is not tested). [`route_verdict`](crate::route_verdict) accepts the route with its cost. That
/// no route is shorter is not claimed. Equal ends are a route of that one cell, though mixed or blocked.
///
/// [`Refusal::BadWorkspace`]; [`Refusal::InvalidParity`] of start, then of goal;
/// [`Refusal::CoordOverflow`] where they are too far apart; as the search meets them
/// [`Refusal::SearchLimitExceeded`], [`Refusal::CoordOverflow`], and [`Refusal::NoRoom`] of known cells and
/// of waiting entries; [`Refusal::NoPathFound`] once no cell waits; [`Refusal::NoRoom`] of the output
/// for a route that does not fit.
pub fn astar_with_limit<'o>(
    start: &Cell,
    goal: &Cell,
    flags: &FlagLayer<'_>,
    rule: Rule,
    limit: u64,
    workspace: &mut SearchWorkspace<'_>,
    out: &'o mut [Cell],
) -> Result<Route<'o>, Refusal> {
    let asked = (start, goal, flags.lent(), rule as u32);
    let rooms = workspace.rooms();
    found(
        face::astar_with_limit(asked, limit, rooms, workspace.buffers(), out),
        out,
    )
}
