//! The two searches of include/tishkolan.h: their numbers, requests for them, and what each has to
//! say.

#![allow(deprecated)]

use super::reading::{self, Plan, Route, Stop};
use crate::expected::{run, Refusal, BAD_RULE, BAD_WORKSPACE, NO_ROOM};
use crate::layers::expected::one_cell;
use crate::layers::table;
use crate::lent::{self, values, Answer, Called};
use crate::paths::calls::MOST_ROOM;
use crate::paths::reading::Rooms;
use crate::side_by_side::Asked;
use oracle::error::Error;
use oracle::id::CellID;
use oracle::layer::{CellFlags, Layer};
use oracle::path::{astar, astar_with_limit, AvoidBlockedCost, CostFn, EuclideanCost, Path};

pub const SEARCH_LIMIT_EXCEEDED: u32 = 7;
pub const NO_PATH_FOUND: u32 = 8;

#[derive(Debug, Clone, Copy, PartialEq, Eq)]
pub enum Call {
    Limited,
    Unlimited,
}

pub type Request = lent::Request<Call>;

/// The limit where none is given.
pub const USUAL_LIMIT: u64 = 100_000;

/// The bytes that the rooms need of the two workspaces.
pub fn known_bytes(known: usize) -> usize {
    44 * known + 64
}

pub fn waiting_bytes(waiting: usize) -> usize {
    32 * waiting
}

/// The numbers and the bytes of a request by their names.
struct Named<'a> {
    count: u64,
    rule: u32,
    limit: u64,
    known: u64,
    waiting: u64,
    start: &'a [u8],
    goal: &'a [u8],
    flags: &'a [u8],
    known_workspace: &'a [u8],
    waiting_workspace: &'a [u8],
    out: &'a [u8],
}

fn named(request: &Request) -> Named<'_> {
    let (count, rule, limit, known, waiting) = match request.numbers[..] {
        [count, rule, limit, known, waiting] => (count, rule, limit, known, waiting),
        [count, rule, known, waiting] => (count, rule, USUAL_LIMIT, known, waiting),
        _ => unreachable!(),
    };
    let [start, goal, flags, known_workspace, waiting_workspace, out] = &request.buffers[..] else {
        unreachable!()
    };
    Named {
        count,
        rule: rule as u32,
        limit,
        known,
        waiting,
        start,
        goal,
        flags,
        known_workspace,
        waiting_workspace,
        out,
    }
}

impl Called for Call {
    const BUFFERS: usize = 6;
    const COUNTED: &'static str = "answered, refused";

    fn all() -> Vec<(u8, &'static str)> {
        vec![(1, "astar_with_limit"), (2, "astar")]
    }

    fn number(self) -> u8 {
        match self {
            Call::Limited => 1,
            Call::Unlimited => 2,
        }
    }

    fn numbers(self) -> &'static [&'static str] {
        match self {
            Call::Limited => &["count", "rule", "limit", "known", "waiting"],
            Call::Unlimited => &["count", "rule", "known", "waiting"],
        }
    }

    fn buffers(self) -> &'static [&'static str] {
        &[
            "start",
            "goal",
            "flags",
            "known workspace",
            "waiting workspace",
            "out",
        ]
    }

    /// "A refusal changes no output." "The workspace ... is all zero at return, answered or
    /// refused; only BadWorkspace leaves it untouched." "Successful output fills the front of its
    /// buffer; the rest is unchanged."
    fn expected(request: &Request) -> Answer {
        let said = say(request);
        let mut buffers = request.buffers.clone();
        if said != Err(Refusal::plain(BAD_WORKSPACE).into()) {
            buffers[3].fill(0);
            buffers[4].fill(0);
        }
        let (refusal, values) = match said {
            Ok(route) => {
                let bytes: Vec<u8> = route.cells.iter().flat_map(CellID::to_bytes).collect();
                buffers[5][..bytes.len()].copy_from_slice(&bytes);
                let cells = route.cells.len() as u64;
                let said = values(&[cells, route.cost, route.expansions]);
                (Refusal::default(), said)
            }
            Err(Stop::Limit { expansions, limit }) => (
                Refusal::plain(SEARCH_LIMIT_EXCEEDED),
                values(&[0, 0, expansions, limit]),
            ),
            Err(Stop::NoPath { start, goal }) => {
                let [start, goal] = [start, goal].map(|cell| cell.raw_value());
                let high = |raw: u128| (raw >> 64) as u64;
                let low = |raw: u128| raw as u64;
                let ends = [high(start), low(start), high(goal), low(goal)];
                let said = values(&[&[0; 4], &ends[..]].concat());
                (Refusal::plain(NO_PATH_FOUND), said)
            }
            Err(Stop::Other(refusal)) => (refusal, values(&[])),
        };
        Answer {
            refusal,
            values,
            buffers,
        }
    }

    fn counted(answer: &Answer) -> u32 {
        answer.refusal.number
    }
}

/// The plan of a search under a layer and a rule that is 0 or 1. "Only bit 0 blocks"; "keys are
/// whole ids".
pub fn plan(start: CellID, goal: CellID, flags: &Layer<u32>, rule: u32, limit: u64) -> Plan {
    let blocked = flags.iter().filter(|(_, &flags)| flags & 1 == 1);
    let shut = match rule {
        0 => Default::default(),
        _ => blocked.map(|(&cell, _)| cell).collect(),
    };
    Plan {
        start,
        goal,
        shut,
        limit,
    }
}

/// "Order: 11, 13, 14, 15"; then the oracle's own answer. Where room for known cells or waiting
/// entries is too small, which the oracle does not know, the plain reading's; everywhere else the
/// two must agree.
fn say(request: &Request) -> Result<Route, Stop> {
    let named = named(request);
    let fits = |room: u64| (1..=MOST_ROOM).contains(&room);
    if !fits(named.known)
        || !fits(named.waiting)
        || named.known_workspace.len() < known_bytes(named.known as usize)
        || named.waiting_workspace.len() < waiting_bytes(named.waiting as usize)
    {
        return Err(Refusal::plain(BAD_WORKSPACE).into());
    }
    let start = one_cell(named.start)?;
    let goal = one_cell(named.goal)?;
    let flags = table::read::<u32>(named.flags, named.count)?;
    if named.rule > 1 {
        return Err(Refusal::plain(BAD_RULE).into());
    }
    let plan = plan(start, goal, &flags, named.rule, named.limit);
    let rooms = Rooms {
        known: named.known as usize,
        waiting: named.waiting as usize,
        output: named.out.len() / 16,
    };
    let read = reading::search(&plan, rooms);
    if let Err(Stop::Other(refusal)) = read {
        if refusal.number == NO_ROOM && refusal.room != 3 {
            return read;
        }
    }
    let agrees = match named.rule {
        0 => agrees(request.call, &plan, rooms, &EuclideanCost, &read),
        _ => agrees(request.call, &plan, rooms, &avoiding(&flags), &read),
    };
    assert!(
        agrees,
        "the reading departs from the oracle: {}",
        request.words()
    );
    read
}

fn avoiding(flags: &Layer<u32>) -> AvoidBlockedCost {
    let mut layer = Layer::new("");
    for (&cell, &flags) in flags.iter() {
        layer.set(cell, CellFlags::new(flags));
    }
    AvoidBlockedCost::new(layer, 0.0)
}

/// What the oracle says. Of NoPathFound it has a text of each cell, without exponent, flags and
/// reserved bits.
fn oracle(
    plan: &Plan,
    call: impl FnOnce(CellID, CellID) -> Result<Path, Error>,
) -> Result<Path, Stop> {
    let (start, goal) = (plan.start, plan.goal);
    run(|| call(start, goal))?.map_err(|error| match error {
        Error::SearchLimitExceeded { expansions, limit } => Stop::Limit {
            expansions: expansions as u64,
            limit: limit as u64,
        },
        Error::NoPathFound {
            start: from,
            goal: to,
        } if from == start.to_string() && to == goal.to_string() => Stop::NoPath { start, goal },
        other => panic!("a search refused otherwise: {other:?}"),
    })
}

/// Whether the oracle says what was read. It has no number of expansions: that number is the
/// smallest limit under which it answers.
fn agrees<C: CostFn>(
    call: Call,
    plan: &Plan,
    rooms: Rooms,
    cost: &C,
    read: &Result<Route, Stop>,
) -> bool {
    let limited = |limit: u64| {
        oracle(plan, |start, goal| {
            astar_with_limit(start, goal, cost, limit as usize)
        })
    };
    let same =
        |path: &Path, route: &Route| path.cells == route.cells && path.cost.to_bits() == route.cost;
    let said = match call {
        Call::Limited => limited(plan.limit),
        Call::Unlimited => oracle(plan, |start, goal| astar(start, goal, cost)),
    };
    match (said, read) {
        (Ok(path), Ok(route)) => {
            let least = route.expansions;
            same(&path, route)
                && (least == plan.limit || limited(least).is_ok_and(|path| same(&path, route)))
                && (least == 0
                    || limited(least - 1).is_err_and(|stop| {
                        let (expansions, limit) = (least, least - 1);
                        stop == Stop::Limit { expansions, limit }
                    }))
        }
        (Ok(path), Err(stop)) => {
            path.cells.len() > rooms.output && *stop == Refusal::no_room(3).into()
        }
        (Err(said), Err(stop)) => said == *stop,
        (Err(_), Ok(_)) => false,
    }
}
