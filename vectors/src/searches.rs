//! The list of searches, `searches.bin`. Each record is one call by itself: every byte of the
//! workspaces and of the output is 0xAA before it.
//!
//! The file is records of 64 bytes, at most 120, and behind the last of them a body for each, in
//! order; all together at most 65,536 bytes. All numbers are big-endian. A record is what is asked:
//!
//! | bytes | what |
//! |---|---|
//! | 0 | the call's number: 1 astar_with_limit, 2 astar |
//! | 1 | length of the start in bytes, at most 17 |
//! | 2 | length of the goal in bytes, at most 17 |
//! | 3 | the flag layer's count |
//! | 4..5 | length of the output in bytes, at most 512 |
//! | 6..7 | where in the file the body begins |
//! | 8..39 | the start begins at byte 8, the goal at byte 24, and each has its length of bytes, whatever lies there |
//! | 40..41 | the rule |
//! | 42..43 | length of the flag layer in bytes |
//! | 44..45 | length of the workspace of known cells in bytes, at most 17,664 |
//! | 46..47 | length of the workspace of waiting entries in bytes, at most 12,800 |
//! | 48..55 | the limit; of 2: 0 |
//! | 56..59 | room for known cells |
//! | 60..63 | room for waiting entries |
//!
//! A body is what is expected, in 64 bytes, then the bytes of the flag layer, then the cells of the route:
//!
//! | bytes | what |
//! |---|---|
//! | 0..1 | limit of refusal 7; else 0 |
//! | 2 | 0 |
//! | 3 | refusal number; 0 where the call answers |
//! | 4..7 | expansions of the answer and of refusal 7; else 0 |
//! | 8..39 | start and goal of refusal 8; else 0 |
//! | 40 | 0 |
//! | 41 | room, of refusal 10 |
//! | 42..43 | the cells of the route; 0 where the call refuses |
//! | 44..55 | x, y, z of refusal 1; else 0 |
//! | 56..63 | bits of the cost; 0 where the call refuses |
//!
//! After the call both workspaces are all zero; of refusal 11 they are as they were. The output has
//! the route at its front, and the rest of it is as it was.

#![allow(deprecated)]

use crate::paths::{put_cell, BEFORE, MOST_CELL};
use crate::{MAX, MIN, RECORD};
use compare::lent::Called;
use compare::paths::reading::Rooms;
use compare::random::Random;
use compare::routes::calls::Under;
use compare::routes::checker::neighbors;
use compare::routes::limits::{at, laid, under, RULES};
use compare::searches::calls::Call;
use compare::searches::limits::{endless, rooms, Search};
use compare::searches::reading::{went, Went};
use compare::side_by_side::Asked;
use oracle::id::CellID;

const MOST_OUTPUT: usize = 512;
const MOST_KNOWN: usize = 17_664;
const MOST_WAITING: usize = 12_800;
const MOST_FILE: usize = 65_536;

/// The rooms for which the workspaces are long enough.
const MOST: Rooms = rooms(400, 400, 32);

/// The records made so far, their bodies, and the calls that they are about.
struct List {
    records: Vec<[u8; RECORD]>,
    bodies: Vec<Vec<u8>>,
    calls: Vec<u8>,
}

impl List {
    fn add(&mut self, search: Search) {
        let mut request = search.ask(&mut Random::new(0));
        for lent in &mut request.buffers[3..] {
            lent.fill(BEFORE);
        }
        request.send(&mut self.calls);
        let answer = Call::expected(&request);
        let [start, goal, flags, known, waiting, output] = &request.buffers[..] else {
            unreachable!()
        };
        assert!(start.len() <= MOST_CELL && goal.len() <= MOST_CELL && output.len() <= MOST_OUTPUT);
        assert!(known.len() <= MOST_KNOWN && waiting.len() <= MOST_WAITING);
        let short = |number: usize| u16::try_from(number).unwrap().to_be_bytes();
        let room = |number: u64| u32::try_from(number).unwrap().to_be_bytes();

        let mut record = [0; RECORD];
        record[0] = request.call.number();
        record[1] = start.len() as u8;
        record[2] = goal.len() as u8;
        record[3] = u8::try_from(search.under.count).unwrap();
        record[4..6].copy_from_slice(&short(output.len()));
        put_cell(&mut record[8..24], start);
        put_cell(&mut record[24..40], goal);
        record[40..42].copy_from_slice(&short(search.under.rule as usize));
        record[42..44].copy_from_slice(&short(flags.len()));
        record[44..46].copy_from_slice(&short(known.len()));
        record[46..48].copy_from_slice(&short(waiting.len()));
        record[48..56].copy_from_slice(&search.limit.unwrap_or(0).to_be_bytes());
        record[56..60].copy_from_slice(&room(search.known));
        record[60..64].copy_from_slice(&room(search.waiting));
        self.records.push(record);

        let [cells, cost, expansions, limit, ends @ ..] = answer.values;
        let refusal = answer.refusal;
        let mut body = vec![0; RECORD];
        body[0..2].copy_from_slice(&short(limit as usize));
        body[3] = refusal.number as u8;
        body[4..8].copy_from_slice(&room(expansions));
        body[8..40].copy_from_slice(&ends.map(u64::to_be_bytes).concat());
        body[41] = refusal.room as u8;
        body[42..44].copy_from_slice(&short(cells as usize));
        let point = [refusal.x, refusal.y, refusal.z];
        body[44..56].copy_from_slice(&point.map(i32::to_be_bytes).concat());
        body[56..64].copy_from_slice(&cost.to_be_bytes());
        body.extend(flags);
        body.extend(&answer.buffers[5][..16 * cells as usize]);
        self.bodies.push(body);
    }

    /// With the rooms that the search takes, and lent no more than they need.
    fn exact(&mut self, start: CellID, goal: CellID, under: &Under) {
        self.add(exact(start, goal, under));
    }

    /// The records, then the bodies, whose places the records have at last.
    fn file(mut self) -> Vec<u8> {
        let mut place = RECORD * self.records.len();
        for (record, body) in self.records.iter_mut().zip(&self.bodies) {
            record[6..8].copy_from_slice(&u16::try_from(place).unwrap().to_be_bytes());
            place += body.len();
        }
        assert!(place <= MOST_FILE, "{place} bytes do not fit the format");
        [self.records.concat(), self.bodies.concat()].concat()
    }
}

fn taken(start: CellID, goal: CellID, under: &Under) -> Went {
    went(&endless(start, goal, under), MOST)
}

fn exact(start: CellID, goal: CellID, under: &Under) -> Search {
    Search::within(start, goal, under, taken(start, goal, under).taken)
}

/// The plain cell at a point, in one frame and at one resolution.
fn plain(x: i64, y: i64, z: i64) -> CellID {
    at(0, 0, [x, y, z], 0)
}

/// No layer at all.
fn nothing(rule: u32) -> Under {
    laid(&[], 0, rule)
}

/// A layer that blocks these cells, under the avoiding rule.
fn blocking(cells: &[CellID]) -> Under {
    under(cells.iter().map(|&cell| (cell, 1)).collect(), 0, 1)
}

// ---- answers

fn open(list: &mut List) {
    let zero = plain(0, 0, 0);
    for rule in RULES {
        list.exact(zero, plain(2, 2, 0), &nothing(rule));
    }
    for [x, y, z] in [
        [1, 1, 1],
        [-2, 0, 0],
        [3, 1, 1],
        [4, 4, 4],
        [7, 5, 3],
        [-9, 3, 1],
        [0, -20, 0],
        [14, 2, 6],
        [-29, 29, 29],
    ] {
        list.exact(zero, plain(x, y, z), &nothing(0));
    }
    // The same from a cell far away, and from one that is not plain.
    let far = [1_000_000_001, -1_999_999_999, 12_345];
    let there = [1_000_000_008, -1_999_999_996, 12_340];
    list.exact(at(200, 100, far, 0), at(200, 100, there, 0), &nothing(1));
    list.exact(at(0, 0, [0, 0, 0], 0x0010), plain(2, 2, 0), &nothing(0));
    list.exact(at(0, 0, [0, 0, 0], 0xF00F), plain(5, -3, 1), &nothing(1));
    // A plain twin of the start.
    list.exact(at(0, 0, [0, 0, 0], 0x0010), zero, &nothing(0));
    // Equal ends answer, though mixed, blocked or on the edge.
    let mixed = at(7, 9, [0, 1, 0], 0x8001);
    list.exact(mixed, mixed, &nothing(0));
    list.exact(zero, zero, &blocking(&[zero]));
    let corner = plain(MAX, MIN + 1, MAX);
    list.exact(corner, corner, &nothing(1));
}

/// A wall of two layers across the way along z, with cells up to `width` from the middle.
fn wall(width: i64) -> Vec<CellID> {
    let mut cells = Vec::new();
    for z in 3..=4 {
        for x in -width..=width {
            for y in -width..=width {
                if x & 1 == z & 1 && y & 1 == z & 1 {
                    cells.push(plain(x, y, z));
                }
            }
        }
    }
    cells
}

fn walled(list: &mut List) {
    let (zero, two, between) = (plain(0, 0, 0), plain(2, 2, 0), plain(1, 1, 1));
    // Only bit 0 blocks, under the avoiding rule alone, and a cell is its whole id.
    for flags in [0, 1, 2, 3, 0xFFFF_FFFE, 0xFFFF_FFFF] {
        list.exact(zero, two, &under(vec![(between, flags)], 0, 1));
    }
    list.exact(zero, two, &under(vec![(between, 1)], 0, 0));
    let twin = at(0, 0, [1, 1, 1], 0x0010);
    list.exact(zero, two, &blocking(&[twin]));
    list.exact(zero, two, &blocking(&[zero]));
    // The first in the table and the last, and room behind them.
    let both = vec![(between, 1), (plain(1, 1, -1), 1)];
    list.exact(zero, two, &under(both, 47, 1));
    for width in [1, 2, 3] {
        let wall = wall(width);
        assert!(wall.len() <= 40);
        list.exact(zero, plain(0, 0, 8), &blocking(&wall));
        list.exact(plain(1, -1, 7), plain(-1, 1, 1), &blocking(&wall));
    }
    let mut gate = wall(3);
    gate.retain(|&cell| cell != plain(-3, 1, 3) && cell != plain(-4, 0, 4));
    list.exact(zero, plain(0, 0, 6), &blocking(&gate));
    // All around the start, and all but one.
    let start = at(3, 9, [-3, 1, -1], 0);
    let goal = at(3, 9, [1, 1, -1], 0);
    for open in [0, 6, 13] {
        let mut around = neighbors(start);
        around.remove(open);
        list.exact(start, goal, &blocking(&around));
    }
}

/// Starts and goals near the last coordinates.
fn edges(list: &mut List) {
    for (start, goal) in [
        // A goal on the edge is reached; from the edge nothing is.
        (plain(MAX - 2, 1, 1), plain(MAX, 1, 1)),
        (plain(MIN + 2, 0, 0), plain(MIN, 0, 0)),
        (plain(0, MIN + 2, 0), plain(1, MIN + 1, 1)),
        (plain(MAX, 1, 1), plain(MAX - 2, 1, 1)),
        (plain(MIN, 0, 0), plain(MIN + 2, 0, 0)),
        (plain(0, 0, MAX - 1), plain(0, 0, MAX - 5)),
        // Along the edge, and away from it.
        (plain(1, MAX - 2, 1), plain(11, MAX - 2, 1)),
        (plain(1, 1, MIN + 3), plain(1, 13, MIN + 3)),
        (
            plain(MAX - 2, MAX - 2, MAX - 2),
            plain(MAX - 8, MAX - 6, MAX - 10),
        ),
        (
            plain(MIN + 2, MIN + 2, MIN + 2),
            plain(MIN + 9, MIN + 5, MIN + 3),
        ),
    ] {
        list.exact(start, goal, &nothing(0));
    }
    // Start less goal: one that leaves i32; one that fits where a neighbour's does not; one that fits, from
    // a start on the edge.
    for (start, goal) in [
        (plain(0, 0, 0), plain(MIN, 0, 0)),
        (plain(-2, 0, 0), plain(MAX - 1, 0, 0)),
        (plain(MIN, 0, 0), plain(0, 0, 0)),
    ] {
        let search = Search::within(start, goal, &nothing(0), rooms(20, 20, 20));
        list.add(search.clone());
        // Before the limit, or behind it.
        list.add(search.limited(0));
        list.add(search.limited(1));
    }
}

// ---- limits and rooms

fn limits(list: &mut List) {
    let open = (plain(0, 0, 0), plain(2, 2, 0), nothing(0));
    let round = (plain(0, 0, 0), plain(0, 0, 8), blocking(&wall(2)));
    let flagged = (at(0, 0, [0, 0, 0], 0x0010), plain(3, 1, 1), nothing(1));
    for (start, goal, under) in [open, round, flagged] {
        let expansions = taken(start, goal, &under).expansions;
        let search = exact(start, goal, &under);
        for limit in [0, 1, expansions - 1, expansions, u64::MAX] {
            list.add(search.limited(limit));
        }
    }
    // Equal ends answer under the limit 0.
    list.add(exact(plain(0, 0, 0), plain(0, 0, 0), &nothing(0)).limited(0));
    // Goals that are never reached.
    let zero = plain(0, 0, 0);
    for goal in [
        at(0, 0, [4, 4, 4], 0x0010),
        at(1, 0, [2, 0, 0], 0),
        at(0, 1, [2, 0, 0], 0),
        at(0, 0, [1, 1, 1], 0x1000),
    ] {
        let search = Search::within(zero, goal, &nothing(0), rooms(200, 200, 20));
        list.add(search.limited(9));
    }
    // A goal that is blocked is not reached either.
    let goal = plain(2, 2, 0);
    let search = Search::within(zero, goal, &blocking(&[goal]), rooms(200, 200, 20));
    list.add(search.limited(9));
}

fn rooms_short(list: &mut List) {
    let zero = plain(0, 0, 0);
    for (start, goal, under) in [
        (zero, plain(2, 2, 0), nothing(0)),
        (zero, plain(0, 0, 8), blocking(&wall(2))),
    ] {
        let exact = taken(start, goal, &under).taken;
        for [known, waiting, output] in [[1, 0, 0], [0, 1, 0], [0, 0, 1], [1, 1, 1]] {
            let less = rooms(
                exact.known - known,
                exact.waiting - waiting,
                exact.output - output,
            );
            list.add(Search::within(start, goal, &under, less));
        }
    }
    // Rooms that the search of a goal never reached fills.
    let never = at(0, 0, [4, 4, 4], 0x0010);
    for rooms in [rooms(100, 400, 20), rooms(400, 50, 20), rooms(1, 1, 0)] {
        list.add(Search::within(zero, never, &nothing(0), rooms));
    }
    let mut short = exact(zero, zero, &nothing(0));
    short.output = 15;
    list.add(short);
    let mut longer = exact(zero, plain(2, 2, 0), &nothing(0));
    longer.known_workspace += 45;
    longer.waiting_workspace += 7;
    longer.output += 31;
    list.add(longer);
}

// ---- other refusals

fn no_path(list: &mut List) {
    let start = at(3, 9, [-3, 1, -1], 0);
    let goal = at(3, 9, [1, 1, -1], 0xFFFF);
    let around = blocking(&neighbors(start));
    list.exact(start, goal, &around);
    list.exact(at(3, 9, [-3, 1, -1], 0x0A5C), goal, &around);
    // The limit of the one cell that is closed.
    list.add(exact(start, goal, &around).limited(1));
    list.add(exact(start, goal, &around).limited(0));
}

fn refused(list: &mut List) {
    let (zero, two) = (plain(0, 0, 0), plain(2, 2, 0));
    let usual = exact(zero, two, &nothing(0));
    // Every second one with a start that is too short, which would come later.
    let bad_workspaces: [fn(&mut Search); 6] = [
        |search| search.known = 0,
        |search| search.known = 65_537,
        |search| search.waiting = 0,
        |search| search.waiting = 65_537,
        |search| search.known_workspace -= 1,
        |search| search.waiting_workspace -= 1,
    ];
    for (place, change) in bad_workspaces.iter().enumerate() {
        let mut search = usual.clone();
        change(&mut search);
        if place % 2 == 1 {
            search.start.pop();
        }
        list.add(search);
    }
    for (start, goal) in [(15, 16), (17, 16), (0, 16), (16, 15), (16, 17), (16, 0)] {
        let mut search = usual.clone();
        search.start.resize(start, 0);
        search.goal.resize(goal, 0);
        if start == 17 || goal == 17 {
            search.under.count = 1;
        }
        list.add(search);
    }
    // Layers that fall, that repeat a cell, that are said to have more than there is room for.
    let one = plain(1, 1, 1);
    let mut more = under(vec![(one, 1)], 19, 1);
    more.count = 2;
    for under in [
        laid(&[(one, 1), (zero, 1)], 0, 0),
        laid(&[(one, 1), (one, 1)], 0, 1),
        more,
        laid(&[(one, 0), (zero, 0)], 20, 2),
    ] {
        list.add(Search::within(zero, zero, &under, rooms(20, 20, 20)));
    }
    for rule in [2, 255, 256, 65_535] {
        list.add(Search::within(
            zero,
            zero,
            &nothing(rule),
            rooms(20, 20, 20),
        ));
    }
    let mixed = [plain(0, 1, 0), plain(-1, MAX, 2)];
    for (start, goal) in [
        (mixed[0], two),
        (zero, mixed[1]),
        (mixed[1], mixed[0]),
        (plain(MIN, 1, 0), plain(MAX, MAX, MAX)),
    ] {
        list.add(Search::within(start, goal, &nothing(1), rooms(1, 1, 0)));
    }
}

/// How many records there are, all of them in order with their bodies, and their calls.
pub fn records() -> (usize, Vec<u8>, Vec<u8>) {
    let mut list = List {
        records: Vec::new(),
        bodies: Vec::new(),
        calls: Vec::new(),
    };
    open(&mut list);
    walled(&mut list);
    edges(&mut list);
    limits(&mut list);
    rooms_short(&mut list);
    no_path(&mut list);
    refused(&mut list);
    let calls = std::mem::take(&mut list.calls);
    (list.records.len(), list.file(), calls)
}
