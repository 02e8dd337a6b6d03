//! The inputs that always come: every goal near a start, walls, boxes and gates, what blocks and
//! what does not, layers that are none, every set of faults, ends of every kind, rooms exact and one
//! less, limits around the expansions, what may and may not be named, the edges of the lattice,
//! distances that overflow, and searches that fill the largest rooms.

#![allow(deprecated)]

use super::calls::{known_bytes, plan, waiting_bytes, Call, Request, USUAL_LIMIT};
use super::reading::{self, Plan, Stop, Went};
use crate::layers::table;
use crate::paths::calls::MOST_ROOM;
use crate::paths::limits::noise;
use crate::paths::reading::Rooms;
use crate::random::Random;
use crate::routes::calls::Under;
use crate::routes::checker::neighbors;
use crate::routes::limits::{at, laid, turned, under, RULES};
use oracle::id::CellID;

type Sink<'a> = crate::side_by_side::Sink<'a, Request>;

const MOST: i64 = i32::MAX as i64;
const LEAST: i64 = i32::MIN as i64;

/// Rules that are none.
const NO_RULES: [u32; 7] = [2, 3, 255, 256, 257, 1 << 31, u32::MAX];

/// Rooms in which a search is tried whose goal may never be reached.
pub const SMALL: Rooms = rooms(300, 300, 300);

pub const fn rooms(known: usize, waiting: usize, output: usize) -> Rooms {
    Rooms {
        known,
        waiting,
        output,
    }
}

/// A search that is asked for. Lengths are in bytes.
#[derive(Clone)]
pub struct Search {
    pub start: Vec<u8>,
    pub goal: Vec<u8>,
    pub under: Under,
    /// None: the call that has no limit of its own.
    pub limit: Option<u64>,
    pub known: u64,
    pub waiting: u64,
    pub known_workspace: usize,
    pub waiting_workspace: usize,
    pub output: usize,
}

impl Search {
    /// With these rooms, and lent no more than they need.
    pub fn within(start: CellID, goal: CellID, under: &Under, rooms: Rooms) -> Search {
        Search {
            start: start.to_bytes().to_vec(),
            goal: goal.to_bytes().to_vec(),
            under: under.clone(),
            limit: None,
            known: rooms.known as u64,
            waiting: rooms.waiting as u64,
            known_workspace: known_bytes(rooms.known),
            waiting_workspace: waiting_bytes(rooms.waiting),
            output: 16 * rooms.output,
        }
    }

    pub fn limited(&self, limit: u64) -> Search {
        Search {
            limit: Some(limit),
            ..self.clone()
        }
    }

    /// What is lent is made by `fill`, from a length.
    fn filled(&self, mut fill: impl FnMut(usize) -> Vec<u8>) -> Request {
        let (count, rule) = (self.under.count, self.under.rule.into());
        let (call, numbers) = match self.limit {
            Some(limit) => (
                Call::Limited,
                vec![count, rule, limit, self.known, self.waiting],
            ),
            None => (Call::Unlimited, vec![count, rule, self.known, self.waiting]),
        };
        let lent = [self.known_workspace, self.waiting_workspace, self.output];
        let [known, waiting, output] = lent.map(&mut fill);
        Request::new(
            call,
            &numbers,
            &[
                &self.start,
                &self.goal,
                &self.under.table,
                &known,
                &waiting,
                &output,
            ],
        )
    }

    /// What is lent is full of noise.
    pub fn ask(&self, random: &mut Random) -> Request {
        self.filled(|length| noise(length, random))
    }
}

/// The plan under a layer that is sound and a rule that is one, with an endless limit.
pub fn endless(start: CellID, goal: CellID, under: &Under) -> Plan {
    let flags = table::read::<u32>(&under.table, under.count).unwrap();
    plan(start, goal, &flags, under.rule, u64::MAX)
}

pub fn limits(sink: Sink) {
    let mut random = Random::new(13);
    points(&mut random, sink);
    near(&mut random, sink);
    open(&mut random, sink);
    boxes(&mut random, sink);
    planes(&mut random, sink);
    flags(&mut random, sink);
    tables(&mut random, sink);
    rules(&mut random, sink);
    faults(&mut random, sink);
    ends(&mut random, sink);
    lengths(&mut random, sink);
    small_rooms(&mut random, sink);
    named(&mut random, sink);
    contents(&mut random, sink);
    edges(&mut random, sink);
    far(&mut random, sink);
    distant(&mut random, sink);
    large(&mut random, sink);
}

// ---- rooms and limits around those that a search takes

/// The rooms and the limit that are exactly those that the search takes, then one less of each. A
/// search that does not end within `most` is asked for with those.
fn exact(start: CellID, goal: CellID, under: &Under, most: Rooms, random: &mut Random, sink: Sink) {
    let Went {
        taken,
        expansions,
        end,
    } = reading::went(&endless(start, goal, under), most);
    let exact = Search::within(start, goal, under, taken);
    sink(exact.ask(random));
    for limit in [expansions, expansions.saturating_sub(1)] {
        sink(exact.limited(limit).ask(random));
    }
    for less in [rooms(1, 0, 0), rooms(0, 1, 0), rooms(0, 0, 1)] {
        let less = rooms(
            taken.known.saturating_sub(less.known).max(1),
            taken.waiting.saturating_sub(less.waiting).max(1),
            taken.output.saturating_sub(less.output),
        );
        sink(Search::within(start, goal, under, less).ask(random));
    }
    // Where no room is what ends it, larger rooms change nothing.
    if !matches!(end, Err(Stop::Other(refusal)) if refusal.room != 0) {
        let more = rooms(taken.known + 1, taken.waiting + 1, taken.output + 1);
        sink(Search::within(start, goal, under, more).ask(random));
    }
}

/// The same and more of each: pairs of rooms, other limits, lengths one byte off and more.
fn thorough(
    start: CellID,
    goal: CellID,
    under: &Under,
    most: Rooms,
    random: &mut Random,
    sink: Sink,
) {
    exact(start, goal, under, most, random, sink);
    let went = reading::went(&endless(start, goal, under), most);
    let (taken, expansions) = (went.taken, went.expansions);
    for less in [
        rooms(1, 1, 0),
        rooms(1, 0, 1),
        rooms(0, 1, 1),
        rooms(1, 1, 1),
        rooms(2, 0, 0),
        rooms(0, 2, 0),
    ] {
        let less = rooms(
            taken.known.saturating_sub(less.known).max(1),
            taken.waiting.saturating_sub(less.waiting).max(1),
            taken.output.saturating_sub(less.output),
        );
        sink(Search::within(start, goal, under, less).ask(random));
    }
    let exact = Search::within(start, goal, under, taken);
    for limit in [
        0,
        1,
        2,
        expansions + 1,
        expansions / 2,
        USUAL_LIMIT,
        (1 << 32) + expansions.saturating_sub(1),
        1 << 63,
        u64::MAX - 1,
        u64::MAX,
    ] {
        sink(exact.limited(limit).ask(random));
    }
    for off in [1, 8, 15, 16, 17, 31, 32, 43, 44, 64, 100] {
        let mut search = exact.clone();
        search.known_workspace += off;
        sink(search.ask(random));
        search.waiting_workspace += off;
        search.output += off;
        sink(search.ask(random));
        let mut search = exact.clone();
        search.output = search.output.saturating_sub(off);
        sink(search.ask(random));
        let mut search = exact.clone();
        search.known_workspace = search.known_workspace.saturating_sub(off);
        sink(search.ask(random));
        let mut search = exact.clone();
        search.waiting_workspace = search.waiting_workspace.saturating_sub(off);
        sink(search.ask(random));
    }
}

/// No layer at all.
fn nothing(rule: u32) -> Under {
    laid(&[], 0, rule)
}

/// A layer that blocks these cells.
fn blocking(cells: &[CellID], rule: u32) -> Under {
    under(cells.iter().map(|&cell| (cell, 1)).collect(), 0, rule)
}

// ---- open maps

/// The known points of the specification and others as near: both rules, all limits.
fn points(random: &mut Random, sink: Sink) {
    let start = at(0, 0, [0, 0, 0], 0);
    for point in [[2, 2, 0], [3, 1, 1], [1, 1, 1], [2, 0, 0], [4, 4, 4]] {
        let goal = at(0, 0, point, 0);
        for rule in RULES {
            thorough(start, goal, &nothing(rule), SMALL, random, sink);
            thorough(goal, start, &nothing(rule), SMALL, random, sink);
            for limit in 0..=8 {
                let search = Search::within(start, goal, &nothing(rule), SMALL);
                sink(search.limited(limit).ask(random));
            }
        }
    }
}

/// Every goal near a start, both parities.
fn near(random: &mut Random, sink: Sink) {
    let most = rooms(2000, 2000, 2000);
    for (frame, start, rest) in [
        (0, [0, 0, 0], 0),
        (1, [1, 1, 1], 0),
        (7, [-3, 1, -1], 0x0010),
    ] {
        for x in -5..=5 {
            for y in -5..=5 {
                for z in -5..=5 {
                    if x & 1 == y & 1 && y & 1 == z & 1 {
                        let (start, goal) = (at(frame, 2, start, rest), at(frame, 2, [x, y, z], 0));
                        let rule = random.below(2) as u32;
                        exact(start, goal, &nothing(rule), most, random, sink);
                    }
                }
            }
        }
    }
}

/// Goals farther away, and the same far from the middle.
fn open(random: &mut Random, sink: Sink) {
    let most = rooms(20_000, 20_000, 20_000);
    for by in [
        [10, 0, 0],
        [0, -20, 0],
        [40, 0, 0],
        [0, 0, 300],
        [12, 12, 12],
        [-30, 30, 30],
        [100, 100, -100],
        [7, 5, 3],
        [-9, 3, 1],
        [14, 2, 6],
        [21, 13, -7],
    ] {
        for start in [[0, 0, 0], [1_000_000_001, -1_999_999_999, 12_345]] {
            let goal = [0, 1, 2].map(|axis| start[axis] + by[axis]);
            let (start, goal) = (at(200, 100, start, 0), at(200, 100, goal, 0));
            exact(start, goal, &nothing(0), most, random, sink);
        }
    }
}

// ---- walls

/// The points of the lattice that are at `from` to `to` from a centre, by the largest difference.
fn hollow(center: CellID, from: i64, to: i64) -> Vec<CellID> {
    let middle = [center.x(), center.y(), center.z()].map(i64::from);
    let mut cells = Vec::new();
    for x in -to..=to {
        for y in -to..=to {
            for z in -to..=to {
                let [x, y, z] = [x + middle[0], y + middle[1], z + middle[2]];
                let off = [x - middle[0], y - middle[1], z - middle[2]];
                let far = off.map(i64::abs).into_iter().max().unwrap();
                if far >= from && x & 1 == y & 1 && y & 1 == z & 1 {
                    cells.push(at(center.frame(), center.resolution(), [x, y, z], 0));
                }
            }
        }
    }
    cells
}

/// A wall around all that is within `r` of a centre: no step is longer than 2.
pub fn walls(center: CellID, r: i64) -> Vec<CellID> {
    hollow(center, r + 1, r + 2)
}

/// So many of the cells taken out.
pub fn gated(mut cells: Vec<CellID>, gates: usize, random: &mut Random) -> Vec<CellID> {
    for _ in 0..gates.min(cells.len()) {
        let place = random.below(cells.len() as u64) as usize;
        cells.swap_remove(place);
    }
    cells
}

/// Boxes around the start and around the goal, shut and with gates.
fn boxes(random: &mut Random, sink: Sink) {
    let most = rooms(2000, 2000, 2000);
    let start = at(3, 9, [-3, 1, -1], 0);
    for r in 0..=7 {
        let wall = walls(start, r);
        assert!(wall.len() <= 1024);
        let inside = at(3, 9, [-3 + r / 2 * 2, 1, -1], 0);
        let beside = at(3, 9, [-3 + r / 2 * 2 + 6, 1, 1], 0);
        for goal in [inside, beside] {
            for rule in RULES {
                let under = blocking(&wall, rule);
                match r {
                    0..=2 => thorough(start, goal, &under, most, random, sink),
                    _ => exact(start, goal, &under, most, random, sink),
                }
            }
            for gates in [1, 2, 5, 20, 60] {
                let under = blocking(&gated(wall.clone(), gates, random), 1);
                exact(start, goal, &under, most, random, sink);
                exact(goal, start, &under, most, random, sink);
            }
        }
        // A flagged start in its box: its plain twin is inside too.
        let flagged = turned(start, 20);
        exact(flagged, beside, &blocking(&wall, 1), most, random, sink);
        exact(start, flagged, &blocking(&wall, 1), most, random, sink);
        exact(flagged, start, &blocking(&wall, 1), most, random, sink);
    }
    // All 14 around the start, and all but one.
    for start in [start, at(0, 0, [0, 0, 0], 0x0800)] {
        let around = neighbors(start);
        let goal = at(start.frame(), start.resolution(), [5, 5, 5], 0);
        thorough(start, goal, &blocking(&around, 1), most, random, sink);
        for open in 0..14 {
            let mut wall = around.clone();
            let gate = wall.remove(open);
            exact(start, goal, &blocking(&wall, 1), most, random, sink);
            exact(start, gate, &blocking(&wall, 1), most, random, sink);
        }
    }
}

/// Walls across the way, with gates in many places.
fn planes(random: &mut Random, sink: Sink) {
    let most = rooms(8000, 8000, 8000);
    let start = at(0, 5, [0, 0, 0], 0);
    for axis in 0..3 {
        for width in [2, 4, 9] {
            let mut wall = Vec::new();
            for off in 4..=5 {
                for one in -width..=width {
                    for other in -width..=width {
                        let mut point = [one, one, one];
                        point[axis] = off;
                        point[(axis + 1) % 3] = other;
                        let [x, y, z] = point;
                        if x & 1 == y & 1 && y & 1 == z & 1 {
                            wall.push(at(0, 5, point, 0));
                        }
                    }
                }
            }
            let mut goal = [0; 3];
            goal[axis] = 10;
            let goal = at(0, 5, goal, 0);
            for gates in [0, 1, 3, 10] {
                let under = blocking(&gated(wall.clone(), gates, random), 1);
                exact(start, goal, &under, most, random, sink);
                exact(goal, start, &under, most, random, sink);
            }
        }
    }
}

// ---- layers and rules

/// What blocks: bit 0 of the flags of the whole cell, and under the avoiding rule alone. The start
/// may be blocked, the goal may not.
fn flags(random: &mut Random, sink: Sink) {
    let (start, goal) = (at(1, 1, [0, 0, 0], 0), at(1, 1, [2, 2, 0], 0));
    let (on, other) = (at(1, 1, [1, 1, 1], 0), at(1, 1, [1, 1, -1], 0));
    for bits in (0..32)
        .map(|bit| 1 << bit)
        .chain([0, 3, u32::MAX, u32::MAX - 1])
    {
        for cells in [vec![start], vec![goal], vec![on], vec![on, other]] {
            for rule in RULES {
                let records = cells.iter().map(|&cell| (cell, bits)).collect();
                exact(start, goal, &under(records, 0, rule), SMALL, random, sink);
            }
        }
    }
    // The record of another cell of the same place blocks nothing.
    for bit in 0..128 {
        for cell in [start, on, goal] {
            let under = blocking(&[turned(cell, bit)], 1);
            exact(start, goal, &under, SMALL, random, sink);
        }
        let both = blocking(&[on, turned(on, bit)], 1);
        exact(start, goal, &both, SMALL, random, sink);
    }
    // Records behind those in use.
    for count in 0..=3 {
        let mut unused = blocking(&[on, other, goal], 1);
        unused.count = count;
        exact(start, goal, &unused, SMALL, random, sink);
    }
}

/// Lengths of the table, counts, and records out of order; also between equal ends.
fn tables(random: &mut Random, sink: Sink) {
    let (start, goal) = (at(3, 9, [-3, 1, -1], 0), at(3, 9, [1, 1, 3], 0));
    let mut many: Vec<(CellID, u32)> = walls(start, 8).into_iter().map(|cell| (cell, 1)).collect();
    many.sort_by_key(|record| record.0);
    many.truncate(1025);
    assert_eq!(many.len(), 1025);
    let mut ask = |start, goal, under: &Under| {
        let search = Search::within(start, goal, under, SMALL);
        for null in [false, true] {
            let request = search.ask(random);
            sink(Request { null, ..request });
        }
    };
    for rule in [0, 1, 2] {
        for records in [0, 1, 2, 3, 1023, 1024, 1025] {
            let whole = laid(&many[..records], 0, rule);
            for off in [-20, -19, -1, 0, 1, 19, 20, 21] {
                let length = (whole.table.len() as i64 + off).max(0) as usize;
                let mut under = whole.clone();
                under.table.resize(length, 0xFF);
                for count in [0, 1, records.saturating_sub(1), records, records + 1, 1024] {
                    under.count = count as u64;
                    ask(start, goal, &under);
                    ask(start, start, &under);
                }
                for count in [1 << 31, 1 << 32, 1 << 63, u64::MAX, (1 << 32) + 1] {
                    under.count = count;
                    ask(start, goal, &under);
                }
            }
        }
        for records in [2, 3, 5, 64, 1024] {
            for place in [1, 2, records / 2, records - 1] {
                if place < records {
                    let mut exchanged = many[..records].to_vec();
                    exchanged.swap(place - 1, place);
                    let mut twice = many[..records].to_vec();
                    twice[place].0 = twice[place - 1].0;
                    for records in [exchanged, twice] {
                        let mut under = laid(&records, 0, rule);
                        ask(start, goal, &under);
                        ask(start, start, &under);
                        // The same behind the records in use.
                        under.count = place as u64;
                        ask(start, goal, &under);
                    }
                }
            }
        }
    }
}

fn rules(random: &mut Random, sink: Sink) {
    let (start, goal) = (at(0, 0, [0, 0, 0], 0), at(0, 0, [2, 2, 0], 0));
    for rule in RULES.into_iter().chain(NO_RULES) {
        for to in [goal, start, at(0, 0, [0, 1, 0], 0)] {
            for cells in [vec![], vec![at(0, 0, [1, 1, 1], 0)], vec![goal]] {
                let search = Search::within(start, to, &blocking(&cells, rule), SMALL);
                sink(search.ask(random));
                sink(search.limited(0).ask(random));
            }
        }
    }
}

/// Every set of faults: the first in the specification's order is what is refused.
fn faults(random: &mut Random, sink: Sink) {
    let (start, goal) = (at(0, 0, [0, 0, 0], 0), at(0, 0, [2, 2, 0], 0));
    let exact = reading::went(&endless(start, goal, &nothing(1)), SMALL).taken;
    for which in 0..1u32 << 13 {
        let has = |place: u32| which >> place & 1 == 1;
        let mut search = Search::within(start, goal, &nothing(1), exact);
        search.limit = Some(3);
        if has(12) {
            search.goal = at(0, 0, [MOST, LEAST + 1, 1], 0).to_bytes().to_vec();
            search.start = at(0, 0, [LEAST + 1, 1, 1], 0).to_bytes().to_vec();
        }
        if has(0) {
            search.goal[7] = 1;
        }
        if has(1) {
            search.start[3] ^= 1;
        }
        if has(2) {
            search.goal = search.start.clone();
        }
        if has(3) {
            search.output = 15;
        }
        if has(4) {
            search.limit = Some(0);
        }
        if has(5) {
            search.under.rule = 2;
        }
        if has(6) {
            search.under.count = 1;
        }
        if has(7) {
            search.goal.pop();
        }
        if has(8) {
            search.start.push(0);
        }
        if has(9) {
            search.waiting_workspace -= 1;
        }
        if has(10) {
            search.known_workspace -= 1;
        }
        if has(11) {
            search.waiting = 0;
        }
        sink(search.ask(random));
    }
}

// ---- ends

/// Flagged and foreign ends, mixed ones, equal ones, and the same coordinates with other bits.
fn ends(random: &mut Random, sink: Sink) {
    let points = [
        [0, 0, 0],
        [2, 2, 0],
        [1, 1, 1],
        [-3, 1, -1],
        [0, 1, 0],
        [1, 0, 0],
        [-1, -1, -2],
        [MOST, LEAST, 0],
    ];
    let labels = [
        (0, 0, 0),
        (0, 0, 0x0010),
        (0, 0, 0x0001),
        (0, 0, 0x8000),
        (1, 0, 0),
        (0, 255, 0),
        (200, 100, 0xFFFF),
    ];
    for from in points {
        for to in points {
            for one in labels {
                for other in labels {
                    let (start, goal) = (
                        at(one.0, one.1, from, one.2),
                        at(other.0, other.1, to, other.2),
                    );
                    let rule = random.below(2) as u32;
                    let within = random.one_of(&[rooms(40, 40, 40), SMALL]);
                    let search = Search::within(start, goal, &blocking(&[start], rule), within);
                    sink(search.ask(random));
                    for limit in [0, 1, 2, 5] {
                        sink(search.limited(limit).ask(random));
                    }
                }
            }
        }
    }
    // Equal ends need one cell of output and nothing else.
    for cell in [
        at(0, 0, [0, 0, 0], 0),
        at(1, 2, [0, 1, 0], 0),
        at(3, 4, [MOST, LEAST, 3], 0xFFFF),
    ] {
        for rule in [0, 1, 2] {
            for under in [nothing(rule), blocking(&[cell], rule)] {
                for output in [0, 15, 16, 17, 32] {
                    let mut search = Search::within(cell, cell, &under, rooms(1, 1, 1));
                    search.output = output;
                    sink(search.ask(random));
                    sink(search.limited(0).ask(random));
                    sink(search.limited(u64::MAX).ask(random));
                }
            }
        }
    }
}

/// Lengths of the two ends and of the output.
fn lengths(random: &mut Random, sink: Sink) {
    let lent = [0, 1, 8, 15, 16, 17, 32, 48];
    for one in lent {
        for other in lent {
            for null in [false, true] {
                for output in [0, 16, 48] {
                    let mut search = Search::within(
                        at(0, 0, [0, 0, 0], 0),
                        at(0, 0, [2, 2, 0], 0),
                        &nothing(1),
                        SMALL,
                    );
                    search.start.resize(one, 0);
                    search.goal.resize(other, 0);
                    search.output = output;
                    let request = search.ask(random);
                    sink(Request { null, ..request });
                }
            }
        }
    }
}

// ---- rooms

/// Every number of small rooms.
fn small_rooms(random: &mut Random, sink: Sink) {
    let start = at(0, 0, [0, 0, 0], 0);
    for goal in [[2, 2, 0], [3, 1, 1], [4, 2, 0], [1, 1, 1]] {
        let goal = at(0, 0, goal, 0);
        for known in 1..=32 {
            for waiting in 1..=28 {
                for output in [0, 2, 3, 4] {
                    let within = rooms(known, waiting, output);
                    sink(Search::within(start, goal, &nothing(0), within).ask(random));
                }
            }
        }
    }
}

/// What may be named and what not, and workspaces around what that needs.
fn named(random: &mut Random, sink: Sink) {
    let (start, goal) = (at(0, 0, [0, 0, 0], 0), at(0, 0, [2, 2, 0], 0));
    let whole = Search::within(start, goal, &nothing(1), rooms(40, 40, 3));
    // 44 times u64::MAX / 44 + 1 is small modulo 2^64, and 32 times 2^59 is 0.
    let odd = [
        0,
        1,
        2,
        39,
        40,
        41,
        MOST_ROOM - 1,
        MOST_ROOM,
        MOST_ROOM + 1,
        1 << 31,
        1 << 32,
        (1 << 32) + 40,
        1 << 62,
        u64::MAX / 44 + 1,
        1 << 63,
        u64::MAX,
        1 << 59,
    ];
    for known in odd {
        for waiting in odd {
            for to in [start, goal] {
                let mut search = whole.clone();
                search.goal = to.to_bytes().to_vec();
                (search.known, search.waiting) = (known, waiting);
                sink(search.ask(random));
            }
        }
    }
    for (known, waiting) in [(1, 1), (2, 1), (1, 2), (40, 40), (30, 27)] {
        let exact = Search::within(start, goal, &nothing(0), rooms(known, waiting, 3));
        for off in -70..=70 {
            let near = |length: usize| (length as i64 + off).max(0) as usize;
            let mut search = exact.clone();
            search.known_workspace = near(search.known_workspace);
            sink(search.ask(random));
            search.waiting_workspace = near(search.waiting_workspace);
            sink(search.ask(random));
            search.known_workspace = exact.known_workspace;
            sink(search.ask(random));
        }
        for (known_workspace, waiting_workspace) in [(0, 0), (0, 32), (108, 0)] {
            for null in [false, true] {
                let request = Search {
                    known_workspace,
                    waiting_workspace,
                    ..exact.clone()
                }
                .ask(random);
                sink(Request { null, ..request });
            }
        }
    }
    // The largest rooms, and workspaces around them.
    let largest = MOST_ROOM as usize;
    for (known, waiting, known_off, waiting_off) in [
        (largest, largest, 0, 0),
        (largest, 40, 0, 0),
        (40, largest, 0, 0),
        (largest, largest, -1, 0),
        (largest, largest, 0, -1),
        (largest, 40, 4096, 4096),
        (largest + 1, 40, 0, 0),
        (40, largest + 1, 0, 0),
    ] {
        let mut search = Search::within(start, goal, &nothing(1), rooms(known, waiting, 3));
        let near = |length: usize, off: i64| (length as i64 + off) as usize;
        search.known_workspace = near(search.known_workspace, known_off);
        search.waiting_workspace = near(search.waiting_workspace, waiting_off);
        sink(search.ask(random));
    }
}

/// Workspaces that hold one byte throughout, or what an earlier search could have left.
fn contents(random: &mut Random, sink: Sink) {
    let start = at(3, 9, [-3, 1, -1], 0);
    for goal in [[3, 5, 1], [-2, 0, 0], [9, 1, 1]] {
        let goal = at(3, 9, goal, 0);
        for under in [nothing(1), blocking(&walls(start, 3), 1)] {
            let taken = reading::went(&endless(start, goal, &under), SMALL).taken;
            let search = Search::within(start, goal, &under, taken);
            for byte in [0, 1, 2, 0x7F, 0x80, 0xF0, 0xFF] {
                sink(search.filled(|length| vec![byte; length]));
            }
            // Words that are numbers of records, and cells that are there to be found.
            for word in [1, 2, taken.known as u32, u32::MAX] {
                sink(search.filled(|length| {
                    let mut bytes = word.to_le_bytes().repeat(length / 4 + 1);
                    bytes.truncate(length);
                    bytes
                }));
            }
            for cell in [start, goal] {
                let mut words = cell.to_bytes();
                for reversed in [false, true] {
                    if reversed {
                        words.reverse();
                    }
                    for off in 0..4 {
                        sink(search.filled(|length| {
                            let mut bytes = words.repeat(length / 16 + 2);
                            bytes.rotate_left(4 * off);
                            bytes.truncate(length);
                            bytes
                        }));
                    }
                }
            }
            sink(search.ask(random));
        }
    }
}

// ---- the edges of the lattice

/// Starts and goals on and near the edges: the overflow is met at the start, some steps away, or
/// not at all, since a goal on the edge is not expanded.
fn edges(random: &mut Random, sink: Sink) {
    for axis in 0..3 {
        for off in 0..=5 {
            for number in [MOST - off, LEAST + off] {
                let mut point = [number & 1; 3];
                point[axis] = number;
                let edge = at(2, 3, point, 0);
                let inward = -number.signum();
                for steps in [1, 2, 3, 6] {
                    for aside in [0, 2] {
                        let mut to = point.map(|number| number + aside);
                        to[axis] = number + 2 * inward * steps;
                        let plain = at(2, 3, to, 0);
                        let across = at(2, 3, to.map(|number| number + inward), 0);
                        for inner in [plain, across] {
                            exact(edge, inner, &nothing(0), SMALL, random, sink);
                            exact(inner, edge, &nothing(1), SMALL, random, sink);
                        }
                    }
                }
                let mut twin = point;
                twin[(axis + 1) % 3] += 2;
                let twin = at(2, 3, twin, 0);
                exact(edge, twin, &nothing(0), SMALL, random, sink);
                exact(turned(edge, 21), twin, &nothing(1), SMALL, random, sink);
                exact(edge, turned(edge, 30), &nothing(1), SMALL, random, sink);
                exact(edge, edge, &nothing(1), SMALL, random, sink);
            }
        }
    }
    // The corners.
    let near = [MOST, MOST - 1, MOST - 2, LEAST, LEAST + 1, LEAST + 2];
    for x in near {
        for y in near {
            for z in near {
                if x & 1 == y & 1 && y & 1 == z & 1 {
                    let corner = at(0, 0, [x, y, z], 0);
                    let inner = [x, y, z].map(|number| number - 3 * number.signum());
                    let inner = at(0, 0, inner, 0);
                    exact(corner, inner, &nothing(0), SMALL, random, sink);
                    exact(inner, corner, &nothing(0), SMALL, random, sink);
                }
            }
        }
    }
}

/// Differences that just fit and just do not, at the start or some steps away: start less goal is
/// what must fit. Known room comes before the overflow, waiting room behind it.
fn far(random: &mut Random, sink: Sink) {
    let most = rooms(60, 60, 60);
    for axis in 0..3 {
        for difference in (MOST - 6..=MOST + 3).chain(LEAST - 3..=LEAST + 6) {
            for high in [MOST - 3, MOST - 8, 1_073_741_824, 5] {
                // The start is above the goal by the difference, or below it.
                let (from, to) = match difference > 0 {
                    true => (high, high - difference),
                    false => (high + difference, high),
                };
                if !(LEAST..=MOST).contains(&from) || !(LEAST..=MOST).contains(&to) {
                    continue;
                }
                let point = |number: i64, aside: i64| {
                    let mut point = [aside + (number & 1); 3];
                    point[axis] = number;
                    at(0, 0, point, 0)
                };
                for aside in [0, 200] {
                    let (start, goal) = (point(from, 0), point(to, aside));
                    exact(start, goal, &nothing(0), most, random, sink);
                    let around = blocking(&neighbors(start), 1);
                    exact(start, goal, &around, most, random, sink);
                    for known in 1..=16 {
                        let within = rooms(known, 1 + random.below(16) as usize, 1);
                        sink(Search::within(start, goal, &nothing(0), within).ask(random));
                    }
                    for waiting in 1..=15 {
                        let within = rooms(60, waiting, 1);
                        sink(Search::within(start, goal, &nothing(0), within).ask(random));
                    }
                    for limit in 0..=2 {
                        let search = Search::within(start, goal, &nothing(0), most);
                        sink(search.limited(limit).ask(random));
                    }
                }
            }
        }
    }
}

/// A search that its limit ends, with the rooms that it takes until then and one less of each: the
/// order in which cells are expanded shows in how much room they take.
pub fn cut_short(
    start: CellID,
    goal: CellID,
    under: &Under,
    limit: u64,
    random: &mut Random,
    sink: Sink,
) {
    let plan = Plan {
        limit,
        ..endless(start, goal, under)
    };
    let taken = reading::went(&plan, rooms(2000, 2000, 300)).taken;
    for (known, waiting) in [(0, 0), (1, 0), (0, 1)] {
        let within = rooms(
            taken.known.saturating_sub(known).max(1),
            taken.waiting.saturating_sub(waiting).max(1),
            taken.output,
        );
        let search = Search::within(start, goal, under, within);
        sink(search.limited(limit).ask(random));
    }
}

/// A goal so far away that the squares of differences and their sums are rounded. Where two of the
/// differences are equal, that decides between cells that are equally far.
pub fn far_goal(start: CellID, random: &mut Random) -> CellID {
    let far = [(); 2].map(|()| random.between(100_000_000, 2_000_000_000) & !1);
    let by = random.one_of(&[[0, 0, 0], [0, 0, 1], [0, 1, 0], [1, 0, 0]]);
    let from = [start.x(), start.y(), start.z()].map(i64::from);
    // Towards the middle, so that it is on the lattice.
    let to = [0, 1, 2].map(|axis| match from[axis] < 0 {
        true => from[axis] + far[by[axis]],
        false => from[axis] - far[by[axis]],
    });
    at(start.frame(), start.resolution(), to, 0)
}

/// A layer that blocks about a third of the cells near a start, so that no two ways are alike.
pub fn rubble(start: CellID, random: &mut Random) -> Under {
    let mut cells = hollow(start, 1, 5);
    cells.retain(|_| random.below(3) == 0);
    blocking(&cells, 1)
}

fn distant(random: &mut Random, sink: Sink) {
    for _ in 0..1000 {
        let odd = random.below(2) as i64;
        let point = [(); 3].map(|()| random.between(-1_000_000, 1_000_000) & !1 | odd);
        let start = at(4, 4, point, 0);
        let goal = far_goal(start, random);
        let limit = 2 + random.below(60);
        let under = rubble(start, random);
        cut_short(start, goal, &under, limit, random, sink);
    }
}

// ---- large searches

/// Searches that fill the largest rooms; under the usual limit a goal that is never reached is
/// NoRoom. Walls of 1,024 cells, and long routes.
fn large(random: &mut Random, sink: Sink) {
    let largest = MOST_ROOM as usize;
    let all = rooms(largest, largest, 300);
    let start = at(0, 0, [0, 0, 0], 0);
    let never = at(0, 0, [4, 4, 4], 0x0010);
    let went = reading::went(&endless(start, never, &nothing(0)), all);
    for waiting in [went.taken.waiting, went.taken.waiting - 1] {
        let within = rooms(largest, waiting, 300);
        sink(Search::within(start, never, &nothing(1), within).ask(random));
    }
    let search = Search::within(start, never, &nothing(0), all);
    sink(search.ask(random));
    sink(search.limited(went.expansions - 1).ask(random));

    let mut wall = walls(start, 7);
    for cell in hollow(start, 10, 10) {
        if wall.len() < 1024 {
            wall.push(cell);
        }
    }
    let goal = at(0, 0, [24, 2, 0], 0);
    for gates in [0, 4] {
        let under = blocking(&gated(wall.clone(), gates, random), 1);
        exact(start, goal, &under, all, random, sink);
    }

    let long = rooms(largest, largest, largest);
    for to in [[7_000, 0, 0], [4_001, 4_001, -4_001]] {
        let goal = at(0, 0, to, 0);
        let taken = reading::went(&endless(start, goal, &nothing(0)), long).taken;
        let mut search = Search::within(start, goal, &nothing(0), taken);
        sink(search.ask(random));
        search.output -= 1;
        sink(search.ask(random));
    }
}
