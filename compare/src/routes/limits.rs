//! The inputs that always come: every length, count and rule with one off on each side, every order
//! of faults, every bit of short routes, the edges of the lattice, blocked cells, long routes, and
//! the choice between good and bad lists.

#![allow(deprecated)]

use super::calls::{Claim, Request, Under};
use super::checker::neighbors;
use crate::inputs::{cell, odd_doubles};
use crate::layers::calls::Of;
use crate::layers::limits::table;
use crate::random::Random;
use oracle::id::CellID;
use std::collections::BTreeSet;

type Sink<'a> = crate::side_by_side::Sink<'a, Request>;

pub const RULES: [u32; 2] = [0, 1];

/// Rules that are none.
const NO_RULES: [u32; 7] = [2, 3, 255, 256, 257, 1 << 31, u32::MAX];

pub fn at(frame: u8, resolution: u8, point: [i64; 3], rest: u16) -> CellID {
    CellID::from_bytes(cell(frame, resolution, point, rest))
}

/// The cell with one bit turned.
pub fn turned(cell: CellID, bit: u64) -> CellID {
    CellID::from_bytes((cell.raw_value() ^ 1 << bit).to_be_bytes())
}

/// So many cells from one on, each a neighbour of the one before.
pub fn walk(start: CellID, cells: usize, random: &mut Random) -> Vec<CellID> {
    let mut route = vec![start];
    while route.len() < cells {
        match &neighbors(route[route.len() - 1])[..] {
            [] => break,
            near => route.push(random.one_of(near)),
        }
    }
    route.truncate(cells);
    route
}

/// A layer with so much room behind its records, which stand in the order of their cells.
pub fn under(mut records: Vec<(CellID, u32)>, room: usize, rule: u32) -> Under {
    records.sort_by_key(|record| record.0);
    records.dedup_by_key(|record| record.0);
    laid(&records, room, rule)
}

/// The records as they come.
pub fn laid(records: &[(CellID, u32)], room: usize, rule: u32) -> Under {
    let raw: Vec<(u128, u64)> = records
        .iter()
        .map(|&(cell, flags)| (cell.raw_value(), flags.into()))
        .collect();
    Under {
        table: table(Of::Flags, &raw, 20 * raw.len() + room),
        count: raw.len() as u64,
        rule,
    }
}

/// The records of a layer that blocks none of the cells, but so many of those around them.
pub fn beside(route: &[CellID], most: usize) -> Vec<(CellID, u32)> {
    let on: BTreeSet<CellID> = route.iter().copied().collect();
    let mut off = BTreeSet::new();
    for &cell in route {
        for near in neighbors(cell) {
            if off.len() < most && !on.contains(&near) {
                off.insert(near);
            }
        }
        if off.len() == most {
            break;
        }
    }
    off.into_iter().map(|cell| (cell, 1)).collect()
}

/// Starts of short routes: plain and not, in the middle and near the edge.
fn starts() -> [CellID; 4] {
    [
        at(0, 0, [0, 0, 0], 0),
        at(3, 9, [-3, 1, -1], 0),
        at(129, 255, [8, 6, -4], 0xA5C1),
        at(255, 128, [2147483643, -2147483645, 2147483645], 0),
    ]
}

pub fn limits(sink: Sink) {
    lengths(sink);
    tables(sink);
    rules(sink);
    orders(sink);
    bits(sink);
    costs(sink);
    edges(sink);
    places(sink);
    blocked(sink);
    returns(sink);
    long(sink);
    choices(sink);
}

/// Lengths of the list and of the two cells.
fn lengths(sink: Sink) {
    let route = walk(starts()[1], 4, &mut Random::new(1));
    let good = Claim::of(&route);
    let bytes = good.route.clone();
    for rule in RULES {
        let under = under(beside(&route, 5), 7, rule);
        for null in [false, true] {
            for length in 0..=64 {
                let claim = Claim {
                    route: bytes[..length].to_vec(),
                    ..good.clone()
                };
                sink(Request {
                    null,
                    ..claim.judged(&under)
                });
            }
            for length in [0, 1, 8, 15, 16, 17, 31, 32, 48] {
                let mut claims = [good.clone(), good.clone(), good.clone()];
                claims[0].start = bytes[..length].to_vec();
                claims[1].goal = bytes[64 - length..].to_vec();
                claims[2].start = bytes[..length].to_vec();
                claims[2].goal = bytes[64 - length..].to_vec();
                for claim in claims {
                    sink(Request {
                        null,
                        ..claim.judged(&under)
                    });
                }
            }
        }
    }
}

/// Lengths of the table, counts, and records out of order.
fn tables(sink: Sink) {
    let route = walk(starts()[0], 3, &mut Random::new(2));
    let good = Claim::of(&route);
    let many = beside(&walk(starts()[1], 400, &mut Random::new(3)), 1025);
    assert_eq!(many.len(), 1025);
    for rule in RULES {
        for records in [0, 1, 2, 3, 1023, 1024, 1025] {
            let whole = laid(&many[..records], 0, rule);
            for off in [-20, -19, -1, 0, 1, 19, 20, 21] {
                let length = (whole.table.len() as i64 + off).max(0) as usize;
                let mut under = whole.clone();
                under.table.resize(length, 0xFF);
                for null in [false, true] {
                    for count in [0, 1, records.saturating_sub(1), records, records + 1, 1024] {
                        under.count = count as u64;
                        sink(Request {
                            null,
                            ..good.judged(&under)
                        });
                    }
                    for count in [1 << 31, 1 << 32, 1 << 63, u64::MAX, (1 << 32) + 1] {
                        under.count = count;
                        sink(Request {
                            null,
                            ..good.judged(&under)
                        });
                    }
                    if length > 0 {
                        break;
                    }
                }
            }
        }
        for records in [2, 3, 5, 64, 1024] {
            for place in [1, 2, records / 2, records - 1] {
                if place < records {
                    let mut exchanged = many[..records].to_vec();
                    exchanged.swap(place - 1, place);
                    sink(good.judged(&laid(&exchanged, 0, rule)));
                    let mut twice = many[..records].to_vec();
                    twice[place].0 = twice[place - 1].0;
                    sink(good.judged(&laid(&twice, 0, rule)));
                    // The same behind the records in use.
                    let mut unused = laid(&twice, 0, rule);
                    unused.count = place as u64;
                    sink(good.judged(&unused));
                }
            }
        }
    }
}

fn rules(sink: Sink) {
    let route = walk(starts()[1], 3, &mut Random::new(4));
    let blocked = vec![(route[1], 1)];
    for rule in RULES.into_iter().chain(NO_RULES) {
        for cells in 0..=3 {
            let claim = Claim::of(&route[..cells]);
            sink(claim.judged(&under(beside(&route, 9), 0, rule)));
            sink(claim.judged(&under(blocked.clone(), 0, rule)));
            sink(claim.judged(&Under {
                rule,
                ..Under::default()
            }));
        }
    }
}

/// Every set of faults at once: which one is named?
fn orders(sink: Sink) {
    let route = walk(starts()[1], 5, &mut Random::new(5));
    let good = Claim::of(&route);
    for faults in 0..1u32 << 12 {
        let has = |fault: u32| faults >> fault & 1 == 1;
        let mut claim = good.clone();
        let mut records = beside(&route, 6);
        if has(11) {
            records.push((route[3], 3));
        }
        if has(10) {
            records.push((route[1], 1));
        }
        let mut under = under(records, 3, 1);
        if has(9) {
            claim.route.copy_within(0..16, 32);
        }
        if has(8) {
            claim.route[47] ^= 1;
        }
        if has(7) {
            claim.goal[3] ^= 2;
        }
        if has(6) {
            claim.cost ^= 1;
        }
        if has(5) {
            claim.start[12] ^= 0x10;
        }
        if has(4) {
            claim.route.clear();
        }
        if has(3) {
            under.rule = 2;
        }
        if has(2) {
            under.count += 1;
        }
        match (has(1), has(0)) {
            (false, false) => {}
            (false, true) => claim.route.push(0),
            (true, false) => claim.start.truncate(15),
            (true, true) => claim.goal.push(0),
        }
        sink(claim.judged(&under));
    }
}

/// Every bit of short routes, of their ends and cost, of the layer, its count and the rule.
fn bits(sink: Sink) {
    let mut random = Random::new(6);
    for start in starts() {
        for cells in 1..=3 {
            let route = walk(start, cells, &mut random);
            let good = Claim::of(&route);
            let mut records = beside(&route, 2);
            records.push((route[cells - 1], 6));
            for rule in RULES {
                let under = under(records.clone(), 20, rule);
                sink(good.judged(&under));
                for bit in 0..128 {
                    for place in 0..cells {
                        let mut cells = route.clone();
                        cells[place] = turned(cells[place], bit);
                        // As the turned cells would be claimed, and as the others were.
                        sink(Claim::of(&cells).judged(&under));
                        sink(
                            Claim {
                                route: Claim::of(&cells).route,
                                ..good.clone()
                            }
                            .judged(&under),
                        );
                    }
                    let mut claim = good.clone();
                    claim.start = turned(route[0], bit).to_bytes().to_vec();
                    sink(claim.judged(&under));
                    let mut claim = good.clone();
                    claim.goal = turned(route[cells - 1], bit).to_bytes().to_vec();
                    sink(claim.judged(&under));
                }
                for bit in 0..64 {
                    let mut claim = good.clone();
                    claim.cost ^= 1 << bit;
                    sink(claim.judged(&under));
                    let mut other = under.clone();
                    other.count ^= 1 << bit;
                    sink(good.judged(&other));
                }
                for bit in 0..32 {
                    let mut other = under.clone();
                    other.rule ^= 1 << bit;
                    sink(good.judged(&other));
                }
                for bit in 0..8 * under.table.len() {
                    let mut other = under.clone();
                    other.table[bit / 8] ^= 1 << (bit % 8);
                    sink(good.judged(&other));
                }
            }
        }
    }
}

/// Claimed costs beside the right one, that are no numbers, or hardly.
fn costs(sink: Sink) {
    let mut random = Random::new(7);
    for start in starts() {
        for cells in [1, 2, 3, 7, 50, 1000] {
            let route = walk(start, cells, &mut random);
            let good = Claim::of(&route);
            let right = f64::from_bits(good.cost);
            let backwards: f64 = route
                .windows(2)
                .rev()
                .map(|step| f64::from_bits(Claim::of(step).cost))
                .sum();
            let mut claimed = odd_doubles();
            claimed.extend([right.next_up(), right.next_down(), -right, right + 2.0]);
            claimed.extend([backwards, 2.0, 3.0f64.sqrt(), cells as f64]);
            for cost in claimed {
                for rule in RULES {
                    let claim = Claim {
                        cost: cost.to_bits(),
                        ..good.clone()
                    };
                    sink(claim.judged(&under(beside(&route, 3), 0, rule)));
                }
            }
        }
    }
}

/// Two cells and their honest cost, whether or not the second is a neighbour.
fn step(from: [i64; 3], by: [i64; 3], sink: Sink) {
    let to = [0, 1, 2].map(|axis| i64::from((from[axis] as i32).wrapping_add(by[axis] as i32)));
    let route = [at(7, 5, from, 0), at(7, 5, to, 0)];
    let square = by.iter().map(|part| part * part).sum::<i64>();
    let claim = Claim {
        cost: (square as f64).sqrt().to_bits(),
        ..Claim::of(&route)
    };
    sink(claim.judged(&Under::default()));
}

/// Every point whose coordinates are of these, mixed ones too.
fn points(numbers: &[i64]) -> Vec<[i64; 3]> {
    let with = |x: i64, y: i64| numbers.iter().map(move |&z| [x, y, z]);
    let over = |x: i64| numbers.iter().flat_map(move |&y| with(x, y));
    numbers.iter().flat_map(|&x| over(x)).collect()
}

/// Steps at the edges, also those that would wrap.
fn edges(sink: Sink) {
    let (least, most) = (i64::from(i32::MIN), i64::from(i32::MAX));
    let numbers = [least, least + 1, least + 2, 0, 1, most - 2, most - 1, most];
    for from in points(&numbers) {
        for by in points(&[-2, -1, 0, 1, 2]) {
            step(from, by, sink);
        }
    }
}

/// Steps from and to every place near the middle, to the cell itself too.
fn places(sink: Sink) {
    for from in points(&[-2, -1, 0, 1]) {
        for by in points(&[-4, -3, -2, -1, 0, 1, 2, 3, 4]) {
            step(from, by, sink);
        }
    }
    // Beyond the two places, two cells of one parity that differ in a high bit, so that a square
    // of the difference that wrapped would be small.
    for power in 2..32 {
        for near in [-2, -1, 0, 1, 2] {
            for axis in 0..3 {
                for others in [0, 1] {
                    let mut by = [others; 3];
                    by[axis] = (1 << power) + near;
                    step([0, 0, 0], by, sink);
                }
            }
        }
    }
}

/// Flags of cells on the route and of cells that are nearly on it.
fn blocked(sink: Sink) {
    let kept = [0, 1, 2, 3, 4, 8, 15, 1 << 31, u32::MAX - 1, u32::MAX];
    let mut random = Random::new(8);
    for start in starts() {
        let route = walk(start, 5, &mut random);
        let claim = Claim::of(&route);
        for rule in RULES {
            for &cell in &route {
                for flags in kept {
                    let mut records = vec![(cell, flags)];
                    sink(claim.judged(&under(records.clone(), 0, rule)));
                    records.extend(beside(&route, 30));
                    let full = under(records, 0, rule);
                    sink(claim.judged(&full));
                }
                for bit in 0..128 {
                    sink(claim.judged(&under(vec![(turned(cell, bit), 1)], 0, rule)));
                }
            }
            for which in 0..1u32 << 5 {
                let chosen = |place: &usize| which >> place & 1 == 1;
                let records = (0..5).filter(chosen).map(|place| (route[place], 1));
                sink(claim.judged(&under(records.collect(), 0, rule)));
                // A record behind those in use blocks nothing.
                let records = (0..5).filter(chosen).map(|place| (route[place], 1));
                let mut unused = under(records.collect(), 0, rule);
                unused.count = unused.count.saturating_sub(1);
                sink(claim.judged(&unused));
            }
        }
    }
}

/// Cells that are entered again, the start and the goal among them, and steps to the same cell.
fn returns(sink: Sink) {
    let mut random = Random::new(9);
    for start in starts() {
        let a = start;
        let b = neighbors(a)[3];
        let c = neighbors(b)[9];
        let plain = neighbors(b)
            .into_iter()
            .find(|back| back.lattice_coord() == a.lattice_coord())
            .unwrap();
        let lists = [
            vec![a, a],
            vec![a, b, b],
            vec![a, b, a],
            vec![a, b, plain],
            vec![a, b, plain, b],
            vec![a, b, plain, b, plain],
            vec![a, b, c, b],
            vec![a, b, c, b, plain],
            vec![plain, b, plain, b, c],
        ];
        for route in lists {
            for rule in RULES {
                for &cell in &[a, b, c, plain] {
                    for flags in [0, 1, 2] {
                        let under = under(vec![(cell, flags)], 0, rule);
                        sink(Claim::of(&route).judged(&under));
                    }
                }
            }
        }
        // The goal is passed once, and reached at last.
        let mut round = walk(plain, 9, &mut random);
        round.extend(round.clone().into_iter().rev().skip(1));
        sink(Claim::of(&round).judged(&under(beside(&round, 50), 0, 1)));
        sink(Claim::of(&round[..9]).judged(&under(vec![(round[0], 1)], 0, 1)));
    }
}

/// Long routes: good ones, and one fault at the front, in the middle and at the end.
fn long(sink: Sink) {
    let mut random = Random::new(10);
    for (cells, layers) in [
        (10, &[0, 1, 10, 1024][..]),
        (33, &[0, 1, 10, 1024]),
        (100, &[0, 10, 1024]),
        (1000, &[0, 10, 1024]),
        (4096, &[10, 1024]),
        (60_000, &[1024]),
        (65_535, &[10]),
    ] {
        let route = walk(starts()[1], cells, &mut random);
        let good = Claim::of(&route);
        for &most in layers {
            let records = beside(&route, most);
            for rule in RULES {
                let open = under(records.clone(), 0, rule);
                sink(good.judged(&open));
                let mut claim = good.clone();
                claim.cost ^= 1;
                sink(claim.judged(&open));
                if cells > 5000 && rule == 0 {
                    continue;
                }
                for place in [1, cells / 2, cells - 1] {
                    let mut claim = good.clone();
                    claim.route[16 * place] ^= 0x40;
                    sink(claim.judged(&open));
                    let mut shut = records.clone();
                    shut.truncate(1023);
                    shut.push((route[place], 1));
                    sink(good.judged(&under(shut, 0, rule)));
                }
            }
        }
    }
}

/// Every pair of a good or bad sent list and a good or bad homing list, each with its own ends and
/// cost, and each with those of the other.
fn choices(sink: Sink) {
    let mut random = Random::new(11);
    let sent = walk(starts()[1], 6, &mut random);
    let homing = walk(starts()[0], 4, &mut random);
    let mut around = beside(&sent, 9);
    around.extend(beside(&homing, 9));
    around.retain(|(cell, _)| !sent.contains(cell) && !homing.contains(cell));
    let on = |cells: &[CellID]| {
        let mut records = around.clone();
        records.extend(cells.iter().map(|&cell| (cell, 1)));
        records
    };
    let layers = [
        on(&[]),
        on(&[sent[2]]),
        on(&[homing[2]]),
        on(&[sent[5], homing[3]]),
        on(&[sent[0], homing[0]]),
    ];
    let claims = |route: &[CellID]| {
        let good = Claim::of(route);
        let mut claims = vec![good.clone(); 10];
        claims[1].route.pop();
        claims[2].start.pop();
        claims[3].goal.push(0);
        claims[4].route.clear();
        claims[5].start[9] ^= 8;
        claims[6].route[16 + 15] ^= 1;
        claims[7].goal[13] ^= 1;
        claims[8].cost ^= 1 << 63;
        claims[9].route.drain(..16);
        claims
    };
    for records in layers {
        for rule in [0, 1, 2] {
            let open = under(records.clone(), 6, rule);
            let mut shut = open.clone();
            shut.count += 1;
            for under in [open, shut] {
                for one in claims(&sent) {
                    for other in claims(&homing) {
                        for null in [false, true] {
                            let lend = |request| Request { null, ..request };
                            sink(lend(one.or(&other, &under)));
                            sink(lend(other.or(&one, &under)));
                            sink(lend(one.or(&one, &under)));
                        }
                        let exchanged = |cost: bool, ends: bool| {
                            let (mut one, mut other) = (one.clone(), other.clone());
                            if cost {
                                std::mem::swap(&mut one.cost, &mut other.cost);
                            }
                            if ends {
                                std::mem::swap(&mut one.start, &mut other.start);
                                std::mem::swap(&mut one.goal, &mut other.goal);
                            }
                            one.or(&other, &under)
                        };
                        for (cost, ends) in [(true, false), (false, true), (true, true)] {
                            sink(exchanged(cost, ends));
                        }
                    }
                }
            }
        }
    }
}
