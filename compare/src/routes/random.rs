//! Random routes: walks over the lattice under random layers, some of them damaged.

#![allow(deprecated)]

use super::calls::{Claim, Request, Under};
use super::checker::neighbors;
use super::limits::{at, beside, laid, turned, walk};
use crate::inputs::odd_doubles;
use crate::random::Random;
use oracle::id::CellID;

type Sink<'a> = crate::side_by_side::Sink<'a, Request>;

/// A route's bytes fit a buffer of routes.c, with a byte to spare.
const MOST_CELLS: usize = 65_535;

impl Random {
    pub(crate) fn chance(&mut self, of: u64) -> bool {
        self.below(of) == 0
    }

    pub(crate) fn place(&mut self, length: usize) -> usize {
        self.below(length as u64) as usize
    }

    /// Mostly a lattice point: near the middle, near an edge, or anywhere.
    pub(crate) fn start(&mut self) -> CellID {
        let (least, most) = (i64::from(i32::MIN), i64::from(i32::MAX));
        let mut point = [(); 3].map(|()| match self.below(4) {
            0 => self.between(-3, 3),
            1 => self.between(least, least + 4),
            2 => self.between(most - 4, most),
            _ => self.between(least, most),
        });
        if !self.chance(20) {
            // One parity, in 32 bits still.
            let odd = self.below(2) as i64;
            point = point.map(|number| number & !1 | odd);
        }
        let rest = match self.below(6) {
            0 => self.next() as u16,
            1 => 1 << self.below(16),
            _ => 0,
        };
        let small = self.chance(2);
        let field = |word: u64| if small { word as u8 & 1 } else { word as u8 };
        at(field(self.next()), field(self.next()), point, rest)
    }

    /// How many cells: mostly few; 60,000 now and then.
    fn cells(&mut self) -> usize {
        match self.below(10_000) {
            0 => 60_000,
            1..=20 => self.below(5000) as usize,
            21..=400 => self.below(300) as usize,
            401..=2500 => self.below(40) as usize,
            _ => self.below(7) as usize,
        }
    }

    /// A walk that sometimes turns back, so that cells come again.
    fn route(&mut self) -> Vec<CellID> {
        let (start, cells) = (self.start(), self.cells());
        let mut route = walk(start, cells, self);
        if route.len() > 2 && self.chance(8) {
            let from = self.place(route.len() - 1);
            let back: Vec<CellID> = route[from..].iter().rev().skip(1).copied().collect();
            route.extend(back);
            route.truncate(MOST_CELLS);
        }
        route
    }

    pub(crate) fn flags(&mut self) -> u32 {
        match self.below(6) {
            0 => self.next() as u32,
            1 => 1 << self.below(32),
            2 => self.one_of(&[0, 2, u32::MAX - 1]),
            _ => 1,
        }
    }

    /// A layer of cells on, beside and off some routes. Mostly none on them blocks.
    fn layer(&mut self, routes: &[&[CellID]]) -> Vec<(CellID, u32)> {
        let most = match self.below(200) {
            0 => 1024,
            1..=9 => 100,
            _ => self.below(12) as usize,
        };
        let blocking = self.chance(4);
        let all: Vec<CellID> = routes.concat();
        let mut records = if self.chance(2) {
            beside(&all, most)
        } else {
            Vec::new()
        };
        while records.len() < most {
            let record = match (self.below(3), all.len()) {
                (0, _) | (_, 0) => (self.start(), self.flags()),
                (1, length) => {
                    let twin = turned(all[self.place(length)], self.below(128));
                    (
                        twin,
                        self.flags() & !u32::from(!blocking && all.contains(&twin)),
                    )
                }
                (_, length) => {
                    let cell = all[self.place(length)];
                    (cell, self.flags() & !u32::from(!blocking))
                }
            };
            records.push(record);
        }
        records.sort_by_key(|record| record.0);
        records.dedup_by_key(|record| record.0);
        records
    }

    /// The layer and a rule, now and then damaged.
    pub(crate) fn under(&mut self, mut records: Vec<(CellID, u32)>) -> Under {
        if records.len() > 1 && self.chance(40) {
            let place = self.place(records.len() - 1);
            match self.below(2) {
                0 => records.swap(place, place + 1),
                _ => records[place + 1].0 = records[place].0,
            }
        }
        let room = match self.below(3) {
            0 => self.below(60) as usize,
            _ => 0,
        };
        let rule = self.one_of(&[0, 1, 1, 1]);
        let mut under = laid(&records, room, rule);
        match self.below(160) {
            0 => under.count = self.next(),
            1 => under.count += 1 + self.below(3),
            2 => under.count = self.below(under.count + 1),
            3 => under.rule = self.next() as u32,
            4 => under.rule = 2 + self.below(3) as u32,
            5 if !under.table.is_empty() => {
                let place = self.place(under.table.len());
                under.table[place] ^= 1 << self.below(8);
            }
            6 => under
                .table
                .truncate(self.below(under.table.len() as u64 + 1) as usize),
            _ => {}
        }
        under
    }

    /// One fault in the cells of a route.
    fn bend(&mut self, route: &mut Vec<CellID>) {
        if route.is_empty() {
            route.push(self.start());
            return;
        }
        let place = self.place(route.len());
        match self.below(7) {
            0 | 1 => route[place] = turned(route[place], self.below(128)),
            2 => {
                route.remove(place);
            }
            3 => route.insert(place, route[place]),
            4 => {
                let other = self.place(route.len());
                route.swap(place, other);
            }
            5 => route[place] = self.start(),
            _ => match &neighbors(route[place])[..] {
                [] => {}
                near => route[place] = self.one_of(near),
            },
        }
    }

    /// A claim of the route, now and then with a fault.
    fn claim(&mut self, route: &[CellID]) -> Claim {
        let mut claim = Claim::of(route);
        match self.below(3) {
            0 => {
                let mut bent = route.to_vec();
                self.bend(&mut bent);
                if self.chance(2) {
                    claim = Claim::of(&bent);
                } else {
                    claim.route = Claim::of(&bent).route;
                }
            }
            1 => match self.below(10) {
                0 => claim.cost ^= 1 << self.below(64),
                1 => claim.cost = self.one_of(&odd_doubles()).to_bits(),
                2 => claim.cost = claim.cost.wrapping_add(self.between(-2, 2) as u64),
                3 => claim.cost = self.next(),
                4 => claim.start[self.place(16)] ^= 1 << self.below(8),
                5 => claim.goal[self.place(16)] ^= 1 << self.below(8),
                6 => std::mem::swap(&mut claim.start, &mut claim.goal),
                7 => {
                    let length = self.below(claim.route.len() as u64 + 1);
                    claim.route.truncate(length as usize);
                }
                8 => claim.start.resize(self.place(34), 0),
                _ => claim.goal.resize(self.place(34), 0),
            },
            _ => {}
        }
        claim
    }
}

fn verdict(random: &mut Random) -> Request {
    let route = random.route();
    let records = random.layer(&[&route]);
    let under = random.under(records);
    random.claim(&route).judged(&under)
}

fn choice(random: &mut Random) -> Request {
    let (sent, homing) = (random.route(), random.route());
    let records = random.layer(&[&sent, &homing]);
    let under = random.under(records);
    let (mut sent, mut homing) = (random.claim(&sent), random.claim(&homing));
    match random.below(20) {
        0 => std::mem::swap(&mut sent.cost, &mut homing.cost),
        1 => std::mem::swap(&mut sent.start, &mut homing.start),
        2 => std::mem::swap(&mut sent.goal, &mut homing.goal),
        3 => homing = sent.clone(),
        _ => {}
    }
    sent.or(&homing, &under)
}

/// A round of both.
pub fn random(random: &mut Random, sink: Sink) {
    for _ in 0..100 {
        for request in [verdict(random), verdict(random), choice(random)] {
            let null = random.chance(2);
            sink(Request { null, ..request });
        }
    }
}
