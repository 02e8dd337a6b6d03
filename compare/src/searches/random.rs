//! Random searches: open and walled maps, rooms and limits about as large as they must be.

#![allow(deprecated)]

use super::calls::{known_bytes, waiting_bytes, Request};
use super::limits::{cut_short, endless, far_goal, gated, rooms, rubble, walls, Search};
use super::reading::{self, Went};
use crate::paths::calls::MOST_ROOM;
use crate::paths::reading::Rooms;
use crate::random::Random;
use crate::routes::limits::{at, turned, under};
use oracle::id::CellID;

type Sink<'a> = crate::side_by_side::Sink<'a, Request>;

/// So many searches are asked for between two ends under one layer.
const EACH: usize = 4;

impl Random {
    /// A cell so far away, on the lattice if the first one is.
    fn away(&mut self, from: CellID, most: i64) -> CellID {
        let odd = self.below(2) as i64;
        let mut by = [(); 3].map(|()| self.between(-most, most) & !1 | odd);
        if self.chance(6) {
            by[self.place(3)] = odd;
        }
        let from_point = [from.x(), from.y(), from.z()].map(i64::from);
        let to = [0, 1, 2].map(|axis| {
            let to = from_point[axis] + by[axis];
            to.clamp(i32::MIN.into(), i32::MAX.into())
        });
        at(from.frame(), from.resolution(), to, 0)
    }

    /// Mostly with all neighbours around, some of them near an edge or anywhere.
    fn from(&mut self) -> CellID {
        if self.chance(12) {
            return self.start();
        }
        let odd = self.below(2) as i64;
        let most = self.one_of(&[10, 1_000_000_000]);
        let mut point = [(); 3].map(|()| self.between(-most, most) & !1 | odd);
        if self.chance(8) {
            let off = self.between(2, 12) & !1;
            point[self.place(3)] = match self.below(2) {
                0 => i64::from(i32::MIN) + off + odd,
                _ => i64::from(i32::MAX) - off - (1 - odd),
            };
        }
        let rest = match self.below(5) {
            0 => 1 << self.below(16),
            _ => 0,
        };
        let small = self.chance(2);
        let field = |word: u64| if small { word as u8 & 1 } else { word as u8 };
        at(field(self.next()), field(self.next()), point, rest)
    }

    /// Mostly a goal that can be reached on an open map.
    fn to(&mut self, start: CellID, most: i64) -> CellID {
        let goal = self.away(start, most);
        match self.below(40) {
            0 => start,
            1 => turned(start, 16 + self.below(16)),
            2 => turned(goal, 16 + self.below(16)),
            3 => turned(goal, self.below(128)),
            4 => self.start(),
            5 => {
                // As far away as start less goal may be, or a little farther.
                let mut point = [start.x(), start.y(), start.z()].map(i64::from);
                let axis = self.place(3);
                let by = i64::from(i32::MAX) + self.between(-6, 3);
                let to = [point[axis] - by, point[axis] + by];
                point[axis] = self.one_of(&to).clamp(i32::MIN.into(), i32::MAX.into());
                let odd = point[axis] & 1;
                let point = point.map(|number| number & !1 | odd);
                at(start.frame(), start.resolution(), point, 0)
            }
            _ => goal,
        }
    }

    /// A plain cell between the two, or near them.
    fn between_them(&mut self, start: CellID, goal: CellID, aside: i64) -> CellID {
        let part = self.below(101) as i64;
        let point = [
            (start.x(), goal.x()),
            (start.y(), goal.y()),
            (start.z(), goal.z()),
        ]
        .map(|(from, to)| {
            let (from, to) = (i64::from(from), i64::from(to));
            from + (to - from) * part / 100 + self.between(-aside, aside)
        });
        let odd = point[0] & 1;
        let point = point.map(|number| {
            let number = number & !1 | odd;
            number.clamp(i64::from(i32::MIN) + odd, i64::from(i32::MAX) - 1 + odd)
        });
        at(start.frame(), start.resolution(), point, 0)
    }

    /// Cells that shut the way: scattered ones, boxes around an end with and without gates, both.
    fn map(&mut self, start: CellID, goal: CellID) -> Vec<CellID> {
        let mut cells = Vec::new();
        let kind = self.below(8);
        if matches!(kind, 1 | 2 | 5) {
            let most = self.one_of(&[3, 10, 30, 100, 300, 1024]);
            let aside = self.one_of(&[1, 3, 3, 6, 10]);
            for _ in 0..self.below(most + 1) {
                cells.push(self.between_them(start, goal, aside));
            }
        }
        if matches!(kind, 3 | 4 | 5) {
            let center = self.one_of(&[start, start, goal]);
            let point = [center.x(), center.y(), center.z()];
            // The box is on the lattice too.
            if point
                .iter()
                .all(|number| number.unsigned_abs() < 2_000_000_000)
            {
                let r = self.one_of(&[0, 0, 1, 1, 2, 2, 3, 3, 4, 5, 6, 7]);
                let gates = match self.below(4) {
                    0 | 1 => 0,
                    2 => 1 + self.below(3),
                    _ => self.below(40),
                };
                cells.extend(gated(walls(center, r), gates as usize, self));
            }
        }
        // The ends are there now and then; a start that is blocked is left all the same.
        match self.below(30) {
            0 => cells.push(start),
            1 => cells.push(goal),
            2..=20 => cells.retain(|&cell| cell != goal),
            _ => {}
        }
        cells
    }

    /// The limit: none of its own, or about the cells that are closed.
    fn limit(&mut self, expansions: u64) -> Option<u64> {
        match self.below(12) {
            0..=3 => None,
            4 | 5 => Some(expansions),
            6 => Some(expansions.saturating_sub(1)),
            7 => Some(self.below(expansions + 2)),
            8 => Some(u64::MAX),
            9 => Some(self.below(3)),
            10 => Some(expansions + self.below(3)),
            _ => Some(self.next() >> self.below(64)),
        }
    }

    /// Now and then one thing that is lent or named is odd.
    fn spoil(&mut self, search: &mut Search) {
        match self.below(60) {
            0 => search.known = self.odd_room(),
            1 => search.waiting = self.odd_room(),
            2 => search.known_workspace = self.place(search.known_workspace + 1),
            3 => search.waiting_workspace = self.place(search.waiting_workspace + 1),
            4 => search.known_workspace -= 1,
            5 => search.waiting_workspace -= 1,
            6..=10 => search.known_workspace += self.place(200),
            11..=15 => search.waiting_workspace += self.place(200),
            16 => search.start.resize(self.place(40), 0x5A),
            17 => search.goal.resize(self.place(40), 0x5A),
            18..=25 => search.output += self.place(40),
            26 => search.output = self.place(search.output + 1),
            27 if self.chance(30) => {
                search.known = MOST_ROOM;
                search.known_workspace = known_bytes(MOST_ROOM as usize);
            }
            28 if self.chance(30) => {
                search.waiting = MOST_ROOM;
                search.waiting_workspace = waiting_bytes(MOST_ROOM as usize);
            }
            _ => {}
        }
    }

    /// The rooms that are taken, or a few more or less of one of them, or of all.
    fn about_all(&mut self, taken: Rooms) -> Rooms {
        let mut about = taken;
        match self.below(6) {
            0 => {}
            1 => about.known = self.about(taken.known),
            2 => about.waiting = self.about(taken.waiting),
            3 => about.output = self.about(taken.output),
            _ => {
                about.known = self.about(taken.known);
                about.waiting = self.about(taken.waiting);
                about.output = self.about(taken.output);
            }
        }
        let fit = |room: usize| room.clamp(1, MOST_ROOM as usize);
        rooms(fit(about.known), fit(about.waiting), about.output)
    }

    /// Some searches between two ends under one layer.
    fn searches(&mut self, sink: Sink) {
        let most = match self.below(500) {
            0 => 60,
            1..=20 => 25,
            21..=150 => 10,
            151..=350 => 5,
            _ => 3,
        };
        let start = self.from();
        let goal = self.to(start, most);
        let (start, goal) = match self.below(3) {
            0 => (goal, start),
            _ => (start, goal),
        };
        let flags = |random: &mut Random| match random.below(8) {
            0 => random.flags(),
            _ => 1,
        };
        let mut records = Vec::new();
        for cell in self.map(start, goal) {
            records.push((cell, flags(self)));
        }
        for _ in 0..self.below(4) {
            let twin = self.one_of(&[start, goal]);
            records.push((turned(twin, self.below(128)), flags(self)));
        }
        let sound = under(records.clone(), 0, 1);
        let sound = match sound.count {
            0..=1024 => sound,
            _ => {
                records.truncate(1024);
                under(records.clone(), 0, 1)
            }
        };
        records.sort_by_key(|record| record.0);
        records.dedup_by_key(|record| record.0);
        // Where the goal is not reached, the search fills these.
        let room = match self.below(1000) {
            0 => 10_000,
            1..=60 => 2_000,
            61..=400 => 300,
            _ => 100,
        };
        let Went {
            taken, expansions, ..
        } = reading::went(&endless(start, goal, &sound), rooms(room, room, room));
        for _ in 0..EACH {
            let under = self.under(records.clone());
            let mut search = Search::within(start, goal, &under, self.about_all(taken));
            search.limit = self.limit(expansions);
            self.spoil(&mut search);
            let null = self.chance(2);
            let request = search.ask(self);
            sink(Request { null, ..request });
        }
    }
}

/// A round.
pub fn random(random: &mut Random, sink: Sink) {
    for _ in 0..30 {
        random.searches(sink);
    }
    let start = random.away(at(0, 0, [0, 0, 0], 0), 1_000_000);
    let goal = far_goal(start, random);
    let under = rubble(start, random);
    let limit = 1 + random.below(80);
    cut_short(start, goal, &under, limit, random, sink);
}
