//! Random rings, shells and lines: rooms about as large as they must be, ends near and far.

#![allow(deprecated)]

use super::calls::{Call, Request, KNOWN_BYTES, MOST_ROOM};
use super::limits::{line, Around, LARGEST_BUFFER};
use super::reading::{self, Rooms};
use crate::random::Random;
use crate::routes::limits::at;
use oracle::id::CellID;

type Sink<'a> = crate::side_by_side::Sink<'a, Request>;

/// A line of more steps is asked for only with an output that it soon fills.
const MOST_STEPS: u64 = 100_000;

impl Random {
    /// Mostly few; some are endless.
    fn k(&mut self) -> u64 {
        match self.below(200) {
            0..=59 => self.below(2),
            60..=149 => 2,
            150..=179 => 3,
            180..=189 => 4 + self.below(2),
            190 => 6 + self.below(5),
            191..=193 => self.next(),
            194..=196 => self.next() >> self.below(62),
            _ => self.below(3),
        }
    }

    /// The room, or a few more or less.
    pub(crate) fn about(&mut self, room: usize) -> usize {
        match self.below(8) {
            0 => room.saturating_sub(1),
            1 => (room as i64 + self.between(-3, 3)).max(0) as usize,
            2 => self.below(room as u64 + 1) as usize,
            3 => room + 1,
            _ => room,
        }
    }

    pub(crate) fn odd_room(&mut self) -> u64 {
        match self.below(4) {
            0 => self.one_of(&[0, MOST_ROOM, MOST_ROOM + 1, u64::MAX]),
            1 => self.next(),
            2 => self.next() >> self.below(64),
            _ => self.below(3),
        }
    }

    /// Mostly with all neighbours, some of them a few steps from an edge.
    fn center(&mut self) -> CellID {
        if self.chance(5) {
            return self.start();
        }
        let odd = self.below(2) as i64;
        let most = self.one_of(&[10, 1_000_000_000]);
        let mut point = [(); 3].map(|()| self.between(-most, most) & !1 | odd);
        if self.chance(4) {
            let off = self.between(2, 12) & !1;
            point[self.place(3)] = match self.below(2) {
                0 => i64::from(i32::MIN) + off + odd,
                _ => i64::from(i32::MAX) - off - (1 - odd),
            };
        }
        let rest = match self.below(3) {
            0 => 1 << self.below(16),
            _ => 0,
        };
        at(self.next() as u8, self.next() as u8, point, rest)
    }

    fn around(&mut self) -> Request {
        let call = self.one_of(&[Call::Ring, Call::Shell]);
        let (center, k) = (self.center(), self.k());
        // Rooms of a k that ends serve an endless one too.
        let taken = reading::taken(call == Call::Ring, center, k.min(10));
        let rooms = Rooms {
            known: self.about(taken.known).max(1),
            waiting: self.about(taken.waiting).max(1),
            output: self.about(taken.output),
        };
        let mut around = Around::within(center, k, rooms);
        match self.below(40) {
            0 => around.known = self.odd_room(),
            1 => around.waiting = self.odd_room(),
            2 => around.workspace = self.below(around.workspace as u64 + 1) as usize,
            3 => around.workspace = around.workspace.saturating_sub(1),
            4..=9 => around.workspace += self.below(100) as usize,
            10 => around.center.resize(self.place(40), 0x5A),
            11..=16 => around.output += self.below(40) as usize,
            17 => around.output = 0,
            18 if self.chance(20) => {
                around.known = MOST_ROOM;
                around.workspace = KNOWN_BYTES * MOST_ROOM as usize;
            }
            _ => {}
        }
        around.ask(call, self)
    }

    /// The other end of a line: near, in a direction, or anywhere.
    fn end(&mut self, start: CellID) -> CellID {
        if self.chance(30) {
            return self.start();
        }
        let most = match self.below(2000) {
            0 => 50_000,
            1..=20 => 3000,
            21..=300 => 200,
            301..=900 => 30,
            _ => 6,
        };
        let odd = self.below(2) as i64;
        let still = self.one_of(&[1, 3, 8]);
        let mut by = [(); 3].map(|()| match self.chance(still) {
            true => self.between(-most, most) & !1,
            false => 0,
        });
        if self.chance(2) {
            by = by.map(|number| number + odd);
        }
        if self.chance(40) {
            by[self.place(3)] += 1;
        }
        let mut number = 0;
        let to = [start.x(), start.y(), start.z()].map(|from| {
            let to = i64::from(from) + by[number];
            number += 1;
            to.clamp(i32::MIN.into(), i32::MAX.into())
        });
        match self.below(8) {
            0 => at(self.next() as u8, self.next() as u8, to, self.next() as u16),
            1 => at(start.frame(), start.resolution(), to, 1 << self.below(16)),
            _ => at(start.frame(), start.resolution(), to, 0),
        }
    }

    fn along(&mut self) -> Request {
        let start = self.start();
        let end = self.end(start);
        let (start, end) = match self.below(2) {
            0 => (start, end),
            _ => (end, start),
        };
        let output = if reading::steps(start, end) <= MOST_STEPS {
            let cells = reading::along(start, end, usize::MAX).map_or(2, |cells| cells.len());
            let odd = self.one_of(&[0, 0, 0, 1, 8, 15]);
            (16 * self.about(cells) + odd).min(LARGEST_BUFFER)
        } else if leaves_the_edge(start, end) {
            self.below(300) as usize
        } else {
            0
        };
        let (mut start, mut end) = (start.to_bytes().to_vec(), end.to_bytes().to_vec());
        match self.below(200) {
            0 => start.resize(self.place(40), 0),
            1 => end.resize(self.place(40), 0),
            2 => end = start.clone(),
            _ => {}
        }
        line(&start, &end, output, self)
    }
}

/// Whether samples are soon inside the range of the snap, so that the line fills a small output.
fn leaves_the_edge(start: CellID, end: CellID) -> bool {
    let steps = reading::steps(start, end);
    [
        (start.x(), end.x()),
        (start.y(), end.y()),
        (start.z(), end.z()),
    ]
    .into_iter()
    .all(|(from, to)| {
        from.unsigned_abs() < i32::MAX.unsigned_abs() - 1
            || 64 * u64::from(from.abs_diff(to)) > steps
    })
}

/// A round of all three.
pub fn random(random: &mut Random, sink: Sink) {
    for _ in 0..30 {
        for request in [random.around(), random.along(), random.along()] {
            let null = random.chance(2);
            sink(Request { null, ..request });
        }
    }
}
