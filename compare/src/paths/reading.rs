//! The first two paragraphs of the specification's section "Rings, lines, search", read plainly:
//! what the Rust does, and beside it the rooms, which the Rust does not have.

#![allow(deprecated)]

use crate::expected::{Refusal, COORD_OVERFLOW};
use oracle::id::CellID;
use oracle::lattice::BCC_NEIGHBORS_14;
use std::collections::{HashSet, VecDeque};

/// How many cells may be known, may wait and may be listed; or how many were.
#[derive(Debug, Clone, Copy, PartialEq, Eq)]
pub struct Rooms {
    pub known: usize,
    pub waiting: usize,
    pub output: usize,
}

impl Rooms {
    pub const ENDLESS: Rooms = Rooms {
        known: usize::MAX,
        waiting: usize::MAX,
        output: usize::MAX,
    };
}

/// "Parity first, then CoordOverflow unless each coordinate is in -2147483646..=2147483645."
pub fn neighbors(cell: CellID) -> Result<Vec<CellID>, Refusal> {
    let point = [cell.x(), cell.y(), cell.z()];
    parity(cell)?;
    if point
        .iter()
        .any(|number| !(-2147483646..=2147483645).contains(number))
    {
        return Err(Refusal::plain(COORD_OVERFLOW));
    }
    let [x, y, z] = point;
    Ok(BCC_NEIGHBORS_14
        .iter()
        .map(|&(dx, dy, dz)| plain_at(cell, [x + dx, y + dy, z + dz]))
        .collect())
}

pub fn parity(cell: CellID) -> Result<(), Refusal> {
    let [x, y, z] = [cell.x(), cell.y(), cell.z()];
    if x & 1 == y & 1 && y & 1 == z & 1 {
        Ok(())
    } else {
        Err(Refusal::mixed(x, y, z))
    }
}

/// The plain cell at a point, in the frame and at the resolution of another.
fn plain_at(like: CellID, point: [i32; 3]) -> CellID {
    let word = |number: i32| u128::from(number as u32);
    let [x, y, z] = point.map(word);
    let raw = z << 96 | y << 64 | x << 32 | like.raw_value() & 0xFFFF;
    CellID::from_bytes(raw.to_be_bytes())
}

// ---- rings and shells

struct Walk {
    known: HashSet<CellID>,
    waiting: VecDeque<(CellID, u64)>,
    most_waiting: usize,
    listed: Vec<CellID>,
}

impl Walk {
    /// "The centre takes one known and one waiting room."
    fn new(center: CellID) -> Walk {
        Walk {
            known: HashSet::from([center]),
            waiting: VecDeque::from([(center, 0)]),
            most_waiting: 1,
            listed: Vec::new(),
        }
    }

    /// "Output room is needed when a cell is listed, before it is expanded." A ring lists every
    /// cell, a shell those at k steps.
    fn go(&mut self, every: bool, k: u64, rooms: Rooms) -> Result<(), Refusal> {
        while let Some((cell, steps)) = self.waiting.pop_front() {
            if every || steps == k {
                if self.listed.len() == rooms.output {
                    return Err(Refusal::no_room(3));
                }
                self.listed.push(cell);
            }
            if steps < k {
                for neighbor in neighbors(cell)? {
                    self.see(neighbor, steps + 1, rooms)?;
                }
            }
        }
        Ok(())
    }

    /// "Each unseen neighbour needs known room, then waiting room." "A popped entry's room serves
    /// again."
    fn see(&mut self, cell: CellID, steps: u64, rooms: Rooms) -> Result<(), Refusal> {
        if self.known.contains(&cell) {
            return Ok(());
        }
        if self.known.len() == rooms.known {
            return Err(Refusal::no_room(1));
        }
        if self.waiting.len() == rooms.waiting {
            return Err(Refusal::no_room(2));
        }
        self.known.insert(cell);
        self.waiting.push_back((cell, steps));
        self.most_waiting = self.most_waiting.max(self.waiting.len());
        Ok(())
    }
}

/// The ring, or the shell, within rooms that are 1 or more where cells are known and wait.
pub fn around(every: bool, center: CellID, k: u64, rooms: Rooms) -> Result<Vec<CellID>, Refusal> {
    let mut walk = Walk::new(center);
    walk.go(every, k, rooms)?;
    Ok(walk.listed)
}

/// The rooms that the walk takes until it answers or meets parity or overflow.
pub fn taken(every: bool, center: CellID, k: u64) -> Rooms {
    let mut walk = Walk::new(center);
    let _ = walk.go(every, k, Rooms::ENDLESS);
    Rooms {
        known: walk.known.len(),
        waiting: walk.most_waiting,
        output: walk.listed.len(),
    }
}

// ---- lines

/// The nearest point of the lattice, or nothing where a coordinate is out of range. "Candidates:
/// even, round(v/2)*2; odd, round((v-1)/2)*2+1, halves away from zero. Squared distances add x, y,
/// z in order, a square being one product; the even point wins a tie."
fn snap(at: [f64; 3]) -> Option<[i32; 3]> {
    if at.iter().any(|v| v.is_nan() || v.abs() > 2147483646.0) {
        return None;
    }
    let even = at.map(|v| (v / 2.0).round() * 2.0);
    let odd = at.map(|v| ((v - 1.0) / 2.0).round() * 2.0 + 1.0);
    let far = |point: [f64; 3]| {
        let [x, y, z] = [0, 1, 2].map(|axis| point[axis] - at[axis]);
        x * x + y * y + z * z
    };
    let nearest = if far(even) <= far(odd) { even } else { odd };
    Some(nearest.map(|v| v as i32))
}

/// "Steps = 2 * largest absolute difference", whether or not the differences fit.
pub fn steps(start: CellID, end: CellID) -> u64 {
    let differences = [
        start.x().abs_diff(end.x()),
        start.y().abs_diff(end.y()),
        start.z().abs_diff(end.z()),
    ];
    2 * u64::from(differences.into_iter().max().unwrap())
}

/// The line, where so many cells can be listed. It stops at the first that is one too many.
pub fn along(start: CellID, end: CellID, room: usize) -> Result<Vec<CellID>, Refusal> {
    let mut listed = Vec::new();
    let mut list = |cell: CellID| {
        if listed.last() == Some(&cell) {
            return Ok(());
        }
        if listed.len() == room {
            return Err(Refusal::no_room(3));
        }
        listed.push(cell);
        Ok(())
    };
    if start != end {
        parity(start)?;
        parity(end)?;
    }
    let from = [start.x(), start.y(), start.z()];
    let to = [end.x(), end.y(), end.z()];
    let mut by = [0; 3];
    for axis in 0..3 {
        by[axis] = to[axis]
            .checked_sub(from[axis])
            .ok_or(Refusal::plain(COORD_OVERFLOW))?;
    }
    list(start)?;
    let steps = steps(start, end);
    for i in 1..=steps {
        let t = i as f64 / steps as f64;
        let at = [0, 1, 2].map(|axis| f64::from(from[axis]) + t * f64::from(by[axis]));
        if let Some(point) = snap(at) {
            list(plain_at(start, point))?;
        }
    }
    list(end)?;
    Ok(listed)
}
