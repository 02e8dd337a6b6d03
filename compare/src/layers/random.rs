//! Random inputs of the calls on layers: sequences of calls on one table, some of them damaged,
//! and single aggregates, rollups, loads and writes.

use super::calls::{Call, Of, Request};
use super::expected::expected;
use super::limits::{file, table, HOW};
use crate::inputs::{cell, odd_doubles};
use crate::random::Random;

type Sink<'a> = crate::side_by_side::Sink<'a, Request>;

/// Which doubles are drawn: mostly no NaN, so that most aggregates are answered.
#[derive(Clone, Copy)]
enum Mood {
    Whole,
    Finite,
    Odd,
    Any,
}

impl Random {
    fn bytes(&mut self, length: usize) -> Vec<u8> {
        let byte = self.next() as u8;
        match self.below(3) {
            0 => vec![byte; length],
            _ => (0..length).map(|_| self.next() as u8).collect(),
        }
    }

    fn mood(&mut self) -> Mood {
        self.one_of(&[
            Mood::Whole,
            Mood::Finite,
            Mood::Finite,
            Mood::Odd,
            Mood::Any,
        ])
    }

    fn value(&mut self, mood: Mood) -> u64 {
        let value = match mood {
            Mood::Whole => self.between(-9, 9) as f64,
            // Of sizes that are near enough to meet in a sum.
            Mood::Finite => {
                let part = self.next() as i64 as f64;
                part * 2.0f64.powi(self.between(-90, -30) as i32)
            }
            Mood::Odd => self.one_of(&odd_doubles()),
            Mood::Any => f64::from_bits(self.next()),
        };
        if value.is_nan() && self.below(8) > 0 {
            return (-0.0f64).to_bits();
        }
        value.to_bits()
    }

    /// Cells among which a layer's are drawn: near each other, a bit apart, or anywhere.
    fn pool(&mut self, size: usize) -> Vec<u128> {
        let any = |random: &mut Random| u128::from(random.next()) << 64 | u128::from(random.next());
        let base = any(self);
        let kind = self.below(4);
        (0..size)
            .map(|place| match kind {
                0 => base.wrapping_add(place as u128),
                1 => base ^ 1 << self.below(128),
                2 => base ^ u128::from(self.below(4)) << 32 * self.below(4),
                _ => any(self),
            })
            .collect()
    }

    /// Records drawn from a pool, ascending, each cell once.
    fn records(&mut self, pool: &[u128], size: usize, mood: Mood) -> Vec<(u128, u64)> {
        let mut records: Vec<(u128, u64)> = (0..size)
            .map(|_| (self.one_of(pool), self.value(mood)))
            .collect();
        records.sort();
        records.dedup_by_key(|record| record.0);
        records
    }

    /// Mostly small; 1,024 now and then.
    fn size(&mut self) -> usize {
        match self.below(60) {
            0 => self.one_of(&[1000, 1023, 1024]),
            1..=8 => self.below(100) as usize,
            _ => self.below(12) as usize,
        }
    }

    /// A table of the records with some room behind them.
    fn lent_table(&mut self, of: Of, records: &[(u128, u64)]) -> Vec<u8> {
        let room = match self.below(4) {
            0 => 0,
            1 => self.below(of.width() as u64) as usize,
            _ => self.below(4 * of.width() as u64) as usize,
        };
        table(of, records, records.len() * of.width() + room)
    }

    /// The count, or sometimes another.
    fn count(&mut self, count: usize) -> u64 {
        let count = count as u64;
        match self.below(40) {
            0 => self.next(),
            1 => self.below(count + 3),
            _ => count,
        }
    }

    /// Sometimes changes a byte.
    fn damage(&mut self, bytes: &mut [u8]) {
        if !bytes.is_empty() && self.below(20) == 0 {
            let place = self.below(bytes.len() as u64) as usize;
            bytes[place] ^= 1 << self.below(8);
        }
    }

    /// Mostly one of the six.
    fn how(&mut self) -> u64 {
        match self.below(24) {
            0 => self.one_of(&HOW),
            1 => self.next() & 0xFFFF_FFFF,
            _ => self.below(6),
        }
    }

    /// A length near one that is needed.
    fn near(&mut self, need: usize) -> usize {
        match self.below(6) {
            0 => self.below(need as u64 + 1) as usize,
            1 => need.saturating_sub(1),
            2 => need + self.below(60) as usize,
            _ => need,
        }
    }
}

/// Calls on one table, each on what the one before it left.
fn sequence(random: &mut Random, sink: Sink) {
    let of = random.one_of(&Of::BOTH);
    let size = random.size();
    let pool_size = 2 + random.below(3 * size as u64 + 2) as usize;
    let pool = random.pool(pool_size);
    let mood = random.mood();
    let started = random.below(size as u64 + 1) as usize;
    let records = random.records(&pool, started, mood);
    let length = size.max(records.len()) * of.width() + random.below(of.width() as u64) as usize;
    let mut table = table(of, &records, length);
    let mut count = records.len() as u64;
    for _ in 0..if size > 100 { 16 } else { 48 } {
        let mut lent = table.clone();
        random.damage(&mut lent);
        let given = random.count(count as usize);
        let damaged = lent != table || given != count;

        let cell = random.one_of(&pool).to_be_bytes();
        let cell = match random.below(40) {
            0 => cell[..random.below(16) as usize].to_vec(),
            1 => [cell, cell].concat(),
            _ => cell.to_vec(),
        };
        let request = match random.below(25) {
            0..=8 => {
                let kept = random.value(mood);
                Request::new(Call::Set(of), &[given, kept], &[&lent, &cell])
            }
            9..=14 => Request::new(Call::Remove(of), &[given], &[&lent, &cell]),
            15..=17 => Request::new(Call::Get(of), &[given], &[&lent, &cell]),
            18..=19 => Request::new(Call::Contains(of), &[given], &[&lent, &cell]),
            20 => Request::new(Call::Count(of), &[given], &[&lent]),
            21 => Request::new(Call::IsEmpty(of), &[given], &[&lent]),
            22..=23 => {
                let room = random.near(count as usize * of.width());
                let out = random.bytes(room);
                Request::new(Call::List(of), &[given], &[&lent, &out])
            }
            // Not so often that a table never fills.
            _ if random.below(6) == 0 => Request::new(Call::Clear(of), &[], &[&lent]),
            _ => Request::new(Call::Count(of), &[given], &[&lent]),
        };
        let answer = expected(&request);
        if !damaged && answer.refusal.number == 0 {
            match request.call {
                Call::Set(_) => count = answer.values[0],
                Call::Remove(_) => count = answer.values[2],
                Call::Clear(_) => count = 0,
                _ => {}
            }
            table = answer.buffers[0].clone();
        }
        sink(request);
    }
}

fn aggregate(random: &mut Random) -> Request {
    let size = random.size();
    let pool = random.pool(2 * size + 1);
    let mood = random.mood();
    let records = random.records(&pool, size, mood);
    let mut table = random.lent_table(Of::Values, &records);
    random.damage(&mut table);
    let asked = random.below(2 * size as u64 + 4);
    let mut list: Vec<u8> = (0..asked)
        .flat_map(|_| match records.is_empty() || random.below(5) == 0 {
            true => random.one_of(&pool).to_be_bytes(),
            false => random.one_of(&records).0.to_be_bytes(),
        })
        .collect();
    if random.below(30) == 0 {
        list.truncate(random.below(list.len() as u64 + 1) as usize);
    }
    let numbers = [random.count(records.len()), random.how()];
    Request::new(Call::Aggregate, &numbers, &[&table, &list])
}

fn rollup(random: &mut Random) -> Request {
    let size = random.size();
    let reach = random.one_of(&[1, 2, 4, 40]);
    let finest = random.one_of(&[1, 2, 255]);
    let mood = random.mood();
    let mut records: Vec<(u128, u64)> = (0..size)
        .map(|_| {
            let mut point = [(); 3].map(|()| random.between(-reach, reach));
            if random.below(10) > 0 {
                point = point.map(|number| number & !1 | point[0] & 1);
            }
            let resolution = match random.below(12) {
                0 => 0,
                _ => 1 + random.below(finest) as u8,
            };
            let rest = match random.below(3) {
                0 => 1 << random.below(16),
                _ => 0,
            };
            let frame = random.below(2) as u8;
            let cell = cell(frame, resolution, point, rest);
            (u128::from_be_bytes(cell), random.value(mood))
        })
        .collect();
    records.sort();
    records.dedup_by_key(|record| record.0);
    let mut fine = random.lent_table(Of::Values, &records);
    random.damage(&mut fine);
    let numbers = [random.count(records.len()), random.how(), random.below(9)];
    // How many groups there are shows in a table that has room for all.
    let groups = expected(&Request::new(
        Call::Rollup,
        &[numbers[0], 0, 0],
        &[&fine, &vec![0; 24576]],
    ));
    let length = random.near(24 * groups.values[0] as usize);
    let coarse = random.bytes(length);
    Request::new(Call::Rollup, &numbers, &[&fine, &coarse])
}

/// A section's records, ascending, each cell once.
fn section(random: &mut Random, mood: Mood) -> Vec<(u128, u64)> {
    let size = random.size();
    let mut cells = random.pool(size);
    cells.sort();
    cells.dedup();
    let kept = |cell| (cell, random.value(mood));
    cells.into_iter().map(kept).collect()
}

/// Puts a record that is not above the one before it somewhere: by an equal neighbour or a fall, of
/// one record or of all; mostly the first record, a middle one or the last that can be such a one.
fn disorder(random: &mut Random, records: &mut [(u128, u64)]) {
    let Some(last) = records.len().checked_sub(1).filter(|&last| last > 0) else {
        return;
    };
    let place = match random.below(4) {
        0 => 1,
        1 => last,
        _ => 1 + random.below(last as u64) as usize,
    };
    let earlier = records[place - 1];
    match random.below(10) {
        0 => records[place] = earlier,
        1..=2 => records[place].0 = earlier.0,
        3 => records[place - 1].0 = records[place].0,
        4..=5 => records.swap(place - 1, place),
        6 => records[place].0 = earlier.0.saturating_sub(1),
        7 => records[place].0 = earlier.0 & !(1 << random.below(128)),
        // Two files one behind the other, each of them ascending.
        8 => records.rotate_left(place),
        _ => records.reverse(),
    }
}

/// A survey file and two tables. Most files ascend; of the others some have another fault besides,
/// so that it shows which is told.
pub fn load(random: &mut Random) -> Request {
    let mood = random.mood();
    let mut flags = section(random, mood);
    let mut values = section(random, mood);
    match random.below(20) {
        0..=2 => disorder(random, &mut flags),
        3..=5 => disorder(random, &mut values),
        6 => {
            disorder(random, &mut flags);
            disorder(random, &mut values);
        }
        _ => {}
    }
    let mut bytes = file(&flags, &values);
    random.damage(&mut bytes);
    if random.below(12) == 0 {
        let place = random.below(16) as usize;
        bytes[place] = bytes[place].wrapping_add(random.one_of(&[1, 255, 4, 128]));
    }
    match random.below(20) {
        0 => bytes.truncate(random.below(bytes.len() as u64 + 1) as usize),
        1 => {
            bytes.pop();
        }
        2 => bytes.extend(vec![0; 1 + random.below(30) as usize]),
        _ => {}
    }
    let tight = random.below(2) == 0;
    let tables = [20 * flags.len(), 24 * values.len()].map(|need| {
        let length = match tight {
            true => random.near(need),
            false => need + random.below(60) as usize,
        };
        random.bytes(length)
    });
    let numbers = [random.next() >> random.below(64), random.below(9)];
    Request::new(Call::Load, &numbers, &[&bytes, &tables[0], &tables[1]])
}

fn write(random: &mut Random) -> Request {
    let mut need = 16;
    let mut counts = Vec::new();
    let mut tables = Vec::new();
    for of in Of::BOTH {
        let size = random.size();
        let pool = random.pool(size + 1);
        let mood = random.mood();
        let records = random.records(&pool, size, mood);
        let mut table = random.lent_table(of, &records);
        random.damage(&mut table);
        need += records.len() * of.width();
        counts.push(random.count(records.len()));
        tables.push(table);
    }
    let room = random.near(need);
    let out = random.bytes(room);
    Request::new(Call::Write, &counts, &[&tables[0], &tables[1], &out])
}

fn flags(random: &mut Random) -> Request {
    let call = random.one_of(&[Call::HasFlag, Call::SetFlag, Call::ClearFlag]);
    let mut word = || random.next() & random.next() & 0xFFFF_FFFF;
    let words = [word(), word()];
    match random.below(4) {
        0 => Request::new(Call::IsBlocked, &words[..1], &[]),
        _ => Request::new(call, &words, &[]),
    }
}

/// A round of all of them.
pub fn random(random: &mut Random, sink: Sink) {
    for _ in 0..4 {
        sequence(random, sink);
        for _ in 0..12 {
            let requests = [
                aggregate(random),
                aggregate(random),
                rollup(random),
                rollup(random),
                load(random),
                write(random),
                flags(random),
            ];
            for mut request in requests {
                request.null = random.below(2) == 0;
                sink(request);
            }
        }
    }
}
