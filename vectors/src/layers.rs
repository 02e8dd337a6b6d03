//! The list of calls on layers, `layers.bin`. Each record is one call on a table that the replaying
//! program keeps from record to record: flags and values, of 8 records each, and the coarse table
//! of a rollup, of 8 records too. All three begin all zero, with count 0.
//!
//! The file is records of 64 bytes, at most 400, all numbers big-endian:
//!
//! | bytes | what |
//! |---|---|
//! | 0 | the call's number, below |
//! | 1 | the aggregation of 21 and 22; else 0 |
//! | 2 | expected refusal number; 0 where the call answers |
//! | 3 | expected room, of refusal 10 |
//! | 4 | expected found, of 2, 3, 12, 13; expected answer of 4 and 14; else 0 |
//! | 5..7 | 0 |
//! | 8..23 | the cell; 0 where the call takes none |
//! | 24..31 | the flags or the value's bits of 1 and 11; else 0 |
//! | 32..39 | expected kept of 2, 3, 12, 13; expected bits of 21; else 0 |
//! | 40..47 | expected count after the call, of the call's table; of coarse for 22 |
//! | 48..55 | expected check number of that table after the call: the sum over i of (i + 1) * byte i |
//! | 56..63 | 0 |
//!
//! | no | call |
//! |---|---|
//! | 1, 2, 3, 4, 5 | flags_set, flags_get, flags_remove, flags_contains, flags_clear |
//! | 11, 12, 13, 14, 15 | the same of values |
//! | 21 | values_aggregate; its list is the cell, then all cells of the table, ascending |
//! | 22 | values_rollup into the coarse table |
//!
//! A rollup is refused only while the coarse table is all zero with count 0, so that a program
//! that lends a new one to each rollup sees the same.

use crate::{cell, RECORD};
use compare::layers::calls::{Call, Of, Request};
use compare::layers::expected::expected;
use compare::lent::Called;
use compare::random::Random;
use compare::side_by_side::Asked;

type Cell = [u8; 16];

const ROOM: usize = 8;
const NO_CELL: Cell = [0; 16];

/// A lent table with its count.
struct Table {
    bytes: Vec<u8>,
    count: u64,
}

impl Table {
    fn new(of: Of) -> Table {
        Table {
            bytes: vec![0; ROOM * of.width()],
            count: 0,
        }
    }

    fn check_number(&self) -> u64 {
        let weighed = |(place, &byte): (usize, &u8)| (place as u64 + 1) * u64::from(byte);
        self.bytes.iter().enumerate().map(weighed).sum()
    }
}

/// The three tables as they stand, the records made so far, and the calls that they are about.
struct List {
    flags: Table,
    values: Table,
    coarse: Table,
    bytes: Vec<u8>,
    calls: Vec<u8>,
}

impl List {
    fn on_a_table(&mut self, call: Call, cell: Cell, kept: u64) {
        let of = match call {
            Call::Set(of) | Call::Get(of) | Call::Remove(of) => of,
            Call::Contains(of) | Call::Clear(of) => of,
            _ => unreachable!(),
        };
        assert!(of == Of::Values || kept >> 32 == 0, "flags are 32 bits");
        let table = match of {
            Of::Flags => &mut self.flags,
            Of::Values => &mut self.values,
        };
        let count = table.count;
        let request = match call {
            Call::Set(_) => Request::new(call, &[count, kept], &[&table.bytes, &cell]),
            Call::Clear(_) => Request::new(call, &[], &[&table.bytes]),
            _ => Request::new(call, &[count], &[&table.bytes, &cell]),
        };
        request.send(&mut self.calls);
        let answer = expected(&request);
        let [first, second, third, ..] = answer.values;
        let (found, said, count) = match call {
            Call::Set(_) => (0, 0, first),
            Call::Get(_) | Call::Remove(_) => (first, second, third),
            Call::Contains(_) => (first, 0, count),
            _ => (0, 0, 0),
        };
        table.bytes = answer.buffers[0].clone();
        table.count = count;

        let mut record = [0; RECORD];
        record[0] = call.number();
        record[2] = answer.refusal.number as u8;
        record[3] = answer.refusal.room as u8;
        record[4] = found as u8;
        record[8..24].copy_from_slice(&cell);
        record[24..32].copy_from_slice(&kept.to_be_bytes());
        record[32..40].copy_from_slice(&said.to_be_bytes());
        record[40..48].copy_from_slice(&count.to_be_bytes());
        record[48..56].copy_from_slice(&table.check_number().to_be_bytes());
        self.bytes.extend(record);
    }

    fn set(&mut self, of: Of, cell: Cell, kept: u64) {
        self.on_a_table(Call::Set(of), cell, kept);
    }

    /// Whether it is there, what is kept of it.
    fn ask(&mut self, of: Of, cell: Cell) {
        self.on_a_table(Call::Contains(of), cell, 0);
        self.on_a_table(Call::Get(of), cell, 0);
    }

    fn remove(&mut self, of: Of, cell: Cell) {
        self.on_a_table(Call::Remove(of), cell, 0);
    }

    fn clear(&mut self, of: Of) {
        self.on_a_table(Call::Clear(of), NO_CELL, 0);
    }

    fn aggregate(&mut self, cell: Cell, how: u8) {
        let used = self.values.count as usize * Of::Values.width();
        let kept = self.values.bytes[..used].chunks(Of::Values.width());
        let list: Vec<u8> = cell
            .into_iter()
            .chain(kept.flat_map(|record| record[..16].to_vec()))
            .collect();
        let request = Request::new(
            Call::Aggregate,
            &[self.values.count, how.into()],
            &[&self.values.bytes, &list],
        );
        request.send(&mut self.calls);
        let answer = expected(&request);
        let mut record = [0; RECORD];
        record[0] = Call::Aggregate.number();
        record[1] = how;
        record[2] = answer.refusal.number as u8;
        record[3] = answer.refusal.room as u8;
        record[8..24].copy_from_slice(&cell);
        record[32..40].copy_from_slice(&answer.values[0].to_be_bytes());
        record[40..48].copy_from_slice(&self.values.count.to_be_bytes());
        record[48..56].copy_from_slice(&self.values.check_number().to_be_bytes());
        self.bytes.extend(record);
    }

    fn rollup(&mut self, how: u8) {
        let request = Request::new(
            Call::Rollup,
            &[self.values.count, how.into(), self.coarse.count],
            &[&self.values.bytes, &self.coarse.bytes],
        );
        request.send(&mut self.calls);
        let answer = expected(&request);
        if answer.refusal.number != 0 {
            let untouched = self.coarse.count == 0 && self.coarse.check_number() == 0;
            assert!(untouched, "a rollup is refused over a table that is in use");
        }
        self.coarse.bytes = answer.buffers[1].clone();
        self.coarse.count = answer.values[0];
        let mut record = [0; RECORD];
        record[0] = Call::Rollup.number();
        record[1] = how;
        record[2] = answer.refusal.number as u8;
        record[3] = answer.refusal.room as u8;
        record[40..48].copy_from_slice(&self.coarse.count.to_be_bytes());
        record[48..56].copy_from_slice(&self.coarse.check_number().to_be_bytes());
        self.bytes.extend(record);
    }

    /// Keeps these values, and no others, of the family's cells from the first on.
    fn keep(&mut self, family: &[Cell], values: &[f64]) {
        self.clear(Of::Values);
        for (&cell, value) in family.iter().zip(values) {
            self.set(Of::Values, cell, value.to_bits());
        }
    }

    /// The coarse table is emptied: a rollup of nothing.
    fn empty_coarse(&mut self) {
        self.clear(Of::Values);
        self.rollup(0);
    }
}

/// Cells that differ in one word, one field, one bit.
fn pool() -> [Cell; 12] {
    [
        cell(0, 0, [0, 0, 0], 0),
        cell(1, 0, [0, 0, 0], 0),
        cell(0, 1, [0, 0, 0], 0),
        cell(0, 1, [0, 0, 0], 1),
        cell(0, 1, [0, 0, 0], 0x8000),
        cell(0, 1, [1, 1, 1], 0),
        cell(0, 1, [2, 0, 0], 0),
        cell(0, 1, [0, 2, 0], 0),
        cell(0, 1, [0, 0, 2], 0),
        cell(0, 1, [-2, 0, 0], 0),
        cell(0, 1, [0, 0, -2], 0),
        [255; 16],
    ]
}

/// Filling a table in falling and in mixed order, replacing, too many, removing, clearing.
fn fill(list: &mut List, of: Of) {
    let pool = pool();
    // A signalling NaN and its like; of flags the low half.
    let kept = |place: usize| {
        let bits = 0xFFF4_0000_8000_0001 + place as u64 * 0x0101_0000_0101;
        match of {
            Of::Flags => bits & 0xFFFF_FFFF,
            Of::Values => bits,
        }
    };
    for place in (0..ROOM).rev() {
        list.set(of, pool[place], kept(place));
    }
    for place in [8, 11, 0] {
        list.set(of, pool[place], kept(20 + place));
    }
    for place in [0, 7, 11] {
        list.ask(of, pool[place]);
    }
    for place in [3, 3, 0, 7, 11] {
        list.remove(of, pool[place]);
    }
    list.set(of, pool[11], kept(40));
    list.set(of, pool[9], 0);
    list.ask(of, pool[9]);
    list.clear(of);
    list.ask(of, pool[9]);
    list.remove(of, pool[9]);
    list.clear(of);
    for place in [5, 2, 9, 0, 11, 7, 4, 10, 1, 5] {
        list.set(of, pool[place], kept(place));
    }
}

/// Calls that look random and are the same each time.
fn mixed(list: &mut List, of: Of, seed: u64) {
    let pool = pool();
    let mut random = Random::new(seed);
    for _ in 0..30 {
        let cell = random.one_of(&pool);
        match random.below(10) {
            0..=4 => {
                let kept = random.next() >> if of == Of::Flags { 32 } else { 0 };
                list.set(of, cell, kept);
            }
            5..=7 => list.remove(of, cell),
            8 => list.on_a_table(Call::Get(of), cell, 0),
            _ => list.on_a_table(Call::Contains(of), cell, 0),
        }
    }
    list.clear(of);
}

const TINY: f64 = f64::from_bits(1);

fn aggregates(list: &mut List) {
    let pool = pool();
    let missing = pool[11];
    let all = [0, 1, 2, 3, 4, 5];
    for how in all {
        list.aggregate(missing, how);
    }
    list.aggregate(missing, 6);
    let sets: [&[f64]; 10] = [
        &[-0.0],
        &[0.0, -0.0],
        &[1e16, 1.0, -1e16],
        &[3.0, 1.0, 2.0, 2.0],
        &[2.0, 1.0, 2.0],
        &[f64::INFINITY, f64::NEG_INFINITY],
        &[f64::MAX, f64::MAX, f64::NEG_INFINITY],
        &[TINY, -TINY, f64::MIN_POSITIVE],
        &[0.1, 0.2, 0.3, 0.4, 0.5, 0.6, 0.7, 0.8],
        &[1.0, f64::NAN],
    ];
    for values in sets {
        list.keep(&pool, values);
        for how in all {
            list.aggregate(missing, how);
        }
        // A cell of the table counts twice.
        list.aggregate(pool[0], 1);
        list.aggregate(pool[0], 5);
    }
    list.aggregate(missing, 255);
    list.clear(Of::Values);
}

fn rollups(list: &mut List) {
    let left_out = [cell(0, 0, [0, 0, 0], 0), cell(0, 1, [0, 1, 0], 0)];
    let family = [
        cell(0, 1, [0, 0, 0], 0),
        cell(0, 1, [1, 1, 1], 0),
        cell(0, 1, [0, 0, 0], 0x0A50),
        cell(0, 1, [2, 0, 0], 0),
        cell(0, 1, [4, 2, 2], 0),
        cell(0, 1, [-2, 0, 0], 0),
        cell(0, 2, [0, 0, 0], 0),
        cell(1, 1, [0, 0, 0], 0),
    ];
    let all = [0, 1, 2, 3, 4, 5];
    // Refused over an empty coarse table.
    list.keep(&family, &[1.0, f64::NAN, 2.0]);
    for how in [6, 255, 1, 2, 3, 4, 5] {
        list.rollup(how);
    }
    list.rollup(0);
    list.empty_coarse();
    // A NaN of cells that are left out does no harm.
    list.keep(&left_out, &[f64::NAN, f64::NAN]);
    for how in all {
        list.rollup(how);
    }
    list.keep(
        &[left_out[0], family[0], left_out[1], family[1]],
        &[f64::NAN, 2.0, f64::NAN, 3.0],
    );
    for how in all {
        list.rollup(how);
    }
    for values in [
        [0.1, 0.2, 0.3, 0.4, 0.5, 0.6, 0.7, 0.8],
        [-0.0, 0.0, -0.0, 1e16, 1.0, -1e16, TINY, -TINY],
        [
            f64::INFINITY,
            f64::NEG_INFINITY,
            f64::INFINITY,
            f64::NEG_INFINITY,
            f64::MAX,
            f64::MAX,
            f64::MAX,
            -f64::MAX,
        ],
    ] {
        list.keep(&family, &values);
        for how in all {
            list.rollup(how);
        }
    }
    list.empty_coarse();
}

/// How many records there are, all of them in order, and their calls.
pub fn records() -> (usize, Vec<u8>, Vec<u8>) {
    let mut list = List {
        flags: Table::new(Of::Flags),
        values: Table::new(Of::Values),
        coarse: Table::new(Of::Values),
        bytes: Vec::new(),
        calls: Vec::new(),
    };
    for of in Of::BOTH {
        fill(&mut list, of);
        mixed(&mut list, of, 1);
    }
    aggregates(&mut list);
    rollups(&mut list);
    (list.bytes.len() / RECORD, list.bytes, list.calls)
}
