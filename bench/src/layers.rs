//! The calls on layers, beside the Rust's `Layer<u32>` and `Layer<f64>`, which are hash maps. Every call of the library first tests that the table it was lent is a layer: what
//! that test takes by itself (`flags_count`, `values_count` do nothing else) stands at the end of the line.

#![allow(deprecated)]

use crate::face::*;
use crate::timing::{line, mix, mix_all, next, readied, steady, time, times, Side};
use original::id::CellID;
use original::layer::Layer;
use std::hint::black_box;

pub const MOST_CELLS: usize = 1024;

/// The cells that one batch sets: a layer of 100 goes from 96 to 104.
const BATCH: usize = 8;

/// The calls on a kept cell that one batch makes.
const LOOKS: usize = 64;

type Set<Word> = unsafe extern "C" fn(*mut u8, usize, usize, *const u8, usize, Word) -> CountAnswer;
type Get = unsafe extern "C" fn(*const u8, usize, usize, *const u8, usize) -> KeptAnswer;
type Contains = unsafe extern "C" fn(*const u8, usize, usize, *const u8, usize) -> NumberAnswer;
type Count = unsafe extern "C" fn(*const u8, usize, usize) -> CountAnswer;

/// What a layer keeps of a cell, and the library's calls on such layers.
pub trait Kept: Copy {
    const NAME: &'static str;
    /// The bytes of a record.
    const WIDTH: usize;
    type Word;
    const SET: Set<Self::Word>;
    const GET: Get;
    const CONTAINS: Contains;
    const COUNT: Count;

    /// Flags, or a number of quarters: a sum of those is exact in any order.
    fn of(random: u64) -> Self;
    fn word(self) -> Self::Word;
    fn number(self) -> u64;
    fn from_number(number: u64) -> Self;
}

impl Kept for u32 {
    const NAME: &'static str = "flags";
    const WIDTH: usize = 20;
    type Word = u32;
    const SET: Set<u32> = tishkolan_flags_set;
    const GET: Get = tishkolan_flags_get;
    const CONTAINS: Contains = tishkolan_flags_contains;
    const COUNT: Count = tishkolan_flags_count;

    fn of(random: u64) -> u32 {
        random as u32
    }

    fn word(self) -> u32 {
        self
    }

    fn number(self) -> u64 {
        self.into()
    }

    fn from_number(number: u64) -> u32 {
        number as u32
    }
}

impl Kept for f64 {
    const NAME: &'static str = "values";
    const WIDTH: usize = 24;
    type Word = u64;
    const SET: Set<u64> = tishkolan_values_set;
    const GET: Get = tishkolan_values_get;
    const CONTAINS: Contains = tishkolan_values_contains;
    const COUNT: Count = tishkolan_values_count;

    fn of(random: u64) -> f64 {
        (random % 1_000_000 + 1) as f64 / 4.0
    }

    fn word(self) -> u64 {
        self.to_bits()
    }

    fn number(self) -> u64 {
        self.to_bits()
    }

    fn from_number(number: u64) -> f64 {
        f64::from_bits(number)
    }
}

/// A cell on both sides.
#[derive(Clone, Copy)]
pub struct Both {
    pub cell: CellID,
    pub bytes: [u8; 16],
}

impl From<CellID> for Both {
    fn from(cell: CellID) -> Both {
        let bytes = cell.to_bytes();
        Both { cell, bytes }
    }
}

/// So many different cells, in random order.
pub fn cells(count: usize, state: &mut u64) -> Vec<Both> {
    let mut found: Vec<Both> = Vec::new();
    while found.len() < count {
        let word = next(state);
        let odd = (word >> 60 & 1) as i32;
        let at = |shift: u32| ((word >> shift) as i32 % 1000) * 2 + odd;
        let cell = CellID::from_coords(1, 9, at(0), at(20), at(28)).unwrap();
        if found.iter().all(|other| other.cell != cell) {
            found.push(cell.into());
        }
    }
    found
}

/// A table with room for all cells, and how many of them it has.
#[derive(Clone)]
pub struct Table {
    pub bytes: Vec<u8>,
    pub count: usize,
}

impl Table {
    pub fn of<T: Kept>(mut records: Vec<(Both, T)>) -> Table {
        records.sort_by_key(|(both, _)| both.bytes);
        let count = records.len();
        let mut bytes: Vec<u8> = Vec::new();
        for (both, kept) in records {
            bytes.extend(record(both.bytes, kept));
        }
        bytes.resize(MOST_CELLS * T::WIDTH, 0);
        Table { bytes, count }
    }

    /// The same, made of the Rust's.
    pub fn of_layer<T: Kept>(layer: &Layer<T>) -> Table {
        Table::of(
            layer
                .iter()
                .map(|(&cell, &kept)| (cell.into(), kept))
                .collect(),
        )
    }

    fn set<T: Kept>(&mut self, cell: &[u8; 16], kept: T) -> u64 {
        let (table, length) = (self.bytes.as_mut_ptr(), self.bytes.len());
        let answer = unsafe { T::SET(table, length, self.count, cell.as_ptr(), 16, kept.word()) };
        assert_eq!(answer.refusal.number, 0);
        self.count = answer.count as usize;
        answer.count
    }
}

/// A record's bytes, the first `T::WIDTH` of these.
pub fn record<T: Kept>(cell: [u8; 16], kept: T) -> impl Iterator<Item = u8> {
    let number = kept.number().to_be_bytes();
    cell.into_iter()
        .chain(number.into_iter().skip(24 - T::WIDTH))
}

/// Random records of these cells.
pub fn records<T: Kept>(cells: &[Both], state: &mut u64) -> Vec<(Both, T)> {
    cells
        .iter()
        .map(|&both| (both, T::of(next(state))))
        .collect()
}

/// The Rust's layer. It held some cells more before, so that no later set makes it grow.
pub fn layer_of<T: Kept>(records: &[(Both, T)], more: &[Both]) -> Layer<T> {
    let mut layer = Layer::new("");
    for (both, kept) in records {
        layer.set(both.cell, *kept);
    }
    for both in more {
        layer.set(both.cell, T::of(0));
    }
    for both in more {
        layer.remove(&both.cell);
    }
    layer
}

/// The nanoseconds of the test that a table is a layer.
pub fn test<T: Kept>(table: &Table) -> f64 {
    time(
        LOOKS,
        &mut steady(table, |table| {
            mix_all((0..LOOKS).map(|_| {
                let table = black_box(&**table);
                let answer =
                    unsafe { T::COUNT(table.bytes.as_ptr(), table.bytes.len(), table.count) };
                black_box(answer.count)
            }))
        }),
    )
}

/// One line, where the answers and what they left agree.
pub fn row<S, T>(
    name: &str,
    calls: usize,
    test: f64,
    mut library: Side<S, impl FnMut(&mut S), impl FnMut(&mut S) -> u64>,
    mut rust: Side<T, impl FnMut(&mut T), impl FnMut(&mut T) -> u64>,
) {
    assert_eq!(
        library.answer(),
        rust.answer(),
        "{name}: the answers differ"
    );
    let best = times(calls, &mut library, &mut rust);
    println!("{} {test:>11.2}", line(name, best));
}

/// Set, get and contains in a layer of so many cells.
fn single<T: Kept>(size: usize, state: &mut u64) {
    let kind = T::NAME;
    let cells = cells(size + 4 * BATCH, state);
    let (held, others) = cells.split_at(size);
    let kept = T::of(next(state));

    // From a little below the size to a little above; some layers at a time where they are small.
    let (below, new) = cells[..size + BATCH / 2].split_at(size - BATCH / 2);
    let records_below = records::<T>(below, state);
    let layers = (512 / size).max(1);
    let mut full = Table::of(records_below.clone());
    full.bytes.truncate((size + BATCH) * T::WIDTH);
    let full_layer = layer_of(&records_below, &cells[below.len()..]);
    let table = Table::of(records::<T>(held, state));
    let test = test::<T>(&table);
    println!("{:38} {test:>11.2}", format!("{kind}_count, {size} cells"));
    row(
        &format!("{kind}_set, a new cell, {size} cells"),
        layers * BATCH,
        test,
        readied(
            vec![full.clone(); layers],
            |tables: &mut Vec<Table>| *tables = vec![full.clone(); layers],
            |tables: &mut Vec<Table>| {
                mix_all(tables.iter_mut().map(|table| {
                    mix_all(
                        new.iter()
                            .map(|both| table.set(&both.bytes, black_box(kept))),
                    )
                }))
            },
        ),
        readied(
            vec![full_layer.clone(); layers],
            |all: &mut Vec<Layer<T>>| *all = vec![full_layer.clone(); layers],
            |all: &mut Vec<Layer<T>>| {
                mix_all(all.iter_mut().map(|layer| {
                    mix_all(new.iter().map(|both| {
                        layer.set(black_box(both.cell), black_box(kept));
                        layer.len() as u64
                    }))
                }))
            },
        ),
    );
    let mut after = full.clone();
    let mut after_layer = full_layer.clone();
    for both in new {
        after.set(&both.bytes, kept);
        after_layer.set(both.cell, kept);
    }
    let wanted = Table::of_layer(&after_layer);
    assert!(
        wanted.bytes.starts_with(&after.bytes),
        "{kind}_set: the layers differ"
    );

    let looked: Vec<Both> = (0..LOOKS)
        .map(|_| held[next(state) as usize % size])
        .collect();
    let missed: Vec<Both> = (0..LOOKS)
        .map(|_| others[next(state) as usize % others.len()])
        .collect();
    let layer = layer_of(&records_of(&table), others);
    row(
        &format!("{kind}_set, a kept cell, {size} cells"),
        LOOKS,
        test,
        steady(table.clone(), |table: &mut Table| {
            mix_all(
                looked
                    .iter()
                    .map(|both| table.set(&both.bytes, black_box(kept))),
            )
        }),
        steady(layer.clone(), |layer: &mut Layer<T>| {
            mix_all(looked.iter().map(|both| {
                layer.set(black_box(both.cell), black_box(kept));
                layer.len() as u64
            }))
        }),
    );
    row(
        &format!("{kind}_get, a kept cell, {size} cells"),
        LOOKS,
        test,
        steady(&table, |table| {
            mix_all(looked.iter().map(|both| {
                let (bytes, length) = (table.bytes.as_ptr(), table.bytes.len());
                let cell = black_box(both.bytes.as_ptr());
                unsafe { T::GET(bytes, length, table.count, cell, 16) }.kept
            }))
        }),
        steady(&layer, |layer| {
            mix_all(looked.iter().map(|both| {
                let kept = layer.get(&black_box(both.cell));
                black_box(kept.map_or(0, |kept| kept.number()))
            }))
        }),
    );
    for (which, asked) in [("a kept", &looked), ("another", &missed)] {
        row(
            &format!("{kind}_contains, {which} cell, {size} cells"),
            LOOKS,
            test,
            steady(&table, |table| {
                mix_all(asked.iter().map(|both| {
                    let (bytes, length) = (table.bytes.as_ptr(), table.bytes.len());
                    let cell = black_box(both.bytes.as_ptr());
                    unsafe { T::CONTAINS(bytes, length, table.count, cell, 16) }.value as u64
                }))
            }),
            steady(&layer, |layer| {
                mix_all(
                    asked
                        .iter()
                        .map(|both| black_box(layer.contains(&black_box(both.cell))) as u64),
                )
            }),
        );
    }
}

/// A table's records again.
fn records_of<T: Kept>(table: &Table) -> Vec<(Both, T)> {
    table
        .bytes
        .chunks_exact(T::WIDTH)
        .take(table.count)
        .map(|record| {
            let (cell, kept) = record.split_at(16);
            let number = kept
                .iter()
                .fold(0, |number, &byte| number << 8 | u64::from(byte));
            let cell = CellID::from_bytes(cell.try_into().unwrap());
            (cell.into(), T::from_number(number))
        })
        .collect()
}

pub fn rows() {
    let mut state = mix(2, 3);
    for size in [10, 100, 1000] {
        single::<u32>(size, &mut state);
    }
    for size in [10, 100, 1000] {
        single::<f64>(size, &mut state);
    }
}
