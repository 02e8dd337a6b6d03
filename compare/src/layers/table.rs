//! A lent table and the oracle's layer that it says: records of a cell and what is kept of it,
//! big-endian, strictly ascending by cell.

#![allow(deprecated)]

use crate::expected::{Refusal, BAD_LAYER};
use oracle::id::CellID;
use oracle::layer::Layer;

pub const MOST_CELLS: usize = 1024;

/// What a layer keeps of a cell.
pub trait Kept: Copy {
    /// The bytes of a record.
    const WIDTH: usize;

    /// From the low bits of a number, and back: flags, or the bits of a value.
    fn of(number: u64) -> Self;
    fn number(self) -> u64;
}

impl Kept for u32 {
    const WIDTH: usize = 20;

    fn of(number: u64) -> u32 {
        number as u32
    }

    fn number(self) -> u64 {
        self.into()
    }
}

impl Kept for f64 {
    const WIDTH: usize = 24;

    fn of(number: u64) -> f64 {
        f64::from_bits(number)
    }

    fn number(self) -> u64 {
        self.to_bits()
    }
}

/// One record.
pub fn record<T: Kept>(cell: CellID, kept: T) -> Vec<u8> {
    let bytes = kept.number().to_be_bytes();
    [&cell.to_bytes(), &bytes[24 - T::WIDTH..]].concat()
}

/// The cell and the kept of a record.
pub fn fields<T: Kept>(record: &[u8]) -> (CellID, T) {
    let (cell, kept) = record.split_at(16);
    let number = kept
        .iter()
        .fold(0, |number, &byte| number << 8 | u64::from(byte));
    (CellID::from_bytes(cell.try_into().unwrap()), T::of(number))
}

/// How many cells a table can hold.
pub fn limit<T: Kept>(table: &[u8]) -> usize {
    (table.len() / T::WIDTH).min(MOST_CELLS)
}

/// The layer that a table and its count say; BadLayer where they say none.
pub fn read<T: Kept>(table: &[u8], count: u64) -> Result<Layer<T>, Refusal> {
    if count > limit::<T>(table) as u64 {
        return Err(Refusal::plain(BAD_LAYER));
    }
    let mut layer = Layer::new("");
    let mut last: Option<CellID> = None;
    for record in table.chunks_exact(T::WIDTH).take(count as usize) {
        let (cell, kept) = fields::<T>(record);
        if last.is_some_and(|last| last.raw_value() >= cell.raw_value()) {
            return Err(Refusal::plain(BAD_LAYER));
        }
        last = Some(cell);
        layer.set(cell, kept);
    }
    Ok(layer)
}

/// A layer's records, ascending.
pub fn records<T: Kept>(layer: &Layer<T>) -> Vec<u8> {
    layer
        .iter()
        .flat_map(|(&cell, &kept)| record(cell, kept))
        .collect()
}

/// Puts a layer's records to the front of the table; the other bytes stay.
pub fn put<T: Kept>(table: &mut [u8], layer: &Layer<T>) {
    let records = records(layer);
    table[..records.len()].copy_from_slice(&records);
}

/// Replaces all contents of a table by a layer. NoRoom 4.
pub fn replace<T: Kept>(table: &mut [u8], layer: &Layer<T>) -> Result<(), Refusal> {
    lay::<T>(table, &records(layer)).map(|_| ())
}

/// Replaces all contents of a table by these records as they stand, and says how many they are:
/// unused whole records within the limit become zero. NoRoom 4.
pub fn lay<T: Kept>(table: &mut [u8], records: &[u8]) -> Result<u64, Refusal> {
    let limit = limit::<T>(table);
    let count = records.len() / T::WIDTH;
    if count > limit {
        return Err(Refusal::no_room(4));
    }
    table[..limit * T::WIDTH].fill(0);
    table[..records.len()].copy_from_slice(records);
    Ok(count as u64)
}
