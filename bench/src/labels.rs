//! The calls on labels, each on the same 4,096 inputs as the Rust's. The Rust runs on the stand-in of
//! oracle/bech32, since the crate that it was published with is not here: its times are the stand-in's.

#![allow(deprecated)]

use crate::cells::{row, INPUTS};
use crate::face::*;
use crate::timing::{mix_all, next};
use original::id::CellID;

fn mix_label(label: &[u8]) -> u64 {
    let word = |at: usize| u64::from_le_bytes(label[at..at + 8].try_into().unwrap());
    mix_all([0, 8, 16, 24, 29].map(word))
}

fn mix_cell(cell: [u8; 16]) -> u64 {
    let raw = u128::from_be_bytes(cell);
    mix_all([(raw >> 64) as u64, raw as u64])
}

pub fn rows() {
    let mut state = 2;
    let mut any = || u128::from(next(&mut state)) << 64 | u128::from(next(&mut state));
    let cells: Vec<CellID> = (0..INPUTS)
        .map(|_| CellID::from_bytes(any().to_be_bytes()))
        .collect();
    let labels: Vec<[u8; 37]> = cells
        .iter()
        .map(|cell| cell.to_bech32m().unwrap().as_bytes().try_into().unwrap())
        .collect();

    row(
        "cell_to_bech32m, beside a stand-in",
        &cells,
        |cell| {
            let mut out = [0; 37];
            let bytes = cell.to_bytes();
            unsafe { tishkolan_cell_to_bech32m(bytes.as_ptr(), 16, out.as_mut_ptr(), 37) };
            mix_label(&out)
        },
        |cell| mix_label(cell.to_bech32m().unwrap().as_bytes()),
    );
    row(
        "cell_from_bech32m, beside a stand-in",
        &labels,
        |label| {
            let mut out = [0; 16];
            unsafe { tishkolan_cell_from_bech32m(label.as_ptr(), 37, out.as_mut_ptr(), 16) };
            mix_cell(out)
        },
        |label| {
            let text = std::str::from_utf8(&label).unwrap();
            mix_cell(CellID::from_bech32m(text).unwrap().to_bytes())
        },
    );
}
