//! Rings of 5, 10 and 24 steps beside the Rust's, once with rooms that just fit and once with the
//! largest that may be named: the library wipes the whole workspace that it is lent.

#![allow(deprecated)]

use crate::face::*;
use crate::timing::{line, steady, time, times};
use original::id::CellID;
use original::path::k_ring;
use std::hint::black_box;

const KNOWN_BYTES: usize = 44;
const MOST_ROOM: usize = 65_536;

/// What a ring is lent.
struct Lent {
    known: usize,
    waiting: usize,
    workspace: Vec<u8>,
    output: Vec<u8>,
}

fn ring_library(center: &[u8; 16], k: u64, lent: &mut Lent) -> u64 {
    let answer = unsafe {
        tishkolan_k_ring(
            black_box(center.as_ptr()),
            center.len(),
            k,
            lent.known,
            lent.waiting,
            lent.workspace.as_mut_ptr(),
            lent.workspace.len(),
            lent.output.as_mut_ptr(),
            lent.output.len(),
        )
    };
    assert_eq!(answer.refusal.number, 0);
    answer.count
}

/// A ring into buffers of these rooms, once it is seen to be the Rust's.
fn lent(bytes: &[u8; 16], k: usize, known: usize, waiting: usize, wanted: &[CellID]) -> Lent {
    let mut lent = Lent {
        known,
        waiting,
        workspace: vec![0; KNOWN_BYTES * known],
        output: vec![0; 16 * wanted.len()],
    };
    ring_library(bytes, k as u64, &mut lent);
    let listed: Vec<u8> = wanted.iter().flat_map(CellID::to_bytes).collect();
    assert!(lent.output == listed, "k_ring: the rings differ");
    lent
}

pub fn rows() {
    let center = CellID::from_coords(1, 9, 12, -8, 4).unwrap();
    let bytes = center.to_bytes();
    for k in [5, 10, 24] {
        let wanted = k_ring(center, k);
        let cells = wanted.len();
        assert_eq!(cells, 4 * k * k * k + 6 * k * k + 4 * k + 1);
        let ring = |lent: &mut Lent| ring_library(&bytes, k as u64, lent);
        let fitting = lent(&bytes, k, cells, 12 * k * k + 2, &wanted);
        let [library, rust] = times(
            1,
            &mut steady(fitting, ring),
            &mut steady(center, |center| {
                black_box(k_ring(black_box(*center), k)).len() as u64
            }),
        );
        println!(
            "{}",
            line(&format!("k_ring {k}, rooms that fit"), [library, rust])
        );
        let largest = lent(&bytes, k, MOST_ROOM, MOST_ROOM, &wanted);
        let library = time(1, &mut steady(largest, ring));
        println!(
            "{}",
            line(&format!("k_ring {k}, rooms of 65536"), [library, rust])
        );
    }
}
