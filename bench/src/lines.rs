//! Lines of 10, 1,000 and 100,000 steps beside the Rust's: into an output that they fill, where the
//! library first goes along the line to see whether it fits, and into one that is surely long enough.

#![allow(deprecated)]

use crate::face::*;
use crate::timing::{line, steady, times};
use original::id::CellID;
use original::path::trace_line;
use std::hint::black_box;

fn line_library(start: &[u8; 16], end: &[u8; 16], output: &mut [u8]) -> u64 {
    let answer = unsafe {
        tishkolan_trace_line(
            black_box(start.as_ptr()),
            start.len(),
            end.as_ptr(),
            end.len(),
            output.as_mut_ptr(),
            output.len(),
        )
    };
    assert_eq!(answer.refusal.number, 0);
    answer.count
}

pub fn rows() {
    let start = CellID::from_coords(1, 9, 12, -8, 4).unwrap();
    for [x, y, z] in [[5, 3, -1], [500, 334, -66], [50_000, 33_334, -6666]] {
        let end = CellID::from_coords(1, 9, 12 + x, -8 + y, 4 + z).unwrap();
        let ends = [start.to_bytes(), end.to_bytes()];
        let wanted = trace_line(start, end).unwrap();
        let listed: Vec<u8> = wanted.iter().flat_map(CellID::to_bytes).collect();
        for (which, length) in [("tight", listed.len()), ("long", 16 * (2 * x as usize + 2))] {
            let mut output = vec![0; length];
            line_library(&ends[0], &ends[1], &mut output);
            assert!(
                output[..listed.len()] == listed,
                "trace_line: the lines differ"
            );
            let best = times(
                1,
                &mut steady(output, |output| line_library(&ends[0], &ends[1], output)),
                &mut steady((start, end), |(start, end)| {
                    let line = trace_line(black_box(*start), *end).unwrap();
                    black_box(line).len() as u64
                }),
            );
            let name = format!("trace_line, {} steps, {which}", 2 * x);
            println!("{}", line(&name, best));
        }
    }
}
