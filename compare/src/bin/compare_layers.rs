//! Compares the calls of include/tishkolan.h on layers, aggregates and survey files with the
//! oracle: answers, refusals with all that they carry, and every byte lent and beside it.
//!
//!     compare_layers [--seconds N] [--seed S] [--library COMMAND...]
//!
//! COMMAND runs the program of layers.c; it is the one that tests/run builds unless given.
//! The limits come first, always; then random inputs for N seconds (5 unless given). Last stand the
//! kinds of survey files, each with how often it came. Exit status 1 where anything differs, 2 where
//! it could not be compared or a kind never came.

use compare::layers::{limits, random};
use compare::side_by_side;

fn main() {
    side_by_side::run(
        "compare_layers",
        "target/tests/layers",
        limits::limits,
        random::random,
    )
}
