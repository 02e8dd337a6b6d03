//! Compares the rings, shells and lines of include/tishkolan.h with the oracle's: answers, refusals
//! with all that they carry, and every byte lent and beside it.
//!
//!     compare_paths [--seconds N] [--seed S] [--library COMMAND...]
//!
//! COMMAND runs the program of paths.c; it is the one that tests/run builds unless given.
//! The limits come first, always; then random inputs for N seconds (5 unless given). Exit status 1
//! where anything differs, 2 where it could not be compared.

use compare::paths::{limits, random};
use compare::{expected, side_by_side};

fn main() {
    expected::quiet();
    side_by_side::run(
        "compare_paths",
        "target/tests/paths",
        limits::limits,
        random::random,
    )
}
