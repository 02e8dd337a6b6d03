//! Compares the searches of include/tishkolan.h with the oracle's: answers, refusals with all that
//! they carry, and every byte lent and beside it.
//!
//!     compare_searches [--seconds N] [--seed S] [--library COMMAND...]
//!
//! COMMAND runs the program of searches.c; it is the one that tests/run builds unless given.
//! The limits come first, always; then random inputs for N seconds (5 unless given). Exit status 1
//! where anything differs, 2 where it could not be compared.

use compare::searches::{limits, random};
use compare::{expected, side_by_side};

fn main() {
    expected::quiet();
    side_by_side::run(
        "compare_searches",
        "target/tests/searches",
        limits::limits,
        random::random,
    )
}
