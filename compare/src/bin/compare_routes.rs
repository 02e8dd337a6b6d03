//! Compares the route checker of include/tishkolan.h with a second one, made of the oracle's
//! neighbours and costs: verdict, choice, and every byte lent and beside it.
//!
//!     compare_routes [--seconds N] [--seed S] [--library COMMAND...]
//!
//! COMMAND runs the program of routes.c; it is the one that tests/run builds unless given.
//! The limits come first, always; then random inputs for N seconds (5 unless given). Exit status 1
//! where anything differs, 2 where it could not be compared.

use compare::routes::{limits, random};
use compare::side_by_side;

fn main() {
    side_by_side::run(
        "compare_routes",
        "target/tests/routes",
        limits::limits,
        random::random,
    )
}
