//! Compares the calls of include/tishkolan.h on points, cells and labels with the oracle: answers,
//! refusals with all that they carry, and every byte of lent buffers and beside them.
//!
//!     compare [--seconds N] [--seed S] [--library COMMAND...]
//!
//! COMMAND runs the program of answer.c; it is the one that tests/run builds unless given.
//! The limits and all small inputs come first, always; then random inputs for N seconds (5 unless
//! given). Exit status 1 where anything differs, 2 where it could not be compared.

use compare::{expected, inputs, side_by_side};

fn main() {
    expected::quiet();
    side_by_side::run(
        "compare",
        "target/tests/answer",
        |sink| {
            inputs::limits(sink);
            inputs::small(sink);
        },
        inputs::random,
    )
}
