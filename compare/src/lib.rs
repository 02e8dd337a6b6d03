//! The calls of include/tishkolan.h as data, what the oracle answers to each, and what holds the
//! library to that.

pub mod calls;
pub mod expected;
pub mod inputs;
pub mod labels;
pub mod layers;
pub mod lent;
mod library;
pub mod paths;
mod pipe;
pub mod random;
pub mod routes;
pub mod searches;
pub mod side_by_side;
