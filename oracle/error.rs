//! A stand-in for the error.rs of the repository: the cases that the four files name, with what
//! they are given there.

#[derive(Debug, Clone, PartialEq, Eq)]
pub enum Error {
    InvalidParity { x: i32, y: i32, z: i32 },
    NoParent,
    NoChildren,
    OutOfRange(String),
    InvalidAggregation(String),
    SearchLimitExceeded { expansions: usize, limit: usize },
    NoPathFound { start: String, goal: String },
    Bech32Error(String),
    EncodingError(String),
    DecodingError(String),
}

pub type Result<T> = std::result::Result<T, Error>;
