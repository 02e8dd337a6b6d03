//! The calls on layers, aggregates and survey files: as data, what they have to say, and inputs.

pub mod calls;
pub mod expected;
pub mod limits;
pub mod random;
pub mod survey;
pub mod table;
