//! The calls of the route checker: as data, a second checker made of the oracle's neighbours and
//! costs, and inputs.

pub mod calls;
pub mod checker;
pub mod limits;
pub mod random;
