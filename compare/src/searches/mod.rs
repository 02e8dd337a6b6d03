//! The search: its two calls as data, a plain reading of the specification that is held to the
//! oracle's own answers, and inputs.

pub mod calls;
pub mod limits;
pub mod random;
pub mod reading;
