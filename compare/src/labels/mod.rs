//! The calls on labels: a second reading of BIP 350 and of the request's sentences, held to the Rust's
//! own, and inputs. The calls themselves stand in calls.rs.

pub mod inputs;
pub mod reading;
