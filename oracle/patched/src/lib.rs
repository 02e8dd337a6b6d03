//! The four files of OctaIndex3D 06c219835a (MIT: oracle/octaindex3d/LICENSE), with the two patches of oracle/patches: what Tishkolan is compared with.

#![allow(deprecated)]

#[path = "../../error.rs"]
pub mod error;
#[path = "../../../target/oracle-source/id.rs"]
#[rustfmt::skip]
pub mod id;
#[path = "../../../target/oracle-source/lattice.rs"]
#[rustfmt::skip]
pub mod lattice;
#[path = "../../../target/oracle-source/layer.rs"]
#[rustfmt::skip]
pub mod layer;
#[path = "../../../target/oracle-source/path.rs"]
#[rustfmt::skip]
pub mod path;
