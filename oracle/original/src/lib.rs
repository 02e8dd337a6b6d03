//! The four files of OctaIndex3D 06c219835a (MIT: oracle/octaindex3d/LICENSE), as published: what Tishkolan is timed against.

#![allow(deprecated)]

#[path = "../../error.rs"]
pub mod error;
#[path = "../../octaindex3d/id.rs"]
#[rustfmt::skip]
pub mod id;
#[path = "../../octaindex3d/lattice.rs"]
#[rustfmt::skip]
pub mod lattice;
#[path = "../../octaindex3d/layer.rs"]
#[rustfmt::skip]
pub mod layer;
#[path = "../../octaindex3d/path.rs"]
#[rustfmt::skip]
pub mod path;
