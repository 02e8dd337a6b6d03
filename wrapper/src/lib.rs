//! Tishkolan for Rust: cells of a body-centred cubic lattice, their labels on paper, layers of what is
//! kept of them, survey files, rings, lines, the route checker and the search.
//!
//! Each function is one call of include/tishkolan.h, whose answers and refusals are proved; this crate
//! is not proved but tested. It hands slices over and makes enums of numbers, and does nothing
//! else. Nothing is allocated: you lend the tables of layers, the workspaces of rings and searches and
//! the buffers of answers. A call answers, or refuses with a [`Refusal`], for all values of its
//! arguments, and it ends.
//!
//! The library is there for x86-64 and for 64-bit Arm. The archive libtishkolan.a is looked for in the
//! folder that `TISHKOLAN_LIBRARY_DIR` names, then where `pkg-config` says, then in target/staticlib of
//! the repository, where there is one for each machine.
//!
//! ```
//! use tishkolan::{route_verdict, Cell, Claim, FlagLayer, Flags, Point, Refusal, Rule, Verdict};
//!
//! // A laser point strikes a cell ahead.
//! let mut table = [0; FlagLayer::bytes(1024)];
//! let mut flags = FlagLayer::new(&mut table);
//! let struck = Cell::from_coords(0, 3, Point::new(0.13, 0.12, 0.13).to_lattice(3)?)?;
//! flags.set(&struck, Flags::BLOCKED)?;
//!
//! // The next pass of the flight loop says so.
//! let start = Cell::from_coords(0, 3, Point::new(0.0, 0.0, 0.0).to_lattice(3)?)?;
//! let route = [start, struck];
//! let claim = Claim { route: &route, start, goal: struck, cost: start.distance(&struck)? };
//! assert_eq!(route_verdict(&claim, &flags, Rule::Avoiding), Verdict::BlockedCell);
//! # Ok::<(), Refusal>(())
//! ```
#![deny(missing_docs)]
#![deny(unsafe_op_in_unsafe_fn)]
#![deny(unsafe_code)]

mod cell;
#[allow(unsafe_code)]
mod face;
mod label;
mod lattice;
mod layer;
mod listing;
mod refusal;
mod route;
mod search;
mod survey;

pub use cell::{Cell, Fields};
pub use label::Label;
pub use lattice::{square_root, Coord, Parity, Point};
pub use layer::{Aggregate, FlagLayer, Flags, Kept, Layer, Records, ValueLayer, MOST_CELLS};
pub use listing::{k_ring, k_shell, trace_line, RingWorkspace};
pub use refusal::{LabelFault, Refusal, Room};
pub use route::{route_choice, route_verdict, Choice, Claim, Rule, Verdict};
pub use search::{astar, astar_with_limit, Route, SearchWorkspace};
pub use survey::{load_survey, survey_bytes, write_survey};

/// The version of the archive that is linked: 1,000,000 times its major number, 1,000 times its minor one, and its patch.
///
/// ```
/// assert_eq!(tishkolan::version(), 4_001); // 0.4.1
/// ```
pub fn version() -> u32 {
    face::tishkolan_version()
}
