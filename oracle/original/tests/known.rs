//! What the Rust as published does where the port refuses: a release, overflow checks off. The
//! examples of docs/DIFFERENCES.md. Run by tests/run.

#![allow(deprecated)]

use original::error::Error;
use original::id::CellID;
use original::lattice::{Lattice, LatticeCoord};
use original::layer::{Aggregation, Layer};
use original::path::{astar, astar_with_limit, k_ring, k_shell, trace_line, EuclideanCost};
use std::panic::catch_unwind;

fn coord(x: i32, y: i32, z: i32) -> LatticeCoord {
    LatticeCoord::new(x, y, z).unwrap()
}

fn plain(x: i32, y: i32, z: i32) -> CellID {
    CellID::from_coords(0, 0, x, y, z).unwrap()
}

#[test]
fn neighbors_wrap() {
    let neighbors = plain(2147483646, 0, 0).neighbors();
    assert_eq!(neighbors.len(), 14);
    assert!(neighbors.contains(&plain(-2147483648, 0, 0)));
}

#[test]
fn children_wrap() {
    let children = |cell: CellID| {
        let children = cell.children().unwrap();
        let place = |child: &CellID| (child.x(), child.y(), child.z());
        children.iter().map(place).collect::<Vec<_>>()
    };
    assert_eq!(children(plain(1073741823, 1, 1))[1], (-2147483648, 2, 2));
    assert_eq!(children(plain(1073741824, 0, 0))[0], (-2147483648, 0, 0));
    assert_eq!(children(plain(0, -1073741824, 0))[6], (1, 2147483647, 1));
}

#[test]
fn distances_wrap() {
    // 2147483648 is its own opposite; a larger difference comes out small.
    let (low, zero) = (coord(-2147483648, 0, 0), coord(0, 0, 0));
    assert_eq!(zero.distance_to(&low), 2147483648.0);
    assert_eq!(low.distance_to(&coord(2147483646, 0, 0)), 2.0);
    assert_eq!(low.manhattan_distance_to(&zero), -2147483648);
    assert_eq!(
        coord(2147483646, 2, 0).manhattan_distance_to(&zero),
        -2147483648
    );
}

#[test]
fn cell_between_wraps_to_nothing() {
    let (here, far) = (plain(0, 0, 0), plain(-2147483648, 0, 0));
    assert_eq!(here.cell_between(far), None);
}

#[test]
fn mixed_parity_is_a_panic() {
    let mixed = CellID::from_bytes((1u128 << 64).to_be_bytes());
    assert_eq!((mixed.x(), mixed.y(), mixed.z()), (0, 1, 0));
    assert!(catch_unwind(|| mixed.neighbors()).is_err());
    assert!(catch_unwind(|| mixed.cell_between(plain(0, 0, 0))).is_err());
    assert!(catch_unwind(|| k_ring(mixed, 1)).is_err());
    assert!(catch_unwind(|| k_shell(mixed, 1)).is_err());
    assert!(catch_unwind(|| astar(mixed, plain(0, 0, 0), &EuclideanCost)).is_err());
    assert!(catch_unwind(|| astar(plain(0, 0, 0), mixed, &EuclideanCost)).is_err());
}

#[test]
fn there_is_no_cell_between() {
    assert_eq!(plain(0, 0, 0).cell_between(plain(2, 0, 0)), None);
}

#[test]
fn unchecked_points_are_answered() {
    let mixed = LatticeCoord::new_unchecked(0, 1, 0);
    assert_eq!(mixed.to_physical(), (0.0, 1.0, 0.0));
    assert_eq!(mixed.distance_to(&coord(0, 0, 0)), 1.0);
    assert_eq!(mixed.manhattan_distance_to(&coord(0, 0, 0)), 1);
    assert_eq!(Lattice::get_neighbors(&mixed).len(), 14);
    assert_eq!(Lattice::get_children(&mixed).len(), 8);
    let parent = Lattice::get_parent(&mixed);
    assert_eq!((parent.x, parent.y, parent.z), (0, 0, 0));
}

#[test]
fn rings_wrap_and_have_no_limit() {
    let ring = k_ring(plain(2147483646, 0, 0), 1);
    assert_eq!(ring.len(), 15);
    assert!(ring.contains(&plain(-2147483648, 0, 0)));
    assert_eq!(k_ring(plain(0, 0, 0), 25).len(), 66_351);
}

#[test]
fn lines_wrap() {
    // The difference comes out as -2, and all four samples are out of range.
    let (low, high) = (plain(-2147483648, 0, 0), plain(2147483646, 0, 0));
    assert_eq!(trace_line(low, high), Ok(vec![low, high]));
}

#[test]
fn ties_fall_as_the_heap_has_them() {
    let limited = |limit| astar_with_limit(plain(0, 0, 0), plain(2, 2, 0), &EuclideanCost, limit);
    assert!(limited(3).is_err());
    assert!(limited(4).is_ok());
    let path = astar(plain(0, 0, 0), plain(3, 1, 1), &EuclideanCost).unwrap();
    let route = [plain(0, 0, 0), plain(1, 1, 1), plain(3, 1, 1)];
    assert_eq!(path.cells, route);
}

#[test]
fn a_flagged_goal_is_searched_to_the_limit() {
    let goal = CellID::new(0, 0, 4, 4, 4, 0, 1).unwrap();
    let limit = Error::SearchLimitExceeded {
        expansions: 100_001,
        limit: 100_000,
    };
    let said = astar(plain(0, 0, 0), goal, &EuclideanCost);
    assert_eq!(said.unwrap_err(), limit);
}

#[test]
fn searches_wrap() {
    // Over the edge by one step, and to a goal that is 2^31 away.
    let (low, high) = (plain(-2147483648, 0, 0), plain(2147483646, 0, 0));
    let path = astar(high, low, &EuclideanCost).unwrap();
    assert_eq!((path.cells, path.cost), (vec![high, low], 2.0));
}

#[test]
fn layers_have_no_limit() {
    let mut layer = Layer::new("layer");
    for i in 0..1025 {
        layer.set(plain(2 * i, 0, 0), 0u32);
    }
    assert_eq!(layer.len(), 1025);
}

#[test]
fn sums_begin_at_minus_zero_and_make_nans() {
    let mut layer = Layer::new("layer");
    let cells = [plain(0, 0, 0), plain(2, 0, 0)];
    layer.set(cells[0], -0.0);
    let sum = layer.aggregate(&cells, Aggregation::Sum).unwrap();
    assert_eq!(sum.to_bits(), (-0.0f64).to_bits());
    layer.set(cells[0], f64::INFINITY);
    layer.set(cells[1], f64::NEG_INFINITY);
    assert!(layer.aggregate(&cells, Aggregation::Sum).unwrap().is_nan());
}
