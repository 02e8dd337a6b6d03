//! The known points of the specification and the knowing differences of docs/DIFFERENCES.md, as
//! the oracle has them: patched, overflow checks on. Run by tests/run.

#![allow(deprecated)]

use oracle::error::Error;
use oracle::id::CellID;
use oracle::lattice::{Lattice, LatticeCoord};
use oracle::layer::{Aggregation, CellFlags, Layer};
use oracle::path::{
    astar, astar_with_limit, k_ring, k_shell, trace_line, AvoidBlockedCost, EuclideanCost,
};
use std::panic::catch_unwind;

fn plain(x: i32, y: i32, z: i32) -> CellID {
    CellID::from_coords(0, 0, x, y, z).unwrap()
}

fn coord(x: i32, y: i32, z: i32) -> LatticeCoord {
    LatticeCoord::new(x, y, z).unwrap()
}

/// A cell of any coordinates, mixed ones too.
fn any(x: i32, y: i32, z: i32) -> CellID {
    let word = |number: i32| u128::from(number as u32);
    CellID::from_bytes((word(z) << 96 | word(y) << 64 | word(x) << 32).to_be_bytes())
}

fn coordinates(cells: &[CellID]) -> Vec<(i32, i32, i32)> {
    cells
        .iter()
        .map(|cell| (cell.x(), cell.y(), cell.z()))
        .collect()
}

/// What the Rust says where it panics.
fn panics<T>(call: impl FnOnce() -> T + std::panic::UnwindSafe) -> String {
    match catch_unwind(call) {
        Ok(_) => "it answered".to_string(),
        Err(panic) => match panic.downcast_ref::<&str>() {
            Some(text) => text.to_string(),
            None => panic.downcast_ref::<String>().unwrap().clone(),
        },
    }
}

#[test]
fn cell_and_lattice() {
    let packed = CellID::new(0, 3, 1, -1, 1, 28, 165).unwrap();
    assert_eq!(packed.raw_value(), 0x00000001_FFFFFFFF_00000001_0A5C0300);
    assert_eq!(
        LatticeCoord::new(0, 1, 0),
        Err(Error::InvalidParity { x: 0, y: 1, z: 0 })
    );
    for (child, parent) in [
        ((4, 2, 2), (1, 1, 1)),
        ((-2, 0, 0), (-2, 0, 0)),
        ((-3, 1, -1), (-2, 0, 0)),
    ] {
        let found = Lattice::get_parent(&coord(child.0, child.1, child.2));
        assert_eq!((found.x, found.y, found.z), parent);
    }
    assert_eq!(3.0f64.sqrt().to_bits(), 0x3FFBB67AE8584CAA);
}

#[test]
fn snap() {
    let snap =
        |x, y, z| Lattice::physical_to_lattice(x, y, z, 0).map(|point| (point.x, point.y, point.z));
    assert_eq!(snap(0.5, 0.5, 0.5), Ok((0, 0, 0)));
    assert_eq!(snap(-1.0, 0.0, 0.0), Ok((-2, 0, 0)));
    assert_eq!(snap(2147483646.0, 0.0, 0.0), Ok((2147483646, 0, 0)));
    // It carries a text.
    assert_eq!(
        snap(2147483646.5, 0.0, 0.0),
        Err(Error::OutOfRange(
            "physical coordinate 2147483646.5 out of lattice range at resolution 0".to_string()
        ))
    );
}

#[test]
fn snap_leaves_its_own_range() {
    let top = Lattice::physical_to_lattice(2147483646.0, 2147483645.0, 2147483645.0, 0);
    assert_eq!(top, Ok(coord(2147483647, 2147483645, 2147483645)));
    let bottom = Lattice::physical_to_lattice(-2147483646.0, -2147483645.0, -2147483645.0, 0);
    assert_eq!(bottom, Ok(coord(-2147483647, -2147483645, -2147483645)));
}

#[test]
fn snap_compares_rounded_sums() {
    // x + y + z is one step above 3/2, so (1, 1, 1) is nearer by a hair; the rounded sums tie.
    let z = 0.71875f64.next_up();
    let point = Lattice::physical_to_lattice(0.75, 0.03125, z, 0);
    assert_eq!(point, Ok(coord(0, 0, 0)));
}

#[test]
fn distance_has_a_direction() {
    let (low, zero) = (coord(i32::MIN, 0, 0), coord(0, 0, 0));
    assert_eq!(low.distance_to(&zero), 2147483648.0);
    assert!(panics(move || zero.distance_to(&low)).ends_with("with overflow"));
}

#[test]
fn powers_of_two_are_exact() {
    for resolution in 0..=255u8 {
        let power = f64::from_bits((1023 + u64::from(resolution)) << 52);
        assert_eq!(2.0f64.powi(std::hint::black_box(resolution).into()), power);
    }
}

#[test]
fn search() {
    let (start, goal) = (plain(0, 0, 0), plain(2, 2, 0));
    let limited = |limit| astar_with_limit(start, goal, &EuclideanCost, limit);
    let path = limited(3).unwrap();
    assert_eq!(coordinates(&path.cells), [(0, 0, 0), (1, 1, 1), (2, 2, 0)]);
    assert_eq!(path.cost.to_bits(), 0x400BB67AE8584CAA);
    for (limit, expansions) in [(2, 3), (0, 1)] {
        assert_eq!(
            limited(limit).unwrap_err(),
            Error::SearchLimitExceeded { expansions, limit }
        );
    }
    let path = astar_with_limit(start, plain(3, 1, 1), &EuclideanCost, 100_000).unwrap();
    assert_eq!(coordinates(&path.cells), [(0, 0, 0), (2, 0, 0), (3, 1, 1)]);
    // Not looked at: equal ends.
    let mixed = any(0, 1, 0);
    let path = astar_with_limit(mixed, mixed, &EuclideanCost, 0).unwrap();
    assert_eq!((path.cells, path.cost.to_bits()), (vec![mixed], 0));
}

#[test]
fn line_and_rings() {
    let start = plain(0, 0, 0);
    let line = trace_line(start, plain(2, 2, 0)).unwrap();
    assert_eq!(coordinates(&line), [(0, 0, 0), (1, 1, -1), (2, 2, 0)]);
    let flagged = CellID::new(0, 0, 0, 0, 0, 0, 1).unwrap();
    assert_eq!(trace_line(start, flagged), Ok(vec![start, flagged]));
    assert_eq!([1, 2].map(|k| k_ring(start, k).len()), [15, 65]);
    assert_eq!([1, 2].map(|k| k_ring(flagged, k).len()), [15, 66]);
    // Not looked at: no steps, and equal ends.
    let mixed = any(0, 1, 0);
    assert_eq!(k_ring(mixed, 0), [mixed]);
    assert_eq!(k_shell(mixed, 0), [mixed]);
    assert_eq!(trace_line(mixed, mixed), Ok(vec![mixed]));
}

#[test]
fn layers_are_ascending() {
    // 1e16 + 1 - 1e16 is 0 in this order.
    let mut layer = Layer::new("");
    for (x, value) in [(4, -1e16), (2, 1.0), (0, 1e16)] {
        layer.set(CellID::from_coords(0, 1, x, 0, 0).unwrap(), value);
    }
    let listed: Vec<f64> = layer.iter().map(|(_, &value)| value).collect();
    assert_eq!(listed, [1e16, 1.0, -1e16]);
    assert_eq!(layer.rollup(Aggregation::Count).unwrap().len(), 2);
}

#[test]
fn sums_begin_at_minus_zero() {
    let mut layer = Layer::new("");
    layer.set(plain(0, 0, 0), -0.0);
    let sum = layer.aggregate(&[plain(0, 0, 0)], Aggregation::Sum);
    assert_eq!(sum.unwrap().to_bits(), (-0.0f64).to_bits());
}

// ---- the knowing differences

#[test]
fn overflow_is_a_panic() {
    for call in [
        panics(|| any(2147483646, 0, 0).neighbors()),
        panics(|| any(0, -2147483648, 0).neighbors()),
        panics(|| any(1073741823, 1, 1).children()),
        panics(|| any(1073741824, 0, 0).children()),
        panics(|| any(0, -1073741824, 0).children()),
        panics(|| coord(0, 0, 0).distance_to(&coord(i32::MIN, 0, 0))),
        panics(|| coord(i32::MIN, 0, 0).manhattan_distance_to(&coord(0, 0, 0))),
        panics(|| plain(0, 0, 0).cell_between(any(i32::MIN, 0, 0))),
        panics(|| k_ring(any(2147483646, 0, 0), 1)),
        panics(|| k_shell(any(2147483646, 0, 0), 1)),
        panics(|| trace_line(any(i32::MIN, 0, 0), any(0, 0, 0))),
        panics(|| astar(any(2147483646, 0, 0), any(0, 0, 0), &EuclideanCost)),
        panics(|| astar(any(0, 0, 0), any(i32::MIN, 0, 0), &EuclideanCost)),
    ] {
        assert!(call.ends_with("with overflow"), "{call}");
    }
}

#[test]
fn mixed_parity_is_a_panic() {
    for call in [
        panics(|| any(0, 1, 0).neighbors()),
        panics(|| k_ring(any(0, 1, 0), 1)),
        panics(|| k_shell(any(0, 1, 0), 1)),
        panics(|| any(0, 1, 0).cell_between(any(0, 0, 0))),
        panics(|| astar(any(0, 1, 0), any(0, 0, 0), &EuclideanCost)),
        panics(|| astar(any(0, 0, 0), any(0, 1, 0), &EuclideanCost)),
    ] {
        assert!(
            call.ends_with("InvalidParity { x: 0, y: 1, z: 0 }"),
            "{call}"
        );
    }
}

#[test]
fn a_flagged_goal_is_searched_to_the_limit() {
    let goal = CellID::new(0, 0, 4, 4, 4, 0, 1).unwrap();
    assert_eq!(
        astar(plain(0, 0, 0), goal, &EuclideanCost).unwrap_err(),
        Error::SearchLimitExceeded {
            expansions: 100_001,
            limit: 100_000
        }
    );
}

#[test]
fn no_path_carries_texts() {
    // Its flags, 165, are in none of them.
    let start = CellID::new(0, 0, 0, 0, 0, 0, 165).unwrap();
    let mut flags = Layer::new("");
    for neighbor in start.neighbors() {
        flags.set(neighbor, CellFlags::new(1));
    }
    let shut = AvoidBlockedCost::new(flags, 0.0);
    assert_eq!(
        astar(start, plain(2, 2, 0), &shut).unwrap_err(),
        Error::NoPathFound {
            start: "CellID(frame=0, res=0, x=0, y=0, z=0)".to_string(),
            goal: "CellID(frame=0, res=0, x=2, y=2, z=0)".to_string()
        }
    );
}

#[test]
fn unchecked_points_are_answered() {
    let mixed = LatticeCoord::new_unchecked(0, 1, 0);
    assert_eq!(mixed.to_physical(), (0.0, 1.0, 0.0));
    assert_eq!(Lattice::get_neighbors(&mixed).len(), 14);
    assert_eq!(Lattice::get_parent(&mixed), coord(0, 0, 0));
}

#[test]
fn there_is_no_cell_between() {
    assert_eq!(plain(0, 0, 0).cell_between(plain(2, 0, 0)), None);
    for neighbor in plain(0, 0, 0).neighbors() {
        assert_eq!(plain(0, 0, 0).cell_between(neighbor), None);
    }
}
