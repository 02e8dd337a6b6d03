//! The route checker, beside the same judgement made of the Rust's own calls: `neighbors`, the cost
//! function of its search, and its `Layer`, a hash map. The Rust has the route as cells and the layer
//! as a map at hand. In the lines "by distance" it makes no neighbours: it looks whether the step
//! costs what a step can cost (with no overflow checks that is wrong for cells that are 2^32 apart,
//! which these are not). In the lines "from bytes" it makes cells and map anew in each call, of the
//! bytes that the library is lent. Every route is accepted under the avoiding rule: all is read.

#![allow(deprecated)]

use crate::face::*;
use crate::layers::{cells, row, test, Both, Table, MOST_CELLS};
use crate::timing::{next, steady, time};
use original::id::CellID;
use original::layer::{CellFlags, Layer};
use original::path::{AvoidBlockedCost, CostFn};
use std::collections::HashSet;
use std::hint::black_box;

const AVOIDING: u32 = 1;

/// A 100 Hz loop has so many nanoseconds for a pass.
const PASS: f64 = 1e7;

fn is_neighbor(last: CellID, cell: CellID) -> bool {
    last.neighbors().contains(&cell)
}

fn is_a_step_away(last: CellID, cell: CellID) -> bool {
    let kin = last.frame() == cell.frame() && last.resolution() == cell.resolution();
    let plain = cell.raw_value() as u32 >> 16 == 0;
    let (Ok(one), Ok(other)) = (last.lattice_coord(), cell.lattice_coord()) else {
        return false;
    };
    let distance = one.distance_to(&other);
    kin && plain && (distance == 2.0 || distance == 3.0f64.sqrt())
}

/// The Rust's judgement on cells at hand, where the rule is avoiding.
fn judge(
    route: &[CellID],
    cost: f64,
    price: &impl CostFn,
    is_step: impl Fn(CellID, CellID) -> bool,
    (start, goal): (CellID, CellID),
) -> u32 {
    let Some((&first, later)) = route.split_first() else {
        return 20;
    };
    if first != start {
        return 21;
    }
    let (mut last, mut paid) = (first, 0.0);
    for &cell in later {
        if !is_step(last, cell) {
            return 22;
        }
        let step = price.cost(last, cell);
        if step == f64::INFINITY {
            return 23;
        }
        paid += step;
        last = cell;
    }
    match () {
        () if last != goal => 24,
        () if paid.to_bits() != cost.to_bits() => 25,
        () => 0,
    }
}

/// The same, of a cell's 16 bytes each.
fn judge_bytes(route: &[u8], cost: f64, records: &[u8]) -> u32 {
    let cell = |bytes: &[u8]| CellID::from_bytes(bytes[..16].try_into().unwrap());
    let route: Vec<CellID> = route.chunks_exact(16).map(cell).collect();
    let price = prices(records);
    let ends = (route[0], route[route.len() - 1]);
    judge(&route, cost, &price, is_neighbor, ends)
}

/// The layer of these records as the Rust's search takes it.
fn prices(records: &[u8]) -> AvoidBlockedCost {
    let mut layer = Layer::new("");
    for record in records.chunks_exact(20) {
        let (cell, flags) = record.split_at(16);
        let flags = u32::from_be_bytes(flags.try_into().unwrap());
        let cell = CellID::from_bytes(cell.try_into().unwrap());
        layer.set(cell, CellFlags::new(flags));
    }
    AvoidBlockedCost::new(layer, 0.0)
}

fn verdict(route: &[u8], cost: f64, table: &Table) -> u32 {
    let goal = &route[route.len() - 16..];
    unsafe {
        tishkolan_route_verdict(
            route.as_ptr(),
            route.len(),
            route.as_ptr(),
            16,
            goal.as_ptr(),
            16,
            cost.to_bits(),
            table.bytes.as_ptr(),
            table.bytes.len(),
            table.count,
            AVOIDING,
        )
    }
}

/// A random walk of so many cells.
fn walk(length: usize, state: &mut u64) -> Vec<CellID> {
    let mut route = vec![CellID::from_coords(1, 9, 0, 0, 0).unwrap()];
    while route.len() < length {
        let near = route[route.len() - 1].neighbors();
        route.push(near[next(state) as usize % near.len()]);
    }
    route
}

/// So many records: half of them blocked cells beside the route, as far as there are, and the
/// rest anywhere else.
fn layer_beside(route: &[CellID], size: usize, state: &mut u64) -> Vec<(Both, u32)> {
    let mut taken: HashSet<CellID> = route.iter().copied().collect();
    let mut records = Vec::new();
    for near in route.iter().flat_map(CellID::neighbors) {
        if records.len() < size / 2 && taken.insert(near) {
            records.push((Both::from(near), CellFlags::BLOCKED));
        }
    }
    for both in cells(2 * MOST_CELLS, state) {
        if records.len() < size && taken.insert(both.cell) {
            records.push((both, next(state) as u32));
        }
    }
    records
}

/// Both say the same of routes with a fault, too.
fn same_verdicts(route: &[CellID], cost: f64, table: &Table) {
    let bytes = |route: &[CellID]| -> Vec<u8> { route.iter().flat_map(CellID::to_bytes).collect() };
    let used = &table.bytes[..20 * table.count];
    let mut bent = route.to_vec();
    bent[route.len() / 2] = route[0];
    let shut = Table::of(vec![(Both::from(route[1]), 1u32)]);
    for (route, cost, table, used) in [
        (&route[..], cost.next_up(), table, used),
        (&bent[..], cost, table, used),
        (&route[..], cost, &shut, &shut.bytes[..20]),
    ] {
        let route = bytes(route);
        let said = verdict(&route, cost, table);
        assert_ne!(said, 0);
        assert_eq!(said, judge_bytes(&route, cost, used));
    }
}

pub fn rows() {
    let mut state = 11;
    for length in [10, 100, 1000, 60_000] {
        let route = walk(length, &mut state);
        let bytes: Vec<u8> = route.iter().flat_map(CellID::to_bytes).collect();
        for size in [10, MOST_CELLS] {
            let records = layer_beside(&route, size, &mut state);
            assert_eq!(records.len(), size);
            let table = Table::of(records.clone());
            let used: Vec<u8> = table.bytes[..20 * size].to_vec();
            let price = prices(&used);
            let cost = route
                .windows(2)
                .fold(0.0, |paid, step| paid + price.cost(step[0], step[1]));
            let ends = (route[0], route[length - 1]);
            assert_eq!(verdict(&bytes, cost, &table), 0);
            same_verdicts(&route, cost, &table);

            let test = test::<u32>(&table);
            let library = || {
                steady(&table, |table| {
                    verdict(black_box(&bytes), black_box(cost), black_box(table)).into()
                })
            };
            let name = format!("route_verdict, {length} cells, layer {size}");
            row(
                &name,
                1,
                test,
                library(),
                steady(&price, |price| {
                    judge(
                        black_box(&route),
                        black_box(cost),
                        *price,
                        is_neighbor,
                        ends,
                    )
                    .into()
                }),
            );
            row(
                "  by distance",
                1,
                test,
                library(),
                steady(&price, |price| {
                    judge(
                        black_box(&route),
                        black_box(cost),
                        *price,
                        is_a_step_away,
                        ends,
                    )
                    .into()
                }),
            );
            row(
                "  from bytes",
                1,
                test,
                library(),
                steady(&used, |used| {
                    judge_bytes(black_box(&bytes), black_box(cost), black_box(used)).into()
                }),
            );
            if length == 1000 {
                let pass = time(1, &mut library());
                println!(
                    "  one pass: {:.1} us, {:.2} per cent of 10 ms",
                    pass / 1e3,
                    100.0 * pass / PASS
                );
            }
        }
    }
}
