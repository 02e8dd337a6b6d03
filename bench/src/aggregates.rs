//! Aggregates and rollups of a full value layer, beside the Rust's.

#![allow(deprecated)]

use crate::face::*;
use crate::layers::{cells, layer_of, records, row, test, Both, Table, MOST_CELLS};
use crate::timing::{next, steady};
use original::id::CellID;
use original::layer::Aggregation;
use std::hint::black_box;

const SUM: (u32, &str, Aggregation) = (1, "Sum", Aggregation::Sum);
const MEAN: (u32, &str, Aggregation) = (2, "Mean", Aggregation::Mean);
const MEDIAN: (u32, &str, Aggregation) = (5, "Median", Aggregation::Median);

/// Aggregates of lists of kept cells, in a full layer.
fn aggregates(state: &mut u64) {
    let cells = cells(MOST_CELLS, state);
    let records = records::<f64>(&cells, state);
    let layer = layer_of(&records, &[]);
    let table = Table::of(records);
    let test = test::<f64>(&table);
    for size in [8, 100, MOST_CELLS] {
        let list: Vec<Both> = (0..size)
            .map(|_| cells[next(state) as usize % MOST_CELLS])
            .collect();
        let bytes: Vec<u8> = list.iter().flat_map(|both| both.bytes).collect();
        let list: Vec<CellID> = list.iter().map(|both| both.cell).collect();
        for (how, name, aggregation) in [SUM, MEDIAN] {
            row(
                &format!("values_aggregate, {name} of {size}"),
                1,
                test,
                steady(&table, |table| {
                    let (begin, length) = (table.bytes.as_ptr(), table.bytes.len());
                    let (list, list_length) = (black_box(bytes.as_ptr()), bytes.len());
                    unsafe {
                        tishkolan_values_aggregate(
                            begin,
                            length,
                            table.count,
                            list,
                            list_length,
                            how,
                        )
                    }
                    .bits
                }),
                steady(&layer, |layer| {
                    let answer = layer.aggregate(black_box(&list), aggregation);
                    answer.unwrap().to_bits()
                }),
            );
        }
    }
}

/// Rollups of a full layer: eight cells to each parent, and random cells, nearly all alone.
fn rollups(state: &mut u64) {
    let mut parents = Vec::new();
    for both in cells(2 * MOST_CELLS, state) {
        if parents.len() < MOST_CELLS / 8 {
            let children = both.cell.children().unwrap();
            let parent = children[0].parent().unwrap();
            let alone = children
                .iter()
                .all(|child| child.parent().unwrap() == parent);
            if alone && parents.iter().all(|(other, _)| *other != parent) {
                parents.push((parent, children));
            }
        }
    }
    let families: Vec<Both> = parents
        .into_iter()
        .flat_map(|(_, children)| children)
        .map(Both::from)
        .collect();
    let random = cells(MOST_CELLS, state);
    for (which, fine) in [("groups of 8", &families), ("random", &random)] {
        assert_eq!(fine.len(), MOST_CELLS, "{which}");
        let records = records::<f64>(fine, state);
        let layer = layer_of(&records, &[]);
        let table = Table::of(records);
        let coarse = Table::of::<f64>(Vec::new());
        let test = test::<f64>(&table);
        for (how, name, aggregation) in [SUM, MEAN, MEDIAN] {
            let roll = |coarse: &mut Table| {
                let (fine, length) = (black_box(table.bytes.as_ptr()), table.bytes.len());
                let (out, out_length) = (coarse.bytes.as_mut_ptr(), coarse.bytes.len());
                let answer = unsafe {
                    tishkolan_values_rollup(
                        fine,
                        length,
                        table.count,
                        how,
                        out,
                        out_length,
                        coarse.count,
                    )
                };
                assert_eq!(answer.refusal.number, 0);
                coarse.count = answer.count as usize;
                answer.count
            };
            let mut rolled = coarse.clone();
            roll(&mut rolled);
            let wanted = Table::of_layer(&layer.rollup(aggregation).unwrap());
            assert!(
                rolled.bytes == wanted.bytes,
                "values_rollup: the layers differ"
            );
            row(
                &format!("values_rollup, {name} of 1024, {which}"),
                1,
                test,
                steady(coarse.clone(), roll),
                steady(&layer, |layer| {
                    black_box(layer.rollup(black_box(aggregation)).unwrap()).len() as u64
                }),
            );
        }
    }
}

pub fn rows() {
    let mut state = 7;
    aggregates(&mut state);
    rollups(&mut state);
}
