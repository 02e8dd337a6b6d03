//! A second route checker, read off the specification's section "The route checker" and made of
//! the oracle's own neighbours, cost functions and layer. The Rust has no checker of its own.

#![allow(deprecated)]

use super::calls::{Claim, Under};
use crate::expected::{BAD_LAYER, BAD_RULE};
use crate::layers::expected::{cells, one_cell};
use crate::layers::table;
use oracle::id::CellID;
use oracle::lattice::BCC_NEIGHBORS_14;
use oracle::layer::{CellFlags, Layer};
use oracle::path::{AvoidBlockedCost, CostFn, EuclideanCost};

const ACCEPTED: u32 = 0;
const EMPTY: u32 = 20;
const WRONG_START: u32 = 21;
const NOT_A_NEIGHBOR: u32 = 22;
const BLOCKED: u32 = 23;
const WRONG_GOAL: u32 = 24;
const WRONG_COST: u32 = 25;

/// "A mixed-parity cell has no neighbours. An edge cell's neighbours are here those of the 14 whose
/// coordinates fit i32, without wrapping": where all fit, the oracle's call, which panics elsewhere.
pub fn neighbors(cell: CellID) -> Vec<CellID> {
    let Ok(at) = cell.lattice_coord() else {
        return Vec::new();
    };
    let inside = |number: i32| (-2147483646..=2147483645).contains(&number);
    if inside(at.x) && inside(at.y) && inside(at.z) {
        return cell.neighbors();
    }
    BCC_NEIGHBORS_14
        .iter()
        .filter_map(|&(dx, dy, dz)| {
            let (x, y, z) = (
                at.x.checked_add(dx)?,
                at.y.checked_add(dy)?,
                at.z.checked_add(dz)?,
            );
            CellID::from_coords(cell.frame(), cell.resolution(), x, y, z).ok()
        })
        .collect()
}

/// What the cells cost, up to the first that is no neighbour of the one before.
pub fn paid(cells: &[CellID]) -> f64 {
    cells
        .windows(2)
        .take_while(|step| neighbors(step[0]).contains(&step[1]))
        .fold(0.0, |paid, step| {
            paid + EuclideanCost.cost(step[0], step[1])
        })
}

/// The oracle's price of a step under a rule; infinite into a blocked cell.
fn price(flags: &Layer<u32>, rule: u32) -> Option<Box<dyn CostFn>> {
    match rule {
        0 => Some(Box::new(EuclideanCost)),
        1 => {
            let mut layer = Layer::new("");
            for (&cell, &flags) in flags.iter() {
                layer.set(cell, CellFlags::new(flags));
            }
            Some(Box::new(AvoidBlockedCost::new(layer, 0.0)))
        }
        _ => None,
    }
}

/// "Verdict 0, or the first failing": each in the order of the specification.
fn failing(claim: &Claim, under: &Under) -> Result<(), u32> {
    let route = cells(&claim.route).map_err(|refusal| refusal.number)?;
    let start = one_cell(&claim.start).map_err(|refusal| refusal.number)?;
    let goal = one_cell(&claim.goal).map_err(|refusal| refusal.number)?;
    let flags = table::read::<u32>(&under.table, under.count).map_err(|_| BAD_LAYER)?;
    let price = price(&flags, under.rule).ok_or(BAD_RULE)?;
    let (&first, later) = route.split_first().ok_or(EMPTY)?;
    if first != start {
        return Err(WRONG_START);
    }
    let mut last = first;
    let mut paid = 0.0;
    for &next in later {
        if !neighbors(last).contains(&next) {
            return Err(NOT_A_NEIGHBOR);
        }
        let step = price.cost(last, next);
        if step == f64::INFINITY {
            return Err(BLOCKED);
        }
        paid += step;
        last = next;
    }
    if last != goal {
        return Err(WRONG_GOAL);
    }
    if paid.to_bits() != claim.cost {
        return Err(WRONG_COST);
    }
    Ok(())
}

pub fn verdict(claim: &Claim, under: &Under) -> u32 {
    failing(claim, under).err().unwrap_or(ACCEPTED)
}

/// The header's number of "the sent list itself if accepted, else the homing list itself if that
/// is accepted, else an empty part of the sent one". "Each is judged with its own ends and claimed
/// cost, both under one rule and layer."
pub fn choice(sent: &Claim, homing: &Claim, under: &Under) -> u32 {
    if verdict(sent, under) == ACCEPTED {
        1
    } else if verdict(homing, under) == ACCEPTED {
        2
    } else {
        0
    }
}
