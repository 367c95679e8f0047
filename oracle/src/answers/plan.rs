//! Records of reading plan bytes.

use crate::generate::{Dice, plan_bytes};
use crate::model::plan::{GridPlan, MOST_GRIDS, read};
use crate::words::{bits, packed};

const READ: u64 = 1;

const NO_CHILD: u64 = 0;
const AXES: u64 = 1;
const BINS: u64 = 3;

pub fn list(dice: &mut Dice, count: usize) -> Vec<Vec<u64>> {
    let mut records = directed();
    records.extend((0..count).map(|_| record(&plan_bytes(dice))));
    records
}

/// Every prefix of a small plan, each 02 at its bounds, a plan of most grids.
fn directed() -> Vec<Vec<u64>> {
    let axes = [
        1, 16, 0, 2, 3, 0, 4, 0, 0, 0, 1, 0, 0, 0, 0, 0, 0, 0xe0, 0x3f,
    ];
    let evolution = [2, 4, 0, 1, 0, 0, 4];
    let bins = [3, 11, 0, 2, 0, 0, 0, 0, 0, 0, 0, 0xf0, 0x3f, 1];
    let whole = [&bins[..], &axes, &evolution, &[4, 0, 0]].concat();
    let mut records: Vec<Vec<u64>> = (0..=whole.len()).map(|end| record(&whole[..end])).collect();
    for length in 0..40u8 {
        let mut values = vec![2, length, 0];
        values.extend((0..length).map(|at| (at + 1) % 2));
        records.push(record(&[&axes[..], &values].concat()));
    }
    for children in [MOST_GRIDS as u8 - 1, MOST_GRIDS as u8] {
        let mut bytes = bins.to_vec();
        bytes[3] = children;
        bytes.extend(axes.repeat(children as usize));
        records.push(record(&bytes));
    }
    records
}

/// A refused plan gives its number and the offset of its field, a good one its
/// grids in plan order.
fn record(bytes: &[u8]) -> Vec<u64> {
    let mut record = vec![READ];
    record.extend(packed(bytes));
    match read(bytes) {
        Ok(plan) => {
            let mut grids = Vec::new();
            let count = describe(&plan, &mut grids);
            record.extend([0, plan.room() as u64, count]);
            record.extend(grids);
        }
        Err(refused) => record.extend([refused.refusal as u64, refused.at as u64]),
    }
    record
}

/// Writes a grid and those below it, and answers how many they are.
fn describe(plan: &GridPlan, words: &mut Vec<u64>) -> u64 {
    match plan {
        GridPlan::Axes(plan) => {
            words.extend([AXES, plan.axes as u64, plan.bins as u64, plan.least as u64]);
            words.extend([plan.on_average as u64, bits(plan.floor)]);
            words.push(plan.evolution.len() as u64);
            words.extend(plan.evolution.iter().map(|&value| value as u64));
            1
        }
        GridPlan::Bins(plan) => {
            words.extend([BINS, bits(plan.ratio), plan.on_average as u64]);
            words.push(plan.children.len() as u64);
            words.extend(plan.children.iter().map(|child| match child {
                None => NO_CHILD,
                Some(GridPlan::Axes(_)) => AXES,
                Some(GridPlan::Bins(_)) => BINS,
            }));
            let children = plan.children.iter().flatten();
            1 + children.map(|child| describe(child, words)).sum::<u64>()
        }
    }
}
