//! Plans and states that several tests begin from.

use oracle::generate::seed_for_first_word;
use oracle::model::plan::{AxesPlan, BinsPlan, GridPlan};
use oracle::numerical_integration::{
    MonteCarloRng,
    state::{AxisState, Record},
};

/// One axis on squares with floor 0 and no least samples.
pub fn one_axis(bins: usize) -> AxesPlan {
    AxesPlan {
        axes: 1,
        bins,
        least: 0,
        on_average: false,
        floor: 0.0,
        evolution: Vec::new(),
    }
}

pub fn bins_grid(children: Vec<Option<GridPlan>>, ratio: f64, on_average: bool) -> GridPlan {
    GridPlan::Bins(BinsPlan {
        ratio,
        on_average,
        children,
    })
}

/// An axis on given edges with nothing gathered.
pub fn axis(plan: &AxesPlan, edges: &[f64]) -> AxisState {
    let bins = edges.len() - 1;
    AxisState {
        edges: edges.to_vec(),
        records: vec![Record::default(); bins],
        importances: vec![0.0; bins],
        counters: vec![0; bins],
        least: plan.least as u64,
        evolution: if plan.evolution.is_empty() {
            vec![plan.bins]
        } else {
            plan.evolution.clone()
        },
        update_counter: 0,
        on_average: plan.on_average,
    }
}

/// A stream whose next unit draw is the given multiple of 2^-53.
pub fn stream_drawing(draw: f64) -> MonteCarloRng {
    let top = (draw * 9007199254740992.0) as u64;
    MonteCarloRng::new(seed_for_first_word(top << 11), 0)
}

/// Bytes from hex digits, blanks left out.
pub fn hex(text: &str) -> Vec<u8> {
    let digits: Vec<u8> = text
        .bytes()
        .filter(|byte| !byte.is_ascii_whitespace())
        .collect();
    let byte = |pair: &[u8]| u8::from_str_radix(std::str::from_utf8(pair).unwrap(), 16).unwrap();
    digits.chunks(2).map(byte).collect()
}
