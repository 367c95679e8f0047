//! One axis by itself: its well-formedness and its checked calls.

use super::{
    Answer, MOST, Refusal, accumulator, demand, is_coordinate, is_rate,
    plan::AxesPlan,
    update::{self, Verdict},
};
use crate::numerical_integration::{
    ContinuousDimension, MonteCarloRng,
    state::{AxisState, Record},
};

/// Strictly rising from 0 to 1; minus zero is a zero.
pub fn edges_rise(edges: &[f64]) -> bool {
    edges.len() >= 2
        && edges[0] == 0.0
        && edges[edges.len() - 1] == 1.0
        && edges.windows(2).all(|pair| pair[0] < pair[1])
}

/// Importances finite, bins' records well formed, counts at most 2^53.
pub fn sums_well_formed(axis: &ContinuousDimension<f64>) -> bool {
    axis.importances().iter().all(|x| x.is_finite())
        && axis.counters().iter().all(|&count| count as u64 <= MOST)
        && axis
            .records()
            .all(|record| accumulator::well_formed(&record))
        && axis.update_counter() <= MOST
}

pub fn well_formed(axis: &ContinuousDimension<f64>, plan: &AxesPlan) -> bool {
    edges_rise(&axis.partitioning)
        && plan.allows(axis.partitioning.len() - 1)
        && sums_well_formed(axis)
}

fn judged(state: &AxisState, plan: &AxesPlan) -> Answer<ContinuousDimension<f64>> {
    let axis = ContinuousDimension::from_state(state);
    demand(well_formed(&axis, plan), Refusal::IllFormed)?;
    Ok(axis)
}

/// An axis with nothing but its edges, as probe and draw see it.
fn bare(edges: &[f64]) -> Answer<ContinuousDimension<f64>> {
    demand(edges_rise(edges), Refusal::IllFormed)?;
    Ok(ContinuousDimension::from_state(&AxisState {
        edges: edges.to_vec(),
        records: vec![Record::default(); edges.len() - 1],
        importances: vec![0.0; edges.len() - 1],
        counters: vec![0; edges.len() - 1],
        least: 0,
        evolution: vec![edges.len() - 1],
        update_counter: 0,
        on_average: false,
    }))
}

/// The bin of a coordinate and its weight.
pub fn probe(edges: &[f64], x: f64) -> Answer<(usize, f64)> {
    let axis = bare(edges)?;
    demand(is_coordinate(x), Refusal::Coordinate)?;
    Ok((bin_of(edges, x), axis.probe_axis(x)))
}

/// The i with edges[i] < x <= edges[i + 1], zero being in bin 0.
fn bin_of(edges: &[f64], x: f64) -> usize {
    let inside = |i: &usize| edges[*i] < x && x <= edges[i + 1];
    (0..edges.len() - 1).find(inside).unwrap_or(0)
}

/// The point and the weight that the stream's next word draws.
pub fn draw(edges: &[f64], stream: &mut MonteCarloRng) -> Answer<(f64, f64)> {
    Ok(bare(edges)?.draw_axis(stream))
}

pub fn train(
    state: &AxisState,
    plan: &AxesPlan,
    x: f64,
    weight: f64,
    eval: f64,
) -> Answer<AxisState> {
    let mut axis = judged(state, plan)?;
    demand(is_coordinate(x), Refusal::Coordinate)?;
    demand(eval.is_finite() && weight.is_finite(), Refusal::NotFinite)?;
    axis.train_axis(x, weight, eval);
    demand(sums_well_formed(&axis), Refusal::Overflow)?;
    Ok(axis.state())
}

pub fn update(state: &AxisState, plan: &AxesPlan, rate: f64) -> Answer<AxisState> {
    let mut axis = judged(state, plan)?;
    demand(is_rate(rate), Refusal::Range)?;
    let mut verdict = Verdict::default();
    let expected = update::axis(state, rate, &mut verdict);
    axis.update_axis(rate);
    verdict.judge(&expected.words(), &axis.state().words())?;
    Ok(axis.state())
}

/// What waits in the other axis is added; shapes and edges must agree.
pub fn merge(
    state: &AxisState,
    plan: &AxesPlan,
    other: &AxisState,
    other_plan: &AxesPlan,
) -> Answer<AxisState> {
    let mut axis = judged(state, plan)?;
    let other = judged(other, other_plan)?;
    let same_bins = axis.partitioning.len() == other.partitioning.len();
    demand(same_bins, Refusal::Form)?;
    demand(axis.partitioning == other.partitioning, Refusal::Unequal)?;
    axis.merge_axis(&other);
    demand(sums_well_formed(&axis), Refusal::Overflow)?;
    Ok(axis.state())
}
