//! The update worked out in plain code beside the Rust's, because 8 is judged on
//! values that the Rust overwrites. Both results are held to be equal, bit for bit.

use super::{Answer, MOST, Refusal, accumulator, axis::edges_rise, demand, is_probability};
use crate::domains::float::{ln, power};
use crate::numerical_integration::{
    Bin, ContinuousDimension, ContinuousGrid, DiscreteGrid, Grid, StatisticsAccumulator,
    state::{AxisState, Record},
};

/// What an update met anywhere in the tree.
#[derive(Clone, Copy, Debug, Default)]
pub struct Verdict {
    overflow: bool,
    bad_update: bool,
}

impl Verdict {
    /// 8 anywhere comes before 9 anywhere. After an 8 the result is thrown away,
    /// so it is compared only without one.
    pub fn judge(&self, expected: &[u64], got: &[u64]) -> Answer<()> {
        demand(!self.overflow, Refusal::Overflow)?;
        assert_eq!(expected, got, "model and Rust differ in an update");
        demand(!self.bad_update, Refusal::BadUpdate)
    }

    /// Importances or their total at one stage.
    fn importances(&mut self, values: &[f64]) {
        self.overflow |= !values.iter().all(|value| value.is_finite());
    }

    fn count(&mut self, count: u64) {
        self.overflow |= count > MOST;
    }

    fn record(&mut self, before: &Record) -> Record {
        let after = accumulator::stepped(before, false);
        self.overflow |= !accumulator::well_formed(&after);
        after
    }
}

pub fn grid(grid: &Grid<f64>, bins_rate: f64, axes_rate: f64, verdict: &mut Verdict) -> Grid<f64> {
    match grid {
        Grid::Continuous(grid) => Grid::Continuous(axes_grid(grid, axes_rate, verdict)),
        Grid::Discrete(grid) => Grid::Discrete(bins_grid(grid, bins_rate, axes_rate, verdict)),
        Grid::Uniform(..) => unreachable!("no plan makes one"),
    }
}

fn axes_grid(grid: &ContinuousGrid<f64>, rate: f64, verdict: &mut Verdict) -> ContinuousGrid<f64> {
    let mut axes = Vec::new();
    for dimension in &grid.continuous_dimensions {
        let state = axis(&dimension.state(), rate, verdict);
        axes.push(ContinuousDimension::from_state(&state));
    }
    grid.with(axes, &verdict.record(&grid.accumulator.record()))
}

fn bins_grid(
    grid: &DiscreteGrid<f64>,
    bins_rate: f64,
    axes_rate: f64,
    verdict: &mut Verdict,
) -> DiscreteGrid<f64> {
    let mut bins = Vec::new();
    for bin in &grid.bins {
        let child = bin.sub_grid.as_ref();
        let sub_grid = child.map(|child| self::grid(child, bins_rate, axes_rate, verdict));
        let record = verdict.record(&bin.accumulator.record());
        bins.push(Bin {
            pdf: bin.pdf,
            accumulator: StatisticsAccumulator::from_record(&record),
            sub_grid,
        });
    }
    let own = grid.accumulator.record();
    let Some(probabilities) = probabilities(grid, &bins, bins_rate) else {
        return grid.with(bins, &own);
    };
    for (bin, &probability) in bins.iter_mut().zip(&probabilities) {
        bin.pdf = probability;
        verdict.bad_update |= !is_probability(probability);
    }
    grid.with(bins, &verdict.record(&own))
}

/// The new probabilities of updated bins, or none where the update returns early.
fn probabilities(grid: &DiscreteGrid<f64>, bins: &[Bin<f64>], bins_rate: f64) -> Option<Vec<f64>> {
    let records: Vec<Record> = bins.iter().map(|bin| bin.accumulator.record()).collect();
    let flat = |record: &Record| {
        if grid.on_average() {
            record.avg == 0.0
        } else {
            record.err == 0.0 || record.processed_samples < 2
        }
    };
    if bins_rate == 0.0 || records.iter().all(flat) {
        return None;
    }
    let raw = |record: &Record| match (grid.on_average(), record.processed_samples) {
        (true, _) => record.avg.abs(),
        (false, 0..2) => 0.0,
        (false, processed) => record.err * ((processed - 1) as f64).sqrt(),
    };
    let raws: Vec<f64> = records.iter().map(raw).collect();
    let greater = |most: f64, &raw: &f64| if raw > most { raw } else { most };
    let least = raws.iter().fold(0.0, greater) / grid.ratio();
    let raised = |&raw: &f64| if raw < least { least } else { raw };
    let raised: Vec<f64> = raws.iter().map(raised).collect();
    let total = total(&raised);
    Some(raised.iter().map(|value| value / total).collect())
}

pub fn axis(before: &AxisState, rate: f64, verdict: &mut Verdict) -> AxisState {
    let gathered = gather(before, verdict);
    if gathered.counters.iter().sum::<u64>() < before.least {
        return gathered;
    }
    if rate == 0.0 {
        return fresh(before, before.edges.clone(), before.update_counter);
    }
    let mut importances = averaged(&gathered);
    verdict.importances(&importances);
    importances = smoothed(&importances);
    verdict.importances(&importances);
    importances = damped(&importances, rate, verdict);

    let at = (before.update_counter as usize).min(before.evolution.len() - 1);
    let edges = cut(&before.edges, &importances, before.evolution[at]);
    verdict.bad_update |= !edges_rise(&edges);
    verdict.count(before.update_counter + 1);
    fresh(before, edges, before.update_counter + 1)
}

/// Importances and counters with what waited, after which nothing waits.
fn gather(before: &AxisState, verdict: &mut Verdict) -> AxisState {
    let mut after = before.clone();
    for (i, record) in before.records.iter().enumerate() {
        after.importances[i] += if before.on_average {
            record.sum
        } else {
            record.sum_sq
        };
        after.counters[i] += record.new_samples;
        verdict.count(after.counters[i]);
        after.records[i].sum = 0.0;
        after.records[i].sum_sq = 0.0;
        after.records[i].new_samples = 0;
        after.records[i].new_zero_evaluations = 0;
    }
    verdict.importances(&after.importances);
    after
}

/// An axis on given edges with nothing gathered and nothing waiting.
fn fresh(before: &AxisState, edges: Vec<f64>, update_counter: u64) -> AxisState {
    let bins = edges.len() - 1;
    AxisState {
        edges,
        records: vec![Record::default(); bins],
        importances: vec![0.0; bins],
        counters: vec![0; bins],
        update_counter,
        ..before.clone()
    }
}

fn averaged(gathered: &AxisState) -> Vec<f64> {
    let pairs = gathered.importances.iter().zip(&gathered.counters);
    let average = |(importance, &count): (&f64, &u64)| match count {
        0 => importance.abs(),
        _ => importance.abs() / count as f64,
    };
    pairs.map(average).collect()
}

fn smoothed(values: &[f64]) -> Vec<f64> {
    let last = values.len() - 1;
    if last == 0 {
        return values.to_vec();
    }
    let smooth = |i: usize| match i {
        0 => (3.0 * values[0] + values[1]) / 4.0,
        i if i == last => (values[i - 1] + 3.0 * values[i]) / 4.0,
        i => ((values[i - 1] + values[i] * 6.0) + values[i + 1]) / 8.0,
    };
    (0..=last).map(smooth).collect()
}

fn damped(values: &[f64], rate: f64, verdict: &mut Verdict) -> Vec<f64> {
    let whole = total(values);
    let damp = |&value: &f64| {
        let q = value / whole;
        if value == whole {
            1.0
        } else if value == 0.0 || q == 0.0 {
            0.0
        } else {
            power((q - 1.0) / ln(q), rate)
        }
    };
    let damped: Vec<f64> = values.iter().map(damp).collect();
    verdict.importances(&[whole]);
    verdict.importances(&damped);
    verdict.importances(&[total(&damped)]);
    damped
}

/// Edges that give each new bin an equal share of the importances. Each edge is
/// sought from the first bin on; the Rust goes on from where it stood.
fn cut(edges: &[f64], importances: &[f64], bins: usize) -> Vec<f64> {
    let share = total(importances) / bins as f64;
    let mut target = 0.0;
    let mut new = vec![0.0];
    for _ in 1..bins {
        target += share;
        let mut before = 0.0;
        let mut j = 0;
        while j + 1 < importances.len() && before + importances[j] < target {
            before += importances[j];
            j += 1;
        }
        let depth = (target - before) / importances[j];
        new.push(edges[j] + depth * (edges[j + 1] - edges[j]));
    }
    new.push(1.0);
    new
}

fn total(values: &[f64]) -> f64 {
    values.iter().fold(0.0, |sum, value| sum + value)
}
