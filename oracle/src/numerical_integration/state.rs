//! Read and write access to the private fields of the carried-over types, for
//! `f64`. A child module may reach them, so the text above stays as it is.

use super::{
    Bin, ContinuousDimension, ContinuousGrid, DiscreteGrid, Grid, MonteCarloRng,
    StatisticsAccumulator,
};
use crate::words::bits;

/// The number of words of a whole accumulator record.
pub const RECORD_WORDS: usize = 21;

/// An accumulator as one plain record, fields in the order of their declaration.
#[derive(Clone, Copy, Debug, Default)]
pub struct Record {
    pub sum: f64,
    pub sum_sq: f64,
    pub total_sum: f64,
    pub total_sum_sq: f64,
    pub weight_sum: f64,
    pub avg_sum: f64,
    pub avg: f64,
    pub err: f64,
    pub guess: f64,
    pub chi_sq: f64,
    pub chi_sum: f64,
    pub chi_sq_sum: f64,
    pub new_samples: u64,
    pub new_zero_evaluations: u64,
    pub cur_iter: u64,
    pub processed_samples: u64,
    pub max_eval_positive: f64,
    pub max_eval_positive_number: u64,
    pub max_eval_negative: f64,
    pub max_eval_negative_number: u64,
    pub num_zero_evaluations: u64,
}

impl Record {
    pub fn words(&self) -> [u64; RECORD_WORDS] {
        [
            bits(self.sum),
            bits(self.sum_sq),
            bits(self.total_sum),
            bits(self.total_sum_sq),
            bits(self.weight_sum),
            bits(self.avg_sum),
            bits(self.avg),
            bits(self.err),
            bits(self.guess),
            bits(self.chi_sq),
            bits(self.chi_sum),
            bits(self.chi_sq_sum),
            self.new_samples,
            self.new_zero_evaluations,
            self.cur_iter,
            self.processed_samples,
            bits(self.max_eval_positive),
            self.max_eval_positive_number,
            bits(self.max_eval_negative),
            self.max_eval_negative_number,
            self.num_zero_evaluations,
        ]
    }

    /// Whether a word of the record is a whole number.
    pub fn is_count(at: usize) -> bool {
        matches!(at, 12..=15 | 17 | 19 | 20)
    }

    pub fn from_words(words: &[u64]) -> Record {
        let real = |at: usize| f64::from_bits(words[at]);
        Record {
            sum: real(0),
            sum_sq: real(1),
            total_sum: real(2),
            total_sum_sq: real(3),
            weight_sum: real(4),
            avg_sum: real(5),
            avg: real(6),
            err: real(7),
            guess: real(8),
            chi_sq: real(9),
            chi_sum: real(10),
            chi_sq_sum: real(11),
            new_samples: words[12],
            new_zero_evaluations: words[13],
            cur_iter: words[14],
            processed_samples: words[15],
            max_eval_positive: real(16),
            max_eval_positive_number: words[17],
            max_eval_negative: real(18),
            max_eval_negative_number: words[19],
            num_zero_evaluations: words[20],
        }
    }
}

impl StatisticsAccumulator<f64> {
    pub fn record(&self) -> Record {
        Record {
            sum: self.sum,
            sum_sq: self.sum_sq,
            total_sum: self.total_sum,
            total_sum_sq: self.total_sum_sq,
            weight_sum: self.weight_sum,
            avg_sum: self.avg_sum,
            avg: self.avg,
            err: self.err,
            guess: self.guess,
            chi_sq: self.chi_sq,
            chi_sum: self.chi_sum,
            chi_sq_sum: self.chi_sq_sum,
            new_samples: self.new_samples as u64,
            new_zero_evaluations: self.new_zero_evaluations as u64,
            cur_iter: self.cur_iter as u64,
            processed_samples: self.processed_samples as u64,
            max_eval_positive: self.max_eval_positive,
            max_eval_positive_number: self.max_eval_positive_xs,
            max_eval_negative: self.max_eval_negative,
            max_eval_negative_number: self.max_eval_negative_xs,
            num_zero_evaluations: self.num_zero_evaluations as u64,
        }
    }

    /// So many samples wait, and these are their sum and the sum of their squares.
    pub fn set_waiting(&mut self, sums: [f64; 2], count: usize) {
        [self.sum, self.sum_sq] = sums;
        self.new_samples = count;
    }

    pub fn from_record(record: &Record) -> StatisticsAccumulator<f64> {
        StatisticsAccumulator {
            sum: record.sum,
            sum_sq: record.sum_sq,
            total_sum: record.total_sum,
            total_sum_sq: record.total_sum_sq,
            weight_sum: record.weight_sum,
            avg_sum: record.avg_sum,
            avg: record.avg,
            err: record.err,
            guess: record.guess,
            chi_sq: record.chi_sq,
            chi_sum: record.chi_sum,
            chi_sq_sum: record.chi_sq_sum,
            new_samples: record.new_samples as usize,
            new_zero_evaluations: record.new_zero_evaluations as usize,
            cur_iter: record.cur_iter as usize,
            processed_samples: record.processed_samples as usize,
            max_eval_positive: record.max_eval_positive,
            max_eval_positive_xs: record.max_eval_positive_number,
            max_eval_negative: record.max_eval_negative,
            max_eval_negative_xs: record.max_eval_negative_number,
            num_zero_evaluations: record.num_zero_evaluations as usize,
        }
    }
}

/// An axis as plain lists.
#[derive(Clone, Debug)]
pub struct AxisState {
    pub edges: Vec<f64>,
    pub records: Vec<Record>,
    pub importances: Vec<f64>,
    pub counters: Vec<u64>,
    pub least: u64,
    pub evolution: Vec<usize>,
    pub update_counter: u64,
    pub on_average: bool,
}

impl AxisState {
    /// The number of bins now held.
    pub fn held(&self) -> usize {
        self.edges.len() - 1
    }

    /// What can change of an axis: bins now held, re-cuts, edges, importances,
    /// counters, then of each bin the six fields that can differ from zero.
    pub fn words(&self) -> Vec<u64> {
        let mut words = vec![self.held() as u64, self.update_counter];
        words.extend(self.edges.iter().map(|&edge| bits(edge)));
        words.extend(self.importances.iter().map(|&importance| bits(importance)));
        words.extend(&self.counters);
        for record in &self.records {
            words.extend([
                bits(record.sum),
                bits(record.sum_sq),
                record.new_samples,
                record.new_zero_evaluations,
                bits(record.max_eval_positive),
                bits(record.max_eval_negative),
            ]);
        }
        words
    }
}

impl ContinuousDimension<f64> {
    pub fn state(&self) -> AxisState {
        AxisState {
            edges: self.partitioning.clone(),
            records: self.records().collect(),
            importances: self.bin_importance.clone(),
            counters: self.counter.iter().map(|&count| count as u64).collect(),
            least: self.min_samples_for_update as u64,
            evolution: self.bin_number_evolution.clone(),
            update_counter: self.update_counter as u64,
            on_average: self.train_on_avg,
        }
    }

    pub fn from_state(state: &AxisState) -> ContinuousDimension<f64> {
        let accumulators = state.records.iter().map(StatisticsAccumulator::from_record);
        ContinuousDimension {
            partitioning: state.edges.clone(),
            bin_accumulator: accumulators.collect(),
            bin_importance: state.importances.clone(),
            counter: state.counters.iter().map(|&count| count as usize).collect(),
            min_samples_for_update: state.least as usize,
            bin_number_evolution: state.evolution.clone(),
            update_counter: state.update_counter as usize,
            train_on_avg: state.on_average,
        }
    }

    pub fn records(&self) -> impl Iterator<Item = Record> {
        self.bin_accumulator
            .iter()
            .map(StatisticsAccumulator::record)
    }

    pub fn importances(&self) -> &[f64] {
        &self.bin_importance
    }

    pub fn counters(&self) -> &[usize] {
        &self.counter
    }

    pub fn update_counter(&self) -> u64 {
        self.update_counter as u64
    }

    pub(crate) fn draw_axis(&self, rng: &mut MonteCarloRng) -> (f64, f64) {
        self.sample(rng)
    }

    pub(crate) fn probe_axis(&self, x: f64) -> f64 {
        self.probe(x).expect("the coordinate was judged")
    }

    pub(crate) fn train_axis(&mut self, x: f64, weight: f64, eval: f64) {
        self.add_training_sample(x, weight, eval)
            .expect("coordinate, weight and evaluation were judged");
    }

    pub(crate) fn update_axis(&mut self, rate: f64) {
        self.update(rate);
    }

    pub(crate) fn merge_axis(&mut self, other: &ContinuousDimension<f64>) {
        self.merge(other);
    }
}

impl DiscreteGrid<f64> {
    pub fn ratio(&self) -> f64 {
        self.max_prob_ratio
    }

    pub fn on_average(&self) -> bool {
        self.train_on_avg
    }

    /// The same grid with other bins and another accumulator of its own.
    pub(crate) fn with(&self, bins: Vec<Bin<f64>>, own: &Record) -> DiscreteGrid<f64> {
        DiscreteGrid {
            bins,
            accumulator: StatisticsAccumulator::from_record(own),
            max_prob_ratio: self.max_prob_ratio,
            train_on_avg: self.train_on_avg,
        }
    }
}

impl Grid<f64> {
    /// The record of the grid's own accumulator.
    pub fn own(&self) -> Record {
        match self {
            Grid::Continuous(grid) | Grid::Uniform(_, grid) => grid.accumulator.record(),
            Grid::Discrete(grid) => grid.accumulator.record(),
        }
    }

    /// The whole state in words, grids in plan order, a parent before its children:
    /// the grid's own record; of an axes grid its axes; of a bins grid its
    /// probabilities, its bins' records, then its children.
    pub fn words(&self) -> Vec<u64> {
        let mut words = self.own().words().to_vec();
        match self {
            Grid::Continuous(grid) | Grid::Uniform(_, grid) => {
                for axis in &grid.continuous_dimensions {
                    words.extend(axis.state().words());
                }
            }
            Grid::Discrete(grid) => {
                words.extend(grid.bins.iter().map(|bin| bits(bin.pdf)));
                for bin in &grid.bins {
                    words.extend(bin.accumulator.record().words());
                }
                for child in grid.bins.iter().filter_map(|bin| bin.sub_grid.as_ref()) {
                    words.extend(child.words());
                }
            }
        }
        words
    }
}

impl ContinuousGrid<f64> {
    /// The weight that a weight becomes under a floor.
    pub fn floored(floor: f64, weight: f64) -> f64 {
        let grid = ContinuousGrid::new_with_min_probability_density(1, 1, 0, None, false, floor);
        grid.expect("the floor lies in [0, 1]")
            .apply_min_probability_density(weight)
    }

    /// The same grid with other axes and another accumulator of its own.
    pub(crate) fn with(
        &self,
        axes: Vec<ContinuousDimension<f64>>,
        own: &Record,
    ) -> ContinuousGrid<f64> {
        ContinuousGrid {
            continuous_dimensions: axes,
            accumulator: StatisticsAccumulator::from_record(own),
            min_probability_density: self.min_probability_density,
        }
    }
}

impl MonteCarloRng {
    /// A stream in any state, four zeros too.
    pub fn from_words(state: [u64; 4]) -> MonteCarloRng {
        MonteCarloRng { state }
    }

    pub fn words(&self) -> [u64; 4] {
        self.state
    }
}
