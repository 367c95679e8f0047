//! Methods for numerical integration of black-box functions.
//!
//! A standard approach is to construct a [Grid] that will approximate the function
//! and then sample the grid to evaluate the function at different points. The grid
//! will adapt to the function based on the samples added.
//!
//! To use multichanneling methods, a [DiscreteGrid] can be used, which contains multiple
//! [Grid]s that approximate different channels.
//!
//! # Examples
//!
//! ```
//! use numerica::numerical_integration::{ContinuousGrid, DiscreteGrid, Grid, MonteCarloRng, Sample};
//!
//! let f = |x: &[f64]| (x[0] * std::f64::consts::PI).sin() + x[1];
//!
//! let mut grid = Grid::Continuous(ContinuousGrid::new(2, 128, 100, None, false).unwrap());
//!
//! let mut rng = MonteCarloRng::new(0, 0);
//!
//! let mut sample = Sample::new();
//! for iteration in 1..20 {
//!      // sample 10_000 times per iteration
//!      for _ in 0..10_000 {
//!          grid.sample(&mut rng, &mut sample);
//!
//!          if let Sample::Continuous(_cont_weight, xs) = &sample {
//!              grid.add_training_sample(&sample, f(xs)).unwrap();
//!          }
//!      }
//!
//!      grid.update(1.5, 1.5);
//!
//!      println!(
//!          "Integral at iteration {}: {}",
//!          iteration,
//!          grid.get_statistics().format_uncertainty()
//!      );
//! }
//! ```

pub mod state; // ours: reads and writes the private fields below
use crate::rand::{Rng, RngCore, SeedableRng}; // ours: our stand-in

use crate::domains::float::{Constructible, Real, RealLike};

/// Keep track of statistical quantities, such as the average,
/// the error and the chi-squared of samples added over multiple
/// iterations.
///
/// Samples can be added using [`Self::add_sample()`]. When an iteration of
/// samples is finished, call [`Self::update_iter()`], which
/// updates the average, error and chi-squared over all iterations with the average
/// and error of the current iteration in a weighted fashion.
///
/// This accumulator can be merged with another accumulator using [`Self::merge_samples()`] or
///  [`Self::merge_samples_no_reset()`]. This is useful when
/// samples are collected in multiple threads.
///
/// The accumulator also stores which samples yielded the highest weight thus far.
/// This can be used to study the input that impacted the average and error the most.
#[cfg_attr(feature = "serde", derive(serde::Serialize, serde::Deserialize))]
#[cfg_attr(feature = "bincode", derive(bincode::Encode, bincode::Decode))]
#[derive(Debug, Default, Clone)]
pub struct StatisticsAccumulator<T: Real + Constructible + Copy + RealLike + PartialOrd> {
    sum: T,
    sum_sq: T,
    total_sum: T,
    total_sum_sq: T,
    weight_sum: T,
    avg_sum: T,
    pub avg: T,
    pub err: T,
    guess: T,
    pub chi_sq: T,
    chi_sum: T,
    chi_sq_sum: T,
    new_samples: usize,
    new_zero_evaluations: usize,
    pub cur_iter: usize,
    pub processed_samples: usize,
    pub max_eval_positive: T,
    pub max_eval_positive_xs: u64, // ours: a sample number, 0 for none
    pub max_eval_negative: T,
    pub max_eval_negative_xs: u64, // ours: a sample number, 0 for none
    pub num_zero_evaluations: usize,
}

impl<T: Real + Constructible + Copy + RealLike + PartialOrd> StatisticsAccumulator<T> {
    /// Create a new [StatisticsAccumulator].
    pub fn new() -> StatisticsAccumulator<T> {
        StatisticsAccumulator {
            sum: T::new_zero(),
            sum_sq: T::new_zero(),
            total_sum: T::new_zero(),
            total_sum_sq: T::new_zero(),
            weight_sum: T::new_zero(),
            avg_sum: T::new_zero(),
            avg: T::new_zero(),
            err: T::new_zero(),
            guess: T::new_zero(),
            chi_sq: T::new_zero(),
            chi_sum: T::new_zero(),
            chi_sq_sum: T::new_zero(),
            new_samples: 0,
            new_zero_evaluations: 0,
            cur_iter: 0,
            processed_samples: 0,
            max_eval_positive: T::new_zero(),
            max_eval_positive_xs: 0, // ours: a sample number
            max_eval_negative: T::new_zero(),
            max_eval_negative_xs: 0, // ours: a sample number
            num_zero_evaluations: 0,
        }
    }

    /// Copy the statistics accumulator, skipping the samples
    /// that evaluated to the maximum point.
    ///
    /// This function does not allocate.
    pub fn shallow_copy(&self) -> StatisticsAccumulator<T> {
        StatisticsAccumulator {
            sum: self.sum,
            sum_sq: self.sum_sq,
            total_sum: self.total_sum,
            total_sum_sq: self.total_sum_sq,
            weight_sum: self.weight_sum,
            avg_sum: self.avg_sum,
            avg: self.avg,
            err: self.err,
            guess: self.guess,
            chi_sq: self.chi_sq,
            chi_sum: self.chi_sum,
            chi_sq_sum: self.chi_sq_sum,
            new_samples: self.new_samples,
            new_zero_evaluations: self.new_zero_evaluations,
            cur_iter: self.cur_iter,
            processed_samples: self.processed_samples,
            max_eval_positive: self.max_eval_positive,
            max_eval_positive_xs: 0, // ours: a sample number
            max_eval_negative: self.max_eval_negative,
            max_eval_negative_xs: 0, // ours: a sample number
            num_zero_evaluations: self.num_zero_evaluations,
        }
    }

    /// Add a new `sample` to the accumulator with its corresponding evaluation `eval`.
    /// Note that the average and error are only updated upon calling [`Self::update_iter()`].
    pub fn add_sample(&mut self, eval: T, number: u64) { // ours: a sample number
        self.sum += &eval;
        self.sum_sq += eval * eval;
        self.new_samples += 1;

        if eval == T::new_zero() {
            self.new_zero_evaluations += 1;
        }

        if self.max_eval_positive_xs == 0 || eval > self.max_eval_positive { // ours: a sample number
            self.max_eval_positive = eval;
            self.max_eval_positive_xs = number; // ours: a sample number
        }

        if self.max_eval_negative_xs == 0 || eval < self.max_eval_negative { // ours: a sample number
            self.max_eval_negative = eval;
            self.max_eval_negative_xs = number; // ours: a sample number
        }
    }

    /// Add the non-processed samples of `other` to non-processed samples of this
    /// accumulator. The non-processed samples are removed from `other`.
    pub fn merge_samples(&mut self, other: &mut StatisticsAccumulator<T>) {
        self.merge_samples_no_reset(other);
        other.clear_samples();
    }

    /// Clear all non-processed samples from this accumulator.
    pub fn clear_samples(&mut self) {
        self.sum = T::new_zero();
        self.sum_sq = T::new_zero();
        self.new_samples = 0;
        self.new_zero_evaluations = 0;
    }

    /// Add the non-processed samples of `other` to non-processed samples of this
    /// accumulator without removing the samples from `other`.
    pub fn merge_samples_no_reset(&mut self, other: &StatisticsAccumulator<T>) {
        self.sum += &other.sum;
        self.sum_sq += &other.sum_sq;
        self.new_samples += other.new_samples;
        self.new_zero_evaluations += other.new_zero_evaluations;

        if other.max_eval_positive > self.max_eval_positive {
            self.max_eval_positive = other.max_eval_positive;
            self.max_eval_positive_xs
                .clone_from(&other.max_eval_positive_xs);
        }

        if other.max_eval_negative < self.max_eval_negative {
            self.max_eval_negative = other.max_eval_negative;
            self.max_eval_negative_xs
                .clone_from(&other.max_eval_negative_xs);
        }
    }

    /// Process the samples added with [`Self::add_sample()`] and
    /// compute a new average, error, and chi-squared.
    ///
    /// When `weighted_average=True`, a weighted average and error is computed using
    /// the iteration variances as a weight.
    pub fn update_iter(&mut self, weighted_average: bool) -> bool {
        // TODO: we could be throwing away events that are very rare
        if self.new_samples < 2 {
            self.cur_iter += 1;
            return false;
        }

        self.processed_samples += self.new_samples;
        self.num_zero_evaluations += self.new_zero_evaluations;
        let n = T::new_from_usize(self.new_samples);
        self.total_sum += self.sum;
        self.total_sum_sq += self.sum_sq;
        self.sum /= n;
        self.sum_sq /= n;
        let mut w = self.sum_sq.sqrt();

        w = ((w + self.sum) * (w - self.sum)) / (n - T::new_one()); // compute variance
        if w == T::new_zero() {
            // all sampled points are the same
            // set the weight to a large number
            w = T::new_from_usize(usize::MAX);
        } else {
            w = w.inv();
        }

        self.weight_sum += w;
        self.avg_sum += w * self.sum;

        let sigma_sq = self.weight_sum.inv();
        let weighted_avg = sigma_sq * self.avg_sum;

        if weighted_average {
            self.avg = weighted_avg;
            self.err = sigma_sq.sqrt();
        } else {
            let n_tot = T::new_from_usize(self.processed_samples);
            self.avg = self.total_sum / n_tot;
            let mut var = (self.total_sum_sq / n_tot).sqrt();
            var = ((var + self.avg) * (var - self.avg)) / (n_tot - T::new_one());
            self.err = var.sqrt();
        }

        if self.cur_iter == 0 {
            self.guess = self.sum;
        }
        // compute chi-squared wrt the first iteration average
        // TODO: use rolling average instead?
        w *= self.sum - self.guess;
        self.chi_sum += w;
        self.chi_sq_sum += w * self.sum;
        self.chi_sq = self.chi_sq_sum - weighted_avg * self.chi_sum;

        // reset
        self.sum = T::new_zero();
        self.sum_sq = T::new_zero();
        self.new_samples = 0;
        self.new_zero_evaluations = 0;
        self.cur_iter += 1;

        true
    }

    /// Get an estimate for the average, error and chi-squared, as if the current iteration
    /// has ended without adding more samples.
    pub fn get_live_estimate(&self) -> (T, T, T) {
        let mut a = self.shallow_copy();
        a.update_iter(false);
        (a.avg, a.err, a.chi_sq)
    }

    /// Format the live `mean ± sdev` as `mean(sdev)` in a human-readable way with the correct number of digits.
    ///
    /// Based on the Python package [gvar](https://github.com/gplepage/gvar) by Peter Lepage.
    pub fn format_live_uncertainty(&self) -> String {
        let mut a = self.shallow_copy();
        a.update_iter(false);
        Self::format_uncertainty_impl(a.avg.to_f64(), a.err.to_f64())
    }

    /// Format `mean ± sdev` as `mean(sdev)` in a human-readable way with the correct number of digits.
    ///
    /// Based on the Python package [gvar](https://github.com/gplepage/gvar) by Peter Lepage.
    pub fn format_uncertainty(&self) -> String {
        Self::format_uncertainty_impl(self.avg.to_f64(), self.err.to_f64())
    }

    fn format_uncertainty_impl(mean: f64, sdev: f64) -> String {
        fn ndec(x: f64, offset: usize) -> i32 {
            let mut ans = (offset as f64 - x.log10()) as i32;
            if ans > 0 && x * 10.0f64.powi(ans) >= [0.5, 9.5, 99.5][offset] {
                ans -= 1;
            }
            if ans < 0 { 0 } else { ans }
        }
        let v = mean;
        let dv = sdev;

        // special cases
        if v.is_nan() || dv.is_nan() {
            format!("{v:e} ± {dv:e}")
        } else if dv.is_infinite() {
            format!("{v:e} ± inf")
        } else if v == 0. && !(1e-4..1e5).contains(&dv) {
            if dv == 0. {
                "0(0)".to_owned()
            } else {
                let e = format!("{dv:.1e}");
                let mut ans = e.split('e');
                let e1 = ans.next().unwrap();
                let e2 = ans.next().unwrap();
                "0.0(".to_owned() + e1 + ")e" + e2
            }
        } else if v == 0. {
            if dv >= 9.95 {
                format!("0({dv:.0})")
            } else if dv >= 0.995 {
                format!("0.0({dv:.1})")
            } else {
                let ndecimal = ndec(dv, 2);
                format!(
                    "{:.*}({:.0})",
                    ndecimal as usize,
                    v,
                    dv * 10.0f64.powi(ndecimal)
                )
            }
        } else if dv == 0. {
            let e = format!("{v:e}");
            let mut ans = e.split('e');
            let e1 = ans.next().unwrap();
            let e2 = ans.next().unwrap();
            if e2 != "0" {
                e1.to_owned() + "(0)e" + e2
            } else {
                e1.to_owned() + "(0)"
            }
        } else if dv > 1e4 * v.abs() {
            format!("{v:.1e} ± {dv:.2e}")
        } else if v.abs() >= 1e6 || v.abs() < 1e-5 {
            // exponential notation for large |self.mean|
            let exponent = v.abs().log10().floor();
            let fac = 10.0.powf(&exponent);
            let mantissa = Self::format_uncertainty_impl(v / fac, dv / fac);
            let e = format!("{fac:.0e}");
            let mut ee = e.split('e');
            mantissa + "e" + ee.nth(1).unwrap()
        }
        // normal cases
        else if dv >= 9.95 {
            if v.abs() >= 9.5 {
                format!("{v:.0}({dv:.0})")
            } else {
                let ndecimal = ndec(v.abs(), 1);
                format!("{:.*}({:.*})", ndecimal as usize, v, ndecimal as usize, dv)
            }
        } else if dv >= 0.995 {
            if v.abs() >= 0.95 {
                format!("{v:.1}({dv:.1})")
            } else {
                let ndecimal = ndec(v.abs(), 1);
                format!("{:.*}({:.*})", ndecimal as usize, v, ndecimal as usize, dv)
            }
        } else {
            let ndecimal = ndec(v.abs(), 1).max(ndec(dv, 2));
            format!(
                "{:.*}({:.0})",
                ndecimal as usize,
                v,
                dv * 10.0f64.powi(ndecimal)
            )
        }
    }
}

/// A sample taken from a [Grid] that approximates a function. The sample is more likely to fall in a region
/// where the function changes rapidly.
///
/// If the sample comes from a [ContinuousGrid], it is the variant [Continuous](Sample::Continuous)
/// and contains the weight and the list of sample points.
/// If the sample comes from a [DiscreteGrid], it is the variant [Discrete](Sample::Discrete) and contains
/// the weight, the bin and the subsample if the bin has a nested grid.
/// If the sample comes from a [Uniform](Grid::Uniform) grid, it is the variant [Uniform](Sample::Uniform)
/// and contains the weight, the list of discrete bin indices and the list of continuous sample points.
#[cfg_attr(feature = "serde", derive(serde::Serialize, serde::Deserialize))]
#[cfg_attr(feature = "bincode", derive(bincode::Encode, bincode::Decode))]
#[derive(Debug, Clone)]
pub enum Sample<T: Real + Constructible + Copy + RealLike + PartialOrd> {
    Continuous(T, Vec<T>),
    Discrete(T, usize, Option<Box<Sample<T>>>), // TODO: flatten
    Uniform(T, Vec<usize>, Vec<T>),
}

impl<T: Real + Constructible + Copy + RealLike + PartialOrd> Default for Sample<T> {
    fn default() -> Self {
        Self::new()
    }
}

impl<T: Real + Constructible + Copy + RealLike + PartialOrd> Sample<T> {
    /// Construct a new empty sample that can be handed over to [`Grid::sample()`].
    pub fn new() -> Sample<T> {
        Sample::Continuous(T::new_zero(), vec![])
    }

    /// Get the weight of the sample.
    pub fn get_weight(&self) -> T {
        match self {
            Sample::Continuous(w, _) | Sample::Discrete(w, _, _) | Sample::Uniform(w, _, _) => *w,
        }
    }

    /// Transform the sample to a discrete grid, used for recycling memory.
    fn to_discrete_grid(&mut self) -> (&mut T, &mut usize, &mut Option<Box<Sample<T>>>) {
        if let Sample::Continuous(..) = self {
            *self = Sample::Discrete(T::new_zero(), 0, None);
        } else if let Sample::Uniform(..) = self {
            *self = Sample::Discrete(T::new_zero(), 0, None);
        }

        match self {
            Sample::Discrete(weight, index, sub_sample) => (weight, index, sub_sample),
            _ => unreachable!(),
        }
    }

    /// Transform the sample to a continuous, used for recycling memory.
    fn to_continuous_grid(&mut self) -> (&mut T, &mut Vec<T>) {
        if let Sample::Discrete(..) = self {
            *self = Sample::Continuous(T::new_zero(), vec![])
        } else if let Sample::Uniform(_, _, g) = self {
            *self = Sample::Continuous(T::new_zero(), std::mem::take(g))
        }

        match self {
            Sample::Continuous(weight, sub_samples) => (weight, sub_samples),
            _ => unreachable!(),
        }
    }

    /// Transform the sample to a continuous one and extract bin indices, used for recycling memory.
    fn to_continuous_with_uniform(&mut self) -> Vec<usize> {
        match self {
            Sample::Uniform(_, bin_indices, g) => {
                let b = std::mem::take(bin_indices);
                *self = Sample::Continuous(T::new_zero(), std::mem::take(g));
                b
            }
            Self::Continuous(_, _) => {
                vec![]
            }
            Self::Discrete(_, _, _) => {
                *self = Sample::Continuous(T::new_zero(), vec![]);
                vec![]
            }
        }
    }
}

/// A probe that is used to access the Jacobian weight of a point or region
/// of interest.
///
/// For continuous probes, `None` skips that dimension and includes the full
/// range of the dimension (Jacobian weight of 1).
///
/// For discrete probes, the first vector specifies a path through nested
/// discrete grids, and the second vector specifies the final continuous probe.
/// The path may stop before the full grid depth, in which case the remaining
/// sub-Jacobian weight is 1 and the continuous probe must be empty.
///
/// For uniform probes, `None` in the discrete indices skips that discrete
/// dimension and includes its full range (Jacobian weight of 1).
#[derive(Debug, Clone)]
pub enum Probe<T: Real + Constructible + Copy + RealLike + PartialOrd> {
    Continuous(Vec<Option<T>>),
    Discrete(Vec<usize>, Vec<Option<T>>),
    Uniform(Vec<Option<usize>>, Vec<Option<T>>),
}

/// An adapting grid that captures the enhancements of an integrand.
/// It supports discrete and continuous dimensions. The discrete dimensions
/// can have a nested grid.
///
/// Use [Grid::Uniform] to create a layered rectangular discrete grid
/// that is uniformly sampled and has a shared continuous grid across all discrete bins.
///
/// Use [Grid::clone_without_samples] to create a copy of the grid that can
/// accumulate samples independently, and can later be merged into the current grid.
///
/// # Examples
///
/// ```
/// use numerica::numerical_integration::{ContinuousGrid, DiscreteGrid, Grid, MonteCarloRng, Sample};
///
/// let f = |x: &[f64]| (x[0] * std::f64::consts::PI).sin() + x[1];
///
/// let mut grid = Grid::Continuous(ContinuousGrid::new(2, 128, 100, None, false).unwrap());
///
/// let mut rng = MonteCarloRng::new(0, 0);
///
/// let mut sample = Sample::new();
/// for iteration in 1..20 {
///      // sample 10_000 times per iteration
///      for _ in 0..10_000 {
///          grid.sample(&mut rng, &mut sample);
///
///          if let Sample::Continuous(_cont_weight, xs) = &sample {
///              grid.add_training_sample(&sample, f(xs)).unwrap();
///          }
///      }
///
///      grid.update(1.5, 1.5);
///
///      println!(
///          "Integral at iteration {}: {}",
///          iteration,
///          grid.get_statistics().format_uncertainty()
///      );
/// }
/// ```
#[cfg_attr(feature = "serde", derive(serde::Serialize, serde::Deserialize))]
#[cfg_attr(feature = "bincode", derive(bincode::Encode, bincode::Decode))]
#[derive(Debug, Clone)]
pub enum Grid<T: Real + Constructible + Copy + RealLike + PartialOrd> {
    /// A continuous grid.
    Continuous(ContinuousGrid<T>),
    /// A discrete grid with optional nested grids.
    Discrete(DiscreteGrid<T>),
    /// A layered rectangular uniform discrete grid `(a, g)` where `a.len()` is the number of
    /// discrete dimensions, `a[i]` is the number of bins in discrete dimension `i`,
    /// and `g` is a shared continuous grid across all discrete bins.
    /// Each discrete bin has equal probability.
    Uniform(Vec<usize>, ContinuousGrid<T>),
}

impl<T: Real + Constructible + Copy + RealLike + PartialOrd> Grid<T> {
    /// Sample a position in the grid. The sample is more likely to land in a region
    /// where the function the grid is based on is changing rapidly.
    pub fn sample<R: Rng + ?Sized>(&mut self, rng: &mut R, sample: &mut Sample<T>) {
        match self {
            Grid::Continuous(g) => g.sample(rng, sample),
            Grid::Discrete(g) => g.sample(rng, sample),
            Grid::Uniform(disc, g) => {
                let mut bin_indices = sample.to_continuous_with_uniform();
                g.sample(rng, sample);

                bin_indices.clear();
                for n_bins in disc.iter() {
                    bin_indices.push(rng.random_range(0..*n_bins));
                }

                if let Sample::Continuous(w, c) = sample {
                    for n_bins in disc.iter() {
                        *w *= w.from_usize(*n_bins);
                    }

                    *sample = Sample::Uniform(*w, bin_indices, std::mem::take(c));
                } else {
                    unreachable!()
                }
            }
        }
    }

    /// Probe the Jacobian weight of a point or region in the grid.
    ///
    /// In continuous probes, `None` skips a dimension. In discrete probes,
    /// the discrete path may stop before the full grid depth. In uniform probes,
    /// `None` skips the corresponding discrete dimension.
    pub fn probe(&self, probe: &Probe<T>) -> Result<T, String> {
        match (self, probe) {
            (Grid::Continuous(g), Probe::Continuous(xs)) => g.probe(xs),
            (Grid::Discrete(g), Probe::Discrete(indices, xs)) => g.probe(indices, xs),
            (Grid::Uniform(discrete_dimensions, continuous_grid), Probe::Uniform(indices, xs)) => {
                if indices.len() != discrete_dimensions.len() {
                    return Err(format!(
                        "Uniform probe discrete dimension mismatch: expected {}, got {}",
                        discrete_dimensions.len(),
                        indices.len()
                    ));
                }

                if xs.len() != continuous_grid.continuous_dimensions.len() {
                    return Err(format!(
                        "Uniform probe continuous dimension mismatch: expected {}, got {}",
                        continuous_grid.continuous_dimensions.len(),
                        xs.len()
                    ));
                }

                let mut weight = continuous_grid.probe(xs)?;
                for (dimension, index) in discrete_dimensions.iter().zip(indices) {
                    if let Some(index) = index {
                        if *index >= *dimension {
                            return Err(format!(
                                "Uniform probe index {} out of bounds for dimension with {} bins",
                                index, dimension
                            ));
                        }

                        weight *= T::new_from_usize(*dimension);
                    }
                }

                Ok(weight)
            }
            _ => Err("Probe does not match the grid shape".to_owned()),
        }
    }

    /// Add a sample point and its corresponding evaluation `eval` to the grid as training.
    /// Upon a call to [`Grid::update`], the grid will be adapted to better represent
    /// the function that is being evaluated.
    pub fn add_training_sample(&mut self, sample: &Sample<T>, eval: T, number: u64) -> Result<(), String> { // ours: the number is handed down
        match self {
            Grid::Continuous(g) => g.add_training_sample(sample, eval, number), // ours: the number is handed down
            Grid::Discrete(g) => g.add_training_sample(sample, eval, number), // ours: the number is handed down
            Grid::Uniform(_, g) => g.add_training_sample(sample, eval, number), // ours: the number is handed down
        }
    }

    /// Returns `Ok` when this grid can be merged with another grid,
    /// and `Err` when the grids have a different shape.
    pub fn is_mergeable(&self, grid: &Grid<T>) -> Result<(), String> {
        match (self, grid) {
            (Grid::Continuous(c1), Grid::Continuous(c2)) => c1.is_mergeable(c2),
            (Grid::Discrete(d1), Grid::Discrete(d2)) => d1.is_mergeable(d2),
            (Grid::Uniform(d1, c1), Grid::Uniform(d2, c2)) if d1 == d2 => c1.is_mergeable(c2),
            _ => Err("Cannot merge a discrete and continuous grid".to_owned()),
        }
    }

    /// Merge a grid with exactly the same structure.
    pub fn merge(&mut self, grid: &Grid<T>) -> Result<(), String> {
        // first do a complete check to see if the grids are mergeable
        self.is_mergeable(grid)?;
        self.merge_unchecked(grid);

        Ok(())
    }

    /// Merge a grid without checks. For internal use only.
    fn merge_unchecked(&mut self, grid: &Grid<T>) {
        match (self, grid) {
            (Grid::Continuous(c1), Grid::Continuous(c2)) => c1.merge_unchecked(c2),
            (Grid::Discrete(d1), Grid::Discrete(d2)) => d1.merge_unchecked(d2),
            (Grid::Uniform(_, c1), Grid::Uniform(_, c2)) => c1.merge_unchecked(c2),
            _ => panic!("Cannot merge grids that have a different shape."),
        }
    }

    /// Update the grid based on the samples added through [`Grid::add_training_sample`].
    pub fn update(&mut self, discrete_learning_rate: T, continuous_learning_rate: T) {
        match self {
            Grid::Continuous(g) => g.update(continuous_learning_rate),
            Grid::Discrete(g) => g.update(discrete_learning_rate, continuous_learning_rate),
            Grid::Uniform(_, g) => g.update(continuous_learning_rate),
        }
    }

    /// Get the statistics of this grid.
    pub fn get_statistics(&mut self) -> &StatisticsAccumulator<T> {
        match self {
            Grid::Continuous(g) => &g.accumulator,
            Grid::Discrete(g) => &g.accumulator,
            Grid::Uniform(_, g) => &g.accumulator,
        }
    }

    /// Clone the grid and remove any samples that have not been processed in an update.
    /// The new grid can accumulate samples independently, and can later be merged into
    /// the current grid.
    pub fn clone_without_samples(&self) -> Grid<T> {
        match self {
            Grid::Continuous(c) => Grid::Continuous(c.clone_without_samples()),
            Grid::Discrete(d) => Grid::Discrete(d.clone_without_samples()),
            Grid::Uniform(bins, c) => Grid::Uniform(bins.clone(), c.clone_without_samples()),
        }
    }
}
/// A bin of a discrete grid, which may contain a subgrid.
#[cfg_attr(feature = "serde", derive(serde::Serialize, serde::Deserialize))]
#[cfg_attr(feature = "bincode", derive(bincode::Encode, bincode::Decode))]
#[derive(Debug, Clone)]
pub struct Bin<T: Real + Constructible + Copy + RealLike + PartialOrd> {
    pub pdf: T,
    pub accumulator: StatisticsAccumulator<T>,
    pub sub_grid: Option<Grid<T>>,
}

impl<T: Real + Constructible + Copy + RealLike + PartialOrd> Bin<T> {
    /// Returns `Ok` when this grid can be merged with another grid,
    /// and `Err` when the grids have a different shape.
    pub fn is_mergeable(&self, other: &Bin<T>) -> Result<(), String> {
        if self.pdf != other.pdf {
            return Err("PDF not equivalent".to_owned());
        }

        match (&self.sub_grid, &other.sub_grid) {
            (None, None) => Ok(()),
            (Some(s1), Some(s2)) => s1.is_mergeable(s2),
            (None, Some(_)) | (Some(_), None) => Err("Sub-grid not equivalent".to_owned()),
        }
    }

    /// Merge a grid without checks. For internal use only.
    fn merge(&mut self, other: &Bin<T>) {
        self.accumulator.merge_samples_no_reset(&other.accumulator);

        if let (Some(s1), Some(s2)) = (&mut self.sub_grid, &other.sub_grid) {
            s1.merge_unchecked(s2);
        }
    }
}

/// A discrete grid consisting of a given number of bins.
/// Each bin may have a nested grid.
///
/// After adding training samples and updating, the probabilities
/// of a sample from the grid landing in a bin is proportional to its
/// average value if training happens on the average, or to its
/// variance (recommended).
#[cfg_attr(feature = "serde", derive(serde::Serialize, serde::Deserialize))]
#[cfg_attr(feature = "bincode", derive(bincode::Encode, bincode::Decode))]
#[derive(Debug, Clone)]
pub struct DiscreteGrid<T: Real + Constructible + Copy + RealLike + PartialOrd> {
    pub bins: Vec<Bin<T>>,
    pub accumulator: StatisticsAccumulator<T>,
    max_prob_ratio: T,
    train_on_avg: bool,
}

impl<T: Real + Constructible + Copy + RealLike + PartialOrd> DiscreteGrid<T> {
    /// Create a new discrete grid with `bins.len()` number of bins, where
    /// each bin may have a sub-grid.
    /// Returns an error if `bins` is empty.
    ///
    /// Also set the maximal probability ratio between bins, `max_prob_ratio`,
    /// that prevents one bin from getting oversampled.
    ///
    /// If you want to train on the average instead of the error, set `train_on_avg` to `true` (not recommended).
    pub fn new(
        bins: Vec<Option<Grid<T>>>,
        max_prob_ratio: T,
        train_on_avg: bool,
    ) -> Result<DiscreteGrid<T>, String> {
        if bins.is_empty() {
            return Err("A discrete grid must contain at least one bin".into());
        }
        let pdf = T::new_from_usize(1) / T::new_from_usize(bins.len());
        Ok(DiscreteGrid {
            bins: bins
                .into_iter()
                .map(|s| Bin {
                    pdf,
                    accumulator: StatisticsAccumulator::new(),
                    sub_grid: s,
                })
                .collect(),
            accumulator: StatisticsAccumulator::new(),
            max_prob_ratio,
            train_on_avg,
        })
    }

    /// Sample a bin from all bins based on the bin pdfs.
    fn sample_bin<R: Rng + ?Sized>(&self, rng: &mut R) -> (usize, T) {
        let r: T = T::new_sample_unit(rng);

        let mut cdf = T::new_zero();
        for (i, bin) in self.bins.iter().enumerate() {
            cdf += bin.pdf;
            if r <= cdf {
                // the 'volume' of the bin is 1 / pdf
                return (i, bin.pdf.inv());
            }
        }
        // ours: no running sum reaches the draw, so the last bin is taken
        let last = self.bins.len() - 1;
        (last, self.bins[last].pdf.inv())
    }

    /// Probe the Jacobian weight of a point or prefix region in the discrete grid.
    pub fn probe(&self, indices: &[usize], xs: &[Option<T>]) -> Result<T, String> {
        let Some((&index, rest)) = indices.split_first() else {
            return Err("Discrete probe path cannot be empty".to_owned());
        };

        let bin = self.bins.get(index).ok_or_else(|| {
            format!(
                "Discrete probe index {} out of bounds for grid with {} bins",
                index,
                self.bins.len()
            )
        })?;

        let mut weight = bin.pdf.inv();
        if rest.is_empty() {
            if xs.is_empty() {
                return Ok(weight);
            }

            let sub_grid = bin.sub_grid.as_ref().ok_or_else(|| {
                format!("Discrete probe index {} does not have a sub-grid", index)
            })?;
            match sub_grid {
                Grid::Continuous(g) => weight *= g.probe(xs)?,
                Grid::Discrete(_) => {
                    return Err(
                        "Discrete probe path ended before reaching a continuous sub-grid"
                            .to_owned(),
                    );
                }
                Grid::Uniform(_, _) => {
                    return Err(
                        "Discrete probe cannot target a uniform sub-grid directly".to_owned()
                    );
                }
            }

            return Ok(weight);
        }

        let sub_grid = bin
            .sub_grid
            .as_ref()
            .ok_or_else(|| format!("Discrete probe index {} does not have a sub-grid", index))?;
        match sub_grid {
            Grid::Discrete(g) => weight *= g.probe(rest, xs)?,
            Grid::Continuous(_) => {
                return Err("Discrete probe path continues past a continuous sub-grid".to_owned());
            }
            Grid::Uniform(_, _) => {
                return Err("Discrete probe path continues past a uniform sub-grid".to_owned());
            }
        }

        Ok(weight)
    }

    /// Update the discrete grid probabilities of landing in a particular bin when sampling,
    /// and adapt all sub-grids based on the new training samples.
    ///
    /// If `learning_rate` is set to 0, no training happens.
    pub fn update(&mut self, discrete_learning_rate: T, continuous_learning_rate: T) {
        let mut err_sum = T::new_zero();
        for bin in &mut self.bins {
            if let Some(sub_grid) = &mut bin.sub_grid {
                sub_grid.update(discrete_learning_rate, continuous_learning_rate);
            }

            let acc = &mut bin.accumulator;
            acc.update_iter(false);

            if acc.processed_samples > 1 {
                err_sum += acc.err * T::new_from_usize(acc.processed_samples - 1).sqrt();
            }
        }

        if discrete_learning_rate.is_zero()
            || self.bins.iter().all(|bin| {
                if self.train_on_avg {
                    bin.accumulator.avg == T::new_zero()
                } else {
                    bin.accumulator.err == T::new_zero() || bin.accumulator.processed_samples < 2
                }
            })
        {
            return;
        }

        let mut max_per_bin = T::new_zero();
        for bin in &mut self.bins {
            let acc = &mut bin.accumulator;

            if self.train_on_avg {
                bin.pdf = acc.avg.norm()
            } else if acc.processed_samples < 2 {
                bin.pdf = T::new_zero();
            } else {
                let n_samples = T::new_from_usize(acc.processed_samples - 1);
                let var = acc.err * n_samples.sqrt();
                bin.pdf = var;
            }

            if bin.pdf > max_per_bin {
                max_per_bin = bin.pdf;
            }
        }

        let mut sum = T::new_zero();
        let r = max_per_bin / self.max_prob_ratio;
        for bin in &mut self.bins {
            if bin.pdf < r {
                bin.pdf = r
            }
            sum += bin.pdf;
        }

        for bin in &mut self.bins {
            bin.pdf /= sum;
        }

        self.accumulator.update_iter(false);
    }

    /// Sample a point form this grid, writing the result in `sample`.
    pub fn sample<R: Rng + ?Sized>(&mut self, rng: &mut R, sample: &mut Sample<T>) {
        let (weight, vs, child) = sample.to_discrete_grid();

        *weight = T::new_one();
        let (v, w) = self.sample_bin(rng);
        *weight *= &w;
        *vs = v;

        // get the child grid for this sample
        if let Some(sub_grid) = &mut self.bins[v].sub_grid {
            let child_sample = if let Some(sub_sample) = child {
                sub_sample
            } else {
                *child = Some(Box::new(Sample::new()));
                child.as_mut().unwrap()
            };

            sub_grid.sample(rng, child_sample);

            // multiply the weight of the subsample
            *weight *= &child_sample.get_weight();
        } else {
            *child = None;
        };
    }

    /// Add a training sample with its corresponding evaluation, i.e. `f(sample)`, to the grid.
    pub fn add_training_sample(&mut self, sample: &Sample<T>, eval: T, number: u64) -> Result<(), String> { // ours: the number is handed down
        if !eval.is_finite() {
            return Err(format!(
                "Added training sample that is not finite: sample={sample:?}, fx={eval}"
            ));
        }

        if let Sample::Discrete(weight, index, sub_sample) = sample {
            self.accumulator.add_sample(eval * weight, number); // ours: the number is handed down

            // undo the weight of the bin, which is 1 / pdf
            let bin_weight = *weight * self.bins[*index].pdf;
            self.bins[*index]
                .accumulator
                .add_sample(bin_weight * eval, number); // ours: the number is handed down

            if let Some(sg) = &mut self.bins[*index].sub_grid
                && let Some(sub_sample) = sub_sample
            {
                sg.add_training_sample(sub_sample, eval, number)?; // ours: the number is handed down
            }

            Ok(())
        } else {
            Err(format!("Discrete sample expected: {sample:?}"))
        }
    }

    /// Returns `Ok` when this grid can be merged with another grid,
    /// and `Err` when the grids have a different shape.
    pub fn is_mergeable(&self, other: &DiscreteGrid<T>) -> Result<(), String> {
        if self.bins.len() != other.bins.len() {
            return Err("Discrete grid dimensions do not match".to_owned());
        }

        for (c, o) in self.bins.iter().zip(&other.bins) {
            c.is_mergeable(o)?;
        }

        Ok(())
    }

    /// Merge a grid with exactly the same structure.
    pub fn merge(&mut self, grid: &DiscreteGrid<T>) -> Result<(), String> {
        // first do a complete check to see if the grids are mergeable
        self.is_mergeable(grid)?;
        self.merge_unchecked(grid);

        Ok(())
    }

    /// Merge a grid without checks. For internal use only.
    fn merge_unchecked(&mut self, other: &DiscreteGrid<T>) {
        for (c, o) in self.bins.iter_mut().zip(&other.bins) {
            c.merge(o);
        }

        self.accumulator.merge_samples_no_reset(&other.accumulator);
    }

    /// Clone the grid and remove any samples that have not been processed in an update.
    pub fn clone_without_samples(&self) -> DiscreteGrid<T> {
        let mut d = self.clone();

        for bin in &mut d.bins {
            bin.accumulator.clear_samples();

            bin.sub_grid.as_ref().map(|g| g.clone_without_samples());
        }

        d.accumulator.clear_samples();
        d
    }
}

/// An adaptive continuous grid that uses factorized dimensions to approximate
/// a function. The VEGAS algorithm is used to adapt the grid
/// based on new sample points.
///
/// After adding training samples and updating, the probabilities
/// of a sample from the grid landing in a bin is proportional to its
/// average value if training happens on the average, or to its
/// variance (recommended).
#[cfg_attr(feature = "serde", derive(serde::Serialize, serde::Deserialize))]
#[cfg_attr(feature = "bincode", derive(bincode::Encode, bincode::Decode))]
#[derive(Debug, Clone)]
pub struct ContinuousGrid<T: Real + Constructible + Copy + RealLike + PartialOrd> {
    pub continuous_dimensions: Vec<ContinuousDimension<T>>,
    pub accumulator: StatisticsAccumulator<T>,
    pub min_probability_density: T,
}

impl<T: Real + Constructible + Copy + RealLike + PartialOrd> ContinuousGrid<T> {
    /// Create a new grid with `n_dims` dimensions and `n_bins` bins
    /// per dimension.
    /// Returns an error for zero dimensions, zero bins, or an empty or
    /// zero-containing bin-number evolution.
    ///
    /// With `min_samples_for_update` grid updates can be prevented if
    /// there are too few samples in a certain bin. With `bin_number_evolution`
    /// the bin numbers can be changed based on the iteration index. If the
    /// `bin_number_evolution` array is smaller than the current iteration number,
    /// the last element is taken from the list.
    ///
    /// With `train_on_avg`, the grids will be adapted based on the average value
    /// of the bin, contrary to it's variance.
    pub fn new(
        n_dims: usize,
        n_bins: usize,
        min_samples_for_update: usize,
        bin_number_evolution: Option<Vec<usize>>,
        train_on_avg: bool,
    ) -> Result<ContinuousGrid<T>, String> {
        Self::new_with_min_probability_density(
            n_dims,
            n_bins,
            min_samples_for_update,
            bin_number_evolution,
            train_on_avg,
            T::new_zero(),
        )
    }

    /// Create a new grid with a lower bound on its joint sampling probability density.
    /// Dimensions and bin counts must be positive. A supplied bin-number
    /// evolution must be nonempty and contain only positive counts.
    ///
    /// For `min_probability_density = epsilon`, sampling uses the mixture
    /// `q = (1 - epsilon) * q_adaptive + epsilon * q_uniform`. Since the continuous
    /// domain is the unit hypercube and `q_uniform = 1`, this guarantees a joint
    /// inverse probability density no larger than `1 / epsilon`. Setting the value
    /// to zero disables the bound and preserves the original sampling sequence.
    pub fn new_with_min_probability_density(
        n_dims: usize,
        n_bins: usize,
        min_samples_for_update: usize,
        bin_number_evolution: Option<Vec<usize>>,
        train_on_avg: bool,
        min_probability_density: T,
    ) -> Result<ContinuousGrid<T>, String> {
        if n_dims == 0 || n_bins == 0 {
            return Err("A continuous grid must have at least one dimension and one bin".into());
        }
        if bin_number_evolution
            .as_ref()
            .is_some_and(|bins| bins.is_empty() || bins.contains(&0))
        {
            return Err(
                "Bin number evolution must be nonempty and contain only positive bin counts".into(),
            );
        }
        if !min_probability_density.is_finite()
            || min_probability_density < T::new_zero()
            || min_probability_density > T::new_one()
        {
            return Err(
                "The minimum continuous probability density must lie in [0, 1].".to_owned(),
            );
        }

        Ok(ContinuousGrid {
            continuous_dimensions: vec![
                ContinuousDimension::new(
                    n_bins,
                    min_samples_for_update,
                    bin_number_evolution,
                    train_on_avg
                );
                n_dims
            ],
            accumulator: StatisticsAccumulator::new(),
            min_probability_density,
        })
    }

    /// Apply the uniform-mixture correction to an inverse adaptive probability density.
    fn apply_min_probability_density(&self, adaptive_weight: T) -> T {
        if self.min_probability_density.is_zero() {
            return adaptive_weight;
        }
        if self.min_probability_density.is_one() {
            return T::new_one();
        }
        if adaptive_weight.is_zero() {
            return T::new_zero();
        }

        ((T::new_one() - self.min_probability_density) / adaptive_weight
            + self.min_probability_density)
            .inv()
    }

    /// Sample a point in the grid, writing the result in `sample`.
    pub fn sample<R: Rng + ?Sized>(&mut self, rng: &mut R, sample: &mut Sample<T>) {
        let (weight, vs) = sample.to_continuous_grid();
        *weight = T::new_one();
        vs.clear();
        vs.resize(self.continuous_dimensions.len(), T::new_zero());

        // Do not consume an extra random number when the floor is disabled, preserving
        // reproducibility for existing integrations.
        let sample_uniformly = !self.min_probability_density.is_zero()
            && (self.min_probability_density.is_one()
                || T::new_sample_unit(rng) < self.min_probability_density);

        if sample_uniformly {
            for (vs, d) in vs.iter_mut().zip(&self.continuous_dimensions) {
                *vs = T::new_sample_unit(rng);
                *weight *= d
                    .probe(*vs)
                    .expect("a uniformly sampled point lies in the unit interval");
            }
        } else {
            for (vs, d) in vs.iter_mut().zip(&self.continuous_dimensions) {
                let (v, w) = d.sample(rng);
                *weight *= &w;
                *vs = v;
            }
        }

        *weight = self.apply_min_probability_density(*weight);
    }

    /// Probe the Jacobian weight of a point or region in the continuous grid.
    pub fn probe(&self, probe: &[Option<T>]) -> Result<T, String> {
        if probe.len() != self.continuous_dimensions.len() {
            return Err(format!(
                "Continuous probe dimension mismatch: expected {}, got {}",
                self.continuous_dimensions.len(),
                probe.len()
            ));
        }

        let mut weight = T::new_one();
        for (x, dimension) in probe.iter().zip(&self.continuous_dimensions) {
            if let Some(x) = x {
                weight *= dimension.probe(*x)?;
            }
        }

        Ok(self.apply_min_probability_density(weight))
    }

    /// Add a training sample with its corresponding evaluation, i.e. `f(sample)`, to the grid.
    pub fn add_training_sample(&mut self, sample: &Sample<T>, eval: T, number: u64) -> Result<(), String> { // ours: the number is handed down
        if !eval.is_finite() {
            return Err(format!(
                "Added training sample that is not finite: sample={sample:?}, fx={eval}"
            ));
        }

        match sample {
            Sample::Continuous(weight, xs) | Sample::Uniform(weight, _, xs) => {
                self.accumulator.add_sample(eval * weight, number); // ours: the number is handed down

                for (d, x) in self.continuous_dimensions.iter_mut().zip(xs) {
                    d.add_training_sample(*x, *weight, eval)?;
                }
                Ok(())
            }
            _ => unreachable!(
                "Sample cannot be converted to continuous sample: {:?}",
                self
            ),
        }
    }

    /// Update the grid based on the added training samples. This will move the partition bounds of every dimension.
    ///
    /// The `learning_rate` determines the speed of the adaptation. If it is set to `0`, no training will be performed.
    pub fn update(&mut self, learning_rate: T) {
        for d in self.continuous_dimensions.iter_mut() {
            d.update(learning_rate);
        }

        self.accumulator.update_iter(false);
    }

    /// Returns `Ok` when this grid can be merged with another grid,
    /// and `Err` when the grids have a different shape.
    pub fn is_mergeable(&self, grid: &ContinuousGrid<T>) -> Result<(), String> {
        if self.continuous_dimensions.len() != grid.continuous_dimensions.len() {
            return Err("Cannot merge grids that have a different shape.".to_owned());
        }
        if self.min_probability_density != grid.min_probability_density {
            return Err(
                "Cannot merge continuous grids with different minimum probability densities."
                    .to_owned(),
            );
        }

        for (c, o) in self
            .continuous_dimensions
            .iter()
            .zip(&grid.continuous_dimensions)
        {
            c.is_mergeable(o)?;
        }
        Ok(())
    }

    /// Merge a grid with exactly the same structure.
    pub fn merge(&mut self, grid: &ContinuousGrid<T>) -> Result<(), String> {
        // first do a complete check to see if the grids are mergeable
        self.is_mergeable(grid)?;
        self.merge_unchecked(grid);

        Ok(())
    }

    /// Merge a grid without checks. For internal use only.
    fn merge_unchecked(&mut self, grid: &ContinuousGrid<T>) {
        self.accumulator.merge_samples_no_reset(&grid.accumulator);

        for (c, o) in self
            .continuous_dimensions
            .iter_mut()
            .zip(&grid.continuous_dimensions)
        {
            c.merge(o);
        }
    }

    /// Clone the grid and remove any samples that have not been processed in an update.
    pub fn clone_without_samples(&self) -> ContinuousGrid<T> {
        let mut c = self.clone();

        for dim in &mut c.continuous_dimensions {
            for bin in &mut dim.bin_accumulator {
                bin.clear_samples();
            }
        }

        c.accumulator.clear_samples();
        c
    }
}

/// A dimension in a continuous grid that contains a partitioning.
#[cfg_attr(feature = "serde", derive(serde::Serialize, serde::Deserialize))]
#[cfg_attr(feature = "bincode", derive(bincode::Encode, bincode::Decode))]
#[derive(Debug, Clone)]
pub struct ContinuousDimension<T: Real + Constructible + Copy + RealLike + PartialOrd> {
    pub partitioning: Vec<T>,
    bin_accumulator: Vec<StatisticsAccumulator<T>>,
    bin_importance: Vec<T>,
    counter: Vec<usize>,
    min_samples_for_update: usize,
    bin_number_evolution: Vec<usize>,
    update_counter: usize,
    train_on_avg: bool,
}

impl<T: Real + Constructible + Copy + RealLike + PartialOrd> ContinuousDimension<T> {
    /// Create a new dimension with `n_bins` bins.
    ///
    /// With `min_samples_for_update` grid updates can be prevented if
    /// there are too few samples in a certain bin. With `bin_number_evolution`
    /// the bin numbers can be changed based on the iteration index. If the
    /// `bin_number_evolution` array is smaller than the current iteration number,
    /// the last element is taken from the list.
    ///
    /// With `train_on_avg`, the grids will be adapted based on the average value
    /// of the bin, contrary to it's variance.
    fn new(
        n_bins: usize,
        min_samples_for_update: usize,
        bin_number_evolution: Option<Vec<usize>>,
        train_on_avg: bool,
    ) -> ContinuousDimension<T> {
        ContinuousDimension {
            partitioning: (0..=n_bins)
                .map(|i| T::new_from_usize(i) / T::new_from_usize(n_bins))
                .collect(),
            bin_importance: vec![T::new_zero(); n_bins],
            bin_accumulator: vec![StatisticsAccumulator::new(); n_bins],
            counter: vec![0; n_bins],
            min_samples_for_update,
            bin_number_evolution: bin_number_evolution.unwrap_or(vec![n_bins]),
            update_counter: 0,
            train_on_avg,
        }
    }

    /// Sample a point in this dimension, writing the result in `sample`.
    fn sample<R: Rng + ?Sized>(&self, rng: &mut R) -> (T, T) {
        let r: T = T::new_sample_unit(rng);

        // map the point to a bin
        let n_bins = T::new_from_usize(self.partitioning.len() - 1);
        let bin_index = (n_bins * r).to_usize_clamped();
        let bin_width = self.partitioning[bin_index + 1] - self.partitioning[bin_index];

        // rescale the point in the bin
        let sample =
            self.partitioning[bin_index] + (n_bins * r - T::new_from_usize(bin_index)) * bin_width;
        let weight = n_bins * bin_width; // d_sample / d_r

        (sample, weight)
    }

    /// Probe the Jacobian weight at a point in this dimension.
    fn probe(&self, sample: T) -> Result<T, String> {
        if sample < T::new_zero() || sample > T::new_one() {
            return Err(format!(
                "Continuous probe point must lie in [0, 1], got {}",
                sample
            ));
        }

        let mut index = self
            .partitioning
            .binary_search_by(|v| v.partial_cmp(&sample).unwrap())
            .unwrap_or_else(|e| e);
        index = index.saturating_sub(1);

        let n_bins = T::new_from_usize(self.partitioning.len() - 1);
        let bin_width = self.partitioning[index + 1] - self.partitioning[index];
        Ok(n_bins * bin_width)
    }

    /// Add a training sample with its corresponding evaluation, i.e. `f(sample)`, to the proper bin.
    fn add_training_sample(&mut self, sample: T, weight: T, eval: T) -> Result<(), String> {
        if sample < T::new_zero()
            || sample > T::new_one()
            || !eval.is_finite()
            || !weight.is_finite()
        {
            return Err(format!(
                "Malformed sample point: sample={sample}, weight={weight}, fx={eval}"
            ));
        }

        let mut index = self
            .partitioning
            .binary_search_by(|v| v.partial_cmp(&sample).unwrap())
            .unwrap_or_else(|e| e);
        index = index.saturating_sub(1);

        self.bin_accumulator[index].add_sample(weight * eval, 0); // ours: axis bins pass no number
        Ok(())
    }

    /// Update the grid based on the added training samples. This will move the partition bounds of every dimension.
    ///
    /// The `learning_rate` determines the speed of the adaptation. If it is set to `0`, no training will be performed.
    fn update(&mut self, learning_rate: T) {
        for (bi, acc) in self.bin_importance.iter_mut().zip(&self.bin_accumulator) {
            if self.train_on_avg {
                *bi += &acc.sum
            } else {
                *bi += &acc.sum_sq;
            }
        }

        for (c, acc) in self.counter.iter_mut().zip(&mut self.bin_accumulator) {
            *c += acc.new_samples;
            acc.clear_samples();
        }

        if self.counter.iter().sum::<usize>() < self.min_samples_for_update {
            // do not train the grid if there is a lack of samples
            return;
        }

        if learning_rate.is_zero() {
            self.bin_accumulator.clear();
            self.bin_accumulator
                .resize(self.partitioning.len() - 1, StatisticsAccumulator::new());
            self.bin_importance.clear();
            self.bin_importance
                .resize(self.partitioning.len() - 1, T::new_zero());
            self.counter.clear();
            self.counter.resize(self.partitioning.len() - 1, 0);
            return;
        }

        let n_bins = self.partitioning.len() - 1;

        for avg in self.bin_importance.iter_mut() {
            *avg = avg.norm();
        }

        // normalize the average
        for (avg, &c) in self.bin_importance.iter_mut().zip(&self.counter) {
            if c > 0 {
                *avg /= T::new_from_usize(c);
            }
        }

        // smoothen the averages between adjacent grid points
        if self.partitioning.len() > 2 {
            let mut prev = self.bin_importance[0];
            let mut cur = self.bin_importance[1];
            self.bin_importance[0] = (T::new_from_usize(3) * prev + cur) / T::new_from_usize(4);
            for bin in 1..n_bins - 1 {
                let s = prev + cur * T::new_from_usize(6);
                prev = cur;
                cur = self.bin_importance[bin + 1];
                self.bin_importance[bin] = (s + cur) / T::new_from_usize(8);
            }
            self.bin_importance[n_bins - 1] =
                (prev + T::new_from_usize(3) * cur) / T::new_from_usize(4);
        }

        let mut sum = T::new_zero();
        for x in &self.bin_importance {
            sum += x;
        }

        let mut imp_sum = T::new_zero();
        for bi in self.bin_importance.iter_mut() {
            let m = if *bi == sum {
                T::new_one()
            } else if *bi == T::new_zero() {
                T::new_zero()
            } else if (*bi / sum).is_zero() {
                T::new_zero() // ours: damping of an underflowed quotient
            } else {
                ((*bi / sum - T::new_one()) / (*bi / sum).log()).powf(&learning_rate)
            };
            *bi = m;
            imp_sum += m;
        }

        let new_number_of_bins = *self
            .bin_number_evolution
            .get(self.update_counter)
            .or(self.bin_number_evolution.last())
            .unwrap_or(&self.bin_accumulator.len());
        self.update_counter += 1;
        let new_weight_per_bin = imp_sum / T::new_from_usize(new_number_of_bins);

        // resize the bins using their importance measure
        let mut new_partitioning = vec![T::new_zero(); new_number_of_bins + 1];

        // evenly distribute the bins such that each has weight_per_bin weight
        let mut acc = T::new_zero();
        let mut j = 0;
        let mut target = T::new_zero();
        for nb in &mut new_partitioning[1..].iter_mut() {
            target += new_weight_per_bin;
            // find the bin that has the accumulated weight we are looking for
            while j < self.bin_importance.len() && acc + self.bin_importance[j] < target {
                acc += &self.bin_importance[j];
                // prevent some rounding errors from going out of the bin
                if j + 1 < self.bin_importance.len() {
                    j += 1;
                } else {
                    break;
                }
            }

            // find out how deep we are in the current bin
            let bin_depth = (target - acc) / self.bin_importance[j];
            *nb = self.partitioning[j]
                + bin_depth * (self.partitioning[j + 1] - self.partitioning[j]);
        }

        // it could be that all the weights are distributed before we reach 1, for example if the first bin
        // has all the weights. we still force to have the complete input range
        new_partitioning[new_number_of_bins] = T::new_one();
        self.partitioning = new_partitioning;

        self.bin_importance.clear();
        self.bin_importance
            .resize(self.partitioning.len() - 1, T::new_zero());
        self.counter.clear();
        self.counter.resize(self.partitioning.len() - 1, 0);
        self.bin_accumulator.clear();
        self.bin_accumulator
            .resize(self.partitioning.len() - 1, StatisticsAccumulator::new());
    }

    /// Returns `Ok` when this grid can be merged with another grid,
    /// and `Err` when the grids have a different shape.
    fn is_mergeable(&self, other: &ContinuousDimension<T>) -> Result<(), String> {
        if self.partitioning != other.partitioning {
            Err("Partitions do not match".to_owned())
        } else {
            Ok(())
        }
    }

    /// Merge a grid without checks. For internal use only.
    fn merge(&mut self, other: &ContinuousDimension<T>) {
        for (bi, obi) in self.bin_accumulator.iter_mut().zip(&other.bin_accumulator) {
            bi.merge_samples_no_reset(obi);
        }
    }

    /// Clone the dimension and remove any samples that have not been processed in an update.
    pub fn clone_without_samples(&self) -> ContinuousDimension<T> {
        let mut d = self.clone();

        for bi in &mut d.bin_importance {
            *bi = T::new_zero();
        }
        for c in &mut d.counter {
            *c = 0;
        }

        for bin in &mut d.bin_accumulator {
            bin.clear_samples();
        }
        d
    }
}

/// A reproducible, fast, non-cryptographic random number generator suitable for parallel Monte Carlo simulations.
/// A `seed` has to be set, which can be any `u64` number (small numbers work just as well as large numbers).
///
/// Each thread or instance generating samples should use the same `seed` but a different `stream_id`,
/// which is an instance counter starting at 0.
///
/// Adapted from [rand_xoshiro](https://crates.io/crates/rand_xoshiro)'s `Xoshiro256StarStar`.
#[cfg_attr(feature = "serde", derive(serde::Serialize, serde::Deserialize))]
#[cfg_attr(feature = "bincode", derive(bincode::Encode, bincode::Decode))]
#[derive(Debug, Clone, PartialEq, Eq)]
pub struct MonteCarloRng {
    state: [u64; 4],
}

impl SeedableRng for MonteCarloRng {
    type Seed = [u8; 32];

    /// Create a new random number generator.  If `seed` is entirely 0, it will be
    /// mapped to a different seed.
    #[inline]
    fn from_seed(seed: [u8; 32]) -> MonteCarloRng {
        if seed.iter().all(|&x| x == 0) {
            return Self::new(0, 0);
        }

        let mut state = [0; 4];
        for (word, chunk) in state.iter_mut().zip(seed.chunks_exact(8)) {
            *word = u64::from_le_bytes(chunk.try_into().unwrap());
        }

        MonteCarloRng { state }
    }

    fn seed_from_u64(seed: u64) -> MonteCarloRng {
        Self::new(seed, 0)
    }
}

impl RngCore for MonteCarloRng {
    #[inline]
    fn next_u32(&mut self) -> u32 {
        (self.next_u64() >> 32) as u32
    }

    #[inline]
    fn next_u64(&mut self) -> u64 {
        let result = self.state[1].wrapping_mul(5).rotate_left(7).wrapping_mul(9);
        let t = self.state[1] << 17;

        self.state[2] ^= self.state[0];
        self.state[3] ^= self.state[1];
        self.state[1] ^= self.state[2];
        self.state[0] ^= self.state[3];
        self.state[2] ^= t;
        self.state[3] = self.state[3].rotate_left(45);

        result
    }

    #[inline]
    fn fill_bytes(&mut self, dest: &mut [u8]) {
        let mut filled = 0;
        while filled + 8 <= dest.len() {
            dest[filled..filled + 8].copy_from_slice(&self.next_u64().to_le_bytes());
            filled += 8;
        }

        if filled < dest.len() {
            let tail = self.next_u64().to_le_bytes();
            let remaining = dest.len() - filled;
            dest[filled..].copy_from_slice(&tail[..remaining]);
        }
    }
}

impl MonteCarloRng {
    const SPLITMIX64_GAMMA: u64 = 0x9e3779b97f4a7c15;
    const JUMP: [u64; 4] = [
        0x180ec6d33cfd0aba,
        0xd5a61266f0c9392c,
        0xa9582618e03fc9aa,
        0x39abdc4529b1661c,
    ];
    const LONG_JUMP: [u64; 4] = [
        0x76e15d3efefdcbbf,
        0xc5004e441c522fb3,
        0x77710069854ee241,
        0x39109bb02acbe635,
    ];

    #[inline]
    fn splitmix64_next(seed: &mut u64) -> u64 {
        *seed = seed.wrapping_add(Self::SPLITMIX64_GAMMA);
        let mut z = *seed;
        z = (z ^ (z >> 30)).wrapping_mul(0xbf58476d1ce4e5b9);
        z = (z ^ (z >> 27)).wrapping_mul(0x94d049bb133111eb);
        z ^ (z >> 31)
    }

    /// Create a new random number generator with a given `seed` and `stream_id`. For parallel runs,
    /// each thread or instance generating samples should use the same `seed` but a different `stream_id`.
    pub fn new(mut seed: u64, stream_id: usize) -> Self {
        let mut state = Self {
            state: [
                Self::splitmix64_next(&mut seed),
                Self::splitmix64_next(&mut seed),
                Self::splitmix64_next(&mut seed),
                Self::splitmix64_next(&mut seed),
            ],
        };
        for _ in 0..stream_id {
            state.jump();
        }

        state
    }

    /// Export the RNG state in a byte-stable format.
    pub fn export(&self) -> [u8; 32] {
        let mut bytes = [0; 32];
        for (chunk, word) in bytes.chunks_exact_mut(8).zip(self.state) {
            chunk.copy_from_slice(&word.to_le_bytes());
        }

        bytes
    }

    /// Restore an RNG from bytes produced by [`Self::export`].
    pub fn import(state: [u8; 32]) -> Self {
        Self::from_seed(state)
    }

    /// Jump forward, equivalently to `2^128` calls to [`Self::next_u64`].
    pub fn jump(&mut self) {
        self.apply_jump(Self::JUMP);
    }

    /// Jump forward, equivalently to `2^192` calls to [`Self::next_u64`].
    pub fn long_jump(&mut self) {
        self.apply_jump(Self::LONG_JUMP);
    }

    fn apply_jump(&mut self, jump: [u64; 4]) {
        let mut next_state = [0; 4];
        for word in jump {
            for bit in 0..64 {
                if (word & (1_u64 << bit)) != 0 {
                    next_state[0] ^= self.state[0];
                    next_state[1] ^= self.state[1];
                    next_state[2] ^= self.state[2];
                    next_state[3] ^= self.state[3];
                }
                self.next_u64();
            }
        }

        self.state = next_state;
    }
}

