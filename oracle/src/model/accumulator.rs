//! The accumulator's calls on a record passed by value.

use super::{Answer, MOST, Refusal, demand};
use crate::numerical_integration::{StatisticsAccumulator, state::Record};
use crate::words::bits;

/// Kept sums finite, counts at most 2^53; other estimates are free.
pub fn well_formed(record: &Record) -> bool {
    let sums = [
        record.sum,
        record.sum_sq,
        record.total_sum,
        record.total_sum_sq,
    ];
    let counts = [
        record.new_samples,
        record.new_zero_evaluations,
        record.cur_iter,
        record.processed_samples,
        record.num_zero_evaluations,
    ];
    sums.iter().all(|sum| sum.is_finite()) && counts.iter().all(|&count| count <= MOST)
}

fn judged(record: &Record) -> Answer<StatisticsAccumulator<f64>> {
    demand(well_formed(record), Refusal::IllFormed)?;
    Ok(StatisticsAccumulator::from_record(record))
}

/// The record to keep, unless a sum of it is not finite or a count too large.
fn kept(accumulator: &StatisticsAccumulator<f64>) -> Answer<Record> {
    let record = accumulator.record();
    demand(well_formed(&record), Refusal::Overflow)?;
    Ok(record)
}

pub fn add_sample(record: &Record, eval: f64, number: u64) -> Answer<Record> {
    let mut accumulator = judged(record)?;
    demand(number <= MOST, Refusal::Range)?;
    demand(eval.is_finite(), Refusal::NotFinite)?;
    accumulator.add_sample(eval, number);
    kept(&accumulator)
}

pub fn merge_samples_no_reset(record: &Record, other: &Record) -> Answer<Record> {
    let mut accumulator = judged(record)?;
    accumulator.merge_samples_no_reset(&judged(other)?);
    kept(&accumulator)
}

/// Both records after the merge that clears the other.
pub fn merge_samples(record: &Record, other: &Record) -> Answer<(Record, Record)> {
    let mut accumulator = judged(record)?;
    let mut other = judged(other)?;
    accumulator.merge_samples(&mut other);
    Ok((kept(&accumulator)?, other.record()))
}

/// Whether samples were processed, and the record after.
pub fn update_iter(record: &Record, weighted: bool) -> Answer<(bool, Record)> {
    let mut accumulator = judged(record)?;
    let processed = accumulator.update_iter(weighted);
    let after = kept(&accumulator)?;
    let expected = stepped(record, weighted);
    assert_eq!(
        after.words(),
        expected.words(),
        "model and Rust differ in update_iter({weighted}) of {record:?}"
    );
    Ok((processed, after))
}

pub fn live_estimate(record: &Record) -> Answer<[f64; 3]> {
    update_iter(record, false)?;
    let (avg, err, chi_sq) = StatisticsAccumulator::from_record(record).get_live_estimate();
    Ok([avg, err, chi_sq])
}

pub fn shallow_copy(record: &Record) -> Answer<Record> {
    Ok(judged(record)?.shallow_copy().record())
}

pub fn clear_samples(record: &Record) -> Answer<Record> {
    let mut accumulator = judged(record)?;
    accumulator.clear_samples();
    Ok(accumulator.record())
}

/// What a grid or an accumulator tells of its finished iterations.
#[derive(Clone, Copy, Debug)]
pub struct Summary {
    pub iterations: u64,
    pub samples: u64,
    pub average: f64,
    pub error: f64,
    pub chi_squared: f64,
    pub flat: bool,
}

impl Summary {
    pub fn words(&self) -> [u64; 6] {
        [
            self.iterations,
            self.samples,
            bits(self.average),
            bits(self.error),
            bits(self.chi_squared),
            self.flat as u64,
        ]
    }
}

pub fn summary(record: &Record) -> Answer<Summary> {
    demand(well_formed(record), Refusal::IllFormed)?;
    Ok(Summary {
        iterations: record.cur_iter,
        samples: record.processed_samples,
        average: record.avg,
        error: record.err,
        chi_squared: record.chi_sq,
        flat: record.err == 0.0,
    })
}

/// `update_iter` worked out once more in plain code, to hold the Rust to.
pub fn stepped(record: &Record, weighted: bool) -> Record {
    let mut after = *record;
    after.cur_iter += 1;
    if record.new_samples < 2 {
        return after;
    }
    after.processed_samples += record.new_samples;
    after.num_zero_evaluations += record.new_zero_evaluations;
    after.total_sum += record.sum;
    after.total_sum_sq += record.sum_sq;

    let n = record.new_samples as f64;
    let mean = record.sum / n;
    let variance = variance_of_mean(record.sum_sq / n, mean, n);
    let weight = if variance == 0.0 {
        18446744073709551616.0
    } else {
        1.0 / variance
    };
    after.weight_sum += weight;
    after.avg_sum += weight * mean;
    let sigma_sq = 1.0 / after.weight_sum;
    let weighted_avg = sigma_sq * after.avg_sum;

    if weighted {
        after.avg = weighted_avg;
        after.err = sigma_sq.sqrt();
    } else {
        let total = after.processed_samples as f64;
        after.avg = after.total_sum / total;
        after.err = variance_of_mean(after.total_sum_sq / total, after.avg, total).sqrt();
    }
    if record.cur_iter == 0 {
        after.guess = mean;
    }
    let pull = weight * (mean - after.guess);
    after.chi_sum += pull;
    after.chi_sq_sum += pull * mean;
    after.chi_sq = after.chi_sq_sum - weighted_avg * after.chi_sum;

    after.sum = 0.0;
    after.sum_sq = 0.0;
    after.new_samples = 0;
    after.new_zero_evaluations = 0;
    after
}

/// (s + m)(s - m)/(n - 1), s being the root of the mean square; it may be negative.
fn variance_of_mean(mean_square: f64, mean: f64, n: f64) -> f64 {
    let root = mean_square.sqrt();
    ((root + mean) * (root - mean)) / (n - 1.0)
}
