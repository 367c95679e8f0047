//! The loops of an accumulator's updates and of whole grids that are timed beside the library's.

use std::hint::black_box;
use std::time::Instant;

use crate::numerical_integration::{
    ContinuousGrid, DiscreteGrid, Grid, MonteCarloRng, Sample, StatisticsAccumulator,
};
use crate::words::bits;

/// How many samples a batch has.
const BATCH: u64 = 100_000;

/// The whole number behind the program's name.
fn count(name: &str) -> u64 {
    let count = std::env::args().nth(1).and_then(|a| a.parse::<u64>().ok());
    let Some(count) = count.filter(|&count| count > 0) else {
        eprintln!("usage: {name} N");
        std::process::exit(2);
    };
    count
}

/// An axes grid, with no floor and no least number of samples.
fn axes_grid(axes: usize, bins: usize) -> Grid<f64> {
    Grid::Continuous(ContinuousGrid::new(axes, bins, 0, None, false).unwrap())
}

/// The axes grid that is timed.
pub fn axes() -> Grid<f64> {
    axes_grid(5, 64)
}

/// The bins grid that is timed.
pub fn tree() -> Grid<f64> {
    let bins = (0..16).map(|_| Some(axes_grid(2, 32))).collect();
    Grid::Discrete(DiscreteGrid::new(bins, 10.0, false).unwrap())
}

/// The evaluation that varies with i: the whole numbers from -512 to 511 in turn.
fn evaluation(i: u64) -> f64 {
    (i % 1024) as f64 - 512.0
}

/// A batch of them.
fn evaluations() -> Vec<f64> {
    (0..BATCH).map(evaluation).collect()
}

/// Draws and trains N samples in whole batches, and prints a word of the live estimate and the stream.
pub fn train(name: &str, mut grid: Grid<f64>) {
    let batches = count(name) / BATCH;
    let evaluations = evaluations();
    let mut stream = MonteCarloRng::new(0, 0);
    let mut sample = Sample::new();
    let start = Instant::now();
    for _ in 0..batches {
        for (&evaluation, number) in evaluations.iter().zip(1..) {
            grid.sample(&mut stream, &mut sample);
            grid.add_training_sample(&sample, evaluation, number)
                .unwrap();
        }
    }
    let nanoseconds = start.elapsed().as_nanos() as f64 / (batches * BATCH) as f64;
    let (average, error, chi_squared) = grid.get_statistics().get_live_estimate();
    let first = u64::from_le_bytes(stream.export()[..8].try_into().unwrap());
    let word = average.to_bits() ^ error.to_bits() ^ chi_squared.to_bits() ^ first;
    println!("{nanoseconds:.3} ns a sample, word {word:016x}");
}

/// The first coordinate of a sample.
fn coordinate(sample: &Sample<f64>) -> f64 {
    match sample {
        Sample::Continuous(_, xs) => xs[0],
        Sample::Discrete(_, _, Some(child)) => coordinate(child),
        _ => unreachable!("the timed grids draw coordinates"),
    }
}

/// Draws N samples and prints the xor of their weights and first coordinates.
pub fn draw(name: &str, mut grid: Grid<f64>) {
    let count = count(name);
    let mut stream = MonteCarloRng::new(0, 0);
    let mut sample = Sample::new();
    let mut xor = 0;
    let start = Instant::now();
    for _ in 0..count {
        grid.sample(&mut stream, &mut sample);
        xor ^= sample.get_weight().to_bits() ^ coordinate(&sample).to_bits();
    }
    let nanoseconds = start.elapsed().as_nanos() as f64 / count as f64;
    println!("{nanoseconds:.3} ns a draw, xor {xor:016x}");
}

/// Ends N iterations of an accumulator, where two or three samples with the sums of a list wait, and prints the xor of its words and of
/// the last 64 estimates. What the record holds is hidden from the compiler, which could else work some of it into the update; the mean's
/// kind is not.
#[inline(always)]
pub fn update(name: &str, weighted: bool) {
    let count = count(name);
    let mut sums = [[0.0; 2]; 1024];
    for i in 0..1024 {
        let (a, b) = (evaluation(i), evaluation(i ^ 341));
        sums[i as usize] = [a + b, a * a + b * b];
    }
    let mut accumulator = StatisticsAccumulator::<f64>::new();
    let mut kept = [[0.0; 3]; 64];
    let start = Instant::now();
    for i in 0..count {
        accumulator.set_waiting(sums[i as usize % 1024], 2 + i as usize % 2);
        black_box(&mut accumulator).update_iter(weighted);
        kept[i as usize % 64] = [accumulator.avg, accumulator.err, accumulator.chi_sq];
    }
    let words = black_box(accumulator).record().words();
    let nanoseconds = start.elapsed().as_nanos() as f64 / count as f64;
    let xor = words.iter().fold(0, |xor, word| xor ^ word);
    let xor = black_box(kept)
        .iter()
        .flatten()
        .fold(xor, |xor, &x| xor ^ bits(x));
    println!("{nanoseconds:.3} ns an iteration, xor {xor:016x}");
}
