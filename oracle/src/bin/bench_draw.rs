//! `bench_draw N` times N draws from an axis of 64 even bins and prints the bits of a sum over them.

use std::time::Instant;

use oracle::numerical_integration::{ContinuousGrid, MonteCarloRng, Sample};

fn main() {
    let count = std::env::args().nth(1).and_then(|a| a.parse::<u64>().ok());
    let Some(count) = count.filter(|&count| count > 0) else {
        eprintln!("usage: bench_draw N");
        std::process::exit(2);
    };
    let mut grid = ContinuousGrid::<f64>::new(1, 64, 0, None, false).unwrap();
    let mut stream = MonteCarloRng::new(0, 0);
    let mut sample = Sample::new();
    let mut sum = 0.0;
    let start = Instant::now();
    for _ in 0..count {
        grid.sample(&mut stream, &mut sample);
        if let Sample::Continuous(weight, xs) = &sample {
            sum += xs[0] * weight;
        }
    }
    let nanoseconds = start.elapsed().as_nanos() as f64 / count as f64;
    println!("{nanoseconds:.3} ns a draw, sum {:016x}", sum.to_bits());
}
