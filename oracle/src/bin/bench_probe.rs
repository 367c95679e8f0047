//! `bench_probe N` times N probes of an axis of 64 even bins and prints the bits of a sum over them.

use std::time::Instant;

use oracle::domains::float::Constructible;
use oracle::numerical_integration::{ContinuousGrid, MonteCarloRng};

fn main() {
    let count = std::env::args().nth(1).and_then(|a| a.parse::<u64>().ok());
    let Some(count) = count.filter(|&count| count > 0) else {
        eprintln!("usage: bench_probe N");
        std::process::exit(2);
    };
    let grid = ContinuousGrid::<f64>::new(1, 64, 0, None, false).unwrap();
    let mut stream = MonteCarloRng::new(0, 0);
    let mut sum = 0.0;
    let start = Instant::now();
    for _ in 0..count {
        let x = f64::new_sample_unit(&mut stream);
        sum += grid.probe(&[Some(x)]).unwrap() * x;
    }
    let nanoseconds = start.elapsed().as_nanos() as f64 / count as f64;
    println!("{nanoseconds:.3} ns a probe, sum {:016x}", sum.to_bits());
}
