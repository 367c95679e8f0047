//! `bench_exponent N` times N unit draws to the power 1.5, on the stream new(0, 0), and prints the xor of their bits, any NaN as one.

use std::time::Instant;

use oracle::domains::float::{Constructible, power};
use oracle::numerical_integration::MonteCarloRng;

fn main() {
    let count = std::env::args().nth(1).and_then(|a| a.parse::<u64>().ok());
    let Some(count) = count.filter(|&count| count > 0) else {
        eprintln!("usage: bench_exponent N");
        std::process::exit(2);
    };
    let mut stream = MonteCarloRng::new(0, 0);
    let mut xor = 0;
    let start = Instant::now();
    for _ in 0..count {
        let x = power(f64::new_sample_unit(&mut stream), 1.5);
        xor ^= if x.is_nan() {
            0x7ff8_0000_0000_0000
        } else {
            x.to_bits()
        };
    }
    let nanoseconds = start.elapsed().as_nanos() as f64 / count as f64;
    println!("{nanoseconds:.3} ns a power, xor {xor:016x}");
}
