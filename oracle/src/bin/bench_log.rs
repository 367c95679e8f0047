//! `bench_log N` times N logarithms of patterns with sign plus, on the stream new(0, 0), and prints the xor of their bits, any NaN as one.

use std::time::Instant;

use oracle::{domains::float::ln, numerical_integration::MonteCarloRng, rand::RngCore};

fn main() {
    let count = std::env::args().nth(1).and_then(|a| a.parse::<u64>().ok());
    let Some(count) = count.filter(|&count| count > 0) else {
        eprintln!("usage: bench_log N");
        std::process::exit(2);
    };
    let mut stream = MonteCarloRng::new(0, 0);
    let mut xor = 0;
    let start = Instant::now();
    for _ in 0..count {
        let x = ln(f64::from_bits(stream.next_u64() / 2));
        xor ^= if x.is_nan() {
            0x7ff8_0000_0000_0000
        } else {
            x.to_bits()
        };
    }
    let nanoseconds = start.elapsed().as_nanos() as f64 / count as f64;
    println!("{nanoseconds:.3} ns a logarithm, xor {xor:016x}");
}
