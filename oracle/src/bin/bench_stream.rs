//! `bench_stream N` times N words of the stream new(0, 0) and prints their xor.

use std::time::Instant;

use oracle::{numerical_integration::MonteCarloRng, rand::RngCore};

fn main() {
    let count = std::env::args().nth(1).and_then(|a| a.parse::<u64>().ok());
    let Some(count) = count.filter(|&count| count > 0) else {
        eprintln!("usage: bench_stream N");
        std::process::exit(2);
    };
    let mut stream = MonteCarloRng::new(0, 0);
    let start = Instant::now();
    let xor = (0..count).fold(0, |xor, _| xor ^ stream.next_u64());
    let nanoseconds = start.elapsed().as_nanos() as f64 / count as f64;
    println!("{nanoseconds:.3} ns a word, xor {xor:016x}");
}
