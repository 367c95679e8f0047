//! `generate SEED INDEX` writes one generated input to standard output.

use std::io::{Write, stdout};

fn main() -> std::io::Result<()> {
    let numbers: Vec<u64> = std::env::args().skip(1).flat_map(|a| a.parse()).collect();
    let [seed, index] = numbers[..] else {
        eprintln!("usage: generate SEED INDEX");
        std::process::exit(2);
    };
    stdout().write_all(&oracle::generate::input(seed, index))
}
