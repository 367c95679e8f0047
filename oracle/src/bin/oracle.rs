//! The integration program over the carried-over Rust.

use std::io::{Read, Write, stdin, stdout};

fn main() -> std::io::Result<()> {
    let mut input = Vec::new();
    stdin().read_to_end(&mut input)?;
    stdout().write_all(oracle::program::run(&input).as_bytes())
}
