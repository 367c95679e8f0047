//! `answers KIND SEED COUNT` writes an answer list to standard output.

use std::io::{BufWriter, Write, stdout};

fn main() -> std::io::Result<()> {
    let arguments: Vec<String> = std::env::args().skip(1).collect();
    let numbers: Vec<u64> = arguments.iter().skip(1).flat_map(|a| a.parse()).collect();
    let records = match (&arguments[..], &numbers[..]) {
        ([kind, ..], &[seed, count]) => oracle::answers::list(kind, seed, count as usize),
        _ => None,
    };
    let Some(records) = records else {
        eprintln!("usage: answers stream|real|plan|accumulator|axis|tree|grid|program SEED COUNT");
        std::process::exit(2);
    };
    let mut output = BufWriter::new(stdout().lock());
    for record in records {
        output.write_all(oracle::words::line(&record).as_bytes())?;
    }
    output.flush()
}
