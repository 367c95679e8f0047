//! `compare PROGRAM N SEED` runs a program and the oracle on N generated inputs.

use std::io::{Read, Write};
use std::process::{Command, ExitCode, Stdio};

/// How many differing inputs are shown.
const SHOWN: u64 = 5;

fn main() -> ExitCode {
    let arguments: Vec<String> = std::env::args().skip(1).collect();
    let numbers: Vec<u64> = arguments.iter().skip(1).flat_map(|a| a.parse()).collect();
    let ([count, seed], Some(program)) = (&numbers[..], arguments.first()) else {
        eprintln!("usage: compare PROGRAM N SEED");
        return ExitCode::from(2);
    };
    let mut refused = [0; 13];
    let differing = compare(program, *count, *seed, &mut refused);
    println!("{}", shares(&refused));
    println!("{} of {count} agree", count - differing);
    if differing == 0 {
        ExitCode::SUCCESS
    } else {
        ExitCode::FAILURE
    }
}

/// How many inputs differ; and how many the oracle refuses, by number.
fn compare(program: &str, count: u64, seed: u64, refused: &mut [u64; 13]) -> u64 {
    let mut differing = 0;
    for index in 0..count {
        let input = oracle::generate::input(seed, index);
        let expected = oracle::program::run(&input);
        refused[refusal(&expected)] += 1;
        let got = answer(program, &input);
        if got.as_deref() == Ok(expected.as_bytes()) {
            continue;
        }
        differing += 1;
        if differing <= SHOWN {
            show(seed, index, &input, &expected, &got);
        }
    }
    differing
}

/// The number of the refusal that an output ends in, or 0.
fn refusal(output: &str) -> usize {
    let last = output.lines().last().unwrap_or("");
    let number = last
        .strip_prefix("refused ")
        .and_then(|rest| rest.split(' ').next());
    number.map_or(0, |n| n.parse().expect("a number is printed"))
}

/// The numbers of refusals that were met, with how often.
fn shares(refused: &[u64; 13]) -> String {
    let met = (1..13).filter(|&n| refused[n] > 0);
    let told: Vec<String> = met.map(|n| format!("{n} ({})", refused[n])).collect();
    format!("refused: {}", told.join(", "))
}

/// All that the program writes, which may end before it has read everything.
fn answer(program: &str, input: &[u8]) -> Result<Vec<u8>, String> {
    let piped = Command::new(program)
        .stdin(Stdio::piped())
        .stdout(Stdio::piped())
        .spawn();
    let mut child = piped.map_err(|error| format!("cannot be started: {error}"))?;
    let _ = child.stdin.take().expect("piped").write_all(input);
    let mut output = Vec::new();
    let read = child.stdout.take().expect("piped").read_to_end(&mut output);
    read.map_err(|error| format!("cannot be read: {error}"))?;
    let status = child.wait().map_err(|error| error.to_string())?;
    if status.code().is_none() {
        return Err(format!("ended by {status}"));
    }
    Ok(output)
}

fn show(seed: u64, index: u64, input: &[u8], expected: &str, got: &Result<Vec<u8>, String>) {
    let hex: String = input.iter().map(|byte| format!("{byte:02x}")).collect();
    println!("differs: index {index} of seed {seed} (generate {seed} {index})");
    println!("input: {hex}");
    println!("oracle:\n{expected}program:");
    match got {
        Ok(output) => print!("{}", String::from_utf8_lossy(output)),
        Err(error) => println!("{error}"),
    }
    println!();
}
