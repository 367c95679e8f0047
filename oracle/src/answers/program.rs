//! Whole inputs of the integration program with every line it must print.

use super::Dice;
use crate::generate::input;
use crate::model::plan::read_prefix;
use crate::program::run;
use crate::words::packed;

/// An input longer than this is left out, so that a list stays small.
const MOST_BYTES: usize = 700;

/// First the empty input, and the first ten plans alone and with their streams; then so many of the generated
/// inputs that are short enough, in order.
pub fn list(dice: &mut Dice, count: usize) -> Vec<Vec<u64>> {
    let seed = dice.word();
    let short = || {
        (0..)
            .map(|index| input(seed, index))
            .filter(|bytes| bytes.len() <= MOST_BYTES)
    };
    let begun = short().filter_map(begins).flatten().take(20);
    std::iter::once(Vec::new())
        .chain(begun)
        .chain(short().take(count))
        .map(|bytes| record(&bytes))
        .collect()
}

/// An input that ends behind its plan, and one that ends behind its stream.
fn begins(bytes: Vec<u8>) -> Option<[Vec<u8>; 2]> {
    let (_, end) = read_prefix(&bytes).ok()?;
    let stream = end + 13;
    (stream <= bytes.len()).then(|| [bytes[..end].to_vec(), bytes[..stream].to_vec()])
}

/// How many words follow; the input; how many lines; six words a line.
fn record(bytes: &[u8]) -> Vec<u64> {
    let output = run(bytes);
    let mut words = packed(bytes);
    words.push(output.lines().count() as u64);
    words.extend(output.lines().flat_map(line));
    words.insert(0, words.len() as u64);
    words
}

/// An update's line is 0, iterations, samples, average, error and chi-squared; a refusal its number, the offset and zeros.
fn line(text: &str) -> [u64; 6] {
    let parts: Vec<&str> = text.split(' ').collect();
    let decimal = |i: usize| parts[i].parse::<u64>().expect("a number");
    let double = |i: usize| u64::from_str_radix(parts[i], 16).expect("a double's bits");
    if parts[0] == "refused" {
        [decimal(1), decimal(3), 0, 0, 0, 0]
    } else {
        [0, decimal(0), decimal(1), double(2), double(3), double(4)]
    }
}
