//! Records of the stream's calls.

use crate::domains::float::{Constructible, unit};
use crate::generate::Dice;
use crate::numerical_integration::MonteCarloRng;
use crate::program::MOST_STREAM;
use crate::rand::{RngCore, SeedableRng};
use crate::words::packed;

const NEW: u64 = 1;
const NEXT_U64: u64 = 2;
const NEXT_U32: u64 = 3;
const FILL_BYTES: u64 = 4;
const JUMP: u64 = 5;
const LONG_JUMP: u64 = 6;
const EXPORT: u64 = 7;
const IMPORT: u64 = 8;
const UNIT: u64 = 9;
const SEED_FROM_U64: u64 = 10;
const UNIT_OF_WORD: u64 = 11;

pub fn list(dice: &mut Dice, count: usize) -> Vec<Vec<u64>> {
    let mut records = published();
    records.extend((0..count).map(|_| record(dice)));
    records
}

/// The published words, the ends of the unit draw, and every length of a filling.
fn published() -> Vec<Vec<u64>> {
    let mut records = vec![
        words_from([1, 2, 3, 4], 6),
        words_from([0; 4], 3),
        new(0, 0, 3),
        new(1234567, 0, 1),
        new(0, 4095, 1),
        new(0, 4096, 1),
        imported([0; 32]),
        unit_of(2047),
        unit_of(u64::MAX),
        unit_of(0),
    ];
    let state = MonteCarloRng::new(1, 0).words();
    records.extend((0..=40).map(|length| filled(state, length)));
    records
}

fn record(dice: &mut Dice) -> Vec<u64> {
    let state = state(dice);
    match dice.below(11) {
        0 => {
            let number = match dice.below(8) {
                0 => dice.word(),
                1 => dice.between(4090, 4100) as u64,
                _ => dice.below(40) as u64,
            };
            new(dice.word(), number, dice.below(4))
        }
        1 => words_from(state, dice.between(1, 8)),
        2 => {
            let mut stream = MonteCarloRng::from_words(state);
            let value = stream.next_u32() as u64;
            whole(NEXT_U32, state, &[value], &stream)
        }
        3 => filled(state, dice.between(0, 40)),
        4 => {
            let mut stream = MonteCarloRng::from_words(state);
            stream.jump();
            whole(JUMP, state, &[], &stream)
        }
        5 => {
            let mut stream = MonteCarloRng::from_words(state);
            stream.long_jump();
            whole(LONG_JUMP, state, &[], &stream)
        }
        6 => {
            let stream = MonteCarloRng::from_words(state);
            whole(EXPORT, state, &packed(&stream.export()), &stream)
        }
        7 => imported(MonteCarloRng::from_words(state).export()),
        8 => {
            let mut stream = MonteCarloRng::from_words(state);
            let draw = f64::new_sample_unit(&mut stream).to_bits();
            whole(UNIT, state, &[draw], &stream)
        }
        9 => {
            let seed = dice.word();
            let mut record = vec![SEED_FROM_U64, seed];
            record.extend(MonteCarloRng::seed_from_u64(seed).words());
            record
        }
        _ => unit_of(dice.word() >> dice.below(64)),
    }
}

/// Any state, with few bits or many.
fn state(dice: &mut Dice) -> [u64; 4] {
    match dice.below(6) {
        0 => [0; 4].map(|_: u64| dice.below(3) as u64),
        1 => [0; 4].map(|_: u64| 1 << dice.below(64)),
        2 => [u64::MAX; 4],
        _ => [0; 4].map(|_: u64| dice.word()),
    }
}

fn whole(opcode: u64, state: [u64; 4], values: &[u64], after: &MonteCarloRng) -> Vec<u64> {
    let mut record = vec![opcode];
    record.extend(state);
    record.extend(values);
    record.extend(after.words());
    record
}

fn words_from(state: [u64; 4], count: usize) -> Vec<u64> {
    let mut stream = MonteCarloRng::from_words(state);
    let mut values = vec![count as u64];
    values.extend((0..count).map(|_| stream.next_u64()));
    whole(NEXT_U64, state, &values, &stream)
}

fn filled(state: [u64; 4], length: usize) -> Vec<u64> {
    let mut stream = MonteCarloRng::from_words(state);
    let mut bytes = vec![0; length];
    stream.fill_bytes(&mut bytes);
    whole(FILL_BYTES, state, &packed(&bytes), &stream)
}

/// A stream number above its bound is refused with 3.
fn new(seed: u64, number: u64, count: usize) -> Vec<u64> {
    let mut record = vec![NEW, seed, number, count as u64];
    if number > MOST_STREAM as u64 {
        record.push(3);
        return record;
    }
    let mut stream = MonteCarloRng::new(seed, number as usize);
    record.push(0);
    record.extend(stream.words());
    record.extend((0..count).map(|_| stream.next_u64()));
    record.extend(stream.words());
    record
}

fn imported(bytes: [u8; 32]) -> Vec<u64> {
    let mut record = vec![IMPORT];
    record.extend(packed(&bytes));
    record.extend(MonteCarloRng::import(bytes).words());
    record
}

fn unit_of(word: u64) -> Vec<u64> {
    vec![UNIT_OF_WORD, word, unit(word).to_bits()]
}
