//! Records of the accumulator's calls: walks from fresh, and lent states at the
//! edges.

use super::double;
use crate::generate::{Dice, evaluation};
use crate::model::{Answer, MOST, accumulator, number};
use crate::numerical_integration::state::{RECORD_WORDS, Record};
use crate::words::bits;

const ADD_SAMPLE: u64 = 1;
const MERGE_NO_RESET: u64 = 2;
const UPDATE_ITER: u64 = 3;
const UPDATE_ITER_WEIGHTED: u64 = 4;
const LIVE_ESTIMATE: u64 = 5;
const SHALLOW_COPY: u64 = 6;
const CLEAR_SAMPLES: u64 = 7;
const MERGE_SAMPLES: u64 = 8;
const SUMMARY: u64 = 9;

pub fn list(dice: &mut Dice, count: usize) -> Vec<Vec<u64>> {
    let mut records = directed();
    let mut held = [Record::default(); 2];
    for _ in 0..count {
        match dice.below(60) {
            0 => held = [Record::default(); 2],
            1 => held[0] = lent(dice, &held[0]),
            2 => held.swap(0, 1),
            _ => {}
        }
        records.push(step(dice, &mut held));
    }
    records
}

/// Nothing waiting at the last iteration, sums at their ends, negative variance,
/// a variance that underflows, extremes against a fresh record.
fn directed() -> Vec<Vec<u64>> {
    let fresh = Record::default();
    let add = |record: &Record, eval| accumulator::add_sample(record, eval, 1).unwrap();
    let tenths = add(&add(&add(&fresh, 0.1), 0.1), 0.1);
    let small = add(&add(&fresh, 1e-200), 1e-200);
    let five = add(&fresh, -5.0);
    let last = Record {
        cur_iter: MOST,
        ..fresh
    };
    let high = Record {
        sum: 1e308,
        total_sum: 1e308,
        sum_sq: 1e300,
        total_sum_sq: 1e300,
        new_samples: 2,
        processed_samples: 2,
        ..fresh
    };
    let many = Record {
        new_samples: MOST,
        ..fresh
    };
    vec![
        update(&add(&add(&fresh, 1.0), -1.0), false),
        update(&add(&add(&fresh, 1.0), 1.0), false),
        update(&add(&fresh, 1.0), false),
        update(&tenths, false),
        update(&tenths, true),
        update(&small, false),
        update(&last, false),
        update(&high, false),
        live(&high),
        live(&tenths),
        merge(&five, &fresh),
        merge(&fresh, &five),
        added(&fresh, f64::NAN, MOST + 1),
        added(&fresh, f64::INFINITY, 0),
        added(&fresh, 1.4e154, MOST),
        added(&fresh, -0.0, 0),
        added(&many, 1.0, 1),
        merge(&many, &add(&fresh, 1.0)),
    ]
}

fn step(dice: &mut Dice, held: &mut [Record; 2]) -> Vec<u64> {
    let [record, other] = *held;
    match dice.below(20) {
        0..9 => {
            let (eval, number) = sample(dice);
            keep(&mut held[0], accumulator::add_sample(&record, eval, number));
            added(&record, eval, number)
        }
        9 => {
            keep(
                &mut held[0],
                accumulator::merge_samples_no_reset(&record, &other),
            );
            merge(&record, &other)
        }
        10..14 => {
            let weighted = dice.chance(1, 4);
            let after = accumulator::update_iter(&record, weighted);
            keep(&mut held[0], after.map(|(_, after)| after));
            update(&record, weighted)
        }
        14 => live(&record),
        15 => {
            let answer = accumulator::shallow_copy(&record);
            keep(&mut held[1], answer);
            line(
                SHALLOW_COPY,
                &record,
                &[],
                answer.map(|copy| copy.words().to_vec()),
            )
        }
        16 => {
            let answer = accumulator::clear_samples(&record);
            keep(&mut held[0], answer);
            line(
                CLEAR_SAMPLES,
                &record,
                &[],
                answer.map(|after| after.words().to_vec()),
            )
        }
        17 => {
            let answer = accumulator::merge_samples(&record, &other);
            if let Ok((after, cleared)) = answer {
                *held = [after, cleared];
            }
            let words = answer.map(|(after, cleared)| [after.words(), cleared.words()].concat());
            line(MERGE_SAMPLES, &record, &other.words(), words)
        }
        18 => summary(&record),
        _ => {
            held.swap(0, 1);
            summary(&other)
        }
    }
}

fn keep(held: &mut Record, answer: Answer<Record>) {
    if let Ok(record) = answer {
        *held = record;
    }
}

fn sample(dice: &mut Dice) -> (f64, u64) {
    let eval = match dice.below(30) {
        0 => double(dice),
        1 => dice.magnitude(500, 512),
        _ => evaluation(dice),
    };
    let number = match dice.below(30) {
        0 => dice.pick(&[MOST, MOST + 1, u64::MAX]),
        1..4 => 0,
        _ => dice.below(1000) as u64 + 1,
    };
    (eval, number)
}

/// A record with a few words replaced: most stay well formed, some do not.
fn lent(dice: &mut Dice, record: &Record) -> Record {
    let mut words = record.words();
    for _ in 0..dice.between(1, 3) {
        let at = dice.below(RECORD_WORDS);
        words[at] = if Record::is_count(at) {
            dice.pick(&[0, 1, 2, 3, MOST - 1, MOST, MOST + 1, u64::MAX])
        } else {
            bits(match dice.below(3) {
                0 => double(dice),
                1 => dice.magnitude(1000, 1023),
                _ => evaluation(dice),
            })
        };
    }
    Record::from_words(&words)
}

/// Opcode, record, arguments, refusal number, then the answer unless refused.
fn line(opcode: u64, record: &Record, arguments: &[u64], answer: Answer<Vec<u64>>) -> Vec<u64> {
    let mut line = vec![opcode];
    line.extend(record.words());
    line.extend(arguments);
    line.push(number(&answer));
    line.extend(answer.unwrap_or_default());
    line
}

fn added(record: &Record, eval: f64, number: u64) -> Vec<u64> {
    let answer = accumulator::add_sample(record, eval, number);
    let words = answer.map(|after| after.words().to_vec());
    line(ADD_SAMPLE, record, &[bits(eval), number], words)
}

fn merge(record: &Record, other: &Record) -> Vec<u64> {
    let answer = accumulator::merge_samples_no_reset(record, other);
    let words = answer.map(|after| after.words().to_vec());
    line(MERGE_NO_RESET, record, &other.words(), words)
}

fn update(record: &Record, weighted: bool) -> Vec<u64> {
    let opcode = if weighted {
        UPDATE_ITER_WEIGHTED
    } else {
        UPDATE_ITER
    };
    let answer = accumulator::update_iter(record, weighted);
    let words = answer.map(|(processed, after)| {
        let mut words = vec![processed as u64];
        words.extend(after.words());
        words
    });
    line(opcode, record, &[], words)
}

fn live(record: &Record) -> Vec<u64> {
    let answer = accumulator::live_estimate(record);
    line(
        LIVE_ESTIMATE,
        record,
        &[],
        answer.map(|estimate| estimate.map(bits).to_vec()),
    )
}

fn summary(record: &Record) -> Vec<u64> {
    let answer = accumulator::summary(record);
    line(
        SUMMARY,
        record,
        &[],
        answer.map(|summary| summary.words().to_vec()),
    )
}
