//! Damaged copies of an input, and values just past their ends.

use super::Dice;
use crate::model::plan::{AXES, BINS, EVOLUTION, field};
use crate::program::{SAMPLE, STREAM, UPDATE};

/// Where each whole field begins, and the end of the last.
fn offsets(bytes: &[u8]) -> Vec<usize> {
    let mut offsets = vec![0];
    while let Ok(field) = field(bytes, *offsets.last().unwrap()) {
        offsets.push(field.end);
    }
    offsets
}

/// Early fields are few beside the samples, and more can go wrong there.
fn chosen(dice: &mut Dice, fields: usize) -> usize {
    let early = dice.chance(1, 2);
    dice.below(if early { fields.min(4) } else { fields })
}

pub fn damaged(dice: &mut Dice, mut bytes: Vec<u8>) -> Vec<u8> {
    let offsets = offsets(&bytes);
    let fields = offsets.len() - 1;
    let chosen = chosen(dice, fields);
    let (at, end) = (offsets[chosen], offsets[chosen + 1]);
    match dice.below(9) {
        0 => {
            for _ in 0..dice.between(1, 3) {
                let at = dice.below(bytes.len());
                bytes[at] ^= 1 << dice.below(8);
            }
        }
        1 => bytes.truncate(dice.below(bytes.len())),
        2 => bytes.truncate(dice.between(at, end)),
        3 => {
            let surplus = dice.between(1, 5);
            bytes.extend((0..surplus).map(|_| dice.word() as u8));
        }
        4 => bytes[at] = dice.pick(&[0, 1, 2, 3, 4, 5, 0x0f, 0x10, 0x11, 0x12, 0x13, 0xff]),
        5 => bytes[at + 1] = bytes[at + 1].wrapping_add(dice.pick(&[1, 2, 255, 254])),
        6 => bytes[at + 2] = dice.pick(&[1, 255]),
        7 => swap(&mut bytes, &offsets, chosen, dice.below(fields)),
        _ => {
            let copy = bytes[at..end].to_vec();
            let to = offsets[dice.below(fields)];
            bytes.splice(to..to, copy);
        }
    }
    bytes
}

fn swap(bytes: &mut Vec<u8>, offsets: &[usize], one: usize, other: usize) {
    let piece = |i: usize| bytes[offsets[i]..offsets[i + 1]].to_vec();
    let mut order: Vec<usize> = (0..offsets.len() - 1).collect();
    order.swap(one, other);
    *bytes = order.into_iter().flat_map(piece).collect();
}

/// One field of the input given a value at or past the end of its range.
pub fn out_of_range(dice: &mut Dice, mut bytes: Vec<u8>) -> Vec<u8> {
    let offsets = offsets(&bytes);
    let at = offsets[chosen(dice, offsets.len() - 1)];
    let payload = at + 3;
    match bytes[at] {
        AXES => match dice.below(4) {
            0 => bytes[payload] = dice.pick(&[0, 8, 9, 255]),
            1 => put(
                &mut bytes,
                payload + 1,
                &small(dice, &[0, 1024, 1025, 65535]),
            ),
            2 => bytes[payload + 7] = dice.pick(&[0, 1, 2, 255]),
            _ => put(&mut bytes, payload + 8, &edge(dice, 0.0, 1.0).to_le_bytes()),
        },
        EVOLUTION => {
            let value = small(dice, &[0, 1, 1024, 1025]);
            put(&mut bytes, payload, &value);
        }
        BINS => match dice.below(3) {
            0 => put(&mut bytes, payload, &small(dice, &[0, 256, 257, 65535])),
            1 => put(
                &mut bytes,
                payload + 2,
                &edge(dice, 1.0, f64::MAX).to_le_bytes(),
            ),
            _ => bytes[payload + 10] = dice.pick(&[0, 1, 2, 255]),
        },
        STREAM => put(&mut bytes, payload + 8, &small(dice, &[4096, 65535])),
        SAMPLE => {
            let value = dice.pick(&[f64::NAN, f64::INFINITY, f64::NEG_INFINITY, f64::MAX]);
            put(&mut bytes, payload, &value.to_le_bytes());
        }
        UPDATE => {
            let which = 8 * dice.below(2);
            put(
                &mut bytes,
                payload + which,
                &edge(dice, 0.0, 10.0).to_le_bytes(),
            );
        }
        _ => {}
    }
    bytes
}

fn small(dice: &mut Dice, values: &[u16]) -> [u8; 2] {
    dice.pick(values).to_le_bytes()
}

/// A value at, just inside or outside the ends of a range, or no number at all.
fn edge(dice: &mut Dice, low: f64, high: f64) -> f64 {
    match dice.below(9) {
        0 => low,
        1 => low.next_down(),
        2 => low.next_up(),
        3 => high,
        4 => high.next_up(),
        5 => high.next_down(),
        6 => f64::NAN,
        7 => -0.0,
        _ => f64::INFINITY,
    }
}

fn put(bytes: &mut [u8], at: usize, value: &[u8]) {
    bytes[at..at + value.len()].copy_from_slice(value);
}
