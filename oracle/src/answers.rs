//! Answer lists: calls with their arguments and what they must answer, one
//! record a line, for programs that replay them. The README gives the formats.

mod accumulator;
mod axis;
mod grid;
mod histories;
mod lent;
mod plan;
mod program;
mod real;
mod stream;
mod tree;

use crate::generate::Dice;

/// A list's records: first its directed cases, then a number made by chance.
/// None for an unknown kind.
pub fn list(kind: &str, seed: u64, count: usize) -> Option<Vec<Vec<u64>>> {
    let mut dice = Dice::new(seed, 0);
    let dice = &mut dice;
    match kind {
        "stream" => Some(stream::list(dice, count)),
        "real" => Some(real::list(dice, count)),
        "plan" => Some(plan::list(dice, count)),
        "accumulator" => Some(accumulator::list(dice, count)),
        "axis" => Some(axis::list(dice, count)),
        "tree" => Some(tree::list(dice, count)),
        "grid" => Some(grid::list(dice, count)),
        "program" => Some(program::list(dice, count)),
        _ => None,
    }
}

/// A double of any kind: zeros, subnormals, neighbours of powers of two, ends of
/// the ranges, infinities, NaN, and any bits.
fn double(dice: &mut Dice) -> f64 {
    const MARKS: [f64; 16] = [
        0.0,
        -0.0,
        1.0,
        -1.0,
        2.0,
        0.5,
        0.0009765625,
        1.4140625,
        10.0,
        f64::MIN_POSITIVE,
        f64::MAX,
        f64::INFINITY,
        f64::NEG_INFINITY,
        f64::NAN,
        9007199254740992.0,
        1e-300,
    ];
    match dice.below(8) {
        0 => dice.pick(&MARKS),
        1 => {
            let mark = dice.pick(&MARKS);
            beside(dice, mark)
        }
        2 => {
            let power = 2f64.powi(dice.below(2098) as i32 - 1074);
            beside(dice, power)
        }
        3 => f64::from_bits(dice.word() >> dice.between(11, 63)),
        4 => f64::from_bits(dice.word()),
        5 => dice.magnitude(-1022, 1023).abs(),
        6 => dice.unit(),
        _ => dice.magnitude(-60, 60),
    }
}

/// Mostly the given value; at times any double, or one that is not finite or huge.
fn mostly(dice: &mut Dice, value: f64) -> f64 {
    match dice.below(40) {
        0 => double(dice),
        1 => dice.pick(&[f64::NAN, f64::INFINITY, f64::NEG_INFINITY, f64::MAX]),
        _ => value,
    }
}

/// A value or one of its two neighbours.
fn beside(dice: &mut Dice, value: f64) -> f64 {
    match dice.below(3) {
        0 => value,
        1 => value.next_up(),
        _ => value.next_down(),
    }
}
