//! Records of the kernels on doubles.

use super::double;
use crate::domains::float::{RealLike, ln, power};
use crate::generate::Dice;
use crate::words::bits;

const SQRT: u64 = 1;
const LN: u64 = 2;
const POWER: u64 = 3;
const ABS: u64 = 4;
const WHOLE_PART: u64 = 5;
const INDEX: u64 = 6;
const FINITE: u64 = 7;

pub fn list(dice: &mut Dice, count: usize) -> Vec<Vec<u64>> {
    let mut records = directed();
    records.extend((0..count).map(|_| record(dice)));
    records
}

/// Where a definition changes its way: signs, ends of ranges, the halved significand.
fn directed() -> Vec<Vec<u64>> {
    let least = f64::from_bits(1);
    let singles = [
        0.0,
        -0.0,
        1.0,
        1f64.next_up(),
        1f64.next_down(),
        1.4140625,
        1.4140625f64.next_up(),
        1.4140625f64.next_down(),
        least,
        -least,
        f64::MIN_POSITIVE,
        f64::MIN_POSITIVE.next_down(),
        f64::MAX,
        f64::INFINITY,
        f64::NEG_INFINITY,
        f64::NAN,
        2.0,
        4.0,
        0.25,
        1e-200,
    ];
    let kernels = [SQRT, LN, ABS, FINITE];
    let mut records: Vec<Vec<u64>> = Vec::new();
    for x in singles {
        records.extend(kernels.map(|opcode| single(opcode, x)));
    }
    let ten = 10.0f64;
    let bottom = 0.0009765625f64;
    for y in [
        bottom.next_down(),
        bottom,
        0.5,
        1.0,
        2.0,
        2f64.next_up(),
        f64::NAN,
    ] {
        for a in [
            -least,
            -0.0,
            0.0,
            least,
            1.0,
            1.5,
            ten,
            ten.next_up(),
            f64::NAN,
        ] {
            records.push(raised(y, a));
        }
    }
    records
}

fn record(dice: &mut Dice) -> Vec<u64> {
    match dice.below(8) {
        0 | 1 => single(SQRT, double(dice)),
        2 => single(LN, double(dice)),
        3 => {
            let a = if dice.chance(1, 8) {
                double(dice)
            } else {
                10.0 * dice.unit()
            };
            let y = if dice.chance(1, 8) {
                double(dice)
            } else {
                2f64.powi(-(dice.below(11) as i32)) * (1.0 + dice.unit())
            };
            raised(y, a)
        }
        4 => single(ABS, double(dice)),
        5 => {
            let x = dice.magnitude(-3, 52).abs();
            vec![WHOLE_PART, bits(x), x.to_usize_clamped() as u64]
        }
        6 => {
            let n = dice.between(1, 1024);
            let r = if dice.chance(1, 8) {
                1.0 - f64::EPSILON / 2.0
            } else {
                dice.unit()
            };
            let product = n as f64 * r;
            let index = product.to_usize_clamped() as u64;
            vec![INDEX, n as u64, bits(r), bits(product), index]
        }
        _ => single(FINITE, double(dice)),
    }
}

fn single(opcode: u64, x: f64) -> Vec<u64> {
    let answer = match opcode {
        SQRT => bits(x.sqrt()),
        LN => bits(ln(x)),
        ABS => bits(x.abs()),
        _ => x.is_finite() as u64,
    };
    vec![opcode, bits(x), answer]
}

fn raised(y: f64, a: f64) -> Vec<u64> {
    vec![POWER, bits(y), bits(a), bits(power(y, a))]
}
