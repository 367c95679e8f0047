//! The traits of the original `domains/float.rs`, cut down to the methods that
//! the carried-over text calls, for `f64` alone. Unit draw, logarithm, power and
//! whole part are the document's; every step is one rounded double operation.

use std::{
    fmt::{Debug, Display, LowerExp},
    ops::{Add, AddAssign, Div, DivAssign, Mul, MulAssign, Sub, SubAssign},
};

use crate::rand::Rng;

pub trait FloatLike:
    PartialEq
    + Clone
    + Debug
    + LowerExp
    + Display
    + Add<Self, Output = Self>
    + Sub<Self, Output = Self>
    + Mul<Self, Output = Self>
    + Div<Self, Output = Self>
    + for<'a> Mul<&'a Self, Output = Self>
    + for<'a> AddAssign<&'a Self>
    + for<'a> MulAssign<&'a Self>
    + AddAssign<Self>
    + SubAssign<Self>
    + MulAssign<Self>
    + DivAssign<Self>
{
    fn new_zero() -> Self;
    fn inv(&self) -> Self;
    #[allow(clippy::wrong_self_convention)] // the original's name
    fn from_usize(&self, a: usize) -> Self;
}

pub trait SingleFloat: FloatLike {
    fn is_zero(&self) -> bool;
    fn is_one(&self) -> bool;
    fn is_finite(&self) -> bool;
}

pub trait RealLike: SingleFloat {
    fn to_usize_clamped(&self) -> usize;
    fn to_f64(&self) -> f64;
}

pub trait Constructible: FloatLike {
    fn new_one() -> Self;
    fn new_from_usize(a: usize) -> Self;
    fn new_sample_unit<R: Rng + ?Sized>(rng: &mut R) -> Self;
}

pub trait Real: FloatLike {
    fn norm(&self) -> Self;
    fn sqrt(&self) -> Self;
    fn log(&self) -> Self;
    fn powf(&self, e: &Self) -> Self;
}

impl FloatLike for f64 {
    fn new_zero() -> f64 {
        0.0
    }
    fn inv(&self) -> f64 {
        1.0 / *self
    }
    fn from_usize(&self, a: usize) -> f64 {
        a as f64
    }
}

impl SingleFloat for f64 {
    fn is_zero(&self) -> bool {
        *self == 0.0
    }
    fn is_one(&self) -> bool {
        *self == 1.0
    }
    fn is_finite(&self) -> bool {
        f64::is_finite(*self)
    }
}

impl RealLike for f64 {
    fn to_usize_clamped(&self) -> usize {
        *self as usize
    }
    fn to_f64(&self) -> f64 {
        *self
    }
}

impl Constructible for f64 {
    fn new_one() -> f64 {
        1.0
    }
    fn new_from_usize(a: usize) -> f64 {
        a as f64
    }
    fn new_sample_unit<R: Rng + ?Sized>(rng: &mut R) -> f64 {
        unit(rng.next_u64())
    }
}

impl Real for f64 {
    fn norm(&self) -> f64 {
        self.abs()
    }
    fn sqrt(&self) -> f64 {
        f64::sqrt(*self)
    }
    fn log(&self) -> f64 {
        ln(*self)
    }
    fn powf(&self, e: &f64) -> f64 {
        power(*self, *e)
    }
}

/// The natural logarithm of 2, rounded.
pub const LN2: f64 = f64::from_bits(0x3fe6_2e42_fefa_39ef);

/// The unit draw: the top 53 bits of a word times 2^-53.
pub fn unit(word: u64) -> f64 {
    (word >> 11) as f64 * f64::from_bits(0x3ca0_0000_0000_0000)
}

/// The m in [1, 2) and e with x = m * 2^e, for a finite x above 0.
fn significand_and_exponent(x: f64) -> (f64, i64) {
    const FRACTION: u64 = (1 << 52) - 1;
    const ONE: u64 = 1023 << 52;
    let fraction = x.to_bits() & FRACTION;
    match x.to_bits() >> 52 {
        0 => {
            let highest = 63 - fraction.leading_zeros() as i64;
            let scaled = (fraction << (52 - highest)) & FRACTION;
            (f64::from_bits(ONE | scaled), highest - 1074)
        }
        exponent => (f64::from_bits(ONE | fraction), exponent as i64 - 1023),
    }
}

/// The document's logarithm; NaN for anything not finite and above 0.
pub fn ln(x: f64) -> f64 {
    if !(x > 0.0 && x < f64::INFINITY) {
        return f64::NAN;
    }
    let (mut m, mut e) = significand_and_exponent(x);
    if m > 1.4140625 {
        m /= 2.0;
        e += 1;
    }
    let s = (m - 1.0) / (m + 1.0);
    let z = s * s;
    let mut c = 1.0 / 21.0;
    for j in (1..=19).rev().step_by(2) {
        c = 1.0 / j as f64 + z * c;
    }
    e as f64 * LN2 + (2.0 * s) * c
}

/// The document's power y^a; NaN for y outside [2^-10, 2] or a outside [0, 10].
pub fn power(y: f64, a: f64) -> f64 {
    if !((0.0009765625..=2.0).contains(&y) && (0.0..=10.0).contains(&a)) {
        return f64::NAN;
    }
    let t = a * ln(y);
    let k = (0.5 - t / LN2).floor();
    let r = t + k * LN2;
    let mut p = 1.0;
    for j in (1..=14).rev() {
        p = 1.0 + (r * p) / j as f64;
    }
    p * f64::from_bits(((1023 - k as i64) as u64) << 52)
}
