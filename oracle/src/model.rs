//! A plain slow model of the document: every call with its refusals in the
//! document's order, around the carried-over Rust. A refused call changes nothing.

pub mod accumulator;
pub mod axis;
pub mod grid;
pub mod plan;
pub mod update;

/// The refusals, each under its number in the document.
#[derive(Clone, Copy, Debug, PartialEq, Eq)]
pub enum Refusal {
    Malformed = 1,
    Size = 2,
    Range = 3,
    Form = 4,
    Coordinate = 5,
    Index = 6,
    NotFinite = 7,
    Overflow = 8,
    BadUpdate = 9,
    Room = 10,
    Unequal = 11,
    IllFormed = 12,
}

pub type Answer<T> = Result<T, Refusal>;

/// The answer's refusal number, 0 for none.
pub fn number<T>(answer: &Answer<T>) -> u64 {
    match answer {
        Ok(_) => 0,
        Err(refusal) => *refusal as u64,
    }
}

/// The greatest count and the greatest sample number.
pub const MOST: u64 = 1 << 53;

/// Nothing where the test holds, else the refusal.
pub fn demand(holds: bool, refusal: Refusal) -> Answer<()> {
    if holds { Ok(()) } else { Err(refusal) }
}

/// A rate of an update lies in [0, 10]; minus zero does, a NaN does not.
pub fn is_rate(rate: f64) -> bool {
    (0.0..=10.0).contains(&rate)
}

/// A coordinate is a number in [0, 1]; minus zero is.
pub fn is_coordinate(x: f64) -> bool {
    (0.0..=1.0).contains(&x)
}

/// A probability is finite and above 0.
pub fn is_probability(p: f64) -> bool {
    p.is_finite() && p > 0.0
}
