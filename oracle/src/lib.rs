//! The judge to which the rewritten programs are held: the Rust module carried
//! over, a plain slow model with every refusal around it, and what makes inputs
//! and answer lists from the two.

pub mod answers;
pub mod domains;
pub mod generate;
pub mod model;
// The text is kept as published, so its style is not judged.
#[allow(clippy::all)]
#[rustfmt::skip]
pub mod numerical_integration;
pub mod program;
pub mod rand;
pub mod timing;
pub mod words;
