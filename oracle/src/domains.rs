//! Stand-in for the number domains of the original package.

pub mod float;
