//! `bench_weighted N` times N ends of an iteration of an accumulator with the weighted mean.

use oracle::timing;

fn main() {
    timing::update("bench_weighted", true);
}
