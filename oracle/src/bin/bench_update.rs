//! `bench_update N` times N ends of an iteration of an accumulator with the plain mean.

use oracle::timing;

fn main() {
    timing::update("bench_update", false);
}
