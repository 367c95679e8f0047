//! `bench_nested N` times N draws from a bins grid of 16 bins with an axes grid of 2 axes of 32 bins each; ours judge it each time, these do not.

use oracle::timing;

fn main() {
    timing::draw("bench_nested", timing::tree());
}
