//! `bench_judged N` times N draws from an axes grid of 5 axes of 64 bins; ours judge the grid each time, these do not.

use oracle::timing;

fn main() {
    timing::draw("bench_judged", timing::axes());
}
