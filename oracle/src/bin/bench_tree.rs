//! `bench_tree N` times N draws and trainings on a bins grid of 16 bins with an axes grid of 2 axes of 32 bins each.

use oracle::timing;

fn main() {
    timing::train("bench_tree", timing::tree());
}
