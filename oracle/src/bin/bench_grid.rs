//! `bench_grid N` times N draws and trainings on an axes grid of 5 axes of 64 bins.

use oracle::timing;

fn main() {
    timing::train("bench_grid", timing::axes());
}
