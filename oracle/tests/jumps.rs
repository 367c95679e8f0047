//! The jump tables: a jump is 2^128 steps and a long jump 2^192, as published.
//! One step is a linear map of 256 bits, so its powers of two come by squaring its matrix.

use oracle::numerical_integration::MonteCarloRng;
use oracle::rand::RngCore;

type State = [u64; 4];

/// A linear map, by where it takes each single bit.
type Matrix = Vec<State>;

fn bit(i: usize) -> State {
    let mut state = [0; 4];
    state[i / 64] = 1 << (i % 64);
    state
}

fn map_of(f: impl Fn(&mut MonteCarloRng)) -> Matrix {
    (0..256)
        .map(|i| {
            let mut stream = MonteCarloRng::from_words(bit(i));
            f(&mut stream);
            stream.words()
        })
        .collect()
}

fn apply(m: &Matrix, state: State) -> State {
    let mut sum = [0; 4];
    for (i, column) in m.iter().enumerate() {
        if state[i / 64] >> (i % 64) & 1 == 1 {
            for (s, c) in sum.iter_mut().zip(column) {
                *s ^= c;
            }
        }
    }
    sum
}

fn power_of_two(mut m: Matrix, times: usize) -> Matrix {
    for _ in 0..times {
        m = m.iter().map(|&column| apply(&m, column)).collect();
    }
    m
}

#[test]
fn a_jump_is_two_to_the_128_steps() {
    let step = map_of(|s| {
        s.next_u64();
    });
    let far = power_of_two(step, 128);
    assert_eq!(far, map_of(MonteCarloRng::jump));
    assert_eq!(power_of_two(far, 64), map_of(MonteCarloRng::long_jump));
}
