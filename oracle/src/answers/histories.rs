//! Histories of a grid: training, updates, copies and merges, by chance and by
//! construction.

use super::double;
use super::grid::Tape;
use super::tree::{ITERATIONS, ROOT_EDGES, SAMPLES, ULP};
use super::tree::{at, bins_grid, changed, in_bin, one_axis};
use crate::generate::{Dice, evaluation, rate};
use crate::model::{MOST, plan::GridPlan};
use crate::numerical_integration::state::RECORD_WORDS;
use crate::words::bits;

/// The largest part of a record that a history fills, in words.
const MOST_WORDS: usize = 3000;

/// Rounds of samples, with an update at the end of each.
pub fn history(dice: &mut Dice, tape: &mut Tape) {
    for _ in 0..dice.between(1, 5) {
        round(dice, tape);
        if MOST_WORDS < tape.size() {
            break;
        }
    }
    let point = tape.draw();
    tape.probe(dice, &point);
    tape.summary();
    tape.live_estimate();
}

fn round(dice: &mut Dice, tape: &mut Tape) {
    for _ in 0..dice.pick(&[0, 1, 3, 5, 8, 12, 20]) {
        let eval = evaluation(dice);
        tape.sample(eval);
    }
    if dice.chance(1, 2) {
        damaged(dice, tape);
    }
    if dice.chance(1, 8) {
        lend(dice, tape);
    }
    match dice.below(6) {
        0 => tape.copy(),
        1 => {
            tape.copy();
            tape.copy_back();
        }
        2 => tape.merge(),
        _ => {}
    }
    let bad = dice.chance(1, 12);
    let (bins_rate, axes_rate) = (rate(dice), if bad { double(dice) } else { rate(dice) });
    tape.update(bins_rate, axes_rate);
    if dice.chance(1, 4) {
        tape.copy();
        tape.sample(1.0);
        tape.merge();
    }
}

/// A sample with one thing changed, any evaluation, and numbers at their ends.
fn damaged(dice: &mut Dice, tape: &mut Tape) {
    let mut stream = tape.stream.clone();
    let point = tape.model.draw(&mut stream).unwrap_or_default();
    let point = if dice.chance(1, 3) {
        point
    } else {
        changed(dice, point)
    };
    let eval = match dice.below(6) {
        0 => double(dice),
        1 => dice.pick(&[f64::NAN, f64::INFINITY, f64::NEG_INFINITY, 1e200]),
        _ => evaluation(dice),
    };
    let number = dice.pick(&[1, 2, MOST, 7, 7, 3, 5, 6, 0, MOST + 1]);
    tape.train(&point, eval, number);
}

/// A sum that is not finite, calls that judge it, and the sum as it was.
fn lend(dice: &mut Dice, tape: &mut Tape) {
    let before = tape.model.grid.words()[0];
    tape.put(0, bits(dice.pick(&[f64::NAN, f64::INFINITY, 1e308])));
    tape.sample(evaluation(dice));
    tape.update(1.0, 1.0);
    tape.copy();
    tape.put(0, before);
}

fn begun(plan: &GridPlan) -> Tape {
    Tape::new(plan, [1, 2, 3, 4])
}

fn put(tape: &mut Tape, at: usize, values: &[f64]) {
    for (i, &value) in values.iter().enumerate() {
        tape.put(at + i, bits(value));
    }
}

pub fn directed() -> Vec<Vec<u64>> {
    let mut records = Vec::new();
    for case in [
        moved_edges,
        crowded_edges,
        edge_above_1,
        narrowing,
        infinite_last_edge,
        weight_becomes_0,
        least_floor,
        weight_changed,
        minus_zeros,
        undefined_error,
        eight_beside_nine,
        infinite_weight,
        two_thirds,
        overflows,
        shrinking,
    ] {
        records.push(case().record());
    }
    records
}

/// With nothing trained, an edge moves by an ulp.
fn moved_edges() -> Tape {
    let (a, b) = (1.5 * ULP, 0.5 + 3.0 * ULP);
    let mut tape = begun(&one_axis(3, &[], 0.0));
    put(&mut tape, ROOT_EDGES, &[0.0, a, b, 1.0]);
    tape.update(1.0, 1.0);
    tape
}

/// With a closer neighbour it is 9.
fn crowded_edges() -> Tape {
    let (a, b) = (1.5 * ULP, 0.5 + 3.0 * ULP);
    let mut tape = begun(&one_axis(4, &[], 0.0));
    put(&mut tape, ROOT_EDGES + 3, &[b.next_up()]);
    put(&mut tape, ROOT_EDGES + 1, &[a, b]);
    tape.update(1.0, 1.0);
    tape
}

fn edge_above_1() -> Tape {
    let mut tape = begun(&one_axis(5, &[5, 2], 0.0));
    let light = f64::from_bits(0x3d64000000000000);
    tape.train(&at(0.0), 1.0, 1);
    tape.train(&at(1.0), 1.0, 2);
    tape.update(10.0, 10.0);
    tape.train(&at(0.0), 1.0, 3);
    tape.train(&at(1.0), 1.0, 4);
    tape.train(&at(0.5), light, 5);
    tape.update(10.0, 10.0);
    tape
}

/// One sample at 1 before each update, until the edges no longer rise.
fn narrowing() -> Tape {
    let mut tape = begun(&one_axis(1024, &[], 0.0));
    for number in 1..6 {
        tape.train(&at(1.0), 1.0, number);
        tape.update(1.5, 1.5);
    }
    tape
}

fn infinite_last_edge() -> Tape {
    let mut tape = begun(&one_axis(4, &[25], 0.0));
    put(&mut tape, ROOT_EDGES + 5, &[1.0]);
    tape.update(1.0, 1.0);
    tape
}

fn under_floor(floor: f64, edge: f64) -> Tape {
    let mut tape = begun(&one_axis(2, &[], floor));
    put(&mut tape, ROOT_EDGES + 1, &[edge]);
    for x in [0.0, edge, 0.3, 1.0] {
        tape.probe_at(&at(x));
    }
    tape.draw();
    tape.sample(1.0);
    tape.sample(3.0);
    tape.update(1.0, 1.0);
    tape
}

/// A weight so small that one over it is infinite.
fn weight_becomes_0() -> Tape {
    under_floor(0.5, 5e-321)
}

/// The least floor above 0 draws its word.
fn least_floor() -> Tape {
    under_floor(f64::from_bits(1), 5e-321)
}

/// It changes a weight whose inverse's inverse is another.
fn weight_changed() -> Tape {
    under_floor(f64::from_bits(1), 0.45)
}

/// Floor 0.5, weight 0.5: the double nearest 2/3.
fn two_thirds() -> Tape {
    under_floor(0.5, 0.25)
}

fn minus_zeros() -> Tape {
    let mut tape = begun(&one_axis(2, &[], -0.0));
    tape.draw();
    tape.train(&at(-0.0), -0.0, 1);
    tape.train(&at(0.7), 1.0, 2);
    tape.copy();
    tape.merge();
    tape.update(0.0, -0.0);
    put(&mut tape, ROOT_EDGES, &[-0.0]);
    tape.probe_at(&at(-0.0));
    tape.merge();
    tape
}

fn undefined_error() -> Tape {
    let mut tape = begun(&bins_grid(vec![None, None], 10.0, false));
    for (index, eval) in [(0, 0.1), (0, 0.1), (0, 0.1), (1, 1.0), (1, 2.0)] {
        tape.train(&in_bin(index, 2.0), eval, 1);
    }
    tape.update(1.0, 1.0);
    tape.update(0.0, 1.0);
    tape
}

/// One child whose re-cut is 9; then another whose gathering overflows, too.
fn eight_beside_nine() -> Tape {
    let children = vec![Some(one_axis(4, &[], 0.0)), Some(one_axis(1, &[], 0.0))];
    let mut tape = begun(&bins_grid(children, 10.0, false));
    let (a, b) = (1.5 * ULP, 0.5 + 3.0 * ULP);
    let edges = 3 * RECORD_WORDS + 2 + ROOT_EDGES;
    put(&mut tape, edges + 3, &[b.next_up()]);
    put(&mut tape, edges + 1, &[a, b]);
    tape.update(0.0, 1.0);
    let importance = edges + 5 + 8 * 4 + ROOT_EDGES + 2;
    put(&mut tape, importance, &[1.7e308]);
    put(&mut tape, importance + 3, &[1.7e308]);
    tape.update(0.0, 1.0);
    tape.update(0.0, 0.0);
    tape
}

fn infinite_weight() -> Tape {
    let mut tape = begun(&bins_grid(vec![None; 3], 1e308, true));
    for (index, eval) in [(0, 0.0), (0, 0.0), (1, 1.0), (1, 1.0), (2, 1.0), (2, 1.0)] {
        tape.train(&in_bin(index, 3.0), eval, 1);
    }
    tape.update(1.0, 1.0);
    tape.probe_at(&in_bin(0, 1.0));
    tape.draw();
    tape.sample(1.0);
    tape
}

/// A merge of sums and of counts past their ends, and a last iteration.
fn overflows() -> Tape {
    let mut tape = begun(&one_axis(1, &[], 0.0));
    tape.train(&at(0.5), 1.2e154, 1);
    tape.train(&at(0.5), 1.2e154, 2);
    tape.put(SAMPLES, MOST);
    tape.train(&at(0.5), 1.0, 2);
    tape.put(SAMPLES, 0);
    tape.put(ITERATIONS, MOST);
    tape.summary();
    tape.live_estimate();
    tape.update(0.0, 0.0);
    tape
}

/// Fewer bins, more again: the room between keeps what it held.
fn shrinking() -> Tape {
    let mut tape = begun(&one_axis(4, &[2, 3, 6, 1], 0.5));
    for number in 1..25 {
        tape.sample(number as f64);
        if number % 4 == 0 {
            tape.update(1.5, 1.5);
        }
    }
    tape.copy();
    tape.sample(1.0);
    tape.merge();
    tape.copy_back();
    tape
}
