//! Records of one axis's calls, each with the whole axis before and after.

use super::{double, mostly};
use crate::generate::{Dice, evaluation, rate};
use crate::model::{
    Answer, MOST,
    axis::{draw, merge, probe, train, update},
    number,
    plan::AxesPlan,
};
use crate::numerical_integration::{
    ContinuousGrid, MonteCarloRng,
    state::{AxisState, Record},
};
use crate::words::bits;

const PROBE: u64 = 1;
const DRAW: u64 = 2;
const TRAIN: u64 = 3;
const UPDATE: u64 = 4;
const MERGE: u64 = 5;
const FLOOR: u64 = 6;

const ULP: f64 = f64::EPSILON / 2.0;

pub fn list(dice: &mut Dice, count: usize) -> Vec<Vec<u64>> {
    let mut records = directed();
    let end = records.len() + count;
    let mut plan = plan(dice);
    let mut state = fresh(&plan);
    while records.len() < end {
        match dice.below(200) {
            0 => records.extend(narrowing(dice)),
            1..6 => {
                plan = self::plan(dice);
                state = fresh(&plan);
            }
            _ => {}
        }
        let before = if dice.chance(1, 10) {
            lent(dice, &state)
        } else {
            state.clone()
        };
        records.push(step(dice, &plan, &before, &mut state));
    }
    records.truncate(end);
    records
}

/// One sample an update in the narrowest bin, until an update is refused.
fn narrowing(dice: &mut Dice) -> Vec<Vec<u64>> {
    let plan = one_axis(dice.between(10, 24), &[]);
    let mut state = fresh(&plan);
    let mut records = Vec::new();
    loop {
        let width = |&bin: &usize| state.edges[bin + 1] - state.edges[bin];
        let narrower = |a: &usize, b: &usize| width(a).total_cmp(&width(b));
        let bin = (0..state.held()).min_by(narrower).expect("bins are held");
        let x = state.edges[bin] + dice.unit() * width(&bin);
        records.push(trained(&plan, &state, x, 1.0, 1.0));
        let waiting = train(&state, &plan, x, 1.0, 1.0).expect("a good sample");
        records.push(updated(&plan, &waiting, 1.5));
        match update(&waiting, &plan, 1.5) {
            Ok(after) => state = after,
            Err(_) => return records,
        }
    }
}

fn fresh(plan: &AxesPlan) -> AxisState {
    plan.fresh().continuous_dimensions[0].state()
}

fn one_axis(bins: usize, evolution: &[usize]) -> AxesPlan {
    AxesPlan {
        axes: 1,
        bins,
        least: 0,
        on_average: false,
        floor: 0.0,
        evolution: evolution.to_vec(),
    }
}

fn on_edges(plan: &AxesPlan, edges: &[f64]) -> AxisState {
    let bins = edges.len() - 1;
    AxisState {
        edges: edges.to_vec(),
        records: vec![Record::default(); bins],
        importances: vec![0.0; bins],
        counters: vec![0; bins],
        ..fresh(plan)
    }
}

/// The document's edges; an empty re-cut that moves an edge or is refused; an edge
/// above 1; a last edge that would be infinite; weights under a floor; minus zeros.
fn directed() -> Vec<Vec<u64>> {
    let edges = [0.0, 0.25, 1.0];
    let points = [0.0, -0.0, 0.25, 0.5, 1.0, f64::NAN, 1f64.next_up(), -1e-300];
    let mut records: Vec<Vec<u64>> = points.map(|x| probed(&edges, x)).to_vec();
    for bad in [
        &[][..],
        &[0.0],
        &[0.0, 0.5, 0.5, 1.0],
        &[0.0, 0.5],
        &[0.1, 1.0],
    ] {
        records.push(probed(bad, 0.5));
    }
    records.push(probed(&[-0.0, 0.5, 1.0], 0.0));
    for state in [[0, 0, 0, 0], [0, u64::MAX, 0, 0], [1, 2, 3, 4]] {
        records.push(drawn(&edges, state));
        records.push(drawn(&[0.0, 1.0 - ULP, 1.0], state));
        records.push(drawn(&[0.0, 0.5, 0.5, 1.0], state));
    }
    records.extend(moved_edges());
    records.extend(edge_above_1());
    records.extend(infinite_last_edge());
    for (floor, weight) in [
        (0.5, 0.5),
        (0.5, 1e-320),
        (f64::from_bits(1), 1.2e24),
        (0.3, 0.0),
        (1.0, 0.0),
        (-0.0, 3.0),
        (0.0, 0.7),
    ] {
        records.push(floored(floor, weight));
    }
    records.extend(gathered_overflow());
    records.extend(minus_zeros());
    records
}

fn moved_edges() -> Vec<Vec<u64>> {
    let (a, b) = (1.5 * ULP, 0.5 + 3.0 * ULP);
    let three = one_axis(3, &[]);
    let four = one_axis(4, &[]);
    let moved = on_edges(&three, &[0.0, a, b, 1.0]);
    let crowded = on_edges(&four, &[0.0, a, b, b.next_up(), 1.0]);
    vec![updated(&three, &moved, 1.0), updated(&four, &crowded, 1.0)]
}

fn edge_above_1() -> Vec<Vec<u64>> {
    let plan = one_axis(5, &[5, 2]);
    let mut records = Vec::new();
    let mut state = fresh(&plan);
    let light = f64::from_bits(0x3d64000000000000);
    let rounds: [&[(f64, f64)]; 2] = [
        &[(0.0, 1.0), (1.0, 1.0)],
        &[(0.0, 1.0), (1.0, 1.0), (0.5, light)],
    ];
    for samples in rounds {
        for &(x, eval) in samples {
            records.push(trained(&plan, &state, x, 1.0, eval));
            state = train(&state, &plan, x, 1.0, eval).expect("a good sample");
        }
        records.push(updated(&plan, &state, 10.0));
        state = update(&state, &plan, 10.0).unwrap_or(state);
    }
    records
}

fn infinite_last_edge() -> Vec<Vec<u64>> {
    let plan = one_axis(4, &[25]);
    let mut state = on_edges(&plan, &[0.0, 0.25, 0.5, 0.75, 1.0]);
    state.importances[0] = 1.0;
    vec![updated(&plan, &state, 1.0)]
}

/// A gathering that overflows, with and without a reset; smoothing that does.
fn gathered_overflow() -> Vec<Vec<u64>> {
    let one = one_axis(1, &[]);
    let mut state = fresh(&one);
    state.importances[0] = 1.7e308;
    state.records[0].sum_sq = 1.7e308;
    let three = one_axis(3, &[]);
    let mut inner = fresh(&three);
    inner.importances[1] = 1e308;
    let mut counted = fresh(&one);
    counted.counters[0] = MOST;
    counted.records[0].new_samples = 1;
    let mut recut = fresh(&one);
    recut.update_counter = MOST;
    vec![
        updated(&one, &state, 0.0),
        updated(&one, &state, 1.0),
        updated(&three, &inner, 1.0),
        updated(&three, &inner, 0.0),
        updated(&one, &counted, 0.0),
        updated(&one, &recut, 0.0),
        updated(&one, &recut, 1.0),
    ]
}

fn minus_zeros() -> Vec<Vec<u64>> {
    let plan = one_axis(2, &[]);
    let state = train(&fresh(&plan), &plan, 0.7, 1.0, 2.0).expect("a good sample");
    vec![
        trained(&plan, &state, -0.0, 1.0, -0.0),
        updated(&plan, &state, -0.0),
        updated(&plan, &state, 10f64.next_up()),
        updated(&plan, &state, f64::NAN),
    ]
}

fn plan(dice: &mut Dice) -> AxesPlan {
    let most = dice.pick(&[1, 2, 4, 8, 8, 16, 32]);
    let values = dice.pick(&[0, 0, 1, 2, 4]);
    AxesPlan {
        least: dice.pick(&[0, 0, 0, 3, 8, u32::MAX]),
        on_average: dice.chance(1, 2),
        evolution: (0..values).map(|_| dice.between(1, most)).collect(),
        ..one_axis(dice.between(1, most), &[])
    }
}

/// A state with a word or two replaced, at times beyond what is well formed.
fn lent(dice: &mut Dice, state: &AxisState) -> AxisState {
    let mut state = state.clone();
    let bin = dice.below(state.held());
    match dice.below(8) {
        0 => state.edges[bin + 1] = double(dice),
        1 => state.edges[bin] = state.edges[bin + 1],
        2 => state.edges[0] = -0.0,
        3 => state.importances[bin] = double(dice),
        4 => state.counters[bin] = dice.pick(&[MOST - 1, MOST, MOST + 1, u64::MAX]),
        5 => state.records[bin].new_samples = dice.pick(&[1, MOST, MOST + 1]),
        6 => state.records[bin].sum_sq = double(dice),
        _ => state.importances.fill(dice.magnitude(1015, 1023)),
    }
    state
}

fn step(dice: &mut Dice, plan: &AxesPlan, before: &AxisState, state: &mut AxisState) -> Vec<u64> {
    match dice.below(20) {
        0..3 => probed(&before.edges, coordinate(dice, before)),
        3..5 => drawn(&before.edges, [0; 4].map(|_| dice.word())),
        5..15 => {
            let x = coordinate(dice, before);
            let weight = 2.0 * dice.unit();
            let weight = mostly(dice, weight);
            let eval = evaluation(dice);
            let eval = mostly(dice, eval);
            keep(state, train(before, plan, x, weight, eval));
            trained(plan, before, x, weight, eval)
        }
        15..18 => {
            let rate = rate(dice);
            let rate = mostly(dice, rate);
            keep(state, update(before, plan, rate));
            updated(plan, before, rate)
        }
        18 => {
            let other_plan = if dice.chance(1, 2) {
                plan.clone()
            } else {
                self::plan(dice)
            };
            let other = match dice.below(3) {
                0 => state.clone(),
                1 => lent(dice, state),
                _ => fresh(&other_plan),
            };
            keep(state, merge(before, plan, &other, &other_plan));
            merged(plan, before, &other_plan, &other)
        }
        _ => {
            let floor = dice.pick(&[0.0, 1.0, 0.5, f64::from_bits(1), 1.0 - ULP]);
            floored(floor, dice.magnitude(-1074, 80).abs())
        }
    }
}

fn keep(state: &mut AxisState, answer: Answer<AxisState>) {
    if let Ok(after) = answer {
        *state = after;
    }
}

/// A coordinate anywhere, on an edge or beside one, or no coordinate at all.
fn coordinate(dice: &mut Dice, state: &AxisState) -> f64 {
    let edge = dice.pick(&state.edges);
    match dice.below(10) {
        0 => edge,
        1 => edge.next_up(),
        2 => edge.next_down(),
        3 if dice.chance(1, 3) => double(dice),
        _ => dice.unit(),
    }
}

/// Bins of 01, least samples, flag, the values of 02 after their number.
fn plan_words(plan: &AxesPlan) -> Vec<u64> {
    let mut words = vec![plan.bins as u64, plan.least as u64, plan.on_average as u64];
    words.push(plan.evolution.len() as u64);
    words.extend(plan.evolution.iter().map(|&value| value as u64));
    words
}

fn edge_words(edges: &[f64]) -> Vec<u64> {
    let mut words = vec![edges.len() as u64];
    words.extend(edges.iter().map(|&edge| bits(edge)));
    words
}

/// Opcode, arguments, refusal number, then the answer unless refused.
fn line(opcode: u64, arguments: &[&[u64]], answer: Answer<Vec<u64>>) -> Vec<u64> {
    let mut line = vec![opcode];
    line.extend(arguments.concat());
    line.push(number(&answer));
    line.extend(answer.unwrap_or_default());
    line
}

fn probed(edges: &[f64], x: f64) -> Vec<u64> {
    let answer = probe(edges, x).map(|(bin, weight)| vec![bin as u64, bits(weight)]);
    line(PROBE, &[&edge_words(edges), &[bits(x)]], answer)
}

fn drawn(edges: &[f64], state: [u64; 4]) -> Vec<u64> {
    let mut stream = MonteCarloRng::from_words(state);
    let answer = draw(edges, &mut stream).map(|(point, weight)| {
        let mut words = vec![bits(point), bits(weight)];
        words.extend(stream.words());
        words
    });
    line(DRAW, &[&edge_words(edges), &state], answer)
}

fn trained(plan: &AxesPlan, state: &AxisState, x: f64, weight: f64, eval: f64) -> Vec<u64> {
    let answer = train(state, plan, x, weight, eval).map(|after| after.words());
    let numbers = [x, weight, eval].map(bits);
    line(
        TRAIN,
        &[&plan_words(plan), &state.words(), &numbers],
        answer,
    )
}

fn updated(plan: &AxesPlan, state: &AxisState, rate: f64) -> Vec<u64> {
    let answer = update(state, plan, rate).map(|after| after.words());
    line(
        UPDATE,
        &[&plan_words(plan), &state.words(), &[bits(rate)]],
        answer,
    )
}

fn merged(
    plan: &AxesPlan,
    state: &AxisState,
    other_plan: &AxesPlan,
    other: &AxisState,
) -> Vec<u64> {
    let answer = merge(state, plan, other, other_plan).map(|after| after.words());
    let own = [plan_words(plan), state.words()].concat();
    let theirs = [plan_words(other_plan), other.words()].concat();
    line(MERGE, &[&own, &theirs], answer)
}

/// The floor's formula, which refuses nothing.
fn floored(floor: f64, weight: f64) -> Vec<u64> {
    let after = ContinuousGrid::floored(floor, weight);
    vec![FLOOR, bits(floor), bits(weight), bits(after)]
}
