//! Rare cases by construction. The first word of a stream is a one-to-one
//! function of its seed, so a first draw can be any number at all; later draws
//! are foreseen, and floors or probabilities are made to meet them.

use super::{
    Dice, Script, evaluation,
    script::{rate, samples},
};
use crate::domains::float::unit;
use crate::model::{
    Refusal,
    plan::{AxesPlan, BinsPlan, GridPlan, MOST_BINS},
};
use crate::numerical_integration::MonteCarloRng;
use crate::program::ROOM;
use crate::rand::RngCore;

/// The inverse modulo 2^64 of an odd number.
fn inverse(odd: u64) -> u64 {
    (0..6).fold(odd, |x, _| {
        x.wrapping_mul(2u64.wrapping_sub(odd.wrapping_mul(x)))
    })
}

/// Undoes z ^ (z >> shift).
fn unshift(mixed: u64, shift: u32) -> u64 {
    (0..64 / shift).fold(mixed, |z, _| mixed ^ (z >> shift))
}

/// The seed whose stream number 0 begins with a word: its second SplitMix64 word
/// decides that word alone.
pub fn seed_for_first_word(word: u64) -> u64 {
    let s1 = word
        .wrapping_mul(inverse(9))
        .rotate_right(7)
        .wrapping_mul(inverse(5));
    let mut z = unshift(s1, 31).wrapping_mul(inverse(0x94d0_49bb_1331_11eb));
    z = unshift(z, 27).wrapping_mul(inverse(0xbf58_476d_1ce4_e5b9));
    unshift(z, 30).wrapping_sub(0x9e37_79b9_7f4a_7c15u64.wrapping_mul(2))
}

/// A seed whose first unit draw is a given multiple of 2^-53.
fn seed_for_first_draw(dice: &mut Dice, draw: f64) -> u64 {
    let top = (draw * 9007199254740992.0) as u64;
    seed_for_first_word(top << 11 | dice.word() >> 53)
}

/// Running sums of n fresh probabilities.
fn running_sums(n: usize) -> Vec<f64> {
    let p = 1.0 / n as f64;
    let mut sum = 0.0;
    (0..n)
        .map(|_| {
            sum += p;
            sum
        })
        .collect()
}

const LAST_DRAW: f64 = 1.0 - f64::EPSILON / 2.0;

/// The sizes of a fresh bins grid whose running sums miss the last draw.
pub fn unreached_sizes() -> Vec<usize> {
    let misses = |n: &usize| running_sums(*n)[n - 1] < LAST_DRAW;
    (1..=MOST_BINS as usize).filter(misses).collect()
}

fn one_axis(bins: usize) -> AxesPlan {
    AxesPlan {
        axes: 1,
        bins,
        least: 0,
        on_average: false,
        floor: 0.0,
        evolution: Vec::new(),
    }
}

/// Bins that carry nothing, but for an axes grid in the last at times.
fn mostly_leafless(dice: &mut Dice, bins: usize) -> GridPlan {
    let mut children = vec![None; bins];
    if bins + 4 <= ROOM && dice.chance(1, 2) {
        children[bins - 1] = Some(GridPlan::Axes(one_axis(dice.between(1, 4))));
    }
    GridPlan::Bins(BinsPlan {
        ratio: 10.0,
        on_average: dice.chance(1, 2),
        children,
    })
}

/// A first draw on an interior edge, at or beside a running sum, or past the last.
pub fn first_draw_special(dice: &mut Dice) -> Vec<u8> {
    let (plan, draw) = match dice.below(3) {
        0 => {
            let bins = dice.pick(&[2, 4, 8, 16, 32, 64, 128]);
            let edge = dice.between(1, bins - 1) as f64 / bins as f64;
            (GridPlan::Axes(one_axis(bins)), edge)
        }
        1 => {
            let bins = dice.between(2, 100);
            // From one half on a sum is a multiple of 2^-53, as a draw is.
            let sum = running_sums(bins)[dice.between((bins - 1) / 2, bins - 2)];
            let step = dice.pick(&[-1.0, 0.0, 0.0, 1.0]) * f64::EPSILON / 2.0;
            (mostly_leafless(dice, bins), sum + step)
        }
        _ => {
            let sizes = unreached_sizes();
            let within = sizes.partition_point(|&size| size <= 120);
            let bins = sizes[dice.below(within)];
            (mostly_leafless(dice, bins), LAST_DRAW)
        }
    };
    let seed = seed_for_first_draw(dice, draw);
    let script = Script::with_stream(&plan, seed, 0);
    follow(dice, script)
}

/// Samples alike in size and an update that adapts, so that where the special draw
/// fell shows later; then samples and updates of any kind.
fn follow(dice: &mut Dice, mut script: Script) -> Vec<u8> {
    alike(dice, &mut script);
    for _ in 0..dice.between(1, 3) {
        for _ in 0..samples(dice) {
            script.sample(evaluation(dice));
        }
        script.update(rate(dice), rate(dice));
    }
    script.bytes
}

fn alike(dice: &mut Dice, script: &mut Script) -> usize {
    let samples = dice.between(4, 20);
    for _ in 0..samples {
        script.sample(dice.magnitude(-1, 1));
    }
    script.update(1.5, 1.5);
    samples
}

/// A floor equal to the draw that decides on even sampling, in one of the samples
/// after a first update.
pub fn floor_meets_choice(dice: &mut Dice) -> Vec<u8> {
    let seed = dice.word();
    let mut plan = one_axis(dice.between(2, 20));
    let mut stream = MonteCarloRng::new(seed, 0);
    // Each sample takes a choice word and a coordinate's.
    for _ in 0..2 * dice.between(10, 30) {
        stream.next_u64();
    }
    plan.floor = unit(stream.next_u64());
    let mut script = Script::with_stream(&GridPlan::Axes(plan), seed, 0);
    let before = alike(dice, &mut script);
    for _ in before..31 {
        script.sample(dice.magnitude(-1, 1));
    }
    script.update(0.0, 1.5);
    follow(dice, script)
}

/// Two bins trained on averages so that the first probability is the next draw,
/// or the number just beside it.
pub fn draw_meets_running_sum(dice: &mut Dice) -> Vec<u8> {
    let plan = GridPlan::Bins(BinsPlan {
        ratio: 1e300,
        on_average: true,
        children: vec![None, None],
    });
    let mut script = Script::with_stream(&plan, even_seed(dice, &plan), 0);
    let mut stream = script.stream().expect("the plan is good");
    for _ in 0..4 {
        stream.next_u64();
    }
    let step = dice.pick(&[-1.0, 0.0, 0.0, 1.0]) * f64::EPSILON / 2.0;
    let share = (unit(stream.next_u64()) + step).clamp(0.25, 0.75);
    for _ in 0..4 {
        let bin = script.next_point().expect("no refusal yet").path[0];
        script.sample(if bin == 0 { share } else { 1.0 - share });
    }
    script.update(1.0, 0.0);
    follow(dice, script)
}

/// A seed whose first four draws fall twice into each of two bins and whose fifth
/// lies well inside.
fn even_seed(dice: &mut Dice, plan: &GridPlan) -> u64 {
    loop {
        let seed = dice.word();
        let mut stream = Script::with_stream(plan, seed, 0)
            .stream()
            .expect("a good plan");
        let mut draws = || unit(stream.next_u64());
        let left = (0..4).filter(|_| draws() <= 0.5).count();
        if left == 2 && (0.3..0.7).contains(&draws()) {
            return seed;
        }
    }
}

/// One sample an update narrows all bins around its point, until bins are a few
/// ulps wide, points fall on edges, and an update is refused.
pub fn narrowing(dice: &mut Dice) -> Vec<u8> {
    let mut plan = one_axis(dice.between(30, 120));
    plan.on_average = dice.chance(1, 2);
    plan.floor = dice.pick(&[0.0, 0.0, 0.0, 0.01]);
    let script = Script::begin(dice, &GridPlan::Axes(plan));
    narrow(dice, script, 40)
}

/// Narrows until an update would be refused; in the last rounds more samples stand.
fn narrow(dice: &mut Dice, mut script: Script, most: usize) -> Vec<u8> {
    let rate = dice.pick(&[1.0, 1.5, 1.5, 3.0]);
    for _ in 0..most {
        script.sample(1.0);
        if script.foresee(rate, rate) != Some(Ok(())) {
            break;
        }
        script.update(rate, rate);
    }
    for _ in 0..dice.between(1, 25) {
        let eval = evaluation(dice);
        script.sample(eval);
    }
    script.update(rate, 0.0);
    script.sample(1.0);
    script.update(rate, rate);
    script.bytes
}

/// Two axes grids under a bins root: one so narrow that its update is 9, and, most
/// times, one whose importance overflows while it is smoothed, which is 8.
pub fn eight_beside_nine(dice: &mut Dice) -> Vec<u8> {
    let mut narrow = one_axis(dice.between(60, 100));
    narrow.floor = dice.pick(&[0.0, -0.0]);
    let wide = one_axis(3);
    let first = dice.chance(1, 2);
    let (one, other) = if first {
        (narrow, wide)
    } else {
        (wide, narrow)
    };
    let plan = GridPlan::Bins(BinsPlan {
        ratio: 10.0,
        on_average: dice.chance(1, 2),
        children: vec![Some(GridPlan::Axes(one)), Some(GridPlan::Axes(other))],
    });
    let narrow_bin = if first { 0 } else { 1 };
    let mut script = Script::begin(dice, &plan);
    for _ in 0..40 {
        narrow_once(&mut script, narrow_bin);
        if script.foresee(0.0, 1.5) == Some(Err(Refusal::BadUpdate)) {
            break;
        }
        script.update(0.0, 1.5);
    }
    if dice.chance(3, 4) {
        script.update(0.0, 0.0);
        overflow_beside(&mut script, narrow_bin);
    }
    script.update(0.0, 1.5);
    script.bytes
}

/// Samples until one of evaluation 1 stands in the narrow child.
fn narrow_once(script: &mut Script, narrow_bin: usize) {
    loop {
        let hit = next_is(script, |point| point.path[0] == narrow_bin);
        script.sample(if hit { 1.0 } else { 0.0 });
        if hit {
            return;
        }
    }
}

/// After a reset: samples until the narrow child has one of 1 and the middle of the
/// other's three bins has a large one, whose square fits at the root while six
/// times that square does not.
fn overflow_beside(script: &mut Script, narrow_bin: usize) {
    let (mut narrowed, mut overflowed) = (false, false);
    while !(narrowed && overflowed) {
        let narrow = next_is(script, |point| point.path[0] == narrow_bin);
        let middle = next_is(script, |point| (0.34..0.66).contains(&point.coordinates[0]));
        script.sample(match (narrow, middle && !overflowed) {
            (true, _) => 1.0,
            (false, true) => 6.5e153,
            (false, false) => 0.0,
        });
        narrowed |= narrow;
        overflowed |= middle && !narrow;
        if script.next_point().is_none() {
            return;
        }
    }
}

fn next_is(script: &mut Script, test: impl Fn(&crate::model::grid::Point) -> bool) -> bool {
    script.next_point().is_none_or(|point| test(&point))
}

#[cfg(test)]
mod tests {
    use super::*;
    use crate::model::grid::{Model, Point};
    use crate::model::plan::{Refused, field, read_prefix};
    use crate::numerical_integration::Grid;
    use crate::program::{SAMPLE, run};

    /// Calls back with the model and the next point before each sample of an input.
    fn replay(input: &[u8], mut see: impl FnMut(&Model, &MonteCarloRng, &Point)) {
        let (plan, end) = read_prefix(input).expect("a good plan");
        let first = field(input, end).expect("a stream");
        let mut stream = MonteCarloRng::new(first.u64(0), first.u16(8) as usize);
        let mut model = Model::fresh(&plan);
        let mut at = first.end;
        while at < input.len() {
            let field: Result<_, Refused> = field(input, at);
            let field = field.expect("a good field");
            let done = if field.tag == SAMPLE {
                let point = model.draw(&mut stream.clone()).unwrap();
                see(&model, &stream, &point);
                let point = model.draw(&mut stream).unwrap();
                model.train(&point, field.f64(0), 1)
            } else {
                model.update(field.f64(0), field.f64(8))
            };
            if done.is_err() {
                return;
            }
            at = field.end;
        }
    }

    fn made(make: fn(&mut Dice) -> Vec<u8>) -> impl Iterator<Item = Vec<u8>> {
        (0..100).map(move |index| make(&mut Dice::new(3, index)))
    }

    fn on_interior_edge(model: &Model, point: &Point) -> bool {
        let Grid::Continuous(grid) = &model.grid else {
            return false;
        };
        let edges = &grid.continuous_dimensions[0].partitioning;
        edges[1..edges.len() - 1].contains(&point.coordinates[0])
    }

    #[test]
    fn narrow_bins_bring_points_onto_edges_and_end_in_a_bad_update() {
        let (mut on_edge, mut bad) = (0, 0);
        for input in made(narrowing) {
            replay(&input, |model, _, point| {
                on_edge += on_interior_edge(model, point) as usize;
            });
            bad += run(&input).contains("refused 9") as usize;
        }
        assert!(on_edge > 20, "{on_edge} points on an edge");
        assert!(bad > 20, "{bad} bad updates");
    }

    #[test]
    fn first_draws_meet_edges_and_sums() {
        let (mut on_edge, mut on_sum, mut past) = (0, 0, 0);
        for input in made(first_draw_special) {
            let mut first = true;
            replay(&input, |model, stream, point| {
                let draw = unit(stream.clone().next_u64());
                if std::mem::take(&mut first) {
                    on_edge += on_interior_edge(model, point) as usize;
                    if let Grid::Discrete(grid) = &model.grid {
                        let sums = running_sums(grid.bins.len());
                        on_sum += sums.contains(&draw) as usize;
                        past += (draw > sums[sums.len() - 1]) as usize;
                    }
                }
            });
        }
        assert!(
            on_edge > 3 && on_sum > 3 && past > 3,
            "{on_edge} {on_sum} {past}"
        );
    }

    #[test]
    fn floors_meet_choice_draws() {
        let mut met = 0;
        for input in made(floor_meets_choice) {
            replay(&input, |model, stream, _| {
                let Grid::Continuous(grid) = &model.grid else {
                    return;
                };
                let choice = unit(stream.clone().next_u64());
                met += (choice == grid.min_probability_density) as usize;
            });
        }
        assert!(met > 20, "{met} met");
    }

    #[test]
    fn trained_probabilities_meet_the_next_draw() {
        let mut met = 0;
        for input in made(draw_meets_running_sum) {
            replay(&input, |model, stream, _| {
                let Grid::Discrete(grid) = &model.grid else {
                    return;
                };
                met += (unit(stream.clone().next_u64()) == grid.bins[0].pdf) as usize;
            });
        }
        assert!(met > 10, "{met} met");
    }

    #[test]
    fn an_overflow_hides_a_bad_update() {
        let outputs: Vec<String> = made(eight_beside_nine).map(|input| run(&input)).collect();
        let ending = |text| {
            outputs
                .iter()
                .filter(|output| output.contains(text))
                .count()
        };
        let (eight, nine) = (ending("refused 8"), ending("refused 9"));
        assert!(eight > 20 && nine > 5, "{eight} times 8, {nine} times 9");
    }
}
