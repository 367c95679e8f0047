//! Inputs for the integration program, each fixed by a seed and an index.
//! Most are valid and run deep; the rest are damaged, out of range, or made to
//! meet a rare case.

mod damage;
mod dice;
mod directed;
mod plans;
mod script;

pub use dice::Dice;
pub use directed::{seed_for_first_word, unreached_sizes};
pub use plans::{Budget, plan};
pub use script::{Script, evaluation, rate};

use directed::{
    draw_meets_running_sum, eight_beside_nine, first_draw_special, floor_meets_choice, narrowing,
};

/// The input of an index.
pub fn input(seed: u64, index: u64) -> Vec<u8> {
    let mut dice = Dice::new(seed, index);
    match dice.below(100) {
        0..52 => ordinary(&mut dice),
        52..60 => narrowing(&mut dice),
        60..66 => first_draw_special(&mut dice),
        66..68 => floor_meets_choice(&mut dice),
        68..71 => draw_meets_running_sum(&mut dice),
        71..73 => eight_beside_nine(&mut dice),
        73..76 => bounds(&mut dice),
        76..83 => {
            let bytes = ordinary(&mut dice);
            damage::out_of_range(&mut dice, bytes)
        }
        _ => {
            let bytes = ordinary(&mut dice);
            damage::damaged(&mut dice, bytes)
        }
    }
}

/// Any plan, a stream, then several updates with samples before each.
fn ordinary(dice: &mut Dice) -> Vec<u8> {
    let budget = if dice.chance(1, 20) {
        Budget::Any
    } else {
        Budget::Room
    };
    let plan = plan(dice, budget);
    let script = Script::begin(dice, &plan);
    run(dice, script)
}

/// Plans at and just past the bounds on grids, levels and room.
fn bounds(dice: &mut Dice) -> Vec<u8> {
    let plan = plans::at_bounds(dice);
    let script = Script::begin(dice, &plan);
    run(dice, script)
}

fn run(dice: &mut Dice, mut script: Script) -> Vec<u8> {
    let style = script::Style::roll(dice);
    for _ in 0..1 + dice.below(6) {
        for _ in 0..script::samples(dice) {
            let eval = style.evaluation(dice, &mut script);
            script.sample(eval);
        }
        let (bins_rate, axes_rate) = (rate(dice), rate(dice));
        script.update(bins_rate, axes_rate);
    }
    script.bytes
}

/// The bytes of a plan alone: good, at a bound, damaged, or out of range.
pub fn plan_bytes(dice: &mut Dice) -> Vec<u8> {
    let budget = if dice.chance(1, 10) {
        Budget::Any
    } else {
        Budget::Room
    };
    let plan = match dice.below(10) {
        0 => plans::at_bounds(dice),
        _ => plan(dice, budget),
    };
    match dice.below(3) {
        0 => plan.bytes(),
        1 => damage::damaged(dice, plan.bytes()),
        _ => damage::out_of_range(dice, plan.bytes()),
    }
}
