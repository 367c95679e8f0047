//! An input under way, with the run that it causes beside it, so that
//! evaluations can depend on the points that will be drawn.

use super::Dice;
use crate::model::{
    Answer,
    grid::{Model, Point},
    plan::{GridPlan, read},
};
use crate::numerical_integration::MonteCarloRng;
use crate::program::{MOST_STREAM, ROOM, SAMPLE, STREAM, UPDATE};

pub struct Script {
    pub bytes: Vec<u8>,
    /// The run so far; none once the program has refused.
    run: Option<Run>,
}

#[derive(Clone)]
struct Run {
    model: Model,
    stream: MonteCarloRng,
    samples: u64,
}

impl Script {
    /// A plan and a stream of any seed; most stream numbers are small, as each
    /// jump costs 256 words.
    pub fn begin(dice: &mut Dice, plan: &GridPlan) -> Script {
        let stream = match dice.below(20) {
            0 => dice.between(10, 200) as u16,
            1 if dice.chance(1, 10) => MOST_STREAM,
            1..8 => dice.below(10) as u16,
            _ => 0,
        };
        let seed = if dice.chance(1, 4) {
            dice.below(3) as u64
        } else {
            dice.word()
        };
        Script::with_stream(plan, seed, stream)
    }

    pub fn with_stream(plan: &GridPlan, seed: u64, number: u16) -> Script {
        let mut bytes = plan.bytes();
        let runs = read(&bytes).is_ok() && plan.room() <= ROOM;
        bytes.extend([STREAM, 10, 0]);
        bytes.extend(seed.to_le_bytes());
        bytes.extend(number.to_le_bytes());
        let run = runs.then(|| Run {
            model: Model::fresh(plan),
            stream: MonteCarloRng::new(seed, number as usize),
            samples: 0,
        });
        Script { bytes, run }
    }

    /// The point that the next sample will draw.
    pub fn next_point(&mut self) -> Option<Point> {
        let run = self.run.as_mut()?;
        run.model.draw(&mut run.stream.clone()).ok()
    }

    /// The stream that the next sample will draw from.
    pub fn stream(&self) -> Option<MonteCarloRng> {
        self.run.as_ref().map(|run| run.stream.clone())
    }

    pub fn sample(&mut self, eval: f64) {
        self.bytes.extend([SAMPLE, 8, 0]);
        self.bytes.extend(eval.to_le_bytes());
        self.step(|run| {
            let point = run.model.draw(&mut run.stream)?;
            run.samples += 1;
            run.model.train(&point, eval, run.samples)
        });
    }

    pub fn update(&mut self, bins_rate: f64, axes_rate: f64) {
        self.bytes.extend([UPDATE, 16, 0]);
        self.bytes.extend(bins_rate.to_le_bytes());
        self.bytes.extend(axes_rate.to_le_bytes());
        self.step(|run| run.model.update(bins_rate, axes_rate));
    }

    /// What an update would answer here.
    pub fn foresee(&self, bins_rate: f64, axes_rate: f64) -> Option<Answer<()>> {
        let mut run = self.run.clone()?;
        Some(run.model.update(bins_rate, axes_rate))
    }

    fn step(&mut self, call: impl FnOnce(&mut Run) -> Answer<()>) {
        if let Some(run) = &mut self.run
            && call(run).is_err()
        {
            self.run = None;
        }
    }
}

/// How the evaluations of one input are made.
#[derive(Clone, Copy)]
pub enum Style {
    Integers,
    Unit,
    Constant(f64),
    Wide,
    Subnormal,
    Zeros,
    NearOverflow,
    Mixed,
    /// A smooth function of the point, scaled.
    Smooth(f64),
    /// Large near one place, small elsewhere.
    Peak(f64),
    /// Nothing but in one bin of the root.
    OneBin(usize),
}

impl Style {
    pub fn roll(dice: &mut Dice) -> Style {
        match dice.below(16) {
            0 => Style::Integers,
            1 => Style::Unit,
            2 => Style::Constant(evaluation(dice)),
            3 => Style::Wide,
            4 => Style::Subnormal,
            5 => Style::Zeros,
            6 => Style::NearOverflow,
            7 | 8 => Style::Mixed,
            9..12 => Style::Smooth(dice.magnitude(-3, 3)),
            12..15 => Style::Peak(dice.unit()),
            _ => Style::OneBin(dice.below(4)),
        }
    }

    pub fn evaluation(self, dice: &mut Dice, script: &mut Script) -> f64 {
        match self {
            Style::Integers => dice.below(7) as f64 - 3.0,
            Style::Unit => dice.unit(),
            Style::Constant(value) => value,
            Style::Wide => dice.magnitude(-200, 200),
            Style::Subnormal => subnormal(dice),
            Style::Zeros => dice.pick(&[0.0, -0.0, 0.0, 1e-170]),
            Style::NearOverflow => near_overflow(dice),
            Style::Mixed => evaluation(dice),
            Style::Smooth(scale) => scale * (1.0 + place(script) * (3.0 - place(script))),
            Style::Peak(at) => 1.0 / (1e-4 + (place(script) - at) * (place(script) - at)),
            Style::OneBin(bin) => {
                let point = script.next_point().unwrap_or_default();
                if point.path.first().is_none_or(|&index| index == bin) {
                    dice.magnitude(-1, 1)
                } else {
                    0.0
                }
            }
        }
    }
}

/// One number that stands for where the next point lies.
fn place(script: &mut Script) -> f64 {
    let point = script.next_point().unwrap_or_default();
    let bins: usize = point.path.iter().sum();
    bins as f64 + point.coordinates.iter().sum::<f64>()
}

fn subnormal(dice: &mut Dice) -> f64 {
    let sign = (dice.below(2) as u64) << 63;
    f64::from_bits(sign | dice.word() >> dice.between(12, 63))
}

/// Squares near the largest double, with now and then one past it.
fn near_overflow(dice: &mut Dice) -> f64 {
    match dice.below(12) {
        0 => dice.pick(&[f64::MAX, f64::MIN, 1e308, 1.4e154]),
        1..4 => dice.magnitude(508, 511),
        _ => dice.magnitude(490, 509),
    }
}

/// An evaluation of any finite kind.
pub fn evaluation(dice: &mut Dice) -> f64 {
    match dice.below(10) {
        0 | 1 => dice.below(7) as f64 - 3.0,
        2 | 3 => dice.unit(),
        4 => dice.magnitude(-660, 400),
        5 => subnormal(dice),
        6 => dice.pick(&[0.0, -0.0]),
        7 => dice.pick(&[0.1, -0.1, 1.0, 1e-200, 1e-160, 3e-160]),
        8 => dice.magnitude(-30, 30),
        _ => dice.magnitude(-2, 2),
    }
}

/// A rate in its range.
pub fn rate(dice: &mut Dice) -> f64 {
    match dice.below(12) {
        0 => 0.0,
        1 => -0.0,
        2..6 => 1.5,
        6 => dice.pick(&[1e-300, f64::from_bits(1), 1e-3]),
        7 => 10.0,
        8 => 1.0,
        9 => 0.5,
        _ => 10.0 * dice.unit(),
    }
}

/// How many samples stand before an update.
pub fn samples(dice: &mut Dice) -> usize {
    match dice.below(10) {
        0 => dice.below(3),
        1..6 => dice.between(2, 14),
        6..9 => dice.between(10, 30),
        _ => dice.between(30, 60),
    }
}
