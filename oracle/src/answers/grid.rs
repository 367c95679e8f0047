//! Records of a plan and of calls on its grid: the plan's bytes, a stream, then
//! call after call, each behind its number of words.

use super::histories;
use super::lent::{Lent, Slot, slots};
use super::tree::changed;
use crate::generate::{Budget, Dice, plan};
use crate::model::{
    Answer,
    grid::{Model, Point},
    number,
    plan::GridPlan,
};
use crate::numerical_integration::MonteCarloRng;
use crate::words::{bits, packed};

const DRAW: u64 = 1;
const PROBE: u64 = 2;
const SUMMARY: u64 = 3;
const LIVE_ESTIMATE: u64 = 4;
const LIVE_ESTIMATE_OF_BIN: u64 = 5;
const TRAIN: u64 = 6;
const UPDATE: u64 = 7;
const COPY: u64 = 8;
const IS_MERGEABLE: u64 = 9;
const MERGE: u64 = 10;
const PUT: u64 = 11;
const SAMPLE: u64 = 12;

/// What the structs of a sample and of a probe have room for.
const LEVELS: usize = 4;
const WEIGHTS: usize = 5;
const AXES: usize = 8;

/// The largest plan, in bins, so that the program's room suffices.
const MOST_ROOM: usize = 2048;

pub fn list(dice: &mut Dice, count: usize) -> Vec<Vec<u64>> {
    let mut records = histories::directed();
    records.extend((0..count).map(|_| record(dice)));
    records
}

/// The words of one plan's calls. Its grid and another, once there is one, lie in
/// lent memory.
pub(super) struct Tape {
    pub model: Model,
    pub other: Option<Model>,
    lent: Lent,
    other_lent: Lent,
    pub stream: MonteCarloRng,
    pub samples: u64,
    words: Vec<u64>,
}

impl Tape {
    pub fn new(plan: &GridPlan, state: [u64; 4]) -> Tape {
        let model = Model::fresh(plan);
        let mut words = packed(&plan.bytes());
        words.extend(state);
        Tape {
            lent: Lent::of(&model),
            other_lent: Lent::default(),
            model,
            other: None,
            stream: MonteCarloRng::from_words(state),
            samples: 0,
            words,
        }
    }

    /// How many words there are by now.
    pub fn size(&self) -> usize {
        self.words.len()
    }

    pub fn record(self) -> Vec<u64> {
        let mut record = vec![self.words.len() as u64];
        record.extend(self.words);
        record
    }

    /// How many words follow, opcode, arguments, refusal number, then the answer
    /// unless refused.
    fn call(&mut self, opcode: u64, arguments: &[u64], answer: Answer<Vec<u64>>) {
        let mut call = vec![opcode];
        call.extend(arguments);
        call.push(number(&answer));
        call.extend(answer.unwrap_or_default());
        self.words.push(call.len() as u64);
        self.words.extend(call);
    }

    /// A call that may write: behind its number stands the mark of the memory after it.
    fn writing(&mut self, opcode: u64, arguments: &[u64], answer: Answer<()>) {
        self.lent.lay(&self.model);
        let mut words = arguments.to_vec();
        words.extend([number(&answer), self.lent.mark()]);
        self.words.push(1 + words.len() as u64);
        self.words.push(opcode);
        self.words.extend(words);
    }

    pub fn train(&mut self, point: &Point, eval: f64, number: u64) {
        let answer = self.model.train(point, eval, number);
        let mut words = point_words(point);
        words.extend([bits(eval), number]);
        self.writing(TRAIN, &words, answer);
    }

    /// Draws, and trains what was drawn.
    pub fn sample(&mut self, eval: f64) {
        self.samples += 1;
        let number = self.samples;
        let drawn = self.model.draw(&mut self.stream);
        let answer = drawn.and_then(|point| self.model.train(&point, eval, number));
        self.writing(SAMPLE, &[bits(eval), number], answer);
    }

    pub fn update(&mut self, bins_rate: f64, axes_rate: f64) {
        let answer = self.model.update(bins_rate, axes_rate);
        self.writing(UPDATE, &[bins_rate, axes_rate].map(bits), answer);
    }

    /// One word of the state, named by its place in a dump.
    pub fn put(&mut self, at: usize, word: u64) {
        let mut words = self.model.grid.words();
        words[at] = word;
        self.model = Model::from_words(&self.model.plan, &words);
        let place = match slots(&self.model)[at] {
            Slot::Real(place) => [0, place as u64],
            Slot::Count(place) => [1, place as u64],
        };
        self.writing(PUT, &[place[0], place[1], word], Ok(()));
    }

    /// To the other memory; its mark is that of the copy.
    pub fn copy(&mut self) {
        let answer = self.model.clone_without_samples();
        let refused = number(&answer);
        if let Ok(copy) = answer {
            self.other_lent = self.lent.clone();
            self.other_lent.lay(&copy);
            self.other = Some(copy);
        }
        let mark = self.other_lent.mark_of(&self.lent);
        self.words.extend([4, COPY, 0, refused, mark]);
    }

    /// Back from the other memory.
    pub fn copy_back(&mut self) {
        let Some(other) = &self.other else { return };
        let answer = other.clone_without_samples();
        if let Ok(copy) = &answer {
            self.model = copy.clone();
            self.lent = self.other_lent.clone();
        }
        self.writing(COPY, &[1], answer.map(|_| ()));
    }

    pub fn merge(&mut self) {
        let Some(other) = self.other.clone() else {
            return;
        };
        let mergeable = self.model.is_mergeable(&other);
        self.call(IS_MERGEABLE, &[], mergeable.map(|_| Vec::new()));
        let answer = self.model.merge(&other);
        self.writing(MERGE, &[], answer);
    }

    pub fn draw(&mut self) -> Point {
        let answer = self.model.draw(&mut self.stream);
        let words = answer.clone().map(|point| {
            let mut words = point_words(&point);
            words.extend(self.stream.words());
            words
        });
        self.call(DRAW, &[], words);
        answer.unwrap_or_default()
    }

    pub fn probe(&mut self, dice: &mut Dice, point: &Point) {
        let open = |dice: &mut Dice, x| if dice.chance(1, 4) { None } else { Some(x) };
        let coordinates: Vec<_> = point.coordinates.iter().map(|&x| open(dice, x)).collect();
        self.probe_of(point, &coordinates);
    }

    fn probe_of(&mut self, point: &Point, coordinates: &[Option<f64>]) {
        let answer = self.model.probe(&point.path, coordinates);
        let marks: Vec<u64> = coordinates.iter().map(|x| x.is_none() as u64).collect();
        let mut words = path_words(&point.path);
        words.extend(fixed(&doubles(&point.coordinates), AXES));
        words.extend(&fixed(&marks, AXES)[1..]);
        self.call(PROBE, &words, answer.map(|weight| vec![bits(weight)]));
    }

    /// All of a point's coordinates given.
    pub fn probe_at(&mut self, point: &Point) {
        let given: Vec<_> = point.coordinates.iter().copied().map(Some).collect();
        self.probe_of(point, &given);
    }

    pub fn summary(&mut self) {
        let answer = self.model.summary();
        self.call(SUMMARY, &[], answer.map(|s| s.words().to_vec()));
    }

    pub fn live_estimate(&mut self) {
        let answer = self.model.live_estimate(&[]);
        self.call(LIVE_ESTIMATE, &[], answer.map(|e| doubles(&e)));
    }

    pub fn live_estimate_of_bin(&mut self, path: &[usize]) {
        let answer = self.model.live_estimate(path);
        self.call(
            LIVE_ESTIMATE_OF_BIN,
            &path_words(path),
            answer.map(|e| doubles(&e)),
        );
    }
}

fn doubles(values: &[f64]) -> Vec<u64> {
    values.iter().map(|&x| bits(x)).collect()
}

/// How many words there are, then as many as a struct has room for, zeros behind them.
fn fixed(words: &[u64], room: usize) -> Vec<u64> {
    let mut all = vec![words.len() as u64];
    all.extend(words);
    all.resize(1 + room, 0);
    all
}

fn path_words(path: &[usize]) -> Vec<u64> {
    let words: Vec<u64> = path.iter().map(|&index| index as u64).collect();
    fixed(&words, LEVELS)
}

fn point_words(point: &Point) -> Vec<u64> {
    let mut words = path_words(&point.path);
    words.extend(fixed(&doubles(&point.weights), WEIGHTS));
    words.extend(fixed(&doubles(&point.coordinates), AXES));
    words
}

fn record(dice: &mut Dice) -> Vec<u64> {
    let plan = plan_with_room(dice);
    let mut tape = Tape::new(&plan, [0; 4].map(|_| dice.word()));
    calls(dice, &mut tape);
    histories::history(dice, &mut tape);
    tape.record()
}

fn plan_with_room(dice: &mut Dice) -> GridPlan {
    loop {
        let budget = dice.pick(&[Budget::Room, Budget::Room, Budget::Any]);
        let plan = plan(dice, budget);
        if plan.room() <= MOST_ROOM {
            return plan;
        }
    }
}

/// Draws, a probe of each point drawn and one of a point changed; then the rest.
fn calls(dice: &mut Dice, tape: &mut Tape) {
    for _ in 0..2 {
        let point = tape.draw();
        tape.probe(dice, &point);
        let other = changed(dice, point.clone());
        tape.probe(dice, &other);
        let levels = dice.between(0, other.path.len());
        if 0 < levels {
            tape.live_estimate_of_bin(&other.path[..levels]);
        }
    }
    tape.summary();
    tape.live_estimate();
}
