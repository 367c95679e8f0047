//! Records of calls on whole grids, in sequences. Two places hold a grid each;
//! a merge adds the other place's grid, a copy goes to the other place.

use super::double;
use crate::generate::{Budget, Dice, evaluation, plan, rate};
use crate::model::{
    Answer, MOST,
    grid::{Model, Point},
    number,
    plan::{AxesPlan, BinsPlan, GridPlan, read},
};
use crate::numerical_integration::{
    Grid, MonteCarloRng,
    state::{RECORD_WORDS, Record},
};
use crate::words::{bits, packed};

const PLAN: u64 = 1;
const LOAD: u64 = 2;
const DRAW: u64 = 3;
const PROBE: u64 = 4;
const TRAIN: u64 = 5;
const UPDATE: u64 = 6;
const MERGE: u64 = 7;
const IS_MERGEABLE: u64 = 8;
const COPY: u64 = 9;
const SUMMARY: u64 = 10;
const LIVE_ESTIMATE: u64 = 11;

pub(super) const ULP: f64 = f64::EPSILON / 2.0;

/// The largest plan of a sequence made by chance, so that dumps stay short.
const MOST_ROOM: usize = 24;

pub fn list(dice: &mut Dice, count: usize) -> Vec<Vec<u64>> {
    let mut records = directed();
    for _ in 0..count {
        records.extend(sequence(dice));
    }
    records
}

/// Two places, the records of what was called on them, and a stream to draw from.
struct Tape {
    places: [Option<Model>; 2],
    stream: MonteCarloRng,
    samples: u64,
    records: Vec<Vec<u64>>,
}

impl Tape {
    fn new(stream: [u64; 4]) -> Tape {
        Tape {
            places: [None, None],
            stream: MonteCarloRng::from_words(stream),
            samples: 0,
            records: Vec::new(),
        }
    }

    fn model(&mut self, place: usize) -> &mut Model {
        self.places[place].as_mut().expect("a plan was read here")
    }

    /// Opcode, place, arguments, refusal number, then the answer unless refused.
    fn record(&mut self, opcode: u64, place: usize, arguments: &[u64], answer: Answer<Vec<u64>>) {
        let mut record = vec![opcode, place as u64];
        record.extend(arguments);
        record.push(number(&answer));
        record.extend(answer.unwrap_or_default());
        self.records.push(record);
    }

    /// The whole state of a place after its number of words.
    fn dump(&mut self, place: usize) -> Vec<u64> {
        counted(&self.model(place).grid.words())
    }

    /// A plan refused gives its number and the offset of its field.
    fn plan(&mut self, place: usize, bytes: &[u8]) {
        let mut record = vec![PLAN, place as u64];
        record.extend(packed(bytes));
        match read(bytes) {
            Ok(plan) => {
                self.places[place] = Some(Model::fresh(&plan));
                record.push(0);
                record.extend(self.dump(place));
            }
            Err(refused) => record.extend([refused.refusal as u64, refused.at as u64]),
        }
        self.records.push(record);
    }

    /// A state given in words, well formed or not.
    fn load(&mut self, place: usize, words: &[u64]) {
        let plan = self.model(place).plan.clone();
        self.places[place] = Some(Model::from_words(&plan, words));
        self.record(LOAD, place, &counted(words), Ok(Vec::new()));
    }

    fn draw(&mut self, place: usize) -> Answer<Point> {
        let before = self.stream.words();
        let mut stream = self.stream.clone();
        let answer = self.model(place).draw(&mut stream);
        self.stream = stream;
        let words = answer.clone().map(|point| {
            let mut words = point_words(&point);
            words.extend(self.stream.words());
            words
        });
        self.record(DRAW, place, &before, words);
        answer
    }

    fn probe(&mut self, place: usize, path: &[usize], coordinates: &[Option<f64>]) {
        let answer = self.model(place).probe(path, coordinates);
        let mut words = path_words(path);
        words.push(coordinates.len() as u64);
        for coordinate in coordinates {
            words.push(coordinate.is_none() as u64);
            words.push(bits(coordinate.unwrap_or(0.0)));
        }
        self.record(
            PROBE,
            place,
            &words,
            answer.map(|weight| vec![bits(weight)]),
        );
    }

    fn train(&mut self, place: usize, point: &Point, eval: f64, number: u64) {
        let answer = self.model(place).train(point, eval, number);
        let mut words = point_words(point);
        words.extend([bits(eval), number]);
        let dump = self.dump(place);
        self.record(TRAIN, place, &words, answer.map(|_| dump));
    }

    fn update(&mut self, place: usize, bins_rate: f64, axes_rate: f64) {
        let answer = self.model(place).update(bins_rate, axes_rate);
        let rates = [bins_rate, axes_rate].map(bits);
        let dump = self.dump(place);
        self.record(UPDATE, place, &rates, answer.map(|_| dump));
    }

    fn merge(&mut self, place: usize) {
        let other = self.model(1 - place).clone();
        let mergeable = self.model(place).is_mergeable(&other);
        self.record(IS_MERGEABLE, place, &[], mergeable.map(|_| Vec::new()));
        let answer = self.model(place).merge(&other);
        let dump = self.dump(place);
        self.record(MERGE, place, &[], answer.map(|_| dump));
    }

    fn copy(&mut self, place: usize) {
        let answer = self.model(place).clone_without_samples();
        let words = answer.as_ref().map(|copy| counted(&copy.grid.words()));
        self.record(COPY, place, &[], words.map_err(|&refusal| refusal));
        if let Ok(copy) = answer {
            self.places[1 - place] = Some(copy);
        }
    }

    fn summary(&mut self, place: usize) {
        let answer = self.model(place).summary();
        self.record(
            SUMMARY,
            place,
            &[],
            answer.map(|summary| summary.words().to_vec()),
        );
    }

    fn live_estimate(&mut self, place: usize, path: &[usize]) {
        let answer = self.model(place).live_estimate(path);
        let words = answer.map(|estimate| estimate.map(bits).to_vec());
        self.record(LIVE_ESTIMATE, place, &path_words(path), words);
    }

    /// Draws, and trains what was drawn with an evaluation.
    fn sample(&mut self, place: usize, eval: f64) {
        if let Ok(point) = self.draw(place) {
            self.samples += 1;
            self.train(place, &point, eval, self.samples);
        }
    }
}

fn counted(words: &[u64]) -> Vec<u64> {
    let mut counted = vec![words.len() as u64];
    counted.extend(words);
    counted
}

fn path_words(path: &[usize]) -> Vec<u64> {
    let words: Vec<u64> = path.iter().map(|&index| index as u64).collect();
    counted(&words)
}

/// Path, weights and coordinates, each after its number.
fn point_words(point: &Point) -> Vec<u64> {
    let reals = |values: &[f64]| counted(&values.iter().map(|&x| bits(x)).collect::<Vec<_>>());
    [
        path_words(&point.path),
        reals(&point.weights),
        reals(&point.coordinates),
    ]
    .concat()
}

pub(super) fn one_axis(bins: usize, evolution: &[usize], floor: f64) -> GridPlan {
    GridPlan::Axes(AxesPlan {
        axes: 1,
        bins,
        least: 0,
        on_average: false,
        floor,
        evolution: evolution.to_vec(),
    })
}

pub(super) fn bins_grid(children: Vec<Option<GridPlan>>, ratio: f64, on_average: bool) -> GridPlan {
    GridPlan::Bins(BinsPlan {
        ratio,
        on_average,
        children,
    })
}

pub(super) fn at(x: f64) -> Point {
    Point {
        path: Vec::new(),
        weights: vec![1.0],
        coordinates: vec![x],
    }
}

pub(super) fn in_bin(index: usize, weight: f64) -> Point {
    Point {
        path: vec![index],
        weights: vec![weight],
        coordinates: Vec::new(),
    }
}

/// Where the root's waiting samples and its iterations stand in a dump.
pub(super) const SAMPLES: usize = 12;
pub(super) const ITERATIONS: usize = 14;

/// Where the edges of an axes root of one axis begin in its dump.
pub(super) const ROOT_EDGES: usize = RECORD_WORDS + 2;

/// A fresh tape with a plan at place 0 and its words.
fn begun(plan: &GridPlan) -> (Tape, Vec<u64>) {
    let mut tape = Tape::new([1, 2, 3, 4]);
    tape.plan(0, &plan.bytes());
    let words = tape.model(0).grid.words();
    (tape, words)
}

fn put(words: &mut [u64], at: usize, values: &[f64]) {
    for (i, &value) in values.iter().enumerate() {
        words[at + i] = bits(value);
    }
}

fn directed() -> Vec<Vec<u64>> {
    let mut records = Vec::new();
    for case in [
        moved_edges,
        edge_above_1,
        infinite_last_edge,
        small_weight_under_floor,
        minus_zeros,
        undefined_error,
        eight_beside_nine,
        infinite_weight,
        two_thirds,
        past_the_last_sum,
        paths,
        merges,
        bins_not_of_the_plan,
        overflows,
        ill_formed,
    ] {
        records.extend(case());
    }
    records
}

/// With nothing trained, an edge moves by an ulp; with a closer neighbour it is 9.
fn moved_edges() -> Vec<Vec<u64>> {
    let (a, b) = (1.5 * ULP, 0.5 + 3.0 * ULP);
    let (mut tape, mut words) = begun(&one_axis(3, &[], 0.0));
    put(&mut words, ROOT_EDGES, &[0.0, a, b, 1.0]);
    tape.load(0, &words);
    tape.update(0, 1.0, 1.0);
    let (mut crowded, mut words) = begun(&one_axis(4, &[], 0.0));
    put(&mut words, ROOT_EDGES, &[0.0, a, b, b.next_up(), 1.0]);
    crowded.load(0, &words);
    crowded.update(0, 1.0, 1.0);
    [tape.records, crowded.records].concat()
}

fn edge_above_1() -> Vec<Vec<u64>> {
    let (mut tape, _) = begun(&one_axis(5, &[5, 2], 0.0));
    let light = f64::from_bits(0x3d64000000000000);
    tape.train(0, &at(0.0), 1.0, 1);
    tape.train(0, &at(1.0), 1.0, 2);
    tape.update(0, 10.0, 10.0);
    tape.train(0, &at(0.0), 1.0, 3);
    tape.train(0, &at(1.0), 1.0, 4);
    tape.train(0, &at(0.5), light, 5);
    tape.update(0, 10.0, 10.0);
    tape.records
}

fn infinite_last_edge() -> Vec<Vec<u64>> {
    let (mut tape, mut words) = begun(&one_axis(4, &[25], 0.0));
    put(&mut words, ROOT_EDGES + 5, &[1.0]);
    tape.load(0, &words);
    tape.update(0, 1.0, 1.0);
    tape.records
}

fn small_weight_under_floor() -> Vec<Vec<u64>> {
    let mut records = Vec::new();
    for floor in [0.5, f64::from_bits(1)] {
        let (mut tape, mut words) = begun(&one_axis(2, &[], floor));
        put(&mut words, ROOT_EDGES + 1, &[5e-321]);
        tape.load(0, &words);
        tape.probe(0, &[], &[Some(0.0)]);
        tape.probe(0, &[], &[Some(0.3)]);
        let _ = tape.draw(0);
        records.extend(tape.records);
    }
    records
}

fn minus_zeros() -> Vec<Vec<u64>> {
    let (mut tape, mut words) = begun(&one_axis(2, &[], -0.0));
    let _ = tape.draw(0);
    tape.train(0, &at(-0.0), -0.0, 1);
    tape.train(0, &at(0.7), 1.0, 2);
    tape.copy(0);
    tape.merge(1);
    tape.update(0, 0.0, -0.0);
    put(&mut words, ROOT_EDGES, &[-0.0]);
    tape.load(0, &words);
    tape.probe(0, &[], &[Some(-0.0)]);
    tape.merge(1);
    tape.records
}

fn undefined_error() -> Vec<Vec<u64>> {
    let (mut tape, _) = begun(&bins_grid(vec![None, None], 10.0, false));
    for (index, eval) in [(0, 0.1), (0, 0.1), (0, 0.1), (1, 1.0), (1, 2.0)] {
        tape.train(0, &in_bin(index, 2.0), eval, 1);
    }
    tape.update(0, 1.0, 1.0);
    tape.update(0, 0.0, 1.0);
    tape.records
}

/// One child whose re-cut is 9; then another whose gathering overflows, too.
fn eight_beside_nine() -> Vec<Vec<u64>> {
    let children = vec![Some(one_axis(4, &[], 0.0)), Some(one_axis(1, &[], 0.0))];
    let (mut tape, mut words) = begun(&bins_grid(children, 10.0, false));
    let (a, b) = (1.5 * ULP, 0.5 + 3.0 * ULP);
    let edges = 3 * RECORD_WORDS + 2 + ROOT_EDGES;
    put(&mut words, edges, &[0.0, a, b, b.next_up(), 1.0]);
    tape.load(0, &words);
    tape.update(0, 0.0, 1.0);
    let importance = edges + 5 + 8 * 4 + ROOT_EDGES + 2;
    put(&mut words, importance, &[1.7e308]);
    put(&mut words, importance + 3, &[1.7e308]);
    tape.load(0, &words);
    tape.update(0, 0.0, 1.0);
    tape.update(0, 0.0, 0.0);
    tape.records
}

fn infinite_weight() -> Vec<Vec<u64>> {
    let (mut tape, _) = begun(&bins_grid(vec![None; 3], 1e308, true));
    for (index, eval) in [(0, 0.0), (0, 0.0), (1, 1.0), (1, 1.0), (2, 1.0), (2, 1.0)] {
        tape.train(0, &in_bin(index, 3.0), eval, 1);
    }
    tape.update(0, 1.0, 1.0);
    tape.probe(0, &[0], &[]);
    tape.stream = MonteCarloRng::from_words([0; 4]);
    if let Ok(point) = tape.draw(0) {
        tape.train(0, &point, 1.0, 7);
    }
    tape.records
}

fn two_thirds() -> Vec<Vec<u64>> {
    let (mut tape, mut words) = begun(&one_axis(2, &[], 0.5));
    put(&mut words, ROOT_EDGES + 1, &[0.25]);
    tape.load(0, &words);
    tape.probe(0, &[], &[Some(0.25)]);
    tape.records
}

/// Seven fresh bins and a stream whose next draw is the last: the last bin.
fn past_the_last_sum() -> Vec<Vec<u64>> {
    let (mut tape, _) = begun(&bins_grid(vec![None; 7], 10.0, false));
    let seed = crate::generate::seed_for_first_word(u64::MAX);
    tape.stream = MonteCarloRng::new(seed, 0);
    let _ = tape.draw(0);
    let (mut four, _) = begun(&bins_grid(vec![None; 4], 10.0, false));
    for draw in [1u64 << 62, (1 << 62) + (1 << 11)] {
        let seed = crate::generate::seed_for_first_word(draw);
        four.stream = MonteCarloRng::new(seed, 0);
        let _ = four.draw(0);
    }
    [tape.records, four.records].concat()
}

/// 6 and 4 along paths, the number of coordinates, then 5, then 7.
fn paths() -> Vec<Vec<u64>> {
    let inner = bins_grid(vec![None, Some(one_axis(2, &[], 0.0))], 2.0, false);
    let children = vec![None, Some(inner), Some(one_axis(2, &[], 0.5))];
    let (mut tape, _) = begun(&bins_grid(children, 2.0, false));
    let nan = Some(f64::NAN);
    let paths: [&[usize]; 13] = [
        &[],
        &[0],
        &[1],
        &[2],
        &[3],
        &[0, 9],
        &[1, 7],
        &[1, 0],
        &[1, 1],
        &[2, 0],
        &[1, 1, 0],
        &[1, 1, 0, 0, 0],
        &[1, 0, 0],
    ];
    let coordinates: [&[Option<f64>]; 6] = [
        &[],
        &[None],
        &[Some(0.5)],
        &[nan],
        &[nan, None],
        &[Some(1.0), nan],
    ];
    for path in paths {
        for coordinates in coordinates {
            tape.probe(0, path, coordinates);
            let given: Option<Vec<f64>> = coordinates.iter().copied().collect();
            if let Some(given) = given {
                let levels = path.len() + !given.is_empty() as usize;
                let point = Point {
                    path: path.to_vec(),
                    weights: vec![1.5; levels],
                    coordinates: given,
                };
                tape.train(0, &point, f64::NAN, 1);
                tape.train(0, &point, 1.0, 0);
                tape.train(0, &point, 1.0, 2);
            }
        }
        tape.live_estimate(0, path);
    }
    tape.records
}

/// Shapes before numbers, and plans that differ in nothing that is compared.
fn merges() -> Vec<Vec<u64>> {
    let mut tape = Tape::new([1, 2, 3, 4]);
    let two = |child, ratio| bins_grid(vec![None, child], ratio, true);
    tape.plan(0, &two(None, 10.0).bytes());
    for (index, eval) in [(0, 3.0), (0, 3.0), (1, 1.0), (1, 1.0)] {
        tape.train(0, &in_bin(index, 2.0), eval, 1);
    }
    tape.plan(1, &two(None, 2.0).bytes());
    tape.merge(1);
    tape.update(0, 1.0, 1.0);
    tape.merge(0);
    tape.plan(1, &two(Some(one_axis(2, &[], 0.0)), 10.0).bytes());
    tape.merge(0);
    tape.plan(0, &one_axis(4, &[2], 0.0).bytes());
    tape.update(0, 1.0, 1.0);
    tape.plan(1, &one_axis(2, &[], 0.0).bytes());
    tape.merge(0);
    tape.plan(1, &one_axis(2, &[], 0.5).bytes());
    tape.merge(0);
    tape.plan(1, &one_axis(3, &[], 0.0).bytes());
    tape.merge(0);
    tape.records
}

/// Three bins held where the plan knows four and two.
fn bins_not_of_the_plan() -> Vec<Vec<u64>> {
    let (mut tape, _) = begun(&one_axis(4, &[2], 0.0));
    let three = Model::fresh(&one_axis(3, &[], 0.0)).grid.words();
    tape.load(0, &three);
    tape.summary(0);
    tape.probe(0, &[], &[Some(0.5)]);
    let two = Model::fresh(&one_axis(2, &[], 0.0)).grid.words();
    tape.load(0, &two);
    tape.probe(0, &[], &[Some(0.5)]);
    tape.records
}

/// A merge of sums and of counts past their ends, and a last iteration.
fn overflows() -> Vec<Vec<u64>> {
    let plan = one_axis(1, &[], 0.0);
    let (mut tape, mut words) = begun(&plan);
    tape.plan(1, &plan.bytes());
    tape.train(0, &at(0.5), 1.2e154, 1);
    tape.train(0, &at(0.5), 1.2e154, 2);
    tape.train(1, &at(0.5), 1.2e154, 1);
    tape.merge(0);
    words[SAMPLES] = MOST;
    tape.load(0, &words);
    tape.merge(0);
    tape.train(0, &at(0.5), 1.0, 2);
    words[SAMPLES] = 0;
    words[ITERATIONS] = MOST;
    tape.load(0, &words);
    tape.summary(0);
    tape.live_estimate(0, &[]);
    tape.update(0, 0.0, 0.0);
    tape.records
}

/// Every call on a grid whose sum is not finite.
fn ill_formed() -> Vec<Vec<u64>> {
    let plan = bins_grid(vec![None, Some(one_axis(2, &[], 0.0))], 2.0, true);
    let (mut tape, mut words) = begun(&plan);
    tape.plan(1, &plan.bytes());
    put(&mut words, 0, &[f64::INFINITY]);
    tape.load(0, &words);
    let _ = tape.draw(0);
    tape.probe(0, &[9], &[]);
    tape.train(0, &in_bin(9, f64::NAN), f64::NAN, 0);
    tape.update(0, 11.0, 11.0);
    tape.merge(0);
    tape.merge(1);
    tape.copy(0);
    tape.summary(0);
    tape.live_estimate(0, &[9]);
    tape.records
}

/// Calls of every kind on a plan made by chance.
fn sequence(dice: &mut Dice) -> Vec<Vec<u64>> {
    let mut tape = Tape::new([0; 4].map(|_: u64| dice.word()));
    let plan = small_plan(dice);
    for place in [0, 1] {
        tape.plan(place, &plan.bytes());
    }
    if dice.chance(1, 4) {
        let mut bytes = plan.bytes();
        let at = dice.below(bytes.len());
        bytes[at] ^= 1 << dice.below(8);
        if read(&bytes).is_err() {
            tape.plan(0, &bytes);
        }
    }
    for _ in 0..dice.between(10, 40) {
        let place = dice.chance(1, 4) as usize;
        call(dice, &mut tape, place);
    }
    tape.records
}

fn small_plan(dice: &mut Dice) -> GridPlan {
    loop {
        let plan = plan(dice, Budget::Room);
        if plan.room() <= MOST_ROOM {
            return plan;
        }
    }
}

fn call(dice: &mut Dice, tape: &mut Tape, place: usize) {
    match dice.below(40) {
        0..20 => {
            let eval = evaluation(dice);
            tape.sample(place, eval);
        }
        20..23 => {
            let point = drawn_point(tape, place);
            let point = changed(dice, point);
            let eval = if dice.chance(1, 6) {
                double(dice)
            } else {
                evaluation(dice)
            };
            let number = dice.pick(&[1, 2, MOST, 7, 0, MOST + 1]);
            tape.train(place, &point, eval, number);
        }
        23..28 => {
            let point = drawn_point(tape, place);
            let point = if dice.chance(1, 2) {
                changed(dice, point)
            } else {
                point
            };
            let open = |dice: &mut Dice, x| if dice.chance(1, 4) { None } else { Some(x) };
            let coordinates: Vec<_> = point.coordinates.iter().map(|&x| open(dice, x)).collect();
            tape.probe(place, &point.path, &coordinates);
        }
        28..33 => {
            let bad = dice.chance(1, 12);
            let (bins_rate, axes_rate) = (rate(dice), if bad { double(dice) } else { rate(dice) });
            tape.update(place, bins_rate, axes_rate);
        }
        33 => tape.merge(place),
        34 => tape.copy(place),
        35 => tape.summary(place),
        36 => {
            let point = drawn_point(tape, place);
            let levels = dice.between(0, point.path.len());
            tape.live_estimate(place, &point.path[..levels]);
        }
        37 => tape.live_estimate(place, &[]),
        _ => lend(dice, tape, place),
    }
}

/// A point that a draw would give, without a record of it.
fn drawn_point(tape: &mut Tape, place: usize) -> Point {
    let mut stream = tape.stream.clone();
    tape.model(place).draw(&mut stream).unwrap_or_default()
}

/// A point changed in one thing, so that it may no longer fit.
pub(super) fn changed(dice: &mut Dice, mut point: Point) -> Point {
    match dice.below(7) {
        0 if !point.path.is_empty() => {
            let level = dice.below(point.path.len());
            point.path[level] = dice.pick(&[0, 1, 2, 255, usize::MAX]);
        }
        1 if point.path.len() < 5 => {
            point.path.push(dice.below(2));
            point.weights.push(1.0);
        }
        2 if !point.path.is_empty() => {
            point.path.pop();
            point.weights.pop();
        }
        3 if !point.coordinates.is_empty() => {
            let axis = dice.below(point.coordinates.len());
            point.coordinates[axis] = double(dice);
        }
        4 if !point.weights.is_empty() => {
            let level = dice.below(point.weights.len());
            point.weights[level] = double(dice);
        }
        5 if point.coordinates.len() > 1 => {
            point.coordinates.pop();
        }
        6 if !point.coordinates.is_empty() && point.coordinates.len() < 8 => {
            point.coordinates.push(0.5);
        }
        _ => {}
    }
    point
}

/// The state with one word replaced, and at once calls that judge it. A word that
/// says how long a stretch is stays as it is.
fn lend(dice: &mut Dice, tape: &mut Tape, place: usize) {
    let before = tape.model(place).grid.words();
    let kinds = kinds(&tape.model(place).grid);
    let mut words = before.clone();
    let at = dice.below(words.len());
    match kinds[at] {
        Kind::Real => words[at] = bits(double(dice)),
        Kind::Count => words[at] = dice.pick(&[0, 1, 2, MOST - 1, MOST, MOST + 1, u64::MAX]),
        Kind::Length => {}
    }
    tape.load(place, &words);
    tape.summary(place);
    let _ = tape.draw(place);
    tape.merge(1 - place);
    tape.update(place, 1.0, 1.0);
    tape.load(place, &before);
}

/// What a word of a dump is.
#[derive(Clone, Copy)]
enum Kind {
    Real,
    Count,
    Length,
}

fn record_kinds() -> Vec<Kind> {
    let kind = |at| {
        if Record::is_count(at) {
            Kind::Count
        } else {
            Kind::Real
        }
    };
    (0..RECORD_WORDS).map(kind).collect()
}

/// The kinds of a dump's words, in its order.
fn kinds(grid: &Grid<f64>) -> Vec<Kind> {
    let mut kinds = record_kinds();
    match grid {
        Grid::Continuous(grid) | Grid::Uniform(_, grid) => {
            for axis in &grid.continuous_dimensions {
                let held = axis.partitioning.len() - 1;
                kinds.extend([Kind::Length, Kind::Count]);
                kinds.extend(vec![Kind::Real; 2 * held + 1]);
                kinds.extend(vec![Kind::Count; held]);
                for _ in 0..held {
                    kinds.extend([Kind::Real; 2]);
                    kinds.extend([Kind::Count; 2]);
                    kinds.extend([Kind::Real; 2]);
                }
            }
        }
        Grid::Discrete(grid) => {
            kinds.extend(vec![Kind::Real; grid.bins.len()]);
            kinds.extend(vec![record_kinds(); grid.bins.len()].concat());
            for child in grid.bins.iter().filter_map(|bin| bin.sub_grid.as_ref()) {
                kinds.extend(self::kinds(child));
            }
        }
    }
    kinds
}
