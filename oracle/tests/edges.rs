//! Cases at the edges of numbers and states, each with the value it must give.

#[allow(dead_code)]
mod common;

use common::{axis, bins_grid, one_axis, stream_drawing};
use oracle::generate::unreached_sizes;
use oracle::model::{
    MOST, Refusal, accumulator,
    axis::{probe, train, update},
    grid::{Model, Point},
    plan::{AxesPlan, GridPlan},
};
use oracle::numerical_integration::{
    ContinuousGrid, Grid, MonteCarloRng,
    state::{AxisState, RECORD_WORDS, Record},
};

const ULP: f64 = f64::EPSILON / 2.0;

fn fresh(plan: &AxesPlan) -> AxisState {
    plan.fresh().continuous_dimensions[0].state()
}

fn add(record: &Record, samples: &[f64]) -> Record {
    let add = |record: Record, &eval: &f64| accumulator::add_sample(&record, eval, 1).unwrap();
    samples.iter().fold(*record, add)
}

fn step(record: &Record) -> Record {
    accumulator::update_iter(record, false).unwrap().1
}

fn bin(index: usize, weight: f64) -> Point {
    Point {
        path: vec![index],
        weights: vec![weight],
        coordinates: Vec::new(),
    }
}

fn probabilities(model: &Model) -> Vec<f64> {
    let Grid::Discrete(grid) = &model.grid else {
        panic!("a bins grid")
    };
    grid.bins.iter().map(|bin| bin.pdf).collect()
}

fn edges(model: &Model) -> Vec<f64> {
    let Grid::Continuous(grid) = &model.grid else {
        panic!("an axes grid")
    };
    grid.continuous_dimensions[0].partitioning.clone()
}

/// Two bins, trained with evaluations of which each counts as it is.
fn two_bins(on_average: bool, ratio: f64, samples: &[(usize, f64)]) -> Model {
    let mut model = Model::fresh(&bins_grid(vec![None, None], ratio, on_average));
    for &(index, eval) in samples {
        model.train(&bin(index, 2.0), eval, 1).unwrap();
    }
    model
}

/// The document's bits of a state, with one word replaced.
fn with_word(model: &Model, at: usize, word: u64) -> Model {
    let mut words = model.grid.words();
    words[at] = word;
    Model::from_words(&model.plan, &words)
}

#[test]
fn an_undefined_error_makes_a_bins_update_bad() {
    let samples = [(0, 0.1), (0, 0.1), (0, 0.1), (1, 1.0), (1, 2.0)];
    let mut model = two_bins(false, 10.0, &samples);
    let before = model.grid.words();
    assert_eq!(model.update(1.0, 1.0), Err(Refusal::BadUpdate));
    assert_eq!(model.grid.words(), before);
    let samples = [(0, 1e-200), (0, 1e-200), (1, 0.0), (1, 0.0)];
    let mut model = two_bins(true, 1e200, &samples);
    assert_eq!(model.update(1.0, 1.0), Err(Refusal::BadUpdate));
}

#[test]
fn overflow_anywhere_comes_before_a_bad_update_anywhere() {
    let narrow = AxesPlan {
        evolution: vec![4],
        ..one_axis(4)
    };
    let plan = bins_grid(
        vec![
            Some(GridPlan::Axes(narrow.clone())),
            Some(GridPlan::Axes(one_axis(1))),
        ],
        10.0,
        false,
    );
    let fresh = Model::fresh(&plan);
    let mut words = fresh.grid.words();
    // Own record, two probabilities, two records; then the first child's own record,
    // its bins held and its re-cuts.
    let at = RECORD_WORDS + 2 + 2 * RECORD_WORDS + RECORD_WORDS + 2;
    let (a, b) = (1.5 * ULP, 0.5 + 3.0 * ULP);
    for (i, edge) in [0.0, a, b, b.next_up(), 1.0].into_iter().enumerate() {
        words[at + i] = edge.to_bits();
    }
    let mut model = Model::from_words(&plan, &words);
    assert_eq!(model.update(0.0, 1.0), Err(Refusal::BadUpdate));
    // The second child's only importance and what waits beside it.
    let child = at + 5 + 4 + 4 + 24 + RECORD_WORDS + 2 + 2;
    words[child] = 1.7e308f64.to_bits();
    words[child + 3] = 1.7e308f64.to_bits();
    let mut model = Model::from_words(&plan, &words);
    assert_eq!(model.update(0.0, 1.0), Err(Refusal::Overflow));
    assert_eq!(model.grid.words(), words);
}

#[test]
fn a_gathered_overflow_is_refused_at_rate_0_too() {
    let plan = one_axis(1);
    let mut state = fresh(&plan);
    state.importances[0] = 1.7e308;
    state.records[0].sum_sq = 1.7e308;
    assert_eq!(update(&state, &plan, 0.0).unwrap_err(), Refusal::Overflow);
}

#[test]
fn a_live_estimate_that_would_overflow_is_refused() {
    let record = Record {
        sum: 1e308,
        total_sum: 1e308,
        sum_sq: 1e300,
        total_sum_sq: 1e300,
        new_samples: 2,
        processed_samples: 2,
        ..Record::default()
    };
    assert_eq!(accumulator::live_estimate(&record), Err(Refusal::Overflow));
    let last = Record {
        cur_iter: MOST,
        ..Record::default()
    };
    assert_eq!(accumulator::live_estimate(&last), Err(Refusal::Overflow));
    assert_eq!(
        accumulator::update_iter(&last, false).unwrap_err(),
        Refusal::Overflow
    );
}

#[test]
fn accumulator_refusals() {
    let fresh = Record::default();
    assert!(accumulator::add_sample(&fresh, 1.0, 0).is_ok());
    let refused = |eval, number| accumulator::add_sample(&fresh, eval, number).unwrap_err();
    assert_eq!(refused(f64::NAN, MOST + 1), Refusal::Range);
    assert_eq!(refused(f64::NAN, 1), Refusal::NotFinite);
    assert_eq!(refused(1e200, 1), Refusal::Overflow);
    let bad = Record {
        sum: f64::NAN,
        ..fresh
    };
    assert_eq!(accumulator::summary(&bad).unwrap_err(), Refusal::IllFormed);
    assert_eq!(
        accumulator::merge_samples_no_reset(&fresh, &bad).unwrap_err(),
        Refusal::IllFormed
    );
    assert!(accumulator::summary(&fresh).unwrap().flat);
}

#[test]
fn a_weight_may_be_infinite_but_not_trained() {
    let plan = bins_grid(vec![None; 3], 1e308, true);
    let mut model = Model::fresh(&plan);
    for index in [0, 1, 2] {
        for _ in 0..2 {
            let eval = if index == 0 { 0.0 } else { 1.0 };
            model.train(&bin(index, 3.0), eval, 1).unwrap();
        }
    }
    model.update(1.0, 1.0).unwrap();
    assert_eq!(model.probe(&[0], &[]), Ok(f64::INFINITY));
    let point = model.draw(&mut stream_drawing(0.0)).unwrap();
    assert_eq!(point.weights, [f64::INFINITY]);
    assert_eq!(model.train(&point, 1.0, 1), Err(Refusal::NotFinite));
}

#[test]
fn an_error_may_be_minus_zero() {
    let record = step(&add(&Record::default(), &[1e-200, 1e-200]));
    assert_eq!(record.err.to_bits(), 1 << 63);
    assert!(accumulator::summary(&record).unwrap().flat);
}

#[test]
fn shapes_come_before_numbers_in_a_merge() {
    let one = two_bins(true, 10.0, &[(0, 3.0), (0, 3.0), (1, 1.0), (1, 1.0)]);
    let mut updated = one.clone();
    updated.update(1.0, 1.0).unwrap();
    assert_eq!(updated.is_mergeable(&one), Err(Refusal::Unequal));
    let child = Some(GridPlan::Axes(one_axis(2)));
    let other = Model::fresh(&bins_grid(vec![None, child], 10.0, true));
    assert_eq!(updated.is_mergeable(&other), Err(Refusal::Form));
}

#[test]
fn a_merge_compares_nothing_else_of_the_plan() {
    let mut one = Model::fresh(&bins_grid(vec![None, None], 2.0, true));
    assert_eq!(one.merge(&two_bins(false, 10.0, &[(0, 1.0)])), Ok(()));
    let evolved = AxesPlan {
        evolution: vec![2],
        ..one_axis(4)
    };
    let mut evolved = Model::fresh(&GridPlan::Axes(evolved));
    evolved.update(1.0, 1.0).unwrap();
    assert_eq!(edges(&evolved), [0.0, 0.5, 1.0]);
    let plain = Model::fresh(&GridPlan::Axes(one_axis(2)));
    assert_eq!(evolved.merge(&plain), Ok(()));
}

#[test]
fn paths_are_judged_level_by_level() {
    let inner = bins_grid(vec![None, None], 2.0, false);
    let axes = GridPlan::Axes(one_axis(2));
    let mut model = Model::fresh(&bins_grid(vec![None, Some(inner), Some(axes)], 2.0, false));
    let open: [Option<f64>; 1] = [None];
    let bad = [Some(f64::NAN)];
    assert_eq!(model.probe(&[], &[]), Err(Refusal::Form));
    assert_eq!(model.probe(&[3], &[]), Err(Refusal::Index));
    assert_eq!(model.probe(&[0, 9], &[]), Err(Refusal::Form));
    assert_eq!(model.probe(&[1, 7], &bad), Err(Refusal::Index));
    assert_eq!(model.probe(&[2, 0], &[]), Err(Refusal::Form));
    assert_eq!(model.probe(&[1, 1, 0, 0, 0], &[]), Err(Refusal::Form));
    assert_eq!(model.probe(&[0], &open), Err(Refusal::Form));
    assert_eq!(model.probe(&[1], &open), Err(Refusal::Form));
    assert_eq!(model.probe(&[2], &[None, None]), Err(Refusal::Form));
    assert_eq!(model.probe(&[2], &bad), Err(Refusal::Coordinate));
    assert_eq!(model.probe(&[2], &[]), model.probe(&[2], &open));
    assert_eq!(model.train(&bin(2, 3.0), 1.0, 1), Err(Refusal::Form));
    assert_eq!(model.train(&bin(1, 3.0), 1.0, 1), Err(Refusal::Form));
    assert_eq!(model.train(&bin(9, 3.0), f64::NAN, 0), Err(Refusal::Range));
    assert_eq!(model.train(&bin(9, 3.0), f64::NAN, 1), Err(Refusal::Index));
    assert_eq!(
        model.train(&bin(0, 3.0), 1.0, MOST + 1),
        Err(Refusal::Range)
    );
    let extra = Point {
        coordinates: vec![0.5],
        weights: vec![3.0, 1.0],
        ..bin(0, 3.0)
    };
    assert_eq!(model.train(&extra, 1.0, 1), Err(Refusal::Form));
    let axes_root = Model::fresh(&GridPlan::Axes(one_axis(2)));
    assert_eq!(axes_root.probe(&[0], &open), Err(Refusal::Form));
    assert_eq!(axes_root.probe(&[], &[]), Err(Refusal::Form));
    assert_eq!(axes_root.probe(&[], &open), Ok(1.0));
}

#[test]
fn both_rates_are_judged() {
    let mut model = Model::fresh(&GridPlan::Axes(one_axis(2)));
    assert_eq!(model.update(11.0, 1.0), Err(Refusal::Range));
    assert_eq!(model.update(1.0, f64::NAN), Err(Refusal::Range));
    assert_eq!(model.update(10.0, -0.0), Ok(()));
}

#[test]
fn an_early_return_leaves_the_own_accumulator() {
    let mut model = two_bins(false, 10.0, &[(0, 1.0), (0, 1.0)]);
    model.update(0.0, 1.0).unwrap();
    let own = model.grid.own();
    assert_eq!((own.cur_iter, own.new_samples), (0, 2));
    model.update(1.0, 1.0).unwrap();
    assert_eq!(model.grid.own().words(), own.words());
}

#[test]
fn a_stale_bin_keeps_its_estimate() {
    let samples = [(0, 1.0), (0, 2.0), (1, 1.0), (1, 3.0)];
    let mut model = two_bins(false, 10.0, &samples);
    model.update(1.0, 1.0).unwrap();
    let before = probabilities(&model);
    model.train(&bin(0, 3.0), 1.0, 5).unwrap();
    model.update(1.0, 1.0).unwrap();
    assert_eq!(probabilities(&model), before);
}

#[test]
fn a_guess_is_set_in_the_first_iteration_alone() {
    let late = step(&add(&step(&Record::default()), &[2.0, 3.0, 2.5]));
    // 30 but for rounding.
    assert_eq!((late.guess, late.chi_sum), (0.0, 29.99999999999983));
    let early = step(&add(&Record::default(), &[2.0, 3.0, 2.5]));
    assert_eq!((early.guess, early.chi_sum), (2.5, 0.0));
}

#[test]
fn extremes_in_merges_compare_values_only() {
    let fresh = Record::default();
    let five = accumulator::add_sample(&fresh, -5.0, 1).unwrap();
    assert_eq!(
        (five.max_eval_positive, five.max_eval_positive_number),
        (-5.0, 1)
    );
    let merged = accumulator::merge_samples_no_reset(&five, &fresh).unwrap();
    assert_eq!(
        (merged.max_eval_positive, merged.max_eval_positive_number),
        (0.0, 0)
    );
    let merged = accumulator::merge_samples_no_reset(&fresh, &five).unwrap();
    assert_eq!(
        (merged.max_eval_positive, merged.max_eval_positive_number),
        (0.0, 0)
    );
    assert_eq!(
        (merged.max_eval_negative, merged.max_eval_negative_number),
        (-5.0, 1)
    );
}

#[test]
fn the_size_of_a_bins_rate_has_no_influence() {
    let samples = [(0, 1.0), (0, 2.0), (1, 1.0), (1, 4.0)];
    let after = |rate| {
        let mut model = two_bins(false, 10.0, &samples);
        model.update(rate, 1.0).unwrap();
        model.grid.words()
    };
    assert_eq!(after(1e-300), after(10.0));
    assert_eq!(after(1e-300), after(0.5));
}

#[test]
fn a_total_of_zero_re_cuts_evenly() {
    let (a, b) = (1.5 * ULP, 0.5 + 3.0 * ULP);
    let plan = one_axis(3);
    let moved = update(&axis(&plan, &[0.0, a, b, 1.0]), &plan, 1.0).unwrap();
    assert_eq!(moved.edges, [0.0, a, b + ULP, 1.0]);
    assert_eq!(moved.update_counter, 1);
    let plan = one_axis(4);
    let crowded = axis(&plan, &[0.0, a, b, b.next_up(), 1.0]);
    assert_eq!(
        update(&crowded, &plan, 1.0).unwrap_err(),
        Refusal::BadUpdate
    );
}

fn trained(state: &AxisState, plan: &AxesPlan, samples: &[(f64, f64)]) -> AxisState {
    let add = |state: AxisState, &(x, eval): &(f64, f64)| train(&state, plan, x, 1.0, eval);
    samples
        .iter()
        .fold(state.clone(), |state, sample| add(state, sample).unwrap())
}

#[test]
fn an_edge_above_1_is_refused() {
    let plan = AxesPlan {
        evolution: vec![5, 2],
        ..one_axis(5)
    };
    let ends = [(0.0, 1.0), (1.0, 1.0)];
    let once = update(&trained(&fresh(&plan), &plan, &ends), &plan, 10.0).unwrap();
    let light = f64::from_bits(0x3d64000000000000);
    let twice = trained(&once, &plan, &[ends[0], ends[1], (0.5, light)]);
    assert_eq!(update(&twice, &plan, 10.0).unwrap_err(), Refusal::BadUpdate);
    let mut carried = ContinuousGrid::<f64>::new(1, 5, 0, Some(vec![5, 2]), false).unwrap();
    carried.continuous_dimensions[0] =
        oracle::numerical_integration::ContinuousDimension::from_state(&twice);
    carried.update(10.0);
    let edges = &carried.continuous_dimensions[0].partitioning;
    assert_eq!(edges[..], [0.0, 1.0502392567003311, 1.0]);
}

#[test]
fn training_at_1_runs_out_of_room() {
    let plan = one_axis(1024);
    let mut state = fresh(&plan);
    for round in 1..=5 {
        let waiting = trained(&state, &plan, &[(1.0, 1.0)]);
        match update(&waiting, &plan, 1.5) {
            Ok(after) => state = after,
            Err(refusal) => assert_eq!((round, refusal), (5, Refusal::BadUpdate)),
        }
    }
}

#[test]
fn the_unforced_last_edge_is_not_judged() {
    let plan = AxesPlan {
        evolution: vec![25],
        ..one_axis(4)
    };
    let mut state = axis(&plan, &[0.0, 0.25, 0.5, 0.75, 1.0]);
    state.importances[0] = 1.0;
    let after = update(&state, &plan, 1.0).unwrap();
    assert_eq!((after.held(), after.edges[25]), (25, 1.0));
}

#[test]
fn evolution_counts_re_cuts() {
    let plan = AxesPlan {
        evolution: vec![2, 3],
        least: 1,
        ..one_axis(4)
    };
    let mut state = fresh(&plan);
    let mut held = Vec::new();
    for (samples, rate) in [(0, 1.0), (1, 1.0), (1, 0.0), (1, 1.0), (1, 1.0)] {
        for _ in 0..samples {
            state = train(&state, &plan, 0.7, 1.0, 1.0).unwrap();
        }
        state = update(&state, &plan, rate).unwrap();
        held.push(state.held());
    }
    assert_eq!(held, [4, 2, 2, 3, 3]);
}

#[test]
fn weights_under_a_floor() {
    assert_eq!(ContinuousGrid::floored(0.5, 1e-320), 0.0);
    let least = f64::from_bits(1);
    assert_eq!(
        ContinuousGrid::floored(least, 1.2e24),
        1.1999999999999999e24
    );
    assert_eq!(ContinuousGrid::floored(0.3, 0.0), 0.0);
    assert_eq!(ContinuousGrid::floored(1.0, 0.0), 1.0);
    let mut plan = one_axis(2);
    plan.floor = 0.5;
    let mut model = Model::fresh(&GridPlan::Axes(plan));
    model = with_word(&model, RECORD_WORDS + 3, 5e-321f64.to_bits());
    assert_eq!(model.probe(&[], &[Some(0.0)]), Ok(0.0));
}

/// How many words a draw from an axes grid with a floor takes.
fn words_drawn(floor: f64) -> usize {
    let mut plan = one_axis(2);
    plan.floor = floor;
    let mut model = Model::fresh(&GridPlan::Axes(plan));
    let mut drawn = MonteCarloRng::new(5, 0);
    let mut stepped = drawn.clone();
    model.draw(&mut drawn).unwrap();
    let mut words = 0;
    while stepped != drawn {
        oracle::rand::RngCore::next_u64(&mut stepped);
        words += 1;
    }
    words
}

#[test]
fn minus_zero_counts_as_zero() {
    assert_eq!(words_drawn(-0.0), 1);
    assert_eq!(words_drawn(0.0), 1);
    assert_eq!(words_drawn(1.0), 1);
    assert_eq!(words_drawn(f64::from_bits(1)), 2);
    let plan = one_axis(2);
    let state = train(&fresh(&plan), &plan, -0.0, 1.0, -0.0).unwrap();
    assert_eq!(state.records[0].new_zero_evaluations, 1);
    assert_eq!(state.records[0].max_eval_positive.to_bits(), 1 << 63);
    let reset = update(&state, &plan, -0.0).unwrap();
    assert_eq!((reset.update_counter, reset.counters[0]), (0, 0));
    let lent = [-0.0, 0.5, 1.0];
    assert_eq!(probe(&lent, 0.0), Ok((0, 1.0)));
    let mut one = Model::fresh(&GridPlan::Axes(plan));
    let other = with_word(&one, RECORD_WORDS + 2, 1 << 63);
    assert_eq!(one.merge(&other), Ok(()));
}

#[test]
fn an_underflow_counts_as_zero_where_it_happens() {
    let mut model = Model::fresh(&bins_grid(vec![None, None], 10.0, false));
    model.train(&bin(0, 1.0), f64::from_bits(1), 1).unwrap();
    assert_eq!(model.grid.own().new_zero_evaluations, 0);
    let Grid::Discrete(grid) = &model.grid else {
        panic!("a bins grid")
    };
    assert_eq!(grid.bins[0].accumulator.record().new_zero_evaluations, 1);
}

#[test]
fn a_draw_past_the_last_running_sum_takes_the_last_bin() {
    let sizes = unreached_sizes();
    assert_eq!((sizes.len(), &sizes[..4]), (129, &[7, 13, 14, 19][..]));
    let mut model = Model::fresh(&bins_grid(vec![None; 7], 10.0, false));
    let point = model.draw(&mut stream_drawing(1.0 - ULP)).unwrap();
    assert_eq!(point.path, [6]);
    assert_eq!(point.weights, [1.0 / (1.0 / 7.0)]);
}

#[test]
fn a_copy_leaves_nested_samples() {
    let child = Some(GridPlan::Axes(one_axis(2)));
    let mut model = Model::fresh(&bins_grid(vec![child, None], 10.0, false));
    let point = Point {
        path: vec![0],
        weights: vec![2.0, 1.0],
        coordinates: vec![0.3],
    };
    model.train(&point, 1.0, 1).unwrap();
    let copy = model.clone_without_samples().unwrap();
    assert_eq!(copy.grid.own().new_samples, 0);
    let Grid::Discrete(grid) = &copy.grid else {
        panic!("a bins grid")
    };
    assert_eq!(grid.bins[0].accumulator.record().new_samples, 0);
    let nested = grid.bins[0].sub_grid.as_ref().unwrap();
    assert_eq!(nested.own().new_samples, 1);
}

#[test]
fn states_read_back_from_their_words() {
    let inner = bins_grid(vec![Some(GridPlan::Axes(one_axis(3))), None], 3.0, true);
    let plan = bins_grid(vec![Some(inner), None], 5.0, false);
    let mut model = Model::fresh(&plan);
    let mut stream = MonteCarloRng::new(1, 1);
    for number in 1..40 {
        let point = model.draw(&mut stream).unwrap();
        model.train(&point, number as f64, number).unwrap();
    }
    model.update(1.0, 1.0).unwrap();
    let words = model.grid.words();
    assert_eq!(Model::from_words(&plan, &words).grid.words(), words);
}
