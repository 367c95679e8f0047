//! Every example of the document, the published stream words, and the kernels
//! beside a library.

#[allow(dead_code)]
mod common;

use common::{axis, bins_grid, hex, one_axis, stream_drawing};
use oracle::domains::float::{ln, power, unit};
use oracle::generate::seed_for_first_word;
use oracle::model::{
    Refusal, accumulator,
    axis::{draw, probe, train},
    grid::{Model, Point},
    plan::{GridPlan, Refused, read},
};
use oracle::numerical_integration::{ContinuousGrid, Grid, MonteCarloRng, state::Record};
use oracle::program::run;
use oracle::rand::{RngCore, SeedableRng};

const EDGES: [f64; 3] = [0.0, 0.25, 1.0];

#[test]
fn state_1_2_3_4() {
    let mut stream = MonteCarloRng::from_words([1, 2, 3, 4]);
    let published = [
        11520,
        0,
        1509978240,
        1215971899390074240,
        1216172134540287360,
        607988272756665600,
    ];
    assert_eq!(published.map(|_| stream.next_u64()), published);
}

#[test]
fn published_splitmix_words_seed_the_stream() {
    let first = [
        0xe220a8397b1dcdaf,
        0x6e789e6aa1b965f4,
        0x06c45d188009454f,
        0xf88bb8a8724c81ec,
    ];
    assert_eq!(MonteCarloRng::new(0, 0).words(), first);
    let second = [
        6457827717110365317,
        3203168211198807973,
        9817491932198370423,
    ];
    assert_eq!(MonteCarloRng::new(1234567, 0).words()[..3], second);
    let mut stream = MonteCarloRng::new(0, 0);
    let words = [0x99ec5f36cb75f2b4, 0xbf6e1f784956452a, 0x1a5f849d4933e6e0];
    assert_eq!(words.map(|_| stream.next_u64()), words);
}

#[test]
fn a_stream_number_counts_jumps() {
    let mut stream = MonteCarloRng::new(7, 2);
    stream.jump();
    assert_eq!(stream, MonteCarloRng::new(7, 3));
}

#[test]
fn importing_zero_bytes_gives_new_0_0() {
    assert_eq!(MonteCarloRng::import([0; 32]), MonteCarloRng::new(0, 0));
    assert_eq!(MonteCarloRng::seed_from_u64(9), MonteCarloRng::new(9, 0));
    let mut zeros = MonteCarloRng::from_words([0; 4]);
    assert_eq!([zeros.next_u64(), zeros.next_u64()], [0, 0]);
}

#[test]
fn a_short_tail_spends_one_whole_word() {
    let mut filled = MonteCarloRng::new(3, 1);
    let mut stepped = filled.clone();
    let mut bytes = [0; 11];
    filled.fill_bytes(&mut bytes);
    let words = [stepped.next_u64(), stepped.next_u64()];
    assert_eq!(bytes[..8], words[0].to_le_bytes());
    assert_eq!(bytes[8..], words[1].to_le_bytes()[..3]);
    assert_eq!(filled, stepped);
    filled.fill_bytes(&mut []);
    assert_eq!(filled, stepped);
}

#[test]
fn a_first_word_can_be_chosen() {
    for word in [0, 1, 2047, u64::MAX, 0x0123456789abcdef] {
        assert_eq!(
            MonteCarloRng::new(seed_for_first_word(word), 0).next_u64(),
            word
        );
    }
}

#[test]
fn unit_draws() {
    assert_eq!(unit(2047).to_bits(), 0);
    assert_eq!(unit(u64::MAX), 1.0 - 2f64.powi(-53));
}

#[test]
fn probes_on_three_edges() {
    for x in [0.0, -0.0, 0.25] {
        assert_eq!(probe(&EDGES, x), Ok((0, 0.5)));
    }
    for x in [0.5, 1.0] {
        assert_eq!(probe(&EDGES, x), Ok((1, 1.5)));
    }
    for x in [f64::NAN, 1f64.next_up()] {
        assert_eq!(probe(&EDGES, x), Err(Refusal::Coordinate));
    }
}

#[test]
fn draw_on_three_edges() {
    assert_eq!(draw(&EDGES, &mut stream_drawing(0.75)), Ok((0.625, 1.5)));
}

#[test]
fn equal_edges_are_not_well_formed() {
    let edges = [0.0, 0.5, 0.5, 1.0];
    assert_eq!(probe(&edges, 0.2), Err(Refusal::IllFormed));
    assert_eq!(
        draw(&edges, &mut stream_drawing(0.5)),
        Err(Refusal::IllFormed)
    );
    let plan = one_axis(3);
    let trained = train(&axis(&plan, &edges), &plan, 0.5, 1.0, 1.0);
    assert_eq!(trained.map(|_| ()), Err(Refusal::IllFormed));
}

#[test]
fn four_equal_bins() {
    let mut model = Model::fresh(&bins_grid(vec![None; 4], 10.0, false));
    let mut bin = |draw| model.draw(&mut stream_drawing(draw)).unwrap().path[0];
    assert_eq!(bin(0.25), 0);
    assert_eq!(bin(0.25 + 2f64.powi(-53)), 1);
}

/// The record after samples and one update.
fn after(samples: &[f64]) -> (bool, Record) {
    let add = |record: Record, &eval: &f64| accumulator::add_sample(&record, eval, 1).unwrap();
    let waiting = samples.iter().fold(Record::default(), add);
    accumulator::update_iter(&waiting, false).unwrap()
}

#[test]
fn samples_in_an_accumulator() {
    let (_, record) = after(&[1.0, -1.0]);
    assert_eq!((record.avg, record.err, record.chi_sq), (0.0, 1.0, 0.0));
    let (_, record) = after(&[1.0, 1.0]);
    assert_eq!((record.avg, record.err), (1.0, 0.0));
    assert_eq!(record.weight_sum, 2f64.powi(64));
    let (processed, record) = after(&[1.0]);
    assert!(!processed);
    assert_eq!((record.cur_iter, record.new_samples), (1, 1));
    let (_, record) = after(&[0.1, 0.1, 0.1]);
    assert!(record.err.is_nan());
}

#[test]
fn two_bins_on_averages() {
    let mut model = Model::fresh(&bins_grid(vec![None, None], 10.0, true));
    let samples = [(0, 3.0), (0, 3.0), (1, 1.0), (1, 1.0)];
    for (number, (bin, eval)) in samples.into_iter().enumerate() {
        let point = Point {
            path: vec![bin],
            weights: vec![2.0],
            coordinates: Vec::new(),
        };
        model.train(&point, eval, number as u64 + 1).unwrap();
    }
    model.update(1.0, 1.0).unwrap();
    let Grid::Discrete(grid) = &model.grid else {
        panic!("a bins grid")
    };
    assert_eq!(grid.bins[0].pdf, 0.75);
    assert_eq!(grid.bins[1].pdf, 0.25);
}

#[test]
fn floor_one_half() {
    let weight = ContinuousGrid::floored(0.5, 0.5);
    assert_eq!(weight.to_bits(), 0x3fe5555555555555);
    assert_eq!(weight, 2.0 / 3.0);
}

#[test]
fn eight_axes_pass_and_nine_are_too_many() {
    let mut plan = one_axis(2);
    plan.axes = 8;
    assert!(read(&GridPlan::Axes(plan.clone()).bytes()).is_ok());
    plan.axes = 9;
    let refused = Refused {
        refusal: Refusal::Size,
        at: 0,
    };
    assert_eq!(read(&GridPlan::Axes(plan).bytes()).unwrap_err(), refused);
}

#[test]
fn whole_output() {
    let mut input = hex("01 1000 01 0200 00000000 00 0000000000000000 10 0a00");
    input.extend([0; 10]);
    input.extend(hex(
        "11 0800 000000000000f03f 11 0800 000000000000f0bf 12 1000",
    ));
    input.extend([0; 16]);
    assert_eq!(input.len(), 73);
    assert_eq!(
        run(&input),
        "1 2 0000000000000000 3ff0000000000000 0000000000000000\n"
    );
}

#[test]
fn kernels_beside_a_library() {
    let near = |got: f64, library: f64| (got - library).abs() <= 1e-12 * library.abs();
    for i in 0..=2000 {
        let y = 2f64.powf(-10.0 * i as f64 / 2000.0);
        assert!(near(ln(y), y.ln()), "ln {y}");
        for j in 0..=50 {
            let a = j as f64 / 5.0;
            assert!(near(power(y, a), y.powf(a)), "{y} to the {a}");
        }
    }
    for x in [
        f64::from_bits(1),
        f64::MIN_POSITIVE,
        1e-310,
        f64::MAX,
        1.4140625,
    ] {
        assert!(near(ln(x), x.ln()), "ln {x}");
    }
}

#[test]
fn kernels_outside_their_ranges() {
    for x in [0.0, -0.0, -1.0, f64::INFINITY, f64::NAN] {
        assert!(ln(x).is_nan());
    }
    assert_eq!(ln(1.0).to_bits(), 0);
    let least = 2f64.powi(-10);
    for (y, a) in [
        (least.next_down(), 1.0),
        (2f64.next_up(), 1.0),
        (0.5, 10f64.next_up()),
        (0.5, -f64::from_bits(1)),
        (f64::NAN, 1.0),
        (0.5, f64::NAN),
    ] {
        assert!(power(y, a).is_nan());
    }
    assert_eq!(power(0.3, -0.0), 1.0);
    assert_eq!(power(2.0, 10.0), 1024.0);
}
