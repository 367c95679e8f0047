//! The program's refusals with their offsets, its room, and what the generated
//! inputs reach.

#[allow(dead_code)]
mod common;

use std::collections::BTreeMap;

use common::{bins_grid, hex, one_axis};
use oracle::generate::{input, seed_for_first_word};
use oracle::model::plan::{AxesPlan, GridPlan};
use oracle::program::run;

const ZERO_STREAM: &str = "10 0a00 00000000000000000000";

/// A program's input: a plan, then fields in hex.
fn text(plan: &GridPlan, fields: &str) -> Vec<u8> {
    let mut bytes = plan.bytes();
    bytes.extend(hex(fields));
    bytes
}

fn axes_root() -> GridPlan {
    GridPlan::Axes(one_axis(2))
}

fn field_11(value: f64) -> String {
    let bytes = value.to_le_bytes();
    let digits: String = bytes.iter().map(|byte| format!("{byte:02x}")).collect();
    format!("11 0800 {digits}")
}

fn field_12(bins_rate: f64, axes_rate: f64) -> String {
    let bytes = [bins_rate.to_le_bytes(), axes_rate.to_le_bytes()].concat();
    let digits: String = bytes.iter().map(|byte| format!("{byte:02x}")).collect();
    format!("12 1000 {digits}")
}

#[test]
fn plans_are_refused_field_by_field() {
    let cases = [
        ("", "1 at 0"),
        ("01", "1 at 0"),
        ("01 1000 01", "1 at 0"),
        ("04 0000", "1 at 0"),
        ("02 0200 0100", "1 at 0"),
        ("01 0f00 000000000000000000000000000000", "1 at 0"),
        ("01 1000 00 0200 00000000 09 0000000000000000", "2 at 0"),
        ("01 1000 09 0200 00000000 00 0000000000000000", "2 at 0"),
        ("01 1000 01 0104 00000000 00 0000000000000000", "2 at 0"),
        ("01 1000 01 0200 00000000 02 0000000000000000", "3 at 0"),
        ("01 1000 01 0200 00000000 00 000000000000f87f", "3 at 0"),
        ("01 1000 01 0200 00000000 00 010000000000f03f", "3 at 0"),
        ("01 1000 01 0200 00000000 00 0000000000000000", "1 at 19"),
        (
            "01 1000 01 0200 00000000 00 0000000000000000 02 0000",
            "2 at 19",
        ),
        (
            "01 1000 01 0200 00000000 00 0000000000000000 02 0100 01",
            "1 at 19",
        ),
        (
            "01 1000 01 0200 00000000 00 0000000000000000 02 2200 01",
            "1 at 19",
        ),
        (
            "01 1000 01 0200 00000000 00 0000000000000000 02 0200 0000",
            "2 at 19",
        ),
        (
            "01 1000 01 0200 00000000 00 0000000000000000 02 0200 0104",
            "2 at 19",
        ),
        (
            "01 1000 01 0200 00000000 00 0000000000000000 02 0200 0100 02 0200 0100",
            "1 at 24",
        ),
        ("03 0b00 0000 000000000000f03f 00", "2 at 0"),
        ("03 0b00 0101 000000000000f03f 00", "2 at 0"),
        ("03 0b00 0100 0000000000000080 00", "3 at 0"),
        ("03 0b00 0100 000000000000f07f 00", "3 at 0"),
        ("03 0b00 0100 000000000000f03f 02", "3 at 0"),
        ("03 0b00 0200 000000000000f03f 00 04 0000", "1 at 17"),
        ("03 0b00 0200 000000000000f03f 00 04 0000 04", "1 at 17"),
        (
            "03 0b00 0200 000000000000f03f 00 04 0000 05 0000",
            "1 at 17",
        ),
        (
            "03 0b00 0100 000000000000f03f 00 04 0000 04 0000",
            "1 at 17",
        ),
    ];
    for (bytes, refused) in cases {
        assert_eq!(run(&hex(bytes)), format!("refused {refused}\n"), "{bytes}");
    }
}

#[test]
fn later_fields_are_refused_at_their_offsets() {
    let sample = field_11(1.0);
    let cases = [
        ("".to_string(), "1 at 19"),
        ("10 0a00 00".to_string(), "1 at 19"),
        (sample.clone(), "1 at 19"),
        ("10 0a00 0000000000000000 0010".to_string(), "3 at 19"),
        (format!("{ZERO_STREAM} {ZERO_STREAM}"), "1 at 32"),
        (format!("{ZERO_STREAM} 11 0800 00"), "1 at 32"),
        (format!("{ZERO_STREAM} 11 0700 00000000000000"), "1 at 32"),
        (format!("{ZERO_STREAM} {sample} 13"), "1 at 43"),
        (
            format!("{ZERO_STREAM} {sample} {}", field_11(f64::NAN)),
            "7 at 43",
        ),
        (
            format!("{ZERO_STREAM} {sample} {}", field_11(1e200)),
            "8 at 43",
        ),
        (
            format!("{ZERO_STREAM} {sample} {}", field_12(0.0, 10.5)),
            "3 at 43",
        ),
        (
            format!("{ZERO_STREAM} {sample} {}", field_12(f64::NAN, 0.0)),
            "3 at 43",
        ),
    ];
    for (fields, refused) in cases {
        let output = run(&text(&axes_root(), &fields));
        assert_eq!(output, format!("refused {refused}\n"), "{fields}");
    }
}

#[test]
fn earlier_lines_stay() {
    let fields = [
        ZERO_STREAM.to_string(),
        field_11(1.0),
        field_11(-1.0),
        field_12(0.0, 0.0),
        "ff".to_string(),
    ];
    assert_eq!(
        run(&text(&axes_root(), &fields.join(" "))),
        "1 2 0000000000000000 3ff0000000000000 0000000000000000\nrefused 1 at 73\n"
    );
}

#[test]
fn room_is_128_bins() {
    assert_eq!(run(&text(&GridPlan::Axes(one_axis(128)), ZERO_STREAM)), "");
    let evolved = |values: Vec<usize>| {
        GridPlan::Axes(AxesPlan {
            evolution: values,
            ..one_axis(2)
        })
    };
    assert_eq!(run(&text(&evolved(vec![3, 128, 1]), ZERO_STREAM)), "");
    assert_eq!(
        run(&text(&evolved(vec![3, 129, 1]), "ff")),
        "refused 10 at 0\n"
    );
    assert_eq!(run(&evolved(vec![129]).bytes()), "refused 10 at 0\n");
    let bins = |count| bins_grid(vec![None; count], 10.0, false);
    assert_eq!(run(&text(&bins(128), ZERO_STREAM)), "");
    assert_eq!(run(&text(&bins(129), "")), "refused 10 at 0\n");
    assert_eq!(run(&text(&bins(129), "ff")[..16]), "refused 1 at 14\n");
}

#[test]
fn grids_and_levels_have_bounds() {
    let children = |count| vec![Some(GridPlan::Axes(one_axis(1))); count];
    let plan = bins_grid(children(63), 10.0, false);
    assert_eq!(run(&text(&plan, ZERO_STREAM)), "");
    let mut bytes = bins_grid(children(64), 10.0, false).bytes();
    let last = bytes.len() - 19;
    assert_eq!(run(&bytes), format!("refused 2 at {last}\n"));
    bytes[last + 3 + 7] = 9;
    assert_eq!(run(&bytes), format!("refused 2 at {last}\n"));
    bytes[last + 1] = 15;
    assert_eq!(run(&bytes), format!("refused 1 at {last}\n"));
    let mut nested = axes_root();
    for _ in 0..4 {
        nested = bins_grid(vec![Some(nested)], 10.0, false);
    }
    assert_eq!(run(&text(&nested, ZERO_STREAM)), "");
    let fifth = bins_grid(vec![Some(nested)], 10.0, false);
    assert_eq!(run(&text(&fifth, ZERO_STREAM)), "refused 2 at 56\n");
}

#[test]
fn a_bins_root_at_rate_0_prints_zeros() {
    let zeros = "0 0 0000000000000000 0000000000000000 0000000000000000\n";
    let plan = bins_grid(vec![None, None], 10.0, false);
    let run_with = |one, other, rate| {
        let fields = [
            ZERO_STREAM.to_string(),
            field_11(one),
            field_11(other),
            field_12(rate, 1.0),
        ];
        run(&text(&plan, &fields.join(" ")))
    };
    assert_eq!(run_with(1.0, 2.0, 0.0), zeros);
    assert_eq!(run_with(1.0, 1.0, 1.0), zeros);
}

#[test]
fn a_minus_zero_error_prints_its_sign() {
    let fields = [
        ZERO_STREAM.to_string(),
        field_11(1e-200),
        field_11(1e-200),
        field_12(0.0, 0.0),
    ];
    let output = run(&text(&axes_root(), &fields.join(" ")));
    assert_eq!(output.split(' ').nth(3), Some("8000000000000000"));
}

#[test]
fn the_seed_reaches_a_draw_past_the_last_running_sum() {
    let seed = seed_for_first_word(u64::MAX).to_le_bytes();
    let digits: String = seed.iter().map(|byte| format!("{byte:02x}")).collect();
    let fields = [
        format!("10 0a00 {digits} 0000"),
        field_11(1.0),
        field_12(0.0, 0.0),
    ];
    let output = run(&text(
        &bins_grid(vec![None; 7], 10.0, false),
        &fields.join(" "),
    ));
    assert_eq!(output.lines().count(), 1);
}

/// Generated inputs are mostly valid, and every number the program can give occurs.
#[test]
fn generated_inputs_reach_every_refusal() {
    let mut ends: BTreeMap<String, u64> = BTreeMap::new();
    for index in 0..1500 {
        let output = run(&input(1, index));
        let last = output.lines().last().unwrap_or_default();
        let end = match last.strip_prefix("refused ") {
            Some(rest) => rest.split(' ').next().unwrap_or_default(),
            None => "answered",
        };
        *ends.entry(end.to_string()).or_default() += 1;
    }
    for number in ["1", "2", "3", "7", "8", "9", "10"] {
        assert!(ends.contains_key(number), "{number} is missing: {ends:?}");
    }
    assert!(ends["answered"] > 800, "{ends:?}");
    assert_eq!(input(1, 77), input(1, 77));
    assert_ne!(input(1, 77), input(2, 77));
}
