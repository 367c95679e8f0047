//! `evaluate FUNCTION` reads the integration program's input and writes it with every evaluation
//! replaced by the function at the point that the program draws there.

use std::io::{Read, Write, stdin, stdout};
use std::process::ExitCode;

use oracle::model::{
    Refusal,
    grid::{Model, Point},
    plan::{Refused, field, read_prefix},
};
use oracle::program::{SAMPLE, UPDATE, new_stream};

type Function = fn(&Point) -> f64;

/// 9 x² y², whose integral over the unit square is 1.
fn product(point: &Point) -> f64 {
    let [x, y] = point.coordinates[..] else {
        panic!("product takes two coordinates")
    };
    9.0 * x * x * y * y
}

/// Large only in a corner of the unit square: 1 at (1, 1), 1/100 three times WIDTH away.
fn corner(point: &Point) -> f64 {
    const WIDTH: f64 = 1.0 / 256.0;
    let [x, y] = point.coordinates[..] else {
        panic!("corner takes two coordinates")
    };
    let near = WIDTH * WIDTH / ((1.0 - x) * (1.0 - x) + (1.0 - y) * (1.0 - y) + WIDTH * WIDTH);
    near * near
}

/// 1 + x in the first of three bins, 1/2 in the second, 1/4 and 4 x y in the two bins of the third;
/// the sum over all bins of the integrals is 13/4.
fn kinds(point: &Point) -> f64 {
    match (&point.path[..], &point.coordinates[..]) {
        ([0], [x]) => 1.0 + x,
        ([1], []) => 0.5,
        ([2, 0], []) => 0.25,
        ([2, 1], [x, y]) => 4.0 * x * y,
        _ => panic!("kinds takes the plan of the nested example"),
    }
}

fn main() -> ExitCode {
    let function: Function = match std::env::args().nth(1).as_deref() {
        Some("product") => product,
        Some("corner") => corner,
        Some("kinds") => kinds,
        _ => {
            eprintln!("usage: evaluate product|corner|kinds");
            return ExitCode::from(2);
        }
    };
    let mut input = Vec::new();
    stdin().read_to_end(&mut input).expect("standard input");
    if let Err(refused) = evaluate(&mut input, function) {
        eprintln!("refused {} at {}", refused.refusal as u64, refused.at);
        return ExitCode::FAILURE;
    }
    stdout().write_all(&input).expect("standard output");
    ExitCode::SUCCESS
}

fn evaluate(input: &mut [u8], function: Function) -> Result<(), Refused> {
    let (plan, end) = read_prefix(input)?;
    let first = field(input, end)?;
    let mut model = Model::fresh(&plan);
    let mut stream = new_stream(&first)?;
    let mut at = first.end;
    let mut number = 0;
    while at < input.len() {
        let field = field(input, at)?;
        let next = field.end;
        match (field.tag, field.payload.len()) {
            (SAMPLE, 8) => {
                number += 1;
                let point = model.draw(&mut stream).map_err(|r| field.refused(r))?;
                let value = function(&point);
                let trained = model.train(&point, value, number);
                trained.map_err(|r| field.refused(r))?;
                input[next - 8..next].copy_from_slice(&value.to_le_bytes());
            }
            (UPDATE, 16) => {
                let updated = model.update(field.f64(0), field.f64(8));
                updated.map_err(|r| field.refused(r))?;
            }
            _ => return Err(field.refused(Refusal::Malformed)),
        }
        at = next;
    }
    Ok(())
}
