//! The integration program: a plan, a stream, then samples and updates.

use std::fmt::Write;

use crate::model::{
    Answer, Refusal,
    grid::Model,
    plan::{Field, Refused, field, read_prefix},
};
use crate::numerical_integration::MonteCarloRng;
use crate::words::bits;

pub const STREAM: u8 = 0x10;
pub const SAMPLE: u8 = 0x11;
pub const UPDATE: u8 = 0x12;

/// The bins in all that the program has room for.
pub const ROOM: usize = 128;

/// The greatest stream number.
pub const MOST_STREAM: u16 = 4095;

/// Everything that the program writes for an input.
pub fn run(input: &[u8]) -> String {
    let mut output = String::new();
    if let Err(refused) = integrate(input, &mut output) {
        let number = refused.refusal as u64;
        writeln!(output, "refused {number} at {}", refused.at).expect("a string takes it");
    }
    output
}

fn integrate(input: &[u8], output: &mut String) -> Result<(), Refused> {
    let (plan, end) = read_prefix(input)?;
    if plan.room() > ROOM {
        return Err(Refused {
            refusal: Refusal::Room,
            at: 0,
        });
    }
    let mut model = Model::fresh(&plan);
    let first = field(input, end)?;
    let mut stream = new_stream(&first)?;
    let mut at = first.end;
    let mut number = 0;
    while at < input.len() {
        let field = field(input, at)?;
        let done = match (field.tag, field.payload.len()) {
            (SAMPLE, 8) => {
                number += 1;
                sample(&mut model, &mut stream, field.f64(0), number)
            }
            (UPDATE, 16) => update(&mut model, field.f64(0), field.f64(8), output),
            _ => Err(Refusal::Malformed),
        };
        done.map_err(|refusal| field.refused(refusal))?;
        at = field.end;
    }
    Ok(())
}

/// The stream that field 10 describes.
pub fn new_stream(field: &Field) -> Result<MonteCarloRng, Refused> {
    let fits = field.tag == STREAM && field.payload.len() == 10;
    field.demand(fits, Refusal::Malformed)?;
    let number = field.u16(8);
    field.demand(number <= MOST_STREAM, Refusal::Range)?;
    Ok(MonteCarloRng::new(field.u64(0), number as usize))
}

fn sample(model: &mut Model, stream: &mut MonteCarloRng, eval: f64, number: u64) -> Answer<()> {
    let point = model.draw(stream)?;
    model.train(&point, eval, number)
}

fn update(model: &mut Model, bins_rate: f64, axes_rate: f64, output: &mut String) -> Answer<()> {
    model.update(bins_rate, axes_rate)?;
    let summary = model.summary()?;
    writeln!(
        output,
        "{} {} {:016x} {:016x} {:016x}",
        summary.iterations,
        summary.samples,
        bits(summary.average),
        bits(summary.error),
        bits(summary.chi_squared)
    )
    .expect("a string takes it");
    Ok(())
}
