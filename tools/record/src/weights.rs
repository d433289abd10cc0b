//! `record weights`: what a modem makes of a result.
use std::ffi::OsStr;

use hubqr::Refusal;

use crate::failure::Failure;
use crate::figures::{fixed, nine_digits};
use crate::matrix::SIZE;
use crate::records::{self, refused_in_result};
use crate::refusal::refused_with;
use crate::show::element_text;
use crate::targets::{self, Targets};
use crate::{files, Report};

/// The real and the imaginary part of an antenna's weight.
type Weight = (f64, f64);

pub fn weights(result: &OsStr, targets: &OsStr) -> Result<Report, Failure> {
    files::not_both_standard(result, targets)?;
    let record = records::read_bytes(result)?;
    let targets = files::read_text(targets, "list of eight targets", targets::parse)?;
    let weights = solved(&record, &targets).map_err(|refusal| {
        let why = refused_with(refusal);
        files::named(result, format!("{}: {why}", refused_in_result(&record)))
    })?;
    Ok(Report::text(weights_text(&targets, &weights), true))
}

fn solved(record: &[u8], targets: &Targets) -> Result<[Weight; SIZE], Refusal> {
    let targets = targets.map(|target| (target.real, target.imaginary));
    let reply = reference::weights::weights(record, &targets);
    match Refusal::try_from(reply.number) {
        Ok(refusal) => Err(refusal),
        Err(_accepted) => Ok(reply.weights),
    }
}

fn weights_text(targets: &Targets, weights: &[Weight; SIZE]) -> String {
    let mut text = format!(
        "weights w: R times w = Q transposed times the targets, which are in units of 1/32768\n\n\
         {:>7}{:>12}{:>20}{:>17}{:>17}{:>11}\n",
        "antenna", "target", "real part", "imaginary part", "magnitude", "degrees"
    );
    for (k, (target, &(re, im))) in targets.iter().zip(weights).enumerate() {
        let target = element_text(*target);
        let [real, imaginary, magnitude] = [re, im, re.hypot(im)].map(nine_digits);
        let degrees = phase(re, im);
        text += &format!("{k:>7}{target}{real:>17}{imaginary:>17}{magnitude:>17}{degrees:>11}\n");
    }
    text
}

/// The angle of a weight in degrees. 0 has none.
fn phase(re: f64, im: f64) -> String {
    if re == 0.0 && im == 0.0 {
        return "-".into();
    }
    fixed(im.atan2(re).to_degrees(), 4)
}

#[cfg(test)]
mod tests {
    use hubqr::{Sample, AREA_WORDS, RESULT_RECORD_BYTES};
    use reference::cases::Kind;
    use reference::random::Random;
    use reference::records::write_matrix;

    use super::*;
    use crate::matrix::Element;

    const RECORDS_OF_A_KIND: usize = 8;

    /// The bits of the engine's weights, or why it refuses the record.
    fn engine(record: &[u8], targets: &Targets) -> Result<[(u64, u64); SIZE], Refusal> {
        let targets = targets.map(|target| Sample {
            re: target.real,
            im: target.imaginary,
        });
        let weights = hubqr::weights(record, targets)?;
        Ok(weights.map(|weight| (weight.re.to_bits(), weight.im.to_bits())))
    }

    #[test]
    fn weights_are_the_engines_in_every_bit() {
        let mut random = Random::new(4);
        let mut accepted = 0;
        for kind in Kind::ALL {
            for _ in 0..RECORDS_OF_A_KIND {
                let mut record = [0; RESULT_RECORD_BYTES];
                let matrix = write_matrix(&kind.matrix(&mut random));
                hubqr::whole(&matrix, &mut [0; AREA_WORDS], &mut record).unwrap();
                let targets = std::array::from_fn(|_| Element {
                    real: random.part(),
                    imaginary: random.part(),
                });
                let weights = solved(&record, &targets);
                let bits = weights.map(|all| all.map(|(re, im)| (re.to_bits(), im.to_bits())));
                assert_eq!(bits, engine(&record, &targets), "{matrix:?}");
                accepted += usize::from(bits.is_ok());
            }
        }
        assert!(accepted > Kind::ALL.len() * RECORDS_OF_A_KIND / 2);
    }
}
