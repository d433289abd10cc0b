//! The sample records and targets: each record is what its text makes, and each does what its README
//! says.
use hubqr::{Refusal, AREA_WORDS, RESULT_RECORD_BYTES};
use std::f64::consts::PI;
use std::fs;
use std::path::{Path, PathBuf};

use crate::tool::{worked, Folder};
use crate::weights::lines;

fn examples() -> PathBuf {
    Path::new(env!("CARGO_MANIFEST_DIR")).join("../../examples")
}

fn sample(name: &str) -> PathBuf {
    examples().join("records").join(name)
}

const SAMPLES: [(&str, Result<u8, Refusal>); 6] = [
    ("hermitian", Ok(0xff)),
    ("loose-plug", Ok(0xdf)),
    ("extremes", Ok(0xff)),
    ("single", Ok(0x01)),
    ("hum", Err(Refusal::NoneHeard)),
    ("zeros", Err(Refusal::NoneHeard)),
];

#[test]
fn each_text_makes_its_record() {
    let folder = Folder::new("samples-pack");
    for (name, _) in SAMPLES {
        let text = fs::read(sample(&format!("{name}.txt"))).unwrap();
        let packed = folder.run_with_input(&["pack", "-", "-"], &text);
        let record = fs::read(sample(&format!("{name}.bin"))).unwrap();
        assert_eq!(packed.stdout, record, "{name}");
    }
}

#[test]
fn each_record_is_heard_or_refused_as_said_and_its_result_checks() {
    let folder = Folder::new("samples-work");
    for (name, expected) in SAMPLES {
        let record = fs::read(sample(&format!("{name}.bin"))).unwrap();
        let mut result = [0; RESULT_RECORD_BYTES];
        let factored = hubqr::whole(&record, &mut [0; AREA_WORDS], &mut result);
        let heard = factored.map(|factored| factored.heard);
        assert_eq!(heard, expected, "{name}");
        if expected.is_ok() {
            folder.write("m.bin", &record);
            folder.write("r.bin", result);
            assert_eq!(folder.run(&["check", "m.bin", "r.bin"]).status, 0, "{name}");
        }
    }
}

#[test]
fn there_is_no_other_record_beside_them() {
    let entries = fs::read_dir(sample("")).unwrap();
    let records = entries.filter(|entry| {
        let path = entry.as_ref().unwrap().path();
        path.extension().is_some_and(|extension| extension == "bin")
    });
    assert_eq!(records.count(), SAMPLES.len());
}

/// The real and the imaginary part of each element of a sample.
fn elements(name: &str) -> [[(i16, i16); 8]; 8] {
    let record = fs::read(sample(&format!("{name}.bin"))).unwrap();
    let part = |at: usize| i16::from_be_bytes([record[at], record[at + 1]]);
    let element = |place: usize| (part(1 + 4 * place), part(3 + 4 * place));
    std::array::from_fn(|i| std::array::from_fn(|j| element(8 * i + j)))
}

fn places() -> impl Iterator<Item = (usize, usize)> {
    (0..64).map(|place| (place / 8, place % 8))
}

#[test]
fn the_covariances_are_hermitian() {
    for name in ["hermitian", "loose-plug", "hum"] {
        let elements = elements(name);
        for (i, j) in places() {
            let (real, imaginary) = elements[i][j];
            assert_eq!(elements[j][i], (real, -imaginary), "{name}");
        }
    }
}

#[test]
fn a_loose_plug_hums() {
    let (plugged, hum) = (elements("hermitian"), elements("hum"));
    let loose = elements("loose-plug");
    for (i, j) in places() {
        let expected = if i == 5 || j == 5 { &hum } else { &plugged };
        assert_eq!(loose[i][j], expected[i][j]);
        let (real, imaginary) = hum[i][j];
        assert!((1..=2).contains(&real.abs()));
        assert!(imaginary.abs() <= 2);
    }
}

#[test]
fn the_extremes_are_at_the_ends_of_the_range() {
    let parts = elements("extremes").into_iter().flatten();
    let mut parts = parts.flat_map(|(real, imaginary)| [real, imaginary]);
    assert!(parts.all(|part| part == i16::MIN || part == i16::MAX));
}

/// The wave that comes to the eight antennas of a line from a machine at an angle, as the real and the
/// imaginary part of what each hears. Half a wavelength lies between antennas.
fn wave(degrees: f64) -> [(f64, f64); 8] {
    let turn = PI * degrees.to_radians().sin();
    std::array::from_fn(|k| {
        let (im, re) = (turn * k as f64).sin_cos();
        (re, im)
    })
}

/// The magnitude of the sum of what each antenna hears times the conjugate of its weight.
fn gain(weights: &[(f64, f64)], wave: [(f64, f64); 8]) -> f64 {
    let products = weights.iter().zip(wave).map(|((re, im), (u, v))| {
        let (real, imaginary) = (re * u + im * v, re * v - im * u);
        (real, imaginary)
    });
    let (re, im) = products.fold((0.0, 0.0), |(re, im), (u, v)| (re + u, im + v));
    re.hypot(im)
}

#[test]
fn the_targets_are_the_wave_of_the_weakest_machine_and_make_a_beam_to_it() {
    let folder = Folder::new("samples-targets");
    folder.write("r.bin", worked(&fs::read(sample("hermitian.bin")).unwrap()));
    let targets = fs::read(examples().join("targets/weakest.txt")).unwrap();
    let outcome = folder.run_with_input(&["weights", "r.bin", "-"], &targets);
    let lines = lines(&outcome);
    for (columns, (re, im)) in lines.iter().zip(wave(48.0)) {
        let target = format!("{:.0}{:+.0}i", 32767.0 * re, 32767.0 * im);
        assert_eq!(columns[1], target);
    }
    let part = |text: &str| text.parse::<f64>().unwrap();
    let weights = lines.iter().map(|line| (part(line[2]), part(line[3])));
    let weights: Vec<(f64, f64)> = weights.collect();
    let [first, second, weakest] = [-35.0, 10.0, 48.0].map(|angle| gain(&weights, wave(angle)));
    assert!((14.0..15.0).contains(&weakest), "{weakest}");
    assert!(weakest > 12.0 * first && weakest > 12.0 * second);
}
