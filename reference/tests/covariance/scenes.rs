//! The whole way: snapshots of plane waves and noise are added up, written, loaded, worked in
//! instalments and fetched.

use reference::accuracy::Errors;
use reference::clamps::Clamps;
use reference::covariance::Snapshot;
use reference::matrix::{Complex, ANTENNAS};
use reference::random::Random;
use reference::records::{parse_matrix, MATRIX_RECORD};

use crate::common::sums::{BothSums, Seen};
use crate::common::{Both, Case};

/// Sixteenths of a circle.
const CIRCLE: usize = 16;

/// The cosines of the angles from 0 to 15 sixteenths of a circle, in units of 1/16384.
const COSINES: [i64; CIRCLE] = [
    16384, 15137, 11585, 6270, 0, -6270, -11585, -15137, -16384, -15137, -11585, -6270, 0, 6270,
    11585, 15137,
];

const UNIT: i64 = 16384;

/// A plane wave that meets the antennas, which stand in a row.
struct Wave {
    amplitude: i64,
    /// Sixteenths of a circle from one antenna to the next.
    step: usize,
}

/// Waves with a new phase in each snapshot, and noise at each antenna.
struct Scene {
    waves: Vec<Wave>,
    noise: i64,
    snapshots: u32,
}

impl Scene {
    /// A few waves, weak enough to fit into 16 bits together with the noise, and each strong enough
    /// to be heard.
    fn random(random: &mut Random) -> Self {
        let strongest = random.choose(&[2_500, 4_000, 7_000]);
        let mut wave = || Wave {
            amplitude: random.between(strongest / 2, strongest),
            step: random.below(CIRCLE),
        };
        let waves = [wave(), wave(), wave(), wave()];
        Scene {
            waves: waves.into_iter().take(1 + random.below(4)).collect(),
            noise: random.choose(&[100, 1_000, 4_000]),
            snapshots: random.between(1, 200) as u32,
        }
    }

    fn snapshot(&self, random: &mut Random) -> Snapshot {
        let phases: Vec<usize> = self.waves.iter().map(|_| random.below(CIRCLE)).collect();
        std::array::from_fn(|antenna| {
            let mut noise = || random.between(-self.noise, self.noise);
            let (mut re, mut im) = (noise(), noise());
            for (wave, phase) in self.waves.iter().zip(&phases) {
                let angle = phase + antenna * wave.step;
                re += wave.amplitude * cosine(angle) / UNIT;
                im += wave.amplitude * sine(angle) / UNIT;
            }
            let part = |part: i64| i16::try_from(part).expect("the waves fit into 16 bits");
            Complex::new(part(re), part(im))
        })
    }
}

fn cosine(angle: usize) -> i64 {
    COSINES[angle % CIRCLE]
}

/// The cosine of a quarter of a circle less.
fn sine(angle: usize) -> i64 {
    cosine(angle + 3 * CIRCLE / 4)
}

/// The matrix record that both sides write of a scene.
fn record_of(scene: &Scene, case: Case, seen: &mut Seen) -> [u8; MATRIX_RECORD] {
    let mut random = case.random();
    let mut both = BothSums::none(case, seen);
    for _ in 0..scene.snapshots {
        let number = both.add(&scene.snapshot(&mut random));
        both.require(number == 0, "a snapshot was refused");
    }
    let number = both.write(MATRIX_RECORD);
    both.require(number == 0, "the record was refused");
    *both.record()
}

/// Works the record's matrix in instalments, which gives what Whole gives, and answers the errors of
/// the result.
fn factor(record: &[u8], case: Case) -> Errors {
    let mut random = case.random();
    let mut both = Both::new(case.clone());
    let reply = both.load(record);
    both.require(reply.number == 0, "a written record was refused");
    let mut job = reply.job;
    while !job.is_finished() {
        let reply = both.run(job, random.between(0, 40) as u16);
        both.require(reply.clamps == Clamps::NONE, "a word was clamped");
        job = reply.job;
    }
    let reply = both.fetch(job);
    both.require(reply.number == 0, "a worked matrix was refused");

    let mut at_once = Both::new(case);
    let reply = at_once.whole(record);
    at_once.require(reply.number == 0, "Whole refused a written record");
    let same = at_once.fetched() == both.fetched();
    both.require(same, "Whole and the instalments differ");
    both.errors()
}

/// The squares of the amplitudes over 65,536 are 748, 137 and 12; noise adds 3 to what every
/// antenna hears.
#[test]
fn a_scene_of_three_waves_goes_the_whole_way() {
    let waves = [(7_000, 1), (3_000, 5), (900, 12)];
    let scene = Scene {
        waves: waves
            .map(|(amplitude, step)| Wave { amplitude, step })
            .into(),
        noise: 500,
        snapshots: 4_096,
    };
    let mut seen = Seen::default();
    let record = record_of(&scene, Case::of_words("three waves", 741, 0), &mut seen);
    let matrix = parse_matrix(&record).expect("a matrix record was written");
    for antenna in 0..ANTENNAS {
        let power = matrix.element(antenna, antenna).re;
        assert!(
            (850..=950).contains(&power),
            "antenna {antenna} hears {power}"
        );
    }
    let errors = factor(&record, Case::new("three waves", 741, 0, &record));
    seen.print("A scene of three waves");
    print_errors(errors);
}

#[test]
fn random_scenes_go_the_whole_way() {
    let (mut seen, mut worst) = (Seen::default(), Errors::default());
    for number in 0..50 {
        let scene = Scene::random(&mut Random::for_case(742, number));
        let record = record_of(&scene, Case::of_words("scenes", 743, number), &mut seen);
        let case = Case::new("scenes", 743, number, &record);
        worst = worst.max(factor(&record, case));
    }
    seen.print("Random scenes");
    print_errors(worst);
}

fn print_errors(errors: Errors) {
    let [product, rows, columns] = errors.shares();
    println!(
        "the largest error as a share of 2^44: Q times R {product:.6}, rows of Q {rows:.6}, \
         columns of R {columns:.6}"
    );
}
