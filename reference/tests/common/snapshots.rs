//! Random snapshots of different kinds.

use reference::covariance::Snapshot;
use reference::matrix::{Complex, ANTENNAS};
use reference::random::Random;

/// What the snapshots of a list are like.
#[derive(Debug, Clone, Copy)]
pub enum Snapshots {
    /// Every part anything of 16 bits.
    FullRange,
    /// Every part near 0, so that quotients are 0 or next to it.
    Small,
    /// Every part at an end of the range.
    Ends,
    /// All parts -32768, which gives the largest sums there are.
    Lowest,
    /// Only one antenna has a sample other than 0.
    OneAntenna,
    /// All antennas have the same sample.
    EqualAntennas,
    /// Each snapshot of another kind.
    Mixed,
}

impl Snapshots {
    pub const ALL: [Snapshots; 7] = [
        Snapshots::FullRange,
        Snapshots::Small,
        Snapshots::Ends,
        Snapshots::Lowest,
        Snapshots::OneAntenna,
        Snapshots::EqualAntennas,
        Snapshots::Mixed,
    ];

    pub fn draw(self, random: &mut Random) -> Snapshot {
        match self {
            Snapshots::FullRange => samples(|| random.part()),
            Snapshots::Small => {
                let limit = random.choose(&[2, 200, 300]);
                samples(|| random.between(-limit, limit) as i16)
            }
            Snapshots::Ends => samples(|| random.choose(&[i16::MIN, i16::MAX])),
            Snapshots::Lowest => samples(|| i16::MIN),
            Snapshots::OneAntenna => {
                let mut snapshot = [Complex::ZERO; ANTENNAS];
                snapshot[random.below(ANTENNAS)] = any(random);
                snapshot
            }
            Snapshots::EqualAntennas => [any(random); ANTENNAS],
            Snapshots::Mixed => {
                let [others @ .., _] = Snapshots::ALL;
                random.choose(&others).draw(random)
            }
        }
    }
}

fn samples(mut part: impl FnMut() -> i16) -> Snapshot {
    std::array::from_fn(|_| Complex::new(part(), part()))
}

fn any(random: &mut Random) -> Complex {
    Complex::new(random.part(), random.part())
}
