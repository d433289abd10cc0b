//! Shares of all sectors, dealt out at random: such that are accepted, and such that are refused.

use reference::desk::SECTORS;
use reference::random::Random;

/// The share of sector k at place k.
pub type Shares = [u16; SECTORS];

/// The exact total.
pub fn total(shares: &Shares) -> u32 {
    shares.iter().map(|share| u32::from(*share)).sum()
}

/// Exactly this total, which the first so many sectors can have, dealt out to them. Many pieces are
/// large, so that many sectors get nothing.
pub fn dealt(total: u32, sectors: usize, random: &mut Random) -> Shares {
    let (mut shares, mut rest) = ([0; SECTORS], total);
    while rest > 0 {
        let share = &mut shares[random.below(sectors)];
        let most = rest.min((u16::MAX - *share).into());
        let least = if random.one_in(3) { most } else { most.min(1) };
        let piece = random.between(least.into(), most.into()) as u16;
        *share += piece;
        rest -= u32::from(piece);
    }
    shares
}

/// Shares of which some seven in ten are accepted. The others are just above 120 in total, would
/// not be if the total were kept in a byte or in 16 bits, or are far above.
pub fn any_shares(served: usize, random: &mut Random) -> Shares {
    let total = match random.below(12) {
        0..=3 => 120,
        4 => 119,
        5..=8 => random.below(119),
        9 => 121,
        10 => random.between(1, 7) as usize * random.choose(&[256, 65_536]) + random.below(121),
        _ => random.below(8 * 65_535),
    };
    let all = total > 121 || random.one_in(4);
    let mut shares = dealt(total as u32, if all { SECTORS } else { served }, random);
    if random.one_in(16) {
        shares[random.below(SECTORS)] = random.choose(&[121, 256, 0x7FFF, 0x8000, u16::MAX]);
    }
    shares
}

/// Shares that are accepted and give a sector this one, and the others anything.
pub fn giving(sector: usize, share: u16, random: &mut Random) -> Shares {
    let most = 120 - usize::from(share);
    let rest = random.below(most + 1);
    let rest = random.choose(&[most, rest]) as u32;
    let mut shares = dealt(rest, SECTORS, random);
    shares[(sector + 1) % SECTORS] += shares[sector];
    shares[sector] = share;
    shares
}
