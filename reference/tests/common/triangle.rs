//! Result records whose words no worked matrix gave.

use reference::area::{WorkArea, AREA_WORDS};
use reference::matrix::REAL_SIZE;
use reference::random::Random;

/// R and Q of words that are asked for row by row. R keeps those above the diagonal: on it stands
/// what is asked for there, and under it 0.
pub fn triangle(mut word: impl FnMut() -> i32, mut diagonal: impl FnMut(usize) -> i32) -> WorkArea {
    let mut area = WorkArea::from_words(&[0; AREA_WORDS].map(|_: i32| word()));
    for i in 0..REAL_SIZE {
        (0..i).for_each(|j| area.set_word(i, j, 0));
        area.set_word(i, i, diagonal(i));
    }
    area
}

/// What is asked for row by row where R has one thing and Q another: 16 times for R, then for Q.
pub fn by_halves<T: Copy>(r: T, q: T) -> impl Iterator<Item = T> {
    [r, q]
        .into_iter()
        .cycle()
        .flat_map(|half| [half; REAL_SIZE])
}

/// Anything that is accepted, with the last diagonal word above 0, too.
pub fn any_accepted(random: &mut Random) -> WorkArea {
    let diagonal: [i32; REAL_SIZE] = std::array::from_fn(|_| random.word().saturating_abs().max(1));
    triangle(|| random.word(), |i| diagonal[i])
}
