//! Extreme words at every place of R, where they may stand and where not.

use reference::area::{WorkArea, AREA_WORDS};
use reference::matrix::REAL_SIZE;
use reference::page::extreme_words;
use reference::random::Random;
use reference::records::write_result;

use super::compared::Compared;
use super::inputs::{any_finished, finished};

const LAST: usize = REAL_SIZE - 1;

/// The number that is due where a finished R has another word at one place.
fn number((i, j): (usize, usize), word: i32) -> i32 {
    let under = i > j && word != 0;
    let negative = i == j && i < LAST && word < 0;
    if under || negative {
        8
    } else {
        0
    }
}

fn places() -> impl Iterator<Item = (usize, usize)> {
    (0..REAL_SIZE).flat_map(|i| (0..REAL_SIZE).map(move |j| (i, j)))
}

/// A record with one word at a place and others around it: nothing but zeros, and anything that is
/// accepted.
fn records(at: (usize, usize), word: i32, random: &mut Random) -> [[u8; 2049]; 2] {
    let zeros = WorkArea::from_words(&[0; AREA_WORDS]);
    [zeros, any_finished(random)].map(|mut area| {
        area.set_word(at.0, at.1, word);
        write_result(&area)
    })
}

/// Too many for the program, so the reference alone works them.
#[test]
fn each_extreme_word_alone_at_every_place() {
    let mut compared = Compared::default();
    let mut random = Random::new(711);
    for at in places() {
        for word in extreme_words() {
            for record in records(at, word, &mut random) {
                let says = compared.examine(&record);
                assert_eq!(says.number(), number(at, word), "{word} at {at:?}");
            }
        }
    }
    compared.print("Each extreme word alone at every place");
}

/// As many records as there are words: each has the words in turn, all over R and Q, and begins
/// with another one. So every word stands at every place where it may.
#[test]
fn each_extreme_word_at_every_place_where_it_may_stand() {
    let mut compared = Compared::default();
    let words = extreme_words();
    let mut stands = vec![];
    for first in 0..words.len() {
        let mut turns = words.iter().cycle().skip(first);
        let area = finished(|| *turns.next().expect("they never end"));
        assert_eq!(compared.compare(&write_result(&area)).number(), 0);
        stands.extend(places().map(|(i, j)| ((i, j), area.r(i, j))));
    }
    for at in places() {
        for &word in &words {
            let may = number(at, word) == 0;
            assert_eq!(stands.contains(&(at, word)), may, "{word} at {at:?}");
        }
    }
    compared.print("Each extreme word at every place where it may stand");
}

/// A 1 at each place, a bit alone and two extreme words, so that each bit and each word has its
/// turn at several places.
#[test]
fn words_under_the_diagonal() {
    let mut compared = Compared::default();
    let mut random = Random::new(712);
    let mut words = extreme_words();
    words.retain(|&word| word != 0);
    let under = places().filter(|(i, j)| i > j).enumerate();
    for (k, at) in under {
        let [first, second] = [k, k + 13].map(|k| words[k % words.len()]);
        for word in [1, 1 << (k % 32), first, second] {
            for record in records(at, word, &mut random) {
                let says = compared.compare(&record);
                assert_eq!(says.number(), 8, "{word} at {at:?}");
            }
        }
    }
    compared.print("Words under the diagonal");
}

#[test]
fn each_extreme_word_on_the_diagonal() {
    let mut compared = Compared::default();
    let mut random = Random::new(713);
    for i in 0..REAL_SIZE {
        for word in extreme_words() {
            let [among_zeros, among_words] = records((i, i), word, &mut random);
            let refused = word < 0 && i < LAST;
            let record = if refused { among_zeros } else { among_words };
            let says = compared.compare(&record);
            assert_eq!(says.number(), if refused { 8 } else { 0 }, "{word} at {i}");
        }
    }
    compared.print("Each extreme word on the diagonal");
}
