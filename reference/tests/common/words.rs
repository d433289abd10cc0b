//! Words that no Load made, and jobs that no Run answered.

use reference::area::AREA_WORDS;
use reference::job::Job;
use reference::random::Random;

/// How words are drawn.
#[derive(Debug, Clone, Copy)]
pub enum Words {
    Any,
    Ends,
    NearPowers,
    Small,
}

impl Words {
    pub const ALL: [Words; 4] = [Words::Any, Words::Ends, Words::NearPowers, Words::Small];

    pub fn draw(self, random: &mut Random) -> i32 {
        match self {
            Words::Any => random.word(),
            Words::Ends => random.choose(&[i32::MIN, i32::MIN + 1, -1, 0, 1, i32::MAX]),
            Words::NearPowers => {
                let power = 1 << random.below(32);
                let word = power + random.between(-1, 1);
                (if random.one_in(2) { word } else { -word }) as i32
            }
            Words::Small => random.between(-20, 20) as i32,
        }
    }
}

/// A job with any turn number up to 120, and any turns made up to that.
pub fn any_job(random: &mut Random) -> Job {
    let turn = random.below(121);
    Job::new(turn as u32, random.below(turn + 1) as u32)
}

/// An area of one way of drawing, or with the ways mixed word by word.
pub fn arbitrary_area(random: &mut Random) -> [i32; AREA_WORDS] {
    let only = Words::ALL.get(random.below(5)).copied();
    std::array::from_fn(|_| {
        let words = only.unwrap_or_else(|| random.choose(&Words::ALL));
        words.draw(random)
    })
}
