//! Slices to be lent for remembered outcomes: of many lengths, mostly with something in them.

use super::Rng;
use crate::second::Start;

/// The longest slice.
pub const MOST_WORDS: usize = 65_536;

/// The length of a slice, what it holds, and the seed of that.
#[derive(Debug, Clone, Copy, PartialEq, Eq)]
pub struct Slice {
    pub length: usize,
    pub holds: Holds,
    pub seed: u64,
}

#[derive(Debug, Clone, Copy, PartialEq, Eq)]
pub enum Holds {
    Zeros,
    Ones,
    Any,
    Small,
    /// Rows of words, each of one sort, as remembered outcomes might be written.
    Outcomes,
}

pub(super) fn slice(rng: &mut Rng) -> Slice {
    let holds = [
        Holds::Zeros,
        Holds::Ones,
        Holds::Any,
        Holds::Small,
        Holds::Outcomes,
    ];
    Slice {
        length: length(rng),
        holds: holds[rng.weighted(&[10, 12, 13, 35, 30])],
        seed: rng.word(),
    }
}

fn length(rng: &mut Rng) -> usize {
    let about = match rng.below(100) {
        0..=7 => return 0,
        8..=11 => return 1,
        12..=21 => return rng.between(2, 15),
        // Some rows of as many words as an outcome may take.
        22..=50 => rng.between(8, 16) * rng.between(1, 12),
        51..=60 => 64,
        61..=74 => rng.between(100, 999),
        75..=86 => 1_024,
        87..=95 => 4_096,
        _ => return MOST_WORDS,
    };
    about + rng.between(0, 2) - 1
}

impl Slice {
    /// What the slice holds, lent for a run from a start.
    pub fn words(&self, start: &Start) -> Vec<u32> {
        let mut rng = Rng::new(self.seed);
        // The words of a row, by their sorts.
        let row: Vec<usize> = (0..rng.between(3, 16)).map(|_| rng.below(8)).collect();
        let bound = *rng.pick(&[2, 2, 3, 4, 16]);
        let one = |number: usize| match self.holds {
            Holds::Zeros => 0,
            Holds::Ones => u32::MAX,
            Holds::Any => rng.word() as u32,
            Holds::Small => rng.below(bound).min(rng.below(bound)) as u32,
            Holds::Outcomes => part(&mut rng, row[number % row.len()], start),
        };
        // Long ones are the same words over and over.
        let words: Vec<u32> = (0..self.length.min(4_100)).map(one).collect();
        words.into_iter().cycle().take(self.length).collect()
    }
}

/// A word of an outcome: a part by its sort, often the start's own.
fn part(rng: &mut Rng, sort: usize, start: &Start) -> u32 {
    let own = rng.chance(40);
    let mut of = |word: u32, bound: usize| if own { word } else { rng.below(bound) as u32 };
    match sort {
        0 => of(u32::from(start.node), 20),
        1 => of(start.place, 12),
        2 => of(u32::from(start.mode), 5),
        3 => of(start.lower, 13),
        4 => of(start.upper.unwrap_or(u32::MAX), 13),
        // A flag, or whether there is an upper end or a success.
        5 => of(1, 2),
        // Two parts in a word.
        6 => of(u32::from(start.node), 20) | of(start.place, 12) << 16,
        _ => of(u32::from(start.mode), 5) << 16 | of(u32::from(start.flag), 2),
    }
}
