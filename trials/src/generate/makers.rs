//! Spellings that are nearly the same, as the keywords of one maker are, and near misses.

use super::files::{name, SINGLES};
use super::Rng;
use std::collections::BTreeSet;

/// The length of the longest keyword or name.
const LONGEST: usize = 32;

/// How the spellings of a list differ from their stem.
#[derive(Clone, Copy)]
enum Differ {
    /// In the byte at one place.
    Byte(usize),
    /// Each in a byte at a place of its own.
    AnyByte,
    /// In a number of so many digits at one place.
    Number(usize, usize),
    /// Not at all: only the stem itself is there.
    Nowhere,
}

/// The stem of a list, and how its spellings differ.
struct Maker {
    stem: Vec<u8>,
    /// The bytes that may stand in a spelling.
    bytes: Vec<u8>,
    differ: Differ,
    /// The number of the first byte or the first number.
    first: usize,
}

/// So many keywords that are nearly the same, or rule names: those may hold single bytes.
pub(super) fn alike(rng: &mut Rng, count: usize, names: bool) -> Vec<Vec<u8>> {
    let maker = maker(rng, names);
    // Where the maker's own are too few, and now and then, some follow that begin or end
    // others, or nearly are others.
    let most = if rng.chance(30) {
        rng.below(count + 1)
    } else {
        2 * count
    };
    let own = maker.count().min(most).max(1);
    let mut words: Vec<Vec<u8>> = Vec::new();
    let mut met = BTreeSet::new();
    for i in 0.. {
        if words.len() == count {
            break;
        }
        let next = if i < own {
            maker.spelling(rng, i)
        } else {
            follower(rng, &words, &maker.bytes)
        };
        if may_stand(&next, names) && met.insert(next.clone()) {
            words.push(next);
        }
    }
    if rng.chance(40) {
        for i in 1..count {
            words.swap(i, rng.below(i + 1));
        }
    }
    words
}

fn maker(rng: &mut Rng, names: bool) -> Maker {
    let stem = stem(rng, names);
    let single = names || stem.len() == 1;
    // Mostly they begin alike.
    let end = stem.len() - 1;
    let any = place(rng, stem.len());
    let at = *rng.pick(&[end, any, any]);
    let digits = rng.between(2, 3);
    let differ = match rng.below(10) {
        0..=4 => Differ::Byte(at),
        5 | 6 => Differ::AnyByte,
        7 | 8 => Differ::Number(at.min(stem.len().saturating_sub(digits)), digits),
        _ => Differ::Nowhere,
    };
    Maker {
        stem,
        bytes: (33..=255)
            .filter(|byte| is_plain(*byte) || single && SINGLES.contains(byte))
            .collect(),
        differ,
        first: rng.below(1_000),
    }
}

/// Often as long as may be; of many bytes or of one.
fn stem(rng: &mut Rng, names: bool) -> Vec<u8> {
    let length = match rng.below(10) {
        0..=5 => LONGEST,
        6 | 7 => *rng.pick(&[4, 7, 8, 9, 15, 16, 17, 24, 31]),
        _ => rng.between(1, LONGEST),
    };
    if rng.chance(15) {
        return vec![*rng.pick(b"ak0-"); length];
    }
    let mut stem = Vec::new();
    while stem.len() < length {
        stem.extend(name(rng));
        stem.retain(|&byte| names || is_plain(byte));
    }
    stem.truncate(length);
    stem
}

impl Maker {
    /// How many spellings there are, or may be tried.
    fn count(&self) -> usize {
        match self.differ {
            Differ::Byte(_) => self.bytes.len(),
            Differ::AnyByte => usize::MAX,
            Differ::Number(_, digits) => 10usize.pow(digits as u32),
            Differ::Nowhere => 1,
        }
    }

    /// A spelling by its number.
    fn spelling(&self, rng: &mut Rng, i: usize) -> Vec<u8> {
        let mut word = self.stem.clone();
        match self.differ {
            Differ::Byte(at) => word[at] = self.bytes[(self.first + i) % self.bytes.len()],
            Differ::AnyByte => word[place(rng, self.stem.len())] = *rng.pick(&self.bytes),
            Differ::Number(at, digits) => {
                let number = format!("{:03}", (self.first + i) % 1_000);
                let end = word.len().min(at + digits);
                word.splice(at..end, number.bytes().skip(3 - digits));
            }
            Differ::Nowhere => {}
        }
        word
    }
}

/// The last spelling or any, with a byte cut off or added behind it or ahead of it, or else
/// missed in some other way.
fn follower(rng: &mut Rng, words: &[Vec<u8>], bytes: &[u8]) -> Vec<u8> {
    let any = rng.below(words.len());
    let mut word = words[*rng.pick(&[any, words.len() - 1])].clone();
    match rng.below(6) {
        0 => {
            word.pop();
        }
        1 => {
            word.remove(0);
        }
        2 => word.push(*rng.pick(bytes)),
        3 => word.insert(0, *rng.pick(bytes)),
        _ => miss(rng, &mut word, &words[any]),
    }
    word
}

fn may_stand(word: &[u8], names: bool) -> bool {
    let single = word.iter().any(|byte| SINGLES.contains(byte));
    (1..=LONGEST).contains(&word.len()) && (names || word.len() == 1 || !single)
}

/// Whether a byte may stand in a longer keyword.
fn is_plain(byte: u8) -> bool {
    byte > 32 && byte != 127 && !SINGLES.contains(&byte)
}

/// A place among so many: the last, the first, the middle or any.
fn place(rng: &mut Rng, count: usize) -> usize {
    match rng.below(6) {
        0 | 1 => count - 1,
        2 => 0,
        3 => count / 2,
        _ => rng.below(count),
    }
}

/// Another byte that may stand in a longer keyword, often one that differs in one bit.
fn other_byte(rng: &mut Rng, byte: u8) -> u8 {
    loop {
        let other = match rng.below(2) {
            0 => byte ^ (1 << rng.below(8)),
            _ => rng.between(33, 255) as u8,
        };
        if other != byte && is_plain(other) {
            return other;
        }
    }
}

/// Changes one byte of a spelling, which has one.
pub(super) fn change(rng: &mut Rng, word: &mut [u8]) {
    let at = place(rng, word.len());
    word[at] = other_byte(rng, word[at]);
}

/// Makes a near miss of a spelling, which is not empty, with another one at hand.
pub(super) fn miss(rng: &mut Rng, word: &mut Vec<u8>, other: &[u8]) {
    let at = place(rng, word.len());
    match rng.below(16) {
        0..=3 => {
            word.remove(at);
        }
        4..=6 => grow(rng, word, 1),
        7..=10 => change(rng, word),
        // Two neighbours exchanged.
        11 | 12 => word.swap(at, at.saturating_sub(1)),
        13 => *word = joined(rng, word, other),
        // So many bytes that a length stays the same in its last bits.
        14 => {
            let more = *rng.pick(&[8, 16, 16, 32, 256]);
            grow(rng, word, more);
        }
        _ => {
            let less = word.len().min(*rng.pick(&[8, 16, 16]));
            let at = place(rng, word.len() - less + 1);
            word.drain(at..at + less);
        }
    }
}

/// Puts so many bytes into a spelling, each like the next one or another.
fn grow(rng: &mut Rng, word: &mut Vec<u8>, more: usize) {
    let at = place(rng, word.len() + 1);
    let next = word[at.min(word.len() - 1)];
    let byte = if rng.chance(50) {
        next
    } else {
        other_byte(rng, next)
    };
    word.splice(at..at, vec![byte; more]);
}

/// Parts of two spellings: mostly the front of one and of the other the end behind it, else
/// two fronts, two ends or an end and a front.
fn joined(rng: &mut Rng, one: &[u8], two: &[u8]) -> Vec<u8> {
    let (front, end) = one.split_at(place(rng, one.len() + 1));
    if rng.chance(50) {
        let behind = two.get(front.len()..).unwrap_or_default();
        return [front, behind].concat();
    }
    let (other_front, other_end) = two.split_at(place(rng, two.len() + 1));
    [
        *rng.pick(&[front, end]),
        *rng.pick(&[other_front, other_end]),
    ]
    .concat()
}

#[cfg(test)]
mod tests {
    use super::*;

    #[test]
    fn lists_by_the_rules() {
        let mut rng = Rng::new(1);
        for case in 0..2_000 {
            let (count, names) = (rng.below(254), case % 2 == 1);
            let words = alike(&mut rng, count, names);
            assert_eq!(words.len(), count);
            assert_eq!(BTreeSet::from_iter(&words).len(), count);
            for word in &words {
                assert!((1..=32).contains(&word.len()), "{word:?}");
                let plain = |&byte: &u8| byte > 32 && byte != 127;
                assert!(word.iter().all(plain), "{word:?}");
                let single = word.iter().any(|byte| SINGLES.contains(byte));
                assert!(names || word.len() == 1 || !single, "{word:?}");
            }
        }
    }
}
