//! UTF-8 outside ASCII, whole and damaged.

use super::Rng;

/// What of UTF-8 outside ASCII a report is given, besides that of its keywords.
#[derive(Debug, Clone, Copy, PartialEq, Eq)]
pub(super) enum Letters {
    None,
    Whole,
    Damaged,
}

impl Letters {
    pub fn any(rng: &mut Rng) -> Self {
        [Letters::None, Letters::Whole, Letters::Damaged][rng.weighted(&[36, 27, 37])]
    }

    /// A letter, or bytes of a run that are no UTF-8.
    pub fn piece(self, rng: &mut Rng) -> Vec<u8> {
        match self {
            Letters::None => Vec::new(),
            Letters::Damaged if rng.chance(65) => damaged(rng),
            _ => letter(rng),
        }
    }
}

/// The bytes that do not advance the column, 02 Note 3.
pub(super) fn is_continuation(byte: u8) -> bool {
    matches!(byte, 128..=191)
}

/// By how much a word advances the column.
pub(super) fn advance(word: &[u8]) -> usize {
    word.iter().filter(|&&byte| !is_continuation(byte)).count()
}

/// A letter or a combining mark of two to four bytes.
pub(super) fn letter(rng: &mut Rng) -> Vec<u8> {
    let letters: &[&str] = match rng.below(10) {
        0..=4 => &["µ", "°", "Ω", "ä"],
        5 | 6 => &["–", "€", "中"],
        7 => &["\u{1f600}", "\u{10ffff}"],
        8 => &["\u{301}", "\u{308}", "\u{20e3}"],
        // The first and the last of two and of three bytes.
        _ => &["\u{80}", "\u{7ff}", "\u{800}", "\u{ffff}"],
    };
    rng.pick(letters).as_bytes().to_vec()
}

/// Bytes of a run that are no UTF-8.
pub(super) fn damaged(rng: &mut Rng) -> Vec<u8> {
    let continuation = *rng.pick(&[128, 128, 176, 181, 190, 191]);
    match rng.below(12) {
        0..=2 => vec![continuation],
        3 => vec![continuation; rng.between(2, 6)],
        // A lead byte without its continuation bytes, or with too few.
        4 | 5 => {
            let mut letter = letter(rng);
            letter.pop();
            letter.truncate(rng.between(1, 3));
            letter
        }
        // A continuation byte too many.
        6 => [letter(rng), vec![continuation]].concat(),
        // Overlong, surrogates, past the last letter.
        7 | 8 => rng
            .pick(&[
                &b"\xc0\x80"[..],
                b"\xc1\xbf",
                b"\xe0\x80\x80",
                b"\xed\xa0\x80",
                b"\xed\xbf\xbf",
                b"\xf0\x80\x80\x80",
                b"\xf4\x90\x80\x80",
            ])
            .to_vec(),
        9 => vec![rng.between(0xf5, 0xff) as u8],
        // The bytes on both sides of the rule's ends.
        10 => vec![*rng.pick(&[128, 191, 192, 255])],
        _ => vec![rng.between(128, 255) as u8],
    }
}

/// A letter cut in two by a blank or a break.
pub(super) fn cut(rng: &mut Rng) -> Vec<u8> {
    let mut letter = letter(rng);
    let at = rng.between(1, letter.len() - 1);
    letter.insert(at, *rng.pick(b" \t\r\n\n"));
    letter
}
