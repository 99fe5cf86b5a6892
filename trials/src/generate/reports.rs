//! Reports for grammar files, good and damaged, with the room lent for their tokens.

use super::files::{bytes, fields, file_input, source, Source, SINGLES};
use super::grammars::Walk;
use super::letters::{advance, cut, is_continuation, Letters};
use super::makers::miss;
use super::Rng;
use crate::second::run::{Interval, State};
use crate::second::{scan, Reading};

/// A file, a report and the length, in words, of the lent slice.
#[derive(Debug, Clone, PartialEq, Eq)]
pub struct ReportInput {
    pub file: Vec<u8>,
    pub report: Vec<u8>,
    pub room: usize,
}

/// An input for the scanner and for the whole program.
pub fn report_input(rng: &mut Rng) -> ReportInput {
    let source = source(rng);
    let letters = Letters::any(rng);
    let mut report = match rng.below(100) {
        // Of a maker's keywords a walk reads few.
        0..=49 if !source.alike || rng.chance(40) => {
            // Some tries to come by a report that is not short.
            let walks = (0..3).map(|_| walked(rng, &source));
            let tokens = walks.max_by_key(Vec::len).unwrap_or_default();
            rendered(rng, &source, letters, &tokens)
        }
        0..=87 => pieces(rng, &source, letters),
        _ if letters == Letters::None => limits(rng, &source),
        _ => letter_limits(rng, &source, letters),
    };
    if rng.chance(8) {
        let refused = *rng.pick(&[0, 1, 8, 11, 12, 14, 31, 127]);
        report.insert(rng.between(0, report.len()), refused);
    }
    let file = if rng.chance(10) {
        file_input(rng).file
    } else {
        bytes(&fields(&source))
    };
    let mut room = 16_384;
    if rng.chance(15) {
        // Exact room, or one word less, or little.
        if let Ok(tokens) = scan(&file, &report, room) {
            room = tokens.len();
        }
        match rng.below(3) {
            0 => room = room.saturating_sub(1),
            1 => room = rng.below(room + 1),
            _ => {}
        }
    }
    ReportInput { file, report, room }
}

/// The text for one terminal.
fn spelling(rng: &mut Rng, source: &Source, letters: Letters, terminal: u32) -> Vec<u8> {
    match terminal {
        0 => rng
            .pick(&["0", "17", "-4", "0.03", "-12.500", "007"])
            .as_bytes()
            .to_vec(),
        1 if source.alike && rng.chance(80) => no_keyword(rng, source, letters),
        1 => word(rng, letters),
        2 => Vec::new(),
        _ => source
            .keywords
            .get(terminal as usize - 3)
            .cloned()
            .unwrap_or_default(),
    }
}

/// A word; one with letters has them ahead of, inside or behind ASCII, or alone.
fn word(rng: &mut Rng, letters: Letters) -> Vec<u8> {
    if letters == Letters::None || rng.chance(20) {
        let words = [
            "x", "word", "1.", ".5", "-", "--1", "1.2.3", "1e5", "-.1", "1-",
        ];
        return rng.pick(&words).as_bytes().to_vec();
    }
    let ascii = ["", "", "x", "ab", "20", "-4", "0.5"];
    let mut word = rng.pick(&ascii).as_bytes().to_vec();
    let at = rng.between(0, word.len());
    word.splice(at..at, letters.piece(rng));
    if rng.chance(30) {
        word.extend(letters.piece(rng));
    }
    word
}

/// The terminals and columns of a walk from the start.
fn walked(rng: &mut Rng, source: &Source) -> Vec<[u32; 2]> {
    let begin = State {
        interval: Interval {
            lower: 0,
            upper: None,
        },
        place: 0,
        flag: false,
    };
    let mut walk = Walk {
        rng,
        grammar: &source.grammar,
        reading: Reading::By2017,
        tokens: Vec::new(),
        most: 60,
        fuel: 2_000,
    };
    walk.expression(source.start, u16::from(source.mode), begin, 0);
    walk.tokens
}

/// A text in the making, and the column that its last line has reached.
#[derive(Default)]
struct Page {
    text: Vec<u8>,
    column: usize,
    had_token: bool,
}

impl Page {
    fn blank(&mut self) {
        self.text.push(b' ');
        self.column += 1;
    }

    /// A token at the wanted column where the line allows it: it may follow a blank, or
    /// nothing at the line's start.
    fn token(&mut self, word: &[u8], wanted: usize) {
        while self.column < wanted || (self.had_token && self.text.last() != Some(&b' ')) {
            self.blank();
        }
        self.text.extend(word);
        self.column += advance(word);
        self.had_token = true;
    }

    fn line_end(&mut self, wanted: usize) {
        while self.had_token && self.column < wanted {
            self.blank();
        }
        self.text.push(b'\n');
        self.column = 0;
        self.had_token = false;
    }
}

/// A walk's tokens as text, each at its column where the line allows it.
fn rendered(rng: &mut Rng, source: &Source, letters: Letters, tokens: &[[u32; 2]]) -> Vec<u8> {
    // Now and then lines begin with a word of which the walk knows nothing.
    let ahead = letters != Letters::None && rng.chance(10);
    let mut page = Page::default();
    for &[terminal, wanted] in tokens {
        if terminal == 2 {
            page.line_end(wanted as usize);
            continue;
        }
        if ahead && !page.had_token && wanted > 0 {
            page.token(&letters.piece(rng), 0);
        }
        let word = spelling(rng, source, letters, terminal);
        page.token(&word, wanted as usize);
    }
    let mut report = page.text;
    if rng.chance(30) {
        report.push(b'\n');
    }
    if rng.chance(20) {
        strew(rng, &mut report, letters);
    }
    report
}

/// Words, numbers, keywords, blanks and breaks in any order.
fn pieces(rng: &mut Rng, source: &Source, letters: Letters) -> Vec<u8> {
    let mut report = Vec::new();
    let count = match rng.below(20) {
        0 => rng.between(200, 1_500),
        1..=4 => rng.between(20, 80),
        _ if source.alike => rng.between(8, 30),
        _ => rng.below(16),
    };
    for _ in 0..count {
        report.extend(piece(rng, source, letters));
        match rng.below(20) {
            0..=8 => report.extend(vec![b' '; rng.between(1, 4)]),
            9 | 10 => report.push(b'\t'),
            11 => report.push(b'\r'),
            12..=14 => report.push(b'\n'),
            15 => report.extend(b"\r\n"),
            16 => report.extend(b"\n\n  \n"),
            _ => {}
        }
    }
    if rng.chance(50) {
        strew(rng, &mut report, letters);
    }
    report
}

/// Of a maker's keywords mostly one or nearly one, else anything.
fn piece(rng: &mut Rng, source: &Source, letters: Letters) -> Vec<u8> {
    if source.alike && rng.chance(75) {
        return near_keyword(rng, source, letters);
    }
    match rng.below(20) {
        0..=3 => spelling(rng, source, letters, 0),
        4..=6 => spelling(rng, source, letters, 1),
        7..=10 if !source.keywords.is_empty() => near_keyword(rng, source, letters),
        11 => vec![*rng.pick(SINGLES)],
        12 => [vec![*rng.pick(SINGLES)], letters.piece(rng)].concat(),
        13 => letters.piece(rng),
        14 => vec![rng.between(33, 126) as u8],
        15 => vec![b'w'; rng.between(30, 40)],
        _ => Vec::new(),
    }
}

/// A keyword, or nearly one: of a maker's more often the latter.
fn near_keyword(rng: &mut Rng, source: &Source, letters: Letters) -> Vec<u8> {
    let mut word = rng.pick(&source.keywords).clone();
    if rng.chance(if source.alike { 60 } else { 10 }) {
        let other = rng.pick(&source.keywords);
        miss(rng, &mut word, other);
    } else if rng.chance(15) {
        word.pop();
    } else if rng.chance(10) {
        word.push(b'x');
    } else if rng.chance(10) {
        word.extend(letters.piece(rng));
    }
    word
}

/// Nearly a keyword, but none: else a word.
fn no_keyword(rng: &mut Rng, source: &Source, letters: Letters) -> Vec<u8> {
    let near = near_keyword(rng, source, letters);
    if near.is_empty() || source.keywords.contains(&near) {
        word(rng, letters)
    } else {
        near
    }
}

/// Puts letters or damage into a report, at places of all kinds.
fn strew(rng: &mut Rng, report: &mut Vec<u8>, letters: Letters) {
    if letters == Letters::None {
        return;
    }
    for _ in 0..rng.between(1, 5) {
        let at = place(rng, report, letters);
        let piece = if letters == Letters::Damaged && rng.chance(20) {
            cut(rng)
        } else {
            letters.piece(rng)
        };
        report.splice(at..at, piece);
    }
}

/// An offset at a place of some kind, if the report has one; whole letters stay whole.
fn place(rng: &mut Rng, report: &[u8], letters: Letters) -> usize {
    let blank = |byte: u8| byte <= b' ';
    let kind = rng.below(8);
    let fits = |&at: &usize| {
        // The text's ends count as breaks.
        let before = at.checked_sub(1).map_or(b'\n', |before| report[before]);
        let behind = report.get(at).copied().unwrap_or(b'\n');
        if letters == Letters::Whole && is_continuation(behind) {
            return false;
        }
        match kind {
            0 => before == b'\n',
            1 => before == b'\t',
            2 => behind == b'\n',
            3 => at == report.len(),
            4 => blank(before) && blank(behind),
            5 => blank(before) != blank(behind),
            6 => SINGLES.contains(&before) || SINGLES.contains(&behind),
            _ => true,
        }
    };
    let places: Vec<usize> = (0..=report.len()).filter(fits).collect();
    if places.is_empty() {
        return report.len();
    }
    *rng.pick(&places)
}

/// A report at a limit or just past one.
fn limits(rng: &mut Rng, source: &Source) -> Vec<u8> {
    let mut report = pieces(rng, source, Letters::None);
    match rng.below(6) {
        // 65,535 or 65,536 bytes.
        0 => {
            let fill = *rng.pick(b" \ta\n");
            report.resize(*rng.pick(&[65_534, 65_535, 65_535, 65_536]), fill);
        }
        // Columns around 65,535, of a token and of its line's end.
        1 | 2 => {
            report.push(b'\n');
            report.extend(vec![b'\t'; *rng.pick(&[8_191, 8_191, 8_192])]);
            report.extend(vec![b' '; rng.below(9)]);
            report.extend(rng.pick(&["", "a", "ab", "a\n", ":"]).as_bytes());
        }
        // A line's end far behind its last token.
        3 => {
            report.extend(b"\na");
            report.extend(vec![b'\t'; *rng.pick(&[8_190, 8_191, 8_192])]);
            report.extend(rng.pick(&["", "\n", "\nb"]).as_bytes());
        }
        // About 4,096 tokens: singles on one line, and the line's end.
        4 => {
            report = vec![b':'; *rng.pick(&[4_094, 4_095, 4_095, 4_096, 4_097, 9_000])];
            if rng.chance(20) {
                report.extend(vec![b'\t'; 8_000]);
                report.push(b'a');
            }
        }
        // Two tokens a line.
        _ => {
            report = b"a\n".repeat(*rng.pick(&[2_047, 2_048, 2_049]));
            report.extend(rng.pick(&["", " ", "x"]).as_bytes());
        }
    }
    report
}

/// A report at a limit or just past one, with letters or damage there.
fn letter_limits(rng: &mut Rng, source: &Source, letters: Letters) -> Vec<u8> {
    let mut report = pieces(rng, source, letters);
    match rng.below(10) {
        // 65,535 or 65,536 bytes, also of continuation bytes alone.
        0 => {
            if rng.chance(60) {
                report.clear();
            }
            let fill = *rng.pick(&[128, 191]);
            report.resize(*rng.pick(&[65_534, 65_535, 65_535, 65_536]), fill);
        }
        1 | 2 => return long_line(rng, letters),
        3..=6 => {
            report.push(b'\n');
            report.extend(far_tokens(rng, letters));
        }
        // A line's end far behind its first token.
        7 => {
            report.push(b'\n');
            report.extend(letters.piece(rng));
            report.extend(vec![b'\t'; *rng.pick(&[8_190, 8_191, 8_192])]);
            report.extend(letters.piece(rng));
            report.extend(rng.pick(&["", "\n", "\nb"]).as_bytes());
        }
        // About 4,096 tokens: runs with a single each, or a blank, and the line's end.
        _ => {
            let (count, behind) = *rng.pick(&[
                (2_047, b':'),
                (2_048, b':'),
                (4_094, b' '),
                (4_095, b' '),
                (4_096, b' '),
            ]);
            report = [letters.piece(rng), vec![behind]].concat().repeat(count);
            report.extend(rng.pick(&["", ":", "\n"]).as_bytes());
        }
    }
    report
}

/// Columns around 65,535, of tokens and of their line's end.
fn far_tokens(rng: &mut Rng, letters: Letters) -> Vec<u8> {
    let mut line = vec![b'\t'; *rng.pick(&[8_191, 8_191, 8_191, 8_192])];
    if rng.chance(30) {
        line.extend(letters.piece(rng));
    }
    line.extend(vec![b' '; *rng.pick(&[0, 5, 6, 6, 7, 7, 7, 8])]);
    // A token of continuation bytes leaves the column as it is.
    if rng.chance(50) {
        line.extend(vec![*rng.pick(&[128, 191]); rng.between(1, 3)]);
    } else {
        line.extend(letters.piece(rng));
    }
    line.extend(rng.pick(&["", "", "a", ":", " ", "\n", "\nb"]).as_bytes());
    if rng.chance(30) {
        line.extend(letters.piece(rng));
    }
    line
}

/// One line of 65,535 bytes, or one more or less: tabs, a long run, and a last token
/// around column 65,535.
fn long_line(rng: &mut Rng, letters: Letters) -> Vec<u8> {
    let length = *rng.pick(&[65_534, 65_535, 65_535, 65_535, 65_536]);
    let tail = rng.pick(&[" a", " \u{b5}", ":", " ", "\n"]).as_bytes();
    let piece = if rng.chance(40) {
        vec![128]
    } else {
        letters.piece(rng)
    };
    // By tabs and pieces alone the line comes to 65,535 bytes and as many columns.
    let staying = piece.len() - advance(&piece);
    let tabs = 65_535 * staying / (7 * piece.len() + staying);
    let mut line = vec![b'\t'; (tabs + 1).saturating_sub(rng.below(4))];
    let run = length - line.len() - tail.len();
    line.extend(piece.iter().cycle().take(run));
    line.extend(tail);
    line
}
