//! The scanner: checks 1 to 5 of the file, 8 to 10 of the report.

use super::{file, MOST_BYTES, MOST_COLUMN, MOST_TOKENS};

/// The offset and column reached, and whether the line there has had a token.
#[derive(Debug, Clone, Copy, PartialEq, Eq)]
pub struct Value {
    pub offset: usize,
    pub column: u32,
    pub had_token: bool,
}

/// What one call for a token answers.
#[derive(Debug, Clone, Copy, PartialEq, Eq)]
pub enum Handed {
    /// Terminal, column, offset, length.
    Token([u32; 4]),
    Nothing,
    Refused(u8),
}

/// The largest column that a text can reach: 65,535 tabs.
const FARTHEST_COLUMN: u32 = 524_280;

/// Scans the whole report into a slice of `room` words.
pub fn scan(file: &[u8], report: &[u8], room: usize) -> Result<Vec<u32>, u8> {
    let grammar = file::parse(file)?;
    if report.len() > MOST_BYTES {
        return Err(8);
    }
    let keywords = Keywords::new(&grammar.keywords);
    let most = MOST_TOKENS.min(room / 4);
    let mut words = Vec::new();
    let mut count = 0;
    let mut column_over = false;
    let mut at = Value {
        offset: 0,
        column: 0,
        had_token: false,
    };
    // A refused byte anywhere comes before 9, and 9 anywhere before 10, so the text
    // is gone through to its end in any case.
    while let Some(token) = step(report, &keywords, &mut at)? {
        column_over |= token[1] > MOST_COLUMN;
        count += 1;
        if count <= most {
            words.extend_from_slice(&token);
        }
    }
    if column_over {
        return Err(9);
    }
    if count > most {
        return Err(10);
    }
    Ok(words)
}

/// Hands out the next token, with the value behind it. The file is checked by 1 to 5,
/// all the text by 8, this token by 9; "a refused call leaves the value unchanged".
pub fn next_token(file: &[u8], report: &[u8], v: Value) -> (Handed, Value) {
    let grammar = match file::parse(file) {
        Ok(grammar) => grammar,
        Err(number) => return (Handed::Refused(number), v),
    };
    if text(report).is_err() || v.offset > report.len() || v.column > FARTHEST_COLUMN {
        return (Handed::Refused(8), v);
    }
    let keywords = Keywords::new(&grammar.keywords);
    let mut at = v;
    match step(report, &keywords, &mut at) {
        Ok(Some([_, column, ..])) if column > MOST_COLUMN => (Handed::Refused(9), v),
        Ok(Some(token)) => (Handed::Token(token), at),
        Ok(None) => (Handed::Nothing, at),
        Err(number) => (Handed::Refused(number), v),
    }
}

/// Check 8 of a whole text: "report over length or refused byte".
pub(super) fn text(report: &[u8]) -> Result<(), u8> {
    if report.len() > MOST_BYTES || report.iter().any(|&byte| class(byte) == Class::Refused) {
        return Err(8);
    }
    Ok(())
}

/// Goes on to the next token and gives it, or `None` at the end of the text; a
/// refused byte met on the way is 8.
fn step(text: &[u8], keywords: &Keywords, at: &mut Value) -> Result<Option<[u32; 4]>, u8> {
    while let Some(&byte) = text.get(at.offset) {
        match class(byte) {
            // "Byte 10 ends a line and sets the column to 0."
            Class::Break => {
                let end = at.had_token.then(|| line_end(at));
                *at = Value {
                    offset: at.offset + 1,
                    column: 0,
                    had_token: false,
                };
                if end.is_some() {
                    return Ok(end);
                }
            }
            // "Byte 9 moves to the next higher multiple of 8."
            Class::Tab => {
                at.column = (at.column / 8 + 1) * 8;
                at.offset += 1;
            }
            Class::Blank => {
                at.column += 1;
                at.offset += 1;
            }
            Class::Single => return Ok(Some(token(text, (1, 1), keywords, at))),
            Class::Run | Class::Continuation => {
                let run = run(&text[at.offset..]);
                return Ok(Some(token(text, run, keywords, at)));
            }
            Class::Refused => return Err(8),
        }
    }
    // "also at the end of the text"; the column is kept.
    let end = at.had_token.then(|| line_end(at));
    at.had_token = false;
    Ok(end)
}

/// The length in bytes of the run that stands first, "longest runs of the remaining
/// bytes", and by how much it advances the column.
fn run(rest: &[u8]) -> (usize, u32) {
    let mut staying = 0;
    let other = rest.iter().position(|&byte| match class(byte) {
        Class::Run => false,
        Class::Continuation => {
            staying += 1;
            false
        }
        _ => true,
    });
    let length = other.unwrap_or(rest.len());
    (length, (length - staying) as u32)
}

/// The line end where the value stands: terminal 2, length 0.
fn line_end(at: &Value) -> [u32; 4] {
    [2, at.column, at.offset as u32, 0]
}

/// The token of `length` bytes where the value stands; moves right behind it.
fn token(
    text: &[u8],
    (length, advance): (usize, u32),
    keywords: &Keywords,
    at: &mut Value,
) -> [u32; 4] {
    let spelling = &text[at.offset..at.offset + length];
    // "3 + k where the spelling equals keyword k .. else 0 .. else 1"
    let terminal = match keywords.find(spelling) {
        Some(keyword) => 3 + u32::from(keyword),
        None if is_number(spelling) => 0,
        None => 1,
    };
    let token = [terminal, at.column, at.offset as u32, length as u32];
    at.offset += length;
    at.column += advance;
    at.had_token = true;
    token
}

/// "an optional `-`, digits, optionally `.` and digits, each group non-empty".
fn is_number(spelling: &[u8]) -> bool {
    let digits = |group: &[u8]| !group.is_empty() && group.iter().all(u8::is_ascii_digit);
    let bare = spelling.strip_prefix(b"-").unwrap_or(spelling);
    match bare.iter().position(|&byte| byte == b'.') {
        Some(point) => digits(&bare[..point]) && digits(&bare[point + 1..]),
        None => digits(bare),
    }
}

/// What a byte of the report is.
#[derive(Clone, Copy, PartialEq, Eq)]
enum Class {
    Break,
    Tab,
    Blank,
    Single,
    Run,
    /// A byte of a run that leaves the column: "A byte from 128 to 191 no longer
    /// advances the column" (02 Note 3), whether or not it continues a letter.
    Continuation,
    Refused,
}

const CLASSES: [Class; 256] = {
    let mut classes = [Class::Run; 256];
    let mut byte = 0;
    while byte < 256 {
        classes[byte] = match byte as u8 {
            10 => Class::Break,
            9 => Class::Tab,
            13 | 32 => Class::Blank,
            // "Other bytes below 32, and 127, are refused."
            0..=31 | 127 => Class::Refused,
            single if file::is_single(single) => Class::Single,
            128..=191 => Class::Continuation,
            _ => Class::Run,
        };
        byte += 1;
    }
    classes
};

fn class(byte: u8) -> Class {
    CLASSES[usize::from(byte)]
}

/// The keywords by their spelling: an open hash table, at most half full.
struct Keywords<'f> {
    list: &'f [&'f [u8]],
    /// A keyword's number, or `FREE`.
    slots: [u8; 512],
}

/// No keyword has this number: there are at most 253.
const FREE: u8 = 255;

impl<'f> Keywords<'f> {
    fn new(list: &'f [&'f [u8]]) -> Self {
        let mut slots = [FREE; 512];
        for (number, word) in (0u8..).zip(list) {
            let mut slot = hash(word);
            while slots[slot] != FREE {
                slot = (slot + 1) % 512;
            }
            slots[slot] = number;
        }
        Keywords { list, slots }
    }

    fn find(&self, spelling: &[u8]) -> Option<u8> {
        // A keyword has at most 32 bytes.
        if spelling.len() > 32 {
            return None;
        }
        let mut slot = hash(spelling);
        loop {
            match self.slots[slot] {
                FREE => return None,
                number if self.list[usize::from(number)] == spelling => return Some(number),
                _ => slot = (slot + 1) % 512,
            }
        }
    }
}

/// FNV-1a, folded to 0..512.
fn hash(word: &[u8]) -> usize {
    let mut hash: u32 = 0x811c_9dc5;
    for &byte in word {
        hash = (hash ^ u32::from(byte)).wrapping_mul(0x0100_0193);
    }
    ((hash ^ (hash >> 16)) % 512) as usize
}
