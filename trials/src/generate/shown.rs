//! Captures whose text is to be shown, with a grammar file, a report and tokens, good and
//! damaged.

use super::files::file_input;
use super::reports::{report_input, ReportInput};
use super::runs::break_tokens;
use super::Rng;
use crate::second::{list_within, read, scan, Listed, Reading, Start};

/// A file, a report, tokens, and a capture of these.
#[derive(Debug, Clone, PartialEq, Eq)]
pub struct ShownInput {
    pub file: Vec<u8>,
    pub report: Vec<u8>,
    pub tokens: Vec<u32>,
    pub capture: [u32; 4],
}

/// An input for the shown text. Mostly the tokens are the report's, and the capture is one
/// of the file's own run on them; one or two things about them may be changed then. The
/// stack must do for that run.
pub fn shown_input(rng: &mut Rng) -> ShownInput {
    let ReportInput {
        mut file, report, ..
    } = report_input(rng);
    if rng.chance(6) {
        file = file_input(rng).file;
    }
    let scanned = scan(&file, &report, 16_384).ok();
    let tokens = scanned
        .filter(|_| rng.chance(85))
        .unwrap_or_else(|| made_up(rng, report.len()));
    let rules = read(&file, usize::MAX, usize::MAX).map_or(0, |read| read.rules.len());
    let capture = listed(rng, &file, &tokens)
        .filter(|_| rng.chance(75))
        .unwrap_or_else(|| any_capture(rng, rules, tokens.len() / 4));
    let mut input = ShownInput {
        file,
        report,
        tokens,
        capture,
    };
    if rng.chance(45) {
        for _ in 0..rng.between(1, 2) {
            disturb(rng, &mut input);
        }
    }
    if rng.chance(35) {
        move_capture(rng, &mut input, rules as u32);
    }
    if rng.chance(6) {
        break_tokens(rng, &mut input.tokens);
    }
    input
}

/// Tokens that no scan gave, mostly with offsets that rise.
fn made_up(rng: &mut Rng, report: usize) -> Vec<u32> {
    let mut offset = 0;
    let step = 1 + report / 8;
    let mut words = Vec::new();
    for _ in 0..rng.below(10) {
        offset = match rng.below(20) {
            0 => rng.below(report + 2),
            1..=3 => offset,
            _ => offset + rng.below(step),
        };
        let length = rng.below(4.min(step + 1));
        words.extend([rng.below(6) as u32, 0, offset as u32, length as u32]);
    }
    words
}

/// A capture of the run of the file's grammar, the outer ones with all the others.
fn listed(rng: &mut Rng, file: &[u8], tokens: &[u32]) -> Option<[u32; 4]> {
    let file = read(file, usize::MAX, usize::MAX).ok()?;
    let start = Start::from_first(file.start, file.mode);
    let mut words = vec![0; 4_096];
    match list_within(
        &file.nodes,
        &file.rules,
        tokens,
        Reading::By2017,
        &start,
        &mut words,
        20_000,
    )? {
        Listed::Success { captures, .. } if captures > 0 => {
            Some(*rng.pick(&words.as_chunks().0[..captures as usize]))
        }
        _ => None,
    }
}

/// A capture of a rule and of tokens that are there, if there are any.
fn any_capture(rng: &mut Rng, rules: usize, count: usize) -> [u32; 4] {
    let (one, two) = (rng.between(0, count), rng.between(0, count));
    let around = if rng.chance(80) { 0 } else { rng.word() as u32 };
    [
        rng.below(rules.max(1)) as u32,
        one.min(two) as u32,
        one.max(two) as u32,
        around,
    ]
}

/// Changes the offset or the length of a token, mostly one of the capture's own.
fn disturb(rng: &mut Rng, input: &mut ShownInput) {
    let count = input.tokens.len() / 4;
    if count == 0 {
        return;
    }
    let [_, first, after, _] = input.capture.map(|word| (word as usize).min(count));
    let at = match rng.below(10) {
        0..=4 if first < after => after - 1,
        5..=8 if first < after => rng.between(first, after - 1),
        _ => rng.below(count),
    };
    let report = input.report.len() as u32;
    let before = at.checked_sub(1).map_or(0, |at| input.tokens[4 * at + 2]);
    let [_, _, offset, length] = &mut input.tokens.as_chunks_mut::<4>().0[at];
    match rng.below(12) {
        // As far as the token before, or less far.
        0 => *offset = before,
        1 | 2 => *offset = before.wrapping_sub(1),
        3 => *offset = rng.below(report as usize + 2) as u32,
        // Up to the report's end, or past it.
        4 | 5 => *length = report.wrapping_sub(*offset),
        6 | 7 => *length = report.wrapping_sub(*offset).wrapping_add(1),
        8 => {
            *offset = report + rng.below(2) as u32;
            *length = rng.below(2) as u32;
        }
        // An end past 2^32 that is a small number in 32 bits.
        9 => *length = u32::MAX - rng.below(3) as u32,
        10 => *length = (rng.below(4) as u32).wrapping_sub(*offset),
        _ => {
            *offset = u32::MAX - rng.below(3) as u32;
            *length = rng.below(6) as u32;
        }
    }
}

/// Moves the capture's rule or tokens, to the limits and past them: also by as much as
/// leaves a number the same in 16 bits, or four times it in 32.
fn move_capture(rng: &mut Rng, input: &mut ShownInput, rules: u32) {
    let count = (input.tokens.len() / 4) as u32;
    let [rule, first, after, around] = &mut input.capture;
    match rng.below(10) {
        0 | 1 => {
            let last = rules.saturating_sub(1);
            *rule = *rng.pick(&[last, last, rules, rules + 1, *rule + 65_536, u32::MAX]);
        }
        // No token, at the token count too.
        2 => *first = *after,
        3 => {
            let both = *rng.pick(&[0, count, count, count + 1, 1 << 30, u32::MAX]);
            (*first, *after) = (both, both);
        }
        // The first comes after the one that follows.
        4 => (*first, *after) = (*after, *first),
        5 => *first = *after + 1,
        6 => *after = *rng.pick(&[count, count + 1, *after + 65_536]),
        7 => *after = *rng.pick(&[*after | 1 << 30, u32::MAX]),
        8 => *first = *rng.pick(&[count, count + 1, *first + 65_536, *first | 1 << 30]),
        _ => *around = rng.word() as u32,
    }
}
