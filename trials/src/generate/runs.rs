//! Inputs for the check and the interpreter.

use super::grammars::{self, Grammar, Walk, LAST};
use super::memory::{slice, Slice};
use super::{shared, Rng};
use crate::second::kind::*;
use crate::second::relation::{ANY, COUNT, EQUAL, GREATER};
use crate::second::run::{Interval, State};
use crate::second::Reading::{self, By2014, By2017};
use crate::second::{list_within, run_within, Listed, Ran, Start, MOST_NODES};

/// Lent words, a reading and a start, the length, in words, of the slice lent for captures,
/// and the slice lent for remembered outcomes.
#[derive(Debug, Clone, PartialEq, Eq)]
pub struct RunInput {
    pub nodes: Vec<u16>,
    pub rules: Vec<u16>,
    pub tokens: Vec<u32>,
    pub reading: Reading,
    pub start: Start,
    pub room: usize,
    pub memory: Slice,
}

impl RunInput {
    pub fn parts(&self) -> (&[u16], &[u16], &[u32], Reading, &Start) {
        let reading = self.reading;
        (&self.nodes, &self.rules, &self.tokens, reading, &self.start)
    }
}

/// An input for the interpreter by 2017; its tables serve the check as well. The stack must
/// do for a run.
pub fn run_input(rng: &mut Rng) -> RunInput {
    let mut input = whole_input(rng, By2017);
    broken(rng, &mut input, 15);
    input.room = room(rng, &input);
    input
}

/// An input for the interpreter by 2014, mostly without positions and in mode equal. The stack
/// must do for a run.
pub fn run_input_by_2014(rng: &mut Rng) -> RunInput {
    let mut input = whole_input(rng, By2014);
    // Where 16 is to refuse the run, another number does so more often.
    let sixteen = rng.chance(14);
    if sixteen {
        break_reading(rng, &mut input);
    }
    broken(rng, &mut input, if sixteen { 25 } else { 12 });
    input.room = room(rng, &input);
    input
}

/// An input in which nothing is broken but a grammar here and there.
fn whole_input(rng: &mut Rng, reading: Reading) -> RunInput {
    let alphabet = alphabet(rng);
    let mut grammar = match rng.below(200) {
        0..=5 => grammars::wild(rng, reading, &alphabet),
        6..=45 => shared::shared(rng, reading, &alphabet),
        46 => shared::tall(rng, reading, &alphabet),
        _ => grammars::grammar(rng, reading, &alphabet),
    };
    if rng.chance(5) {
        grammars::spoil(rng, &mut grammar);
    }
    good_input(rng, &grammar, &alphabet)
}

/// Breaks an input in so many of a hundred cases: mostly one thing, sometimes several.
fn broken(rng: &mut Rng, input: &mut RunInput, percent: usize) {
    if rng.chance(percent) {
        loop {
            match rng.below(10) {
                0..=5 => break_table(rng, &mut input.nodes, &mut input.rules),
                6 | 7 => break_tokens(rng, &mut input.tokens),
                _ => break_start(rng, input),
            }
            if rng.chance(80) {
                break;
            }
        }
    }
}

/// Room for the captures: as many words as their list needs, a few less or more, hardly any
/// or plenty. Where nothing is listed, any few.
fn room(rng: &mut Rng, input: &RunInput) -> usize {
    let needed = needed(input).unwrap_or_else(|| rng.below(40));
    match rng.below(20) {
        0..=5 => needed,
        6..=9 => needed.saturating_sub(rng.between(1, 4)),
        10..=12 => needed + rng.between(1, 3),
        13..=15 => needed + rng.between(4, 40),
        16 | 17 => rng.below(8),
        18 => rng.below(needed + 1),
        _ => needed + rng.between(100, 1_000),
    }
}

/// The words of a success's list, by 2017 for a run that 16 refuses, so that it could be
/// refused by 13 as well. `None` for what lists nothing, or takes many steps.
fn needed(input: &RunInput) -> Option<usize> {
    let (nodes, rules, tokens, reading, start) = input.parts();
    let list = |reading, words: &mut [u32]| {
        list_within(nodes, rules, tokens, reading, start, words, 200_000)
    };
    // Most lists are short, and there are no more captures than steps.
    for room in [256, 16_384, 4 * 200_000] {
        let mut words = vec![0; room];
        let mut listed = list(reading, &mut words)?;
        if listed == Listed::Refused(16) {
            listed = list(By2017, &mut words)?;
        }
        match listed {
            Listed::Refused(13) => {}
            Listed::Success { captures, .. } => return Some(4 * captures as usize),
            _ => return None,
        }
    }
    None
}

/// A few terminals, mostly low ones.
pub(super) fn alphabet(rng: &mut Rng) -> Vec<u16> {
    let count = rng.between(1, 4);
    (0..count)
        .map(|_| match rng.below(10) {
            0 => *rng.pick(&[254, 255]),
            1 => rng.below(256) as u16,
            _ => rng.below(4) as u16,
        })
        .collect()
}

/// Tokens and a start within the limits for a grammar.
fn good_input(rng: &mut Rng, grammar: &Grammar, alphabet: &[u16]) -> RunInput {
    let nodes = grammar.words();
    let mut input = RunInput {
        nodes,
        rules: grammar.rules.clone(),
        tokens: Vec::new(),
        reading: grammar.reading,
        start: start(rng, grammar),
        room: 0,
        memory: slice(rng),
    };
    if grammar.reading == By2014 {
        return telling_input(rng, grammar, alphabet, input);
    }
    // Some tries for tokens that are read, two of them at least.
    for _ in 0..rng.between(1, 3) {
        input.start = start(rng, grammar);
        input.tokens = tokens(rng, grammar, &mut input.start, alphabet);
        if reads_two(run_of(&input, By2017)) {
            break;
        }
    }
    input
}

/// Some tries for tokens and a start that tell the readings apart where one of them reads two
/// tokens at least, or else of which two are read.
fn telling_input(rng: &mut Rng, grammar: &Grammar, alphabet: &[u16], input: RunInput) -> RunInput {
    let (mut best, mut reached) = (input, 0);
    for _ in 0..rng.between(1, 4) {
        let mut input = RunInput {
            start: start(rng, grammar),
            ..best.clone()
        };
        input.tokens = tokens(rng, grammar, &mut input.start, alphabet);
        let both = [By2014, By2017].map(|reading| run_of(&input, reading));
        let telling = match both {
            [one, two] if one != two && both.into_iter().any(reads_two) => 3,
            [one, _] if reads_two(one) => 2,
            _ => 1,
        };
        if telling > reached {
            (best, reached) = (input, telling);
        }
        if reached == 3 {
            break;
        }
    }
    best
}

/// A run by a reading, in few steps.
fn run_of(input: &RunInput, reading: Reading) -> Option<Ran> {
    let (nodes, rules, tokens, _, start) = input.parts();
    run_within(nodes, rules, tokens, reading, start, 3_000)
}

fn reads_two(ran: Option<Ran>) -> bool {
    matches!(ran, Some(Ran::Success { read: 2.., .. }))
}

/// A start within the limits, at place 0.
fn start(rng: &mut Rng, grammar: &Grammar) -> Start {
    let count = grammar.nodes.len();
    let node = match rng.below(10) {
        5..=6 if grammar.reading == By2014 => count - 1,
        0..=4 => count - 1 - rng.below(count.min(3)),
        5..=7 if !grammar.rules.is_empty() => usize::from(*rng.pick(&grammar.rules)),
        _ => rng.below(count),
    };
    let (lower, upper) = ends(rng, grammar);
    let flags = if grammar.reading == By2017 { 25 } else { 40 };
    Start {
        node: node as u16,
        place: 0,
        lower,
        upper,
        flag: rng.chance(flags),
        mode: match grammar.reading {
            By2017 => grammar.relation(rng),
            By2014 => EQUAL,
        },
    }
}

/// The ends of a start's interval.
fn ends(rng: &mut Rng, grammar: &Grammar) -> (u32, Option<u32>) {
    // With steps, more of the starts from which an end passes the last column.
    let kind = match (grammar.high, grammar.steps) {
        (true, _) => rng.between(20, 23),
        (false, true) => rng.below(24),
        (false, false) => rng.below(20),
    };
    match kind {
        0..=9 => (0, None),
        10..=12 => (0, Some(rng.below(12) as u32)),
        13..=15 => (rng.below(12) as u32, None),
        16 | 17 => {
            let lower = rng.below(10) as u32;
            (lower, Some(lower + rng.below(6) as u32))
        }
        18 | 20 => (65_530 + rng.below(6) as u32, None),
        _ => {
            let lower = 65_500 + rng.below(36) as u32;
            (lower, Some(rng.between(lower as usize, 65_535) as u32))
        }
    }
}

/// Tokens for a start, which they may move to a later place.
fn tokens(rng: &mut Rng, grammar: &Grammar, start: &mut Start, alphabet: &[u16]) -> Vec<u32> {
    let mut list: Vec<[u32; 2]> = match rng.below(20) {
        5..=15 if grammar.steep => {
            let count = rng.between(5, 250);
            row(rng, alphabet, count)
        }
        0..=15 => {
            let most = match rng.below(40) {
                0 => 4_096,
                1..=3 => 300,
                _ => 40,
            };
            // By 2014 some tokens are those that the other reading could read.
            let reading = match grammar.reading {
                By2014 if rng.chance(75) => By2014,
                _ => By2017,
            };
            let mut walk = Walk {
                rng,
                grammar,
                reading,
                tokens: Vec::new(),
                most,
                fuel: 40 * most,
            };
            let begin = State {
                interval: Interval {
                    lower: start.lower,
                    upper: start.upper,
                },
                place: 0,
                flag: start.flag,
            };
            walk.expression(start.node, start.mode, begin, 0);
            walk.tokens
        }
        16 => {
            let count = *rng.pick(&[20, 40, 200, 1_000, 4_095, 4_096]);
            row(rng, alphabet, count)
        }
        _ => {
            let count = rng.below(12);
            (0..count).map(|_| any_token(rng, alphabet)).collect()
        }
    };
    // A change here and there.
    if rng.chance(40) {
        for _ in 0..rng.between(1, 3) {
            alter(rng, &mut list, alphabet);
        }
    }
    // More tokens behind, and some in front of the start's place.
    if rng.chance(30) {
        for _ in 0..rng.between(1, 4) {
            list.push(any_token(rng, alphabet));
        }
    }
    if rng.chance(20) {
        let before = rng.between(1, 4);
        let front: Vec<[u32; 2]> = (0..before).map(|_| any_token(rng, alphabet)).collect();
        list.splice(0..0, front);
        start.place = before as u32;
    }
    list.truncate(4_096);
    if rng.chance(3) {
        start.place = rng.between(0, list.len()) as u32;
    }
    // The last two words mean nothing to the interpreter.
    let mut words = Vec::with_capacity(4 * list.len());
    for (number, [terminal, column]) in list.into_iter().enumerate() {
        let rest = if rng.chance(5) {
            [rng.word() as u32, rng.word() as u32]
        } else {
            [number as u32, 1]
        };
        words.extend_from_slice(&[terminal, column, rest[0], rest[1]]);
    }
    words
}

/// Many tokens of one terminal, at one column or at rising ones.
fn row(rng: &mut Rng, alphabet: &[u16], count: usize) -> Vec<[u32; 2]> {
    let terminal = u32::from(*rng.pick(alphabet));
    let first = *rng.pick(&[0, 1, 3, 60_000]);
    let step = *rng.pick(&[0, 0, 1]);
    (0..count as u32)
        .map(|number| [terminal, first + step * number])
        .collect()
}

fn any_token(rng: &mut Rng, alphabet: &[u16]) -> [u32; 2] {
    let terminal = if rng.chance(90) {
        u32::from(*rng.pick(alphabet))
    } else {
        rng.below(256) as u32
    };
    let column = if rng.chance(95) {
        rng.below(13)
    } else {
        rng.between(65_520, 65_535)
    };
    [terminal, column as u32]
}

fn alter(rng: &mut Rng, list: &mut Vec<[u32; 2]>, alphabet: &[u16]) {
    if list.is_empty() {
        list.push(any_token(rng, alphabet));
        return;
    }
    let at = rng.below(list.len());
    match rng.below(6) {
        0 => list[at][1] = (list[at][1] + 1).min(65_535),
        1 => list[at][1] = list[at][1].saturating_sub(1),
        2 => list[at] = any_token(rng, alphabet),
        3 => list.insert(at, any_token(rng, alphabet)),
        4 => list.truncate(at),
        _ => {
            list.remove(at);
        }
    }
}

/// Breaks checks 3, 4 or 5.
pub(super) fn break_table(rng: &mut Rng, nodes: &mut Vec<u16>, rules: &mut Vec<u16>) {
    match rng.below(13) {
        // Check 3.
        0 => {
            for _ in 0..rng.between(1, 3) {
                nodes.push(0);
            }
        }
        1 => {
            let cut = rng.between(1, 4);
            nodes.truncate(nodes.len().saturating_sub(cut));
        }
        2 => nodes.clear(),
        3 => nodes.resize(4 * *rng.pick(&[512, 513, 513]), 0),
        4 => rules.resize(*rng.pick(&[128, 129, 129]), 0),
        // Check 5.
        5 | 6 => {
            let count = nodes.len() / 4;
            let node = *rng.pick(&[count, count + 1, 512, 65_535]) as u16;
            if rules.is_empty() || rng.chance(30) {
                rules.push(node);
            } else {
                let rule = rng.below(rules.len());
                rules[rule] = node;
            }
        }
        // Check 4.
        _ => {
            let count = nodes.len() / 4;
            if count > 0 {
                let number = rng.below(count);
                let node = &mut nodes[4 * number..4 * number + 4];
                break_node(rng, number, rules.len(), node);
            }
        }
    }
}

/// Breaks check 4 for one node.
fn break_node(rng: &mut Rng, number: usize, rules: usize, node: &mut [u16]) {
    let high = [number as u16, number as u16 + 1, 512, 65_535];
    match rng.below(7) {
        0 => node[0] = *rng.pick(&[10, 11, 255, 256, 65_535]),
        1 => {
            // A child that is not lower, a rule that is not there, a terminal over 255.
            match node[0] {
                EMPTY => node[1] = 1,
                TERMINAL => node[1] = *rng.pick(&[256, 257, 65_535]),
                RULE => node[1] = *rng.pick(&[rules as u16, rules as u16 + 1, 65_535]),
                SEQUENCE | CHOICE if rng.chance(50) => node[2] = *rng.pick(&high),
                _ => node[1] = *rng.pick(&high),
            }
        }
        2 | 3 => node[3] = *rng.pick(&[1, ANY, LAST, COUNT, COUNT + 1, 255, 65_535]),
        4 => node[2] = *rng.pick(&[1, number as u16, 65_535]),
        5 => {
            // Every kind on the words of another.
            node[0] = rng.below(10) as u16;
        }
        _ => {
            let word = rng.below(4);
            node[word] = rng.word() as u16;
        }
    }
}

/// Breaks check 11.
pub(super) fn break_tokens(rng: &mut Rng, tokens: &mut Vec<u32>) {
    let count = tokens.len() / 4;
    match rng.below(6) {
        0 => {
            for _ in 0..rng.between(1, 3) {
                tokens.push(0);
            }
        }
        1 => {
            let cut = rng.between(1, 3);
            tokens.truncate(tokens.len().saturating_sub(cut));
        }
        2 => tokens.resize(4 * *rng.pick(&[4_096, 4_097]), 0),
        3 if count > 0 => {
            let token = rng.below(count);
            tokens[4 * token] = *rng.pick(&[255, 256, 65_536, u32::MAX]);
        }
        _ if count > 0 => {
            let token = rng.below(count);
            tokens[4 * token + 1] = *rng.pick(&[65_535, 65_536, u32::MAX]);
        }
        _ => tokens.extend([0, 65_536, 0, 0]),
    }
}

/// Breaks check 16: a position, in reach of the start or not, or a mode, and some of check 12
/// by a mode.
fn break_reading(rng: &mut Rng, input: &mut RunInput) {
    let kind = rng.below(10);
    if kind <= 5 && put_position(rng, input) && rng.chance(85) {
        return;
    }
    input.start.mode = match rng.below(10) {
        0..=2 => rng.between(usize::from(GREATER), usize::from(LAST)) as u16,
        3 => GREATER,
        4 => LAST,
        5 => COUNT,
        6 => rng.between(usize::from(COUNT), 65_535) as u16,
        _ => rng.between(1, 4) as u16,
    };
}

/// Puts a position into the table, if it can: as its last node, which the start may be, or in
/// place of a form with one child.
fn put_position(rng: &mut Rng, input: &mut RunInput) -> bool {
    let relation = rng.below(usize::from(COUNT)) as u16;
    let count = input.nodes.len() / 4;
    let (table, _) = input.nodes.as_chunks_mut::<4>();
    let mut forms: Vec<&mut [u16; 4]> = table
        .iter_mut()
        .filter(|node| matches!(node[0], NOT | REPEAT | INDENT | ALIGN))
        .collect();
    if !forms.is_empty() && rng.chance(50) {
        let form = rng.below(forms.len());
        let child = forms[form][1];
        *forms[form] = [POSITION, child, 0, relation];
        return true;
    }
    if count >= MOST_NODES {
        return false;
    }
    let child = if rng.chance(50) {
        input.start.node
    } else {
        rng.below(count) as u16
    };
    input.nodes.extend([POSITION, child, 0, relation]);
    if rng.chance(20) {
        input.start.node = count as u16;
    }
    true
}

/// Breaks check 12, or goes to its limits.
fn break_start(rng: &mut Rng, input: &mut RunInput) {
    let start = &mut input.start;
    match rng.below(8) {
        0 => {
            let count = (input.nodes.len() / 4) as u16;
            start.node = *rng.pick(&[count, count.saturating_sub(1), 512, 65_535]);
        }
        1 => {
            let count = (input.tokens.len() / 4) as u32;
            start.place = *rng.pick(&[count, count + 1, 4_097, u32::MAX]);
        }
        2 => {
            start.upper = Some(rng.below(10) as u32);
            start.lower = start.upper.unwrap_or(0) + rng.between(0, 2) as u32;
        }
        3 => {
            start.lower = *rng.pick(&[65_535, 65_536, u32::MAX]);
            start.upper = *rng.pick(&[None, Some(start.lower), Some(u32::MAX)]);
        }
        4 | 5 => start.upper = Some(*rng.pick(&[65_535, 65_536, u32::MAX])),
        _ => start.mode = *rng.pick(&[ANY, LAST, COUNT, COUNT + 1, 65_535]),
    }
}
