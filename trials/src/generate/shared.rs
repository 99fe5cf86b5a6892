//! Grammars whose nodes are shared: each level tries the one below it several times at one
//! token, in other ways, so that what was remembered of one trial may not do for another.

use super::grammars::{letter, step, wrapped, Grammar};
use super::Rng;
use crate::second::kind::*;
use crate::second::relation::{ANY, AT_LEAST, EQUAL, GREATER};
use crate::second::Reading::{self, By2014, By2017};
use crate::second::{MOST_NODES, MOST_RULES};

/// A node, and whether it reads a token wherever it succeeds.
#[derive(Clone, Copy)]
struct Level {
    node: u16,
    reads: bool,
}

/// A grammar of a few levels, on which most plain runs end soon.
pub(super) fn shared(rng: &mut Rng, reading: Reading, alphabet: &[u16]) -> Grammar {
    let mut grammar = Grammar::new(rng, reading, Vec::new());
    grammar.high = rng.chance(15);
    let mut level = lowest(rng, &mut grammar, alphabet);
    for _ in 0..rng.between(1, 4) {
        level = if grammar.high && rng.chance(40) {
            past(rng, &mut grammar, alphabet, level)
        } else {
            over(rng, &mut grammar, alphabet, level)
        };
        // Behind a letter both ends are mostly finite.
        if rng.chance(25) {
            let first = letter(rng, &mut grammar, alphabet);
            let layers = rng.below(2);
            let first = wrapped(rng, &mut grammar, first, layers);
            let node = grammar.push(SEQUENCE, first, level.node, 0);
            level = Level { node, reads: true };
        }
    }
    top(rng, &mut grammar, level);
    grammar
}

/// What lies over the levels: a repeat, a rule that comes back to itself, the last level twice
/// or nothing.
fn top(rng: &mut Rng, grammar: &mut Grammar, level: Level) {
    match rng.below(10) {
        0..=3 if level.reads => {
            let round = tried(rng, grammar, level);
            grammar.push(REPEAT, round, 0, 0);
        }
        // X = (level X) / level
        4 | 5 if level.reads => {
            let rule = grammar.rules.len() as u16;
            let again = grammar.push(RULE, rule, 0, 0);
            let layers = rng.below(2);
            let again = wrapped(rng, grammar, again, layers);
            let both = grammar.push(SEQUENCE, level.node, again, 0);
            let own = grammar.push(CHOICE, both, level.node, 0);
            grammar.rules.push(own);
        }
        6 | 7 => {
            let second = tried(rng, grammar, level);
            grammar.push(SEQUENCE, level.node, second, 0);
        }
        _ => {}
    }
}

/// A grammar of so many levels that most plain runs do not end, as 02 Note 8 has it: (the
/// level below, then a letter) or the level below, mostly by its rule.
pub(super) fn tall(rng: &mut Rng, reading: Reading, alphabet: &[u16]) -> Grammar {
    let mut grammar = Grammar::new(rng, reading, Vec::new());
    let mut level = lowest(rng, &mut grammar, alphabet).node;
    let letter = letter(rng, &mut grammar, alphabet);
    let (by_rule, layered) = (rng.chance(60), *rng.pick(&[0, 0, 10, 40]));
    for _ in 0..rng.between(16, 70) {
        if by_rule {
            grammar.rules.push(level);
            level = grammar.push(RULE, grammar.rules.len() as u16 - 1, 0, 0);
        }
        let layers = usize::from(rng.chance(layered));
        let first = wrapped(rng, &mut grammar, level, layers);
        let both = grammar.push(SEQUENCE, first, letter, 0);
        level = if rng.chance(80) {
            grammar.push(CHOICE, both, level, 0)
        } else {
            let stop = grammar.push(NOT, both, 0, 0);
            grammar.push(SEQUENCE, stop, level, 0)
        };
    }
    grammar
}

fn lowest(rng: &mut Rng, grammar: &mut Grammar, alphabet: &[u16]) -> Level {
    let one = letter(rng, grammar, alphabet);
    let reads = |node| Level { node, reads: true };
    match rng.below(10) {
        0..=4 => reads(one),
        5 | 6 => {
            let two = letter(rng, grammar, alphabet);
            reads(grammar.push(SEQUENCE, one, two, 0))
        }
        7 => {
            let two = letter(rng, grammar, alphabet);
            let two = wrapped(rng, grammar, two, 1);
            reads(grammar.push(CHOICE, one, two, 0))
        }
        _ => {
            let empty = grammar.push(EMPTY, 0, 0, 0);
            Level {
                node: grammar.push(CHOICE, one, empty, 0),
                reads: false,
            }
        }
    }
}

/// The level three times: in any ways, or from entries that differ in one part alone.
fn thrice(rng: &mut Rng, grammar: &mut Grammar, level: Level) -> [u16; 3] {
    let Level { node, .. } = level;
    let mut indent = |relation| grammar.push(INDENT, node, 0, relation);
    let mut ways = match rng.below(12) {
        // The upper end, and the lower.
        0..=2 => [node, indent(AT_LEAST), indent(EQUAL)],
        3 | 4 => [indent(ANY), indent(AT_LEAST), indent(GREATER)],
        5 => [grammar.push(ALIGN, node, 0, 0), node, node],
        6 if grammar.reading == By2017 => {
            let mut position = || {
                let mode = grammar.relation(rng);
                grammar.push(POSITION, node, 0, mode)
            };
            [position(), position(), node]
        }
        _ => [0; 3].map(|_| tried(rng, grammar, level)),
    };
    let last = rng.below(3);
    ways.swap(last, rng.below(last + 1));
    ways
}

/// The level once more: itself, under its rule, or under layout.
fn tried(rng: &mut Rng, grammar: &mut Grammar, level: Level) -> u16 {
    match rng.below(10) {
        0..=2 => level.node,
        3 if grammar.rules.len() < MOST_RULES => {
            grammar.rules.push(level.node);
            grammar.push(RULE, grammar.rules.len() as u16 - 1, 0, 0)
        }
        4 => grammar.push(ALIGN, level.node, 0, 0),
        5 => {
            let inner = wrapped(rng, grammar, level.node, 1);
            wrapped(rng, grammar, inner, 1)
        }
        _ => wrapped(rng, grammar, level.node, 1),
    }
}

/// What stands behind a first trial: a letter, or what fails in any case.
fn behind(rng: &mut Rng, grammar: &mut Grammar, alphabet: &[u16]) -> u16 {
    if rng.chance(60) {
        return letter(rng, grammar, alphabet);
    }
    let empty = grammar.push(EMPTY, 0, 0, 0);
    grammar.push(NOT, empty, 0, 0)
}

/// A level under a step, behind a letter that is read in two ways, one of which lowers the
/// upper end: from near the last column both ends pass it.
fn past(rng: &mut Rng, grammar: &mut Grammar, alphabet: &[u16], level: Level) -> Level {
    let first = letter(rng, grammar, alphabet);
    let last = behind(rng, grammar, alphabet);
    let by = match grammar.reading {
        By2017 => POSITION,
        By2014 => INDENT,
    };
    let inner = grammar.push(INDENT, level.node, 0, step(rng));
    let [one, two] = [AT_LEAST, ANY].map(|relation| {
        let first = grammar.push(by, first, 0, relation);
        grammar.push(SEQUENCE, first, inner, 0)
    });
    let both = grammar.push(SEQUENCE, one, last, 0);
    let node = grammar.push(CHOICE, both, two, 0);
    Level { node, reads: true }
}

/// The next level: the one below it tried twice or more from one token on.
fn over(rng: &mut Rng, grammar: &mut Grammar, alphabet: &[u16], level: Level) -> Level {
    if grammar.nodes.len() + 20 > MOST_NODES {
        return level;
    }
    let [one, two, three] = thrice(rng, grammar, level);
    let last = behind(rng, grammar, alphabet);
    let both = grammar.push(SEQUENCE, one, last, 0);
    let node = match rng.below(10) {
        0..=2 => grammar.push(CHOICE, both, two, 0),
        3 => {
            let other = grammar.push(SEQUENCE, two, last, 0);
            let rest = grammar.push(CHOICE, other, three, 0);
            grammar.push(CHOICE, both, rest, 0)
        }
        4 | 5 => {
            let ahead = *rng.pick(&[one, both]);
            let mut ahead = grammar.push(NOT, ahead, 0, 0);
            if rng.chance(50) {
                ahead = grammar.push(NOT, ahead, 0, 0);
            }
            grammar.push(SEQUENCE, ahead, two, 0)
        }
        6 if level.reads => {
            let rounds = grammar.push(REPEAT, one, 0, 0);
            let both = grammar.push(SEQUENCE, rounds, last, 0);
            grammar.push(CHOICE, both, two, 0)
        }
        // A flag that is handed on, by 2014, to the second trial.
        7 if grammar.reading == By2014 => {
            let empty = grammar.push(EMPTY, 0, 0, 0);
            let idle = grammar.push(ALIGN, empty, 0, 0);
            let other = grammar.push(SEQUENCE, idle, two, 0);
            grammar.push(CHOICE, both, other, 0)
        }
        _ => {
            let twice = grammar.push(SEQUENCE, one, two, 0);
            grammar.push(CHOICE, twice, three, 0)
        }
    };
    Level { node, ..level }
}
