//! Grammars: well formed by construction, of several shapes, and wild ones. About half of
//! them have steps, and more than half rules over many of their nodes. Those for the 2014
//! reading have no position, and aligns in its stead, many of them over what reads nothing.

use super::Rng;
use crate::second::kind::*;
use crate::second::relation::{self, amount, ANY, AT_LEAST, EQUAL, GREATER};
use crate::second::run::{Interval, State};
use crate::second::Reading::{self, By2014, By2017};
use crate::second::{MOST_NODES, MOST_RULES};

/// The last relation, a step by the largest amount.
pub(super) const LAST: u16 = relation::COUNT - 1;

/// A table and its rules.
#[derive(Debug, Clone)]
pub(super) struct Grammar {
    /// The reading that it is drawn for.
    pub reading: Reading,
    pub nodes: Vec<[u16; 4]>,
    pub rules: Vec<u16>,
    /// Whether about half of its relations are steps.
    pub steps: bool,
    /// Whether each round of its rule climbs by thousands of columns.
    pub steep: bool,
    /// Whether it starts near the last column.
    pub high: bool,
}

impl Grammar {
    /// No nodes yet, drawn with steps or without. Some that are drawn with them come to no
    /// indent and no position, so more than half are.
    pub fn new(rng: &mut Rng, reading: Reading, rules: Vec<u16>) -> Self {
        Grammar {
            reading,
            nodes: Vec::new(),
            rules,
            steps: rng.chance(60),
            steep: false,
            high: false,
        }
    }

    pub fn words(&self) -> Vec<u16> {
        self.nodes.concat()
    }

    /// A relation or a mode for this grammar.
    pub fn relation(&self, rng: &mut Rng) -> u16 {
        self.relation_of(rng, &[EQUAL, GREATER, AT_LEAST, ANY])
    }

    /// A step half the time if this grammar has steps, else one of the choices.
    fn relation_of(&self, rng: &mut Rng, choices: &[u16]) -> u16 {
        if self.steps && rng.chance(50) {
            step(rng)
        } else {
            *rng.pick(choices)
        }
    }

    /// Adds a node and gives its number.
    pub fn push(&mut self, kind: u16, a: u16, b: u16, relation: u16) -> u16 {
        self.nodes.push([kind, a, b, relation]);
        (self.nodes.len() - 1) as u16
    }
}

/// A step: mostly a small amount, sometimes the largest, and any.
pub(super) fn step(rng: &mut Rng) -> u16 {
    let largest = usize::from(amount(LAST));
    let by = match rng.below(10) {
        0..=6 => rng.between(1, 4),
        7 => largest,
        _ => rng.between(1, largest),
    };
    ANY + by as u16
}

/// A grammar of any shape over the terminals of `alphabet`, mostly well formed.
pub(super) fn grammar(rng: &mut Rng, reading: Reading, alphabet: &[u16]) -> Grammar {
    let shaped = match reading {
        By2014 if rng.chance(50) => carried(rng, alphabet),
        _ => shaped(rng, reading, alphabet),
    };
    if rng.chance(70) {
        ruled(rng, &shaped)
    } else {
        shaped
    }
}

/// The same grammar with a rule of its own over many of its nodes, while there is room, so
/// that most of what is read is captured, over and over. A node over which a rule lies is
/// met through it only, so the facts and the standing of every other node stay.
fn ruled(rng: &mut Rng, grammar: &Grammar) -> Grammar {
    let percent = *rng.pick(&[20, 60, 90, 100]);
    let mut over = Grammar {
        nodes: Vec::new(),
        ..grammar.clone()
    };
    // For each node the one that is met in its place.
    let mut met: Vec<u16> = Vec::new();
    for (number, &[kind, a, b, relation]) in grammar.nodes.iter().enumerate() {
        let child = |old: u16| met[usize::from(old)];
        let own = match kind {
            EMPTY | TERMINAL | RULE => over.push(kind, a, b, relation),
            SEQUENCE | CHOICE => over.push(kind, child(a), child(b), relation),
            _ => over.push(kind, child(a), b, relation),
        };
        let rule = over.rules.len();
        let left = grammar.nodes.len() - number - 1;
        let room = rule < MOST_RULES && over.nodes.len() + left < MOST_NODES;
        met.push(if room && rng.chance(percent) {
            over.rules.push(own);
            over.push(RULE, rule as u16, 0, 0)
        } else {
            own
        });
    }
    for (rule, &old) in over.rules.iter_mut().zip(&grammar.rules) {
        *rule = met[usize::from(old)];
    }
    over
}

fn shaped(rng: &mut Rng, reading: Reading, alphabet: &[u16]) -> Grammar {
    match rng.below(100) {
        0..=28 => {
            let size = rng.between(1, 12);
            grown(rng, reading, size, alphabet)
        }
        29..=37 => forks(rng, reading, alphabet),
        38..=54 => {
            let size = rng.between(13, 60);
            grown(rng, reading, size, alphabet)
        }
        55..=60 => {
            let size = if rng.chance(25) {
                512
            } else {
                rng.between(61, 512)
            };
            grown(rng, reading, size, alphabet)
        }
        61..=83 => blocks(rng, reading, alphabet),
        84..=93 => chain(rng, reading, alphabet),
        _ => wild(rng, reading, alphabet),
    }
}

/// What is held to be true of a node while a grammar grows. Both err to the safe side.
#[derive(Clone, Copy)]
struct Known {
    /// May succeed reading nothing.
    reads_nothing: bool,
    /// The rules that may be entered before a token is read.
    at_once: u128,
    /// About the fewest tokens of a success.
    tokens: usize,
}

/// A well-formed grammar, grown from the bottom up. Each rule is promised beforehand
/// to read something or not, and its node is chosen at the end so that the promise
/// holds and that before the first token it enters rules of lower number only. So no
/// rule comes back to itself without a token read.
pub(super) fn grown(rng: &mut Rng, reading: Reading, size: usize, alphabet: &[u16]) -> Grammar {
    let rule_count = match rng.below(10) {
        0..=3 => 0,
        4..=7 => rng.between(1, 3),
        8 => rng.between(1, 12),
        _ => *rng.pick(&[40, 127, 128]),
    };
    let promises: Vec<bool> = (0..rule_count).map(|_| rng.chance(75)).collect();
    let mut grammar = Grammar::new(rng, reading, Vec::new());
    let mut known: Vec<Known> = Vec::new();
    // One leaf is a terminal, so that every promise can be kept.
    let sure_terminal = rng.below(size.min(4));
    while grammar.nodes.len() < size {
        let number = grammar.nodes.len();
        let (node, about) = if number == sure_terminal {
            leaf(rng, TERMINAL, alphabet, &promises)
        } else {
            grow(rng, &grammar, &known, alphabet, &promises)
        };
        grammar.nodes.push(node);
        known.push(about);
    }
    for (rule, &reads) in promises.iter().enumerate() {
        let lower_rules = (1u128 << rule) - 1;
        let fits: Vec<u16> = (0u16..)
            .zip(&known)
            .filter(|(_, about)| !(reads && about.reads_nothing))
            .filter(|(_, about)| about.at_once & !lower_rules == 0)
            .map(|(number, _)| number)
            .collect();
        // The later nodes hold more.
        let node = (0..3).map(|_| *rng.pick(&fits)).max();
        grammar.rules.push(node.expect("three picks"));
    }
    grammar
}

/// A node without children.
fn leaf(rng: &mut Rng, kind: u16, alphabet: &[u16], promises: &[bool]) -> ([u16; 4], Known) {
    match kind {
        TERMINAL => (
            [TERMINAL, *rng.pick(alphabet), 0, 0],
            Known {
                reads_nothing: false,
                at_once: 0,
                tokens: 1,
            },
        ),
        RULE => {
            let rule = rng.below(promises.len());
            (
                [RULE, rule as u16, 0, 0],
                Known {
                    reads_nothing: !promises[rule],
                    at_once: 1 << rule,
                    tokens: usize::from(promises[rule]),
                },
            )
        }
        _ => (
            [EMPTY, 0, 0, 0],
            Known {
                reads_nothing: true,
                at_once: 0,
                tokens: 0,
            },
        ),
    }
}

/// The next node over those known.
fn grow(
    rng: &mut Rng,
    grammar: &Grammar,
    known: &[Known],
    alphabet: &[u16],
    promises: &[bool],
) -> ([u16; 4], Known) {
    let rule_weight = if promises.is_empty() { 0 } else { 12 };
    let first = known.is_empty();
    let over = |weight| if first { 0 } else { weight };
    let positions = grammar.reading == By2017;
    let mut kind = rng.weighted(&[
        5,
        20,
        rule_weight,
        over(26),
        over(12),
        over(3),
        over(8),
        over(14),
        over(if positions { 8 } else { 0 }),
        over(if positions { 9 } else { 17 }),
    ]) as u16;
    if kind <= RULE {
        return leaf(rng, kind, alphabet, promises);
    }
    let a = child(rng, known);
    let b = child(rng, known);
    let (one, two) = (known[a], known[b]);
    // Sequences of sequences need too many tokens soon.
    if kind == SEQUENCE && one.tokens + two.tokens > 8 {
        kind = CHOICE;
    }
    // A repeat needs a child that reads.
    if kind == REPEAT && one.reads_nothing {
        kind = ALIGN;
    }
    let relation = grammar.relation(rng);
    let (a, b) = (a as u16, b as u16);
    match kind {
        SEQUENCE => (
            [SEQUENCE, a, b, 0],
            Known {
                reads_nothing: one.reads_nothing && two.reads_nothing,
                at_once: one.at_once | if one.reads_nothing { two.at_once } else { 0 },
                tokens: one.tokens + two.tokens,
            },
        ),
        CHOICE => (
            [CHOICE, a, b, 0],
            Known {
                reads_nothing: one.reads_nothing || two.reads_nothing,
                at_once: one.at_once | two.at_once,
                tokens: one.tokens.min(two.tokens),
            },
        ),
        NOT | REPEAT => (
            [kind, a, 0, 0],
            Known {
                reads_nothing: true,
                tokens: 0,
                ..one
            },
        ),
        INDENT | POSITION => ([kind, a, 0, relation], one),
        _ => ([ALIGN, a, 0, 0], one),
    }
}

/// A child among the nodes so far, mostly one of the last.
fn child(rng: &mut Rng, known: &[Known]) -> usize {
    let count = known.len();
    if rng.chance(60) {
        count - 1 - rng.below(count.min(4))
    } else {
        rng.below(count)
    }
}

/// Zero or more layout nodes around a node.
pub(super) fn wrapped(rng: &mut Rng, grammar: &mut Grammar, node: u16, layers: usize) -> u16 {
    let mut node = node;
    for _ in 0..layers {
        let kind = *rng.pick(match grammar.reading {
            By2017 => &[INDENT, INDENT, POSITION, ALIGN],
            By2014 => &[INDENT, INDENT, ALIGN, ALIGN],
        });
        let relation = if kind == ALIGN {
            0
        } else {
            grammar.relation(rng)
        };
        node = grammar.push(kind, node, 0, relation);
    }
    node
}

/// Blocks of statements, as in 001's example: a statement is a head and perhaps a
/// block, a block is a row of statements under an indent, each of them aligned.
fn blocks(rng: &mut Rng, reading: Reading, alphabet: &[u16]) -> Grammar {
    let mut grammar = Grammar::new(rng, reading, vec![0, 0]);
    let head = grammar.push(TERMINAL, *rng.pick(alphabet), 0, 0);
    let tail = grammar.push(TERMINAL, *rng.pick(alphabet), 0, 0);
    let empty = grammar.push(EMPTY, 0, 0, 0);
    let statement = grammar.push(RULE, 0, 0, 0);
    let block = grammar.push(RULE, 1, 0, 0);

    // Rule 0, the statement.
    let layers = rng.below(3);
    let end = wrapped(rng, &mut grammar, tail, layers);
    let ends = match rng.below(3) {
        0 => grammar.push(REPEAT, end, 0, 0),
        1 => grammar.push(CHOICE, end, empty, 0),
        _ => end,
    };
    let own = grammar.push(SEQUENCE, head, ends, 0);
    let inner = if rng.chance(70) {
        grammar.push(CHOICE, block, empty, 0)
    } else {
        let stop = grammar.push(NOT, head, 0, 0);
        grammar.push(CHOICE, block, stop, 0)
    };
    grammar.rules[0] = grammar.push(SEQUENCE, own, inner, 0);

    // Rule 1, the block.
    let layers = rng.between(0, 2);
    let mut item = wrapped(rng, &mut grammar, statement, layers);
    if rng.chance(70) {
        item = grammar.push(ALIGN, item, 0, 0);
    }
    let more = grammar.push(REPEAT, item, 0, 0);
    let row = grammar.push(SEQUENCE, item, more, 0);
    let mostly_greater = [GREATER, GREATER, GREATER, AT_LEAST, EQUAL, ANY];
    let relation = grammar.relation_of(rng, &mostly_greater);
    let mut rows = grammar.push(INDENT, row, 0, relation);
    if rng.chance(40) {
        rows = match reading {
            By2017 => {
                let mode = grammar.relation(rng);
                grammar.push(POSITION, rows, 0, mode)
            }
            By2014 => grammar.push(ALIGN, rows, 0, 0),
        };
    }
    grammar.rules[1] = rows;
    grammar
}

/// A row of entries with alternatives that begin alike, so that rules succeed on ways that
/// are given up, and inside nots: with p for the level below, p a, or p b, or p alone.
fn forks(rng: &mut Rng, reading: Reading, alphabet: &[u16]) -> Grammar {
    let mut grammar = Grammar::new(rng, reading, Vec::new());
    let [a, b] = [0, 1].map(|_| grammar.push(TERMINAL, *rng.pick(alphabet), 0, 0));
    let mut level = *rng.pick(&[a, b]);
    for rule in 0..rng.between(1, 3) as u16 {
        grammar.rules.push(level);
        let below = grammar.push(RULE, rule, 0, 0);
        let layers = rng.below(2);
        let below = wrapped(rng, &mut grammar, below, layers);
        let with_a = grammar.push(SEQUENCE, below, a, 0);
        let with_b = grammar.push(SEQUENCE, below, b, 0);
        let two = grammar.push(CHOICE, with_a, with_b, 0);
        level = grammar.push(CHOICE, two, below, 0);
        if rng.chance(40) {
            let other = *rng.pick(&[with_a, with_b]);
            let stop = grammar.push(NOT, other, 0, 0);
            level = grammar.push(SEQUENCE, stop, level, 0);
        }
        if rng.chance(30) {
            let more = grammar.push(REPEAT, level, 0, 0);
            level = grammar.push(SEQUENCE, level, more, 0);
        }
    }
    grammar.push(REPEAT, level, 0, 0);
    grammar
}

/// A rule that reads one token a round, or a repeat of one token, with layout around
/// each round: deep or long runs.
fn chain(rng: &mut Rng, reading: Reading, alphabet: &[u16]) -> Grammar {
    let mut grammar = Grammar::new(rng, reading, vec![0]);
    if grammar.steps && rng.chance(15) {
        return steep(rng, grammar, alphabet);
    }
    let letter = grammar.push(TERMINAL, *rng.pick(alphabet), 0, 0);
    let again = grammar.push(RULE, 0, 0, 0);
    let layers = match rng.below(20) {
        0 => rng.between(100, 500),
        1..=4 => rng.between(8, 40),
        _ => rng.below(5),
    };
    grammar.rules[0] = if rng.chance(70) {
        let rest = wrapped(rng, &mut grammar, again, layers);
        let both = grammar.push(SEQUENCE, letter, rest, 0);
        let other = if rng.chance(60) {
            grammar.push(EMPTY, 0, 0, 0)
        } else {
            letter
        };
        grammar.push(CHOICE, both, other, 0)
    } else {
        let round = wrapped(rng, &mut grammar, letter, layers);
        grammar.push(REPEAT, round, 0, 0)
    };
    grammar
}

/// A chain whose rounds are steps alone, mostly by the largest amount, so that a row of
/// tokens takes both ends past every column. Tokens are read in mode any there, or under an
/// indent by any, which does the same while the flag is clear. The last round reads nothing.
fn steep(rng: &mut Rng, mut grammar: Grammar, alphabet: &[u16]) -> Grammar {
    grammar.steep = true;
    let letter = grammar.push(TERMINAL, *rng.pick(alphabet), 0, 0);
    let any_column = match grammar.reading {
        By2017 => POSITION,
        By2014 => INDENT,
    };
    let read = grammar.push(any_column, letter, 0, ANY);
    let mut rest = grammar.push(RULE, 0, 0, 0);
    let by = if rng.chance(70) { LAST } else { step(rng) };
    // The odd one among them takes the upper end away.
    let endless = rng.chance(30);
    for _ in 0..rng.between(100, 500) {
        let relation = if endless && rng.chance(1) {
            *rng.pick(&[GREATER, AT_LEAST])
        } else {
            by
        };
        rest = grammar.push(INDENT, rest, 0, relation);
    }
    let both = grammar.push(SEQUENCE, read, rest, 0);
    let other = if rng.chance(50) {
        grammar.push(EMPTY, 0, 0, 0)
    } else {
        grammar.push(NOT, letter, 0, 0)
    };
    grammar.rules[0] = grammar.push(CHOICE, both, other, 0);
    grammar
}

/// For the 2014 reading, under which a flag that is set stays so until a token is read: rows
/// of pieces, some of which read nothing and set it, under indents and aligns.
fn carried(rng: &mut Rng, alphabet: &[u16]) -> Grammar {
    let mut grammar = Grammar::new(rng, By2014, Vec::new());
    let mut row = pieces(rng, &mut grammar, alphabet, 4).0;
    match rng.below(10) {
        // A repeat, whose rounds read a token.
        0..=2 => {
            let letter = letter(rng, &mut grammar, alphabet);
            let layers = rng.below(3);
            let last = wrapped(rng, &mut grammar, letter, layers);
            row = grammar.push(SEQUENCE, row, last, 0);
            row = grammar.push(REPEAT, row, 0, 0);
        }
        // X = (a row X) / row
        3 | 4 => {
            grammar.rules.push(0);
            let again = grammar.push(RULE, 0, 0, 0);
            let layers = rng.below(4);
            let rest = wrapped(rng, &mut grammar, again, layers);
            let rest = grammar.push(SEQUENCE, row, rest, 0);
            let letter = letter(rng, &mut grammar, alphabet);
            let round = grammar.push(SEQUENCE, letter, rest, 0);
            row = grammar.push(CHOICE, round, row, 0);
            grammar.rules[0] = row;
        }
        _ => {}
    }
    let layers = rng.below(3);
    wrapped(rng, &mut grammar, row, layers);
    grammar
}

pub(super) fn letter(rng: &mut Rng, grammar: &mut Grammar, alphabet: &[u16]) -> u16 {
    grammar.push(TERMINAL, *rng.pick(alphabet), 0, 0)
}

/// Some pieces in a row, and whether they may all succeed reading nothing.
fn pieces(rng: &mut Rng, grammar: &mut Grammar, alphabet: &[u16], depth: usize) -> (u16, bool) {
    let (mut row, mut nothing) = piece(rng, grammar, alphabet, depth);
    for _ in 0..rng.below(4) {
        let (next, next_nothing) = piece(rng, grammar, alphabet, depth);
        row = grammar.push(SEQUENCE, row, next, 0);
        nothing &= next_nothing;
    }
    (row, nothing)
}

/// A piece with no more than so many forms one over the other, and whether it may succeed
/// reading nothing.
fn piece(rng: &mut Rng, grammar: &mut Grammar, alphabet: &[u16], depth: usize) -> (u16, bool) {
    let inner = if depth == 0 { 0 } else { 1 };
    match rng.weighted(&[7, 6, 5 * inner, 4 * inner, inner, inner, inner]) {
        0 => (letter(rng, grammar, alphabet), false),
        1 => (idle(rng, grammar, alphabet), true),
        2 => {
            let (row, nothing) = pieces(rng, grammar, alphabet, depth - 1);
            let relation = grammar.relation(rng);
            (grammar.push(INDENT, row, 0, relation), nothing)
        }
        3 => {
            let (row, nothing) = pieces(rng, grammar, alphabet, depth - 1);
            (grammar.push(ALIGN, row, 0, 0), nothing)
        }
        4 => {
            let (one, one_nothing) = pieces(rng, grammar, alphabet, depth - 1);
            let (two, two_nothing) = piece(rng, grammar, alphabet, depth - 1);
            let either = grammar.push(CHOICE, one, two, 0);
            (either, one_nothing || two_nothing)
        }
        5 => {
            let (row, _) = pieces(rng, grammar, alphabet, depth - 1);
            (grammar.push(NOT, row, 0, 0), true)
        }
        _ => {
            let (mut row, nothing) = pieces(rng, grammar, alphabet, depth - 1);
            if nothing {
                let letter = letter(rng, grammar, alphabet);
                row = grammar.push(SEQUENCE, row, letter, 0);
            }
            (grammar.push(REPEAT, row, 0, 0), true)
        }
    }
}

/// A piece that may read nothing, mostly an align, which then hands on the flag that it set,
/// some under an indent or within two aligns.
fn idle(rng: &mut Rng, grammar: &mut Grammar, alphabet: &[u16]) -> u16 {
    let mut node = match rng.below(8) {
        0..=3 => grammar.push(EMPTY, 0, 0, 0),
        4 => {
            let letter = letter(rng, grammar, alphabet);
            grammar.push(NOT, letter, 0, 0)
        }
        5 => {
            let letter = letter(rng, grammar, alphabet);
            grammar.push(REPEAT, letter, 0, 0)
        }
        _ => {
            let letter = letter(rng, grammar, alphabet);
            let empty = grammar.push(EMPTY, 0, 0, 0);
            grammar.push(CHOICE, letter, empty, 0)
        }
    };
    if rng.chance(30) {
        node = wrapped(rng, grammar, node, 1);
    }
    if rng.chance(85) {
        node = grammar.push(ALIGN, node, 0, 0);
    }
    if rng.chance(30) {
        node = wrapped(rng, grammar, node, 1);
    }
    node
}

/// A table that keeps to checks 3 to 5 and to nothing else, often not well formed.
pub(super) fn wild(rng: &mut Rng, reading: Reading, alphabet: &[u16]) -> Grammar {
    let size = match rng.below(10) {
        0..=6 => rng.between(1, 8),
        7 | 8 => rng.between(9, 40),
        _ => rng.between(41, 512),
    };
    let rules = if rng.chance(30) { 0 } else { rng.between(1, 4) };
    let nodes_of_rules = (0..rules).map(|_| rng.below(size) as u16).collect();
    let mut grammar = Grammar::new(rng, reading, nodes_of_rules);
    for number in 0..size {
        let over = |weight| if number == 0 { 0 } else { weight };
        let rule_weight = if rules == 0 { 0 } else { 8 };
        let kind = rng.weighted(&[
            8,
            25,
            rule_weight,
            over(20),
            over(14),
            over(6),
            over(4),
            over(6),
            over(if reading == By2017 { 5 } else { 0 }),
            over(if reading == By2017 { 6 } else { 11 }),
        ]) as u16;
        let mut below = || rng.below(number.max(1)) as u16;
        let (a, b) = (below(), below());
        let relation = grammar.relation(rng);
        match kind {
            EMPTY => grammar.push(EMPTY, 0, 0, 0),
            TERMINAL => grammar.push(TERMINAL, *rng.pick(alphabet), 0, 0),
            RULE => grammar.push(RULE, rng.below(rules) as u16, 0, 0),
            SEQUENCE | CHOICE => grammar.push(kind, a, b, 0),
            INDENT | POSITION => grammar.push(kind, a, 0, relation),
            _ => grammar.push(kind, a, 0, 0),
        };
    }
    grammar
}

/// Makes a grammar not well formed, if it can.
pub(super) fn spoil(rng: &mut Rng, grammar: &mut Grammar) {
    match rng.below(3) {
        // A rule that is itself.
        0 => {
            if let Some(node) = grammar.nodes.iter().position(|node| node[0] == RULE) {
                let rule = usize::from(grammar.nodes[node][1]);
                grammar.rules[rule] = node as u16;
            }
        }
        // A repeat over what may read nothing.
        1 => {
            let spots: Vec<usize> = (1..grammar.nodes.len()).collect();
            if !spots.is_empty() {
                let spot = *rng.pick(&spots);
                let child = rng.below(spot);
                grammar.nodes[spot] = [REPEAT, child as u16, 0, 0];
                if rng.chance(70) {
                    grammar.nodes[child] = [EMPTY, 0, 0, 0];
                }
            }
        }
        // Rules that stand for anything.
        _ => {
            let count = grammar.nodes.len();
            for rule in &mut grammar.rules {
                if rng.chance(50) {
                    *rule = rng.below(count) as u16;
                }
            }
        }
    }
}

/// A walk through a grammar that makes up tokens which it could read.
pub(super) struct Walk<'w> {
    pub rng: &'w mut Rng,
    pub grammar: &'w Grammar,
    pub reading: Reading,
    /// Terminal and column.
    pub tokens: Vec<[u32; 2]>,
    pub most: usize,
    pub fuel: usize,
}

impl Walk<'_> {
    /// Walks one expression; `None` once the walk gives up.
    pub fn expression(
        &mut self,
        node: u16,
        mode: u16,
        state: State,
        depth: usize,
    ) -> Option<State> {
        self.fuel = self.fuel.checked_sub(1)?;
        if depth > 1_500 {
            return None;
        }
        let [kind, a, b, relation] = self.grammar.nodes[usize::from(node)];
        let depth = depth + 1;
        match kind {
            TERMINAL => {
                if self.tokens.len() >= self.most {
                    return None;
                }
                let column = self.column(mode, state);
                self.tokens.push([u32::from(a), column]);
                // The place is of no use here.
                state
                    .read(column, mode)
                    .map(|end| State { place: 0, ..end })
            }
            RULE => self.expression(self.grammar.rules[usize::from(a)], mode, state, depth),
            SEQUENCE => {
                let between = self.expression(a, mode, state, depth)?;
                self.expression(b, mode, between, depth)
            }
            CHOICE => {
                // Towards the end of the fuel, the alternative that often is the plain one.
                let first = self.rng.chance(if self.fuel > 50 { 60 } else { 20 });
                self.expression(if first { a } else { b }, mode, state, depth)
            }
            REPEAT => {
                let mut state = state;
                for _ in 0..self.rng.below(4) {
                    state = self.expression(a, mode, state, depth)?;
                }
                Some(state)
            }
            INDENT if self.reading == By2014 && state.flag => {
                self.expression(a, mode, state, depth)
            }
            INDENT => {
                let inside = State {
                    interval: state.interval.inner(relation),
                    ..state
                };
                let end = self.expression(a, mode, inside, depth)?;
                Some(State {
                    interval: state.interval.meet(end.interval.outer(relation)),
                    ..end
                })
            }
            POSITION => self.expression(a, relation, state, depth),
            ALIGN => {
                let inside = State {
                    flag: true,
                    ..state
                };
                let end = self.expression(a, mode, inside, depth)?;
                Some(State {
                    flag: end.flag && (state.flag || self.reading == By2014),
                    ..end
                })
            }
            // Empty, and not.
            _ => Some(state),
        }
    }

    /// A column at which the next token may stand.
    fn column(&mut self, mode: u16, state: State) -> u32 {
        let allowed: Interval = if state.flag {
            state.interval
        } else {
            state.interval.inner(mode)
        };
        let near = match self.rng.below(10) {
            0..=3 => 0,
            4..=7 => self.rng.below(4) as u32,
            _ => self.rng.below(12) as u32,
        };
        let near = match allowed.upper {
            Some(upper) => near.min(upper - allowed.lower),
            None => near,
        };
        (allowed.lower + near).min(65_535)
    }
}
