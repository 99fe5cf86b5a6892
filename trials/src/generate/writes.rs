//! Calls of the writer: a grammar file that lends its names, tables, a start and the room
//! lent for the written file, good and damaged.

use super::files::{at_a_limit, bytes, distinct, fields, name, shaken, source, with_damage};
use super::files::{Source, SINGLES};
use super::grammars::{self, Grammar, LAST};
use super::runs::{alphabet, break_table};
use super::Rng;
use crate::second::kind::{EMPTY, RULE};
use crate::second::relation::{COUNT, EQUAL};
use crate::second::{Reading, MOST_KEYWORDS, MOST_NODES, MOST_RULES};

/// The length of the longest file.
const LONGEST: usize = 18_209;

/// A lending file, lent tables, a start, and the length, in bytes, of the lent slice.
#[derive(Debug, Clone, PartialEq, Eq)]
pub struct WriteInput {
    pub lending: Vec<u8>,
    pub nodes: Vec<u16>,
    pub rules: Vec<u16>,
    pub node: u16,
    pub mode: u16,
    pub room: usize,
}

/// What may be wrong about a call.
#[derive(Clone, Copy, PartialEq, Eq)]
enum Fault {
    Lending,
    Tables,
    Start,
    Count,
    Room,
}

/// An input for the writer: mostly nothing is wrong, and often two things are.
pub fn write_input(rng: &mut Rng) -> WriteInput {
    let source = lending(rng);
    let faults = faults(rng);
    let has = |fault| faults.contains(&fault);
    let mut made = made(rng, &source);
    if has(Fault::Count) {
        let count = other_count(rng, source.names.len());
        with_rules(rng, &mut made.grammar, count);
    }
    let needed = bytes(&fields(&made)).len();
    let (mut nodes, mut rules) = (made.grammar.words(), made.grammar.rules);
    if has(Fault::Tables) {
        break_table(rng, &mut nodes, &mut rules);
    }
    let (mut node, mut mode) = (made.start, u16::from(made.mode));
    if has(Fault::Start) {
        let count = (nodes.len() / 4) as u16;
        match rng.below(2) {
            0 => node = *rng.pick(&[count, count, count + 1, source.start.max(count), 65_535]),
            _ => mode = *rng.pick(&[COUNT, COUNT, COUNT + 1, 255, 256 + mode, 65_535]),
        }
    }
    let room = room(rng, needed, has(Fault::Room));
    let lending = if has(Fault::Lending) {
        damaged(rng, source)
    } else {
        bytes(&fields(&source))
    };
    WriteInput {
        lending,
        nodes,
        rules,
        node,
        mode,
        room,
    }
}

fn faults(rng: &mut Rng) -> Vec<Fault> {
    use Fault::*;
    let kinds = [Lending, Tables, Start, Count, Room];
    let count = rng.weighted(&[60, 20, 16, 4]);
    (0..count).map(|_| *rng.pick(&kinds)).collect()
}

/// A grammar whose file lends its names, sometimes as large as the limits allow.
fn lending(rng: &mut Rng) -> Source {
    let mut source = source(rng);
    if rng.chance(2) {
        let keywords = MOST_KEYWORDS - rng.below(2);
        let rules = MOST_RULES - rng.below(2);
        source.keywords = distinct(rng, keywords, long_word);
        source.names = distinct(rng, rules, long_word);
        source.grammar = large(rng);
        with_rules(rng, &mut source.grammar, rules);
        source.start = rng.below(source.grammar.nodes.len()) as u16;
    }
    source
}

/// A word of 32 bytes that may be a keyword and a name.
fn long_word(rng: &mut Rng) -> Vec<u8> {
    let mut word = name(rng);
    word.retain(|byte| !SINGLES.contains(byte));
    word.resize(32, *rng.pick(b"klm"));
    word
}

/// As many nodes as there may be, or one less.
fn large(rng: &mut Rng) -> Grammar {
    let size = MOST_NODES - rng.below(2);
    let alphabet = alphabet(rng);
    grammars::grown(rng, Reading::By2017, size, &alphabet)
}

/// What is to be written: often the tables of the lending file itself, mostly with its
/// start, else those of another grammar.
fn made(rng: &mut Rng, lending: &Source) -> Source {
    let mut made = lending.clone();
    let own = rng.chance(40);
    if !own {
        made.grammar = if rng.chance(4) || lending.keywords.len() > 250 {
            large(rng)
        } else {
            let alphabet = alphabet(rng);
            grammars::grammar(rng, Reading::By2017, &alphabet)
        };
        with_rules(rng, &mut made.grammar, lending.names.len());
        if rng.chance(5) {
            grammars::spoil(rng, &mut made.grammar);
        }
    }
    if !own || rng.chance(30) {
        let count = made.grammar.nodes.len();
        let any = rng.below(count);
        let mode = made.grammar.relation(rng);
        made.start = *rng.pick(&[any, any, count - 1, count - 1, 0]) as u16;
        made.mode = *rng.pick(&[mode, mode, mode, LAST, EQUAL]) as u8;
    }
    made
}

/// Gives a grammar so many rules: new ones stand for any node, and the nodes of those that
/// are gone come to another one, or are empty.
fn with_rules(rng: &mut Rng, grammar: &mut Grammar, count: usize) {
    let nodes = grammar.nodes.len();
    let any_node = || rng.below(nodes) as u16;
    grammar.rules.resize_with(count, any_node);
    for node in &mut grammar.nodes {
        if node[0] == RULE && usize::from(node[1]) >= count {
            *node = match count {
                0 => [EMPTY, 0, 0, 0],
                _ => [RULE, rng.below(count) as u16, 0, 0],
            };
        }
    }
}

/// Another rule count within the limit, often one off.
fn other_count(rng: &mut Rng, count: usize) -> usize {
    let any = rng.below(MOST_RULES + 1);
    let mut counts = vec![count + 1, count + 1, any, 0, MOST_RULES];
    counts.extend([count.saturating_sub(1); 2]);
    counts.retain(|&other| other != count && other <= MOST_RULES);
    *rng.pick(&counts)
}

/// Room for so many bytes: as many, one more, some more or the most that a file has; or one
/// less, none, or any number that does not do.
fn room(rng: &mut Rng, needed: usize, short: bool) -> usize {
    match (short, rng.below(20)) {
        (true, 0..=9) => needed - 1,
        (true, 10..=13) => 0,
        (true, _) => rng.below(needed),
        (false, 0..=7) => needed,
        (false, 8..=10) => needed + 1,
        (false, 11..=13) => needed + rng.between(2, 40),
        (false, 14..=18) => LONGEST,
        (false, _) => needed + rng.between(1_000, 60_000),
    }
}

/// A lending file that is mostly refused, by 1 to 5.
fn damaged(rng: &mut Rng, mut source: Source) -> Vec<u8> {
    match rng.below(12) {
        0..=2 => return with_damage(rng, fields(&source)),
        3 => return shaken(rng, bytes(&fields(&source))),
        4 => return at_a_limit(rng, source),
        5 | 6 => {
            // A word that breaks its rules, or is there twice.
            let twice = source.keywords.first().cloned().unwrap_or_default();
            let words = [b"a b".to_vec(), b"k:".to_vec(), vec![b'k'; 33], twice];
            source.keywords.push(rng.pick(&words).clone());
        }
        7 => source.start = source.grammar.nodes.len() as u16,
        8 => source.mode = *rng.pick(&[COUNT, COUNT, 255]) as u8,
        _ => {
            let mut nodes = source.grammar.words();
            break_table(rng, &mut nodes, &mut source.grammar.rules);
            source.grammar.nodes = nodes.as_chunks().0.to_vec();
        }
    }
    bytes(&fields(&source))
}
