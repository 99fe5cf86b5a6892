//! Grammar files, good and damaged, with the room lent for their tables.

use super::grammars::{self, Grammar, LAST};
use super::letters::{damaged, letter};
use super::makers::{alike, change};
use super::Rng;
use crate::second::kind::{INDENT, POSITION};
use crate::second::relation::{ANY, COUNT, EQUAL};
use crate::second::{read, Reading};
use std::collections::BTreeSet;

/// A file and the lengths, in words, of the two lent slices.
#[derive(Debug, Clone, PartialEq, Eq)]
pub struct FileInput {
    pub file: Vec<u8>,
    pub node_room: usize,
    pub rule_room: usize,
}

/// A grammar with everything that its file holds.
#[derive(Debug, Clone)]
pub(super) struct Source {
    pub keywords: Vec<Vec<u8>>,
    /// Whether its keywords are one maker's, nearly the same.
    pub alike: bool,
    pub names: Vec<Vec<u8>>,
    pub grammar: Grammar,
    pub start: u16,
    pub mode: u8,
}

type Field = (u8, Vec<u8>);

/// An input for the file reader.
pub fn file_input(rng: &mut Rng) -> FileInput {
    let file = match rng.below(100) {
        0..=44 => bytes(&fields(&source(rng))),
        45..=68 => damaged_fields(rng),
        69 => doubled(rng),
        70..=89 => damaged_bytes(rng),
        _ => limits(rng),
    };
    let (mut node_room, mut rule_room) = (2_048, 128);
    if rng.chance(20) {
        // Exact room, or one word less, or little.
        if let Ok(grammar) = read(&file, usize::MAX, usize::MAX) {
            node_room = grammar.nodes.len();
            rule_room = grammar.rules.len();
        }
        match rng.below(4) {
            0 => node_room = node_room.saturating_sub(1),
            1 => rule_room = rule_room.saturating_sub(1),
            2 => {
                node_room = rng.below(12);
                rule_room = rng.below(3);
            }
            _ => {}
        }
    }
    FileInput {
        file,
        node_room,
        rule_room,
    }
}

/// A grammar within all limits, mostly well formed.
pub(super) fn source(rng: &mut Rng) -> Source {
    let alike = rng.below(12) == 0;
    let keywords = if alike {
        makers_keywords(rng)
    } else {
        any_keywords(rng)
    };
    let count = keywords.len();
    // Number, word, line end, and some of the keywords.
    let mut alphabet = vec![0, 1, 2];
    for _ in 0..count.min(4) {
        alphabet.push(3 + rng.below(count) as u16);
    }
    let mut grammar = grammars::grammar(rng, Reading::By2017, &alphabet);
    if rng.chance(4) {
        grammars::spoil(rng, &mut grammar);
    }
    let names = names(rng, grammar.rules.len());
    let nodes = grammar.nodes.len();
    let start = if rng.chance(60) {
        nodes - 1
    } else {
        rng.below(nodes)
    };
    let mode = grammar.relation(rng) as u8;
    Source {
        keywords,
        alike,
        names,
        grammar,
        start: start as u16,
        mode,
    }
}

/// Keywords of all sorts.
fn any_keywords(rng: &mut Rng) -> Vec<Vec<u8>> {
    let count = match rng.below(40) {
        0 => *rng.pick(&[200, 252, 253]),
        1..=6 => rng.between(8, 40),
        _ => rng.below(6),
    };
    distinct(rng, count, keyword)
}

/// The keywords of one maker, often 200 or more.
fn makers_keywords(rng: &mut Rng) -> Vec<Vec<u8>> {
    let count = match rng.below(10) {
        0 | 1 => 200,
        2 => rng.between(200, 253),
        3 => rng.between(2, 253),
        _ => rng.between(2, 40),
    };
    alike(rng, count, false)
}

/// So many rule names, now and then nearly the same.
fn names(rng: &mut Rng, count: usize) -> Vec<Vec<u8>> {
    if rng.below(12) == 0 {
        alike(rng, count, true)
    } else {
        distinct(rng, count, name)
    }
}

pub(super) fn distinct(rng: &mut Rng, count: usize, word: fn(&mut Rng) -> Vec<u8>) -> Vec<Vec<u8>> {
    let mut words: Vec<Vec<u8>> = Vec::new();
    let mut met = BTreeSet::new();
    while words.len() < count {
        let next = word(rng);
        if met.insert(next.clone()) {
            words.push(next);
        }
    }
    words
}

pub(super) const SINGLES: &[u8] = b":,()[]=;%";

/// A keyword by its rules.
fn keyword(rng: &mut Rng) -> Vec<u8> {
    match rng.below(20) {
        0..=4 => vec![*rng.pick(SINGLES)],
        5 => b"loss".to_vec(),
        6 => format!("{}", rng.below(30)).into_bytes(),
        7 => b"-0.04".to_vec(),
        // Outside ASCII, whole and damaged.
        8 => letter(rng),
        9 => rng.pick(&["µm", "20°", "°C"]).as_bytes().to_vec(),
        10 => damaged(rng),
        _ => {
            let mut word = name(rng);
            word.retain(|byte| !SINGLES.contains(byte));
            if word.is_empty() {
                word.push(b'k');
            }
            word
        }
    }
}

/// A name by its rules.
pub(super) fn name(rng: &mut Rng) -> Vec<u8> {
    let length = match rng.below(20) {
        0 => 32,
        1 | 2 => rng.between(9, 32),
        _ => rng.between(1, 8),
    };
    let letters = rng.chance(15);
    let mut name = Vec::new();
    while name.len() < length {
        match rng.below(30) {
            0 => name.push(rng.between(128, 255) as u8),
            1 => name.push(rng.between(33, 126) as u8),
            2 => name.push(*rng.pick(SINGLES)),
            3..=6 => name.push(*rng.pick(b"0123456789-.")),
            7..=18 if letters => name.extend(letter(rng)),
            _ => name.push(*rng.pick(b"abcdefgh")),
        }
    }
    // This may cut a letter short.
    name.truncate(length);
    name
}

pub(super) fn fields(source: &Source) -> Vec<Field> {
    let mut fields = vec![(1, vec![1])];
    for word in &source.keywords {
        fields.push((2, word.clone()));
    }
    for (node, name) in source.grammar.rules.iter().zip(&source.names) {
        fields.push((3, [&node.to_be_bytes()[..], name].concat()));
    }
    for &[kind, a, b, relation] in &source.grammar.nodes {
        let (a, b) = (a.to_be_bytes(), b.to_be_bytes());
        let value = vec![kind as u8, a[0], a[1], b[0], b[1], relation as u8];
        fields.push((4, value));
    }
    let start = source.start.to_be_bytes();
    fields.push((5, vec![start[0], start[1], source.mode]));
    fields
}

pub(super) fn bytes(fields: &[Field]) -> Vec<u8> {
    let mut bytes = Vec::new();
    for (tag, value) in fields {
        bytes.push(*tag);
        bytes.extend((value.len() as u16).to_be_bytes());
        bytes.extend(value);
    }
    bytes
}

/// Keywords and rule names.
pub type Spellings<'f> = (Vec<&'f [u8]>, Vec<&'f [u8]>);

/// The keywords and rule names of a file whose fields are right: the values of tag 2, and of
/// tag 3 behind two bytes.
pub fn spellings(file: &[u8]) -> Spellings<'_> {
    let (mut keywords, mut names) = (Vec::new(), Vec::new());
    let mut rest = file;
    while let [tag, high, low, after @ ..] = rest {
        let (value, behind) = after.split_at(usize::from(u16::from_be_bytes([*high, *low])));
        match tag {
            2 => keywords.push(value),
            3 => names.push(&value[2..]),
            _ => {}
        }
        rest = behind;
    }
    (keywords, names)
}

/// A file with whole fields gone wrong, mostly one.
fn damaged_fields(rng: &mut Rng) -> Vec<u8> {
    let fields = fields(&source(rng));
    with_damage(rng, fields)
}

/// The file of a maker's lists with a spelling that is there twice, or nearly.
fn doubled(rng: &mut Rng) -> Vec<u8> {
    let mut source = source(rng);
    source.keywords = makers_keywords(rng);
    source.names = alike(rng, source.names.len(), true);
    let mut fields = fields(&source);
    double(rng, &mut fields);
    bytes(&fields)
}

/// The file of fields that go wrong, mostly one.
pub(super) fn with_damage(rng: &mut Rng, mut fields: Vec<Field>) -> Vec<u8> {
    loop {
        damage(rng, &mut fields);
        if rng.chance(75) {
            return bytes(&fields);
        }
    }
}

fn damage(rng: &mut Rng, fields: &mut Vec<Field>) {
    if fields.is_empty() {
        return;
    }
    let at = rng.below(fields.len());
    // The last field of a random tag, so that the few are not lost among the nodes.
    let wanted = rng.between(1, 5) as u8;
    let chosen = fields
        .iter()
        .rposition(|field| field.0 == wanted)
        .unwrap_or(at);
    match rng.below(13) {
        0 => {
            let twice = fields[chosen].clone();
            fields.insert(at, twice);
        }
        1 => {
            let twice = fields[chosen].clone();
            fields.insert(chosen, twice);
        }
        2 => {
            fields.remove(chosen);
        }
        3 => fields.swap(at, chosen),
        4 => fields[chosen].0 = *rng.pick(&[0, 1, 2, 3, 4, 5, 6, 255]),
        5 => fields[chosen].1.push(*rng.pick(&[0, b'a'])),
        6 => {
            fields[chosen].1.pop();
        }
        7 => fields[chosen].1.clear(),
        // A name or keyword of a bad length or with a bad byte.
        8 => {
            let tag = *rng.pick(&[2, 3]);
            let node = if tag == 3 { vec![0, 0] } else { Vec::new() };
            let length = *rng.pick(&[0, 1, 32, 33, 40, 300]);
            let value = [node, vec![b'z'; length]].concat();
            insert(fields, tag, value);
        }
        9 => {
            let tag = *rng.pick(&[2, 3]);
            let node = if tag == 3 { vec![0, 0] } else { Vec::new() };
            let bad = *rng.pick(&[0, 9, 10, 31, 32, 33, 126, 127, 128, 255, b':', b'%']);
            let mut word = b"xy".to_vec();
            word.insert(rng.below(3), bad);
            insert(fields, tag, [node, word].concat());
        }
        10 => double(rng, fields),
        // A byte of a value.
        _ => {
            let value = &mut fields[chosen].1;
            if !value.is_empty() {
                let byte = rng.below(value.len());
                value[byte] = match rng.below(4) {
                    0 => 255,
                    1 => rng.word() as u8,
                    2 => value[byte].wrapping_add(1),
                    _ => 0,
                };
            }
        }
    }
}

/// Makes a keyword or a name the same as another one, often far from it, or the same but for
/// a byte.
fn double(rng: &mut Rng, fields: &mut [Field]) {
    let tag = *rng.pick(&[2, 2, 3]);
    let places: Vec<usize> = (0..fields.len()).filter(|&i| fields[i].0 == tag).collect();
    let count = places.len();
    if count < 2 {
        return;
    }
    // In the first and the last quarter, or anywhere.
    let (mut one, mut two) = if rng.chance(60) {
        let quarter = count.div_ceil(4);
        (rng.below(quarter), count - 1 - rng.below(quarter))
    } else {
        let one = rng.below(count);
        (one, (one + rng.between(1, count - 1)) % count)
    };
    if rng.chance(50) {
        (one, two) = (two, one);
    }
    // A name stands behind its node.
    let ahead = if tag == 3 { 2 } else { 0 };
    let word = fields[places[one]].1.get(ahead..);
    let mut word = word.unwrap_or_default().to_vec();
    if rng.chance(50) && !word.is_empty() {
        change(rng, &mut word);
    }
    let value = &mut fields[places[two]].1;
    value.truncate(ahead);
    value.extend(word);
}

/// Puts a field in order, behind those of its tag.
fn insert(fields: &mut Vec<Field>, tag: u8, value: Vec<u8>) {
    let at = fields.iter().take_while(|field| field.0 <= tag).count();
    fields.insert(at, (tag, value));
}

/// A file with bytes gone wrong.
fn damaged_bytes(rng: &mut Rng) -> Vec<u8> {
    let file = bytes(&fields(&source(rng)));
    shaken(rng, file)
}

/// A file whose bytes go wrong.
pub(super) fn shaken(rng: &mut Rng, mut file: Vec<u8>) -> Vec<u8> {
    loop {
        if file.is_empty() {
            return file;
        }
        let at = rng.below(file.len());
        match rng.below(6) {
            0 => file.truncate(at),
            1 => file.insert(at, rng.word() as u8),
            2 => {
                file.remove(at);
            }
            3 => file[at] ^= 1 << rng.below(8),
            4 => file[at] = rng.word() as u8,
            _ => file.push(rng.word() as u8),
        }
        if rng.chance(75) {
            return file;
        }
    }
}

/// A file at a limit or just past one.
fn limits(rng: &mut Rng) -> Vec<u8> {
    let source = source(rng);
    at_a_limit(rng, source)
}

/// The file of a grammar that is brought to a limit or just past one.
pub(super) fn at_a_limit(rng: &mut Rng, mut source: Source) -> Vec<u8> {
    match rng.below(6) {
        // 253 or 254 keywords.
        0 => {
            let count = *rng.pick(&[253, 254]);
            source.keywords = distinct(rng, count, keyword);
        }
        // 512 or 513 nodes.
        1 => {
            let count = *rng.pick(&[512, 513]);
            source.grammar.nodes.resize(count, [0; 4]);
        }
        // 128 or 129 rules.
        2 => {
            let count = *rng.pick(&[128, 129]);
            source.grammar.rules.resize(count, 0);
            source.names = distinct(rng, count, name);
        }
        // 65,535 or 65,536 bytes: 10 for tags 1 and 5, 7,279 nodes of 9, and a rule.
        3 => {
            let name = vec![b'n'; *rng.pick(&[9, 9, 10])];
            let mut fields = vec![(1, vec![1]), (3, [vec![0, 0], name].concat())];
            fields.extend((0..7_279).map(|_| (4, vec![0; 6])));
            fields.push((5, vec![0, 0, 0]));
            return bytes(&fields);
        }
        // The start at the table's end, the modes around the last.
        4 => {
            let count = source.grammar.nodes.len() as u16;
            source.start = *rng.pick(&[count - 1, count, 65_535]);
            source.mode = *rng.pick(&[EQUAL, ANY, LAST, COUNT, COUNT + 1, 255]) as u8;
        }
        // The relations around the last, over node 0 as the last node.
        _ => {
            let kind = *rng.pick(&[INDENT, POSITION]);
            let relation = *rng.pick(&[ANY, LAST, COUNT, COUNT + 1, 255]);
            source.grammar.nodes.truncate(511);
            source.grammar.nodes.push([kind, 0, 0, relation]);
        }
    }
    bytes(&fields(&source))
}
