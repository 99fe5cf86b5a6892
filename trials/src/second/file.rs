//! The grammar file reader: checks 1 to 6.

use super::{check, relation, MOST_BYTES, MOST_KEYWORDS};
use std::ops::Range;

/// What a read gives: the two tables as written, and "the counts of nodes, rules
/// and keywords and the start".
#[derive(Debug, Clone, PartialEq, Eq)]
pub struct FileRead {
    /// Four words a node: kind, a, b, relation.
    pub nodes: Vec<u16>,
    /// For each rule its node.
    pub rules: Vec<u16>,
    /// The count of keywords.
    pub keywords: usize,
    pub start: u16,
    pub mode: u16,
}

/// Reads a grammar file into slices of `node_room` and `rule_room` words.
pub fn read(file: &[u8], node_room: usize, rule_room: usize) -> Result<FileRead, u8> {
    let grammar = parse(file)?;
    // Check 6: "a lent slice too short for what is to be written".
    if node_room < grammar.nodes.len() || rule_room < grammar.rules.len() {
        return Err(6);
    }
    Ok(FileRead {
        nodes: grammar.nodes,
        rules: grammar.rules,
        keywords: grammar.keywords.len(),
        start: grammar.start,
        mode: grammar.mode,
    })
}

/// A file that checks 1 to 5 let through.
pub(super) struct Grammar<'f> {
    pub keywords: Vec<&'f [u8]>,
    pub nodes: Vec<u16>,
    pub rules: Vec<u16>,
    /// For each rule where its name stands in the file.
    pub names: Vec<Range<usize>>,
    pub start: u16,
    pub mode: u16,
}

/// Checks 1 to 5, in rising number over the whole file; the scanner and the shown text
/// use them too.
pub(super) fn parse(file: &[u8]) -> Result<Grammar<'_>, u8> {
    // Check 1 is done once every field has been taken apart.
    let grammar = fields(file)?;

    // Check 2: "keyword or name breaks its rules, length too".
    let names: Vec<_> = grammar.names.iter().map(|at| &file[at.clone()]).collect();
    let single_alone = |word: &&[u8]| word.len() == 1 || !word.iter().copied().any(is_single);
    if !spelled_and_distinct(&grammar.keywords)
        || !spelled_and_distinct(&names)
        || !grammar.keywords.iter().all(single_alone)
    {
        return Err(2);
    }

    // Checks 3 to 5 of the tables, then 5 of the start.
    check::table(&grammar.nodes, &grammar.rules)?;
    if usize::from(grammar.start) >= grammar.nodes.len() / 4 || grammar.mode >= relation::COUNT {
        return Err(5);
    }
    Ok(grammar)
}

/// Check 1: takes the fields apart.
fn fields(file: &[u8]) -> Result<Grammar<'_>, u8> {
    if file.len() > MOST_BYTES {
        return Err(1);
    }
    let mut grammar = Grammar {
        keywords: Vec::new(),
        nodes: Vec::new(),
        rules: Vec::new(),
        names: Vec::new(),
        start: 0,
        mode: 0,
    };
    let mut last = 0;
    let mut rest = file;
    while !rest.is_empty() {
        // "one-byte tag, two-byte length (high byte first), value"
        let [tag, high, low, after @ ..] = rest else {
            return Err(1);
        };
        let length = usize::from(u16::from_be_bytes([*high, *low]));
        let Some((value, behind)) = after.split_at_checked(length) else {
            return Err(1);
        };
        rest = behind;

        // Tag 1 first and once, 2 to 4 any number of times in number order, 5 once
        // and last.
        let in_order = match last {
            0 => *tag == 1,
            1..=4 => matches!(*tag, 2..=5) && *tag >= last,
            _ => false,
        };
        if !in_order {
            return Err(1);
        }
        last = *tag;

        match (*tag, value) {
            (1, [1]) => {}
            (2, word) => grammar.keywords.push(word),
            (3, [high, low, name @ ..]) => {
                grammar.rules.push(u16::from_be_bytes([*high, *low]));
                // The name ends where its field does.
                let end = file.len() - rest.len();
                grammar.names.push(end - name.len()..end);
            }
            (4, [kind, a, a_low, b, b_low, relation]) => grammar.nodes.extend_from_slice(&[
                u16::from(*kind),
                u16::from_be_bytes([*a, *a_low]),
                u16::from_be_bytes([*b, *b_low]),
                u16::from(*relation),
            ]),
            (5, [high, low, mode]) => {
                grammar.start = u16::from_be_bytes([*high, *low]);
                grammar.mode = u16::from(*mode);
            }
            // A wrong value length, or tag 1's value not 1.
            _ => return Err(1),
        }
    }
    // "tag missing": a file that has tag 5 has tag 1 by the order.
    if last != 5 || grammar.keywords.len() > MOST_KEYWORDS {
        return Err(1);
    }
    Ok(grammar)
}

/// "1 to 32 bytes, none of them .. distinct within their tag".
fn spelled_and_distinct(words: &[&[u8]]) -> bool {
    let spelled = |word: &&[u8]| {
        (1..=32).contains(&word.len()) && word.iter().all(|&byte| byte > 32 && byte != 127)
    };
    if !words.iter().all(spelled) {
        return false;
    }
    let mut sorted = words.to_vec();
    sorted.sort_unstable();
    sorted.windows(2).all(|pair| pair[0] != pair[1])
}

/// "The bytes `: , ( ) [ ] = ; %`".
pub(super) const fn is_single(byte: u8) -> bool {
    matches!(
        byte,
        b':' | b',' | b'(' | b')' | b'[' | b']' | b'=' | b';' | b'%'
    )
}
