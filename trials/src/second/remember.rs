//! The run that remembers outcomes, 02 Note 8: the interpreter's walk, and a table of
//! what each expression gave.

use super::run::{run_with, Entry, Memory, Meter, Outcome, Steps, Unlisted, Unmetered, With};
use super::{Ran, Reading, Start};
use std::collections::HashMap;
use std::hash::{BuildHasherDefault, Hasher};

/// As `run`, lent a slice "of any length to remember outcomes in, empty too". The table
/// is this reader's own, so neither the slice's length nor what it held makes a
/// difference; "after an unrefused run all its words are 0". A refused call leaves it as
/// it was.
pub fn remember(
    nodes: &[u16],
    rules: &[u16],
    tokens: &[u32],
    reading: Reading,
    start: &Start,
    memory: &mut [u32],
) -> Ran {
    match remember_metered(nodes, rules, tokens, reading, start, memory, Unmetered) {
        Ok((ran, _)) => ran,
        Err(never) => match never {},
    }
}

/// As `remember`, with the outcomes; but `None` once more than `steps` expressions were
/// entered, and then the slice is as it was.
pub fn remember_within(
    nodes: &[u16],
    rules: &[u16],
    tokens: &[u32],
    reading: Reading,
    start: &Start,
    memory: &mut [u32],
    steps: u64,
) -> Option<(Ran, Outcomes)> {
    remember_metered(nodes, rules, tokens, reading, start, memory, Steps(steps)).ok()
}

fn remember_metered<M: Meter>(
    nodes: &[u16],
    rules: &[u16],
    tokens: &[u32],
    reading: Reading,
    start: &Start,
    memory: &mut [u32],
    meter: M,
) -> Result<(Ran, Outcomes), M::Stop> {
    let mut outcomes = Outcomes::default();
    let with = With {
        meter,
        lister: Unlisted,
        memory: &mut outcomes,
    };
    let ran = run_with(nodes, rules, tokens, reading, start, with)?;
    if let Ran::Success { .. } | Ran::Failure { .. } = ran {
        memory.fill(0);
    }
    Ok((ran, outcomes))
}

/// The outcomes of a run. Each entry is walked once.
#[derive(Debug, Clone, Default)]
pub struct Outcomes {
    table: Table<Outcome>,
    used: u64,
}

type Table<T> = HashMap<Entry, T, BuildHasherDefault<Mixed>>;

/// The parts of an entry, mixed: they are few and small.
#[derive(Debug, Clone, Default)]
struct Mixed(u64);

impl Hasher for Mixed {
    fn finish(&self) -> u64 {
        self.0
    }

    fn write(&mut self, bytes: &[u8]) {
        for &byte in bytes {
            self.write_u64(u64::from(byte));
        }
    }

    fn write_u16(&mut self, part: u16) {
        self.write_u64(u64::from(part));
    }

    fn write_u32(&mut self, part: u32) {
        self.write_u64(u64::from(part));
    }

    fn write_u64(&mut self, part: u64) {
        // Knuth's constant, as in the tests' `Chance`.
        self.0 = (self.0 ^ part).wrapping_mul(6_364_136_223_846_793_005);
        self.0 ^= self.0 >> 32;
    }

    fn write_isize(&mut self, part: isize) {
        self.write_u64(part as u64);
    }
}

impl Memory for &mut Outcomes {
    const REMEMBERS: bool = true;

    fn recall(&mut self, entry: &Entry) -> Option<Outcome> {
        let known = self.table.get(entry).copied();
        self.used += u64::from(known.is_some());
        known
    }

    fn keep(&mut self, entry: Entry, outcome: Outcome) {
        self.table.insert(entry, outcome);
    }
}

/// The parts of an entry.
pub const PARTS: [&str; 6] = [
    "the node",
    "the place",
    "the mode",
    "the lower end",
    "the upper end",
    "the flag",
];

/// The entry without the part of this number.
fn without(mut entry: Entry, part: usize) -> Entry {
    match part {
        0 => entry.node = 0,
        1 => entry.state.place = 0,
        2 => entry.mode = 0,
        3 => entry.state.interval.lower = 0,
        4 => entry.state.interval.upper = None,
        _ => entry.state.flag = false,
    }
    entry
}

impl Outcomes {
    /// The number of outcomes remembered.
    pub fn kept(&self) -> usize {
        self.table.len()
    }

    /// How often one was used again.
    pub fn used(&self) -> u64 {
        self.used
    }

    /// For each part whether two entries differ in it alone of which one succeeded and
    /// the other failed.
    pub fn told_apart(&self) -> [bool; PARTS.len()] {
        std::array::from_fn(|part| {
            let mut met = Table::default();
            self.table.iter().any(|(&entry, outcome)| {
                let succeeds = outcome.end.is_some();
                *met.entry(without(entry, part)).or_insert(succeeds) != succeeds
            })
        })
    }
}

#[cfg(test)]
mod tests {
    use super::super::readings::{
        a, align, at_least, b, choice, clear, fails, from, greater, indent, not, position, repeat,
        rule, sequence, Node, A, B, EMPTY,
    };
    use super::super::{relation, run};
    use super::*;
    use Reading::{By2014, By2017};

    /// Slices of some lengths with some words in them.
    fn slices() -> impl Iterator<Item = Vec<u32>> {
        let lengths = [0, 1, 7, 8, 13, 64, 1_024];
        lengths.into_iter().flat_map(|length| {
            let rising = (0..length as u32).collect();
            [vec![0; length], vec![u32::MAX; length], rising]
        })
    }

    /// The last node's answer by a reading, the same with every slice, which is 0 then.
    fn remembered(
        (nodes, rules): (&[Node], &[u16]),
        tokens: &[[u32; 4]],
        reading: Reading,
        start: Start,
    ) -> (Ran, Outcomes) {
        let node = nodes.len() as u16 - 1;
        let start = Start { node, ..start };
        let (nodes, tokens) = (nodes.as_flattened(), tokens.as_flattened());
        let with = |memory: &mut [u32]| {
            remember_within(nodes, rules, tokens, reading, &start, memory, 1_000_000)
                .expect("few steps")
        };
        let (ran, outcomes) = with(&mut []);
        for mut memory in slices() {
            assert_eq!(with(&mut memory).0, ran);
            assert!(memory.iter().all(|&word| word == 0));
            memory.fill(9);
            let again = remember(nodes, rules, tokens, reading, &start, &mut memory);
            assert_eq!(again, ran);
            assert!(memory.iter().all(|&word| word == 0));
        }
        (ran, outcomes)
    }

    /// Both readings on what mostly is a grammar for either.
    fn both(nodes: &[Node], rules: &[u16], tokens: &[[u32; 4]], start: Start, ran: Ran) {
        for reading in [By2014, By2017] {
            let (answer, _) = remembered((nodes, rules), tokens, reading, start);
            assert_eq!(answer, ran, "{reading:?}");
        }
    }

    /// Note 8's rules, up to so many: rule 0 is a, "and each of rules 1 to 60 (the rule
    /// before it, then b) or the rule before it". The last node is the last rule.
    fn note_8(last: u16) -> (Vec<Node>, Vec<u16>) {
        let mut nodes = vec![A, B];
        let mut rules = vec![0];
        for before in 0..last {
            let own = nodes.len() as u16;
            nodes.extend([rule(before), sequence(own, 1), choice(own + 1, own)]);
            rules.push(own + 2);
        }
        nodes.push(rule(last));
        (nodes, rules)
    }

    /// "1 read, 0 to 0, clear, farthest place 1", from rule 60 and from its node.
    #[test]
    fn rules_of_note_8() {
        let (nodes, rules) = note_8(60);
        let all = from(0, None, false);
        for count in [nodes.len(), nodes.len() - 1] {
            both(&nodes[..count], &rules, &[a(0)], all, clear(1, 0, 0, 1));
            // With b's behind, all but one rule read none of them.
            let tokens = [a(0), b(0), a(0)];
            both(&nodes[..count], &rules, &tokens, all, clear(2, 0, 0, 2));
            both(&nodes[..count], &rules, &[b(0)], all, fails(0));
            both(&nodes[..count], &rules, &[], all, fails(0));
        }
        // As many rules as there may be.
        let (nodes, rules) = note_8(127);
        both(&nodes, &rules, &[a(0)], all, clear(1, 0, 0, 1));
    }

    /// The same without rules, as deep as 512 nodes are.
    #[test]
    fn levels() {
        let mut nodes = vec![A, B, sequence(0, 1), choice(2, 0)];
        while nodes.len() < 512 {
            let below = nodes.len() as u16 - 1;
            nodes.extend([sequence(below, 1), choice(below + 1, below)]);
        }
        both(
            &nodes,
            &[],
            &[a(0)],
            from(0, None, false),
            clear(1, 0, 0, 1),
        );
        both(&nodes, &[], &[a(3)], from(0, 2, false), fails(0));
    }

    /// Where the plain run ends too, it answers the same.
    #[test]
    fn as_the_plain_run() {
        let (nodes, rules) = note_8(12);
        let start = Start::from_first(nodes.len() as u16 - 1, relation::EQUAL);
        for tokens in [vec![], vec![a(0)], vec![a(1), b(1)], vec![a(1), b(2)]] {
            for reading in [By2014, By2017] {
                let words = (nodes.as_flattened(), tokens.as_flattened());
                let plain = run(words.0, &rules, words.1, reading, &start);
                let (ran, outcomes) = remembered((&nodes, &rules), &tokens, reading, start);
                assert_eq!(ran, plain);
                assert!(outcomes.used() >= 11 && outcomes.kept() < 100);
            }
        }
    }

    /// One expression twice at one token where only one part of the entry differs, and
    /// with it the outcome. The first alternative then lacks a b.
    #[test]
    fn every_part_counts() {
        let twice = |first: Node| [A, B, first, sequence(2, 1), choice(3, 0)];
        let by_2017 = |first: Node, column: u32, start: Start, ran: Ran, part: usize| {
            let nodes = twice(first);
            let (answer, outcomes) = remembered((&nodes, &[]), &[a(column)], By2017, start);
            assert_eq!(answer, ran, "{}", PARTS[part]);
            assert!(outcomes.told_apart()[part], "{}", PARTS[part]);
        };
        // In mode greater from 3 to 9: at 3 the aligned a is read.
        let nine = Start {
            mode: relation::GREATER,
            ..from(3, 9, false)
        };
        by_2017(align(0), 3, nine, fails(1), 5);
        by_2017(at_least(0), 5, from(3, 4, false), fails(1), 4);
        by_2017(
            indent(0, relation::ANY),
            1,
            from(3, None, false),
            fails(1),
            3,
        );
        by_2017(
            position(0, relation::ANY),
            1,
            from(3, 4, false),
            fails(1),
            2,
        );
        // b or a, round after round.
        let rounds = [A, B, choice(1, 0), repeat(2)];
        let (ran, outcomes) = remembered((&rounds, &[]), &[b(0), a(0)], By2017, from(0, 0, false));
        assert_eq!(ran, clear(2, 0, 0, 2));
        assert!(outcomes.told_apart()[1]);
    }

    /// Under 2014 the flag tells how an indent goes: in the align it leaves 0 alone.
    #[test]
    fn flag_by_2014() {
        let nodes = [A, B, greater(0), align(2), sequence(3, 1), choice(4, 2)];
        for (reading, ran) in [(By2014, fails(1)), (By2017, fails(0))] {
            let all = from(0, None, false);
            let (answer, _) = remembered((&nodes, &[]), &[a(0)], reading, all);
            assert_eq!(answer, ran);
        }
    }

    /// The farthest place of an outcome used again is joined with that of the run: it is
    /// never lower, whether the run has looked farther before or not.
    #[test]
    fn farthest_is_joined() {
        let all = from(0, None, false);
        // (a a b) or (a b) or a: a again at the first token, which looks less far.
        let nodes = [
            A,
            B,
            sequence(0, 1),
            sequence(0, 2),
            choice(2, 0),
            choice(3, 4),
        ];
        both(&nodes, &[], &[a(0); 4], all, clear(1, 0, 0, 2));
        // not (a b), not (a b), then a: the trial past the last token is used again.
        let nodes = [A, B, sequence(0, 1), not(2), sequence(3, 0), sequence(3, 4)];
        both(&nodes, &[], &[a(0)], all, clear(1, 0, 0, 1));
        // None tried: the start place, also where it is used again.
        let nodes = [EMPTY, not(0), not(1), sequence(2, 2), sequence(3, 3)];
        let two = Start { place: 2, ..all };
        both(&nodes, &[], &[a(0); 3], two, clear(0, 0, None, 2));
    }

    /// "Nothing is written" by a refused call, and none by one that is out of steps.
    #[test]
    fn refused() {
        let good = [EMPTY, position(0, relation::EQUAL)];
        let ill_formed = [EMPTY, repeat(0)];
        let case = |nodes: &[u16], tokens: &[u32], reading: Reading, start: &Start, ran: Ran| {
            for memory in slices() {
                let mut lent = memory.clone();
                assert_eq!(remember(nodes, &[], tokens, reading, start, &mut lent), ran);
                assert_eq!(lent, memory);
            }
        };
        let first = Start::from_first(0, relation::EQUAL);
        let past = Start { node: 2, ..first };
        let (good, ill_formed) = (good.as_flattened(), ill_formed.as_flattened());
        case(&good[1..], &[], By2017, &first, Ran::Refused(3));
        case(&[10, 0, 0, 0], &[], By2017, &first, Ran::Refused(4));
        case(ill_formed, &[], By2017, &first, Ran::IllFormed(1));
        case(good, &[0; 3], By2017, &first, Ran::Refused(11));
        case(good, &[], By2017, &past, Ran::Refused(12));
        case(good, &[], By2014, &first, Ran::Refused(16));
        let mut lent = [7; 9];
        let stopped = remember_within(good, &[], &[], By2017, &first, &mut lent, 0);
        assert!(stopped.is_none() && lent == [7; 9]);
    }
}
