//! Tests of how far the reader looked, 02 Note 7: cases worked by hand from the note,
//! and small tables by chance beside a tracer that lists every place tried.

use super::readings::{
    a, align, answer, b, bits, both, both_with, choice, clear, fails, file, from, greater,
    interval, not, position, prints, repeat, rule, sequence, set, stands, Chance, Node, A, B,
    EMPTY, LAST,
};
use super::sets::{self, SetRan};
use super::{kind, list, relation, Listed, Ran, Reading, Start};
use Reading::{By2014, By2017};

/// A start in mode equal, from 0 without end, at a place.
fn at(place: u32) -> Start {
    Start {
        place,
        ..from(0, None, false)
    }
}

/// The last node's answer from token 0, the same under both readings.
fn same(nodes: &[Node], tokens: &[[u32; 4]], ran: Ran) {
    both(nodes, tokens, &at(0), ran, ran);
}

/// "and the start place if none was tried": at each place of three tokens, the count
/// too.
#[test]
fn none_tried() {
    let tokens = [a(0); 3];
    for place in 0..=3 {
        let case = |nodes: &[Node], ran: Ran| both(nodes, &tokens, &at(place), ran, ran);
        let empty = clear(0, 0, None, place);
        case(&[EMPTY], empty);
        case(&[EMPTY, not(0)], fails(place));
        case(&[EMPTY, not(0), not(1)], empty);
        case(&[EMPTY, greater(0)], empty);
        // Align of empty, whose flag by 2014 is left set.
        let aligned = [EMPTY, align(0)];
        let left_set = set(0, 0, None, place);
        both(&aligned, &tokens, &at(place), left_set, empty);
        // A part that is never reached: not empty, then a; empty, or a.
        case(&[EMPTY, not(0), A, sequence(1, 2)], fails(place));
        case(&[EMPTY, A, choice(0, 1)], empty);
    }
    same(&[EMPTY], &[], clear(0, 0, None, 0));
}

/// A terminal counts its own place, not the one it moves on to, and empty adds none.
#[test]
fn one_tried() {
    let tokens = [a(0), a(0)];
    same(&[A], &tokens, clear(1, 0, 0, 0));
    same(&[A, EMPTY, sequence(0, 1)], &tokens, clear(1, 0, 0, 0));
    same(&[A, EMPTY, sequence(1, 0)], &tokens, clear(1, 0, 0, 0));
    same(&[A, sequence(0, 0)], &tokens, clear(2, 0, 0, 1));
    // It is tried whether the terminal differs, the column is not in, or both fit.
    same(&[B], &tokens, fails(0));
    same(&[A, B, sequence(0, 1)], &tokens, fails(1));
    let one = from(1, 1, false);
    both(&[A], &tokens, &one, fails(0), fails(0));
    // A place in the token list, not one from the start's on.
    let (read, past) = (clear(1, 0, 0, 1), fails(2));
    both(&[A], &tokens, &at(1), read, read);
    both(&[A], &tokens, &at(2), past, past);
    let nodes = [A, sequence(0, 0)];
    both(&nodes, &tokens, &at(1), past, past);
}

/// "the count itself if tried past the last token", up to 4,096 tokens.
#[test]
fn past_the_last_token() {
    same(&[A], &[], fails(0));
    same(&[A, not(0)], &[], clear(0, 0, None, 0));
    same(&[A, sequence(0, 0)], &[a(0)], fails(1));
    let most = [a(0); 4_096];
    same(&[A, repeat(0)], &most, clear(4_096, 0, 0, 4_096));
    same(&[A, repeat(0)], &most[1..], clear(4_095, 0, 0, 4_095));
    let case = |nodes: &[Node], ran: Ran| both(nodes, &most, &at(4_096), ran, ran);
    case(&[A], fails(4_096));
    case(&[A, not(0)], clear(0, 0, None, 4_096));
    case(&[EMPTY], clear(0, 0, None, 4_096));
    let last = clear(1, 0, 0, 4_095);
    both(&[A], &most, &at(4_095), last, last);
}

/// "Trials inside a not .. count", of one that succeeds and of one that fails.
#[test]
fn in_a_not() {
    let nodes = [A, B, sequence(0, 1), not(2)];
    same(&nodes, &[a(0), a(0)], clear(0, 0, None, 1));
    same(&nodes, &[a(0)], clear(0, 0, None, 1));
    same(&nodes, &[b(0), b(0)], clear(0, 0, None, 0));
    same(&nodes, &[a(0), b(0), b(0)], fails(1));
    let ran = clear(0, 0, None, 2);
    both(&nodes, &[b(0), a(0), a(0)], &at(1), ran, ran);
    let twice = [A, B, sequence(0, 1), not(2), not(3)];
    same(&twice, &[a(0), b(0)], clear(0, 0, None, 1));
    same(&twice, &[a(0), a(0)], fails(1));
    // What follows begins at the old place, and looks less far.
    let then = [A, B, sequence(0, 1), not(2), sequence(3, 0)];
    same(&then, &[a(0), a(0)], clear(1, 0, 0, 1));
    same(&then, &[a(0)], clear(1, 0, 0, 1));
    let then = [A, B, sequence(0, 1), not(2), sequence(3, 1)];
    same(&then, &[a(0), a(0)], fails(1));
}

/// "and in failed alternatives": (a a b) and another one.
#[test]
fn in_a_failed_alternative() {
    let first = [A, B, EMPTY, sequence(0, 1), sequence(0, 3)];
    let or = |second: u16| [&first[..], &[choice(4, second)]].concat();
    let tokens = [a(0); 4];
    same(&or(0), &tokens, clear(1, 0, 0, 2));
    same(&or(2), &tokens, clear(0, 0, None, 2));
    same(&or(1), &tokens, fails(2));
    same(&or(0), &tokens[..2], clear(1, 0, 0, 2));
    same(&or(0), &tokens[..1], clear(1, 0, 0, 1));
    same(&or(2), &[], clear(0, 0, None, 0));
    // The second one looks farther, and one that is not tried adds nothing.
    let second = [&first[..], &[choice(1, 4)]].concat();
    same(&second, &tokens, fails(2));
    same(&second, &[a(0), a(0), b(0), b(0)], clear(3, 0, 0, 2));
    let untried = [&first[..], &[choice(0, 4)]].concat();
    same(&untried, &tokens, clear(1, 0, 0, 0));
    // ((a a b) or b) or a, then b.
    let nested = [choice(4, 1), choice(5, 0), sequence(6, 1)];
    let nested = [&first[..], &nested].concat();
    same(&nested, &tokens, fails(2));
    same(&nested, &[a(0), a(0), a(0), b(0)], fails(2));
    same(&nested, &[a(0), b(0), b(0)], clear(2, 0, 0, 1));
}

/// A failure passes through each of the other kinds: (a b) on a a, or empty.
#[test]
fn through_every_kind() {
    let tokens = [a(1), a(1), a(1)];
    let through = |wrapped: Node| {
        let nodes = [A, B, EMPTY, sequence(0, 1), wrapped];
        both_with(&nodes, &[3], &tokens, &at(0), fails(1), fails(1));
        let nodes = [&nodes[..], &[choice(4, 2)]].concat();
        let empty = clear(0, 0, None, 1);
        both_with(&nodes, &[3], &tokens, &at(0), empty, empty);
    };
    through(rule(0));
    through(sequence(3, 2));
    through(sequence(2, 3));
    through(choice(3, 3));
    through(greater(3));
    through(align(3));
    // Position, by 2017: in mode greater a leaves 0 to 0, and b is tried behind it.
    let nodes = [A, B, sequence(0, 1), position(2, relation::GREATER)];
    both(&nodes, &tokens, &at(0), Ran::Refused(16), fails(1));
}

/// A repeat's last round, which fails.
#[test]
fn last_round() {
    let nodes = [A, repeat(0)];
    same(&nodes, &[], clear(0, 0, None, 0));
    same(&nodes, &[b(0), a(0)], clear(0, 0, None, 0));
    same(&nodes, &[a(0), b(0)], clear(1, 0, 0, 1));
    same(&nodes, &[a(0), a(0)], clear(2, 0, 0, 2));
    let ran = clear(1, 0, 0, 4);
    both(&nodes, &[a(0); 4], &at(3), ran, ran);
    // The last round of (a b) looks one token behind its start.
    let nodes = [A, B, sequence(0, 1), repeat(2)];
    let tokens = [a(0), b(0), a(0), a(0)];
    same(&nodes, &tokens, clear(2, 0, 0, 3));
    same(&nodes, &tokens[..3], clear(2, 0, 0, 3));
    same(&nodes, &tokens[..2], clear(2, 0, 0, 2));
    same(&nodes, &tokens[2..], clear(0, 0, None, 1));
    // Then a, or then b, from where the rounds ended.
    let then_a = [A, B, sequence(0, 1), repeat(2), sequence(3, 0)];
    same(&then_a, &tokens, clear(3, 0, 0, 3));
    let then_b = [A, B, sequence(0, 1), repeat(2), sequence(3, 1)];
    same(&then_b, &tokens, fails(3));
    same(&then_b, &tokens[..2], fails(2));
}

/// Rule 0 is a, and each rule after it (the rule before it, then b) or the rule before
/// it: on a0 every b is tried at the count.
#[test]
fn rule_before_then_b() {
    let mut nodes = vec![B, A];
    let mut rules = vec![1];
    for before in 0..10 {
        let own = nodes.len() as u16;
        nodes.extend([rule(before), sequence(own, 0), choice(own + 1, own)]);
        rules.push(own + 2);
    }
    let ran = clear(1, 0, 0, 1);
    both_with(&nodes, &rules, &[a(0)], &at(0), ran, ran);
}

/// Where the readings part, one looks farther than the other.
#[test]
fn readings_apart() {
    // Note 5's example, then b.
    let nodes = [
        EMPTY,
        align(0),
        A,
        greater(2),
        B,
        sequence(3, 4),
        sequence(1, 5),
    ];
    let case = |tokens: &[[u32; 4]], by_2014: Ran, by_2017: Ran| {
        both(&nodes, tokens, &at(0), by_2014, by_2017);
    };
    case(&[a(0), b(0)], clear(2, 0, 0, 1), fails(0));
    case(&[a(0), a(0)], fails(1), fails(0));
    case(&[a(0)], fails(1), fails(0));
    // Case i, then b.
    let nodes = [A, greater(0), align(1), B, sequence(2, 3)];
    let one = from(1, 1, false);
    let read = clear(2, 1, 1, 1);
    both(&nodes, &[a(4), b(1)], &one, fails(0), read);
    both(&nodes, &[a(4), b(4)], &one, fails(0), fails(1));
    both(&nodes, &[a(1), b(1)], &one, read, fails(0));
    // Not of that: the readings agree in all else.
    let nodes = [A, greater(0), align(1), B, sequence(2, 3), not(4)];
    let (near, far) = (clear(0, 1, 1, 0), clear(0, 1, 1, 1));
    both(&nodes, &[a(4), a(1)], &one, near, far);
    both(&nodes, &[a(1), a(1)], &one, far, near);
}

/// The run that lists: rule 0 is (a a b), and the node is rule 0 or rule 1, which is a.
#[test]
fn listed() {
    let nodes = [A, B, sequence(0, 1), sequence(0, 2), rule(0), rule(1)];
    let or = |second: u16| [&nodes[..], &[choice(4, second)]].concat();
    let rules = [3, 0];
    let listed = |nodes: &[Node], room: usize, reading: Reading| {
        let mut words = vec![9; 4 * room];
        let tokens = [a(0); 3];
        let (nodes, tokens) = (nodes.as_flattened(), tokens.as_flattened());
        let start = Start { node: 6, ..at(0) };
        let listed = list(nodes, &rules, tokens, reading, &start, &mut words);
        (listed, words)
    };
    for reading in [By2014, By2017] {
        // Rule 0 tried b at 2 and left no capture.
        let success = Listed::Success {
            read: 1,
            lower: 0,
            upper: Some(0),
            flag: false,
            farthest: 2,
            captures: 1,
        };
        assert_eq!(listed(&or(5), 1, reading), (success, vec![1, 0, 1, 0]));
        let refused = Listed::Refused(13);
        assert_eq!(listed(&or(5), 0, reading), (refused, vec![]));
        let failure = Listed::Failure { farthest: 2 };
        assert_eq!(listed(&or(1), 1, reading), (failure, vec![0; 4]));
    }
}

/// The clauses over sets: (a a b), or empty, or b.
#[test]
fn over_sets() {
    let nodes = [A, B, EMPTY, sequence(0, 1), sequence(0, 3)];
    let tokens = [a(0), a(0), a(0), a(0)];
    for reading in [By2014, By2017] {
        let run = |second: u16, place: u32| {
            let nodes = [&nodes[..], &[choice(4, second)]].concat();
            let start = Start {
                node: 5,
                ..at(place)
            };
            let (nodes, tokens) = (nodes.as_flattened(), tokens.as_flattened());
            sets::run(nodes, &[], tokens, reading, &start)
        };
        for (place, expected) in [(0, 2), (1, 3), (2, 4), (3, 4), (4, 4)] {
            let ran = run(2, place);
            let SetRan::Success { read, farthest, .. } = ran else {
                panic!("{ran:?}");
            };
            assert_eq!((read, farthest), (0, expected));
            let failure = SetRan::Failure { farthest: expected };
            assert_eq!(run(1, place), failure);
        }
    }
}

/// "The program prints it as one more number at the end of a success or failure line":
/// 01's line, with the keywords `loss` and `:` and terminals 3, 4, 0 and 2.
#[test]
fn lines() {
    let terminal = |terminal: u16| [kind::TERMINAL, terminal, 0, 0];
    let nodes = [
        terminal(3),
        terminal(4),
        terminal(0),
        terminal(2),
        sequence(2, 3),
        sequence(1, 4),
        sequence(0, 5),
    ];
    let keywords: [&[u8]; 2] = [b"loss", b":"];
    let greater = file(&keywords, &nodes, 1);
    prints(&greater, b"  loss: 0.03", "success 4 0 1 clear 3\n");
    prints(&greater, b"  loss: 0.03\n  loss", "success 4 0 1 clear 3\n");
    prints(&greater, b"  loss: x", "failure 2\n");
    prints(&greater, b"  loss:", "failure 2\n");
    prints(&greater, b"  loss: 0.03 x", "failure 3\n");
    prints(&greater, b"loss: 0.03", "failure 0\n");
    prints(&greater, b"", "failure 0\n");
    // A repeat of it tries `loss` again behind it; none is tried by empty.
    let rounds = [&nodes[..], &[repeat(6)]].concat();
    let any = file(&keywords, &rounds, 3);
    prints(&any, b"  loss: 0.03", "success 4 0 inf clear 4\n");
    prints(&any, b"  loss: 0.03\n loss x", "success 4 0 inf clear 5\n");
    prints(&file(&[], &[EMPTY], 0), b"a", "success 0 0 inf clear 0\n");
    prints(&file(&[], &[EMPTY, not(0)], 0), b"a", "failure 0\n");
    // Refusals are as before.
    prints(b"", b"a", "refused 1\n");
    prints(&greater, b"\0", "refused 8\n");
    let ill_formed = file(&[], &[EMPTY, repeat(0)], 0);
    prints(&ill_formed, b"a", "refused 7 1\n");
}

/// The clauses' state, with a set's bits as in `figure_6`.
#[derive(Clone, Copy)]
struct State {
    place: usize,
    set: u64,
    flag: bool,
}

impl State {
    /// A terminal on a token's terminal and column, the set by its definition.
    fn read(self, fits: bool, column: u32, mode: u16) -> Option<State> {
        let alone = 1 << column;
        let (from, left) = match self.flag {
            true => (self.set, alone),
            false => (inner(mode, self.set), self.set & outer(mode, alone)),
        };
        (fits && from & alone != 0).then_some(State {
            place: self.place + 1,
            set: left,
            flag: false,
        })
    }
}

fn members(set: u64) -> impl Iterator<Item = u32> {
    (0..=LAST).filter(move |n| set >> n & 1 == 1)
}

fn inner(relation: u16, set: u64) -> u64 {
    bits(|i| members(set).any(|k| stands(relation, i, k)))
}

fn outer(relation: u16, set: u64) -> u64 {
    bits(|k| members(set).any(|i| stands(relation, i, k)))
}

struct Tracer<'t> {
    nodes: &'t [Node],
    rules: &'t [u16],
    tokens: &'t [[u32; 4]],
    reading: Reading,
}

/// The end of a derivation, `None` for failure, and every place that a terminal was
/// tried at in it, in the order of the trials.
type Trace = (Option<State>, Vec<usize>);

/// A derivation that goes on with another: the other's end, and the trials of both.
fn behind(mut tried: Vec<usize>, (end, more): Trace) -> Trace {
    tried.extend(more);
    (end, tried)
}

impl Tracer<'_> {
    /// The clauses as 01 and 02 Note 5 have them, one by one.
    fn trace(&self, node: u16, mode: u16, old: State) -> Trace {
        let [kind, a, b, relation] = self.nodes[usize::from(node)];
        let by_2014 = self.reading == By2014;
        match kind {
            kind::EMPTY => (Some(old), vec![]),
            kind::TERMINAL => {
                let token = self.tokens.get(old.place);
                let end = token
                    .and_then(|&[own, column, ..]| old.read(own == u32::from(a), column, mode));
                (end, vec![old.place])
            }
            kind::RULE => self.trace(self.rules[usize::from(a)], mode, old),
            kind::SEQUENCE => match self.trace(a, mode, old) {
                (Some(between), tried) => behind(tried, self.trace(b, mode, between)),
                failure => failure,
            },
            kind::CHOICE => match self.trace(a, mode, old) {
                (None, tried) => behind(tried, self.trace(b, mode, old)),
                success => success,
            },
            kind::NOT => match self.trace(a, mode, old) {
                (None, tried) => (Some(old), tried),
                (Some(_), tried) => (None, tried),
            },
            kind::REPEAT => match self.trace(a, mode, old) {
                (None, tried) => (Some(old), tried),
                (Some(end), tried) => behind(tried, self.trace(node, mode, end)),
            },
            kind::INDENT if by_2014 && old.flag => self.trace(a, mode, old),
            kind::INDENT => {
                let set = inner(relation, old.set);
                let (end, tried) = self.trace(a, mode, State { set, ..old });
                let met = |end: State| State {
                    set: old.set & outer(relation, end.set),
                    ..end
                };
                (end.map(met), tried)
            }
            kind::POSITION => self.trace(a, relation, old),
            _ => {
                let (end, tried) = self.trace(a, mode, State { flag: true, ..old });
                let left = |end: State| State {
                    flag: end.flag && (by_2014 || old.flag),
                    ..end
                };
                (end.map(left), tried)
            }
        }
    }

    /// The answer, its farthest place from the list of all that were tried.
    fn answer(&self, start: &Start) -> (Ran, Vec<usize>) {
        let within = |n: u32| start.lower <= n && start.upper.is_none_or(|upper| n <= upper);
        let place = start.place as usize;
        let begin = State {
            place,
            set: bits(within),
            flag: start.flag,
        };
        let (end, tried) = self.trace(start.node, start.mode, begin);
        let farthest = tried.iter().max().map_or(start.place, |&most| most as u32);
        let ran = match end {
            None => Ran::Failure { farthest },
            Some(end) => {
                let (lower, upper) = interval(end.set);
                Ran::Success {
                    read: (end.place - place) as u32,
                    lower,
                    upper,
                    flag: end.flag,
                    farthest,
                }
            }
        };
        (ran, tried)
    }
}

/// What was seen among the tables by chance.
#[derive(Debug, Default)]
struct Seen {
    none_tried: u32,
    at_the_count: u32,
    /// The place tried last is not the farthest.
    put_back: u32,
    /// A success that looked past the token after its last one.
    past_the_end: u32,
    /// A failure that looked past its start.
    failures_on: u32,
    /// The readings agree in all but the farthest place.
    readings_apart: u32,
}

impl Seen {
    /// One answer, and what holds of each: no trial lies below the start or above the
    /// count, and each token read was tried.
    fn see(&mut self, ran: Ran, tried: &[usize], start: &Start, count: u32) {
        let farthest = farthest(ran);
        assert!((start.place..=count).contains(&farthest));
        let last = tried.last().map(|&last| last as u32);
        self.none_tried += u32::from(last.is_none());
        self.at_the_count += u32::from(last.is_some() && farthest == count);
        self.put_back += u32::from(last.is_some_and(|last| last < farthest));
        match ran {
            Ran::Success { read, .. } => {
                let end = start.place + read;
                assert!(farthest + 1 >= end);
                self.past_the_end += u32::from(farthest > end);
            }
            _ => self.failures_on += u32::from(farthest > start.place),
        }
    }
}

fn farthest(ran: Ran) -> u32 {
    match ran {
        Ran::Success { farthest, .. } | Ran::Failure { farthest } => farthest,
        refused => panic!("{refused:?}"),
    }
}

/// The answer but for its farthest place.
fn outcome(mut ran: Ran) -> Ran {
    if let Ran::Success { farthest, .. } | Ran::Failure { farthest } = &mut ran {
        *farthest = 0;
    }
    ran
}

/// Small tables by chance: every call that runs answers as the tracer. Half of them
/// have positions and modes, and are run by 2017 only.
#[test]
fn tables_by_chance() {
    // Up to position, and without it.
    const KINDS: [u16; 20] = [2, 3, 3, 3, 3, 3, 3, 3, 4, 4, 4, 5, 5, 6, 6, 7, 7, 9, 9, 8];
    let mut chance = Chance { seed: 7 };
    let mut seen = Seen::default();
    for round in 0..12_000 {
        let positions = round % 2 == 1;
        let (nodes, rules) = chance.table(&KINDS[..19 + round % 2]);
        for _ in 0..6 {
            let columns = 1 + chance.below(4);
            let (tokens, mut start) = chance.tokens(nodes.len() as u16 - 1, 8, columns);
            if chance.below(2) == 0 {
                (start.lower, start.upper) = (0, None);
            }
            if positions {
                start.mode = chance.relation();
            }
            let mut by = |reading: Reading| {
                let tracer = Tracer {
                    nodes: &nodes,
                    rules: &rules,
                    tokens: &tokens,
                    reading,
                };
                let (traced, tried) = tracer.answer(&start);
                let (nodes, words) = (nodes.as_flattened(), tokens.as_flattened());
                let (ran, _) = answer(nodes, &rules, words, reading, &start);
                assert_eq!(
                    ran, traced,
                    "{reading:?} {nodes:?} {rules:?} {tokens:?} {start:?} {tried:?}"
                );
                seen.see(ran, &tried, &start, tokens.len() as u32);
                ran
            };
            let by_2017 = by(By2017);
            if !positions {
                let by_2014 = by(By2014);
                let alike = outcome(by_2014) == outcome(by_2017);
                seen.readings_apart += u32::from(alike && by_2014 != by_2017);
            }
        }
    }
    let Seen {
        none_tried,
        at_the_count,
        put_back,
        past_the_end,
        failures_on,
        readings_apart,
    } = seen;
    assert!(none_tried > 10_000 && at_the_count > 10_000 && failures_on > 5_000);
    assert!(put_back > 300 && past_the_end > 800 && readings_apart > 50);
}
