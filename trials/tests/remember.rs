//! The run that remembers, 02 Note 8: both readers with slices of every length, and the
//! second reader's with and without its outcomes on generated inputs, whose shares tell
//! what they are worth.

use std::thread;
use trials::generate::{run_input, run_input_by_2014, Rng, RunInput, Stats, MOST_WORDS};
use trials::ours;
use trials::second::kind::*;
use trials::second::relation::{ANY, AT_LEAST, EQUAL, GREATER};
use trials::second::Reading::{self, By2014, By2017};
use trials::second::{remember, remember_within, run, run_within, Ran, Start, PARTS};

/// Runs the work with a stack for deep runs.
fn with_stack(work: impl FnOnce() + Send + 'static) {
    let thread = thread::Builder::new().stack_size(1 << 30).spawn(work);
    thread.unwrap().join().unwrap();
}

/// What both readers answer, lent the same words, with those words behind the call.
fn remembered(
    (nodes, rules): (&[u16], &[u16]),
    tokens: &[u32],
    reading: Reading,
    start: &Start,
    held: &[u32],
) -> (Ran, Vec<u32>) {
    let mut words = held.to_vec();
    let ran = remember(nodes, rules, tokens, reading, start, &mut words);
    let both = (ran, words);
    assert_eq!(
        ours::remember(nodes, rules, tokens, reading, start, held).as_ref(),
        Ok(&both),
        "{nodes:?} {rules:?} {tokens:?} {reading:?} {start:?}"
    );
    both
}

/// "a stored test lent 65,536 words must end, with 1 read, 0 to 0, clear, farthest place
/// 1", from rule 60 and from its node.
#[test]
fn note_8() {
    let mut nodes = vec![[TERMINAL, 0, 0, 0], [TERMINAL, 1, 0, 0]];
    let mut rules = vec![0];
    for before in 0..60 {
        let own = nodes.len() as u16;
        nodes.push([RULE, before, 0, 0]);
        nodes.push([SEQUENCE, own, 1, 0]);
        nodes.push([CHOICE, own + 1, own, 0]);
        rules.push(own + 2);
    }
    nodes.push([RULE, 60, 0, 0]);
    let nodes = nodes.concat();
    let success = Ran::Success {
        read: 1,
        lower: 0,
        upper: Some(0),
        flag: false,
        farthest: 1,
    };
    for node in [rules[60], rules[60] + 1] {
        let start = Start::from_first(node, EQUAL);
        for (reading, held) in [(By2014, 0), (By2017, 0), (By2014, 1), (By2017, u32::MAX)] {
            let held = vec![held; MOST_WORDS];
            let went = remembered((&nodes, &rules), &[0; 4], reading, &start, &held);
            assert_eq!(went, (success, vec![0; MOST_WORDS]));
        }
    }
}

/// One node in many ways at one token: (x a) or (x under any, a) or (x aligned, a) or
/// (x under at least, a) or x, where x is (b or c under greater), all in a repeat.
const WAYS: [[u16; 4]; 18] = [
    [TERMINAL, 0, 0, 0],
    [TERMINAL, 1, 0, 0],
    [TERMINAL, 2, 0, 0],
    [INDENT, 2, 0, GREATER],
    [CHOICE, 1, 3, 0],
    [INDENT, 4, 0, ANY],
    [ALIGN, 4, 0, 0],
    [INDENT, 4, 0, AT_LEAST],
    [SEQUENCE, 4, 0, 0],
    [SEQUENCE, 5, 0, 0],
    [SEQUENCE, 6, 0, 0],
    [SEQUENCE, 7, 0, 0],
    [CHOICE, 11, 4, 0],
    [CHOICE, 10, 12, 0],
    [CHOICE, 9, 13, 0],
    [CHOICE, 8, 14, 0],
    [INDENT, 15, 0, AT_LEAST],
    [REPEAT, 16, 0, 0],
];

/// Starts and tokens for it: the last node and the one under the last indent.
fn ways() -> Vec<(Start, Vec<u32>)> {
    let mut ways = Vec::new();
    for number in 0..64u32 {
        let token = |at: u32| [(number >> at) % 3, ((number * 5) >> at) % 4, 0, 0];
        let tokens = [0, 1, 2, 4].map(token).concat();
        let start = Start {
            lower: number % 3,
            upper: (number % 5 > 1).then_some(number % 3 + number % 2),
            flag: number % 7 == 0,
            ..Start::from_first(15 + 2 * (number as u16 % 2), EQUAL)
        };
        ways.push((start, tokens));
    }
    ways
}

/// Every length up to 80, with what may look like remembered outcomes: as the plain run.
#[test]
fn every_length() {
    let nodes = WAYS.concat();
    let (mut successes, mut failures) = (0, 0);
    for (start, tokens) in ways() {
        for reading in [By2014, By2017] {
            let plain = run(&nodes, &[], &tokens, reading, &start);
            successes += u32::from(matches!(plain, Ran::Success { .. }));
            failures += u32::from(matches!(plain, Ran::Failure { .. }));
            for length in 0..80 {
                let held: Vec<u32> = (0..length as u32).map(|word| word * 7 % 3).collect();
                let went = remembered((&nodes, &[]), &tokens, reading, &start, &held);
                assert_eq!(went, (plain, vec![0; length]));
            }
        }
    }
    assert!(successes > 40 && failures > 20, "{successes} {failures}");
}

/// A call refused by any number leaves the slice alone.
#[test]
fn refused() {
    let nodes = WAYS.concat();
    let start = Start::from_first(17, EQUAL);
    let past = Start { node: 18, ..start };
    let mode = Start { mode: ANY, ..start };
    let ill_formed = [EMPTY, 0, 0, 0, REPEAT, 0, 0, 0];
    let unused = [EMPTY, 0, 1, 0];
    let case = |table: (&[u16], &[u16]), tokens: &[u32], start: &Start, ran: Ran| {
        for length in [0, 1, 12, 16, 100, 1_024] {
            let held: Vec<u32> = (1..=length).collect();
            let went = remembered(table, tokens, By2014, start, &held);
            assert_eq!(went, (ran, held));
        }
    };
    case((&nodes[1..], &[]), &[], &start, Ran::Refused(3));
    case((&unused, &[]), &[], &start, Ran::Refused(4));
    case((&nodes, &[18]), &[], &start, Ran::Refused(5));
    case((&ill_formed, &[]), &[], &start, Ran::IllFormed(1));
    case((&nodes, &[]), &[0; 3], &start, Ran::Refused(11));
    case((&nodes, &[]), &[], &past, Ran::Refused(12));
    case((&nodes, &[]), &[], &mode, Ran::Refused(16));
}

/// More than a run on a generated input mostly takes.
const STEPS: u64 = 200_000;

/// The second reader's two runs agree, and the slice is 0 but after a refused call.
fn agreed(input: &RunInput, stats: &mut Stats) {
    let (nodes, rules, tokens, reading, start) = input.parts();
    let Some(plain) = run_within(nodes, rules, tokens, reading, start, STEPS) else {
        return;
    };
    let held = input.memory.words(start);
    let mut words = held.clone();
    let memory = &mut words;
    let within = remember_within(nodes, rules, tokens, reading, start, memory, STEPS);
    let (ran, outcomes) = within.expect("no more steps than the plain run takes");
    assert_eq!(ran, plain, "{input:?}");
    match ran {
        Ran::Refused(_) | Ran::IllFormed(_) => assert_eq!(words, held),
        _ => assert_eq!(words, vec![0; held.len()]),
    }
    stats.note_remember(input, &outcomes);
}

/// The shares of what slips would be found by.
#[test]
fn generated_runs() {
    with_stack(|| {
        let mut stats = Stats::default();
        let (mut rng, mut other) = (Rng::new(8), Rng::new(8));
        for _ in 0..10_000 {
            agreed(&run_input(&mut rng), &mut stats);
            agreed(&run_input_by_2014(&mut other), &mut stats);
        }
        println!("{stats}");
        for part in ["remember", "remember 2014"] {
            for (class, least) in [
                ("an outcome used again", 15.0),
                ("10 outcomes or more used again", 2.0),
                ("lent no word", 5.0),
                ("lent 2 to 31 words", 10.0),
                ("lent 65,536 words", 3.0),
                ("holds rows like outcomes", 25.0),
                ("holds small numbers", 25.0),
                ("holds zeros", 5.0),
            ] {
                assert!(stats.share(part, class) > least, "{part}: {class}");
            }
            for what in PARTS {
                let class = format!("a success and a failure by {what} alone");
                let least = if part != "remember" && what == "the mode" {
                    -1.0
                } else {
                    0.4
                };
                assert!(stats.share(part, &class) > least, "{part}: {class}");
            }
        }
    });
}
