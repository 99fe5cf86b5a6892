//! 02's Note 2: what each rule read, number 13, the shown text and number 14.

use trials::second::Reading::By2017;
use trials::second::{
    list, list_within, read, run, run_within, scan, sets, shown, text, Listed, Ran, Shown, Start,
};

// Terminals a and b.
const A: u16 = 10;
const B: u16 = 11;
// Relations and modes.
const EQUAL: u16 = 0;
const GREATER: u16 = 1;
const ANY: u16 = 3;

fn empty() -> [u16; 4] {
    [0, 0, 0, 0]
}
fn terminal(a: u16) -> [u16; 4] {
    [1, a, 0, 0]
}
fn rule(a: u16) -> [u16; 4] {
    [2, a, 0, 0]
}
fn sequence(a: u16, b: u16) -> [u16; 4] {
    [3, a, b, 0]
}
fn choice(a: u16, b: u16) -> [u16; 4] {
    [4, a, b, 0]
}
fn not(a: u16) -> [u16; 4] {
    [5, a, 0, 0]
}
fn repeat(a: u16) -> [u16; 4] {
    [6, a, 0, 0]
}
fn indent(a: u16, relation: u16) -> [u16; 4] {
    [7, a, 0, relation]
}
fn position(a: u16, relation: u16) -> [u16; 4] {
    [8, a, 0, relation]
}
fn align(a: u16) -> [u16; 4] {
    [9, a, 0, 0]
}

fn tokens(list: &[(u16, u32)]) -> Vec<u32> {
    list.iter()
        .flat_map(|&(terminal, column)| [u32::from(terminal), column, 0, 0])
        .collect()
}

/// The tokens of these terminals at column 0, where mode any reads all of them.
fn row(terminals: &[u16]) -> Vec<u32> {
    let list: Vec<_> = terminals.iter().map(|&terminal| (terminal, 0)).collect();
    tokens(&list)
}

/// What stood in a slice before the call.
const BEFORE: u32 = 0xdead_beef;

fn lent(words: usize) -> Vec<u32> {
    vec![BEFORE; words]
}

/// The answer without its captures, where it is none of 13.
fn bare(listed: Listed) -> Ran {
    match listed {
        Listed::Success {
            read,
            lower,
            upper,
            flag,
            farthest,
            ..
        } => Ran::Success {
            read,
            lower,
            upper,
            flag,
            farthest,
        },
        Listed::Failure { farthest } => Ran::Failure { farthest },
        Listed::Refused(number) => Ran::Refused(number),
        Listed::IllFormed(node) => Ran::IllFormed(node),
    }
}

/// Whether the interpreter's answer is that of the clauses over sets.
fn agrees(ran: &Ran, set_ran: &sets::SetRan) -> bool {
    match (ran, set_ran) {
        (
            Ran::Success {
                read,
                lower,
                upper,
                flag,
                farthest,
            },
            sets::SetRan::Success {
                read: set_read,
                set,
                flag: set_flag,
                farthest: set_farthest,
            },
        ) => {
            let ends = (u64::from(*lower), upper.map(u64::from));
            let alike = read == set_read && flag == set_flag && farthest == set_farthest;
            alike && set.runs() == [ends]
        }
        (Ran::Failure { farthest: one }, sets::SetRan::Failure { farthest: two }) => one == two,
        (Ran::Refused(one), sets::SetRan::Refused(two)) => one == two,
        (Ran::IllFormed(one), sets::SetRan::IllFormed(two)) => one == two,
        _ => false,
    }
}

/// Runs by both readings of the clauses, which must agree on the outcome and the list,
/// with every room from 0 words to two places more than the list needs. `None` is a
/// failure.
fn listed(
    nodes: &[[u16; 4]],
    rules: &[u16],
    tokens: &[u32],
    start: Start,
) -> Option<Vec<[u32; 4]>> {
    let nodes = nodes.concat();
    let ran = run(&nodes, rules, tokens, By2017, &start);
    let (set_ran, captures) =
        sets::list_within(&nodes, rules, tokens, By2017, &start, 1 << 20).unwrap();
    assert!(agrees(&ran, &set_ran), "{ran:?} but {set_ran:?}");
    assert_eq!(
        sets::run_within(&nodes, rules, tokens, By2017, &start, 1 << 20),
        Some(set_ran)
    );
    let words = captures.as_flattened();
    for length in 0..words.len() + 9 {
        let mut slice = lent(length);
        let went = list(&nodes, rules, tokens, By2017, &start, &mut slice);
        let mut again = lent(length);
        let steps = 1 << 20;
        let within = list_within(&nodes, rules, tokens, By2017, &start, &mut again, steps);
        assert_eq!((within, &again), (Some(went), &slice));
        if length < words.len() {
            // 13, "fewer capture places than the list needs": nothing is written.
            assert_eq!(went, Listed::Refused(13));
            assert_eq!(slice, lent(length));
            continue;
        }
        if let Listed::Success { captures: n, .. } = went {
            assert_eq!(n as usize, captures.len());
        }
        assert_eq!(bare(went), ran);
        // "After any unrefused run the slice's words past the list are 0".
        assert_eq!(&slice[..words.len()], words);
        assert!(slice[words.len()..].iter().all(|&word| word == 0));
    }
    match ran {
        Ran::Success { .. } => Some(captures),
        Ran::Failure { .. } => {
            // "a failure lists none"
            assert!(captures.is_empty());
            None
        }
        other => panic!("{other:?}"),
    }
}

/// From token 0 in mode any on tokens at column 0.
fn went(nodes: &[[u16; 4]], rules: &[u16], terminals: &[u16], node: u16) -> Option<Vec<[u32; 4]>> {
    listed(nodes, rules, &row(terminals), Start::from_first(node, ANY))
}

/// The list expected: rule, first token, token after the last, captures around it.
fn those<const N: usize>(captures: [[u32; 4]; N]) -> Option<Vec<[u32; 4]>> {
    Some(captures.to_vec())
}

/// A start at a rule node is a capture, one at the node that the rule stands for none.
#[test]
fn start_at_a_rule() {
    let nodes = [terminal(A), rule(0)];
    assert_eq!(went(&nodes, &[0], &[A], 1), those([[0, 0, 1, 0]]));
    assert_eq!(went(&nodes, &[0], &[A], 0), those([]));
    assert_eq!(went(&nodes, &[0], &[B], 1), None);
    assert_eq!(went(&nodes, &[0], &[], 1), None);
}

#[test]
fn nested_and_in_order() {
    // Rule 0 = rule 1, rule 2; rule 1 = a; rule 2 = b.
    let nodes = [terminal(A), terminal(B), rule(1), rule(2), sequence(2, 3)];
    let top = [&nodes[..], &[rule(0)]].concat();
    let rules = [4, 0, 1];
    assert_eq!(
        went(&top, &rules, &[A, B], 5),
        those([[0, 0, 2, 0], [1, 0, 1, 1], [2, 1, 2, 1]])
    );
    assert_eq!(
        went(&top, &rules, &[A, B], 4),
        those([[1, 0, 1, 0], [2, 1, 2, 0]])
    );
    assert_eq!(went(&top, &rules, &[A, A], 5), None);
}

/// A rule that stands for a rule, and rules at the end of rules: they end together.
#[test]
fn ends_together() {
    let chain = [terminal(A), rule(2), rule(1), rule(0)];
    assert_eq!(
        went(&chain, &[2, 1, 0], &[A], 3),
        those([[0, 0, 1, 0], [1, 0, 1, 1], [2, 0, 1, 2]])
    );
    // Rule 0 = a, rule 1; rule 1 = b, rule 2; rule 2 = empty. Then another b.
    let nodes = [
        terminal(A),
        terminal(B),
        empty(),
        rule(2),
        sequence(1, 3),
        rule(1),
        sequence(0, 5),
        rule(0),
        sequence(7, 1),
    ];
    let rules = [6, 4, 2];
    let list = [[0, 0, 2, 0], [1, 1, 2, 1], [2, 2, 2, 2]];
    assert_eq!(went(&nodes, &rules, &[A, B], 7), those(list));
    assert_eq!(went(&nodes, &rules, &[A, B, B], 8), those(list));
    assert_eq!(went(&nodes, &rules, &[A, B], 8), None);
}

/// One behind a rule that ended within another has only the other around it.
#[test]
fn around_after_an_end() {
    // Rule 0 = (rule 1, rule 2), rule 3; rule 1 = rule 3, rule 3; rules 2 and 3 empty.
    let nodes = [
        empty(),
        rule(1),
        rule(2),
        rule(3),
        sequence(1, 2),
        sequence(4, 3),
        sequence(3, 3),
        rule(0),
    ];
    assert_eq!(
        went(&nodes, &[5, 6, 0, 0], &[A], 7),
        those([
            [0, 0, 0, 0],
            [1, 0, 0, 1],
            [3, 0, 0, 2],
            [3, 0, 0, 2],
            [2, 0, 0, 1],
            [3, 0, 0, 1],
        ])
    );
}

/// Rule 0 = a, rule 0 or empty: every round inside the one before.
#[test]
fn inside_itself() {
    let nodes = [terminal(A), rule(0), sequence(0, 1), empty(), choice(2, 3)];
    assert_eq!(
        went(&nodes, &[4], &[A, A, A], 1),
        those([[0, 0, 3, 0], [0, 1, 3, 1], [0, 2, 3, 2], [0, 3, 3, 3]])
    );
    assert_eq!(went(&nodes, &[4], &[A, B], 4), those([[0, 1, 1, 0]]));
}

/// Captures without a token, also at the token count.
#[test]
fn empty_captures() {
    let nodes = [
        empty(),
        rule(0),
        terminal(A),
        sequence(1, 2),
        sequence(3, 1),
    ];
    assert_eq!(went(&nodes, &[0], &[], 1), those([[0, 0, 0, 0]]));
    assert_eq!(
        went(&nodes, &[0], &[A], 4),
        those([[0, 0, 0, 0], [0, 1, 1, 0]])
    );
    let past = Start {
        place: 3,
        ..Start::from_first(1, ANY)
    };
    let captures = listed(&nodes, &[0], &row(&[A, A, A]), past);
    assert_eq!(captures, those([[0, 3, 3, 0]]));
}

/// The first token and the one after the last are places in the token list, while the
/// tokens read count from the start's place on.
#[test]
fn start_inside_the_list() {
    let nodes = [terminal(A), rule(0), repeat(1), rule(1)];
    let from = Start {
        place: 2,
        ..Start::from_first(3, ANY)
    };
    let list = row(&[B, B, A, A, B]);
    assert_eq!(
        listed(&nodes, &[0, 2], &list, from),
        those([[1, 2, 4, 0], [0, 2, 3, 1], [0, 3, 4, 1]])
    );
    let mut slice = lent(12);
    assert_eq!(
        list_of(&nodes, &[0, 2], &list, &from, &mut slice),
        Listed::Success {
            read: 2,
            lower: 0,
            upper: None,
            flag: false,
            farthest: 4,
            captures: 3
        }
    );
}

fn list_of(
    nodes: &[[u16; 4]],
    rules: &[u16],
    tokens: &[u32],
    start: &Start,
    slice: &mut [u32],
) -> Listed {
    list(&nodes.concat(), rules, tokens, By2017, start, slice)
}

/// Outside "any failed alternative".
#[test]
fn failed_alternatives() {
    // (Rule 0, then b) or rule 1; both rules are a.
    let nodes = [
        terminal(A),
        terminal(B),
        rule(0),
        rule(1),
        sequence(2, 1),
        choice(4, 3),
        rule(2),
        choice(6, 5),
    ];
    let rules = [0, 0, 5];
    assert_eq!(went(&nodes, &rules, &[A], 5), those([[1, 0, 1, 0]]));
    assert_eq!(went(&nodes, &rules, &[A, B], 5), those([[0, 0, 1, 0]]));
    // Inside a rule, which stays.
    let list = [[2, 0, 1, 0], [1, 0, 1, 1]];
    assert_eq!(went(&nodes, &rules, &[A], 6), those(list));
    assert_eq!(went(&nodes, &rules, &[A], 7), those(list));
    assert_eq!(went(&nodes, &rules, &[B], 7), None);
}

/// What stood before an alternative stays, and what comes behind it follows.
#[test]
fn around_a_failed_alternative() {
    // Rule 0; then (rule 1, rule 1, rule 1, b) or rule 2; then rule 0. All empty.
    let nodes = [
        empty(),
        terminal(B),
        rule(0),
        rule(1),
        rule(2),
        sequence(3, 1),
        sequence(3, 5),
        sequence(3, 6),
        choice(7, 4),
        sequence(8, 2),
        sequence(2, 9),
        rule(3),
    ];
    let rules = [0, 0, 0, 10];
    assert_eq!(
        went(&nodes, &rules, &[], 10),
        those([[0, 0, 0, 0], [2, 0, 0, 0], [0, 0, 0, 0]])
    );
    assert_eq!(
        went(&nodes, &rules, &[A], 11),
        those([[3, 0, 0, 0], [0, 0, 0, 1], [2, 0, 0, 1], [0, 0, 0, 1]])
    );
    let one = [0, 0, 0, 0];
    let other = [1, 0, 0, 0];
    assert_eq!(
        went(&nodes, &rules, &[B], 10),
        those([one, other, other, other, [0, 1, 1, 0]])
    );
}

/// Rule k = two of rule k - 1, rule 0 = empty, up to rule `last`: `rule(k)` is node
/// k + 1. Rule k has 2^(k+1) - 1 captures.
fn doubled(last: u16) -> (Vec<[u16; 4]>, Vec<u16>) {
    let mut nodes = vec![empty()];
    let mut rules = vec![0];
    nodes.extend((0..=last).map(rule));
    for k in 1..=last {
        rules.push(nodes.len() as u16);
        nodes.push(sequence(k, k));
    }
    (nodes, rules)
}

/// An abandoned alternative may hold more than the list, and more than the room: 13
/// judges the list.
#[test]
fn more_abandoned_than_listed() {
    let (mut nodes, rules) = doubled(16);
    let top = nodes.len() as u16;
    // Rule 0, then (rule 16, a) or rule 1, with the same in front of a not.
    nodes.extend([
        terminal(A),
        sequence(17, top),
        choice(top + 1, 2),
        sequence(1, top + 2),
        not(17),
        choice(top + 4, 1),
    ]);
    let list = [[0, 0, 0, 0], [1, 0, 0, 0], [0, 0, 0, 1], [0, 0, 0, 1]];
    assert_eq!(went(&nodes, &rules, &[], top + 3), those(list));
    assert_eq!(went(&nodes, &rules, &[], top + 5), those([[0, 0, 0, 0]]));
    assert_eq!(went(&nodes, &rules, &[], top + 1), None);
}

/// Long lists: room exact and one place short.
#[test]
fn long_lists() {
    let (nodes, rules) = doubled(16);
    let nodes = nodes.concat();
    let start = Start::from_first(17, EQUAL);
    let count = (1 << 17) - 1;
    let steps = 1 << 20;
    let (_, captures) = sets::list_within(&nodes, &rules, &[], By2017, &start, steps).unwrap();
    assert_eq!(captures.len(), count);
    assert_eq!(captures[..3], [[16, 0, 0, 0], [15, 0, 0, 1], [14, 0, 0, 2]]);
    assert_eq!(captures[count - 2..], [[0, 0, 0, 16]; 2]);
    let mut slice = lent(4 * count);
    let done = Listed::Success {
        read: 0,
        lower: 0,
        upper: None,
        flag: false,
        farthest: 0,
        captures: count as u32,
    };
    assert_eq!(list(&nodes, &rules, &[], By2017, &start, &mut slice), done);
    assert_eq!(slice, captures.as_flattened());
    for short in [1, 3, 4, 5, 4 * count - 5, 4 * count - 4, 4 * count - 1] {
        let mut slice = lent(short);
        let went = list(&nodes, &rules, &[], By2017, &start, &mut slice);
        assert_eq!(went, Listed::Refused(13));
        assert_eq!(slice, lent(short));
    }
    let mut slice = lent(4 * count + 3);
    assert_eq!(list(&nodes, &rules, &[], By2017, &start, &mut slice), done);
    assert_eq!(slice[..4 * count], *captures.as_flattened());
    assert_eq!(slice[4 * count..], [0; 3]);
}

/// Steps as `run_within` counts them; where they run out the slice is as it was.
#[test]
fn steps_are_counted() {
    let (nodes, rules) = doubled(4);
    let nodes = nodes.concat();
    let start = Start::from_first(5, EQUAL);
    let enough = (0..)
        .find(|&steps| run_within(&nodes, &rules, &[], By2017, &start, steps).is_some())
        .unwrap();
    // A rule node and an empty or a sequence for each capture.
    assert_eq!(enough, 2 * 31);
    for steps in 0..enough {
        for words in [0, 4, 4 * 31] {
            let mut slice = lent(words);
            let went = list_within(&nodes, &rules, &[], By2017, &start, &mut slice, steps);
            assert_eq!((went, slice), (None, lent(words)));
        }
        assert_eq!(
            sets::list_within(&nodes, &rules, &[], By2017, &start, steps),
            None
        );
    }
    let mut slice = lent(4 * 31);
    assert!(matches!(
        list_within(&nodes, &rules, &[], By2017, &start, &mut slice, enough),
        Some(Listed::Success { captures: 31, .. })
    ));
    // Far too long a list to end: 2^129 - 1 captures of 128 rules.
    let (nodes, rules) = doubled(127);
    let nodes = nodes.concat();
    let start = Start::from_first(128, EQUAL);
    let mut slice = lent(8);
    let went = list_within(&nodes, &rules, &[], By2017, &start, &mut slice, 1 << 22);
    assert_eq!((went, slice), (None, lent(8)));
}

/// Outside "any not": one that succeeds, one in a failing not, and two nots.
#[test]
fn nots() {
    // Rule 0 = a, rule 1; rule 1 = b or empty.
    let nodes = [
        terminal(A),
        terminal(B),
        empty(),
        choice(1, 2),
        rule(1),
        sequence(0, 4),
        rule(0),
        not(6),
        not(7),
        not(8),
        not(9),
        sequence(8, 6),
        choice(9, 6),
        rule(2),
        rule(3),
        sequence(13, 6),
    ];
    // Rule 2 = two nots of rule 0, rule 3 = the choice of three nots or rule 0.
    let rules = [5, 3, 8, 12];
    assert_eq!(went(&nodes, &rules, &[B], 7), those([]));
    assert_eq!(went(&nodes, &rules, &[A], 7), None);
    assert_eq!(went(&nodes, &rules, &[A, B], 8), those([]));
    assert_eq!(went(&nodes, &rules, &[B], 8), None);
    assert_eq!(went(&nodes, &rules, &[B], 9), those([]));
    assert_eq!(went(&nodes, &rules, &[A], 9), None);
    assert_eq!(went(&nodes, &rules, &[A], 10), those([]));
    // Behind two nots the same is read, and listed once.
    let list = [[0, 0, 2, 0], [1, 1, 2, 1]];
    assert_eq!(went(&nodes, &rules, &[A, B], 11), those(list));
    assert_eq!(went(&nodes, &rules, &[A, B], 12), those(list));
    assert_eq!(went(&nodes, &rules, &[B], 12), those([]));
    // A rule that holds nots is listed, those within them are not.
    assert_eq!(went(&nodes, &rules, &[A, B], 13), those([[2, 0, 0, 0]]));
    assert_eq!(
        went(&nodes, &rules, &[A, A], 14),
        those([[3, 0, 1, 0], [0, 0, 1, 1], [1, 1, 1, 2]])
    );
    assert_eq!(went(&nodes, &rules, &[B], 14), those([[3, 0, 0, 0]]));
    assert_eq!(
        went(&nodes, &rules, &[A], 15),
        those([[2, 0, 0, 0], [0, 0, 1, 0], [1, 1, 1, 1]])
    );
}

/// Outside "a repeat's last, failed round".
#[test]
fn failed_rounds() {
    // A repeat of rule 0; rule 0 = rule 1, b; rule 1 = a; rule 2 = the repeat.
    let nodes = [
        terminal(A),
        terminal(B),
        rule(1),
        sequence(2, 1),
        rule(0),
        repeat(4),
        rule(2),
        sequence(6, 2),
    ];
    let rules = [3, 0, 5];
    let list = [[0, 0, 2, 0], [1, 0, 1, 1], [0, 2, 4, 0], [1, 2, 3, 1]];
    assert_eq!(went(&nodes, &rules, &[A, B, A, B], 5), those(list));
    assert_eq!(went(&nodes, &rules, &[A, B, A, B, A], 5), those(list));
    assert_eq!(went(&nodes, &rules, &[A], 5), those([]));
    assert_eq!(went(&nodes, &rules, &[A], 6), those([[2, 0, 0, 0]]));
    assert_eq!(
        went(&nodes, &rules, &[A, B, A], 7),
        those([[2, 0, 2, 0], [0, 0, 2, 1], [1, 0, 1, 2], [1, 2, 3, 0]])
    );
}

/// Indent, position and align are no captures; a rule that their columns fail is none.
#[test]
fn columns_decide() {
    // Rule 0 = a; rule 1 = (rule 0 under greater) or empty; align of rule 0, rule 1.
    let nodes = [
        terminal(A),
        rule(0),
        indent(1, GREATER),
        empty(),
        choice(2, 3),
        rule(1),
        align(1),
        sequence(6, 5),
        position(7, EQUAL),
    ];
    let rules = [0, 4];
    let from = Start::from_first(8, GREATER);
    assert_eq!(
        listed(&nodes, &rules, &tokens(&[(A, 3), (A, 4)]), from),
        those([[0, 0, 1, 0], [1, 1, 2, 0], [0, 1, 2, 1]])
    );
    assert_eq!(
        listed(&nodes, &rules, &tokens(&[(A, 3), (A, 3)]), from),
        those([[0, 0, 1, 0], [1, 1, 1, 0]])
    );
}

/// A failure lists none and clears the slice, whatever was listed on the way to it.
#[test]
fn failure_clears() {
    let (mut nodes, rules) = doubled(4);
    let top = nodes.len() as u16;
    nodes.extend([terminal(A), sequence(5, top)]);
    for words in [0, 1, 2, 3, 4, 5, 7, 400] {
        let mut slice = lent(words);
        let start = Start::from_first(top + 1, EQUAL);
        let went = list_of(&nodes, &rules, &[], &start, &mut slice);
        assert_eq!(went, Listed::Failure { farthest: 0 });
        assert_eq!(slice, vec![0; words]);
    }
}

/// No list needs no room, and words that make no place are cleared with the others.
#[test]
fn rooms_of_few_words() {
    let nodes = [empty(), rule(0), sequence(1, 1)];
    let went = |node: u16, words: usize| {
        let mut slice = lent(words);
        let start = Start::from_first(node, EQUAL);
        let count = match list_of(&nodes, &[0], &[], &start, &mut slice) {
            Listed::Success { captures, .. } => Ok(captures),
            Listed::Refused(number) => Err(number),
            other => panic!("{other:?}"),
        };
        (count, slice)
    };
    for words in 0..10 {
        assert_eq!(went(0, words), (Ok(0), vec![0; words]));
    }
    for words in 0..4 {
        assert_eq!(went(1, words), (Err(13), lent(words)));
    }
    for words in 4..10 {
        assert_eq!(went(1, words), (Ok(1), vec![0; words]));
    }
    for words in 0..8 {
        assert_eq!(went(2, words), (Err(13), lent(words)));
    }
    for words in 8..12 {
        assert_eq!(went(2, words), (Ok(2), vec![0; words]));
    }
}

/// The checks of a run come first and in their order, then 13; none of them writes.
#[test]
fn refused() {
    let start = Start::from_first(0, 0);
    let bad_start = Start { mode: 35, ..start };
    let rule = [2, 0, 0, 0];
    let one = [0, 0, 0, 0, 2, 0, 0, 0];
    let went = |nodes: &[u16], rules: &[u16], tokens: &[u32], start: &Start| {
        for words in [1, 3, 4, 9] {
            let mut slice = lent(words);
            list(nodes, rules, tokens, By2017, start, &mut slice);
            assert_eq!(slice, lent(words));
        }
        let refused = list(nodes, rules, tokens, By2017, start, &mut []);
        let (set_ran, captures) =
            sets::list_within(nodes, rules, tokens, By2017, start, 9).unwrap();
        assert!(agrees(&bare(refused), &set_ran));
        assert!(captures.is_empty());
        // These come before the first step.
        let within = list_within(nodes, rules, tokens, By2017, start, &mut [], 0);
        assert_eq!(within, Some(refused));
        refused
    };
    let refused = Listed::Refused;
    assert_eq!(went(&[10; 3], &[9], &[0; 3], &bad_start), refused(3));
    assert_eq!(went(&[10; 4], &[9], &[0; 3], &bad_start), refused(4));
    assert_eq!(went(&rule, &[9], &[0; 3], &bad_start), refused(5));
    assert_eq!(went(&rule, &[0], &[0; 3], &bad_start), Listed::IllFormed(0));
    assert_eq!(went(&one, &[0], &[0; 3], &bad_start), refused(11));
    assert_eq!(went(&one, &[0], &[0; 4], &bad_start), refused(12));
    let from = Start { node: 1, ..start };
    assert_eq!(
        list(&one, &[0], &[0; 4], By2017, &from, &mut []),
        refused(13)
    );
}

/// As deep as rules go: 128 around one another at each of 4,096 tokens.
#[test]
fn deep_lists() {
    // Rule k = rule k + 1, and rule 127 = a, then rule 0 or empty.
    let mut nodes: Vec<_> = (0..128).map(rule).collect();
    let mut rules: Vec<u16> = (1..128).collect();
    nodes.extend([empty(), choice(0, 128), terminal(A), sequence(130, 129)]);
    rules.push(131);
    let tokens = row(&[A; 4_096]);
    let start = Start::from_first(0, ANY);
    let deep = move || {
        let mut slice = lent(4 * 128 * 4_096 + 1);
        let done = Listed::Success {
            read: 4_096,
            lower: 0,
            upper: None,
            flag: false,
            farthest: 4_096,
            captures: 128 * 4_096,
        };
        assert_eq!(list_of(&nodes, &rules, &tokens, &start, &mut slice), done);
        let (list, over) = slice.as_chunks::<4>();
        assert_eq!(over, [0]);
        for (number, capture) in (0..).zip(list) {
            assert_eq!(*capture, [number % 128, number / 128, 4_096, number]);
        }
        let mut slice = lent(4 * 128 * 4_096 - 1);
        let went = list_of(&nodes, &rules, &tokens, &start, &mut slice);
        assert_eq!(went, Listed::Refused(13));
        assert!(slice.iter().all(|&word| word == BEFORE));
    };
    let thread = std::thread::Builder::new().stack_size(64 << 20);
    thread.spawn(deep).unwrap().join().unwrap();
}

// Grammars by chance.

struct Chance(u64);

impl Chance {
    fn below(&mut self, end: u16) -> u16 {
        self.0 = self.0.wrapping_mul(0x5851_f42d_4c95_7f2d).wrapping_add(1);
        ((self.0 >> 33) % u64::from(end)) as u16
    }

    fn pick<T: Copy>(&mut self, from: &[T]) -> T {
        from[usize::from(self.below(from.len() as u16))]
    }

    /// A table of a, b, empty, every rule's node and then what the rules stand for, the
    /// last rule first. A rule mostly names later ones, so that many tables pass.
    fn table(&mut self, relations: &[u16]) -> (Vec<[u16; 4]>, Vec<u16>) {
        let rules = 2 + self.below(4);
        let mut nodes = vec![terminal(A), terminal(B), empty()];
        nodes.extend((0..rules).map(rule));
        let mut stands = vec![0; usize::from(rules)];
        for own in (0..rules).rev() {
            for _ in 0..1 + self.below(5) {
                let number = nodes.len() as u16;
                let (a, b) = (
                    self.child(own, rules, number),
                    self.child(own, rules, number),
                );
                let relation = self.pick(relations);
                nodes.push(match self.below(12) {
                    0 => sequence(self.below(2), a),
                    1..5 => sequence(a, b),
                    5..7 => choice(a, b),
                    7 => not(a),
                    8 => repeat(a),
                    9 => indent(a, relation),
                    10 => position(a, relation),
                    _ => align(a),
                });
            }
            stands[usize::from(own)] = nodes.len() as u16 - 1;
        }
        (nodes, stands)
    }

    /// A child for a node of rule `own`.
    fn child(&mut self, own: u16, rules: u16, number: u16) -> u16 {
        match self.below(8) {
            0..2 => self.below(3),
            2 => 3 + self.below(rules),
            3..6 if own + 1 < rules => 4 + own + self.below(rules - own - 1),
            _ => number - 1 - self.below(3),
        }
    }

    /// A node to start at: every other time that of rule 0.
    fn node(&mut self, count: usize) -> u16 {
        match self.below(2) {
            0 => 3,
            _ => self.below(count as u16),
        }
    }
}

/// Both readings on tables by chance, under all kinds of relations and columns.
#[test]
fn both_readings() {
    let mut chance = Chance(1);
    let (mut ended, mut stopped, mut long) = (0, 0, 0);
    for _ in 0..100_000 {
        let (nodes, rules) = chance.table(&[0, 1, 2, 3, 4, 5]);
        let pairs: Vec<_> = (0..chance.below(7))
            .map(|_| (chance.pick(&[A, A, B]), chance.pick(&[0, 1, 1, 2, 3, 4])))
            .collect();
        let lower = chance.below(3).into();
        let start = Start {
            node: chance.node(nodes.len()),
            place: chance.below(pairs.len() as u16 / 2 + 1).into(),
            lower,
            upper: (chance.below(2) == 0).then_some(lower + u32::from(chance.below(4))),
            flag: chance.below(3) == 0,
            mode: chance.below(6),
        };
        let (nodes, tokens) = (nodes.concat(), tokens(&pairs));
        let ran = run_within(&nodes, &rules, &tokens, By2017, &start, 2_000);
        if matches!(ran, Some(Ran::IllFormed(_))) {
            continue;
        }
        let set_ran = sets::list_within(&nodes, &rules, &tokens, By2017, &start, 2_000);
        let mut slice = lent(4 * 2_000 + 2);
        let went = list_within(&nodes, &rules, &tokens, By2017, &start, &mut slice, 2_000);
        let (Some(ran), Some((set_ran, captures)), Some(went)) = (ran, set_ran, went) else {
            // All of them count the same steps.
            assert_eq!((ran, went), (None, None));
            assert_eq!(
                sets::run_within(&nodes, &rules, &tokens, By2017, &start, 2_000),
                None
            );
            assert_eq!(slice, lent(slice.len()));
            stopped += 1;
            continue;
        };
        assert!(agrees(&ran, &set_ran));
        assert_eq!(bare(went), ran);
        let words = captures.as_flattened();
        assert_eq!(&slice[..words.len()], words);
        assert!(slice[words.len()..].iter().all(|&word| word == 0));
        // A room by chance.
        let room = usize::from(chance.below(words.len() as u16 + 5));
        let mut slice = lent(room);
        let went = list(&nodes, &rules, &tokens, By2017, &start, &mut slice);
        if room < words.len() {
            assert_eq!(went, Listed::Refused(13));
            assert_eq!(slice, lent(room));
        } else {
            assert_eq!(bare(went), ran);
            assert_eq!(&slice[..words.len()], words);
            assert!(slice[words.len()..].iter().all(|&word| word == 0));
        }
        ended += 1;
        long += usize::from(captures.len() >= 3);
    }
    assert!(ended > 20_000, "{ended}");
    assert!(stopped < 100 && long > 500, "{stopped} {long}");
}

/// The derivation itself, where columns decide nothing: the place of an expression's
/// success with the captures in it, those of its parts one behind the other.
struct Derivation<'t> {
    nodes: &'t [[u16; 4]],
    rules: &'t [u16],
    terminals: &'t [u16],
    steps: u32,
    /// The largest place that a terminal was tried at.
    farthest: Option<u32>,
}

type Derived = Option<(u32, Vec<[u32; 4]>)>;

impl Derivation<'_> {
    fn of(&mut self, node: u16, place: u32) -> Result<Derived, ()> {
        self.steps = self.steps.checked_sub(1).ok_or(())?;
        let [kind, a, b, _] = self.nodes[usize::from(node)];
        Ok(match kind {
            0 => Some((place, vec![])),
            1 => {
                self.farthest = self.farthest.max(Some(place));
                (self.terminals.get(place as usize) == Some(&a)).then_some((place + 1, vec![]))
            }
            2 => {
                let inside = self.of(self.rules[usize::from(a)], place)?;
                inside.map(|(end, inside)| {
                    let deeper = inside
                        .iter()
                        .map(|&[r, f, e, around]| [r, f, e, around + 1]);
                    let own = [u32::from(a), place, end, 0];
                    (end, [own].into_iter().chain(deeper).collect())
                })
            }
            3 => match self.of(a, place)? {
                None => None,
                Some((between, first)) => self
                    .of(b, between)?
                    .map(|(end, second)| (end, [first, second].concat())),
            },
            4 => match self.of(a, place)? {
                None => self.of(b, place)?,
                first => first,
            },
            5 => match self.of(a, place)? {
                None => Some((place, vec![])),
                Some(_) => None,
            },
            6 => match self.of(a, place)? {
                None => Some((place, vec![])),
                Some((between, first)) => self
                    .of(node, between)?
                    .map(|(end, second)| (end, [first, second].concat())),
            },
            _ => self.of(a, place)?,
        })
    }
}

/// "The list must be the one that the clauses' own derivation gives." All tokens stand
/// at column 0 under relations that hold there, so a token's terminal decides alone.
#[test]
fn the_derivations_list() {
    let mut chance = Chance(2);
    let mut long = 0;
    let mut ended = 0;
    for _ in 0..100_000 {
        let (nodes, rules) = chance.table(&[0, 2, 3]);
        let terminals: Vec<_> = (0..chance.below(7))
            .map(|_| chance.pick(&[A, A, B]))
            .collect();
        let tokens = row(&terminals);
        let start = Start {
            place: chance.below(terminals.len() as u16 / 2 + 1).into(),
            flag: chance.below(3) == 0,
            ..Start::from_first(chance.node(nodes.len()), ANY)
        };
        let mut slice = lent(4 * 2_000);
        let words = nodes.concat();
        let went = list_within(&words, &rules, &tokens, By2017, &start, &mut slice, 2_000);
        let (list, _) = slice.as_chunks::<4>();
        let mut derivation = Derivation {
            nodes: &nodes,
            rules: &rules,
            terminals: &terminals,
            steps: 4_000,
            farthest: None,
        };
        let (end, captures, farthest) = match went {
            None | Some(Listed::IllFormed(_)) => continue,
            Some(Listed::Failure { farthest }) => (None, 0, farthest),
            Some(Listed::Success {
                read,
                captures,
                farthest,
                ..
            }) => (Some(start.place + read), captures as usize, farthest),
            Some(Listed::Refused(number)) => panic!("{number}"),
        };
        let derived = derivation.of(start.node, start.place).unwrap();
        let (derived_end, derived_list) = match derived {
            None => (None, vec![]),
            Some((end, list)) => (Some(end), list),
        };
        assert_eq!(end, derived_end);
        assert_eq!(farthest, derivation.farthest.unwrap_or(start.place));
        assert_eq!(list[..captures], derived_list);
        assert!(list[captures..].iter().all(|&place| place == [0; 4]));
        ended += 1;
        long += usize::from(captures >= 3);
    }
    assert!(ended > 20_000 && long > 500, "{ended} {long}");
}

// The shown text.

fn field(tag: u8, value: &[u8]) -> Vec<u8> {
    let length = (value.len() as u16).to_be_bytes();
    [&[tag], &length[..], value].concat()
}

fn file(keywords: &[&str], rules: &[(u16, &str)], nodes: &[[u16; 4]], start: u16) -> Vec<u8> {
    let mut file = field(1, &[1]);
    for keyword in keywords {
        file.extend(field(2, keyword.as_bytes()));
    }
    for (node, name) in rules {
        let value = [&node.to_be_bytes()[..], name.as_bytes()].concat();
        file.extend(field(3, &value));
    }
    for [kind, a, b, relation] in nodes {
        let (a, b) = (a.to_be_bytes(), b.to_be_bytes());
        let value = [*kind as u8, a[0], a[1], b[0], b[1], *relation as u8];
        file.extend(field(4, &value));
    }
    let start = start.to_be_bytes();
    file.extend(field(5, &[start[0], start[1], ANY as u8]));
    file
}

/// A file of the rules `entry`, `value` and `unit`.
fn named() -> Vec<u8> {
    let rules = [(0, "entry"), (0, "value"), (0, "unit")];
    file(&["loss"], &rules, &[empty()], 0)
}

fn in_report(offset: u32, length: u32) -> Shown {
    Shown::InReport { offset, length }
}

fn in_file(offset: u32, length: u32) -> Shown {
    Shown::InFile { offset, length }
}

/// Both calls: where the text stands, and the text.
fn both(file: &[u8], report: &[u8], tokens: &[u32], capture: [u32; 4]) -> (Shown, Vec<u8>) {
    let shown = shown(file, report, tokens, capture);
    let text = text(file, report, tokens, capture);
    // "the text's own call shows no bytes where that refuses"
    let (lent, offset, length) = match shown {
        Shown::InReport { offset, length } => (report, offset, length),
        Shown::InFile { offset, length } => (file, offset, length),
        Shown::Refused(_) => (report, 0, 0),
    };
    let (offset, length) = (offset as usize, length as usize);
    assert_eq!(text, &lent[offset..offset + length]);
    // The number of captures around it is not looked at.
    for around in [0, 1, u32::MAX] {
        let other = [capture[0], capture[1], capture[2], around];
        assert_eq!(trials::second::shown(file, report, tokens, other), shown);
    }
    (shown, text.to_vec())
}

/// A file, a report, its tokens, the run's captures and their texts.
#[test]
fn entries() {
    // Rule 0 `list` = repeat of rule 1; rule 1 `entry` = rule 2, `:`, rule 3, the line
    // end; rule 2 `name` = a word; rule 3 `value` = a number or nothing.
    let nodes = [
        terminal(0),
        terminal(1),
        terminal(2),
        terminal(3),
        empty(),
        choice(0, 4),
        rule(3),
        sequence(6, 2),
        sequence(3, 7),
        rule(2),
        sequence(9, 8),
        rule(1),
        repeat(11),
        rule(0),
    ];
    let rules = [(12, "list"), (10, "entry"), (1, "name"), (5, "value")];
    let file = file(&[":"], &rules, &nodes, 13);
    let report = b"\n splice:\t0.03 \n end :\nrest";
    let grammar = read(&file, 2_048, 128).unwrap();
    let tokens = scan(&file, report, 16_384).unwrap();
    let start = Start::from_first(grammar.start, grammar.mode);
    let mut slice = lent(4 * 8);
    let went = list(
        &grammar.nodes,
        &grammar.rules,
        &tokens,
        By2017,
        &start,
        &mut slice,
    );
    assert_eq!(
        went,
        Listed::Success {
            read: 7,
            lower: 0,
            upper: None,
            flag: false,
            farthest: 8,
            captures: 7
        }
    );
    let (captures, _) = slice.as_chunks::<4>();
    assert_eq!(
        captures,
        [
            [0, 0, 7, 0],
            [1, 0, 4, 1],
            [2, 0, 1, 2],
            [3, 2, 3, 2],
            [1, 4, 7, 1],
            [2, 4, 5, 2],
            [3, 6, 6, 2],
            [0, 0, 0, 0]
        ]
    );
    let shown = |number: usize| both(&file, report, &tokens, captures[number]);
    let told = |text: &[u8], shown: Shown| (shown, text.to_vec());
    // A line end has length 0, so the text stops at the break.
    let whole = b"splice:\t0.03 \n end :";
    assert_eq!(shown(0), told(whole, in_report(2, 20)));
    assert_eq!(shown(1), told(b"splice:\t0.03 ", in_report(2, 13)));
    assert_eq!(shown(2), told(b"splice", in_report(2, 6)));
    assert_eq!(shown(3), told(b"0.03", in_report(10, 4)));
    assert_eq!(shown(4), told(b"end :", in_report(17, 5)));
    assert_eq!(shown(5), told(b"end", in_report(17, 3)));
    // The value that read no token shows its rule's name: the head of 4 bytes, the
    // keyword's 4, `list`'s 9, `entry`'s 10, `name`'s 9, then tag, length and node.
    assert_eq!(shown(6), told(b"value", in_file(41, 5)));
    assert_eq!(&file[41..46], b"value");
    // A capture of zeros, as past the list, is rule 0 that read no token.
    assert_eq!(shown(7), told(b"list", in_file(13, 4)));
}

#[test]
fn names_in_the_file() {
    let file = named();
    let names = [
        (b"entry".to_vec(), 16),
        (b"value".to_vec(), 26),
        (b"unit".to_vec(), 36),
    ];
    for (rule, (name, offset)) in (0..).zip(names) {
        let length = name.len() as u32;
        assert_eq!(&file[offset as usize..][..name.len()], name);
        let told = (in_file(offset, length), name);
        assert_eq!(both(&file, b"", &[], [rule, 0, 0, 0]), told);
        // At the token count too, and wherever the tokens lie.
        let far = [1, 0, 9, 9, 1, 0, 5, u32::MAX];
        for place in 0..3 {
            assert_eq!(both(&file, b"", &far, [rule, place, place, 0]), told);
        }
        let gone = Shown::Refused(14);
        assert_eq!(both(&file, b"", &far, [rule, 3, 3, 0]).0, gone);
    }
    // The longest name, with a high byte.
    let name = ["µ", &"n".repeat(30)].concat();
    let long = self::file(&[], &[(0, &name)], &[empty()], 0);
    let told = (in_file(9, 32), name.into_bytes());
    assert_eq!(both(&long, b"", &[], [0, 0, 0, 0]), told);
}

/// "a capture whose rule or tokens are not there, whose first token comes after .."
#[test]
fn rule_and_tokens_there() {
    let file = named();
    let report = b"aa bb cc";
    let list = [1, 0, 0, 2, 1, 3, 3, 2, 1, 6, 6, 2];
    let number = |capture: [u32; 4]| match both(&file, report, &list, capture).0 {
        Shown::Refused(number) => number,
        _ => 0,
    };
    // The rule, with tokens and without.
    for (first, after) in [(0, 3), (1, 1), (3, 3)] {
        assert_eq!(number([0, first, after, 0]), 0);
        assert_eq!(number([2, first, after, 0]), 0);
        for rule in [3, 4, 128, 65_536, u32::MAX] {
            assert_eq!(number([rule, first, after, 0]), 14);
        }
    }
    // Every two places: those of the tokens and the count, in order.
    for first in 0..6 {
        for after in 0..6 {
            let there = first <= after && after <= 3;
            assert_eq!(number([0, first, after, 0]) == 0, there);
        }
    }
    for far in [1 << 16, 1 << 30, u32::MAX] {
        assert_eq!(number([0, 0, far, 0]), 14);
        assert_eq!(number([0, far, 3, 0]), 14);
        assert_eq!(number([0, far, far, 0]), 14);
    }
    // A file without rules has no capture to show.
    let none = self::file(&[], &[], &[empty()], 0);
    let gone = (Shown::Refused(14), vec![]);
    assert_eq!(both(&none, report, &list, [0, 0, 0, 0]), gone);
    assert_eq!(both(&none, report, &list, [0, 0, 1, 0]), gone);
}

/// "or whose tokens' offsets fall": those of the capture, next to one another.
#[test]
fn offsets() {
    let file = named();
    let report = b"0123456789";
    let at = |offsets: &[(u32, u32)]| -> Vec<u32> {
        let words = offsets
            .iter()
            .map(|&(offset, length)| [1, 0, offset, length]);
        words.flatten().collect()
    };
    let gone = (Shown::Refused(14), vec![]);
    let told = |text: &[u8], offset: u32| (in_report(offset, text.len() as u32), text.to_vec());
    let list = at(&[(4, 1), (2, 3), (2, 1), (5, 0), (5, 2), (4, 1)]);
    let shown = |first: u32, after: u32| both(&file, report, &list, [1, first, after, 0]);
    assert_eq!(shown(0, 1), told(b"4", 4));
    assert_eq!(shown(0, 2), gone);
    assert_eq!(shown(0, 5), gone);
    assert_eq!(shown(1, 2), told(b"234", 2));
    // Equal offsets are fine, and the last token's end counts, not the farthest.
    assert_eq!(shown(1, 3), told(b"2", 2));
    assert_eq!(shown(1, 4), told(b"234", 2));
    assert_eq!(shown(1, 5), told(b"23456", 2));
    assert_eq!(shown(1, 6), gone);
    assert_eq!(shown(4, 6), gone);
    assert_eq!(shown(5, 6), told(b"4", 4));
    // Empty, in the report all the same.
    assert_eq!(shown(3, 4), told(b"", 5));
    // Fallen in the middle and risen again.
    let dip = at(&[(1, 1), (3, 1), (2, 1), (9, 1)]);
    assert_eq!(both(&file, report, &dip, [1, 0, 4, 0]), gone);
    assert_eq!(
        both(&file, report, &dip, [1, 2, 4, 0]),
        told(b"23456789", 2)
    );
}

/// "or whose last token ends past the report": the true sum, and the last one only.
#[test]
fn ends_of_reports() {
    let file = named();
    let report = b"0123456789";
    let one =
        |offset: u32, length: u32| both(&file, report, &[1, 0, offset, length], [0, 0, 1, 0]).0;
    assert_eq!(one(0, 10), in_report(0, 10));
    assert_eq!(one(0, 11), Shown::Refused(14));
    assert_eq!(one(9, 1), in_report(9, 1));
    assert_eq!(one(9, 2), Shown::Refused(14));
    assert_eq!(one(10, 0), in_report(10, 0));
    assert_eq!(one(10, 1), Shown::Refused(14));
    assert_eq!(one(11, 0), Shown::Refused(14));
    // Sums at and past 2^32.
    assert_eq!(one(u32::MAX, 0), Shown::Refused(14));
    assert_eq!(one(u32::MAX, 1), Shown::Refused(14));
    assert_eq!(one(5, u32::MAX - 4), Shown::Refused(14));
    assert_eq!(one(5, u32::MAX), Shown::Refused(14));
    assert_eq!(one(u32::MAX, 6), Shown::Refused(14));
    assert_eq!(one(u32::MAX, u32::MAX), Shown::Refused(14));
    // An inner token's length, and tokens outside the capture, play no part.
    let list = [1, 0, 99, 1, 1, 0, 2, u32::MAX, 1, 0, 3, 2, 1, 0, 0, 99];
    assert_eq!(both(&file, report, &list, [0, 1, 3, 0]).0, in_report(2, 3));
    assert_eq!(
        both(&file, report, &list, [0, 0, 3, 0]).0,
        Shown::Refused(14)
    );
    assert_eq!(
        both(&file, report, &list, [0, 1, 4, 0]).0,
        Shown::Refused(14)
    );
    // The empty report, and the longest.
    assert_eq!(
        both(&file, b"", &[2, 0, 0, 0], [0, 0, 1, 0]).0,
        in_report(0, 0)
    );
    let long = b"a".repeat(65_535);
    let all = [1, 0, 0, 65_535];
    assert_eq!(
        both(&file, &long, &all, [0, 0, 1, 0]).0,
        in_report(0, 65_535)
    );
}

/// "after 1 to 5 for the file, 8 for the report and 11 for the tokens"
#[test]
fn order_of_the_shown_texts_checks() {
    let bad = [9, 9, 0, 0];
    let number = |file: &[u8], report: &[u8], tokens: &[u32], capture: [u32; 4]| match both(
        file, report, tokens, capture,
    ) {
        (Shown::Refused(number), text) => {
            assert!(text.is_empty());
            number
        }
        _ => 0,
    };
    let named = named();
    let files = [
        (vec![], 1),
        (file(&["a b"], &[(0, "r")], &[empty()], 0), 2),
        (file(&[], &[(0, "")], &[empty()], 0), 2),
        (file(&[], &[(0, "r"), (0, "r")], &[empty()], 0), 2),
        (file(&[], &[(0, "r")], &[], 0), 3),
        (file(&[], &[(0, "r")], &[repeat(0)], 0), 4),
        (file(&[], &[(1, "r")], &[empty()], 0), 5),
        (file(&[], &[(0, "r")], &[empty()], 1), 5),
    ];
    for (file, refused) in &files {
        assert_eq!(number(file, b"\0", &[0; 3], bad), *refused);
        assert_eq!(number(file, b"", &[], [0, 0, 0, 0]), *refused);
    }
    assert_eq!(number(&named, b"\0", &[0; 3], bad), 8);
    assert_eq!(number(&named, b"", &[0; 3], bad), 11);
    assert_eq!(number(&named, b"", &[0; 4], bad), 14);
    assert_eq!(number(&named, b"", &[0; 4], [0, 0, 0, 0]), 0);
    // 7 plays no part: rule 0 = node 0 = rule 0.
    let left = file(&[], &[(0, "r")], &[rule(0)], 0);
    assert_eq!(number(&left, b"", &[], [0, 0, 0, 0]), 0);
    // 8: "report over length or refused byte", though the capture lies before it or
    // has no token.
    let token = [1, 0, 0, 1];
    for capture in [[0, 0, 1, 0], [0, 1, 1, 0]] {
        for byte in 0..=255u8 {
            let refused = (byte < 32 && ![9, 10, 13].contains(&byte)) || byte == 127;
            let report = [b'a', b' ', byte];
            assert_eq!(number(&named, &report, &token, capture) == 8, refused);
        }
        assert_eq!(number(&named, &b"a".repeat(65_535), &token, capture), 0);
        assert_eq!(number(&named, &b"a".repeat(65_536), &token, capture), 8);
    }
    // 9 plays no part: a report whose columns pass 65,535.
    let far = [&b"\t".repeat(8_192)[..], b"a"].concat();
    assert_eq!(number(&named, &far, &token, [0, 0, 1, 0]), 0);
    // 11: "token words no multiple of 4, over 4,096 tokens, terminal over 255 ..",
    // anywhere in the list.
    let with = |last: [u32; 4]| [token, last].concat();
    let eleven = |tokens: &[u32]| number(&named, b"a", tokens, [0, 0, 1, 0]);
    assert_eq!(eleven(&with([255, 65_535, 0, 0])), 0);
    assert_eq!(eleven(&with([256, 65_535, 0, 0])), 11);
    assert_eq!(eleven(&with([255, 65_536, 0, 0])), 11);
    assert_eq!(eleven(&with([255, 65_535, u32::MAX, u32::MAX])), 0);
    assert_eq!(eleven(&[0; 5]), 11);
    assert_eq!(eleven(&token.repeat(4_096)), 0);
    assert_eq!(eleven(&token.repeat(4_097)), 11);
}

/// The tokens as scanned never make a run's captures 14.
#[test]
fn scanned_captures_are_shown() {
    let mut chance = Chance(3);
    let mut seen = 0;
    for _ in 0..20_000 {
        let (mut nodes, rules) = chance.table(&[0, 1, 2, 3, 4]);
        for node in &mut nodes {
            if node[0] == 1 {
                node[1] = chance.below(4);
            }
        }
        let names: Vec<_> = (0..rules.len()).map(|rule| format!("r{rule}")).collect();
        let named: Vec<_> = rules
            .iter()
            .copied()
            .zip(names.iter().map(|n| &n[..]))
            .collect();
        let start = chance.node(nodes.len());
        let file = file(&["k"], &named, &nodes, start);
        let report: Vec<u8> = (0..chance.below(12))
            .map(|_| b"k 1x\n\t: "[usize::from(chance.below(8))])
            .collect();
        let tokens = scan(&file, &report, 16_384).unwrap();
        let start = Start::from_first(start, ANY);
        let nodes = nodes.concat();
        let mut slice = lent(4 * 2_000);
        let went = list_within(&nodes, &rules, &tokens, By2017, &start, &mut slice, 2_000);
        let Some(Listed::Success { captures, .. }) = went else {
            continue;
        };
        let (list, _) = slice.as_chunks::<4>();
        for capture in &list[..captures as usize] {
            let (shown, text) = both(&file, &report, &tokens, *capture);
            match shown {
                Shown::InReport { .. } => assert!(capture[1] < capture[2]),
                Shown::InFile { .. } => {
                    assert_eq!(capture[1], capture[2]);
                    assert_eq!(text, names[capture[0] as usize].as_bytes());
                }
                Shown::Refused(number) => panic!("{number}"),
            }
            seen += 1;
        }
    }
    assert!(seen > 1_000, "{seen}");
}
