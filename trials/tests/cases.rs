//! 01's bench cases a to j, its small inputs for every number, its program example,
//! the examples of 001, and the steps of 02's Note 1.

use trials::second::Reading::By2017;
use trials::second::{
    check, line, next_token, read, run, run_within, scan, sets, Handed, Ran, Start, Value, Verdict,
};

// Terminals a and b.
const A: u16 = 10;
const B: u16 = 11;
// Relations and modes.
const EQUAL: u16 = 0;
const GREATER: u16 = 1;
const AT_LEAST: u16 = 2;
const ANY: u16 = 3;

fn empty() -> [u16; 4] {
    [0, 0, 0, 0]
}
fn terminal(a: u16) -> [u16; 4] {
    [1, a, 0, 0]
}
fn rule(a: u16) -> [u16; 4] {
    [2, a, 0, 0]
}
fn sequence(a: u16, b: u16) -> [u16; 4] {
    [3, a, b, 0]
}
fn choice(a: u16, b: u16) -> [u16; 4] {
    [4, a, b, 0]
}
fn not(a: u16) -> [u16; 4] {
    [5, a, 0, 0]
}
fn repeat(a: u16) -> [u16; 4] {
    [6, a, 0, 0]
}
fn indent(a: u16, relation: u16) -> [u16; 4] {
    [7, a, 0, relation]
}
fn position(a: u16, relation: u16) -> [u16; 4] {
    [8, a, 0, relation]
}
fn align(a: u16) -> [u16; 4] {
    [9, a, 0, 0]
}

fn start(node: u16, mode: u16) -> Start {
    Start {
        node,
        place: 0,
        lower: 0,
        upper: None,
        flag: false,
        mode,
    }
}

fn tokens(list: &[(u16, u32)]) -> Vec<u32> {
    list.iter()
        .flat_map(|&(terminal, column)| [u32::from(terminal), column, 0, 0])
        .collect()
}

fn success(read: u32, lower: u32, upper: impl Into<Option<u32>>, flag: bool) -> Ran {
    Ran::Success {
        read,
        lower,
        upper: upper.into(),
        flag,
        farthest: 0,
    }
}

const FAILURE: Ran = Ran::Failure { farthest: 0 };

/// Runs by both readings of the clauses, which must agree. The farthest place, which has cases of its own, is given as 0.
fn ran(nodes: &[[u16; 4]], rules: &[u16], list: &[(u16, u32)], start: Start) -> Ran {
    let nodes = nodes.concat();
    let tokens = tokens(list);
    let ran = run(&nodes, rules, &tokens, By2017, &start);
    match (&ran, sets::run(&nodes, rules, &tokens, By2017, &start)) {
        (
            Ran::Success {
                read,
                lower,
                upper,
                flag,
                farthest,
            },
            sets::SetRan::Success {
                read: set_read,
                set,
                flag: set_flag,
                farthest: set_farthest,
            },
        ) => {
            assert_eq!((*read, *flag), (set_read, set_flag));
            assert_eq!(*farthest, set_farthest);
            let ends = (u64::from(*lower), upper.map(u64::from));
            assert_eq!(set.runs(), [ends]);
        }
        (
            Ran::Failure { farthest },
            sets::SetRan::Failure {
                farthest: set_farthest,
            },
        ) => assert_eq!(*farthest, set_farthest),
        (Ran::Refused(one), sets::SetRan::Refused(two)) => assert_eq!(*one, two),
        (Ran::IllFormed(one), sets::SetRan::IllFormed(two)) => assert_eq!(*one, two),
        (one, two) => panic!("{one:?} but {two:?}"),
    }
    match ran {
        Ran::Success {
            read,
            lower,
            upper,
            flag,
            ..
        } => success(read, lower, upper, flag),
        Ran::Failure { .. } => FAILURE,
        refused => refused,
    }
}

#[test]
fn case_a() {
    let nodes = [
        terminal(A),
        terminal(B),
        sequence(0, 1),
        align(2),
        indent(3, GREATER),
    ];
    let list = [(A, 2), (B, 3)];
    assert_eq!(
        ran(&nodes, &[], &list, start(4, AT_LEAST)),
        success(2, 0, 1, false)
    );
}

#[test]
fn case_b() {
    let nodes = [terminal(A)];
    assert_eq!(
        ran(&nodes, &[], &[(A, 5)], start(0, GREATER)),
        success(1, 0, 4, false)
    );
    assert_eq!(ran(&nodes, &[], &[(A, 0)], start(0, GREATER)), FAILURE);
}

#[test]
fn case_c() {
    let nodes = [terminal(A)];
    assert_eq!(
        ran(&nodes, &[], &[(A, 0)], start(0, AT_LEAST)),
        success(1, 0, 0, false)
    );
}

#[test]
fn case_d() {
    let nodes = [terminal(A)];
    let from = Start {
        flag: true,
        ..start(0, GREATER)
    };
    assert_eq!(ran(&nodes, &[], &[(A, 5)], from), success(1, 5, 5, false));
}

#[test]
fn case_e() {
    for flag in [false, true] {
        let from = Start {
            lower: 3,
            upper: Some(9),
            flag,
            ..start(0, GREATER)
        };
        assert_eq!(ran(&[terminal(A)], &[], &[], from), FAILURE);
        assert_eq!(ran(&[empty()], &[], &[], from), success(0, 3, 9, flag));
    }
}

#[test]
fn case_f() {
    let nodes = [
        terminal(A),
        terminal(B),
        indent(1, GREATER),
        empty(),
        choice(2, 3),
        sequence(0, 4),
    ];
    let from = start(5, EQUAL);
    assert_eq!(
        ran(&nodes, &[], &[(A, 1), (B, 2)], from),
        success(2, 1, 1, false)
    );
    assert_eq!(
        ran(&nodes, &[], &[(A, 3), (B, 2)], from),
        success(1, 3, 3, false)
    );
}

#[test]
fn case_g() {
    let nodes = [terminal(A), terminal(B), indent(1, ANY), sequence(0, 2)];
    assert_eq!(
        ran(&nodes, &[], &[(A, 3), (B, 0)], start(3, EQUAL)),
        success(2, 3, 3, false)
    );
}

#[test]
fn case_h() {
    let nodes = [empty(), align(0), terminal(A), sequence(1, 2)];
    assert_eq!(
        ran(&nodes, &[], &[(A, 5)], start(3, GREATER)),
        success(1, 0, 4, false)
    );
}

#[test]
fn case_i() {
    let nodes = [terminal(A), indent(0, GREATER), align(1)];
    let from = Start {
        lower: 1,
        upper: Some(1),
        ..start(2, EQUAL)
    };
    assert_eq!(ran(&nodes, &[], &[(A, 4)], from), success(1, 1, 1, false));
}

#[test]
fn case_j() {
    let bad = [empty(), repeat(0)].concat();
    assert_eq!(check(&bad, &[]), Verdict::IllFormed(1));
    let good = [empty(), not(0), repeat(1)].concat();
    assert_eq!(check(&good, &[]), Verdict::Passes);
    let left = [terminal(A), empty(), choice(0, 1), rule(0), sequence(2, 3)].concat();
    assert_eq!(check(&left, &[4]), Verdict::IllFormed(3));
}

/// 001, section 2.3: an indent does not go into a sequence.
#[test]
fn indent_over_sequence() {
    let whole = [terminal(A), terminal(B), sequence(0, 1), indent(2, GREATER)];
    let list = [(A, 1), (B, 2)];
    assert_eq!(ran(&whole, &[], &list, start(3, EQUAL)), FAILURE);
    let parts = [
        terminal(A),
        terminal(B),
        indent(0, GREATER),
        indent(1, GREATER),
        sequence(2, 3),
    ];
    assert_eq!(
        ran(&parts, &[], &list, start(4, EQUAL)),
        success(2, 0, 0, false)
    );
}

#[test]
fn second_alternative_from_the_old_interval() {
    // a b / position greater a, mode equal: the first reads a at 3 and fails at b.
    let nodes = [
        terminal(A),
        terminal(B),
        sequence(0, 1),
        position(0, GREATER),
        choice(2, 3),
    ];
    assert_eq!(
        ran(&nodes, &[], &[(A, 3)], start(4, EQUAL)),
        success(1, 0, 2, false)
    );
}

#[test]
fn position_goes_through_rules() {
    let nodes = [terminal(A), rule(0), position(1, GREATER)];
    assert_eq!(
        ran(&nodes, &[0], &[(A, 3)], start(2, EQUAL)),
        success(1, 0, 2, false)
    );
}

#[test]
fn align_keeps_a_flag_set_before_and_at_the_end() {
    let nodes = [empty(), align(0), terminal(A), not(2), align(3)];
    for node in [1, 4] {
        let from = Start {
            flag: true,
            ..start(node, EQUAL)
        };
        assert_eq!(ran(&nodes, &[], &[], from), success(0, 0, None, true));
        assert_eq!(
            ran(&nodes, &[], &[], start(node, EQUAL)),
            success(0, 0, None, false)
        );
    }
}

/// "Capping the lower end at 65,535: in mode any .."
#[test]
fn lower_end_past_the_columns() {
    let nodes = [
        terminal(A),
        indent(0, GREATER),
        indent(1, GREATER),
        position(2, ANY),
        empty(),
        indent(4, GREATER),
    ];
    let from = Start {
        lower: 65_535,
        ..start(3, EQUAL)
    };
    assert_eq!(
        ran(&nodes, &[], &[(A, 0)], from),
        success(1, 65_535, None, false)
    );
    // Started inside, the lower end shows.
    let inside = [terminal(A), indent(0, EQUAL)];
    let from = Start {
        lower: 65_535,
        upper: Some(65_535),
        ..start(1, ANY)
    };
    assert_eq!(
        ran(&inside, &[], &[(A, 7)], from),
        success(1, 65_535, 65_535, false)
    );
    // In mode at least nothing can stand there.
    let from = Start {
        lower: 65_535,
        ..start(2, AT_LEAST)
    };
    assert_eq!(ran(&nodes, &[], &[(A, 65_535)], from), FAILURE);
}

#[test]
fn steps_are_counted() {
    // A sequence of two terminals enters three expressions.
    let nodes = [terminal(A), terminal(B), sequence(0, 1)].concat();
    let list = tokens(&[(A, 1), (B, 1)]);
    let from = start(2, EQUAL);
    assert_eq!(run_within(&nodes, &[], &list, By2017, &from, 2), None);
    assert_eq!(
        run_within(&nodes, &[], &list, By2017, &from, 3),
        Some(Ran::Success {
            read: 2,
            lower: 1,
            upper: Some(1),
            flag: false,
            farthest: 1
        })
    );
    assert_eq!(sets::run_within(&nodes, &[], &list, By2017, &from, 2), None);
    assert!(sets::run_within(&nodes, &[], &list, By2017, &from, 3).is_some());
}

// Note 1 of 02: steps of 1, 2 and 31, the value less 3.
const STEP_1: u16 = 4;
const STEP_2: u16 = 5;
const STEP_31: u16 = 34;
const STEPS: [(u16, u32); 3] = [(STEP_1, 1), (STEP_2, 2), (STEP_31, 31)];

/// A start from an interval, flag clear.
fn from(lower: u32, upper: impl Into<Option<u32>>, Start { node, mode, .. }: Start) -> Start {
    Start {
        lower,
        upper: upper.into(),
        ..start(node, mode)
    }
}

#[test]
fn indent_of_exactly_two() {
    let nodes = [terminal(A), terminal(B), indent(1, STEP_2), sequence(0, 2)];
    let read = |a: u32, b: u32| ran(&nodes, &[], &[(A, a), (B, b)], start(3, EQUAL));
    assert_eq!(read(0, 2), success(2, 0, 0, false));
    assert_eq!(read(7, 9), success(2, 7, 7, false));
    assert_eq!(read(65_533, 65_535), success(2, 65_533, 65_533, false));
    for (a, b) in [
        (0, 0),
        (0, 1),
        (0, 3),
        (0, 4),
        (7, 8),
        (7, 10),
        (7, 5),
        (7, 7),
    ] {
        assert_eq!(read(a, b), FAILURE, "{a} {b}");
    }
}

#[test]
fn amounts_from_both_sides() {
    for (relation, amount) in STEPS {
        let nodes = [
            terminal(A),
            terminal(B),
            indent(1, relation),
            sequence(0, 2),
        ];
        for b in 0..100 {
            let expected = if b == 40 + amount {
                success(2, 40, 40, false)
            } else {
                FAILURE
            };
            let list = [(A, 40), (B, b)];
            assert_eq!(ran(&nodes, &[], &list, start(3, EQUAL)), expected);
        }
    }
}

/// From 3 to 9 by 2 the child gets 5 to 11.
#[test]
fn step_moves_both_ends() {
    let nodes = [terminal(A), indent(0, STEP_2)];
    let read = |mode: u16, a: u32| ran(&nodes, &[], &[(A, a)], from(3, 9, start(1, mode)));
    for a in 5..=11 {
        assert_eq!(read(EQUAL, a), success(1, a - 2, a - 2, false));
    }
    assert_eq!(read(EQUAL, 4), FAILURE);
    assert_eq!(read(EQUAL, 12), FAILURE);
    // At least: 5 on, then 5 to 8 or all of 5 to 11 on the way out.
    assert_eq!(read(AT_LEAST, 4), FAILURE);
    assert_eq!(read(AT_LEAST, 5), success(1, 3, 3, false));
    assert_eq!(read(AT_LEAST, 8), success(1, 3, 6, false));
    assert_eq!(read(AT_LEAST, 20), success(1, 3, 9, false));
    // Greater: 6 on, then 5 to 7.
    assert_eq!(read(GREATER, 5), FAILURE);
    assert_eq!(read(GREATER, 6), success(1, 3, 3, false));
    assert_eq!(read(GREATER, 8), success(1, 3, 5, false));
    // A step in a step: 7 to 13.
    assert_eq!(read(STEP_2, 6), FAILURE);
    assert_eq!(read(STEP_2, 7), success(1, 3, 3, false));
    assert_eq!(read(STEP_2, 13), success(1, 9, 9, false));
    assert_eq!(read(STEP_2, 14), FAILURE);
    assert_eq!(read(ANY, 0), success(1, 3, 9, false));
}

#[test]
fn endless_raised_and_lowered() {
    let nodes = [terminal(A), indent(0, STEP_31), empty(), indent(2, STEP_31)];
    let read = |mode: u16, a: u32| ran(&nodes, &[], &[(A, a)], from(4, None, start(1, mode)));
    assert_eq!(read(ANY, 0), success(1, 4, None, false));
    assert_eq!(read(EQUAL, 34), FAILURE);
    assert_eq!(read(EQUAL, 35), success(1, 4, 4, false));
    assert_eq!(read(EQUAL, 65_535), success(1, 65_504, 65_504, false));
    assert_eq!(read(AT_LEAST, 34), FAILURE);
    assert_eq!(read(AT_LEAST, 40), success(1, 4, 9, false));
    let unread = from(4, None, start(3, EQUAL));
    assert_eq!(ran(&nodes, &[], &[], unread), success(0, 4, None, false));
}

/// A token in a step as its mode: at the very column, and beside it.
#[test]
fn step_as_mode() {
    for (mode, amount) in STEPS {
        let read = |a: u32, from: Start| ran(&[terminal(A)], &[], &[(A, a)], from);
        let one = from(6, 6, start(0, mode));
        assert_eq!(read(6 + amount, one), success(1, 6, 6, false));
        assert_eq!(read(6 + amount - 1, one), FAILURE);
        assert_eq!(read(6 + amount + 1, one), FAILURE);
        // A column below the amount has no outer one.
        let all = start(0, mode);
        assert_eq!(read(0, all), FAILURE);
        assert_eq!(read(amount - 1, all), FAILURE);
        assert_eq!(read(amount, all), success(1, 0, 0, false));
        assert_eq!(read(amount + 1, all), success(1, 1, 1, false));
        let last = 65_535 - amount;
        assert_eq!(read(65_535, all), success(1, last, last, false));
        // Under a set flag the mode is of no matter.
        let flag = Start { flag: true, ..one };
        assert_eq!(read(6, flag), success(1, 6, 6, false));
        assert_eq!(read(6 + amount, flag), FAILURE);
    }
}

#[test]
fn step_as_position() {
    // Through a rule, and again and again from the one outer column.
    let nodes = [terminal(A), rule(0), position(1, STEP_2), repeat(2)];
    let list = [(A, 5), (A, 5), (A, 6), (A, 5)];
    let read = ran(&nodes, &[0], &list, from(0, 9, start(3, EQUAL)));
    assert_eq!(read, success(2, 3, 3, false));
}

/// Steps add up, and go with the four relations.
#[test]
fn step_within_other_relations() {
    let read = |inside: u16, outside: u16, a: u32| {
        let nodes = [terminal(A), indent(0, inside), indent(1, outside)];
        ran(&nodes, &[], &[(A, a)], from(3, 3, start(2, EQUAL)))
    };
    for (inside, outside) in [(STEP_2, STEP_31), (STEP_31, STEP_2)] {
        assert_eq!(read(inside, outside, 35), FAILURE);
        assert_eq!(read(inside, outside, 36), success(1, 3, 3, false));
        assert_eq!(read(inside, outside, 37), FAILURE);
    }
    for (inside, outside) in [(STEP_2, GREATER), (GREATER, STEP_2)] {
        assert_eq!(read(inside, outside, 5), FAILURE);
        assert_eq!(read(inside, outside, 6), success(1, 3, 3, false));
        assert_eq!(read(inside, outside, 60), success(1, 3, 3, false));
    }
    // 0 on, then 2 on.
    assert_eq!(read(STEP_2, ANY, 1), FAILURE);
    assert_eq!(read(STEP_2, ANY, 2), success(1, 3, 3, false));
    assert_eq!(read(ANY, STEP_2, 0), success(1, 3, 3, false));
}

#[test]
fn step_under_not() {
    // Not a under the step, then a anywhere: the interval is the old one.
    let nodes = [
        terminal(A),
        indent(0, STEP_2),
        not(1),
        position(0, ANY),
        sequence(2, 3),
        not(2),
    ];
    let read = |node: u16, a: u32| ran(&nodes, &[], &[(A, a)], from(4, 9, start(node, EQUAL)));
    for (a, inside) in [(0, false), (5, false), (6, true), (11, true), (12, false)] {
        let (one, two) = if inside {
            (FAILURE, success(0, 4, 9, false))
        } else {
            (success(1, 4, 9, false), FAILURE)
        };
        assert_eq!(read(4, a), one, "{a}");
        assert_eq!(read(5, a), two, "{a}");
    }
}

#[test]
fn step_over_align() {
    // As case a, by exactly 2.
    let nodes = [
        terminal(A),
        terminal(B),
        sequence(0, 1),
        align(2),
        indent(3, STEP_2),
    ];
    let read = |a: u32, b: u32| ran(&nodes, &[], &[(A, a), (B, b)], start(4, AT_LEAST));
    assert_eq!(read(2, 3), success(2, 0, 0, false));
    assert_eq!(read(5, 7), success(2, 3, 3, false));
    assert_eq!(read(5, 4), FAILURE);
    assert_eq!(read(1, 3), FAILURE);
}

#[test]
fn step_under_align() {
    // As case i, by exactly 2.
    let nodes = [terminal(A), indent(0, STEP_2), align(1)];
    let read = |a: u32| ran(&nodes, &[], &[(A, a)], from(1, 1, start(2, EQUAL)));
    assert_eq!(read(3), success(1, 1, 1, false));
    for a in [0, 1, 2, 4] {
        assert_eq!(read(a), FAILURE);
    }
    // The flag comes from outside: 1 to 4 by 2 is 3 to 6, and the mode is of no matter.
    let flagged = |a: u32| {
        let from = from(1, 4, start(1, STEP_31));
        ran(&nodes, &[], &[(A, a)], Start { flag: true, ..from })
    };
    assert_eq!(flagged(2), FAILURE);
    assert_eq!(flagged(3), success(1, 1, 1, false));
    assert_eq!(flagged(6), success(1, 4, 4, false));
    assert_eq!(flagged(7), FAILURE);
    // A step that reads nothing leaves the flag.
    let unread = [empty(), indent(0, STEP_2), align(1)];
    for flag in [false, true] {
        let from = from(1, 4, start(2, EQUAL));
        let read = ran(&unread, &[], &[], Start { flag, ..from });
        assert_eq!(read, success(0, 1, 4, flag));
    }
}

/// "A finite upper end may now pass 65,535 inside a run."
#[test]
fn ends_past_the_columns_and_back() {
    let nodes = [
        terminal(A),
        indent(0, STEP_2),
        position(0, ANY),
        indent(2, STEP_31),
        indent(3, STEP_31),
    ];
    // By 2 the child gets 65,532 to 65,537.
    let read = |mode: u16, a: u32| {
        let from = from(65_530, 65_535, start(1, mode));
        ran(&nodes, &[], &[(A, a)], from)
    };
    assert_eq!(read(EQUAL, 65_531), FAILURE);
    assert_eq!(read(EQUAL, 65_532), success(1, 65_530, 65_530, false));
    assert_eq!(read(EQUAL, 65_535), success(1, 65_533, 65_533, false));
    assert_eq!(read(AT_LEAST, 65_535), success(1, 65_530, 65_533, false));
    // By 62 both ends pass: 65,592 to 65,597, or without end.
    for upper in [Some(65_535), Some(65_530), None] {
        let from = from(65_530, upper, start(4, EQUAL));
        let read = ran(&nodes, &[], &[(A, 7)], from);
        assert_eq!(read, success(1, 65_530, upper, false));
    }
    // Nothing can stand past 65,535.
    let from = from(65_535, 65_535, start(1, EQUAL));
    assert_eq!(ran(&nodes, &[], &[(A, 65_535)], from), FAILURE);
}

/// A stair of exactly 31: a at 0, 31, 62 and on to 65,534, and the last indent's
/// interval, 65,565 to 65,565, holds no column.
#[test]
fn stair_past_the_columns() {
    let stair = || {
        let nodes = [
            terminal(A),
            rule(0),
            indent(1, STEP_31),
            empty(),
            choice(2, 3),
            sequence(0, 4),
        ];
        let mut list: Vec<_> = (0..2_115).map(|step| (A, 31 * step)).collect();
        assert_eq!(list.last(), Some(&(A, 65_534)));
        let from = start(5, EQUAL);
        assert_eq!(ran(&nodes, &[5], &list, from), success(2_115, 0, 0, false));
        // One more at the last column stays unread, and a stray step ends the stair.
        list.push((A, 65_535));
        assert_eq!(ran(&nodes, &[5], &list, from), success(2_115, 0, 0, false));
        list[1_000].1 += 1;
        assert_eq!(ran(&nodes, &[5], &list, from), success(1_000, 0, 0, false));
    };
    let thread = std::thread::Builder::new().stack_size(64 << 20);
    thread.spawn(stair).unwrap().join().unwrap();
}

/// Both readings agree under every relation: `ran` compares them.
#[test]
fn every_relation_by_both_readings() {
    let columns: Vec<u32> = (0..4).chain(30..36).chain(60..70).chain([65_535]).collect();
    for relation in 0..35 {
        let nodes = [terminal(A), indent(0, relation)];
        for mode in [EQUAL, GREATER, AT_LEAST, ANY, STEP_1, STEP_2, STEP_31] {
            for (lower, width) in [(0, 0), (0, 2), (1, 40), (31, 0), (32, 3), (65_500, 35)] {
                for &a in &columns {
                    let start = start(1, mode);
                    ran(&nodes, &[], &[(A, a)], from(lower, lower + width, start));
                    ran(&nodes, &[], &[(A, a)], from(lower, None, start));
                }
            }
        }
    }
}

/// A word, its line end, and any number of entries exactly two columns further in; no
/// word behind.
fn levels() -> [[u16; 4]; 11] {
    [
        terminal(1),
        terminal(2),
        position(1, ANY),
        rule(0),
        indent(3, STEP_2),
        repeat(4),
        sequence(2, 5),
        sequence(0, 6),
        position(0, ANY),
        not(8),
        sequence(7, 9),
    ]
}

/// "users want stray lines to fail"
#[test]
fn levels_of_two() {
    // Words and line ends, the latter at any column.
    let read = |words: &[u32]| {
        let lines = words.iter().flat_map(|&word| [(1, word), (2, word + 1)]);
        ran(
            &levels(),
            &[7],
            &lines.collect::<Vec<_>>(),
            start(10, EQUAL),
        )
    };
    assert_eq!(read(&[0, 2, 4, 2]), success(8, 0, 0, false));
    assert_eq!(read(&[1, 3, 5, 3]), success(8, 1, 1, false));
    for stray in [
        [0, 1, 3],
        [0, 3, 5],
        [0, 2, 3],
        [0, 2, 5],
        [0, 2, 6],
        [0, 2, 0],
    ] {
        assert_eq!(read(&stray), FAILURE, "{stray:?}");
    }
}

#[test]
fn program_with_steps() {
    let made = file(&[], &[(7, "entry")], &levels(), 10, EQUAL as u8);
    let good = b"a\n  b\n    c\n  d\n";
    assert_eq!(line(&made, good), b"success 8 0 0 clear 8\n");
    assert_eq!(line(&made, b"a\n b\n"), b"failure 2\n");
    assert_eq!(line(&made, b"a\n   b\n"), b"failure 2\n");
    // A step as the file's mode, and the first that is none.
    let word = |mode: u8| file(&[], &[], &[terminal(1)], 0, mode);
    assert_eq!(line(&word(5), b"   a"), b"success 1 1 1 clear 0\n");
    assert_eq!(line(&word(5), b" a"), b"failure 0\n");
    assert_eq!(line(&word(34), b"a"), b"failure 0\n");
    assert_eq!(line(&word(35), b"\0"), b"refused 5\n");
}

// Files.

fn field(tag: u8, value: &[u8]) -> Vec<u8> {
    let length = (value.len() as u16).to_be_bytes();
    [&[tag], &length[..], value].concat()
}

fn node_field([kind, a, b, relation]: [u16; 4]) -> Vec<u8> {
    let (a, b) = (a.to_be_bytes(), b.to_be_bytes());
    field(4, &[kind as u8, a[0], a[1], b[0], b[1], relation as u8])
}

fn file(
    keywords: &[&str],
    rules: &[(u16, &str)],
    nodes: &[[u16; 4]],
    start: u16,
    mode: u8,
) -> Vec<u8> {
    let mut file = field(1, &[1]);
    for keyword in keywords {
        file.extend(field(2, keyword.as_bytes()));
    }
    for (node, name) in rules {
        file.extend(field(
            3,
            &[&node.to_be_bytes()[..], name.as_bytes()].concat(),
        ));
    }
    for &node in nodes {
        file.extend(node_field(node));
    }
    let start = start.to_be_bytes();
    file.extend(field(5, &[start[0], start[1], mode]));
    file
}

fn example() -> Vec<u8> {
    let nodes = [
        terminal(3),
        terminal(4),
        terminal(0),
        terminal(2),
        sequence(2, 3),
        sequence(1, 4),
        sequence(0, 5),
    ];
    file(&["loss", ":"], &[], &nodes, 6, GREATER as u8)
}

#[test]
fn program_example() {
    assert_eq!(
        line(&example(), b"  loss: 0.03"),
        b"success 4 0 1 clear 3\n"
    );
    assert_eq!(
        line(&example(), b"  loss: 0.03\n"),
        b"success 4 0 1 clear 3\n"
    );
    assert_eq!(line(&example(), b"loss: 0.03"), b"failure 0\n");
    assert_eq!(line(&example(), b""), b"failure 0\n");
}

#[test]
fn program_lines() {
    assert_eq!(line(b"", b""), b"refused 1\n");
    // 1 comes before 8, 7 before 8 to 10, and each by itself.
    assert_eq!(line(b"", b"\0"), b"refused 1\n");
    let left = file(&[], &[(0, "r")], &[rule(0)], 0, 0);
    assert_eq!(line(&left, b""), b"refused 7 0\n");
    assert_eq!(line(&left, b"\0"), b"refused 7 0\n");
    let plain = file(&[], &[], &[empty()], 0, 0);
    assert_eq!(line(&plain, b"\0"), b"refused 8\n");
    let far = [&b"\t".repeat(8_192)[..], b"a"].concat();
    assert_eq!(line(&plain, &far), b"refused 9\n");
    assert_eq!(line(&plain, &b":".repeat(4_096)), b"refused 10\n");
    assert_eq!(line(&plain, b"anything"), b"success 0 0 inf clear 0\n");
    // A rule's node that is not there: 5, though there is a node.
    let gone = file(&[], &[(1, "r")], &[empty()], 0, 0);
    assert_eq!(line(&gone, b"\0"), b"refused 5\n");
}

#[test]
fn small_inputs() {
    // 1: no bytes.
    assert_eq!(read(b"", 2_048, 128), Err(1));
    assert_eq!(scan(b"", b"", 16_384), Err(1));
    // 2: keyword `a b`.
    let spaced = file(&["a b"], &[], &[empty()], 0, 0);
    assert_eq!(read(&spaced, 2_048, 128), Err(2));
    assert_eq!(scan(&spaced, b"\0", 16_384), Err(2));
    // 3: no node.
    let none = file(&[], &[], &[], 0, 0);
    assert_eq!(read(&none, 2_048, 128), Err(3));
    assert_eq!(check(&[], &[]), Verdict::Refused(3));
    assert_eq!(run(&[], &[], &[], By2017, &start(0, 0)), Ran::Refused(3));
    // 4: node 0 a repeat of 0.
    let own = file(&[], &[], &[repeat(0)], 0, 0);
    assert_eq!(read(&own, 2_048, 128), Err(4));
    assert_eq!(check(&repeat(0), &[]), Verdict::Refused(4));
    assert_eq!(
        run(&repeat(0), &[], &[], By2017, &start(0, 0)),
        Ran::Refused(4)
    );
    // 5: rule 0 = node 1 of 1.
    let gone = file(&[], &[(1, "r")], &[empty()], 0, 0);
    assert_eq!(read(&gone, 2_048, 128), Err(5));
    assert_eq!(check(&empty(), &[1]), Verdict::Refused(5));
    assert_eq!(
        run(&empty(), &[1], &[], By2017, &start(0, 0)),
        Ran::Refused(5)
    );
    // 6: 1 node, 3 words.
    let plain = file(&[], &[], &[empty()], 0, 0);
    assert_eq!(read(&plain, 3, 0), Err(6));
    assert!(read(&plain, 4, 0).is_ok());
    // 7: rule 0 = node 0 = rule 0.
    assert_eq!(check(&rule(0), &[0]), Verdict::IllFormed(0));
    assert_eq!(
        run(&rule(0), &[0], &[], By2017, &start(0, 0)),
        Ran::IllFormed(0)
    );
    // 8: byte 0.
    assert_eq!(scan(&plain, b"\0", 16_384), Err(8));
    // 9: 8,192 tabs, `a`.
    let far = [&b"\t".repeat(8_192)[..], b"a"].concat();
    assert_eq!(scan(&plain, &far, 16_384), Err(9));
    // 10: `a`, 7 words.
    assert_eq!(scan(&plain, b"a", 7), Err(10));
    assert_eq!(scan(&plain, b"a", 8), Ok(vec![1, 0, 0, 1, 2, 1, 1, 0]));
    // 11: 3 words.
    assert_eq!(
        run(&empty(), &[], &[0; 3], By2017, &start(0, 0)),
        Ran::Refused(11)
    );
    // 12: interval 5 to 4.
    let from = Start {
        lower: 5,
        upper: Some(4),
        ..start(0, 0)
    };
    assert_eq!(run(&empty(), &[], &[], By2017, &from), Ran::Refused(12));
}

#[test]
fn scanned_example() {
    let tokens = scan(&example(), b"  loss: 0.03", 16_384).unwrap();
    let (tokens, _) = tokens.as_chunks::<4>();
    assert_eq!(
        tokens,
        [[3, 2, 2, 4], [4, 6, 6, 1], [0, 8, 8, 4], [2, 12, 12, 0]]
    );
    // "A tab then `a`: column 8, offset 1."
    let tokens = scan(&example(), b"\ta", 16_384).unwrap();
    assert_eq!(tokens, [1, 8, 1, 1, 2, 9, 2, 0]);
}

#[test]
fn spellings() {
    let plain = file(&["10", "%", "a"], &[], &[empty()], 0, 0);
    let terminal = |text: &str| scan(&plain, text.as_bytes(), 16_384).unwrap()[0];
    for number in ["0", "-1", "0.03", "-12.5", "007"] {
        assert_eq!(terminal(number), 0, "{number}");
    }
    for word in [
        "-", ".5", "1.", "1.2.3", "--1", "-.5", "1.-2", "+1", "b", ":", "\u{b5}",
    ] {
        assert_eq!(terminal(word), 1, "{word}");
    }
    assert_eq!(terminal("10"), 3);
    assert_eq!(terminal("%"), 4);
    assert_eq!(terminal("a"), 5);
    assert_eq!(terminal("aa"), 1);
}

#[test]
fn lines_and_columns() {
    let plain = file(&[], &[], &[empty()], 0, 0);
    let text = b" \n\na\r\n\t b:5 \t\n \r\n";
    let tokens = scan(&plain, text, 16_384).unwrap();
    let (tokens, _) = tokens.as_chunks::<4>();
    assert_eq!(
        tokens,
        [
            [1, 0, 3, 1],
            [2, 2, 5, 0],
            [1, 9, 8, 1],
            [1, 10, 9, 1],
            [0, 11, 10, 1],
            [2, 16, 13, 0],
        ]
    );
}

#[test]
fn one_by_one() {
    let plain = file(&[], &[], &[empty()], 0, 0);
    let text = b"a\n b";
    let mut value = Value {
        offset: 0,
        column: 0,
        had_token: false,
    };
    let mut expect = |handed: Handed, offset: usize, column: u32, had_token: bool| {
        let (answer, behind) = next_token(&plain, text, value);
        assert_eq!(answer, handed);
        let stands = Value {
            offset,
            column,
            had_token,
        };
        assert_eq!(behind, stands);
        value = behind;
    };
    expect(Handed::Token([1, 0, 0, 1]), 1, 1, true);
    expect(Handed::Token([2, 1, 1, 0]), 2, 0, false);
    expect(Handed::Token([1, 1, 3, 1]), 4, 2, true);
    expect(Handed::Token([2, 2, 4, 0]), 4, 2, false);
    expect(Handed::Nothing, 4, 2, false);
    expect(Handed::Nothing, 4, 2, false);
}

#[test]
fn one_by_one_refused() {
    let plain = file(&[], &[], &[empty()], 0, 0);
    let value = |offset, column| Value {
        offset,
        column,
        had_token: false,
    };
    let refused = |file: &[u8], text: &[u8], v: Value, number: u8| {
        assert_eq!(next_token(file, text, v), (Handed::Refused(number), v));
    };
    refused(b"", b"\0", value(9, 0), 1);
    // The whole text, also in front of the offset.
    refused(&plain, b"\0a", value(1, 0), 8);
    refused(&plain, b"a\0", value(0, 0), 8);
    refused(&plain, b"a", value(2, 0), 8);
    refused(&plain, b"a", value(0, 524_281), 8);
    refused(&plain, b"a", value(0, 65_536), 9);
    refused(&plain, b"a", value(0, 524_280), 9);
    refused(&plain, &b" ".repeat(65_536), value(0, 0), 8);
    let (answer, behind) = next_token(&plain, b"a", value(0, 65_535));
    assert_eq!(answer, Handed::Token([1, 65_535, 0, 1]));
    refused(&plain, b"a", behind, 9);
    // A column over the limit is of no matter before a break.
    let (answer, _) = next_token(&plain, b"\na", value(0, 524_280));
    assert_eq!(answer, Handed::Token([1, 0, 1, 1]));
}
