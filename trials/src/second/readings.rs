//! Tests of the two readings, 02 Note 5: cases worked by hand from section 4 of 000 and
//! section 2 of 001, number 16, sets beside ends, and figure 6 of 000.

use super::sets::{self, SetRan};
use super::{
    check, kind, line, line_within, list, list_within, relation, remember_within, run, run_within,
    Listed, Ran, Reading, Start, Verdict,
};
use Reading::{By2014, By2017};

pub(super) type Node = [u16; 4];

pub(super) const EMPTY: Node = [kind::EMPTY, 0, 0, 0];
/// The terminals a and b.
pub(super) const A: Node = [kind::TERMINAL, 0, 0, 0];
pub(super) const B: Node = [kind::TERMINAL, 1, 0, 0];

pub(super) fn rule(rule: u16) -> Node {
    [kind::RULE, rule, 0, 0]
}

pub(super) fn sequence(a: u16, b: u16) -> Node {
    [kind::SEQUENCE, a, b, 0]
}

pub(super) fn choice(a: u16, b: u16) -> Node {
    [kind::CHOICE, a, b, 0]
}

pub(super) fn not(a: u16) -> Node {
    [kind::NOT, a, 0, 0]
}

pub(super) fn repeat(a: u16) -> Node {
    [kind::REPEAT, a, 0, 0]
}

pub(super) fn indent(a: u16, relation: u16) -> Node {
    [kind::INDENT, a, 0, relation]
}

pub(super) fn greater(a: u16) -> Node {
    indent(a, relation::GREATER)
}

pub(super) fn at_least(a: u16) -> Node {
    indent(a, relation::AT_LEAST)
}

fn step(a: u16, amount: u16) -> Node {
    indent(a, relation::ANY + amount)
}

pub(super) fn position(a: u16, relation: u16) -> Node {
    [kind::POSITION, a, 0, relation]
}

pub(super) fn align(a: u16) -> Node {
    [kind::ALIGN, a, 0, 0]
}

/// The tokens a and b at a column.
pub(super) fn a(column: u32) -> [u32; 4] {
    [0, column, 0, 0]
}

pub(super) fn b(column: u32) -> [u32; 4] {
    [1, column, 0, 0]
}

/// A start in mode equal from token 0; the node is put in by `both`.
pub(super) fn from(lower: u32, upper: impl Into<Option<u32>>, flag: bool) -> Start {
    Start {
        lower,
        upper: upper.into(),
        flag,
        ..Start::from_first(0, relation::EQUAL)
    }
}

/// A success with a clear flag, the farthest place last, as in the program's line.
pub(super) fn clear(read: u32, lower: u32, upper: impl Into<Option<u32>>, farthest: u32) -> Ran {
    Ran::Success {
        read,
        lower,
        upper: upper.into(),
        flag: false,
        farthest,
    }
}

/// A success with a set flag.
pub(super) fn set(read: u32, lower: u32, upper: impl Into<Option<u32>>, farthest: u32) -> Ran {
    Ran::Success {
        read,
        lower,
        upper: upper.into(),
        flag: true,
        farthest,
    }
}

pub(super) fn fails(farthest: u32) -> Ran {
    Ran::Failure { farthest }
}

/// The one answer of all the calls that run: over ends and over sets, listing captures
/// and not, remembering outcomes and not, within steps and without. With it the captures, of which there are at most
/// 64.
pub(super) fn answer(
    nodes: &[u16],
    rules: &[u16],
    tokens: &[u32],
    reading: Reading,
    start: &Start,
) -> (Ran, Vec<[u32; 4]>) {
    const STEPS: u64 = 100_000;
    let ran = run(nodes, rules, tokens, reading, start);
    let within = run_within(nodes, rules, tokens, reading, start, STEPS);
    assert_eq!(within, Some(ran));
    let mut memory = [9; 16];
    let within = remember_within(nodes, rules, tokens, reading, start, &mut memory, STEPS);
    assert_eq!(within.map(|(remembered, _)| remembered), Some(ran));

    let mut words = [9; 4 * 64];
    let listed = list(nodes, rules, tokens, reading, start, &mut words);
    let mut again = [8; 4 * 64];
    let within = list_within(nodes, rules, tokens, reading, start, &mut again, STEPS);
    assert_eq!(within, Some(listed));
    let (alike, captures) = match listed {
        Listed::Success {
            read,
            lower,
            upper,
            flag,
            farthest,
            captures,
        } => {
            let ran = Ran::Success {
                read,
                lower,
                upper,
                flag,
                farthest,
            };
            (ran, captures as usize)
        }
        Listed::Failure { farthest } => (fails(farthest), 0),
        Listed::Refused(number) => (Ran::Refused(number), 0),
        Listed::IllFormed(node) => (Ran::IllFormed(node), 0),
    };
    assert_eq!(alike, ran);
    match ran {
        Ran::Success { .. } | Ran::Failure { .. } => {
            assert_eq!(words, again);
            assert!(words[4 * captures..].iter().all(|&word| word == 0));
            assert_eq!(memory, [0; 16]);
        }
        // "Nothing is written."
        Ran::Refused(_) | Ran::IllFormed(_) => {
            assert!(words == [9; 256] && again == [8; 256] && memory == [9; 16]);
        }
    }
    let captures = words.as_chunks().0[..captures].to_vec();

    let over_sets = sets::run(nodes, rules, tokens, reading, start);
    let within = sets::run_within(nodes, rules, tokens, reading, start, STEPS);
    assert_eq!(within.as_ref(), Some(&over_sets));
    let within = sets::list_within(nodes, rules, tokens, reading, start, STEPS);
    assert_eq!(within, Some((over_sets.clone(), captures.clone())));
    assert_eq!(ends(&over_sets), ran);
    (ran, captures)
}

/// The answer over sets as the one over ends: a set that is reached is an interval.
fn ends(over_sets: &SetRan) -> Ran {
    match over_sets {
        SetRan::Success {
            read,
            set,
            flag,
            farthest,
        } => {
            let runs = set.runs();
            let [(lower, upper)] = runs[..] else {
                panic!("{set:?} is no interval");
            };
            Ran::Success {
                read: *read,
                lower: lower as u32,
                upper: upper.map(|upper| upper as u32),
                flag: *flag,
                farthest: *farthest,
            }
        }
        SetRan::Failure { farthest } => fails(*farthest),
        SetRan::Refused(number) => Ran::Refused(*number),
        SetRan::IllFormed(node) => Ran::IllFormed(*node),
    }
}

/// The last node's answers under both readings.
pub(super) fn both_with(
    nodes: &[Node],
    rules: &[u16],
    tokens: &[[u32; 4]],
    start: &Start,
    by_2014: Ran,
    by_2017: Ran,
) {
    let start = Start {
        node: nodes.len() as u16 - 1,
        ..*start
    };
    for (reading, expected) in [(By2014, by_2014), (By2017, by_2017)] {
        let (nodes, words) = (nodes.as_flattened(), tokens.as_flattened());
        let (ran, _) = answer(nodes, rules, words, reading, &start);
        assert_eq!(ran, expected, "{reading:?} {tokens:?} {start:?}");
    }
}

/// As `both_with`, without rules.
pub(super) fn both(nodes: &[Node], tokens: &[[u32; 4]], start: &Start, by_2014: Ran, by_2017: Ran) {
    both_with(nodes, &[], tokens, start, by_2014, by_2017);
}

/// "Align of empty, then a under greater, mode equal, a at column 0, succeeds with 0 to
/// 0 under 2014 and fails under 2017." At column 5 both succeed.
#[test]
fn note_5() {
    let nodes = [EMPTY, align(0), A, greater(2), sequence(1, 3)];
    let all = from(0, None, false);
    both(&nodes, &[a(0)], &all, clear(1, 0, 0, 0), fails(0));
    both(&nodes, &[a(5)], &all, clear(1, 5, 5, 0), clear(1, 0, 4, 0));
    // From 1 to 3: by 2014 a must lie in it, by 2017 behind 1.
    let few = from(1, 3, false);
    both(&nodes, &[a(1)], &few, clear(1, 1, 1, 0), fails(0));
    both(&nodes, &[a(2)], &few, clear(1, 2, 2, 0), clear(1, 1, 1, 0));
    both(&nodes, &[a(4)], &few, fails(0), clear(1, 1, 3, 0));
}

/// 001, 2.4, second difference: "the alignment flag is never changed at the end", which
/// shows "if p succeeds without consuming any token".
#[test]
fn align_that_read_nothing() {
    let nodes = [EMPTY, align(0)];
    both(
        &nodes,
        &[],
        &from(2, 7, false),
        set(0, 2, 7, 0),
        clear(0, 2, 7, 0),
    );
    both(
        &nodes,
        &[],
        &from(2, 7, true),
        set(0, 2, 7, 0),
        set(0, 2, 7, 0),
    );
    // One around the other, and one after the other.
    let nodes = [EMPTY, align(0), align(1), sequence(2, 1)];
    both(
        &nodes,
        &[],
        &from(2, 7, false),
        set(0, 2, 7, 0),
        clear(0, 2, 7, 0),
    );
    // A token clears it inside.
    let nodes = [A, align(0)];
    both(
        &nodes,
        &[a(3)],
        &from(2, 7, false),
        clear(1, 3, 3, 0),
        clear(1, 3, 3, 0),
    );
    both(&nodes, &[a(8)], &from(2, 7, false), fails(0), fails(0));
}

/// The same: the flag "would unexpectedly remain true during parsing of the next
/// token". Align of (a or empty), then b under greater, from 2 to 2.
#[test]
fn align_of_an_option() {
    let nodes = [
        A,
        EMPTY,
        choice(0, 1),
        align(2),
        B,
        greater(4),
        sequence(3, 5),
    ];
    let two = from(2, 2, false);
    both(&nodes, &[b(2)], &two, clear(1, 2, 2, 0), fails(0));
    both(&nodes, &[b(3)], &two, fails(0), clear(1, 2, 2, 0));
    // If a was read the readings agree.
    both(
        &nodes,
        &[a(2), b(3)],
        &two,
        clear(2, 2, 2, 1),
        clear(2, 2, 2, 1),
    );
    both(&nodes, &[a(2), b(2)], &two, fails(1), fails(1));
}

/// 001, 2.4, third difference: "Indentation operators occurring inside this expression
/// and processed while the alignment flag is true are neglected." Case i, and a1.
#[test]
fn indent_in_an_align() {
    let nodes = [A, greater(0), align(1)];
    let one = from(1, 1, false);
    both(&nodes, &[a(4)], &one, fails(0), clear(1, 1, 1, 0));
    both(&nodes, &[a(1)], &one, clear(1, 1, 1, 0), fails(0));
    // Two of them: by 2017 a stands two columns in.
    let nodes = [A, greater(0), greater(1), align(2)];
    both(&nodes, &[a(1)], &one, clear(1, 1, 1, 0), fails(0));
    both(&nodes, &[a(2)], &one, fails(0), fails(0));
    both(&nodes, &[a(3)], &one, fails(0), clear(1, 1, 1, 0));
}

/// The same: "the indentations cancelled because of an alignment do not apply even to
/// the subsequent non-aligned tokens".
#[test]
fn tokens_after_the_aligned_one() {
    let nodes = [A, B, sequence(0, 1), greater(2), align(3)];
    let all = from(0, None, false);
    both(
        &nodes,
        &[a(2), b(2)],
        &all,
        clear(2, 2, 2, 1),
        clear(2, 0, 1, 1),
    );
    both(&nodes, &[a(0), b(0)], &all, clear(2, 0, 0, 1), fails(0));
    both(&nodes, &[a(2), b(3)], &all, fails(1), fails(1));
    // An indent behind the aligned token applies, within the block by 2014 as it is
    // without the cancelled one.
    let nodes = [A, B, greater(1), sequence(0, 2), greater(3), align(4)];
    let one = from(1, 1, false);
    both(&nodes, &[a(1), b(2)], &one, clear(2, 1, 1, 1), fails(0));
    both(&nodes, &[a(1), b(1)], &one, fails(1), fails(0));
    both(&nodes, &[a(2), b(3)], &one, fails(0), clear(2, 1, 1, 1));
    both(&nodes, &[a(2), b(2)], &one, fails(0), fails(1));
}

/// The same: "Distributivity of indentation and alignment fails in the semantics of
/// [3]", theorem 2.4 (3).
#[test]
fn indent_and_align_exchanged() {
    let all = from(0, None, false);
    let inside = [A, align(0), greater(1)];
    both(&inside, &[a(5)], &all, clear(1, 0, 4, 0), clear(1, 0, 4, 0));
    both(&inside, &[a(0)], &all, fails(0), fails(0));
    let around = [A, greater(0), align(1)];
    both(&around, &[a(5)], &all, clear(1, 5, 5, 0), clear(1, 0, 4, 0));
    both(&around, &[a(0)], &all, clear(1, 0, 0, 0), fails(0));
}

/// 001's toy example, case a, in mode equal with b under at least: the flag is clear at
/// each indent, so the readings agree.
#[test]
fn toy_example() {
    let nodes = [
        A,
        B,
        indent(1, relation::AT_LEAST),
        sequence(0, 2),
        align(3),
        greater(4),
    ];
    let all = from(0, None, false);
    both(
        &nodes,
        &[a(2), b(3)],
        &all,
        clear(2, 0, 1, 1),
        clear(2, 0, 1, 1),
    );
    both(&nodes, &[a(2), b(1)], &all, fails(1), fails(1));
    // From a set flag the outer indent is passed through by 2014.
    let all = from(0, None, true);
    both(
        &nodes,
        &[a(2), b(3)],
        &all,
        clear(2, 2, 2, 1),
        clear(2, 0, 1, 1),
    );
    both(&nodes, &[a(0), b(0)], &all, clear(2, 0, 0, 1), fails(0));
}

/// 001, 2.3: (a b) under greater, and a and b each under greater, on a1 b2.
#[test]
fn indent_over_a_sequence() {
    let tokens = [a(1), b(2)];
    let one = [A, B, sequence(0, 1), greater(2)];
    let each = [A, B, greater(0), greater(1), sequence(2, 3)];
    let all = from(0, None, false);
    both(&one, &tokens, &all, fails(1), fails(1));
    both(&each, &tokens, &all, clear(2, 0, 0, 1), clear(2, 0, 0, 1));
    // Under a set flag a is at the baseline by 2014, and b behind it.
    let all = from(0, None, true);
    both(&one, &tokens, &all, fails(1), fails(1));
    both(&each, &tokens, &all, clear(2, 1, 1, 1), clear(2, 0, 0, 1));
}

/// 000, 4.2: a, then (b under greater, or empty), on a1 b2 and on a3 b2; case f.
#[test]
fn biased_choice() {
    let nodes = [A, B, greater(1), EMPTY, choice(2, 3), sequence(0, 4)];
    for flag in [false, true] {
        let all = from(0, None, flag);
        both(
            &nodes,
            &[a(1), b(2)],
            &all,
            clear(2, 1, 1, 1),
            clear(2, 1, 1, 1),
        );
        both(
            &nodes,
            &[a(3), b(2)],
            &all,
            clear(1, 3, 3, 1),
            clear(1, 3, 3, 1),
        );
    }
}

/// 000, 4.2: a under greater from 1 to 2 takes a from 2 on, and leaves what is
/// compatible. "An exception to this is when we are parsing in absolute mode."
#[test]
fn absolute_mode() {
    let nodes = [A, greater(0)];
    let relative = from(1, 2, false);
    both(&nodes, &[a(1)], &relative, fails(0), fails(0));
    both(
        &nodes,
        &[a(2)],
        &relative,
        clear(1, 1, 1, 0),
        clear(1, 1, 1, 0),
    );
    both(
        &nodes,
        &[a(3)],
        &relative,
        clear(1, 1, 2, 0),
        clear(1, 1, 2, 0),
    );
    let absolute = from(1, 2, true);
    both(&nodes, &[a(0)], &absolute, fails(0), fails(0));
    both(&nodes, &[a(1)], &absolute, clear(1, 1, 1, 0), fails(0));
    both(
        &nodes,
        &[a(2)],
        &absolute,
        clear(1, 2, 2, 0),
        clear(1, 1, 1, 0),
    );
    both(&nodes, &[a(3)], &absolute, fails(0), clear(1, 1, 2, 0));
}

/// 000, 4.3: alts is a (Left or Right) and b (the remainder of the clause), each under
/// greater; iAlts is a repeat of aligned alts, under greater, from 1 to 1.
#[test]
fn example_derivation() {
    let nodes = [
        A,
        greater(0),
        B,
        greater(2),
        sequence(1, 3),
        rule(0),
        align(5),
        repeat(6),
        greater(7),
    ];
    // Each by the tokens read and the farthest place.
    let case = |tokens: &[[u32; 4]], by_2014: (u32, u32), by_2017: (u32, u32)| {
        let one = from(1, 1, false);
        let read = |(count, farthest)| clear(count, 1, 1, farthest);
        both_with(&nodes, &[4], tokens, &one, read(by_2014), read(by_2017));
    };
    // Left at 5, Right at 4: by 2014 "not an element of the indentation set {5}", while
    // by 2017 the first a leaves 2 to 4 as the clauses' column.
    case(&[a(5), b(7), a(4), b(6)], (2, 2), (4, 4));
    case(&[a(5), b(7), a(5), b(6)], (4, 4), (4, 4));
    // By 2014 the rest of the clause stands behind 5; by 2017 behind 2.
    case(&[a(5), b(6)], (2, 2), (2, 2));
    case(&[a(5), b(5)], (0, 1), (2, 2));
    // By 2014 the clause may stand at 2; by 2017 its tokens stand behind that.
    case(&[a(2), b(3)], (2, 2), (0, 0));
    case(&[a(1), b(3)], (0, 0), (0, 0));
}

/// Figure 6 gives the indent by the flag on the way in, whatever it is on the way out.
#[test]
fn flag_on_the_way_in() {
    // Clear on the way in, set on the way out: the relation is applied.
    let nodes = [EMPTY, align(0), greater(1)];
    let few = from(3, 5, false);
    both(&nodes, &[], &few, set(0, 3, 5, 0), clear(0, 3, 5, 0));
    let nodes = [EMPTY, align(0), step(1, 2)];
    both(&nodes, &[], &few, set(0, 3, 5, 0), clear(0, 3, 5, 0));
    // The flag then holds for what follows.
    let nodes = [EMPTY, align(0), greater(1), A, greater(3), sequence(2, 4)];
    both(&nodes, &[a(4)], &few, clear(1, 4, 4, 0), clear(1, 3, 3, 0));
    // Set inside, clear again at the end: the relation is applied.
    let nodes = [EMPTY, align(0), A, sequence(1, 2), greater(3)];
    both(&nodes, &[a(3)], &few, fails(0), fails(0));
    both(&nodes, &[a(6)], &few, clear(1, 3, 5, 0), clear(1, 3, 5, 0));
    // Set on the way in, clear on the way out: passed through.
    let nodes = [A, B, sequence(0, 1), greater(2)];
    let few = from(1, 3, true);
    both(
        &nodes,
        &[a(2), b(2)],
        &few,
        clear(2, 2, 2, 1),
        clear(2, 1, 1, 1),
    );
    // Clear at the outer indent and set at the inner one.
    let nodes = [EMPTY, align(0), A, greater(2), sequence(1, 3), greater(4)];
    let few = from(3, 5, false);
    both(&nodes, &[a(4)], &few, clear(1, 3, 3, 0), fails(0));
    both(&nodes, &[a(5)], &few, clear(1, 3, 4, 0), clear(1, 3, 3, 0));
}

/// "Not and failure hand the old state on", a clear flag with it.
#[test]
fn flag_of_the_old_state() {
    let all = from(0, None, false);
    let same = |nodes: &[Node], tokens: &[[u32; 4]], ran: Ran| both(nodes, tokens, &all, ran, ran);
    let start = [EMPTY, align(0), B, sequence(1, 2), A, greater(4)];
    // (Align of empty, then b), or a under greater.
    let nodes = [&start[..], &[choice(3, 5)]].concat();
    same(&nodes, &[a(1)], clear(1, 0, 0, 0));
    // Not (align of empty, then b), then a under greater.
    let nodes = [&start[..], &[not(3), sequence(6, 5)]].concat();
    same(&nodes, &[a(1)], clear(1, 0, 0, 0));
    // Repeat of (align of empty, then b), then a under greater.
    let nodes = [&start[..], &[repeat(3), sequence(6, 5)]].concat();
    same(&nodes, &[a(1)], clear(1, 0, 0, 0));
    same(&nodes, &[b(1), b(1), a(2)], clear(3, 1, 1, 2));
    same(&nodes, &[b(1), b(1), a(1)], fails(2));
    // Not of not of align of empty.
    same(
        &[EMPTY, align(0), not(1), not(2)],
        &[],
        clear(0, 0, None, 0),
    );
}

/// A choice keeps the flag that its alternative left, and a rule the one of its node.
#[test]
fn flag_of_the_new_state() {
    // Rule 0 is b, or align of empty; then a under greater.
    let nodes = [
        B,
        EMPTY,
        align(1),
        choice(0, 2),
        rule(0),
        A,
        greater(5),
        sequence(4, 6),
    ];
    let all = from(0, None, false);
    let case = |tokens: &[[u32; 4]], by_2014: Ran, by_2017: Ran| {
        both_with(&nodes, &[3], tokens, &all, by_2014, by_2017);
    };
    case(&[a(0)], clear(1, 0, 0, 0), fails(0));
    case(&[a(3)], clear(1, 3, 3, 0), clear(1, 0, 2, 0));
    case(&[b(1), a(3)], clear(2, 1, 1, 1), clear(2, 1, 1, 1));
    case(&[b(1), a(1)], fails(1), fails(1));
}

/// Under a set flag every relation passes 3 to 40 through, the steps too.
#[test]
fn every_relation() {
    let few = from(3, 40, true);
    for relation in 0..relation::COUNT {
        let nodes = [A, indent(0, relation)];
        let reads = |column: u32| {
            let tokens = a(column);
            let start = Start { node: 1, ..few };
            answer(nodes.as_flattened(), &[], &tokens, By2014, &start).0
        };
        for column in [3, 10, 40] {
            assert_eq!(reads(column), clear(1, column, column, 0));
        }
        assert_eq!(reads(2), fails(0));
        assert_eq!(reads(41), fails(0));
    }
    let equal = [A, indent(0, relation::EQUAL)];
    both(&equal, &[a(5)], &few, clear(1, 5, 5, 0), clear(1, 5, 5, 0));
    let at_least = [A, indent(0, relation::AT_LEAST)];
    both(
        &at_least,
        &[a(5)],
        &few,
        clear(1, 5, 5, 0),
        clear(1, 3, 5, 0),
    );
    both(&at_least, &[a(41)], &few, fails(0), clear(1, 3, 40, 0));
    let any = [A, indent(0, relation::ANY)];
    both(&any, &[a(5)], &few, clear(1, 5, 5, 0), clear(1, 3, 40, 0));
    both(&any, &[a(0)], &few, fails(0), clear(1, 3, 40, 0));
    let two = [A, step(0, 2)];
    both(&two, &[a(5)], &few, clear(1, 5, 5, 0), clear(1, 3, 3, 0));
    both(&two, &[a(4)], &few, clear(1, 4, 4, 0), fails(0));
    both(&two, &[a(42)], &few, fails(0), clear(1, 40, 40, 0));
    // By 2017 the inner set lies past all the columns.
    let last = from(65_530, 65_535, true);
    let most = [A, step(0, 31)];
    both(
        &most,
        &[a(65_535)],
        &last,
        clear(1, 65_535, 65_535, 0),
        fails(0),
    );
}

/// Rule 0 is a, then itself under greater, or empty. The node is an align of it under
/// greater: by 2014 the first a is at the baseline. The captures are the same.
#[test]
fn nested_blocks() {
    let nodes = [
        rule(0),
        greater(0),
        A,
        sequence(2, 1),
        EMPTY,
        choice(3, 4),
        align(1),
    ];
    let rules = [5];
    let tokens = [a(1), a(2), a(3), a(3)];
    let all = from(0, None, false);
    both_with(
        &nodes,
        &rules,
        &tokens,
        &all,
        clear(3, 1, 1, 3),
        clear(3, 0, 0, 3),
    );
    let captures = [[0, 0, 3, 0], [0, 1, 3, 1], [0, 2, 3, 2], [0, 3, 3, 3]];
    for reading in [By2014, By2017] {
        let start = Start { node: 6, ..all };
        let words = tokens.as_flattened();
        let (_, listed) = answer(nodes.as_flattened(), &rules, words, reading, &start);
        assert_eq!(listed, captures);
    }
    // From 1 to 1: by 2017 the first a, at 1, is not in, and the flag is as before,
    // while by 2014 an align that read nothing leaves it set.
    let one = from(1, 1, false);
    both_with(
        &nodes,
        &rules,
        &tokens,
        &one,
        clear(3, 1, 1, 3),
        clear(0, 1, 1, 0),
    );
    both_with(
        &nodes,
        &rules,
        &tokens[1..],
        &one,
        set(0, 1, 1, 0),
        clear(2, 1, 1, 2),
    );
}

/// "a position node anywhere in the table", whatever its relation, reachable or not.
#[test]
fn position_is_16() {
    for relation in 0..relation::COUNT {
        let nodes = [EMPTY, position(0, relation), EMPTY];
        for node in 0..3 {
            let start = Start::from_first(node, relation::EQUAL);
            let answer = |reading| answer(nodes.as_flattened(), &[], &[], reading, &start).0;
            assert_eq!(answer(By2014), Ran::Refused(16));
            assert_eq!(answer(By2017), clear(0, 0, None, 0));
        }
    }
    // The first node and the last that may be one.
    for place in [1, 511] {
        let mut nodes = [EMPTY; 512];
        nodes[place] = position(0, relation::EQUAL);
        let all = from(0, None, false);
        both(&nodes, &[], &all, Ran::Refused(16), clear(0, 0, None, 0));
    }
    // Where the run would fail.
    let nodes = [A, position(0, relation::EQUAL), B];
    let all = from(0, None, false);
    both(&nodes, &[a(0)], &all, Ran::Refused(16), fails(0));
    // No other kind is refused, nor the number 8 in another word.
    let nodes = [
        [EMPTY; 9].as_slice(),
        &[[kind::TERMINAL, kind::POSITION, 0, 0]],
        &[choice(kind::POSITION, kind::POSITION)],
        &[indent(kind::POSITION, kind::POSITION)],
    ];
    let nodes = nodes.concat();
    both(
        &nodes,
        &[],
        &all,
        clear(0, 0, None, 0),
        clear(0, 0, None, 0),
    );
}

/// "or a mode other than 0"; from 35 on a mode is 12.
#[test]
fn mode_is_16() {
    let modes = [
        (0, clear(0, 0, None, 0), clear(0, 0, None, 0)),
        (1, Ran::Refused(16), clear(0, 0, None, 0)),
        (2, Ran::Refused(16), clear(0, 0, None, 0)),
        (3, Ran::Refused(16), clear(0, 0, None, 0)),
        (4, Ran::Refused(16), clear(0, 0, None, 0)),
        (34, Ran::Refused(16), clear(0, 0, None, 0)),
        (35, Ran::Refused(12), Ran::Refused(12)),
        (u16::MAX, Ran::Refused(12), Ran::Refused(12)),
    ];
    for (mode, by_2014, by_2017) in modes {
        let start = Start::from_first(0, mode);
        both(&[EMPTY], &[], &start, by_2014, by_2017);
        // Under a set flag the mode plays no part, and is refused all the same.
        let start = Start {
            flag: true,
            ..start
        };
        let flag_kept = |ran| match ran {
            Ran::Success { .. } => set(0, 0, None, 0),
            refused => refused,
        };
        both(
            &[EMPTY],
            &[],
            &start,
            flag_kept(by_2014),
            flag_kept(by_2017),
        );
    }
    // Case a as it stands, in mode at least.
    let nodes = [A, B, sequence(0, 1), align(2), greater(3)];
    let start = Start::from_first(0, relation::AT_LEAST);
    both(
        &nodes,
        &[a(2), b(3)],
        &start,
        Ran::Refused(16),
        clear(2, 0, 1, 1),
    );
}

/// 3, 4, 5, 7, 11 and 12 come before 16, in both its cases.
#[test]
fn before_16() {
    let good = [EMPTY, position(0, relation::EQUAL)];
    let good = good.as_flattened();
    let start = Start::from_first(0, relation::GREATER);
    let by_2014 = |nodes: &[u16], rules: &[u16], tokens: &[u32], start: &Start| {
        answer(nodes, rules, tokens, By2014, start).0
    };
    assert_eq!(by_2014(good, &[], &[], &start), Ran::Refused(16));
    assert_eq!(by_2014(good, &[1], &a(0), &start), Ran::Refused(16));
    assert_eq!(by_2014(&good[..7], &[], &[], &start), Ran::Refused(3));
    assert_eq!(by_2014(good, &[0; 129], &[], &start), Ran::Refused(3));
    let over = [EMPTY, position(0, relation::COUNT)];
    let over = over.as_flattened();
    assert_eq!(by_2014(over, &[], &[], &start), Ran::Refused(4));
    assert_eq!(by_2014(good, &[2], &[], &start), Ran::Refused(5));
    let ill_formed = [EMPTY, repeat(0), position(0, relation::EQUAL)];
    let ill_formed = ill_formed.as_flattened();
    assert_eq!(by_2014(ill_formed, &[], &[], &start), Ran::IllFormed(1));
    // The position is the bad node: rule 0 is it, and it is over rule 0.
    let ill_formed = [EMPTY, rule(0), position(1, relation::EQUAL)];
    let ill_formed = ill_formed.as_flattened();
    assert_eq!(by_2014(ill_formed, &[2], &[], &start), Ran::IllFormed(1));
    assert_eq!(by_2014(good, &[], &[0; 3], &start), Ran::Refused(11));
    assert_eq!(by_2014(good, &[], &a(65_536), &start), Ran::Refused(11));
    let starts = [
        Start { node: 2, ..start },
        Start { place: 1, ..start },
        Start {
            lower: 5,
            upper: Some(4),
            ..start
        },
        Start {
            lower: 65_536,
            ..start
        },
        Start {
            upper: Some(65_536),
            ..start
        },
        Start {
            mode: relation::COUNT,
            ..start
        },
    ];
    for start in starts {
        assert_eq!(by_2014(good, &[], &[], &start), Ran::Refused(12));
    }
}

/// "after 12 and before 13": a rule to list, and no room for it.
#[test]
fn before_13() {
    let nodes = [EMPTY, rule(0), position(0, relation::EQUAL)];
    let listed = |nodes: &[Node], reading: Reading, mode: u16| {
        let start = Start::from_first(1, mode);
        let mut words = [9; 3];
        let listed = list(nodes.as_flattened(), &[0], &[], reading, &start, &mut words);
        assert_eq!(words, [9; 3]);
        listed
    };
    let (with, without) = (&nodes[..], &nodes[..2]);
    assert_eq!(listed(with, By2014, 0), Listed::Refused(16));
    assert_eq!(listed(with, By2017, 0), Listed::Refused(13));
    assert_eq!(listed(without, By2014, 0), Listed::Refused(13));
    assert_eq!(listed(without, By2017, 0), Listed::Refused(13));
    for mode in [1, 34] {
        assert_eq!(listed(without, By2014, mode), Listed::Refused(16));
        assert_eq!(listed(without, By2017, mode), Listed::Refused(13));
    }
    for reading in [By2014, By2017] {
        assert_eq!(listed(with, reading, 35), Listed::Refused(12));
    }
}

/// A grammar file of keywords and nodes that starts at the last node.
pub(super) fn file(keywords: &[&[u8]], nodes: &[Node], mode: u8) -> Vec<u8> {
    let mut file = vec![1, 0, 1, 1];
    for word in keywords {
        file.extend([2, 0, word.len() as u8]);
        file.extend(*word);
    }
    for [kind, a, b, relation] in nodes.iter().map(|node| node.map(|word| word as u8)) {
        file.extend([4, 0, 6, kind, 0, a, 0, b, relation]);
    }
    file.extend([5, 0, 3, 0, nodes.len() as u8 - 1, mode]);
    file
}

/// The program's line, within steps and without.
pub(super) fn prints(file: &[u8], report: &[u8], expected: &str) {
    let expected = expected.as_bytes();
    assert_eq!(line(file, report), expected);
    assert_eq!(line_within(file, report, 100).as_deref(), Some(expected));
}

/// The program runs by 2017: Note 5's example with keyword 0 for a.
#[test]
fn line_is_by_2017() {
    let nodes = [
        EMPTY,
        align(0),
        [kind::TERMINAL, 3, 0, 0],
        greater(2),
        sequence(1, 3),
    ];
    let file = file(&[b"a"], &nodes, 0);
    prints(&file, b"a", "failure 0\n");
    prints(&file, b"  a", "success 1 0 1 clear 0\n");
}

/// The columns below the last, and the last for itself and all beyond: the bits of a
/// set in `figure_6` and in `farthest`.
pub(super) const LAST: u32 = 63;

/// How j stands to i, 000 section 2.2 and 02 Note 1, where a set's numbers from `LAST`
/// on are all in it or all out.
pub(super) fn stands(relation: u16, j: u32, i: u32) -> bool {
    let beyond = j == LAST;
    match relation {
        0 => j == i,
        1 => j > i || beyond,
        2 => j >= i,
        3 => true,
        step => {
            let inner = i + u32::from(step) - 3;
            j == inner || beyond && inner > LAST
        }
    }
}

pub(super) fn bits(member: impl Fn(u32) -> bool) -> u64 {
    (0..=LAST).fold(0, |set, n| set | u64::from(member(n)) << n)
}

/// The ends of a set that is an interval.
pub(super) fn interval(set: u64) -> (u32, Option<u32>) {
    let (lower, over) = (set.trailing_zeros(), set.leading_zeros());
    assert_eq!(set.count_ones() + lower + over, 64, "no interval");
    (lower, (over > 0).then(|| LAST - over))
}

/// Figure 6 of 000, line by line: the number of tokens consumed, the set and the flag,
/// or `None` for failure.
fn figure_6(
    (nodes, rules): (&[Node], &[u16]),
    p: u16,
    w: &[[u32; 4]],
    i: u64,
    f: bool,
) -> Option<(usize, u64, bool)> {
    let parse = |p: u16, w: &[[u32; 4]], i: u64, f: bool| figure_6((nodes, rules), p, w, i, f);
    let then = |p1: u16, p2: u16| {
        let (n1, j, g) = parse(p1, w, i, f)?;
        let (n2, k, h) = parse(p2, &w[n1..], j, g)?;
        Some((n1 + n2, k, h))
    };
    let [kind, p1, p2, relation] = nodes[usize::from(p)];
    match kind {
        kind::EMPTY => Some((0, i, f)),
        kind::TERMINAL => {
            let [b, column, ..] = *w.first()?;
            let consumed = b == u32::from(p1) && i >> column & 1 == 1;
            consumed.then_some((1, 1 << column, false))
        }
        kind::RULE => parse(rules[usize::from(p1)], w, i, f),
        kind::SEQUENCE => then(p1, p2),
        kind::NOT => match parse(p1, w, i, f) {
            None => Some((0, i, f)),
            Some(_) => None,
        },
        kind::CHOICE => parse(p1, w, i, f).or_else(|| parse(p2, w, i, f)),
        kind::REPEAT => match parse(p1, w, i, f) {
            None => Some((0, i, f)),
            Some(_) => then(p1, p),
        },
        kind::INDENT if f => parse(p1, w, i, f),
        kind::INDENT => {
            let in_set = |set: u64, n: u32| set >> n & 1 == 1;
            let j = bits(|j| (0..=LAST).any(|n| in_set(i, n) && stands(relation, j, n)));
            let (n, j, f) = parse(p1, w, j, f)?;
            let left = |k: u32| (0..=LAST).any(|n| in_set(j, n) && stands(relation, n, k));
            Some((n, bits(|k| in_set(i, k) && left(k)), f))
        }
        _ => parse(p1, w, i, true),
    }
}

/// Small tables by chance, and what to run them on.
pub(super) struct Chance {
    pub seed: u64,
}

impl Chance {
    pub(super) fn below(&mut self, count: u64) -> u64 {
        // Knuth's constants; the high bits are the better ones.
        self.seed = self
            .seed
            .wrapping_mul(6_364_136_223_846_793_005)
            .wrapping_add(1_442_695_040_888_963_407);
        (self.seed >> 33) % count
    }

    /// A table that passes the check, of 4 to 12 nodes, and its two rules. Behind the
    /// first three nodes the kinds are drawn from those given.
    pub(super) fn table(&mut self, kinds: &[u16]) -> (Vec<Node>, [u16; 2]) {
        loop {
            let count = 4 + self.below(9);
            let rules = [self.below(count) as u16, self.below(count) as u16];
            let mut nodes = vec![EMPTY, A, B];
            while (nodes.len() as u64) < count {
                let mut child = || self.below(nodes.len() as u64) as u16;
                let (one, two) = (child(), child());
                let kind = kinds[self.below(kinds.len() as u64) as usize];
                nodes.push(match kind {
                    kind::RULE => rule(one % 2),
                    kind::SEQUENCE | kind::CHOICE => [kind, one, two, 0],
                    kind::INDENT | kind::POSITION => [kind, one, 0, self.relation()],
                    _ => [kind, one, 0, 0],
                });
            }
            if check(nodes.as_flattened(), &rules) == Verdict::Passes {
                return (nodes, rules);
            }
        }
    }

    pub(super) fn relation(&mut self) -> u16 {
        [0, 1, 1, 1, 2, 3, 4, 5][self.below(8) as usize]
    }

    /// Some tokens, their number and their columns below those given, and a start in
    /// mode equal.
    pub(super) fn tokens(
        &mut self,
        node: u16,
        counts: u64,
        columns: u64,
    ) -> (Vec<[u32; 4]>, Start) {
        let tokens: Vec<_> = (0..self.below(counts))
            .map(|_| [self.below(4) as u32 / 3, self.below(columns) as u32, 0, 0])
            .collect();
        let lower = self.below(4) as u32;
        let start = Start {
            node,
            place: self.below(tokens.len() as u64 + 1) as u32 / 2,
            lower,
            upper: (self.below(3) > 0).then_some(lower + self.below(4) as u32),
            flag: self.below(3) == 0,
            mode: relation::EQUAL,
        };
        (tokens, start)
    }
}

/// Small tables by chance, without positions: the ends, the sets and figure 6 agree by
/// 2014, and the ends and the sets by 2017. Enough of the answers tell the readings
/// apart. The farthest place is not in figure 6, and `farthest` compares it.
#[test]
fn tables_by_chance() {
    const KINDS: [u16; 16] = [2, 3, 3, 3, 3, 4, 5, 6, 7, 7, 7, 7, 9, 9, 9, 9];
    let mut chance = Chance { seed: 20_142_017 };
    let (mut apart, mut flags_apart, mut successes) = (0, 0, 0);
    for _ in 0..4_000 {
        let (nodes, rules) = chance.table(&KINDS);
        for _ in 0..6 {
            let (tokens, start) = chance.tokens(nodes.len() as u16 - 1, 5, 6);
            let words = (nodes.as_flattened(), tokens.as_flattened());
            let outcome = |reading| match answer(words.0, &rules, words.1, reading, &start).0 {
                Ran::Success {
                    read,
                    lower,
                    upper,
                    flag,
                    ..
                } => Some((read, lower, upper, flag)),
                Ran::Failure { .. } => None,
                refused => panic!("{refused:?}"),
            };
            let (by_2014, by_2017) = (outcome(By2014), outcome(By2017));

            let inside = |n: u32| start.lower <= n && start.upper.is_none_or(|upper| n <= upper);
            let rest = &tokens[start.place as usize..];
            let figure = figure_6((&nodes, &rules), start.node, rest, bits(inside), start.flag);
            let expected = figure.map(|(read, set, flag)| {
                let (lower, upper) = interval(set);
                (read as u32, lower, upper, flag)
            });
            assert_eq!(
                by_2014, expected,
                "{nodes:?} {rules:?} {tokens:?} {start:?}"
            );

            apart += u32::from(by_2014 != by_2017);
            successes += u32::from(by_2014.is_some() && by_2017.is_some());
            let left_set = [by_2014, by_2017].map(|end| end.is_some_and(|(.., flag)| flag));
            flags_apart += u32::from(left_set[0] != left_set[1]);
        }
    }
    // By the flag at the end, and by other things.
    assert!(flags_apart > 1_000 && apart - flags_apart > 400);
    assert!(successes > 8_000);
}
