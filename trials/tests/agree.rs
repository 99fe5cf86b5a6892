//! The two readings of the clauses on generated inputs, the scanner's two ways, both
//! readers on lists, shown texts and written files, and the generator's shares.

use std::thread;
use trials::generate::{
    file_input, report_input, run_input, run_input_by_2014, shown_input, write_input, Rng,
    RunInput, Stats, NEARLY,
};
use trials::ours;
use trials::second::sets::{self, ColumnSet, SetRan};
use trials::second::Reading::{self, By2014, By2017};
use trials::second::{
    check, line_within, list, list_within, next_token, read, run_within, scan, shown, text, write,
    Handed, Listed, Ran, Shown, Start, Value, Verdict,
};

/// Runs the work with a stack for deep runs.
fn with_stack(work: impl FnOnce() + Send + 'static) {
    thread::Builder::new()
        .stack_size(1 << 30)
        .spawn(work)
        .unwrap()
        .join()
        .unwrap();
}

/// Whether a set is the interval: at its ends, around them and far out.
fn is_interval(set: &ColumnSet, lower: u32, upper: Option<u32>) -> bool {
    let (lower, upper) = (u64::from(lower), upper.map(u64::from));
    let within = |n: u64| lower <= n && upper.is_none_or(|upper| n <= upper);
    let mut points = vec![0, 1, 65_535, 65_536, 1 << 20, u64::from(u32::MAX), 1 << 40];
    for end in [lower, upper.unwrap_or(lower)] {
        points.extend(end.saturating_sub(3)..end + 4);
    }
    !set.is_empty()
        && points.into_iter().all(|n| set.contains(n) == within(n))
        && set.runs() == [(lower, upper)]
}

/// More than a run on a generated input mostly takes.
const STEPS: u64 = 200_000;

/// What a run answers, as the run over sets does.
fn agreed(case: usize, input: &RunInput) -> Option<Ran> {
    let (nodes, rules, tokens, reading, start) = input.parts();
    let ran = run_within(nodes, rules, tokens, reading, start, STEPS);
    let set = sets::run_within(nodes, rules, tokens, reading, start, STEPS);
    let agree = match (&ran, &set) {
        (None, None) => true,
        (
            Some(Ran::Success {
                read,
                lower,
                upper,
                flag,
                farthest,
            }),
            Some(SetRan::Success {
                read: set_read,
                set,
                flag: set_flag,
                farthest: set_farthest,
            }),
        ) => {
            let alike = read == set_read && flag == set_flag && farthest == set_farthest;
            alike && is_interval(set, *lower, *upper)
        }
        (Some(Ran::Failure { farthest: one }), Some(SetRan::Failure { farthest: two })) => {
            one == two
        }
        (Some(Ran::Refused(one)), Some(SetRan::Refused(two))) => one == two,
        (Some(Ran::IllFormed(one)), Some(SetRan::IllFormed(two))) => one == two,
        _ => false,
    };
    assert!(agree, "case {case}: {input:?} gives {ran:?} and {set:?}");
    // The check says the same as the run's first checks.
    match (check(nodes, rules), &ran) {
        (Verdict::Refused(one), Some(Ran::Refused(two))) => assert_eq!(one, *two),
        (Verdict::IllFormed(one), Some(Ran::IllFormed(two))) => assert_eq!(one, *two),
        (Verdict::Passes, Some(Ran::IllFormed(_) | Ran::Refused(..=10))) => panic!("case {case}"),
        (Verdict::Passes, _) => {}
        _ => panic!("case {case}"),
    }
    ran
}

#[test]
fn sets_and_two_ends_agree() {
    with_stack(|| {
        let mut rng = Rng::new(1);
        let mut stats = Stats::default();
        for case in 0..20_000 {
            let input = run_input(&mut rng);
            stats.note_run(&input, agreed(case, &input).as_ref());
        }
        println!("{stats}");
        assert!(stats.share("run", "success") > 33.4);
        assert!(stats.share("run", "success, 2 or more read in layout") > 10.0);
        // About half have steps, and more than a fifth of the successes go through one.
        assert!((45.0..55.0).contains(&stats.share("run", "with steps")));
        let success = stats.share("run", "success");
        assert!(stats.share("run", "success, a token read by a step") > success / 5.0);
        assert!(stats.share("run", "success, an upper end past 65,535") > 0.5);
        assert!(stats.share("run", "failure, an upper end past 65,535") > 0.2);
        for (class, least) in [
            ("success, the farthest place at the token count", 15.0),
            ("success, the farthest place past its end", 2.0),
            ("failure, the farthest place at the token count", 3.0),
            ("failure, the farthest place past the start", 3.0),
        ] {
            assert!(stats.share("run", class) > least, "{class}");
        }
        for number in [3, 4, 5, 7, 11, 12] {
            assert!(
                stats.share("run", &format!("refused {number}")) > 0.3,
                "{number}"
            );
        }
    });
}

#[test]
fn sets_and_two_ends_agree_by_2014() {
    with_stack(|| {
        let mut rng = Rng::new(1);
        let mut stats = Stats::default();
        for case in 0..10_000 {
            let mut input = run_input_by_2014(&mut rng);
            assert_eq!(input.reading, By2014);
            let ran = agreed(case, &input);
            stats.note_run(&input, ran.as_ref());
            // Where nothing refuses the run, how the readings stand to each other.
            let Some(ran @ (Ran::Success { .. } | Ran::Failure { .. })) = ran else {
                continue;
            };
            input.reading = By2017;
            if let Some(other) = agreed(case, &input) {
                stats.note_readings(&ran, &other);
            }
        }
        println!("{stats}");
        for (class, least) in [
            ("success", 45.0),
            ("failure", 15.0),
            ("success, 2 or more read", 20.0),
            ("success, 2 or more read in layout", 15.0),
            ("success, a token read by a step", 3.0),
            ("success, an indent under a set flag", 15.0),
            ("failure, an indent under a set flag", 5.0),
            ("success, an align that handed on its own flag", 10.0),
            ("success, the flag set at the end", 10.0),
            ("success, the farthest place past its end", 3.0),
            ("failure, the farthest place past the start", 5.0),
            ("refused 16", 6.0),
            ("refused 16: a position in reach", 1.0),
            ("refused 16: a position out of reach", 1.0),
            ("refused 16: the mode", 1.0),
        ] {
            assert!(stats.share("run by 2014", class) > least, "{class}");
        }
        for number in [3, 4, 5, 7, 11, 12] {
            let class = format!("refused {number}");
            assert!(stats.share("run by 2014", &class) > 0.5, "{number}");
        }
        for (class, least) in [
            ("differ", 20.0),
            ("differ, in the tokens read", 3.0),
            ("differ, in the ends alone", 3.0),
            ("differ, in the flag", 5.0),
            ("differ, in the farthest place alone", 2.0),
            ("differ, success by 2014 alone", 3.0),
            ("differ, success by 2017 alone", 1.0),
        ] {
            assert!(stats.share("readings", class) > least, "{class}");
        }
    });
}

#[test]
fn files_of_every_answer() {
    let mut rng = Rng::new(2);
    let mut stats = Stats::default();
    for _ in 0..5_000 {
        let input = file_input(&mut rng);
        let answer = read(&input.file, input.node_room, input.rule_room);
        if let Ok(grammar) = &answer {
            assert!(!matches!(
                check(&grammar.nodes, &grammar.rules),
                Verdict::Refused(_)
            ));
        }
        stats.note_file(&input, &answer);
    }
    println!("{stats}");
    assert!(stats.share("file", "read") > 33.4);
    for number in 1..=6 {
        assert!(
            stats.share("file", &format!("refused {number}")) > 0.5,
            "{number}"
        );
    }
    for (class, least) in [
        ("read, 200 keywords or more, most alike", 0.3),
        ("read, fewer keywords, most alike", 0.8),
        ("read, most names alike", 0.8),
        ("refused 2, a keyword twice, far apart", 0.3),
        ("refused 2, a name twice, far apart", 0.1),
    ] {
        assert!(stats.share("file", class) > least, "{class}");
    }
    for what in NEARLY {
        let class = format!("read, two keywords alike but for {what}");
        assert!(stats.share("file", &class) > 0.3, "{what}");
    }
}

#[test]
fn reports_of_every_answer() {
    let mut rng = Rng::new(3);
    let mut stats = Stats::default();
    for _ in 0..5_000 {
        let input = report_input(&mut rng);
        let answer = scan(&input.file, &input.report, input.room);
        stats.note_report(&input, &answer);
        one_by_one(&input.file, &input.report);
    }
    println!("{stats}");
    for number in [1, 2, 8, 9, 10] {
        assert!(
            stats.share("report", &format!("refused {number}")) > 0.3,
            "{number}"
        );
    }
    for (class, least) in [
        ("bytes over 127", 50.0),
        ("a whole letter outside ASCII", 30.0),
        ("damaged UTF-8", 30.0),
        ("scanned, a keyword outside ASCII", 10.0),
        ("scanned, two keywords alike", 1.0),
    ] {
        assert!(stats.share("report", class) > least, "{class}");
    }
    for what in NEARLY {
        let class = format!("scanned, a keyword but for {what}");
        assert!(stats.share("report", &class) > 0.5, "{what}");
    }
}

/// The tokens one by one are those of the whole scan, up to where that refuses.
fn one_by_one(file: &[u8], report: &[u8]) {
    let whole = scan(file, report, usize::MAX);
    // Each call checks the whole text, so only some calls on long texts.
    let calls = if report.len() > 3_000 { 20 } else { usize::MAX };
    let mut value = Value {
        offset: 0,
        column: 0,
        had_token: false,
    };
    let mut given = Vec::new();
    for _ in 0..calls {
        let (handed, behind) = next_token(file, report, value);
        match handed {
            Handed::Token(token) => given.extend(token),
            Handed::Nothing => {
                assert_eq!(behind.offset, report.len());
                match &whole {
                    Ok(words) => assert_eq!(&given, words),
                    Err(number) => assert_eq!(*number, 10),
                }
                return;
            }
            Handed::Refused(number) => {
                assert_eq!(behind, value);
                assert_eq!(whole, Err(number));
                return;
            }
        }
        value = behind;
    }
    if let Ok(words) = &whole {
        assert_eq!(given, words[..given.len()]);
    }
}

#[test]
fn lines_of_every_answer() {
    with_stack(|| {
        let mut rng = Rng::new(4);
        let mut stats = Stats::default();
        for _ in 0..5_000 {
            let input = report_input(&mut rng);
            let Some(line) = line_within(&input.file, &input.report, 200_000) else {
                continue;
            };
            assert_eq!(line.last(), Some(&b'\n'));
            stats.note_line(&line);
        }
        println!("{stats}");
        assert!(stats.share("line", "success, 2 or more read") > 5.0);
    });
}

#[test]
fn the_same_seed_gives_the_same_inputs() {
    with_stack(|| {
        let (mut one, mut two) = (Rng::new(5), Rng::new(5));
        for _ in 0..200 {
            assert_eq!(run_input(&mut one), run_input(&mut two));
            assert_eq!(run_input_by_2014(&mut one), run_input_by_2014(&mut two));
            assert_eq!(file_input(&mut one), file_input(&mut two));
            assert_eq!(report_input(&mut one), report_input(&mut two));
            assert_eq!(shown_input(&mut one), shown_input(&mut two));
            assert_eq!(write_input(&mut one), write_input(&mut two));
        }
    });
}

/// What both readers answer by 2017, with every word of a slice of that length behind the call.
fn listed(
    nodes: &[u16],
    rules: &[u16],
    tokens: &[u32],
    start: &Start,
    room: usize,
) -> (Listed, Vec<u32>) {
    listed_by(By2017, nodes, rules, tokens, start, room)
}

/// The same by either reading.
fn listed_by(
    reading: Reading,
    nodes: &[u16],
    rules: &[u16],
    tokens: &[u32],
    start: &Start,
    room: usize,
) -> (Listed, Vec<u32>) {
    let mut words = vec![ours::TOKEN_WORD; room];
    let listed = list(nodes, rules, tokens, reading, start, &mut words);
    let both = (listed, words);
    assert_eq!(
        ours::list(nodes, rules, tokens, reading, start, room).as_ref(),
        Ok(&both),
        "{nodes:?} {rules:?} {tokens:?} {reading:?} {start:?}"
    );
    both
}

/// Rule 0 = (rule 1, b) / (rule 1, rule 2), rule 1 = a, rule 2 = not rule 1, then empty.
const FORKS: [[u16; 4]; 12] = [
    [1, 0, 0, 0],
    [1, 1, 0, 0],
    [0, 0, 0, 0],
    [2, 1, 0, 0],
    [2, 2, 0, 0],
    [3, 3, 1, 0],
    [3, 3, 4, 0],
    [4, 5, 6, 0],
    [5, 3, 0, 0],
    [3, 8, 2, 0],
    [2, 0, 0, 0],
    [6, 10, 0, 0],
];
const FORK_RULES: [u16; 3] = [7, 0, 9];

/// Tokens of these terminals, at column 0.
fn row(terminals: &[u32]) -> Vec<u32> {
    let tokens = terminals.iter().map(|&terminal| [terminal, 0, 0, 0]);
    tokens.collect::<Vec<_>>().concat()
}

/// A repeat of entries by both readers, lent every number of words.
#[test]
fn lists_with_every_room() {
    let nodes = FORKS.concat();
    let start = Start::from_first(11, 3);
    let any = |terminals: &[u32], room| listed(&nodes, &FORK_RULES, &row(terminals), &start, room);
    // a b, then a alone with the second alternative: the first one's capture is not kept,
    // nor are those of the not and of the last round.
    let captures = [
        [0, 0, 2, 0],
        [1, 0, 1, 1],
        [0, 2, 3, 0],
        [1, 2, 3, 1],
        [2, 3, 3, 1],
    ];
    for room in 0..30 {
        let (answer, words) = any(&[0, 1, 0], room);
        if room < 20 {
            assert_eq!(answer, Listed::Refused(13));
            assert_eq!(words, vec![ours::TOKEN_WORD; room]);
            continue;
        }
        let Listed::Success {
            read: 3,
            captures: 5,
            ..
        } = answer
        else {
            panic!("{answer:?}");
        };
        assert_eq!(words[..20], captures.concat());
        assert_eq!(words[20..], vec![0; room - 20]);
    }
    // No entry, and from an entry's own node a failure: no capture, and the words are 0.
    for room in 0..9 {
        let (answer, words) = any(&[1], room);
        assert!(matches!(answer, Listed::Success { captures: 0, .. }));
        assert_eq!(words, vec![0; room]);
        let entry = Start::from_first(10, 3);
        let (answer, words) = listed(&nodes, &FORK_RULES, &row(&[0, 0]), &entry, room);
        assert_eq!(
            (answer, words),
            (Listed::Failure { farthest: 1 }, vec![0; room])
        );
    }
}

/// A call refused by any number leaves the slice alone, and 13 comes last.
#[test]
fn refused_lists_write_nothing() {
    let nodes = FORKS.concat();
    let start = Start::from_first(11, 3);
    let good = row(&[0, 1]);
    let left_alone = |nodes: &[u16], rules: &[u16], tokens: &[u32], start: &Start| {
        let mut answers = Vec::new();
        for room in [0, 1, 3, 4, 7, 40] {
            let (answer, words) = listed(nodes, rules, tokens, start, room);
            assert_eq!(words, vec![ours::TOKEN_WORD; room]);
            answers.push(answer);
        }
        answers.dedup();
        answers
    };
    let with = |node: usize, words: [u16; 4]| {
        let mut nodes = FORKS;
        nodes[node] = words;
        nodes.concat()
    };
    let refused = |number| vec![Listed::Refused(number)];
    let cut = &nodes[..nodes.len() - 1];
    assert_eq!(left_alone(cut, &FORK_RULES, &good, &start), refused(3));
    let kind = with(2, [10, 0, 0, 0]);
    assert_eq!(left_alone(&kind, &FORK_RULES, &good, &start), refused(4));
    assert_eq!(left_alone(&nodes, &[7, 0, 12], &good, &start), refused(5));
    let itself = left_alone(&nodes, &[10, 0, 9], &good, &start);
    assert_eq!(itself, [Listed::IllFormed(10)]);
    let odd = left_alone(&nodes, &FORK_RULES, &good[..7], &start);
    assert_eq!(odd, refused(11));
    let past = Start { place: 3, ..start };
    assert_eq!(left_alone(&nodes, &FORK_RULES, &good, &past), refused(12));
    for room in 0..8 {
        let short = listed(&nodes, &FORK_RULES, &good, &start, room);
        let words = vec![ours::TOKEN_WORD; room];
        assert_eq!(short, (Listed::Refused(13), words));
    }
}

/// A grammar file with the rules first and second, both of them node 0.
const NAMED: &[u8] = b"\x01\0\x01\x01\x03\0\x07\0\0first\x03\0\x08\0\0second\
    \x04\0\x06\0\0\0\0\0\0\x05\0\x03\0\0\x03";

/// What both readers say of a capture, and the text that both show.
fn told<'a>(
    file: &'a [u8],
    report: &'a [u8],
    tokens: &[u32],
    capture: [u32; 4],
) -> (Shown, &'a [u8]) {
    let both = shown(file, report, tokens, capture);
    assert_eq!(ours::shown(file, report, tokens, capture), Ok(both));
    let bytes = text(file, report, tokens, capture);
    assert_eq!(ours::text(file, report, tokens, capture), Ok(bytes));
    (both, bytes)
}

#[test]
fn texts_and_numbers() {
    let report = b"aa bb cc";
    let tokens = [1, 0, 0, 2, 1, 3, 3, 2, 1, 6, 6, 2, 2, 8, 8, 0];
    let any = |rule, first, after| told(NAMED, report, &tokens, [rule, first, after, 7]);
    let part = |offset, length| Shown::InReport { offset, length };
    assert_eq!(any(0, 0, 1), (part(0, 2), &b"aa"[..]));
    assert_eq!(any(1, 1, 3), (part(3, 5), &b"bb cc"[..]));
    assert_eq!(any(1, 0, 4), (part(0, 8), &report[..]));
    assert_eq!(any(1, 3, 4), (part(8, 0), &b""[..]));
    for place in [0, 2, 4] {
        let name = Shown::InFile {
            offset: 9,
            length: 5,
        };
        assert_eq!(any(0, place, place), (name, &b"first"[..]));
        assert_eq!(any(1, place, place).1, b"second");
    }
    let refused = |number| (Shown::Refused(number), &b""[..]);
    let far = 1 << 30;
    for [rule, first, after] in [
        [2, 0, 1],
        [65_536, 0, 1],
        [u32::MAX, 0, 0],
        [0, 0, 5],
        [0, 5, 5],
        [0, 4, 5],
        [0, far, far],
        [0, far, far + 1],
        [0, 1, far + 2],
        [0, 2, 1],
        [0, 4, 0],
        [0, u32::MAX, 0],
    ] {
        assert_eq!(any(rule, first, after), refused(14));
    }
    // Offsets may be equal, and may not fall between the first token and the last; the last
    // token's end alone is looked at.
    let with = |token: usize, offset: u32, length: u32, first, after| {
        let mut tokens = tokens;
        tokens[4 * token + 2..][..2].copy_from_slice(&[offset, length]);
        let (shown, _) = told(NAMED, report, &tokens, [0, first, after, 0]);
        shown
    };
    assert_eq!(with(1, 0, 2, 0, 3), part(0, 8));
    assert_eq!(with(1, 7, 2, 0, 3), Shown::Refused(14));
    assert_eq!(with(1, 7, 2, 0, 1), part(0, 2));
    assert_eq!(with(0, 1, u32::MAX, 0, 2), part(1, 4));
    assert_eq!(with(2, 6, 3, 1, 3), Shown::Refused(14));
    assert_eq!(with(2, 6, u32::MAX - 3, 1, 3), Shown::Refused(14));
    assert_eq!(with(3, u32::MAX, 1, 3, 4), Shown::Refused(14));
    assert_eq!(with(3, 9, 0, 3, 4), Shown::Refused(14));
    // The file's numbers, then 8, then 11, then 14.
    let bad = [9, 5, 0, 0];
    assert_eq!(told(b"", b"\0", &[0; 3], bad), refused(1));
    assert_eq!(told(NAMED, b"\0", &[0; 3], bad), refused(8));
    assert_eq!(told(NAMED, report, &[0; 3], bad), refused(11));
    assert_eq!(told(NAMED, report, &[0; 4], bad), refused(14));
}

/// The file that both writers write, or the number of both. Every byte behind the file is
/// as before the call, and every byte if it is refused.
fn written(
    lending: &[u8],
    (nodes, rules): (&[u16], &[u16]),
    (node, mode): (u16, u16),
    room: usize,
) -> Result<Vec<u8>, u8> {
    let mut bytes = vec![ours::BYTE; room];
    let answer = write(lending, nodes, rules, node, mode, &mut bytes);
    let both = (answer, bytes);
    assert_eq!(
        ours::write(lending, nodes, rules, node, mode, room).as_ref(),
        Ok(&both),
        "{lending:?} {nodes:?} {rules:?} {node} {mode}"
    );
    let (answer, bytes) = both;
    let (file, behind) = bytes.split_at(answer.unwrap_or(0));
    assert_eq!(behind, vec![ours::BYTE; behind.len()]);
    answer.map(|_| file.to_vec())
}

/// Keyword `k`, rules first and second, nodes 0 and 1, start 1 in mode greater.
const LENDING: &[u8] = b"\x01\0\x01\x01\x02\0\x01k\x03\0\x07\0\0first\x03\0\x08\0\x01second\
    \x04\0\x06\x01\0\x03\0\0\0\x04\0\x06\x07\0\0\0\0\x22\x05\0\x03\0\x01\x01";

#[test]
fn writes_with_every_room() {
    // Its own tables and start.
    let own: [u16; 8] = [1, 3, 0, 0, 7, 0, 0, 34];
    // Three nodes, the last one a choice, and another start.
    let other = [2, 1, 0, 0, 1, 255, 0, 0, 4, 1, 0, 0];
    let file: &[u8] = b"\x01\0\x01\x01\x02\0\x01k\x03\0\x07\0\x02first\x03\0\x08\0\x01second\
        \x04\0\x06\x02\0\x01\0\0\0\x04\0\x06\x01\0\xff\0\0\0\x04\0\x06\x04\0\x01\0\0\0\
        \x05\0\x03\0\x02\x22";
    for room in 0..file.len() + 20 {
        let fits = |file: &[u8]| (room >= file.len()).then(|| file.to_vec()).ok_or(6);
        let again = written(LENDING, (&own, &[0, 1]), (1, 1), room);
        assert_eq!(again, fits(LENDING), "{room}");
        let made = written(LENDING, (&other, &[2, 1]), (2, 34), room);
        assert_eq!(made, fits(file), "{room}");
    }
}

/// The first 256 nodes are empty, so the last one's number and child have both bytes set.
#[test]
fn both_bytes_of_a_number() {
    let mut nodes = vec![0; 4 * 258];
    nodes.extend([6, 257, 0, 0]);
    let file = written(LENDING, (&nodes, &[258, 257]), (258, 0), 18_209).unwrap();
    assert_eq!(file[8..13], [3, 0, 7, 1, 2]);
    assert_eq!(file[18..23], [3, 0, 8, 1, 1]);
    let end = [4, 0, 6, 6, 1, 1, 0, 0, 0, 5, 0, 3, 1, 2, 0];
    assert!(file.ends_with(&end));
    assert_eq!(read(&file, 2_048, 128).unwrap().nodes, nodes);
}

/// Each number, before those that come after it: what is wrong is put right one by one.
#[test]
fn refused_writes_write_nothing() {
    let number = |lending: &[u8], tables: (&[u16], &[u16]), start: (u16, u16)| {
        let none = written(lending, tables, start, 0).unwrap_err();
        if none != 6 {
            assert_eq!(written(lending, tables, start, 100), Err(none));
        }
        none
    };
    let with = |at: usize, byte: u8| {
        let mut file = LENDING.to_vec();
        file[at] = byte;
        file
    };
    let length = LENDING.len();
    let wrong: (&[u16], &[u16]) = (&[10; 3], &[9; 129]);
    assert_eq!(number(b"", wrong, (9, 35)), 1);
    assert_eq!(number(&LENDING[..length - 1], wrong, (9, 35)), 1);
    assert_eq!(number(&with(7, b' '), wrong, (9, 35)), 2);
    let no_node = [&LENDING[..length - 24], &LENDING[length - 6..]].concat();
    assert_eq!(number(&no_node, (&[10; 4], &[9]), (9, 35)), 3);
    assert_eq!(number(&with(length - 22, 5), wrong, (9, 35)), 1);
    assert_eq!(number(&with(length - 21, 10), wrong, (9, 35)), 4);
    assert_eq!(number(&with(12, 2), wrong, (9, 35)), 5);
    assert_eq!(number(&with(length - 2, 2), wrong, (9, 35)), 5);
    assert_eq!(number(&with(length - 1, 35), wrong, (9, 35)), 5);
    let whole = |tables: (&[u16], &[u16]), start| number(LENDING, tables, start);
    assert_eq!(whole((&[10; 3], &[9]), (9, 35)), 3);
    assert_eq!(whole((&[10; 4], &[9; 129]), (9, 35)), 3);
    assert_eq!(whole((&[10; 4], &[9]), (9, 35)), 4);
    assert_eq!(whole((&[0; 4], &[9]), (0, 0)), 5);
    assert_eq!(whole((&[0; 4], &[0]), (1, 0)), 5);
    assert_eq!(whole((&[0; 4], &[0]), (0, 35)), 5);
    assert_eq!(whole((&[0; 4], &[0]), (0, 0)), 15);
    assert_eq!(whole((&[0; 4], &[0; 3]), (0, 0)), 15);
    assert_eq!(whole((&[0; 4], &[]), (0, 0)), 15);
    assert_eq!(whole((&[0; 4], &[0; 2]), (0, 0)), 6);
    // Not well formed, which no check of the writer asks for.
    assert_eq!(whole((&[2, 0, 0, 0], &[0; 2]), (0, 0)), 6);
    assert!(written(LENDING, (&[2, 0, 0, 0], &[0; 2]), (0, 0), 100).is_ok());
}

#[test]
fn writes_of_every_answer() {
    let mut rng = Rng::new(9);
    let mut stats = Stats::default();
    for _ in 0..5_000 {
        let input = write_input(&mut rng);
        let tables = (&input.nodes[..], &input.rules[..]);
        let file = written(&input.lending, tables, (input.node, input.mode), input.room);
        stats.note_write(&input, &file);
    }
    println!("{stats}");
    assert!(stats.share("write", "written") > 50.0);
    for number in [1, 2, 3, 4, 5, 6, 15] {
        let class = format!("refused {number}");
        assert!(stats.share("write", &class) > 1.5, "{number}");
    }
    for (class, least) in [
        ("written, the lending file again", 10.0),
        ("written, not well formed", 5.0),
        ("written, room for it alone", 15.0),
        ("written, 10,000 bytes or more", 0.5),
        ("refused, two faults or more", 8.0),
        ("refused, the lending file and the tables", 1.5),
        ("refused, the tables and 15", 2.0),
        ("refused, 15 and 6", 1.0),
    ] {
        assert!(stats.share("write", class) > least, "{class}");
    }
}

#[test]
fn lists_of_every_answer() {
    with_stack(|| {
        let mut rng = Rng::new(7);
        let mut stats = Stats::default();
        for case in 0..15_000 {
            let input = match case % 3 {
                0 => run_input_by_2014(&mut rng),
                _ => run_input(&mut rng),
            };
            let (nodes, rules, tokens, reading, start) = input.parts();
            let mut words = vec![ours::TOKEN_WORD; input.room];
            if list_within(nodes, rules, tokens, reading, start, &mut words, STEPS).is_none() {
                continue;
            }
            let (answer, words) = listed_by(reading, nodes, rules, tokens, start, input.room);
            stats.note_list(reading, &answer, &words);
        }
        println!("{stats}");
        for part in ["list", "list by 2014"] {
            assert!(stats.share(part, "captures") > 18.0);
            assert!(stats.share(part, "captures, more than 2 around one") > 8.0);
            assert!(stats.share(part, "captures, one that read no token") > 5.0);
            assert!(stats.share(part, "refused 13") > 8.0);
        }
        assert!(stats.share("list by 2014", "refused 16") > 6.0);
    });
}

#[test]
fn texts_of_every_answer() {
    with_stack(|| {
        let mut rng = Rng::new(8);
        let mut stats = Stats::default();
        for _ in 0..5_000 {
            let input = shown_input(&mut rng);
            let (place, _) = told(&input.file, &input.report, &input.tokens, input.capture);
            stats.note_shown(&input, &place);
        }
        println!("{stats}");
        for class in [
            "one token",
            "2 or more tokens",
            "a name",
            "a name, at the token count",
        ] {
            assert!(stats.share("shown", class) > 4.0, "{class}");
        }
        for number in [1, 2, 3, 4, 5, 8, 11] {
            let class = format!("refused {number}");
            assert!(stats.share("shown", &class) > 0.2, "{number}");
        }
        for why in [
            "the rule",
            "a token place",
            "the first after the last",
            "an offset",
            "the end",
        ] {
            let class = format!("refused 14: {why}");
            assert!(stats.share("shown", &class) > 1.0, "{why}");
        }
    });
}

/// 01 "Well formed" once more, word for word: every fact and every node's standing
/// from those of the round before, round upon round until nothing changes.
fn slow_check(nodes: &[u16], rules: &[u16]) -> Verdict {
    let count = nodes.len() / 4;
    let word = |node: usize, word: usize| usize::from(nodes[4 * node + word]);
    // The child of a kind with one, the rule's node for a rule.
    let child = |node: usize| match word(node, 0) {
        2 => usize::from(rules[word(node, 1)]),
        _ => word(node, 1),
    };
    let mut nothing = vec![false; count];
    let mut something = vec![false; count];
    let mut fails = vec![false; count];
    loop {
        let (n, s, f) = (nothing.clone(), something.clone(), fails.clone());
        for node in 0..count {
            let (a, b) = (child(node), word(node, 2));
            let (no, some, fail) = match word(node, 0) {
                0 => (true, false, false),
                1 => (false, true, true),
                3 => (
                    n[a] && n[b],
                    (n[a] || s[a]) && (n[b] || s[b]) && (s[a] || s[b]),
                    f[a] || ((n[a] || s[a]) && f[b]),
                ),
                4 => (n[a] || (f[a] && n[b]), s[a] || (f[a] && s[b]), f[a] && f[b]),
                5 => (f[a], false, n[a] || s[a]),
                6 => (f[a], s[a], false),
                _ => (n[a], s[a], f[a]),
            };
            nothing[node] = no;
            something[node] = some;
            fails[node] = fail;
        }
        if (&n, &s, &f) == (&nothing, &something, &fails) {
            break;
        }
    }
    let mut well = vec![false; count];
    loop {
        let w = well.clone();
        for (node, well) in well.iter_mut().enumerate() {
            let (a, b) = (child(node), word(node, 2));
            *well = match word(node, 0) {
                0 | 1 => true,
                3 => w[a] && (!nothing[a] || w[b]),
                4 => w[a] && w[b],
                6 => w[a] && !nothing[a],
                _ => w[a],
            };
        }
        if w == well {
            break;
        }
    }
    match well.iter().position(|well| !well) {
        Some(node) => Verdict::IllFormed(node as u16),
        None => Verdict::Passes,
    }
}

#[test]
fn the_check_and_a_slow_one_agree() {
    with_stack(|| {
        let mut rng = Rng::new(6);
        let (mut passed, mut bad) = (0, 0);
        for _ in 0..5_000 {
            let mut input = run_input(&mut rng);
            // Other rules now and then, to come by more of both verdicts.
            if rng.chance(50) && !input.rules.is_empty() && input.nodes.len() >= 4 {
                let rule = rng.below(input.rules.len());
                input.rules[rule] = rng.below(input.nodes.len() / 4) as u16;
            }
            let verdict = check(&input.nodes, &input.rules);
            if matches!(verdict, Verdict::Refused(_)) {
                continue;
            }
            assert_eq!(verdict, slow_check(&input.nodes, &input.rules), "{input:?}");
            if verdict == Verdict::Passes {
                passed += 1;
            } else {
                bad += 1;
            }
        }
        println!("{passed} pass, {bad} not well formed");
        assert!(passed > 1_000 && bad > 500);
    });
}
