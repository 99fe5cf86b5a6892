//! The limits, from both sides.

use trials::second::Reading::By2017;
use trials::second::{check, read, run, scan, sets, write, Ran, Start, Verdict};

fn field(tag: u8, value: &[u8]) -> Vec<u8> {
    let length = (value.len() as u16).to_be_bytes();
    [&[tag], &length[..], value].concat()
}

const HEAD: &[u8] = &[1, 0, 1, 1];
const EMPTY_NODE: &[u8] = &[4, 0, 6, 0, 0, 0, 0, 0, 0];
const START: &[u8] = &[5, 0, 3, 0, 0, 0];

fn file(fields: &[Vec<u8>], nodes: usize) -> Vec<u8> {
    [HEAD, &fields.concat(), &EMPTY_NODE.repeat(nodes), START].concat()
}

fn number(file: &[u8]) -> u8 {
    read(file, 2_048, 128).err().unwrap_or(0)
}

#[test]
fn file_order_and_lengths() {
    let good = file(&[], 1);
    assert_eq!(number(&good), 0);
    // Every proper beginning is cut short or lacks tag 5.
    for end in 0..good.len() {
        assert_eq!(number(&good[..end]), 1);
    }
    // Bytes behind tag 5.
    assert_eq!(number(&[&good[..], &[0]].concat()), 1);
    assert_eq!(number(&[&good[..], START].concat()), 1);
    assert_eq!(number(&[HEAD, HEAD, EMPTY_NODE, START].concat()), 1);
    assert_eq!(number(&[EMPTY_NODE, START].concat()), 1);
    assert_eq!(number(&[HEAD, EMPTY_NODE].concat()), 1);
    assert_eq!(number(&[&[1, 0, 1, 2], EMPTY_NODE, START].concat()), 1);
    assert_eq!(number(&[&[1, 0, 2, 1, 1], EMPTY_NODE, START].concat()), 1);
    let word = field(2, b"k");
    let rule = field(3, &[0, 0, b'r']);
    assert_eq!(number(&file(&[word.clone(), rule.clone()], 1)), 0);
    assert_eq!(number(&file(&[rule.clone(), word.clone()], 1)), 1);
    assert_eq!(number(&[HEAD, EMPTY_NODE, &word, START].concat()), 1);
    assert_eq!(number(&file(&[field(0, b"")], 1)), 1);
    assert_eq!(number(&file(&[field(6, b"")], 1)), 1);
    assert_eq!(number(&file(&[field(3, &[0])], 1)), 1);
    assert_eq!(number(&file(&[field(3, &[0, 0])], 1)), 2);
    assert_eq!(number(&file(&[field(2, &[])], 1)), 2);
    assert_eq!(number(&file(&[field(4, &[0; 5])], 1)), 1);
    assert_eq!(number(&file(&[field(4, &[0; 7])], 1)), 1);
    assert_eq!(number(&[HEAD, EMPTY_NODE, &field(5, &[0; 2])].concat()), 1);
    assert_eq!(number(&[HEAD, EMPTY_NODE, &field(5, &[0; 4])].concat()), 1);
    // 1 behind a 2 comes first.
    assert_eq!(number(&[HEAD, &field(2, b""), EMPTY_NODE].concat()), 1);
}

#[test]
fn words() {
    let keyword = |word: &[u8]| number(&file(&[field(2, word)], 1));
    let name = |word: &[u8]| number(&file(&[field(3, &[&[0, 0], word].concat())], 1));
    assert_eq!(keyword(&[b'k'; 32]), 0);
    assert_eq!(keyword(&[b'k'; 33]), 2);
    assert_eq!(name(&[b'k'; 32]), 0);
    assert_eq!(name(&[b'k'; 33]), 2);
    for byte in 0..=255u8 {
        let bad = byte <= 32 || byte == 127;
        let single = b":,()[]=;%".contains(&byte);
        assert_eq!(keyword(&[byte]) == 2, bad, "{byte}");
        assert_eq!(keyword(&[b'k', byte]) == 2, bad || single, "{byte}");
        assert_eq!(keyword(&[byte, b'k']) == 2, bad || single, "{byte}");
        assert_eq!(name(&[byte]) == 2, bad, "{byte}");
        assert_eq!(name(&[b'k', byte]) == 2, bad, "{byte}");
    }
    // Distinct within their tag, not across tags.
    let twice = [field(2, b"k"), field(2, b"j"), field(2, b"k")];
    assert_eq!(number(&file(&twice, 1)), 2);
    let rule = |name: u8| field(3, &[0, 0, name]);
    assert_eq!(number(&file(&[rule(b'k'), rule(b'j'), rule(b'k')], 1)), 2);
    assert_eq!(number(&file(&[field(2, b"k"), rule(b'k')], 1)), 0);
}

#[test]
fn counts_in_a_file() {
    let keywords = |count: usize| {
        let words: Vec<_> = (0..count)
            .map(|k| field(2, format!("k{k}").as_bytes()))
            .collect();
        file(&words, 1)
    };
    assert_eq!(
        read(&keywords(253), 4, 0).map(|read| read.keywords),
        Ok(253)
    );
    assert_eq!(number(&keywords(254)), 1);
    // The last keyword has the last terminal.
    let tokens = scan(&keywords(253), b"k252", 16_384).unwrap();
    assert_eq!(tokens[0], 255);
    let rules = |count: usize| {
        let rules: Vec<_> = (0..count)
            .map(|rule| field(3, &[&[0, 0], format!("r{rule}").as_bytes()].concat()))
            .collect();
        file(&rules, 1)
    };
    assert_eq!(number(&rules(128)), 0);
    assert_eq!(number(&rules(129)), 3);
    assert_eq!(read(&rules(128), 4, 127), Err(6));
    assert_eq!(number(&file(&[], 512)), 0);
    assert_eq!(number(&file(&[], 513)), 3);
    assert_eq!(read(&file(&[], 512), 2_047, 0), Err(6));
    assert_eq!(number(&file(&[], 0)), 3);
    // 65,535 bytes are over the nodes, 65,536 over the length.
    let long = |name: usize| {
        let value = [vec![0, 0], vec![b'n'; name]].concat();
        file(&[field(3, &value)], 7_279)
    };
    assert_eq!(long(9).len(), 65_535);
    assert_eq!(number(&long(9)), 3);
    assert_eq!(number(&long(10)), 1);
    // The start.
    let started = |start: &[u8]| number(&[HEAD, EMPTY_NODE, &field(5, start)].concat());
    assert_eq!(started(&[0, 0, 3]), 0);
    assert_eq!(started(&[0, 0, 4]), 0);
    assert_eq!(started(&[0, 0, 34]), 0);
    assert_eq!(started(&[0, 0, 35]), 5);
    assert_eq!(started(&[0, 0, 255]), 5);
    assert_eq!(started(&[0, 1, 0]), 5);
    assert_eq!(started(&[255, 255, 0]), 5);
}

#[test]
fn table_checks() {
    let refused = |nodes: &[u16], rules: &[u16], number: u8| {
        assert_eq!(check(nodes, rules), Verdict::Refused(number));
    };
    let passes = |nodes: &[u16], rules: &[u16]| {
        assert_eq!(check(nodes, rules), Verdict::Passes, "{nodes:?}");
    };
    for words in [1, 2, 3, 5] {
        refused(&vec![0; words], &[], 3);
    }
    passes(&[0; 2_048], &[511; 128]);
    refused(&[0; 2_052], &[], 3);
    refused(&[0; 4], &[0; 129], 3);
    refused(&[0; 4], &[1; 129], 3);
    refused(&[0; 8], &[0, 2], 5);
    refused(&[10, 0, 0, 0], &[1], 4);
    passes(&[1, 255, 0, 0], &[]);
    refused(&[1, 256, 0, 0], &[], 4);
    passes(&[0, 0, 0, 0, 2, 1, 0, 0], &[0, 0]);
    refused(&[0, 0, 0, 0, 2, 2, 0, 0], &[0, 0], 4);
    refused(&[2, 0, 0, 0], &[], 4);
    // Each kind over a terminal as node 0: the words that it uses, and the others.
    for kind in 0..10u16 {
        let (a, b, relation) = match kind {
            0 => (false, false, false),
            1 => (true, false, false),
            2 => (true, false, false),
            3 | 4 => (true, true, false),
            7 | 8 => (true, false, true),
            _ => (true, false, false),
        };
        let with = |a: u16, b: u16, relation: u16| [1, 9, 0, 0, kind, a, b, relation];
        passes(&with(0, 0, 0), &[0]);
        if !a {
            refused(&with(1, 0, 0), &[0], 4);
        } else if kind > 2 {
            refused(&with(1, 0, 0), &[0], 4);
            refused(&with(2, 0, 0), &[0], 4);
        }
        refused(&with(0, 1, 0), &[0], 4);
        if b {
            refused(&with(0, 2, 0), &[0], 4);
        }
        if relation {
            (0..35).for_each(|relation| passes(&with(0, 0, relation), &[0]));
            for relation in [35, 36, 255, 256, 65_535] {
                refused(&with(0, 0, relation), &[0], 4);
            }
        } else {
            for relation in [1, 4, 34, 35] {
                refused(&with(0, 0, relation), &[0], 4);
            }
        }
    }
}

#[test]
fn order_of_the_runs_checks() {
    let start = Start {
        node: 0,
        place: 0,
        lower: 0,
        upper: None,
        flag: false,
        mode: 0,
    };
    let bad_start = Start { mode: 35, ..start };
    let rule = [2, 0, 0, 0];
    assert_eq!(
        run(&[10; 3], &[9], &[0; 3], By2017, &bad_start),
        Ran::Refused(3)
    );
    assert_eq!(
        run(&[10; 4], &[9], &[0; 3], By2017, &bad_start),
        Ran::Refused(4)
    );
    assert_eq!(
        run(&rule, &[9], &[0; 3], By2017, &bad_start),
        Ran::Refused(5)
    );
    assert_eq!(
        run(&rule, &[0], &[0; 3], By2017, &bad_start),
        Ran::IllFormed(0)
    );
    assert_eq!(
        run(&[0; 4], &[0], &[0; 3], By2017, &bad_start),
        Ran::Refused(11)
    );
    assert_eq!(
        run(&[0; 4], &[0], &[0; 4], By2017, &bad_start),
        Ran::Refused(12)
    );
}

#[test]
fn tokens_and_starts() {
    let start = Start {
        node: 1,
        place: 0,
        lower: 0,
        upper: None,
        flag: false,
        mode: 3,
    };
    // A repeat of terminal 7.
    let nodes = [1, 7, 0, 0, 6, 0, 0, 0];
    let row = |count: usize| [7, 65_535, u32::MAX, u32::MAX].repeat(count);
    let went = |tokens: &[u32], start: Start| match run(&nodes, &[], tokens, By2017, &start) {
        Ran::Success { read, .. } => Ok(read),
        Ran::Refused(number) => Err(number),
        other => panic!("{other:?}"),
    };
    // "4,096 tokens are read, 4,097 refused."
    assert_eq!(went(&row(4_096), start), Ok(4_096));
    assert_eq!(went(&row(4_097), start), Err(11));
    assert_eq!(went(&[255, 0, 0, 0], start), Ok(0));
    assert_eq!(went(&[256, 0, 0, 0], start), Err(11));
    assert_eq!(went(&[7, 65_536, 0, 0], start), Err(11));
    for words in [1, 2, 3, 5, 7] {
        assert_eq!(went(&vec![0; words], start), Err(11));
    }
    let from = |change: fn(&mut Start)| {
        let mut start = start;
        change(&mut start);
        went(&row(4), start)
    };
    assert_eq!(from(|start| start.place = 4), Ok(0));
    assert_eq!(from(|start| start.place = 3), Ok(1));
    assert_eq!(from(|start| start.place = 5), Err(12));
    assert_eq!(from(|start| start.place = u32::MAX), Err(12));
    assert_eq!(from(|start| start.node = 2), Err(12));
    assert_eq!(from(|start| start.mode = 4), Ok(4));
    assert_eq!(from(|start| start.mode = 34), Ok(4));
    assert_eq!(from(|start| start.mode = 35), Err(12));
    assert_eq!(from(|start| start.mode = 65_535), Err(12));
    assert_eq!(from(|start| start.lower = 65_535), Ok(4));
    assert_eq!(from(|start| start.lower = 65_536), Err(12));
    assert_eq!(from(|start| start.upper = Some(65_535)), Ok(4));
    assert_eq!(from(|start| start.upper = Some(65_536)), Err(12));
    assert_eq!(
        from(|start| {
            start.lower = 65_536;
            start.upper = Some(65_537);
        }),
        Err(12)
    );
    assert_eq!(
        from(|start| {
            start.lower = 5;
            start.upper = Some(5);
        }),
        Ok(4)
    );
}

/// "Numbers 4, 5 and 12 begin at relation or mode 35": the file's 4 and 5 in order.
#[test]
fn relations_in_a_file() {
    for kind in [7, 8] {
        let made = |relation: u8, mode: u8| {
            let over = field(4, &[kind, 0, 0, 0, 0, relation]);
            let start = field(5, &[0, 1, mode]);
            [HEAD, EMPTY_NODE, &over, &start].concat()
        };
        assert_eq!(number(&made(34, 34)), 0);
        assert_eq!(number(&made(35, 34)), 4);
        assert_eq!(number(&made(34, 35)), 5);
        assert_eq!(number(&made(35, 35)), 4);
        assert_eq!(number(&made(255, 0)), 4);
        assert_eq!(scan(&made(35, 34), b"\0", 0), Err(4));
        assert_eq!(scan(&made(34, 35), b"\0", 0), Err(5));
        let kept = read(&made(34, 33), 8, 0).unwrap();
        assert_eq!((kept.nodes[7], kept.mode), (34, 33));
    }
}

/// Numbers 4 and 12 of a run, by both readings of the clauses.
#[test]
fn relations_in_a_run() {
    let ran = |relation: u16, mode: u16| {
        let nodes = [0, 0, 0, 0, 7, 0, 0, relation, 8, 0, 0, relation];
        let start = Start::from_first(1, mode);
        let ran = run(&nodes, &[], &[], By2017, &start);
        match (ran, sets::run(&nodes, &[], &[], By2017, &start)) {
            (Ran::Success { .. }, sets::SetRan::Success { .. }) => 0,
            (Ran::Refused(one), sets::SetRan::Refused(two)) if one == two => one,
            other => panic!("{other:?}"),
        }
    };
    for good in 0..35 {
        assert_eq!(ran(good, 34), 0);
        assert_eq!(ran(34, good), 0);
    }
    for bad in [35, 36, 255, 65_535] {
        assert_eq!(ran(bad, 34), 4);
        assert_eq!(ran(34, bad), 12);
        assert_eq!(ran(bad, bad), 4);
    }
}

/// A file with so many keywords, and rules at node 0, all of 32 bytes.
fn long_words(keywords: usize, rules: usize) -> Vec<u8> {
    let word = |head: char, i: usize| format!("{head:x<29}{i:03}").into_bytes();
    let rule = |i| field(3, &[vec![0, 0], word('r', i)].concat());
    let keywords = (0..keywords).map(|i| field(2, &word('k', i)));
    let fields: Vec<_> = keywords.chain((0..rules).map(rule)).collect();
    file(&fields, 1)
}

/// The longest file has 18,209 bytes, the shortest 19.
#[test]
fn lengths_of_written_files() {
    let longest = long_words(253, 128);
    let length = |room: usize| {
        let (nodes, rules) = ([0; 2_048], [511; 128]);
        write(&longest, &nodes, &rules, 511, 34, &mut vec![0; room])
    };
    assert_eq!(length(18_208), Err(6));
    assert_eq!(length(18_209), Ok(18_209));
    assert_eq!(length(65_536), Ok(18_209));
    let shortest = |room: usize| write(&file(&[], 512), &[0; 4], &[], 0, 0, &mut vec![0; room]);
    assert_eq!(shortest(18), Err(6));
    assert_eq!(shortest(19), Ok(19));
}

/// "then the new one, then 6", and 5 of the start's limits.
#[test]
fn writer_checks() {
    let lending = long_words(2, 64);
    let number = |rules: usize, node: u16, mode: u16| {
        let rules = vec![0; rules];
        let in_room = |room| write(&lending, &[0; 12], &rules, node, mode, &mut vec![0; room]);
        let short = in_room(0).unwrap_err();
        assert_eq!(
            in_room(18_209).err(),
            Some(short).filter(|&short| short != 6)
        );
        short
    };
    for (rules, expected) in [(64, 6), (63, 15), (65, 15), (0, 15), (128, 15), (129, 3)] {
        assert_eq!(number(rules, 2, 34), expected);
    }
    for node in [3, 4, 256, 512, 65_535] {
        assert_eq!(number(64, node, 0), 5);
        assert_eq!(number(63, node, 0), 5);
    }
    for mode in [35, 36, 255, 256, 257, 65_535] {
        assert_eq!(number(64, 0, mode), 5);
        assert_eq!(number(63, 0, mode), 5);
    }
}

#[test]
fn scanner_limits() {
    let plain = file(&[], 1);
    let scanned = |text: &[u8]| scan(&plain, text, 16_384).map(|words| words.len() / 4);
    assert_eq!(scanned(&b" ".repeat(65_535)), Ok(0));
    assert_eq!(scanned(&b"\t".repeat(65_535)), Ok(0));
    assert_eq!(scanned(&b" ".repeat(65_536)), Err(8));
    for byte in 0..=255u8 {
        let refused = (byte < 32 && ![9, 10, 13].contains(&byte)) || byte == 127;
        assert_eq!(scanned(&[byte]) == Err(8), refused, "{byte}");
    }
    // The line's end counts and has a column too.
    assert_eq!(scanned(&b":".repeat(4_095)), Ok(4_096));
    assert_eq!(scanned(&b":".repeat(4_096)), Err(10));
    let far = |tail: &[u8]| [&b"\t".repeat(8_191)[..], tail].concat();
    assert_eq!(scanned(&far(b"      a")), Ok(2));
    assert_eq!(scanned(&far(b"       a")), Err(9));
    assert_eq!(scanned(&[&b"a"[..], &far(b"")].concat()), Ok(2));
    assert_eq!(scanned(&[&b"a"[..], &far(b"\t")].concat()), Err(9));
    assert_eq!(scanned(&[&b"a"[..], &far(b"\t\nb")].concat()), Err(9));
    // 8 before 9 before 10, wherever they stand.
    let many = [&b":".repeat(4_200)[..], &b"\t".repeat(8_192), b"a"].concat();
    assert_eq!(scanned(&many), Err(9));
    assert_eq!(scanned(&[&many[..], &[127]].concat()), Err(8));
    // Room.
    let room = |room: usize| scan(&plain, b"a b\nc", room).map(|words| words.len());
    assert_eq!(room(20), Ok(20));
    assert_eq!(room(19), Err(10));
    assert_eq!(room(0), Err(10));
    assert_eq!(scan(&plain, b"", 0), Ok(Vec::new()));
}
