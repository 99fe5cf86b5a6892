//! 02's Note 6: "It still says yes exactly where all bytes are the same." Spellings that are
//! nearly the same, by both readers, and what is counted of them.

use trials::generate::{FileInput, ReportInput, Stats, NEARLY};
use trials::ours;
use trials::second::{read, scan};

fn field(tag: u8, value: &[u8]) -> Vec<u8> {
    let length = (value.len() as u16).to_be_bytes();
    [&[tag], &length[..], value].concat()
}

/// A file with these keywords and rule names and one empty node.
fn file<W: AsRef<[u8]>>(keywords: &[W], names: &[W]) -> Vec<u8> {
    let mut bytes = field(1, &[1]);
    for word in keywords {
        bytes.extend(field(2, word.as_ref()));
    }
    for name in names {
        bytes.extend(field(3, &[&[0, 0], name.as_ref()].concat()));
    }
    [bytes, field(4, &[0; 6]), field(5, &[0; 3])].concat()
}

/// The first terminal of a report, by both readers.
fn terminal(keywords: &[&[u8]], report: &[u8]) -> u32 {
    let file = file(keywords, &[]);
    let words = scan(&file, report, 16_384);
    assert_eq!(ours::scan(&file, report, 16_384).as_ref(), Ok(&words));
    words.unwrap()[0]
}

/// The number that refuses a file, 0 for none, by both readers.
fn number(keywords: &[&[u8]], names: &[&[u8]]) -> u8 {
    let file = file(keywords, names);
    let answer = read(&file, 4, 128);
    assert_eq!(ours::read(&file, 4, 128).as_ref(), Ok(&answer));
    answer.err().unwrap_or(0)
}

const STEM: &[u8] = b"abcdefghijklmnopqrstuvwxyzABCDEF";

/// A spelling with another byte at each place.
fn changed(word: &[u8]) -> impl Iterator<Item = Vec<u8>> + '_ {
    (0..word.len()).map(|at| {
        let mut other = word.to_vec();
        other[at] ^= 1;
        other
    })
}

#[test]
fn every_byte_of_a_spelling() {
    for length in 1..=32 {
        let word = &STEM[..length];
        assert_eq!(terminal(&[b"other", word], word), 4);
        for near in changed(word) {
            assert_eq!(terminal(&[word], &near), 1, "{length}");
            assert_eq!(terminal(&[&near, word], word), 4, "{length}");
        }
        for at in 1..length {
            assert_eq!(terminal(&[word], &word[at..]), 1);
            assert_eq!(terminal(&[word], &word[..at]), 1);
            assert_eq!(terminal(&[&word[at..], &word[..at], word], word), 5);
            assert_eq!(terminal(&[&word[at..], &word[..at]], word), 1);
        }
        // Longer by as much as leaves the length the same in its last bits.
        for more in [1, 8, 16, 32, 64, 128, 256, 65_536 - 64] {
            let fill = vec![word[length - 1]; more];
            assert_eq!(terminal(&[word], &[word, &fill].concat()), 1);
            assert_eq!(terminal(&[word], &[&fill, word].concat()), 1);
        }
    }
}

#[test]
fn every_byte_of_two_in_a_list() {
    for length in 1..=32 {
        let word = &STEM[..length];
        for near in changed(word) {
            assert_eq!(number(&[word, b"other", &near], &[]), 0);
            assert_eq!(number(&[], &[word, b"other", &near]), 0);
            assert_eq!(number(&[word, &near, word], &[]), 2);
            assert_eq!(number(&[], &[word, &near, word]), 2);
        }
        for at in 1..length {
            assert_eq!(number(&[word, &word[at..], &word[..at]], &[]), 0);
        }
    }
}

/// 253 keywords of 32 bytes that differ in a number, at each place.
#[test]
fn long_lists() {
    for at in 0..30 {
        let words: Vec<_> = (100..353)
            .map(|number: u32| {
                let mut word = STEM.to_vec();
                word[at..at + 3].copy_from_slice(number.to_string().as_bytes());
                word
            })
            .collect();
        let list: Vec<&[u8]> = words.iter().map(|word| &word[..]).collect();
        for k in [0, 1, 126, 251, 252] {
            assert_eq!(terminal(&list, list[k]), 3 + k as u32);
        }
        assert_eq!(terminal(&list, STEM), 1);
        assert_eq!(number(&list, &[]), 0);
        for (one, two) in [(0, 252), (252, 0), (100, 101), (3, 200)] {
            let mut twice = list.clone();
            twice[one] = list[two];
            assert_eq!(number(&twice, &[]), 2, "{at} {one} {two}");
        }
    }
}

/// What is nearly the same in files is counted beside the answers.
#[test]
fn noted_files() {
    let mut stats = Stats::default();
    for (keywords, names) in [
        (&["abcd", "abcx"][..], &["stem1", "stem2", "stem3"][..]),
        (&["abcd", "xbcd"], &["a", "b"]),
        (&["abcd", "abxd", "other"], &[]),
        (&["abcd", "abcde"], &[]),
        (&["abcd", "xabcd", "xabdc"], &[]),
        (&["abc", "abd", "ab"], &[]),
        (&["k", "other", "k"], &["a", "b", "a"]),
        (&["k", "k"], &["a", "a"]),
    ] {
        let input = FileInput {
            file: file(keywords, names),
            node_room: 4,
            rule_room: 128,
        };
        stats.note_file(&input, &read(&input.file, 4, 128));
    }
    let share = |class: &str| stats.share("file", class) * 8.0 / 100.0;
    for what in NEARLY {
        let class = format!("read, two keywords alike but for {what}");
        assert_eq!(share(&class), 1.0, "{what}");
    }
    for (class, count) in [
        ("read, fewer keywords, most alike", 1.0),
        ("read, most names alike", 1.0),
        ("refused 2", 2.0),
        ("refused 2, a keyword twice, far apart", 1.0),
        ("refused 2, a name twice, far apart", 1.0),
    ] {
        assert_eq!(share(class), count, "{class}");
    }
}

/// What is nearly a keyword in reports is counted beside the answers.
#[test]
fn noted_reports() {
    let mut stats = Stats::default();
    for report in [
        "abcx",
        "xbcd",
        "axcd",
        "abcde",
        "xabcd",
        "acbd abc",
        "abcd efgh",
        "abcd abce",
    ] {
        let input = ReportInput {
            file: file(&[b"abcd", b"abce", b"efgh"], &[]),
            report: report.into(),
            room: 16_384,
        };
        stats.note_report(&input, &scan(&input.file, &input.report, input.room));
    }
    for what in NEARLY {
        let class = format!("scanned, a keyword but for {what}");
        assert_eq!(stats.share("report", &class), 12.5, "{what}");
    }
    assert_eq!(stats.share("report", "scanned, two keywords alike"), 12.5);
}
