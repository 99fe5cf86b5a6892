//! 02's Note 3: "A byte from 128 to 191 no longer advances the column; offsets still count
//! bytes." Cases worked out by hand, and generated reports counted again.

use trials::generate::{report_input, ReportInput, Rng, Stats};
use trials::second::{line, next_token, scan, shown, text, Handed, Shown, Value};

type Token = [u32; 4];

fn field(tag: u8, value: &[u8]) -> Vec<u8> {
    let length = (value.len() as u16).to_be_bytes();
    [&[tag], &length[..], value].concat()
}

/// A file with these keywords and one empty node, which rule 0 stands for.
fn file(keywords: &[&[u8]]) -> Vec<u8> {
    let keywords: Vec<_> = keywords.iter().map(|word| field(2, word)).collect();
    let rule = field(3, &[0, 0, b'r']);
    let rest = [field(4, &[0; 6]), field(5, &[0; 3])].concat();
    [field(1, &[1]), keywords.concat(), rule, rest].concat()
}

fn scanned(keywords: &[&[u8]], report: &[u8]) -> Result<Vec<Token>, u8> {
    let words = scan(&file(keywords), report, 16_384)?;
    Ok(words.as_chunks::<4>().0.to_vec())
}

/// A report without keywords has these tokens: terminal, column, offset, length.
#[track_caller]
fn expect(report: impl AsRef<[u8]>, tokens: &[Token]) {
    assert_eq!(scanned(&[], report.as_ref()).as_deref(), Ok(tokens));
}

/// "a `µ` ahead of an entry pushes it one column too far": no longer.
#[test]
fn letters_of_two_bytes() {
    // Ahead of, inside and behind tokens.
    expect("µ loss", &[[1, 0, 0, 2], [1, 2, 3, 4], [2, 6, 7, 0]]);
    expect("aµb c", &[[1, 0, 0, 4], [1, 4, 5, 1], [2, 5, 6, 0]]);
    expect("ab° c", &[[1, 0, 0, 4], [1, 4, 5, 1], [2, 5, 6, 0]]);
    // First in a token, and alone.
    expect("  °C x", &[[1, 2, 2, 3], [1, 5, 6, 1], [2, 6, 7, 0]]);
    expect(" µ", &[[1, 1, 1, 2], [2, 2, 3, 0]]);
    expect("Ω ä", &[[1, 0, 0, 2], [1, 2, 3, 2], [2, 3, 5, 0]]);
    // On the next line the columns begin anew.
    let two = [[1, 0, 0, 2], [2, 1, 2, 0], [1, 1, 4, 2], [2, 2, 6, 0]];
    expect("µ\n °", &two);
}

#[test]
fn ascii_as_before() {
    expect("u loss", &[[1, 0, 0, 1], [1, 2, 2, 4], [2, 6, 6, 0]]);
    expect("aub c", &[[1, 0, 0, 3], [1, 4, 4, 1], [2, 5, 5, 0]]);
    expect("\ta", &[[1, 8, 1, 1], [2, 9, 2, 0]]);
    // Byte 13 still advances.
    expect("a\r\r\n", &[[1, 0, 0, 1], [2, 3, 3, 0]]);
    let example = [[3, 2, 2, 4], [4, 6, 6, 1], [0, 8, 8, 4], [2, 12, 12, 0]];
    let report = b"  loss: 0.03";
    assert_eq!(
        scanned(&[b"loss", b":"], report).as_deref(),
        Ok(&example[..])
    );
}

#[test]
fn longer_letters() {
    expect("– x", &[[1, 0, 0, 3], [1, 2, 4, 1], [2, 3, 5, 0]]);
    expect("中文 x", &[[1, 0, 0, 6], [1, 3, 7, 1], [2, 4, 8, 0]]);
    expect("€5 x", &[[1, 0, 0, 4], [1, 3, 5, 1], [2, 4, 6, 0]]);
    expect("\u{1f600}x y", &[[1, 0, 0, 5], [1, 3, 6, 1], [2, 4, 7, 0]]);
    // A combining mark has a lead byte, which advances.
    expect("a\u{308} b", &[[1, 0, 0, 3], [1, 3, 4, 1], [2, 4, 5, 0]]);
}

/// "Byte 9 moves to the next higher multiple of 8", from the column that was reached.
#[test]
fn tabs() {
    expect(b"\x80\ta", &[[1, 0, 0, 1], [1, 8, 2, 1], [2, 9, 3, 0]]);
    expect("µ\ta", &[[1, 0, 0, 2], [1, 8, 3, 1], [2, 9, 4, 0]]);
    // Seven columns of eight bytes, and eight of nine.
    let seven = [[1, 0, 0, 8], [1, 8, 9, 1], [2, 9, 10, 0]];
    expect("abcdefµ\ta", &seven);
    expect(b"abcdefg\x80\ta", &seven);
    let eight = [[1, 0, 0, 9], [1, 16, 10, 1], [2, 17, 11, 0]];
    expect("abcdefgµ\ta", &eight);
}

#[test]
fn lone_continuation_bytes() {
    // They are bytes of runs, and a token of them alone leaves the column.
    expect(b"\x80", &[[1, 0, 0, 1], [2, 0, 1, 0]]);
    expect(b"\x80\x81 a", &[[1, 0, 0, 2], [1, 1, 3, 1], [2, 2, 4, 0]]);
    expect(b"\x80a b", &[[1, 0, 0, 2], [1, 2, 3, 1], [2, 3, 4, 0]]);
    expect(b"a\x80", &[[1, 0, 0, 2], [2, 1, 2, 0]]);
    // At a line's start, after a tab, before a break.
    let line_start = [
        [1, 0, 0, 1],
        [2, 1, 1, 0],
        [1, 0, 2, 1],
        [1, 1, 4, 1],
        [2, 2, 5, 0],
    ];
    expect(b"x\n\xbf y", &line_start);
    expect(b"\t\x80a", &[[1, 8, 1, 2], [2, 9, 3, 0]]);
    expect(b"\t\x80\n", &[[1, 8, 1, 1], [2, 8, 2, 0]]);
    let before_break = [
        [1, 0, 0, 1],
        [1, 2, 2, 1],
        [2, 2, 3, 0],
        [1, 0, 4, 1],
        [2, 1, 5, 0],
    ];
    expect(b"a \x80\nb", &before_break);
    expect(b"a\x80\r\n", &[[1, 0, 0, 2], [2, 2, 3, 0]]);
    // Between blanks, and at the end.
    expect(b" \x80 \x80 ", &[[1, 1, 1, 1], [1, 2, 3, 1], [2, 3, 5, 0]]);
    expect(b"a \xb5", &[[1, 0, 0, 1], [1, 2, 2, 1], [2, 2, 3, 0]]);
}

/// Nothing is refused as bad UTF-8.
#[test]
fn damaged_letters() {
    // A lead byte without its continuation bytes, and with too few.
    expect(b"\xc2 a", &[[1, 0, 0, 1], [1, 2, 2, 1], [2, 3, 3, 0]]);
    expect(b"\xe2\x80 a", &[[1, 0, 0, 2], [1, 2, 3, 1], [2, 3, 4, 0]]);
    // Cut in two by a blank and by a break.
    expect(
        b"\xe2 \x80\x93a",
        &[[1, 0, 0, 1], [1, 2, 2, 3], [2, 3, 5, 0]],
    );
    let cut = [[1, 0, 0, 1], [2, 1, 1, 0], [1, 0, 2, 2], [2, 1, 4, 0]];
    expect(b"\xc2\n\xb5a", &cut);
    // Overlong, a surrogate, and bytes that UTF-8 does not have.
    expect(b"\xc0\x80 a", &[[1, 0, 0, 2], [1, 2, 3, 1], [2, 3, 4, 0]]);
    let surrogate = [[1, 0, 0, 3], [1, 2, 4, 1], [2, 3, 5, 0]];
    expect(b"\xed\xa0\x80 a", &surrogate);
    expect(b"\xf5\xff a", &[[1, 0, 0, 2], [1, 3, 3, 1], [2, 4, 4, 0]]);
}

/// Each byte of a run or single, alone and inside a word: the rule begins at 128 and ends
/// at 191.
#[test]
fn every_byte() {
    expect(b"\x80 a", &[[1, 0, 0, 1], [1, 1, 2, 1], [2, 2, 3, 0]]);
    expect(b"\xbf a", &[[1, 0, 0, 1], [1, 1, 2, 1], [2, 2, 3, 0]]);
    expect(b"\xc0 a", &[[1, 0, 0, 1], [1, 2, 2, 1], [2, 3, 3, 0]]);
    assert_eq!(scanned(&[], b"\x7f a"), Err(8));
    for byte in (33..=255).filter(|&byte| byte != 127) {
        let (alone, inside) = match byte {
            128..=191 => (1, 3),
            _ => (2, 4),
        };
        let last_column = |report: &[u8]| {
            let tokens = scanned(&[], report).unwrap();
            tokens[tokens.len() - 2][1]
        };
        assert_eq!(last_column(&[byte, b' ', b'z']), alone, "{byte}");
        let word = [b'a', byte, b'b', b' ', b'z'];
        assert_eq!(last_column(&word), inside, "{byte}");
    }
}

#[test]
fn beside_singles() {
    let micro = [[1, 0, 0, 2], [1, 1, 2, 1], [1, 2, 3, 2], [2, 3, 5, 0]];
    expect("µ:°", &micro);
    let within = [[1, 0, 0, 1], [1, 1, 1, 2], [1, 2, 3, 1], [2, 3, 4, 0]];
    expect("(µ)", &within);
    for &single in b":,()[]=;%" {
        let around = [[1, 0, 0, 1], [1, 0, 1, 1], [1, 1, 2, 1], [2, 1, 3, 0]];
        expect([0x80, single, 0x80], &around);
        let between = [[1, 0, 0, 1], [1, 1, 1, 1], [1, 1, 2, 1], [2, 2, 3, 0]];
        expect([single, 0x80, single], &between);
    }
}

/// A number with a degree sign behind it is a word.
#[test]
fn numbers() {
    expect("20 °", &[[0, 0, 0, 2], [1, 3, 3, 2], [2, 4, 5, 0]]);
    expect("20° 5", &[[1, 0, 0, 4], [0, 4, 5, 1], [2, 5, 6, 0]]);
    expect("-0.5°", &[[1, 0, 0, 6], [2, 5, 6, 0]]);
    for word in [&b"5\x80"[..], b"\x805"] {
        expect(word, &[[1, 0, 0, 2], [2, 1, 2, 0]]);
    }
    for word in [&b"-\x805"[..], b"1\x80.", b"1.\x80", b".\x805"] {
        expect(word, &[[1, 0, 0, 3], [2, 2, 3, 0]]);
    }
}

/// "3 + k where the spelling equals keyword k": byte by byte.
#[test]
fn keywords() {
    let words: [&[u8]; 5] = [
        "µm".as_bytes(),
        "°".as_bytes(),
        b"\x80",
        b"\xc2",
        b"20\xc2\xb0",
    ];
    let report = b"\xc2\xb5m \xc2\xb0 \x80 \xc2 20\xc2\xb0 \xc2\xb5";
    let tokens = [
        [3, 0, 0, 3],
        [4, 3, 4, 2],
        [5, 5, 7, 1],
        [6, 6, 9, 1],
        [7, 8, 11, 4],
        [1, 12, 16, 2],
        [2, 13, 18, 0],
    ];
    assert_eq!(scanned(&words, report).as_deref(), Ok(&tokens[..]));
    // A continuation byte more or less leaves the column, but is no keyword.
    let one = |report: &[u8]| scanned(&[b"a\x80"], report).unwrap();
    assert_eq!(one(b"a\x80"), [[3, 0, 0, 2], [2, 1, 2, 0]]);
    assert_eq!(one(b"a"), [[1, 0, 0, 1], [2, 1, 1, 0]]);
    assert_eq!(one(b"a\x80\x80"), [[1, 0, 0, 3], [2, 1, 3, 0]]);
    assert_eq!(one(b"\x80a"), [[1, 0, 0, 2], [2, 1, 2, 0]]);
    // A keyword has 32 bytes at most, whatever its columns.
    let many = |count: usize| scanned(&[&[0x80; 32]], &b"\x80".repeat(count)).unwrap();
    assert_eq!(many(31), [[1, 0, 0, 31], [2, 0, 31, 0]]);
    assert_eq!(many(32), [[3, 0, 0, 32], [2, 0, 32, 0]]);
    assert_eq!(many(33), [[1, 0, 0, 33], [2, 0, 33, 0]]);
}

#[test]
fn whole_report_of_continuation_bytes() {
    let all = b"\x80".repeat(65_536);
    expect(&all[1..], &[[1, 0, 0, 65_535], [2, 0, 65_535, 0]]);
    assert_eq!(scanned(&[], &all), Err(8));
}

/// 8,191 tabs, which come to column 65,528, so many blanks and a tail.
fn far(blanks: usize, tail: &[u8]) -> Vec<u8> {
    [&b"\t".repeat(8_191)[..], &b" ".repeat(blanks), tail].concat()
}

#[track_caller]
fn refused(report: &[u8]) {
    assert_eq!(scanned(&[], report), Err(9));
}

/// "columns at most 65,535", of a token and of its line's end.
#[test]
fn last_column() {
    let one = [[1, 65_535, 8_198, 1], [2, 65_535, 8_199, 0]];
    expect(far(7, b"\x80"), &one);
    let two = [[1, 65_535, 8_198, 2], [2, 65_535, 8_200, 0]];
    expect(far(7, b"\x80\xbf"), &two);
    let next = [one[0], one[1], [1, 0, 8_200, 1], [2, 1, 8_201, 0]];
    expect(far(7, b"\x80\nb"), &next);
    for tail in [
        &b"a"[..],
        b"\x80a",
        b"\xc2\xb5",
        b"\x80 ",
        b"\x80:",
        b"\xc0",
    ] {
        refused(&far(7, tail));
    }
    let micro = [[1, 65_534, 8_197, 2], [2, 65_535, 8_199, 0]];
    expect(far(6, b"\xc2\xb5"), &micro);
    let single = [
        [1, 65_534, 8_197, 1],
        [1, 65_534, 8_198, 1],
        [2, 65_535, 8_199, 0],
    ];
    expect(far(6, b"\x80:"), &single);
    refused(&far(6, b"\xc2\xb5a"));
    refused(&far(6, b"\xc2\xb5:"));
}

#[test]
fn past_the_last_column() {
    // 65,536: refused like any other token.
    for report in [far(8, b"\x80"), far(0, b"\t\x80"), far(8, b"\x80\x80\nb")] {
        refused(&report);
    }
    // The end of a line with them alone, behind 8,191 tabs and behind one more.
    let behind = [[1, 0, 0, 1], [2, 65_528, 8_192, 0]];
    expect([b"\x80", &far(0, b"")[..]].concat(), &behind);
    refused(&[b"\x80", &far(0, b"\t\n")[..]].concat());
}

/// A line of 65,535 bytes, whose bytes after the tabs would lead past column 65,535.
#[test]
fn long_lines() {
    let run = b"\x80".repeat(57_533);
    let line = [&b"\t".repeat(8_000)[..], &run, b" a"].concat();
    let tokens = [
        [1, 64_000, 8_000, 57_533],
        [1, 64_001, 65_534, 1],
        [2, 64_002, 65_535, 0],
    ];
    expect(line, &tokens);
    let micro = |tabs: usize, count: usize| ["\t".repeat(tabs), "µ".repeat(count)].concat();
    let tokens = [[1, 34_952, 4_369, 61_166], [2, 65_535, 65_535, 0]];
    expect(micro(4_369, 30_583), &tokens);
    assert_eq!(scanned(&[], micro(4_370, 30_582).as_bytes()), Err(9));
}

fn value(offset: usize, column: u32, had_token: bool) -> Value {
    Value {
        offset,
        column,
        had_token,
    }
}

/// The tokens that the report hands out from a value on, each with the value behind it.
#[track_caller]
fn expect_handed(report: &[u8], mut from: Value, steps: &[(Token, Value)]) -> Value {
    for &(token, behind) in steps {
        let answer = next_token(&file(&[]), report, from);
        assert_eq!(answer, (Handed::Token(token), behind));
        from = behind;
    }
    from
}

#[test]
fn one_by_one() {
    let report = "aµ b\n°".as_bytes();
    let steps = [
        ([1, 0, 0, 3], value(3, 2, true)),
        ([1, 3, 4, 1], value(5, 4, true)),
        ([2, 4, 5, 0], value(6, 0, false)),
        ([1, 0, 6, 2], value(8, 1, true)),
        ([2, 1, 8, 0], value(8, 1, false)),
    ];
    let last = expect_handed(report, value(0, 0, false), &steps);
    assert_eq!(
        next_token(&file(&[]), report, last),
        (Handed::Nothing, last)
    );
    // From the middle of a letter, at whatever column.
    let middle = [
        ([1, 7, 2, 1], value(3, 7, true)),
        ([1, 8, 4, 1], value(5, 9, true)),
        ([2, 9, 5, 0], value(6, 0, false)),
    ];
    expect_handed(report, value(2, 7, true), &middle);
    expect_handed(report, value(2, 7, false), &middle);
    // Its lead byte alone lies in front of the value.
    let end = [
        ([1, 0, 7, 1], value(8, 0, true)),
        ([2, 0, 8, 0], value(8, 0, false)),
    ];
    expect_handed(report, value(7, 0, false), &end);
}

#[test]
fn one_by_one_at_the_last_columns() {
    let refused = |report: &[u8], from: Value, number: u8| {
        let answer = next_token(&file(&[]), report, from);
        assert_eq!(answer, (Handed::Refused(number), from));
    };
    let staying = [
        ([1, 65_535, 0, 2], value(2, 65_535, true)),
        ([2, 65_535, 2, 0], value(2, 65_535, false)),
    ];
    expect_handed(b"\x80\x80", value(0, 65_535, false), &staying);
    // A letter's own token is handed out, its line's end is not.
    let micro = [([1, 65_535, 0, 2], value(2, 65_536, true))];
    let behind = expect_handed("µ".as_bytes(), value(0, 65_535, false), &micro);
    refused("µ".as_bytes(), behind, 9);
    refused(b"\x80", value(0, 65_536, false), 9);
    refused(b"\x80", value(0, 524_280, false), 9);
    refused(b"\x80", value(1, 524_280, true), 9);
    refused(b"\x80", value(0, 524_281, false), 8);
    let next = [([1, 0, 1, 1], value(2, 0, true))];
    expect_handed(b"\n\x80", value(0, 524_280, false), &next);
}

/// The program, on a word and two entries at the same column.
#[test]
fn entries_behind_a_micro_sign() {
    let nodes = [
        [1, 0, 1, 0, 0, 0],
        [8, 0, 0, 0, 0, 3],
        [1, 0, 3, 0, 0, 0],
        [1, 0, 2, 0, 0, 0],
        [8, 0, 3, 0, 0, 3],
        [3, 0, 2, 0, 4, 0],
        [3, 0, 5, 0, 5, 0],
        [3, 0, 1, 0, 6, 0],
    ];
    let nodes: Vec<_> = nodes.iter().map(|node| field(4, node)).collect();
    let head = [field(1, &[1]), field(2, b"loss")].concat();
    let file = [head, nodes.concat(), field(5, &[0, 7, 0])].concat();
    for report in ["u loss\n  loss\n", "µ loss\n  loss\n", "€ loss\n  loss\n"] {
        assert_eq!(line(&file, report.as_bytes()), b"success 5 2 2 clear 4\n");
    }
    for report in ["µ  loss\n  loss\n", "µ loss\n   loss\n"] {
        assert_eq!(line(&file, report.as_bytes()), b"failure 3\n");
    }
    // A continuation byte leaves the column, a blank behind it does not.
    let lone = b"\x80 loss\n loss\n";
    assert_eq!(line(&file, lone), b"success 5 1 1 clear 4\n");
}

/// "offsets still count bytes", and so does a shown text.
#[test]
fn shown_text() {
    let report = " °C 5".as_bytes();
    let tokens = [[1, 1, 1, 3], [0, 4, 5, 1], [2, 5, 6, 0]];
    expect(report, &tokens);
    let (file, words) = (file(&[]), tokens.concat());
    let place = Shown::InReport {
        offset: 1,
        length: 5,
    };
    assert_eq!(shown(&file, report, &words, [0, 0, 2, 0]), place);
    let shown = text(&file, report, &words, [0, 0, 2, 0]);
    assert_eq!(shown, "°C 5".as_bytes());
}

// Generated reports.

fn continuation(byte: u8) -> bool {
    (128..=191).contains(&byte)
}

fn single(byte: u8) -> bool {
    b":,()[]=;%".contains(&byte)
}

fn generated(seed: u64, count: usize) -> impl Iterator<Item = ReportInput> {
    let mut rng = Rng::new(seed);
    (0..count).map(move |_| report_input(&mut rng))
}

/// The column at every offset, the report's end with the others.
fn recount(report: &[u8]) -> Vec<u32> {
    let mut column = 0;
    let mut columns = vec![0];
    for &byte in report {
        column = match byte {
            10 => 0,
            9 => column / 8 * 8 + 8,
            128..=191 => column,
            _ => column + 1,
        };
        columns.push(column);
    }
    columns
}

/// The offsets of all tokens, line ends with the others.
fn offsets(report: &[u8]) -> Vec<u32> {
    let mut offsets = Vec::new();
    let mut had_token = false;
    let mut before = b' ';
    for (offset, &byte) in (0..).zip(report.iter().chain(b"\n")) {
        let first = byte > b' ' && (before <= b' ' || single(before) || single(byte));
        if first || (byte == b'\n' && had_token) {
            offsets.push(offset);
        }
        had_token = byte != b'\n' && (had_token || first);
        before = byte;
    }
    offsets
}

/// Every token stands at the column of a plain count over the bytes; a count past the last
/// column is 9, too many tokens 10.
#[test]
fn counted_again() {
    let (mut answered, mut far, mut many) = (0, 0, 0);
    for ReportInput { file, report, room } in generated(31, 4_000) {
        let answer = scan(&file, &report, room);
        if matches!(answer, Err(1..=8)) {
            continue;
        }
        let columns = recount(&report);
        let places: Vec<[u32; 2]> = offsets(&report)
            .iter()
            .map(|&offset| [columns[offset as usize], offset])
            .collect();
        if places.iter().any(|place| place[0] > 65_535) {
            assert_eq!(answer, Err(9));
            far += 1;
        } else if places.len() > 4_096 || 4 * places.len() > room {
            assert_eq!(answer, Err(10));
            many += 1;
        } else {
            let words = answer.unwrap();
            let tokens = words.as_chunks::<4>().0.iter();
            let own: Vec<[u32; 2]> = tokens.map(|token| [token[1], token[2]]).collect();
            assert_eq!(own, places);
            answered += 1;
        }
    }
    assert!(answered > 2_000 && far > 40 && many > 100);
}

/// A report without its bytes 128 to 191 has the same tokens at the same columns, but for
/// those that are made of such bytes alone and for the ends of lines without any other.
#[test]
fn stripped() {
    let mut changed = 0;
    for ReportInput { file, report, .. } in generated(32, 4_000) {
        let Ok(words) = scan(&file, &report, 16_384) else {
            continue;
        };
        let mut left = Vec::new();
        let mut had_token = false;
        for &[terminal, column, offset, length] in words.as_chunks::<4>().0 {
            let spelling = &report[offset as usize..][..length as usize];
            let length = spelling.iter().filter(|&&byte| !continuation(byte)).count();
            let line_end = terminal == 2;
            if length > 0 || (line_end && had_token) {
                left.push([column, length as u32]);
            }
            had_token = !line_end && (had_token || length > 0);
        }
        let bare: Vec<u8> = report
            .iter()
            .copied()
            .filter(|&byte| !continuation(byte))
            .collect();
        let words = scan(&file, &bare, 16_384).unwrap();
        let tokens = words.as_chunks::<4>().0.iter();
        let own: Vec<[u32; 2]> = tokens.map(|token| [token[1], token[3]]).collect();
        assert_eq!(own, left);
        changed += usize::from(bare != report);
    }
    assert!(changed > 1_000);
}

/// From every offset of short reports, in the middle of letters too: the token handed out
/// and the value behind it stand at the columns of the plain count.
#[test]
fn handed_out_from_every_offset() {
    let mut middle = 0;
    for ReportInput { file, report, .. } in generated(33, 2_000) {
        if report.len() > 120 {
            continue;
        }
        let columns = recount(&report);
        for (offset, &column) in columns.iter().enumerate() {
            let from = value(offset, column, offset % 2 == 1);
            let (answer, behind) = next_token(&file, &report, from);
            if matches!(answer, Handed::Refused(_)) {
                assert_eq!(behind, from);
                continue;
            }
            assert_eq!(behind.column, columns[behind.offset]);
            if let Handed::Token([_, column, own, _]) = answer {
                assert_eq!(column, columns[own as usize]);
                let first = report.get(own as usize).copied();
                middle += usize::from(first.is_some_and(continuation));
            }
        }
    }
    assert!(middle > 1_000);
}

type OfByte = fn(u8) -> bool;
type OfLetter = fn(char) -> bool;

/// Whether neighbouring bytes meet the conditions one by one.
fn holds(report: &[u8], conditions: &[OfByte]) -> bool {
    // The report's ends count as breaks.
    let lines = [b"\n", report, b"\n"].concat();
    lines.windows(conditions.len()).any(|bytes| {
        let mut both = bytes.iter().zip(conditions);
        both.all(|(&byte, condition)| condition(byte))
    })
}

fn holds_letter(report: &[u8], condition: OfLetter) -> bool {
    let mut chunks = report.utf8_chunks();
    chunks.any(|chunk| chunk.valid().chars().any(condition))
}

/// Whole letters, damage and their places all occur in the generated reports.
#[test]
fn forms_in_reports() {
    let lead: OfByte = |byte| (0xc2..=0xf4).contains(&byte);
    let blank: OfByte = |byte| [9, 13, 32].contains(&byte);
    let ends: OfByte = |byte| byte == b'\n';
    let tab: OfByte = |byte| byte == b'\t';
    let high: OfByte = |byte| (0xa0..=0xbf).contains(&byte);
    let other: OfByte = |byte| !continuation(byte);
    let runs: [(&str, &[OfByte]); 13] = [
        ("at a line's start", &[ends, continuation]),
        ("after a tab", &[tab, continuation]),
        ("before a break", &[blank, continuation, ends]),
        ("between blanks", &[blank, continuation, blank]),
        ("several", &[blank, continuation, continuation]),
        ("behind a single", &[single, continuation]),
        ("before a single", &[continuation, single]),
        ("a lead byte alone", &[lead, other]),
        ("cut by a blank", &[lead, blank, continuation]),
        ("cut by a break", &[lead, ends, continuation]),
        ("overlong", &[|byte| byte == 0xc0, |byte| byte == 0x80]),
        ("a surrogate", &[|byte| byte == 0xed, high]),
        ("no byte of UTF-8", &[|byte| byte >= 0xf5]),
    ];
    let letters: [(&str, OfLetter); 4] = [
        ("two bytes", |letter| letter.len_utf8() == 2),
        ("three bytes", |letter| letter.len_utf8() == 3),
        ("four bytes", |letter| letter.len_utf8() == 4),
        ("a combining mark", |letter| letter == '\u{308}'),
    ];
    let reports: Vec<_> = generated(34, 3_000).map(|input| input.report).collect();
    for (name, conditions) in runs {
        let with = reports.iter().filter(|of| holds(of, conditions));
        assert!(with.count() >= 20, "{name}");
    }
    for (name, condition) in letters {
        let with = reports.iter().filter(|of| holds_letter(of, condition));
        assert!(with.count() >= 100, "{name}");
    }
}

/// The limits are met from both sides with such bytes there.
#[test]
fn limits_in_reports() {
    let (mut full, mut long, mut last, mut past, mut keyword) = (0, 0, 0, 0, 0);
    for ReportInput { file, report, .. } in generated(35, 6_000) {
        let answer = scan(&file, &report, 16_384);
        let columns = recount(&report);
        let begins = |offset: u32| report.get(offset as usize).is_some_and(|&byte| byte > 127);
        let at = |offset: u32, column: u32| begins(offset) && columns[offset as usize] == column;
        let offsets = offsets(&report);
        if answer == Err(9) && offsets.iter().any(|&offset| at(offset, 65_536)) {
            past += 1;
        }
        let Ok(words) = answer else {
            continue;
        };
        let one_line = report.len() == 65_535 && !report.contains(&b'\n');
        if one_line && report.iter().copied().all(continuation) {
            full += 1;
        }
        // With every byte advancing, the line's end would stand past the last column.
        if one_line && report[0] == b'\t' && !words.is_empty() {
            long += 1;
        }
        if offsets.iter().any(|&offset| at(offset, 65_535)) {
            last += 1;
        }
        let mut tokens = words.as_chunks::<4>().0.iter();
        if tokens.any(|token| token[0] > 2 && begins(token[2])) {
            keyword += 1;
        }
    }
    let enough = full >= 2 && long >= 8 && last >= 4 && past >= 20 && keyword >= 200;
    assert!(enough, "{:?}", [full, long, last, past, keyword]);
}

/// What of UTF-8 reports hold is counted beside the answers.
#[test]
fn noted() {
    let mut stats = Stats::default();
    for report in [&b"a"[..], b"\xc2\xb5m", b"\xb5", b"\xc2\xb5 \xb5"] {
        let input = ReportInput {
            file: file(&["µm".as_bytes()]),
            report: report.to_vec(),
            room: 16_384,
        };
        stats.note_report(&input, &scan(&input.file, report, input.room));
    }
    for (class, share) in [
        ("bytes over 127", 75.0),
        ("a whole letter outside ASCII", 50.0),
        ("damaged UTF-8", 50.0),
        ("scanned, a keyword outside ASCII", 25.0),
        ("scanned, 2 or more tokens", 100.0),
    ] {
        assert_eq!(stats.share("report", class), share, "{class}");
    }
}
