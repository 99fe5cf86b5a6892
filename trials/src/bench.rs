//! The same work by both readers, as ratios of their times.

pub mod remember;

use std::hint::black_box;
use std::time::Instant;
use trials::ours::plain;
use trials::second::Reading::By2017;
use trials::second::{self, kind, Start};

/// Rounds of each side, taken in turn; the median counts.
const ROUNDS: usize = 9;
/// The least time of a round, in seconds.
const LEAST: f64 = 0.05;

pub fn bench() -> Result<(), String> {
    println!(
        "{:<44} {:>12} {:>12} {:>7}",
        "work", "ours, us", "second, us", "ratio"
    );
    scans()?;
    reads()?;
    writes()?;
    checks()?;
    runs()?;
    lists()?;
    println!();
    remember::bench()
}

/// One way to do some work, which gives a number.
type Side<'w> = Box<dyn FnMut() -> usize + 'w>;

/// The median time of each side, in microseconds. All must give the same number.
fn medians(name: &str, mut sides: Vec<Side>) -> Result<Vec<f64>, String> {
    let given: Vec<usize> = sides.iter_mut().map(|side| side()).collect();
    if given.iter().any(|number| *number != given[0]) {
        return Err(format!("{name}: the sides give {given:?}"));
    }
    let mut times = vec![([0.0; ROUNDS], 1); sides.len()];
    for ((_, rounds), side) in times.iter_mut().zip(&mut sides) {
        while once(side, *rounds) < LEAST {
            *rounds *= 2;
        }
    }
    for round in 0..ROUNDS {
        for ((times, rounds), side) in times.iter_mut().zip(&mut sides) {
            times[round] = once(side, *rounds) / *rounds as f64 * 1e6;
        }
    }
    let median = |(mut times, _): ([f64; ROUNDS], usize)| {
        times.sort_by(f64::total_cmp);
        times[ROUNDS / 2]
    };
    Ok(times.into_iter().map(median).collect())
}

/// A line of both readers' medians and their ratio.
fn time(
    name: &str,
    ours: impl FnMut() -> usize,
    second: impl FnMut() -> usize,
) -> Result<(), String> {
    let sides: Vec<Side> = vec![Box::new(ours), Box::new(second)];
    let medians = medians(name, sides)?;
    let (ours, second) = (medians[0], medians[1]);
    println!(
        "{name:<44} {ours:>12.1} {second:>12.1} {:>7.2}",
        ours / second
    );
    Ok(())
}

fn once(work: &mut Side, rounds: usize) -> f64 {
    let begin = Instant::now();
    for _ in 0..rounds {
        black_box(work());
    }
    begin.elapsed().as_secs_f64()
}

// --- Grammar files and reports ----------------------------------------------

fn field(tag: u8, value: &[u8]) -> Vec<u8> {
    let length = (value.len() as u16).to_be_bytes();
    [&[tag], &length[..], value].concat()
}

/// A file of these keywords, rule names, nodes and the start node 0.
fn file(keywords: &[Vec<u8>], rules: &[(u16, Vec<u8>)], nodes: &[[u16; 4]]) -> Vec<u8> {
    let mut bytes = field(1, &[1]);
    for keyword in keywords {
        bytes.extend(field(2, keyword));
    }
    for (node, name) in rules {
        bytes.extend(field(3, &[&node.to_be_bytes()[..], name].concat()));
    }
    for [kind, a, b, relation] in nodes {
        let value = [
            &[*kind as u8],
            &a.to_be_bytes()[..],
            &b.to_be_bytes(),
            &[*relation as u8],
        ];
        bytes.extend(field(4, &value.concat()));
    }
    bytes.extend(field(5, &[0, 0, 3]));
    bytes
}

/// Spellings of 32 bytes that differ in their last two.
fn spellings(count: usize) -> Vec<Vec<u8>> {
    (0..count)
        .map(|i| format!("{:a<29}{i:03}", "").into_bytes())
        .collect()
}

/// 200 spellings of 32 bytes that differ in the one at a place.
fn alike(place: usize) -> Vec<Vec<u8>> {
    let letters = (33..=255).filter(|byte| *byte != 127 && !b":,()[]=;%".contains(byte));
    let one = |byte| {
        (0..32)
            .map(|i| if i == place { byte } else { b'k' })
            .collect()
    };
    letters.take(200).map(one).collect()
}

/// A report of lines of eight words each and no more than 4,096 tokens.
fn report(words: &[Vec<u8>]) -> Vec<u8> {
    let mut bytes = Vec::new();
    for line in 0..455 {
        bytes.extend(vec![b' '; line % 9]);
        for word in 0..8 {
            bytes.extend(&words[(line * 8 + word) % words.len()]);
            bytes.push(b' ');
        }
        bytes.push(b'\n');
        if bytes.len() > 64_000 {
            break;
        }
    }
    bytes
}

fn scans() -> Result<(), String> {
    let few: Vec<Vec<u8>> = ["splice", "arc", "loss"].map(|word| word.into()).to_vec();
    let words: Vec<Vec<u8>> = [
        "splice",
        "arc",
        "loss",
        "0.03",
        "-12.5",
        "alignment",
        "east",
    ]
    .map(|word| word.into())
    .to_vec();
    let many = spellings(253);
    let empty = [[kind::EMPTY, 0, 0, 0]];
    scan(
        "scan, 3 keywords",
        &file(&few, &[], &empty),
        &report(&words),
    )?;
    scan(
        "scan, 253 keywords, none in the report",
        &file(&many, &[], &empty),
        &report(&words),
    )?;
    scan(
        "scan, 253 keywords, all in the report",
        &file(&many, &[], &empty),
        &report(&many),
    )?;
    for (said, place) in [("last", 31), ("middle", 16), ("first", 0)] {
        let words = alike(place);
        scan(
            &format!("scan, 200 keywords, the {said} byte differs"),
            &file(&words, &[], &empty),
            &report(&words),
        )?;
    }
    scan(
        "scan, 3 keywords, an empty report",
        &file(&few, &[], &empty),
        b"",
    )?;
    scan(
        "scan, 253 keywords, an empty report",
        &file(&many, &[], &empty),
        b"",
    )
}

fn scan(name: &str, file: &[u8], report: &[u8]) -> Result<(), String> {
    let mut tokens = vec![0; 16_384];
    let mut result = [0];
    time(
        name,
        || match plain::scan(file, report, &mut tokens, &mut result) {
            0 => result[0],
            refused => 10_000 + refused as usize,
        },
        || match second::scan(file, report, 16_384) {
            Ok(tokens) => tokens.len() / 4,
            Err(refused) => 10_000 + usize::from(refused),
        },
    )
}

/// The largest file: 253 keywords, 128 rules and 512 nodes, each spelling of 32 bytes.
fn largest() -> Vec<u8> {
    let names: Vec<(u16, Vec<u8>)> = spellings(128).into_iter().map(|name| (511, name)).collect();
    file(&spellings(253), &names, &upward())
}

fn reads() -> Result<(), String> {
    let file = largest();
    let (mut nodes, mut rules) = (vec![0; 2048], vec![0; 128]);
    let mut result = [0; 5];
    time(
        "read the largest file",
        || match plain::read(&file, &mut nodes, &mut rules, &mut result) {
            0 => result[0],
            refused => 10_000 + refused as usize,
        },
        || match second::read(&file, 2048, 128) {
            Ok(read) => read.nodes.len() / 4,
            Err(refused) => 10_000 + usize::from(refused),
        },
    )
}

fn writes() -> Result<(), String> {
    write("write the largest file", &largest())?;
    let few = ["splice", "arc", "loss"].map(|word| word.into());
    let small = file(&few, &[(4, b"list".to_vec())], &LIST);
    write("write a small file", &small)
}

/// A file's own tables and start, with the file itself lending the names.
fn write(name: &str, file: &[u8]) -> Result<(), String> {
    let read = second::read(file, 2048, 128);
    let read = read.map_err(|number| format!("{name}: refused {number}"))?;
    let (nodes, rules, node, mode) = (&read.nodes, &read.rules, read.start, read.mode);
    let (mut out, mut other) = (vec![0; 18_209], vec![0; 18_209]);
    let mut result = [0];
    time(
        name,
        || match plain::write(file, nodes, rules, node, mode, &mut out, &mut result) {
            0 => result[0],
            refused => 20_000 + refused as usize,
        },
        || match second::write(file, nodes, rules, node, mode, &mut other) {
            Ok(count) => count,
            Err(refused) => 20_000 + usize::from(refused),
        },
    )
}

// --- Tables and runs --------------------------------------------------------

/// 512 nodes: a terminal, then sequences, choices, indents and aligns one over the other.
fn upward() -> Vec<[u16; 4]> {
    let mut nodes = vec![[kind::TERMINAL, 0, 0, 0], [kind::EMPTY, 0, 0, 0]];
    while nodes.len() < 512 {
        let top = nodes.len() as u16 - 1;
        nodes.push(match top % 4 {
            0 => [kind::SEQUENCE, 0, top, 0],
            1 => [kind::CHOICE, top, 1, 0],
            2 => [kind::INDENT, top, 0, 2],
            _ => [kind::ALIGN, top, 0, 0],
        });
    }
    nodes
}

/// 512 nodes, 128 rules: each rule's node is a choice over the next rule, so that facts go from the last to the first.
fn downward() -> (Vec<[u16; 4]>, Vec<u16>) {
    let mut nodes = vec![[kind::TERMINAL, 0, 0, 0], [kind::EMPTY, 0, 0, 0]];
    let mut rules = Vec::new();
    for rule in 0..127 {
        let top = nodes.len() as u16;
        nodes.push([kind::RULE, rule + 1, 0, 0]);
        nodes.push([kind::SEQUENCE, 0, top, 0]);
        nodes.push([kind::CHOICE, top + 1, top, 0]);
        nodes.push([kind::ALIGN, top + 2, 0, 0]);
        rules.push(top + 3);
    }
    rules.push(0);
    while nodes.len() < 512 {
        nodes.push([kind::EMPTY, 0, 0, 0]);
    }
    nodes.truncate(512);
    (nodes, rules)
}

fn checks() -> Result<(), String> {
    check("check 512 nodes, one over the other", &upward(), &[])?;
    let (nodes, rules) = downward();
    check(
        "check 512 nodes, 128 rules, each calls the next",
        &nodes,
        &rules,
    )
}

fn check(name: &str, nodes: &[[u16; 4]], rules: &[u16]) -> Result<(), String> {
    let nodes = nodes.concat();
    time(
        name,
        || plain::check(&nodes, rules) as usize,
        || match second::check(&nodes, rules) {
            second::Verdict::Passes => 0,
            second::Verdict::Refused(number) => usize::from(number),
            second::Verdict::IllFormed(node) => 7 + 65_536 * usize::from(node),
        },
    )
}

/// 4,096 tokens whose terminals go round through these, each line further right by one.
fn tokens(terminals: &[u32]) -> Vec<u32> {
    (0..4096u32)
        .flat_map(|i| [terminals[i as usize % terminals.len()], i % 7, 0, 0])
        .collect()
}

/// X = (a X) / empty
const LIST: [[u16; 4]; 5] = [
    [kind::TERMINAL, 0, 0, 0],
    [kind::EMPTY, 0, 0, 0],
    [kind::RULE, 0, 0, 0],
    [kind::SEQUENCE, 0, 2, 0],
    [kind::CHOICE, 3, 1, 0],
];

/// (a b)*
const REPEAT: [[u16; 4]; 4] = [
    [kind::TERMINAL, 0, 0, 0],
    [kind::TERMINAL, 1, 0, 0],
    [kind::SEQUENCE, 0, 1, 0],
    [kind::REPEAT, 2, 0, 0],
];

/// (a / (b / (c / ..)))*, sixteen alternatives.
fn alternatives() -> Vec<[u16; 4]> {
    let mut nodes: Vec<[u16; 4]> = (0..16).map(|a| [kind::TERMINAL, a, 0, 0]).collect();
    for a in (0..15).rev() {
        let top = nodes.len() as u16 - 1;
        nodes.push([kind::CHOICE, a, top, 0]);
    }
    nodes.push([kind::REPEAT, nodes.len() as u16 - 1, 0, 0]);
    nodes
}

/// (indent any (align (a (indent any b)*)))*: each a with the b's behind it.
const BLOCKS: [[u16; 4]; 8] = [
    [kind::TERMINAL, 0, 0, 0],
    [kind::TERMINAL, 1, 0, 0],
    [kind::INDENT, 1, 0, 3],
    [kind::REPEAT, 2, 0, 0],
    [kind::SEQUENCE, 0, 3, 0],
    [kind::ALIGN, 4, 0, 0],
    [kind::INDENT, 5, 0, 3],
    [kind::REPEAT, 6, 0, 0],
];

/// X*, X = indent any (align (a Y*)), Y = indent any b, where X is rule 0 and Y rule 1, nodes 7 and 2.
const RULED_BLOCKS: [[u16; 4]; 10] = [
    [kind::TERMINAL, 0, 0, 0],
    [kind::TERMINAL, 1, 0, 0],
    [kind::INDENT, 1, 0, 3],
    [kind::RULE, 1, 0, 0],
    [kind::REPEAT, 3, 0, 0],
    [kind::SEQUENCE, 0, 4, 0],
    [kind::ALIGN, 5, 0, 0],
    [kind::INDENT, 6, 0, 3],
    [kind::RULE, 0, 0, 0],
    [kind::REPEAT, 8, 0, 0],
];

fn runs() -> Result<(), String> {
    run(
        "run right recursion, 4,096 tokens",
        &LIST,
        &[4],
        &tokens(&[0]),
    )?;
    run("run a repeat, 4,096 tokens", &REPEAT, &[], &tokens(&[0, 1]))?;
    // The last of the alternatives at each token.
    run(
        "run a repeat of 16 alternatives, 4,096 tokens",
        &alternatives(),
        &[],
        &tokens(&[15]),
    )?;
    run(
        "run aligned blocks with indents, 4,096 tokens",
        &BLOCKS,
        &[],
        &tokens(&[0, 1, 1, 1]),
    )
}

fn run(name: &str, nodes: &[[u16; 4]], rules: &[u16], tokens: &[u32]) -> Result<(), String> {
    let nodes = nodes.concat();
    let node = (nodes.len() / 4 - 1) as u16;
    let start = Start::from_first(node, 3);
    let mut result = [0; 7];
    time(
        name,
        || match plain::run(&nodes, rules, tokens, By2017, &start, &mut result) {
            0 if result[0] == 1 => result[1],
            refused => 10_000 + refused as usize,
        },
        || match second::run(&nodes, rules, tokens, By2017, &start) {
            second::Ran::Success { read, .. } => read as usize,
            second::Ran::Failure { .. } => 10_000,
            second::Ran::Refused(refused) => 10_000 + usize::from(refused),
            second::Ran::IllFormed(_) => 10_007,
        },
    )
}

fn lists() -> Result<(), String> {
    list(
        "list right recursion, 4,096 tokens",
        &LIST,
        &[4],
        &tokens(&[0]),
    )?;
    // X*, X = a b
    let repeat = [
        [kind::TERMINAL, 0, 0, 0],
        [kind::TERMINAL, 1, 0, 0],
        [kind::SEQUENCE, 0, 1, 0],
        [kind::RULE, 0, 0, 0],
        [kind::REPEAT, 3, 0, 0],
    ];
    list(
        "list a repeat, 4,096 tokens",
        &repeat,
        &[2],
        &tokens(&[0, 1]),
    )?;
    let (rules, lines) = ([7, 2], tokens(&[0, 1, 1, 1]));
    run(
        "run these blocks with rules, 4,096 tokens",
        &RULED_BLOCKS,
        &rules,
        &lines,
    )?;
    list(
        "list aligned blocks with rules, 4,096 tokens",
        &RULED_BLOCKS,
        &rules,
        &lines,
    )
}

/// As `run`, with the captures listed: a place for each of 4,096.
fn list(name: &str, nodes: &[[u16; 4]], rules: &[u16], tokens: &[u32]) -> Result<(), String> {
    let nodes = nodes.concat();
    let node = (nodes.len() / 4 - 1) as u16;
    let start = Start::from_first(node, 3);
    let (mut captures, mut others) = (vec![0; 16_384], vec![0; 16_384]);
    let mut result = [0; 8];
    time(
        name,
        || match plain::list(
            &nodes,
            rules,
            tokens,
            By2017,
            &start,
            &mut captures,
            &mut result,
        ) {
            0 if result[0] == 1 => result[7],
            refused => 10_000 + refused as usize,
        },
        || match second::list(&nodes, rules, tokens, By2017, &start, &mut others) {
            second::Listed::Success { captures, .. } => captures as usize,
            second::Listed::Failure { .. } => 10_000,
            second::Listed::Refused(refused) => 10_000 + usize::from(refused),
            second::Listed::IllFormed(_) => 10_007,
        },
    )
}
