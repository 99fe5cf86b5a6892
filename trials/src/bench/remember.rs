//! Runs that remember, lent slices of several lengths, beside the plain run and the second reader's.

use super::{medians, tokens, Side, LIST};
use std::process::Command;
use std::time::{Duration, Instant};
use trials::ours::plain;
use trials::second::Reading::By2017;
use trials::second::{self, kind, Start};

/// The lengths of the slices, in words.
const LENGTHS: [usize; 5] = [0, 64, 1_024, 4_096, 65_536];

/// A run that takes longer is not measured.
const LONGEST: Duration = Duration::from_secs(5);

/// A table with its rules, run on tokens from the last node on.
struct Row {
    name: String,
    nodes: Vec<u16>,
    rules: Vec<u16>,
    tokens: Vec<u32>,
    start: Start,
    /// Whether the plain run ends soon.
    plain: bool,
}

impl Row {
    fn new(name: String, nodes: &[[u16; 4]], rules: &[u16], tokens: Vec<u32>, mode: u16) -> Self {
        Row {
            name,
            nodes: nodes.concat(),
            rules: rules.to_vec(),
            tokens,
            start: Start::from_first(nodes.len() as u16 - 1, mode),
            plain: true,
        }
    }

    fn plain(self, plain: bool) -> Self {
        Row { plain, ..self }
    }
}

pub fn bench() -> Result<(), String> {
    print!("{:<40} {:>10}", "work, us", "plain");
    for length in LENGTHS {
        print!(" {length:>10}");
    }
    println!(" {:>10} {:>10}", "second", "remembers");
    for (number, row) in rows().iter().enumerate() {
        measure(number, row)?;
    }
    Ok(())
}

/// One run of a row with a slice of so many words, for a process that may be ended.
pub fn once(row: &str, length: &str) -> Result<(), String> {
    let number = |word: &str| word.parse::<usize>().map_err(|error| error.to_string());
    let rows = rows();
    let row = rows.get(number(row)?).ok_or("no such row")?;
    remembered(row, &mut vec![0; number(length)?]).map(|_| ())
}

/// Whether a row's run with a slice of so many words ends in time.
fn ends(number: usize, length: usize) -> Result<bool, String> {
    let said = |error: std::io::Error| error.to_string();
    let words = [number, length].map(|word| word.to_string());
    let program = std::env::current_exe().map_err(said)?;
    let mut child = Command::new(program)
        .args(["bench", "once"])
        .args(words)
        .spawn()
        .map_err(said)?;
    let begin = Instant::now();
    loop {
        if let Some(status) = child.try_wait().map_err(said)? {
            return match status.success() {
                true => Ok(true),
                false => Err(format!("row {number}, {length} words: {status}")),
            };
        }
        if begin.elapsed() > LONGEST {
            child.kill().map_err(said)?;
            return child.wait().map_err(said).map(|_| false);
        }
        std::thread::sleep(Duration::from_millis(1));
    }
}

/// Tokens read and farthest place of a success.
fn told(answer: u32, result: &[usize; 7]) -> Result<usize, String> {
    match (answer, result[0]) {
        (0, 1) => Ok(result[1] + 10_000 * result[6]),
        (0, _) => Err("failure".into()),
        _ => Err(format!("refused {answer}")),
    }
}

fn told_by_second(ran: second::Ran) -> usize {
    match ran {
        second::Ran::Success { read, farthest, .. } => read as usize + 10_000 * farthest as usize,
        _ => usize::MAX,
    }
}

fn remembered(row: &Row, memory: &mut [u32]) -> Result<usize, String> {
    let (nodes, rules, tokens) = (&row.nodes, &row.rules, &row.tokens);
    let mut result = [0; 7];
    let answer = plain::remember(
        nodes,
        rules,
        tokens,
        By2017,
        &row.start,
        memory,
        &mut result,
    );
    told(answer, &result)
}

/// A line of medians: the plain run, one that remembers for each length, and both of the second reader; a dash where a
/// run takes long.
fn measure(number: usize, row: &Row) -> Result<(), String> {
    let (nodes, rules, tokens, start) = (&row.nodes, &row.rules, &row.tokens, &row.start);
    let mut sides: Vec<Option<Side>> = vec![row.plain.then_some(Box::new(|| {
        let mut result = [0; 7];
        let answer = plain::run(nodes, rules, tokens, By2017, start, &mut result);
        told(answer, &result).unwrap_or(usize::MAX)
    }))];
    for length in LENGTHS {
        let mut memory = vec![0; length];
        let side = move || remembered(row, &mut memory).unwrap_or(usize::MAX);
        let measured = (row.plain || length > 0) && ends(number, length)?;
        sides.push(measured.then_some(Box::new(side)));
    }
    let run = || told_by_second(second::run(nodes, rules, tokens, By2017, start));
    sides.push(row.plain.then_some(Box::new(run)));
    sides.push(Some(Box::new(|| {
        let memory = &mut [];
        told_by_second(second::remember(
            nodes, rules, tokens, By2017, start, memory,
        ))
    })));
    print!("{:<40}", row.name);
    let measured: Vec<bool> = sides.iter().map(Option::is_some).collect();
    let mut times = medians(&row.name, sides.into_iter().flatten().collect())?.into_iter();
    for measured in measured {
        match measured.then(|| times.next()).flatten() {
            Some(time) => print!(" {time:>10.1}"),
            None => print!(" {:>10}", "-"),
        }
    }
    println!();
    Ok(())
}

fn rows() -> Vec<Row> {
    let mut rows = ordinary();
    for (last, plain) in [(10, true), (14, true), (18, true), (60, false)] {
        let (nodes, rules) = by_rules(last);
        let name = format!("rules of note 8 up to {last}, 1 token");
        rows.push(Row::new(name, &nodes, &rules, vec![0; 4], 0).plain(plain));
    }
    for (count, plain) in [
        (10, true),
        (14, true),
        (18, true),
        (60, false),
        (255, false),
    ] {
        let name = format!("{count} levels without rules, 1 token");
        rows.push(Row::new(name, &levels(count), &[], vec![0; 4], 0).plain(plain));
    }
    for (count, plain) in [(10, true), (60, false)] {
        for length in [64, 256, 1_024, 4_096] {
            let mut nodes = levels(count);
            nodes.push([kind::REPEAT, nodes.len() as u16 - 1, 0, 0]);
            let name = format!("a repeat of {count} levels, {length} tokens");
            rows.push(Row::new(name, &nodes, &[], vec![0; 4 * length], 0).plain(plain));
        }
    }
    rows
}

/// Those of the plain runs.
fn ordinary() -> Vec<Row> {
    let row = |name: &str, nodes: &[[u16; 4]], rules: &[u16], terminals: &[u32]| {
        Row::new(
            format!("{name}, 4,096 tokens"),
            nodes,
            rules,
            tokens(terminals),
            3,
        )
    };
    vec![
        row("right recursion", &LIST, &[4], &[0]),
        row("a repeat", &super::REPEAT, &[], &[0, 1]),
        row("a repeat of 16", &super::alternatives(), &[], &[15]),
        row("aligned blocks", &super::BLOCKS, &[], &[0, 1, 1, 1]),
        row(
            "these with rules",
            &super::RULED_BLOCKS,
            &[7, 2],
            &[0, 1, 1, 1],
        ),
    ]
}

/// Note 8's rules up to this one: rule 0 is a, each other one (the rule before it, then b) or the rule before it.
fn by_rules(last: u16) -> (Vec<[u16; 4]>, Vec<u16>) {
    let mut nodes = vec![[kind::TERMINAL, 0, 0, 0], [kind::TERMINAL, 1, 0, 0]];
    let mut rules = vec![0];
    for before in 0..last {
        let own = nodes.len() as u16;
        nodes.push([kind::RULE, before, 0, 0]);
        nodes.push([kind::SEQUENCE, own, 1, 0]);
        nodes.push([kind::CHOICE, own + 1, own, 0]);
        rules.push(own + 2);
    }
    (nodes, rules)
}

/// The same without rules, so many over a.
fn levels(count: usize) -> Vec<[u16; 4]> {
    let mut nodes = vec![[kind::TERMINAL, 1, 0, 0], [kind::TERMINAL, 0, 0, 0]];
    for _ in 0..count {
        let below = nodes.len() as u16 - 1;
        nodes.push([kind::SEQUENCE, below, 0, 0]);
        nodes.push([kind::CHOICE, below + 1, below, 0]);
    }
    nodes
}
