//! Both readers on the published examples, which `crates/published` runs too and whose expected outcomes it stores.
//!
//! The file's layout is told in `crates/published/src/main.rt`.

use crate::compare::{run_once, same, sets_once};
use trials::generate::{Holds, RunInput, Slice};
use trials::ours;
use trials::second::{self, Reading, Start};

/// The words lent for the captures of an example.
const ROOM: usize = 256;

/// The slice lent for what its run remembers.
const MEMORY: Slice = Slice {
    length: 1_024,
    holds: Holds::Outcomes,
    seed: 1,
};

pub fn published(path: &str) -> Result<(), String> {
    let bytes = std::fs::read(path).map_err(|error| format!("{path}: {error}"))?;
    let stdout = std::path::Path::new(path).with_file_name("../stdout");
    let expected = std::fs::read_to_string(&stdout)
        .map_err(|error| format!("{}: {error}", stdout.display()))?;
    let mut lines = expected.split_inclusive('\n');
    let mut rest = &bytes[..];
    let mut count = 0;
    while !rest.is_empty() {
        let line = record(&mut rest)?;
        if lines.next() != Some(&line) {
            return Err(format!("{line}is not what {} has", stdout.display()));
        }
        count += 1;
    }
    if lines.next().is_some() {
        return Err(format!("{} has more than {count} lines", stdout.display()));
    }
    println!("{count} published examples: no difference");
    Ok(())
}

/// The next bytes, so many.
pub fn taken<'b>(rest: &mut &'b [u8], count: usize) -> Result<&'b [u8], String> {
    if count > rest.len() {
        return Err("a record is cut short".into());
    }
    let (part, behind) = rest.split_at(count);
    *rest = behind;
    Ok(part)
}

/// A number, high byte first.
pub fn number(bytes: &[u8]) -> usize {
    bytes
        .iter()
        .fold(0, |sum, &byte| sum << 8 | usize::from(byte))
}

/// One record's line: the label, and what both readers answer.
fn record(rest: &mut &[u8]) -> Result<String, String> {
    let header = taken(rest, 29)?;
    let label = String::from_utf8_lossy(taken(rest, usize::from(header[1]))?).into_owned();
    let first = taken(rest, number(&header[20..23]))?;
    let second = taken(rest, number(&header[23..26]))?;
    let third = taken(rest, number(&header[26..29]))?;
    let answer = match header[0] {
        b'r' => run(Reading::By2017, header, [first, second, third]),
        b'R' => run(Reading::By2014, header, [first, second, third]),
        b'l' => line(first, second),
        _ => Err("no such call".into()),
    };
    match answer {
        Ok(line) => Ok(format!("{label}: {}", String::from_utf8_lossy(&line))),
        Err(what) => Err(format!("{label}: {what}")),
    }
}

fn line(file: &[u8], report: &[u8]) -> Result<Vec<u8>, String> {
    let line = second::line(file, report);
    same("the line", ours::line(file, report), line, || {
        format!("file {file:?}\nreport {report:?}")
    })
}

fn run(
    reading: Reading,
    header: &[u8],
    [nodes, rules, tokens]: [&[u8]; 3],
) -> Result<Vec<u8>, String> {
    let input = RunInput {
        nodes: nodes.chunks(2).map(|word| number(word) as u16).collect(),
        rules: rules.chunks(2).map(|word| number(word) as u16).collect(),
        tokens: tokens.chunks(4).map(|word| number(word) as u32).collect(),
        reading,
        start: Start {
            node: number(&header[4..6]) as u16,
            place: number(&header[8..12]) as u32,
            lower: number(&header[12..16]) as u32,
            upper: (header[3] != 0).then_some(number(&header[16..20]) as u32),
            flag: header[2] != 0,
            mode: number(&header[6..8]) as u16,
        },
        room: ROOM,
        memory: MEMORY,
    };
    sets_once(&input)?;
    let went = run_once(&input)?.ok_or("the run takes many steps")?;
    Ok(second::line_of(&went.ran))
}
