//! How often each class of answer occurs.

use super::{spellings, FileInput, Holds, ReportInput, RunInput, ShownInput, WriteInput};
use crate::second::kind::*;
use crate::second::relation::{ANY, COUNT, EQUAL};
use crate::second::run::{Interval, State};
use crate::second::Reading::{self, By2014, By2017};
use crate::second::{
    check, read, FileRead, Listed, Outcomes, Ran, Shown, Verdict, MOST_COLUMN, PARTS,
};
use std::collections::{BTreeMap, BTreeSet};
use std::fmt;

/// Counts by part and class of answer.
#[derive(Debug, Clone, Default)]
pub struct Stats {
    counts: BTreeMap<(&'static str, String), u64>,
    totals: BTreeMap<&'static str, u64>,
    /// The longest list, and the most captures around one.
    most_captures: u32,
    most_around: u32,
    /// The bytes of the longest written file.
    most_written: usize,
    /// The most outcomes that a run remembered.
    most_kept: usize,
}

impl Stats {
    fn note(&mut self, part: &'static str, class: String) {
        *self.counts.entry((part, class)).or_default() += 1;
    }

    /// Notes a run's answer, `None` for one that ran out of steps. The stack must do
    /// for a run.
    pub fn note_run(&mut self, input: &RunInput, ran: Option<&Ran>) {
        let part = run_part(input.reading);
        *self.totals.entry(part).or_default() += 1;
        let mut also = |class: &str| self.note(part, class.to_string());
        if with_steps(input) {
            also("with steps");
        }
        let class = match ran {
            None => "out of steps".to_string(),
            Some(Ran::Failure { farthest }) => {
                let (_, seen) = traced(input);
                if seen.past {
                    also("failure, an upper end past 65,535");
                }
                self.note_flags(input, "failure", &seen);
                self.note_farthest(input, None, *farthest);
                "failure".to_string()
            }
            Some(Ran::IllFormed(_)) => "refused 7".to_string(),
            Some(Ran::Refused(number)) => {
                if *number == 16 {
                    self.note_sixteen(input);
                }
                format!("refused {number}")
            }
            Some(Ran::Success {
                read,
                flag,
                farthest,
                ..
            }) => {
                self.note_success(input, *read);
                self.note_farthest(input, Some(*read), *farthest);
                if *flag && input.reading == By2014 {
                    self.note(part, "success, the flag set at the end".to_string());
                }
                "success".to_string()
            }
        };
        self.note(part, class);
    }

    /// Notes of a run by 2014 what the two readings take differently.
    fn note_flags(&mut self, input: &RunInput, class: &str, seen: &Seen) {
        if input.reading == By2017 {
            return;
        }
        for (holds, what) in [
            (seen.set_indent, "an indent under a set flag"),
            (seen.handed, "an align that handed on its own flag"),
        ] {
            if holds {
                self.note(run_part(By2014), format!("{class}, {what}"));
            }
        }
    }

    /// Notes how far a run looked, with so many tokens read, `None` for a failure.
    fn note_farthest(&mut self, input: &RunInput, read: Option<u32>, farthest: u32) {
        let (class, past) = match read {
            Some(_) => ("success", "past its end"),
            None => ("failure", "past the start"),
        };
        let count = input.tokens.len() / 4;
        let end = input.start.place + read.unwrap_or(0);
        for (holds, place) in [
            (farthest as usize == count, "at the token count"),
            (farthest > end, past),
        ] {
            if holds {
                let part = run_part(input.reading);
                self.note(part, format!("{class}, the farthest place {place}"));
            }
        }
    }

    /// Notes why a run by 2014 was refused by 16.
    fn note_sixteen(&mut self, input: &RunInput) {
        let (nodes, _) = input.nodes.as_chunks::<4>();
        let position = nodes.iter().any(|node| node[0] == POSITION);
        let why = match (position, reaches_position(input), input.start.mode) {
            (false, _, _) => "the mode",
            (true, true, EQUAL) => "a position in reach",
            (true, false, EQUAL) => "a position out of reach",
            (true, _, _) => "a position and the mode",
        };
        self.note(run_part(By2014), format!("refused 16: {why}"));
    }

    /// Notes how the answers of the two readings to one input stand to each other.
    pub fn note_readings(&mut self, by_2014: &Ran, by_2017: &Ran) {
        let part = "readings";
        *self.totals.entry(part).or_default() += 1;
        let class = match (by_2014, by_2017) {
            _ if by_2014 == by_2017 => {
                self.note(part, "the same".to_string());
                return;
            }
            (Ran::Success { .. }, Ran::Failure { .. }) => "success by 2014 alone",
            (Ran::Failure { .. }, Ran::Success { .. }) => "success by 2017 alone",
            (Ran::Success { read, .. }, Ran::Success { read: other, .. }) if read != other => {
                "in the tokens read"
            }
            (Ran::Success { flag, .. }, Ran::Success { flag: other, .. }) if flag != other => {
                "in the flag"
            }
            _ if ends(by_2014) != ends(by_2017) => "in the ends alone",
            _ => "in the farthest place alone",
        };
        self.note(part, "differ".to_string());
        self.note(part, format!("differ, {class}"));
    }

    /// Notes how a run with so many tokens read succeeded.
    fn note_success(&mut self, input: &RunInput, read: u32) {
        let (way, seen) = traced(input);
        self.note_flags(input, "success", &seen);
        for (holds, class) in [
            (read >= 2, "2 or more read"),
            (read >= 2 && way.in_layout >= 2, "2 or more read in layout"),
            (read >= 100, "100 or more read"),
            (way.steps, "through a step"),
            (way.steps && way.by_steps >= 1, "a token read by a step"),
            (seen.past, "an upper end past 65,535"),
            (way.rules < seen.rules, "a rule succeeded off the way"),
        ] {
            if holds {
                self.note(run_part(input.reading), format!("success, {class}"));
            }
        }
    }

    /// Notes what a run that lists answered, with its lent words.
    pub fn note_list(&mut self, reading: Reading, listed: &Listed, words: &[u32]) {
        let part = list_part(reading);
        *self.totals.entry(part).or_default() += 1;
        let class = match listed {
            Listed::Failure { .. } => "failure".to_string(),
            Listed::IllFormed(_) => "refused 7".to_string(),
            Listed::Refused(number) => format!("refused {number}"),
            Listed::Success { captures: 0, .. } => "no capture".to_string(),
            Listed::Success { captures, .. } => {
                self.note_captures(part, &words.as_chunks().0[..*captures as usize]);
                "captures".to_string()
            }
        };
        self.note(part, class);
    }

    fn note_captures(&mut self, part: &'static str, captures: &[[u32; 4]]) {
        let around = captures.iter().map(|capture| capture[3]).max().unwrap_or(0);
        self.most_captures = self.most_captures.max(captures.len() as u32);
        self.most_around = self.most_around.max(around);
        let no_token = captures.iter().any(|capture| capture[1] == capture[2]);
        for (holds, class) in [
            (captures.len() >= 10, "10 or more"),
            (captures.len() >= 1_000, "1,000 or more"),
            (around > 2, "more than 2 around one"),
            (no_token, "one that read no token"),
        ] {
            if holds {
                self.note(part, format!("captures, {class}"));
            }
        }
    }

    /// Notes of a run that remembers the slice and, if nothing refused it, what it remembered.
    pub fn note_remember(&mut self, input: &RunInput, outcomes: &Outcomes) {
        let part = remember_part(input.reading);
        *self.totals.entry(part).or_default() += 1;
        self.note(part, length_class(input.memory.length).to_string());
        self.note(part, holds_class(input.memory.holds).to_string());
        self.most_kept = self.most_kept.max(outcomes.kept());
        let used = outcomes.used();
        for (holds, class) in [
            (used >= 1, "an outcome used again"),
            (used >= 10, "10 outcomes or more used again"),
            (used >= 1_000, "1,000 outcomes or more used again"),
        ] {
            if holds {
                self.note(part, class.to_string());
            }
        }
        if outcomes.kept() > LOOKED_THROUGH {
            return;
        }
        for (what, apart) in PARTS.into_iter().zip(outcomes.told_apart()) {
            if apart {
                self.note(part, format!("a success and a failure by {what} alone"));
            }
        }
    }

    /// Notes a run that ends only where it remembers, with or without an end to compare.
    pub fn note_alone(&mut self, reading: Reading, compared: bool) {
        let class = if compared {
            "the plain run out of steps: compared"
        } else {
            "the plain run out of steps: passed over"
        };
        self.note(remember_part(reading), class.to_string());
    }

    /// Notes where a text is shown.
    pub fn note_shown(&mut self, input: &ShownInput, shown: &Shown) {
        *self.totals.entry("shown").or_default() += 1;
        let [_, first, after, _] = input.capture;
        let class = match shown {
            Shown::InFile { .. } if first as usize == input.tokens.len() / 4 => {
                "a name, at the token count".to_string()
            }
            Shown::InFile { .. } => "a name".to_string(),
            Shown::InReport { length: 0, .. } => "no byte of the report".to_string(),
            Shown::InReport { .. } if after - first == 1 => "one token".to_string(),
            Shown::InReport { .. } => "2 or more tokens".to_string(),
            Shown::Refused(14) => format!("refused 14: {}", why_14(input)),
            Shown::Refused(number) => format!("refused {number}"),
        };
        self.note("shown", class);
    }

    /// Notes a file reader's answer, and what spellings of the file are nearly the same.
    pub fn note_file(&mut self, input: &FileInput, answer: &Result<FileRead, u8>) {
        *self.totals.entry("file").or_default() += 1;
        let class = match answer {
            Ok(_) => {
                self.note_alike(&input.file);
                "read".to_string()
            }
            Err(number) => {
                if *number == 2 {
                    self.note_twice(&input.file);
                }
                format!("refused {number}")
            }
        };
        self.note("file", class);
    }

    /// Notes of a file that is read what neighbours in its lists are nearly the same.
    fn note_alike(&mut self, file: &[u8]) {
        let (keywords, names) = spellings(file);
        let near = |words: &[&[u8]]| -> Vec<_> {
            let pairs = words.windows(2);
            pairs.filter_map(|pair| nearly(pair[0], pair[1])).collect()
        };
        let (alike, alike_names) = (near(&keywords), near(&names));
        for what in BTreeSet::from_iter(&alike) {
            self.note("file", format!("read, two keywords alike but for {what}"));
        }
        let most = 2 * alike.len() > keywords.len();
        for (holds, class) in [
            (most && keywords.len() >= 200, "200 keywords or more, most"),
            (most && keywords.len() < 200, "fewer keywords, most"),
            (2 * alike_names.len() > names.len(), "most names"),
        ] {
            if holds {
                self.note("file", format!("read, {class} alike"));
            }
        }
    }

    /// Notes of a file that 2 refuses whether a spelling is there twice, not side by side.
    fn note_twice(&mut self, file: &[u8]) {
        let (keywords, names) = spellings(file);
        for (words, class) in [(keywords, "a keyword"), (names, "a name")] {
            let twice = BTreeSet::from_iter(&words).len() < words.len();
            if twice && words.windows(2).all(|pair| pair[0] != pair[1]) {
                self.note("file", format!("refused 2, {class} twice, far apart"));
            }
        }
    }

    /// Notes a writer's answer: the written file, or a number.
    pub fn note_write(&mut self, input: &WriteInput, answer: &Result<Vec<u8>, u8>) {
        *self.totals.entry("write").or_default() += 1;
        let class = match answer {
            Ok(file) => {
                self.note_written(input, file);
                "written".to_string()
            }
            Err(number) => {
                self.note_faults(input);
                format!("refused {number}")
            }
        };
        self.note("write", class);
    }

    fn note_written(&mut self, input: &WriteInput, file: &[u8]) {
        self.most_written = self.most_written.max(file.len());
        let verdict = check(&input.nodes, &input.rules);
        for (holds, class) in [
            (file == input.lending, "the lending file again"),
            (verdict != Verdict::Passes, "not well formed"),
            (file.len() == input.room, "room for it alone"),
            (file.len() >= 10_000, "10,000 bytes or more"),
        ] {
            if holds {
                self.note("write", format!("written, {class}"));
            }
        }
    }

    /// Notes which checks of a refused call fail by themselves, where several do.
    fn note_faults(&mut self, input: &WriteInput) {
        let faults @ [lending, tables, count, room] = faults(input);
        let several = faults.iter().filter(|&&fault| fault).count() >= 2;
        for (holds, class) in [
            (several, "two faults or more"),
            (lending && tables, "the lending file and the tables"),
            (tables && count, "the tables and 15"),
            (count && room, "15 and 6"),
        ] {
            if holds {
                self.note("write", format!("refused, {class}"));
            }
        }
    }

    /// Notes a scanner's answer, and what of UTF-8 the report holds.
    pub fn note_report(&mut self, input: &ReportInput, answer: &Result<Vec<u32>, u8>) {
        *self.totals.entry("report").or_default() += 1;
        let report = &input.report;
        let mut chunks = report.utf8_chunks();
        let tokens = answer.as_ref().map_or(&[][..], |words| words);
        for (holds, class) in [
            (!report.is_ascii(), "bytes over 127"),
            (
                chunks.any(|chunk| !chunk.valid().is_ascii()),
                "a whole letter outside ASCII",
            ),
            (std::str::from_utf8(report).is_err(), "damaged UTF-8"),
            (
                keyword_outside_ascii(report, tokens),
                "scanned, a keyword outside ASCII",
            ),
        ] {
            if holds {
                self.note("report", class.to_string());
            }
        }
        self.note_misses(input, tokens);
        let class = match answer {
            Ok(tokens) if tokens.len() < 8 => "scanned, under 2 tokens".to_string(),
            Ok(_) => "scanned, 2 or more tokens".to_string(),
            Err(number) => format!("refused {number}"),
        };
        self.note("report", class);
    }

    /// Notes among a report's first tokens those that are nearly a keyword, and whether two
    /// are keywords that are nearly the same.
    fn note_misses(&mut self, input: &ReportInput, tokens: &[u32]) {
        if tokens.is_empty() {
            return;
        }
        let (keywords, _) = spellings(&input.file);
        let (mut near, mut met) = (BTreeSet::new(), Vec::new());
        for &[terminal, _, offset, length] in tokens.as_chunks::<4>().0.iter().take(LOOKED_AT) {
            let word = &input.report[offset as usize..][..length as usize];
            if terminal > 2 {
                met.push(word);
            } else {
                near.extend(keywords.iter().find_map(|keyword| nearly(keyword, word)));
            }
        }
        for what in near {
            self.note("report", format!("scanned, a keyword but for {what}"));
        }
        if met
            .windows(2)
            .any(|pair| nearly(pair[0], pair[1]).is_some())
        {
            self.note("report", "scanned, two keywords alike".to_string());
        }
    }

    /// Notes a program's line, by its first word and a refusal's number.
    pub fn note_line(&mut self, line: &[u8]) {
        *self.totals.entry("line").or_default() += 1;
        let line = String::from_utf8_lossy(line);
        let mut words = line.split_whitespace();
        let class = match (words.next(), words.next()) {
            (Some("refused"), Some(number)) => format!("refused {number}"),
            (Some("success"), Some("0" | "1")) => "success, under 2 read".to_string(),
            (Some("success"), _) => "success, 2 or more read".to_string(),
            (first, _) => first.unwrap_or_default().to_string(),
        };
        self.note("line", class);
    }

    /// The share of a class among all answers of its part, in percent.
    pub fn share(&self, part: &'static str, class: &str) -> f64 {
        let count = self.counts.get(&(part, class.to_string()));
        let total = self.totals.get(part).copied().unwrap_or(0);
        100.0 * count.copied().unwrap_or(0) as f64 / total.max(1) as f64
    }
}

impl fmt::Display for Stats {
    fn fmt(&self, f: &mut fmt::Formatter<'_>) -> fmt::Result {
        for ((part, class), count) in &self.counts {
            let share = self.share(part, class);
            writeln!(f, "{part:>12}: {share:6.2} %  {count:>7}  {class}")?;
        }
        if self.most_captures > 0 {
            let (most, around) = (self.most_captures, self.most_around);
            writeln!(
                f,
                "{:>12}: {most} captures at most, {around} around one",
                "list"
            )?;
        }
        if self.most_kept > 0 {
            writeln!(f, "{:>12}: {} outcomes at most", "remember", self.most_kept)?;
        }
        if self.most_written > 0 {
            writeln!(f, "{:>12}: {} bytes at most", "write", self.most_written)?;
        }
        Ok(())
    }
}

/// The runs of a reading.
fn run_part(reading: Reading) -> &'static str {
    match reading {
        By2017 => "run",
        By2014 => "run by 2014",
    }
}

/// Both ends of a success.
fn ends(ran: &Ran) -> Option<(u32, Option<u32>)> {
    match *ran {
        Ran::Success { lower, upper, .. } => Some((lower, upper)),
        _ => None,
    }
}

/// The lists of a reading.
fn list_part(reading: Reading) -> &'static str {
    match reading {
        By2017 => "list",
        By2014 => "list by 2014",
    }
}

/// The runs of a reading that remember.
fn remember_part(reading: Reading) -> &'static str {
    match reading {
        By2017 => "remember",
        By2014 => "remember 2014",
    }
}

/// The class of a slice by its length.
fn length_class(length: usize) -> &'static str {
    match length {
        0 => "lent no word",
        1 => "lent 1 word",
        2..=31 => "lent 2 to 31 words",
        32..=255 => "lent 32 to 255 words",
        256..=1_022 => "lent 256 to 1,022 words",
        1_023..=4_094 => "lent 1,023 to 1,025 words",
        4_095..=4_097 => "lent 4,095 to 4,097 words",
        _ => "lent 65,536 words",
    }
}

/// The class of a slice by what it holds.
fn holds_class(holds: Holds) -> &'static str {
    match holds {
        Holds::Zeros => "holds zeros",
        Holds::Ones => "holds ones",
        Holds::Any => "holds any words",
        Holds::Small => "holds small numbers",
        Holds::Outcomes => "holds rows like outcomes",
    }
}

/// Whether a position of a table that passes is the start's node or inside it, through rules
/// too.
fn reaches_position(input: &RunInput) -> bool {
    let (nodes, _) = input.nodes.as_chunks::<4>();
    let mut met = vec![false; nodes.len()];
    let mut left = vec![input.start.node];
    while let Some(node) = left.pop() {
        let node = usize::from(node);
        if std::mem::replace(&mut met[node], true) {
            continue;
        }
        match nodes[node] {
            [POSITION, ..] => return true,
            [EMPTY | TERMINAL, ..] => {}
            [RULE, rule, ..] => left.push(input.rules[usize::from(rule)]),
            [SEQUENCE | CHOICE, a, b, _] => left.extend([a, b]),
            [_, a, ..] => left.push(a),
        }
    }
    false
}

/// Whether a report's tokens have a keyword with a byte over 127.
fn keyword_outside_ascii(report: &[u8], tokens: &[u32]) -> bool {
    let (tokens, _) = tokens.as_chunks::<4>();
    tokens.iter().any(|&[terminal, _, offset, length]| {
        terminal >= 3 && !report[offset as usize..][..length as usize].is_ascii()
    })
}

/// The outcomes of a run that are held against one another, if there are no more.
const LOOKED_THROUGH: usize = 1_000;

/// The tokens of a report that are held against every keyword.
const LOOKED_AT: usize = 12;

/// In what spellings differ that are nearly the same.
pub const NEARLY: [&str; 6] = [
    "the last byte",
    "the first byte",
    "a byte between",
    "a byte behind",
    "a byte ahead",
    "the order of two bytes",
];

/// In what two spellings of four bytes or more differ that are nearly the same.
fn nearly(one: &[u8], two: &[u8]) -> Option<&'static str> {
    let (short, long) = match one.len() < two.len() {
        true => (one, two),
        false => (two, one),
    };
    if short.len() < 4 || long.len() > short.len() + 1 {
        return None;
    }
    if long.len() > short.len() {
        return match (long.starts_with(short), long.ends_with(short)) {
            (true, _) => Some(NEARLY[3]),
            (_, true) => Some(NEARLY[4]),
            _ => None,
        };
    }
    let mut places = (0..one.len()).filter(|&at| one[at] != two[at]);
    match (places.next()?, places.next(), places.next()) {
        (at, None, _) if at + 1 == one.len() => Some(NEARLY[0]),
        (0, None, _) => Some(NEARLY[1]),
        (_, None, _) => Some(NEARLY[2]),
        (at, Some(next), None) if one[at] == two[next] && one[next] == two[at] => Some(NEARLY[5]),
        _ => None,
    }
}

/// Why a capture's text is not there.
fn why_14(input: &ShownInput) -> &'static str {
    let [rule, first, after, _] = input.capture.map(|word| word as usize);
    let rules = read(&input.file, usize::MAX, usize::MAX).map_or(0, |read| read.rules.len());
    let (tokens, _) = input.tokens.as_chunks::<4>();
    if rule >= rules {
        "the rule"
    } else if first > tokens.len() || after > tokens.len() {
        "a token place"
    } else if first > after {
        "the first after the last"
    } else if tokens[first..after].is_sorted_by_key(|token| token[2]) {
        "the end"
    } else {
        "an offset"
    }
}

/// What of a writer's call fails by itself: the lending file by 1 to 5, the tables and the
/// start by 3 to 5, 15, and 6 for the file with the names that are lent to it. Where fewer
/// rules are to be written, or no names are there, 6 counts for one without any.
fn faults(input: &WriteInput) -> [bool; 4] {
    let count = input.nodes.len() / 4;
    let tables = matches!(check(&input.nodes, &input.rules), Verdict::Refused(_));
    let start = usize::from(input.node) >= count || input.mode >= COUNT;
    let lent = read(&input.lending, usize::MAX, usize::MAX).ok();
    let rules = lent.as_ref().map(|lent| lent.rules.len());
    let names = match &lent {
        Some(lent) if lent.rules.len() <= input.rules.len() => {
            input.lending.len() - 9 * lent.nodes.len() / 4
        }
        _ => 10,
    };
    [
        lent.is_none(),
        tables || start,
        rules.is_some_and(|rules| rules != input.rules.len()),
        input.room < names + 9 * count,
    ]
}

/// Whether a number is a step's.
fn is_step(relation: u16) -> bool {
    ANY < relation && relation < COUNT
}

/// Whether a table has a step, or the start's mode is one.
fn with_steps(input: &RunInput) -> bool {
    let (nodes, _) = input.nodes.as_chunks::<4>();
    let mut layout = nodes
        .iter()
        .filter(|node| matches!(node[0], INDENT | POSITION));
    is_step(input.start.mode) || layout.any(|node| is_step(node[3]))
}

/// What lies on the way to a success.
#[derive(Clone, Copy, Default)]
struct Way {
    /// The tokens read inside an indent, a position or an align.
    in_layout: usize,
    /// The tokens read inside an indent by a step, or with a step as their mode.
    by_steps: usize,
    /// Whether an indent by a step succeeded, or a token with a step as its mode.
    steps: bool,
    /// The rules that succeeded.
    rules: u64,
}

/// What lies around an expression.
#[derive(Clone, Copy, Default)]
struct Around {
    layout: bool,
    step: bool,
}

/// What was met somewhere in a run, on the way or off it.
#[derive(Clone, Copy, Default)]
struct Seen {
    /// Whether a finite upper end was past 65,535.
    past: bool,
    /// The rules that succeeded.
    rules: u64,
    /// Whether an indent was met under a set flag.
    set_indent: bool,
    /// Whether an align was met under a clear flag and its child left it set.
    handed: bool,
}

/// The way to a run's success, none after a failure, and what was met.
fn traced(input: &RunInput) -> (Way, Seen) {
    let start = &input.start;
    let state = State {
        interval: Interval {
            lower: start.lower,
            upper: start.upper,
        },
        place: start.place as u16,
        flag: start.flag,
    };
    let mut trace = Trace {
        input,
        seen: Seen::default(),
    };
    let begin = (state, Way::default());
    let end = trace.expression(start.node, start.mode, begin, Around::default());
    (end.unwrap_or(begin).1, trace.seen)
}

/// The clauses once more, to see what lies on the way.
struct Trace<'i> {
    input: &'i RunInput,
    seen: Seen,
}

impl Trace<'_> {
    fn expression(
        &mut self,
        node: u16,
        mode: u16,
        at: (State, Way),
        around: Around,
    ) -> Option<(State, Way)> {
        let words = &self.input.nodes[4 * usize::from(node)..][..4];
        let (a, b, relation) = (words[1], words[2], words[3]);
        let in_layout = Around {
            layout: true,
            ..around
        };
        match words[0] {
            EMPTY => Some(at),
            TERMINAL => self.terminal(a, mode, at, around),
            RULE => {
                let node = self.input.rules[usize::from(a)];
                let (end, mut way) = self.expression(node, mode, at, around)?;
                self.seen.rules += 1;
                way.rules += 1;
                Some((end, way))
            }
            SEQUENCE => {
                let between = self.expression(a, mode, at, around)?;
                self.expression(b, mode, between, around)
            }
            CHOICE => match self.expression(a, mode, at, around) {
                None => self.expression(b, mode, at, around),
                end => end,
            },
            NOT => match self.expression(a, mode, at, around) {
                Some(_) => None,
                None => Some(at),
            },
            REPEAT => {
                let mut at = at;
                while let Some(end) = self.expression(a, mode, at, around) {
                    at = end;
                }
                Some(at)
            }
            INDENT => self.indent((a, relation), mode, at, around),
            POSITION => self.expression(a, relation, at, in_layout),
            _ => {
                let inside = State { flag: true, ..at.0 };
                let (end, way) = self.expression(a, mode, (inside, at.1), in_layout)?;
                self.seen.handed |= end.flag && !at.0.flag;
                let flag = end.flag && (at.0.flag || self.input.reading == By2014);
                Some((State { flag, ..end }, way))
            }
        }
    }

    fn terminal(
        &self,
        a: u16,
        mode: u16,
        (state, mut way): (State, Way),
        around: Around,
    ) -> Option<(State, Way)> {
        let token = self.input.tokens.get(4 * usize::from(state.place)..)?;
        if token.first() != Some(&u32::from(a)) {
            return None;
        }
        let end = state.read(token[1], mode)?;
        let by_mode = is_step(mode) && !state.flag;
        way.in_layout += usize::from(around.layout);
        way.by_steps += usize::from(around.step || by_mode);
        way.steps |= by_mode;
        Some((end, way))
    }

    fn indent(
        &mut self,
        (a, relation): (u16, u16),
        mode: u16,
        (state, way): (State, Way),
        around: Around,
    ) -> Option<(State, Way)> {
        self.seen.set_indent |= state.flag;
        if state.flag && self.input.reading == By2014 {
            let in_layout = Around {
                layout: true,
                ..around
            };
            return self.expression(a, mode, (state, way), in_layout);
        }
        let interval = state.interval.inner(relation);
        self.seen.past |= interval.upper.is_some_and(|upper| upper > MOST_COLUMN);
        let inside = State { interval, ..state };
        let by_step = Around {
            layout: true,
            step: around.step || is_step(relation),
        };
        let (end, mut way) = self.expression(a, mode, (inside, way), by_step)?;
        way.steps |= is_step(relation);
        let interval = state.interval.meet(end.interval.outer(relation));
        Some((State { interval, ..end }, way))
    }
}
