//! Both readers on generated inputs, runs beside files and reports, each up to its first difference.

use std::fmt::Debug;
use trials::generate::{
    file_input, report_input, run_input, run_input_by_2014, shown_input, spellings, write_input,
    FileInput, ReportInput, Rng, RunInput, ShownInput, Spellings, Stats, WriteInput, MOST_WORDS,
};
use trials::ours::{self, Odd};
use trials::second::{self, sets, FileRead, Listed, Outcomes, Ran, Reading, Shown};

/// Grammars may take time that doubles with each token: inputs on which a run enters more expressions are passed over.
const MOST_STEPS: u64 = 200_000;

/// Where such a run remembers at most so many outcomes, it is compared as it remembers, lent the longest slice.
const MOST_OUTCOMES: usize = 2_000;

/// Each seventh run is made over sets of columns too, and lists its captures there.
const SETS_EACH: u64 = 7;

/// For ten runs by 2017 so many are made by 2014 besides, on inputs of their own.
const BY_2014: u64 = 3;

/// Runs on one thread, files and reports on another. Each has its own inputs, so that what is compared does not depend on
/// which is faster.
pub fn compare(seed: u64, runs: u64, files: u64) -> Result<(), String> {
    let other = std::thread::Builder::new()
        .stack_size(crate::STACK)
        .spawn(move || over_files(seed, files))
        .map_err(|what| what.to_string())?;
    let ran = over_runs(seed, runs);
    let read = other.join().map_err(|_| "a comparison stopped")?;
    match (ran, read) {
        (Ok(ran), Ok(read)) => {
            print!("{ran}{read}");
            Ok(())
        }
        (Err(what), Err(also)) => Err(format!("{what}\n{also}")),
        (Err(what), _) | (_, Err(what)) => Err(what),
    }
}

fn over_runs(seed: u64, runs: u64) -> Result<Stats, String> {
    let mut stats = Stats::default();
    compare_runs(seed, runs, Reading::By2017, &mut stats)?;
    compare_runs(seed, runs * BY_2014 / 10, Reading::By2014, &mut stats)?;
    Ok(stats)
}

fn over_files(seed: u64, files: u64) -> Result<Stats, String> {
    let mut stats = Stats::default();
    compare_files(seed, files, &mut stats)?;
    compare_reports(seed, files, &mut stats)?;
    compare_shown(seed, files, &mut stats)?;
    compare_writes(seed, files, &mut stats)?;
    Ok(stats)
}

/// As many runs by a reading as are asked for, with the check and the list of each, and as it remembers. Those by 2014
/// that nothing refuses are made by 2017 too.
fn compare_runs(seed: u64, runs: u64, reading: Reading, stats: &mut Stats) -> Result<(), String> {
    let (next, by): (fn(&mut Rng) -> RunInput, _) = match reading {
        Reading::By2017 => (run_input, ""),
        Reading::By2014 => (run_input_by_2014, " by 2014"),
    };
    let mut rng = Rng::new(seed);
    let (mut compared, mut over_sets, mut passed_over, mut alone) = (0, 0, 0, 0);
    while compared < runs {
        let input = next(&mut rng);
        let found = |what| format!("seed {seed}, run {}{by}: {what}", compared + passed_over);
        let Some(went) = run_once(&input).map_err(found)? else {
            stats.note_run(&input, None);
            let remembered = alone_once(input).map_err(found)?;
            stats.note_alone(reading, remembered);
            alone += u64::from(remembered);
            passed_over += 1;
            continue;
        };
        stats.note_run(&input, Some(&went.ran));
        stats.note_list(reading, &went.listed, &went.words);
        stats.note_remember(&input, &went.outcomes);
        if compared % SETS_EACH == 0 {
            sets_once(&input).map_err(found)?;
            over_sets += 1;
        }
        if reading == Reading::By2014 && !is_refused(&went.ran) {
            by_2017_too(input, &went.ran, stats).map_err(found)?;
        }
        compared += 1;
    }
    println!(
        "seed {seed}: {compared} runs and lists{by}, {over_sets} of them over sets too, no difference; \
         {passed_over} passed over, {alone} of them compared as they remember"
    );
    Ok(())
}

fn is_refused(ran: &Ran) -> bool {
    matches!(ran, Ran::Refused(_) | Ran::IllFormed(_))
}

/// The input of a run by 2014, by 2017: how the answers stand to each other.
fn by_2017_too(mut input: RunInput, by_2014: &Ran, stats: &mut Stats) -> Result<(), String> {
    input.reading = Reading::By2017;
    if let Some(went) = run_once(&input)? {
        stats.note_readings(by_2014, &went.ran);
    }
    Ok(())
}

/// As many grammar files as are asked for.
fn compare_files(seed: u64, files: u64, stats: &mut Stats) -> Result<(), String> {
    let mut rng = Rng::new(seed);
    for i in 0..files {
        let input = file_input(&mut rng);
        let read = file_once(&input).map_err(|what| format!("seed {seed}, file {i}: {what}"))?;
        stats.note_file(&input, &read);
    }
    println!("seed {seed}: {files} files, no difference");
    Ok(())
}

/// As many reports as are asked for, each with the line of its file and itself.
fn compare_reports(seed: u64, reports: u64, stats: &mut Stats) -> Result<(), String> {
    let mut rng = Rng::new(seed);
    let mut lines = 0;
    for i in 0..reports {
        let input = report_input(&mut rng);
        let line = report_once(&input, stats)
            .map_err(|what| format!("seed {seed}, report {i}: {what}"))?;
        lines += u64::from(line);
    }
    println!("seed {seed}: {reports} reports, {lines} lines, no difference");
    Ok(())
}

/// As many shown texts as are asked for.
fn compare_shown(seed: u64, texts: u64, stats: &mut Stats) -> Result<(), String> {
    let mut rng = Rng::new(seed);
    for i in 0..texts {
        let input = shown_input(&mut rng);
        let shown = shown_once(&input).map_err(|what| format!("seed {seed}, text {i}: {what}"))?;
        stats.note_shown(&input, &shown);
    }
    println!("seed {seed}: {texts} shown texts, no difference");
    Ok(())
}

/// As many writes as are asked for.
fn compare_writes(seed: u64, writes: u64, stats: &mut Stats) -> Result<(), String> {
    let mut rng = Rng::new(seed);
    for i in 0..writes {
        let input = write_input(&mut rng);
        let written =
            write_once(&input).map_err(|what| format!("seed {seed}, write {i}: {what}"))?;
        stats.note_write(&input, &written);
    }
    println!("seed {seed}: {writes} writes, no difference");
    Ok(())
}

/// Both answers are the same, or the input's bytes with both answers.
pub fn same<T: PartialEq + Debug>(
    part: &str,
    ours: Result<T, Odd>,
    second: T,
    bytes: impl Fn() -> String,
) -> Result<T, String> {
    if ours.as_ref() == Ok(&second) {
        return Ok(second);
    }
    Err(format!(
        "{part} differs\nours:   {ours:?}\nsecond: {second:?}\n{}",
        bytes()
    ))
}

/// What a run gave, and what it gave as it listed, with the words lent for its captures, and as it remembered.
pub struct Went {
    pub ran: Ran,
    pub listed: Listed,
    pub words: Vec<u32>,
    pub outcomes: Outcomes,
}

/// The check, the run and the list of a table, and the run that remembers. No answer is given where the run takes too many
/// steps.
pub fn run_once(input: &RunInput) -> Result<Option<Went>, String> {
    let (nodes, rules, tokens, reading, start) = input.parts();
    let bytes = || told(input);
    same(
        "the check",
        ours::check(nodes, rules),
        second::check(nodes, rules),
        bytes,
    )?;
    let Some(ran) = second::run_within(nodes, rules, tokens, reading, start, MOST_STEPS) else {
        return Ok(None);
    };
    let ours = ours::run(nodes, rules, tokens, reading, start);
    let ran = same("the run", ours, ran, bytes)?;

    let mut words = vec![ours::TOKEN_WORD; input.room];
    let listed = second::list(nodes, rules, tokens, reading, start, &mut words);
    let ours = ours::list(nodes, rules, tokens, reading, start, input.room);
    let (listed, words) = same("the list", ours, (listed, words), bytes)?;
    let run_of = run_of(&listed, &ran);
    same("the run of the list", Ok(run_of), ran, bytes)?;

    let remembered = Remembered::within_steps(input).ok_or("the steps have run out")?;
    let both = "the second reader's run that remembers";
    same(both, Ok(remembered.ran), ran, bytes)?;
    remembered.same_as_ours(input)?;
    Ok(Some(Went {
        ran,
        listed,
        words,
        outcomes: remembered.outcomes,
    }))
}

/// What a run that remembers gave, with the words of its slice before and after.
struct Remembered {
    ran: Ran,
    outcomes: Outcomes,
    held: Vec<u32>,
    words: Vec<u32>,
}

impl Remembered {
    /// The second reader's, unless it takes too many steps.
    fn within_steps(input: &RunInput) -> Option<Self> {
        let (nodes, rules, tokens, reading, start) = input.parts();
        let held = input.memory.words(start);
        let mut words = held.clone();
        let memory = &mut words;
        let within =
            second::remember_within(nodes, rules, tokens, reading, start, memory, MOST_STEPS);
        within.map(|(ran, outcomes)| Remembered {
            ran,
            outcomes,
            held,
            words,
        })
    }

    /// Ours gives the same, each word of the slice too. Of all that differ the first is told.
    fn same_as_ours(&self, input: &RunInput) -> Result<(), String> {
        let (nodes, rules, tokens, reading, start) = input.parts();
        let ours = ours::remember(nodes, rules, tokens, reading, start, &self.held);
        let ours = ours.map(|(ran, words)| {
            let mut both = words.into_iter().zip(&self.words).enumerate();
            (ran, both.find(|(_, (one, two))| one != *two))
        });
        let second = (self.ran, None);
        same("the run that remembers", ours, second, || told(input)).map(|_| ())
    }
}

/// A run that remembers where the plain one takes too many steps: whether it takes few enough to be compared.
fn alone_once(mut input: RunInput) -> Result<bool, String> {
    input.memory.length = MOST_WORDS;
    match Remembered::within_steps(&input) {
        Some(remembered) if remembered.outcomes.kept() <= MOST_OUTCOMES => {
            remembered.same_as_ours(&input).map(|()| true)
        }
        _ => Ok(false),
    }
}

fn told(input: &RunInput) -> String {
    let (nodes, rules, tokens, reading, start) = input.parts();
    let (room, memory) = (input.room, &input.memory);
    format!(
        "{room} words lent, {memory:?}\n\
         nodes {nodes:?}\nrules {rules:?}\ntokens {tokens:?}\n{reading:?} {start:?}"
    )
}

/// The run by its list. After 13 nothing is known of it but that it succeeds, as `ran` does.
fn run_of(listed: &Listed, ran: &Ran) -> Ran {
    match *listed {
        Listed::Refused(13) if matches!(ran, Ran::Success { .. }) => *ran,
        Listed::Refused(number) => Ran::Refused(number),
        Listed::IllFormed(node) => Ran::IllFormed(node),
        Listed::Failure { farthest } => Ran::Failure { farthest },
        Listed::Success {
            read,
            lower,
            upper,
            flag,
            farthest,
            ..
        } => Ran::Success {
            read,
            lower,
            upper,
            flag,
            farthest,
        },
    }
}

/// The run over sets and ours are alike: both succeed or both fail, with the same tokens read, flag, farthest place and
/// captures, and the set has the numbers between our ends. Few steps are known to do for the run.
pub fn sets_once(input: &RunInput) -> Result<(), String> {
    let (nodes, rules, tokens, reading, start) = input.parts();
    let (over, captures) = sets::list_within(nodes, rules, tokens, reading, start, u64::MAX)
        .ok_or("the steps have run out")?;
    let list = captures.as_flattened();
    let ours = ours::list(nodes, rules, tokens, reading, start, list.len());
    let alike = match (&ours, &over) {
        (
            Ok((Listed::Failure { farthest }, _)),
            sets::SetRan::Failure {
                farthest: farthest_over,
            },
        ) => farthest == farthest_over && list.is_empty(),
        (Ok((Listed::Refused(x), _)), sets::SetRan::Refused(y)) => x == y,
        (Ok((Listed::IllFormed(x), _)), sets::SetRan::IllFormed(y)) => x == y,
        (
            Ok((
                Listed::Success {
                    read,
                    lower,
                    upper,
                    flag,
                    farthest,
                    captures: count,
                },
                words,
            )),
            sets::SetRan::Success {
                read: read_over,
                set,
                flag: flag_over,
                farthest: farthest_over,
            },
        ) => {
            // The runs of a set list it exactly.
            let ends = (u64::from(*lower), upper.map(u64::from));
            read == read_over
                && flag == flag_over
                && farthest == farthest_over
                && set.runs() == [ends]
                && *count as usize == captures.len()
                && words == list
        }
        _ => false,
    };
    if alike {
        return Ok(());
    }
    Err(format!(
        "the run over sets is not alike\nours: {ours:?}\nsets: {over:?} {list:?}\n{}",
        told(input)
    ))
}

/// The file reader.
fn file_once(input: &FileInput) -> Result<Result<FileRead, u8>, String> {
    let FileInput {
        file,
        node_room,
        rule_room,
    } = input;
    let bytes = || format!("{node_room} and {rule_room} words lent\nfile {file:?}");
    names_once(file)?;
    let read = second::read(file, *node_room, *rule_room);
    same(
        "the read",
        ours::read(file, *node_room, *rule_room),
        read,
        bytes,
    )
}

/// The keywords and rule names of a file that the second reader reads, and none behind the last one. Any other file has
/// none.
fn names_once(file: &[u8]) -> Result<(), String> {
    let read = second::read(file, usize::MAX, usize::MAX);
    let names = read.map_or((vec![], vec![]), |_| spellings(file));
    has_names(file, &names, listed)
}

/// A file has these keywords and rule names, those that are chosen, and none behind the last one. Not all are: each call
/// checks the whole file.
fn has_names(file: &[u8], (keywords, names): &Spellings, chosen: Chosen) -> Result<(), String> {
    let bytes = || format!("file {file:?}");
    let (mut text, mut terminals) = (Vec::new(), Vec::new());
    for (k, word) in chosen(keywords) {
        same("a keyword", ours::keyword(file, k), word.to_vec(), bytes)?;
        if !word.is_empty() {
            text.extend([word, b" "].concat());
            terminals.push(3 + k as u32);
        }
    }
    if !text.is_empty() {
        // By itself a keyword is a token, whose terminal is 3 and the keyword's number; the line's end is the last.
        terminals.push(2);
        let tokens = second::scan(file, &text, 4 * terminals.len()).unwrap_or_default();
        let scanned = tokens.as_chunks::<4>().0.iter().map(|token| token[0]);
        same("keywords' tokens", Ok(terminals), scanned.collect(), bytes)?;
    }
    for (r, word) in chosen(names) {
        same(
            "a rule name",
            ours::rule_name(file, r),
            word.to_vec(),
            bytes,
        )?;
    }
    Ok(())
}

/// Words of a list with their numbers, and numbers behind the last with no bytes.
type Chosen = for<'f> fn(&[&'f [u8]]) -> Vec<(usize, &'f [u8])>;

/// Of a list at most so many words, spread over it, and the last.
const LISTED: usize = 8;

/// Words with their numbers, and two numbers behind the last with no bytes.
fn listed<'f>(words: &[&'f [u8]]) -> Vec<(usize, &'f [u8])> {
    let each = words.len().div_ceil(LISTED).max(1);
    let taken = |i: usize| i.is_multiple_of(each) || i + 1 == words.len();
    let inside = words.iter().copied().enumerate().filter(|(i, _)| taken(*i));
    let behind = [words.len(), usize::MAX].map(|i| (i, &[][..]));
    inside.chain(behind).collect()
}

/// The first word, the last, and the number behind it.
fn few<'f>(words: &[&'f [u8]]) -> Vec<(usize, &'f [u8])> {
    let all = words.iter().copied().enumerate();
    let inside = all.filter(|(i, _)| *i == 0 || i + 1 == words.len());
    inside.chain([(words.len(), &[][..])]).collect()
}

/// The scanner, and the program's line where its run takes few steps: whether it does.
fn report_once(input: &ReportInput, stats: &mut Stats) -> Result<bool, String> {
    let ReportInput { file, report, room } = input;
    let bytes = || format!("{room} words lent\nfile {file:?}\nreport {report:?}");
    let scanned = same(
        "the scan",
        ours::scan(file, report, *room),
        second::scan(file, report, *room),
        bytes,
    )?;
    stats.note_report(input, &scanned);
    let Some(line) = second::line_within(file, report, MOST_STEPS) else {
        return Ok(false);
    };
    stats.note_line(&same("the line", ours::line(file, report), line, bytes)?);
    Ok(true)
}

/// The shown text: where it lies, and its bytes.
fn shown_once(input: &ShownInput) -> Result<Shown, String> {
    let ShownInput {
        file,
        report,
        tokens,
        capture,
    } = input;
    let bytes = || format!("{capture:?}\ntokens {tokens:?}\nfile {file:?}\nreport {report:?}");
    same(
        "the text",
        ours::text(file, report, tokens, *capture),
        second::text(file, report, tokens, *capture),
        bytes,
    )?;
    same(
        "the text's place",
        ours::shown(file, report, tokens, *capture),
        second::shown(file, report, tokens, *capture),
        bytes,
    )
}

/// The writer: the written file, or a number. A file is read back, and written again.
fn write_once(input: &WriteInput) -> Result<Result<Vec<u8>, u8>, String> {
    let (answer, mut lent) = written_by_both(input)?;
    let Ok(count) = answer else {
        return Ok(answer.map(|_| lent));
    };
    lent.truncate(count);
    let read = read_back(input, &lent)?;
    written_again(input, &read, &lent)?;
    Ok(Ok(lent))
}

/// What both writers answer, with every lent byte as it is after the call.
fn written_by_both(input: &WriteInput) -> Result<(Result<usize, u8>, Vec<u8>), String> {
    let WriteInput {
        lending,
        nodes,
        rules,
        node,
        mode,
        room,
    } = input;
    let mut lent = vec![ours::BYTE; *room];
    let answer = second::write(lending, nodes, rules, *node, *mode, &mut lent);
    let ours = ours::write(lending, nodes, rules, *node, *mode, *room);
    same("the write", ours, (answer, lent), || format!("{input:?}"))
}

/// Both readers read from a written file what was given, with the keywords and names that were lent. If that is what they
/// read from the lending file, the written one is the same.
fn read_back(input: &WriteInput, file: &[u8]) -> Result<FileRead, String> {
    let bytes = || format!("{input:?}\nfile {file:?}");
    let names = spellings(&input.lending);
    let given = FileRead {
        nodes: input.nodes.clone(),
        rules: input.rules.clone(),
        keywords: names.0.len(),
        start: input.node,
        mode: input.mode,
    };
    let room = (given.nodes.len(), given.rules.len());
    let read = second::read(file, room.0, room.1);
    let read = same(
        "reading back",
        ours::read(file, room.0, room.1),
        read,
        bytes,
    )?;
    let read = read.map_err(|number| format!("read back: refused {number}\n{}", bytes()))?;
    same("what is read back", Ok(&read), &given, bytes)?;
    same("what was lent", Ok(&spellings(file)), &names, bytes)?;
    has_names(file, &names, few)?;
    if second::read(&input.lending, room.0, room.1) == Ok(given) {
        let lending = &input.lending[..];
        same("the lending file again", Ok(file), lending, bytes)?;
    }
    Ok(read)
}

/// What was read from a written file, written again with the same file or with the written one lending the names, gives
/// the same bytes and needs no room behind them.
fn written_again(input: &WriteInput, read: &FileRead, file: &[u8]) -> Result<(), String> {
    for lending in [&input.lending[..], file] {
        let again = WriteInput {
            lending: lending.to_vec(),
            nodes: read.nodes.clone(),
            rules: read.rules.clone(),
            node: read.start,
            mode: read.mode,
            room: file.len(),
        };
        let bytes = || format!("{again:?}\nof {input:?}");
        let (answer, lent) = written_by_both(&again)?;
        same("the length", Ok(answer.ok()), Some(file.len()), bytes)?;
        same("the file again", Ok(&lent[..]), file, bytes)?;
    }
    Ok(())
}
