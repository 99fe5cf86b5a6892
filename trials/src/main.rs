//! The trials.
//!
//!     trials compare SEED RUNS FILES    both readers on generated inputs: runs with their lists and as they remember,
//!                                       three for ten of them by 2014 besides, and as many reports, shown texts and
//!                                       writes as files
//!     trials published CASES            both readers on the published examples
//!     trials program READER CASES DIR   the program on stored pairs, in a folder that it may fill
//!     trials round CASES                published examples, the deepest runs and a short round of generated inputs
//!     trials bench                      both readers' time for the same work
//!     trials bench remember             of these the runs that remember
//!     trials bench once ROW WORDS       one run of such a row, which a bench ends where it takes long

mod bench;
mod compare;
mod deep;
mod program;
mod published;

use std::process::ExitCode;

/// The stack of each thread that runs are made on.
const STACK: usize = 2 << 30;

const USAGE: &str = "usage: trials compare SEED RUNS FILES | published CASES | program READER CASES DIR | round CASES | bench [remember]";

/// The short round's seed, and how many runs and files it compares.
const ROUND: (u64, u64, u64) = (1, 200_000, 30_000);

fn trials(words: &[&str]) -> Result<(), String> {
    match words {
        ["compare", seed, runs, files] => {
            let number = |word: &str| word.parse().map_err(|_| format!("{word} is no number"));
            compare::compare(number(seed)?, number(runs)?, number(files)?)
        }
        ["published", cases] => published::published(cases),
        ["program", reader, cases, folder] => program::program(reader, cases, folder),
        ["round", cases] => {
            published::published(cases)?;
            deep::deep()?;
            compare::compare(ROUND.0, ROUND.1, ROUND.2)
        }
        ["bench"] => bench::bench(),
        ["bench", "remember"] => bench::remember::bench(),
        ["bench", "once", row, words] => bench::remember::once(row, words),
        _ => Err(USAGE.into()),
    }
}

fn main() -> ExitCode {
    let words: Vec<String> = std::env::args().skip(1).collect();
    let thread = std::thread::Builder::new()
        .stack_size(STACK)
        .spawn(move || trials(&words.iter().map(String::as_str).collect::<Vec<_>>()));
    match thread.expect("a thread with a large stack").join() {
        Ok(Ok(())) => ExitCode::SUCCESS,
        Ok(Err(message)) => {
            eprintln!("{message}");
            ExitCode::FAILURE
        }
        Err(_) => ExitCode::FAILURE,
    }
}
