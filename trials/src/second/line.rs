//! The program over the four parts, as a function from its two inputs to its line. It
//! runs by 2017.

use super::{
    check, read, run, run_within, scan, FileRead, Ran, Reading, Start, Verdict, MOST_NODES,
    MOST_RULES, MOST_TOKENS,
};

/// The program's line for a grammar file and a report, with its line break.
pub fn line(file: &[u8], report: &[u8]) -> Vec<u8> {
    match parts(file, report) {
        Ok((grammar, tokens)) => {
            let start = Start::from_first(grammar.start, grammar.mode);
            line_of(&run(
                &grammar.nodes,
                &grammar.rules,
                &tokens,
                Reading::By2017,
                &start,
            ))
        }
        Err(refused) => line_of(&refused),
    }
}

/// As `line`, but `None` where the run enters more than `steps` expressions.
pub fn line_within(file: &[u8], report: &[u8], steps: u64) -> Option<Vec<u8>> {
    match parts(file, report) {
        Ok((grammar, tokens)) => {
            let start = Start::from_first(grammar.start, grammar.mode);
            let ran = run_within(
                &grammar.nodes,
                &grammar.rules,
                &tokens,
                Reading::By2017,
                &start,
                steps,
            )?;
            Some(line_of(&ran))
        }
        Err(refused) => Some(line_of(&refused)),
    }
}

/// Refused is "the lowest number that any of the four parts gives", and 7 with its
/// node. The reader and the scanner share 1 to 5, and where these refuse there is no
/// table to feed to the others; the check's 7 lies below the scanner's 8 to 10.
fn parts(file: &[u8], report: &[u8]) -> Result<(FileRead, Vec<u32>), Ran> {
    let grammar = read(file, 4 * MOST_NODES, MOST_RULES).map_err(Ran::Refused)?;
    match check(&grammar.nodes, &grammar.rules) {
        Verdict::Passes => {}
        Verdict::Refused(number) => return Err(Ran::Refused(number)),
        Verdict::IllFormed(node) => return Err(Ran::IllFormed(node)),
    }
    let tokens = scan(file, report, 4 * MOST_TOKENS).map_err(Ran::Refused)?;
    Ok((grammar, tokens))
}

/// The line of an answer: "tokens read, lower end, upper end (`inf` if none), flag", and
/// the farthest place "as one more number at the end of a success or failure line".
pub fn line_of(ran: &Ran) -> Vec<u8> {
    let line = match ran {
        Ran::Success {
            read,
            lower,
            upper,
            flag,
            farthest,
        } => {
            let upper = upper.map_or("inf".to_string(), |upper| upper.to_string());
            let flag = if *flag { "set" } else { "clear" };
            format!("success {read} {lower} {upper} {flag} {farthest}\n")
        }
        Ran::Failure { farthest } => format!("failure {farthest}\n"),
        Ran::Refused(number) => format!("refused {number}\n"),
        Ran::IllFormed(node) => format!("refused 7 {node}\n"),
    };
    line.into_bytes()
}
