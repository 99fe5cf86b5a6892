//! The text shown for a capture, 02 Note 2: 1 to 5 for the file, 8 for the report, 11
//! for the tokens, and number 14.

use super::{file, run, scan};

/// Where the text shown for a capture stands.
#[derive(Debug, Clone, Copy, PartialEq, Eq)]
pub enum Shown {
    /// A part of the report.
    InReport { offset: u32, length: u32 },
    /// A part of the grammar file: the rule's name.
    InFile { offset: u32, length: u32 },
    /// 1 to 5, 8, 11 or 14.
    Refused(u8),
}

/// Where a capture's text stands: "from its first token's first byte to its last
/// token's end in the report, or .. the rule's name in the grammar file if it read no
/// token". The number of captures around it plays no part.
pub fn shown(file: &[u8], report: &[u8], tokens: &[u32], capture: [u32; 4]) -> Shown {
    match place(file, report, tokens, capture) {
        Ok(shown) => shown,
        Err(number) => Shown::Refused(number),
    }
}

/// The text itself: "the text's own call shows no bytes where that refuses".
pub fn text<'a>(file: &'a [u8], report: &'a [u8], tokens: &[u32], capture: [u32; 4]) -> &'a [u8] {
    let (lent, offset, length) = match shown(file, report, tokens, capture) {
        Shown::InReport { offset, length } => (report, offset, length),
        Shown::InFile { offset, length } => (file, offset, length),
        Shown::Refused(_) => return &[],
    };
    &lent[offset as usize..][..length as usize]
}

fn place(
    file: &[u8],
    report: &[u8],
    tokens: &[u32],
    [rule, first, after, _]: [u32; 4],
) -> Result<Shown, u8> {
    let grammar = file::parse(file)?;
    scan::text(report)?;
    let tokens = run::token_list(tokens)?;

    // Check 14: "a capture whose rule or tokens are not there, whose first token comes
    // after the token that follows it (the two may be equal, at the token count too)".
    let name = grammar.names.get(rule as usize).ok_or(14)?;
    let own = tokens.get(first as usize..after as usize).ok_or(14)?;
    let ([first, ..], [.., last]) = (own, own) else {
        return Ok(Shown::InFile {
            offset: name.start as u32,
            length: name.len() as u32,
        });
    };
    // "or whose tokens' offsets fall, or whose last token ends past the report": by
    // these the first offset is at most the last, and that at most the last's end.
    let falls = own.windows(2).any(|pair| pair[1][2] < pair[0][2]);
    let end = u64::from(last[2]) + u64::from(last[3]);
    if falls || end > report.len() as u64 {
        return Err(14);
    }
    let offset = first[2];
    Ok(Shown::InReport {
        offset,
        length: end as u32 - offset,
    })
}
