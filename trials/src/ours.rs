//! The proved reader, through its C interface (`include/saktroum.h`), in the words of the second reader.
//!
//! Before a call every lent word is set to a marker, and so are some words on either side of the slice. After it the words
//! that the call reports are taken, and all others must still hold the marker. A list is given with all its lent words, and
//! a written file with all its lent bytes. The slice for remembered outcomes holds what the caller wants.

use crate::second::{FileRead, Listed, Ran, Reading, Shown, Start, Verdict};

mod c {
    extern "C" {
        pub fn saktroum_read(
            file: *const u8,
            file_bytes: usize,
            nodes: *mut u16,
            node_words: usize,
            rules: *mut u16,
            rule_words: usize,
            result: *mut [usize; 5],
        ) -> u32;
        pub fn saktroum_write(
            lending: *const u8,
            lending_bytes: usize,
            nodes: *const u16,
            node_words: usize,
            rules: *const u16,
            rule_words: usize,
            node: u16,
            mode: u16,
            out: *mut u8,
            out_bytes: usize,
            result: *mut [usize; 1],
        ) -> u32;
        pub fn saktroum_scan(
            file: *const u8,
            file_bytes: usize,
            report: *const u8,
            report_bytes: usize,
            tokens: *mut u32,
            token_words: usize,
            result: *mut [usize; 1],
        ) -> u32;
        pub fn saktroum_check(
            nodes: *const u16,
            node_words: usize,
            rules: *const u16,
            rule_words: usize,
        ) -> u32;
        pub fn saktroum_run(
            nodes: *const u16,
            node_words: usize,
            rules: *const u16,
            rule_words: usize,
            tokens: *const u32,
            token_words: usize,
            node: u16,
            place: u32,
            lower: u32,
            upper: u32,
            endless: bool,
            flag: bool,
            mode: u16,
            by_2014: bool,
            result: *mut [usize; 7],
        ) -> u32;
        pub fn saktroum_remember(
            nodes: *const u16,
            node_words: usize,
            rules: *const u16,
            rule_words: usize,
            tokens: *const u32,
            token_words: usize,
            node: u16,
            place: u32,
            lower: u32,
            upper: u32,
            endless: bool,
            flag: bool,
            mode: u16,
            by_2014: bool,
            memory: *mut u32,
            memory_words: usize,
            result: *mut [usize; 7],
        ) -> u32;
        pub fn saktroum_list(
            nodes: *const u16,
            node_words: usize,
            rules: *const u16,
            rule_words: usize,
            tokens: *const u32,
            token_words: usize,
            node: u16,
            place: u32,
            lower: u32,
            upper: u32,
            endless: bool,
            flag: bool,
            mode: u16,
            by_2014: bool,
            captures: *mut u32,
            capture_words: usize,
            result: *mut [usize; 8],
        ) -> u32;
        pub fn saktroum_shown(
            file: *const u8,
            file_bytes: usize,
            report: *const u8,
            report_bytes: usize,
            tokens: *const u32,
            token_words: usize,
            rule: u32,
            first: u32,
            after: u32,
            around: u32,
            result: *mut [usize; 3],
        ) -> u32;
        pub fn saktroum_line(
            file: *const u8,
            file_bytes: usize,
            report: *const u8,
            report_bytes: usize,
            out: *mut u8,
            out_bytes: usize,
        ) -> usize;
        pub fn saktroum_keyword(
            file: *const u8,
            file_bytes: usize,
            index: usize,
            out: *mut u8,
            out_bytes: usize,
        ) -> usize;
        pub fn saktroum_rule_name(
            file: *const u8,
            file_bytes: usize,
            index: usize,
            out: *mut u8,
            out_bytes: usize,
        ) -> usize;
    }
}

/// The plain calls over slices: pointers of slices are aligned and not null, and what is lent overlaps nothing.
pub mod plain {
    use super::c;
    use crate::second::{Reading, Start};

    pub fn read(file: &[u8], nodes: &mut [u16], rules: &mut [u16], result: &mut [usize; 5]) -> u32 {
        unsafe {
            c::saktroum_read(
                file.as_ptr(),
                file.len(),
                nodes.as_mut_ptr(),
                nodes.len(),
                rules.as_mut_ptr(),
                rules.len(),
                result,
            )
        }
    }

    pub fn write(
        lending: &[u8],
        nodes: &[u16],
        rules: &[u16],
        node: u16,
        mode: u16,
        out: &mut [u8],
        result: &mut [usize; 1],
    ) -> u32 {
        unsafe {
            c::saktroum_write(
                lending.as_ptr(),
                lending.len(),
                nodes.as_ptr(),
                nodes.len(),
                rules.as_ptr(),
                rules.len(),
                node,
                mode,
                out.as_mut_ptr(),
                out.len(),
                result,
            )
        }
    }

    pub fn scan(file: &[u8], report: &[u8], tokens: &mut [u32], result: &mut [usize; 1]) -> u32 {
        unsafe {
            c::saktroum_scan(
                file.as_ptr(),
                file.len(),
                report.as_ptr(),
                report.len(),
                tokens.as_mut_ptr(),
                tokens.len(),
                result,
            )
        }
    }

    pub fn check(nodes: &[u16], rules: &[u16]) -> u32 {
        unsafe { c::saktroum_check(nodes.as_ptr(), nodes.len(), rules.as_ptr(), rules.len()) }
    }

    /// The stack must do for the run.
    pub fn run(
        nodes: &[u16],
        rules: &[u16],
        tokens: &[u32],
        reading: Reading,
        start: &Start,
        result: &mut [usize; 7],
    ) -> u32 {
        unsafe {
            c::saktroum_run(
                nodes.as_ptr(),
                nodes.len(),
                rules.as_ptr(),
                rules.len(),
                tokens.as_ptr(),
                tokens.len(),
                start.node,
                start.place,
                start.lower,
                // Not looked at where the interval is without end.
                start.upper.unwrap_or(!start.lower),
                start.upper.is_none(),
                start.flag,
                start.mode,
                reading == Reading::By2014,
                result,
            )
        }
    }

    /// The stack must do for the run.
    pub fn remember(
        nodes: &[u16],
        rules: &[u16],
        tokens: &[u32],
        reading: Reading,
        start: &Start,
        memory: &mut [u32],
        result: &mut [usize; 7],
    ) -> u32 {
        unsafe {
            c::saktroum_remember(
                nodes.as_ptr(),
                nodes.len(),
                rules.as_ptr(),
                rules.len(),
                tokens.as_ptr(),
                tokens.len(),
                start.node,
                start.place,
                start.lower,
                // Not looked at where the interval is without end.
                start.upper.unwrap_or(!start.lower),
                start.upper.is_none(),
                start.flag,
                start.mode,
                reading == Reading::By2014,
                memory.as_mut_ptr(),
                memory.len(),
                result,
            )
        }
    }

    /// The stack must do for the run.
    pub fn list(
        nodes: &[u16],
        rules: &[u16],
        tokens: &[u32],
        reading: Reading,
        start: &Start,
        captures: &mut [u32],
        result: &mut [usize; 8],
    ) -> u32 {
        unsafe {
            c::saktroum_list(
                nodes.as_ptr(),
                nodes.len(),
                rules.as_ptr(),
                rules.len(),
                tokens.as_ptr(),
                tokens.len(),
                start.node,
                start.place,
                start.lower,
                // Not looked at where the interval is without end.
                start.upper.unwrap_or(!start.lower),
                start.upper.is_none(),
                start.flag,
                start.mode,
                reading == Reading::By2014,
                captures.as_mut_ptr(),
                captures.len(),
                result,
            )
        }
    }

    pub fn shown(
        file: &[u8],
        report: &[u8],
        tokens: &[u32],
        [rule, first, after, around]: [u32; 4],
        result: &mut [usize; 3],
    ) -> u32 {
        unsafe {
            c::saktroum_shown(
                file.as_ptr(),
                file.len(),
                report.as_ptr(),
                report.len(),
                tokens.as_ptr(),
                tokens.len(),
                rule,
                first,
                after,
                around,
                result,
            )
        }
    }

    /// The stack must do for the run.
    pub fn line(file: &[u8], report: &[u8], out: &mut [u8]) -> usize {
        unsafe {
            c::saktroum_line(
                file.as_ptr(),
                file.len(),
                report.as_ptr(),
                report.len(),
                out.as_mut_ptr(),
                out.len(),
            )
        }
    }

    pub fn keyword(file: &[u8], index: usize, out: &mut [u8]) -> usize {
        unsafe {
            c::saktroum_keyword(
                file.as_ptr(),
                file.len(),
                index,
                out.as_mut_ptr(),
                out.len(),
            )
        }
    }

    pub fn rule_name(file: &[u8], index: usize, out: &mut [u8]) -> usize {
        unsafe {
            c::saktroum_rule_name(
                file.as_ptr(),
                file.len(),
                index,
                out.as_mut_ptr(),
                out.len(),
            )
        }
    }
}

/// An answer that the interface does not have, or a word written that was to be left alone.
#[derive(Debug, Clone, PartialEq, Eq)]
pub struct Odd(pub String);

/// What every lent word holds before a call.
const WORD: u16 = 0xa5a5;
pub const TOKEN_WORD: u32 = 0xa5a5_a5a5;
const RESULT_WORD: usize = 0xa5a5_a5a5_a5a5_a5a5;
pub const BYTE: u8 = 0xa5;

/// Words on either side of a lent slice.
const AROUND: usize = 8;

/// A slice to be lent, in the middle of a longer one, every word of which holds a marker.
struct Lent<T> {
    all: Vec<T>,
    room: usize,
    marker: T,
}

impl<T: Copy + PartialEq> Lent<T> {
    fn new(room: usize, marker: T) -> Self {
        let all = vec![marker; room + 2 * AROUND];
        Lent { all, room, marker }
    }

    fn slice(&mut self) -> &mut [T] {
        &mut self.all[AROUND..AROUND + self.room]
    }

    fn array<const N: usize>(&mut self) -> &mut [T; N] {
        self.slice().try_into().expect("as many words as the room")
    }

    /// The first words, so many, if every other one still holds the marker.
    fn reported(mut self, count: usize, what: &str) -> Result<Vec<T>, Odd> {
        if count > self.room {
            return Err(Odd(format!(
                "{what}: {count} words of {} reported",
                self.room
            )));
        }
        let words: Vec<T> = self.all.drain(AROUND..AROUND + count).collect();
        if self.all.iter().any(|word| *word != self.marker) {
            return Err(Odd(format!(
                "{what}: a word behind the {count} reported was written"
            )));
        }
        Ok(words)
    }
}

/// The number of an answer without a node.
fn number(answer: u32) -> Result<u8, Odd> {
    match answer {
        0..=16 => Ok(answer as u8),
        _ => Err(Odd(format!("the answer is {answer}"))),
    }
}

/// The node of an answer whose number is 7.
fn node_of(answer: u32) -> Option<u16> {
    (answer & 0xffff == 7).then_some((answer >> 16) as u16)
}

/// A word of a result, of a narrower type.
fn narrow<T: TryFrom<usize>>(word: usize) -> Result<T, Odd> {
    T::try_from(word).map_err(|_| Odd(format!("the word is {word}")))
}

/// The file reader, lent slices of so many words.
pub fn read(file: &[u8], node_room: usize, rule_room: usize) -> Result<Result<FileRead, u8>, Odd> {
    let mut nodes = Lent::new(node_room, WORD);
    let mut rules = Lent::new(rule_room, WORD);
    let mut result = Lent::new(5, RESULT_WORD);
    let answer = plain::read(file, nodes.slice(), rules.slice(), result.array());
    let refused = number(answer)?;
    if refused != 0 {
        nodes.reported(0, "nodes")?;
        rules.reported(0, "rules")?;
        result.reported(0, "result")?;
        return Ok(Err(refused));
    }
    let words = result.reported(5, "result")?;
    Ok(Ok(FileRead {
        nodes: nodes.reported(words[0].saturating_mul(4), "nodes")?,
        rules: rules.reported(words[1], "rules")?,
        keywords: words[2],
        start: narrow(words[3])?,
        mode: narrow(words[4])?,
    }))
}

/// The writer, lent a slice of so many bytes, which are all given as they are after the call: a refused one has left them
/// alone. The number of bytes written, or the number of a refusal.
pub fn write(
    lending: &[u8],
    nodes: &[u16],
    rules: &[u16],
    node: u16,
    mode: u16,
    room: usize,
) -> Result<(Result<usize, u8>, Vec<u8>), Odd> {
    let mut out = Lent::new(room, BYTE);
    let mut result = Lent::new(1, RESULT_WORD);
    let answer = plain::write(
        lending,
        nodes,
        rules,
        node,
        mode,
        out.slice(),
        result.array(),
    );
    let bytes = out.reported(room, "out")?;
    let refused = number(answer)?;
    if refused != 0 {
        result.reported(0, "result")?;
        return Ok((Err(refused), bytes));
    }
    let count = result.reported(1, "result")?[0];
    Ok((Ok(count), bytes))
}

/// The scanner, lent a slice of so many words.
pub fn scan(file: &[u8], report: &[u8], room: usize) -> Result<Result<Vec<u32>, u8>, Odd> {
    let mut tokens = Lent::new(room, TOKEN_WORD);
    let mut result = Lent::new(1, RESULT_WORD);
    let answer = plain::scan(file, report, tokens.slice(), result.array());
    let refused = number(answer)?;
    if refused != 0 {
        tokens.reported(0, "tokens")?;
        result.reported(0, "result")?;
        return Ok(Err(refused));
    }
    let count = result.reported(1, "result")?[0];
    tokens.reported(count.saturating_mul(4), "tokens").map(Ok)
}

/// The check.
pub fn check(nodes: &[u16], rules: &[u16]) -> Result<Verdict, Odd> {
    let answer = plain::check(nodes, rules);
    if let Some(node) = node_of(answer) {
        return Ok(Verdict::IllFormed(node));
    }
    Ok(match number(answer)? {
        0 => Verdict::Passes,
        refused => Verdict::Refused(refused),
    })
}

/// The interpreter. The stack must do for the run.
pub fn run(
    nodes: &[u16],
    rules: &[u16],
    tokens: &[u32],
    reading: Reading,
    start: &Start,
) -> Result<Ran, Odd> {
    let mut result = Lent::new(7, RESULT_WORD);
    let answer = plain::run(nodes, rules, tokens, reading, start, result.array());
    ran(answer, result)
}

/// The run that remembers, lent a slice that holds these words; all are given as they are after the call. The stack must
/// do for the run.
pub fn remember(
    nodes: &[u16],
    rules: &[u16],
    tokens: &[u32],
    reading: Reading,
    start: &Start,
    held: &[u32],
) -> Result<(Ran, Vec<u32>), Odd> {
    let mut memory = Lent::new(held.len(), TOKEN_WORD);
    memory.slice().copy_from_slice(held);
    let mut result = Lent::new(7, RESULT_WORD);
    let answer = plain::remember(
        nodes,
        rules,
        tokens,
        reading,
        start,
        memory.slice(),
        result.array(),
    );
    let words = memory.reported(held.len(), "memory")?;
    Ok((ran(answer, result)?, words))
}

/// What a run answers, with its result.
fn ran(answer: u32, mut result: Lent<usize>) -> Result<Ran, Odd> {
    if let Some(node) = node_of(answer) {
        return result.reported(0, "result").map(|_| Ran::IllFormed(node));
    }
    let first = result.slice()[0];
    match (number(answer)?, first) {
        (0, 0) => failure(result).map(|farthest| Ran::Failure { farthest }),
        (0, _) => success(&result.reported(7, "result")?),
        (refused, _) => result.reported(0, "result").map(|_| Ran::Refused(refused)),
    }
}

/// The run that lists, lent a slice of so many words, which are all given as they are after the call: a refused one has
/// left them alone. The stack must do for the run.
pub fn list(
    nodes: &[u16],
    rules: &[u16],
    tokens: &[u32],
    reading: Reading,
    start: &Start,
    room: usize,
) -> Result<(Listed, Vec<u32>), Odd> {
    let mut captures = Lent::new(room, TOKEN_WORD);
    let mut result = Lent::new(8, RESULT_WORD);
    let answer = plain::list(
        nodes,
        rules,
        tokens,
        reading,
        start,
        captures.slice(),
        result.array(),
    );
    let words = captures.reported(room, "captures")?;
    if let Some(node) = node_of(answer) {
        result.reported(0, "result")?;
        return Ok((Listed::IllFormed(node), words));
    }
    let first = result.slice()[0];
    let listed = match (number(answer)?, first) {
        (0, 0) => failure(result).map(|farthest| Listed::Failure { farthest })?,
        (0, _) => success_listed(&result.reported(8, "result")?)?,
        (refused, _) => {
            result.reported(0, "result")?;
            Listed::Refused(refused)
        }
    };
    Ok((listed, words))
}

/// The eight words of a success that lists.
fn success_listed(words: &[usize]) -> Result<Listed, Odd> {
    match success(&words[..7])? {
        Ran::Success {
            read,
            lower,
            upper,
            flag,
            farthest,
        } => Ok(Listed::Success {
            read,
            lower,
            upper,
            flag,
            farthest,
            captures: narrow(words[7])?,
        }),
        other => Err(Odd(format!("{other:?} with captures"))),
    }
}

/// Where the text shown for a capture lies.
pub fn shown(file: &[u8], report: &[u8], tokens: &[u32], capture: [u32; 4]) -> Result<Shown, Odd> {
    let mut result = Lent::new(3, RESULT_WORD);
    let answer = plain::shown(file, report, tokens, capture, result.array());
    let refused = number(answer)?;
    if refused != 0 {
        return result
            .reported(0, "result")
            .map(|_| Shown::Refused(refused));
    }
    let words = result.reported(3, "result")?;
    let (offset, length) = (narrow(words[0])?, narrow(words[1])?);
    match words[2] {
        0 => Ok(Shown::InReport { offset, length }),
        1 => Ok(Shown::InFile { offset, length }),
        _ => Err(Odd(format!("the words are {words:?}"))),
    }
}

/// The bytes of the text shown for a capture, none where it is refused.
pub fn text<'a>(
    file: &'a [u8],
    report: &'a [u8],
    tokens: &[u32],
    capture: [u32; 4],
) -> Result<&'a [u8], Odd> {
    let (lent, offset, length) = match shown(file, report, tokens, capture)? {
        Shown::InReport { offset, length } => (report, offset, length),
        Shown::InFile { offset, length } => (file, offset, length),
        Shown::Refused(_) => return Ok(&[]),
    };
    let behind = lent.get(offset as usize..);
    behind
        .and_then(|bytes| bytes.get(..length as usize))
        .ok_or_else(|| Odd(format!("{length} bytes from {offset} on are not there")))
}

/// The word of a run's result that holds the farthest place, after a failure too.
const FARTHEST: usize = 6;

/// The farthest place of a failure, which is all that its result holds but for the first word.
fn failure(mut result: Lent<usize>) -> Result<u32, Odd> {
    let farthest = std::mem::replace(&mut result.slice()[FARTHEST], RESULT_WORD);
    result.reported(1, "result")?;
    narrow(farthest)
}

/// The seven words of a success.
fn success(words: &[usize]) -> Result<Ran, Odd> {
    let upper = match words[3..5] {
        [0, 1] => None,
        [upper, 0] => Some(narrow(upper)?),
        _ => return Err(Odd(format!("the words are {words:?}"))),
    };
    match (words[0], words[5]) {
        (1, flag @ (0 | 1)) => Ok(Ran::Success {
            read: narrow(words[1])?,
            lower: narrow(words[2])?,
            upper,
            flag: flag == 1,
            farthest: narrow(words[FARTHEST])?,
        }),
        _ => Err(Odd(format!("the words are {words:?}"))),
    }
}

/// The program's line, lent a slice of so many bytes. The stack must do for the run.
fn line_in(file: &[u8], report: &[u8], room: usize) -> Result<Vec<u8>, Odd> {
    let mut out = Lent::new(room, BYTE);
    let count = plain::line(file, report, out.slice());
    out.reported(count, "out")
}

/// The program's line. A slice of 63 bytes must be left alone, and one of 64 must do as well as a longer one.
pub fn line(file: &[u8], report: &[u8]) -> Result<Vec<u8>, Odd> {
    let line = line_in(file, report, 64)?;
    if !line_in(file, report, 63)?.is_empty() {
        return Err(Odd("63 bytes did for a line".into()));
    }
    Ok(line)
}

/// The two calls that copy a name.
type Name = fn(&[u8], usize, &mut [u8]) -> usize;

/// A name, copied to a slice of so many bytes: how many bytes it has, and those that were written.
fn name_in(call: Name, file: &[u8], index: usize, room: usize) -> Result<(usize, Vec<u8>), Odd> {
    let mut out = Lent::new(room, BYTE);
    let count = call(file, index, out.slice());
    let written = if count <= room { count } else { 0 };
    Ok((count, out.reported(written, "out")?))
}

/// A name. A slice of as many bytes must do, and one of a byte less must be left alone, with the same answer.
fn name(call: Name, file: &[u8], index: usize) -> Result<Vec<u8>, Odd> {
    let (count, bytes) = name_in(call, file, index, 32)?;
    let rooms = [(count, &bytes[..]), (count.wrapping_sub(1), &[])];
    for (room, written) in rooms.into_iter().filter(|(room, _)| *room <= count) {
        if name_in(call, file, index, room)? != (count, written.to_vec()) {
            return Err(Odd(format!("a name of {count} bytes, lent {room}")));
        }
    }
    Ok(bytes)
}

/// A keyword of a file, empty where there is none.
pub fn keyword(file: &[u8], index: usize) -> Result<Vec<u8>, Odd> {
    name(plain::keyword, file, index)
}

/// The name of a rule, empty where there is none.
pub fn rule_name(file: &[u8], index: usize) -> Result<Vec<u8>, Odd> {
    name(plain::rule_name, file, index)
}
