//! The run that lists its captures, 02 Note 2: the interpreter's walk, and number 13.

use super::run::{run_with, Lister, Meter, Steps, Unmetered, Unremembered, With};
use super::{Ran, Reading, Start};

/// What a run that lists answers. Its farthest place is that of the run, so trials
/// that leave no capture count too.
#[derive(Debug, Clone, Copy, PartialEq, Eq)]
pub enum Listed {
    Success {
        /// The number of tokens read from the start's place on.
        read: u32,
        lower: u32,
        upper: Option<u32>,
        flag: bool,
        /// How far the reader looked, as in `Ran`.
        farthest: u32,
        /// The number of captures listed.
        captures: u32,
    },
    Failure {
        farthest: u32,
    },
    /// 3, 4, 5, 11, 12, 13 or 16; 16 comes before 13.
    Refused(u8),
    /// 7, with the lowest node that is not well formed.
    IllFormed(u16),
}

/// As `run`, and lists the captures of a success, four words each: "rule, first token,
/// token after the last, and the number of captures around it". "After any unrefused
/// run the slice's words past the list are 0; a failure lists none." A refused call
/// leaves the slice as it was.
pub fn list(
    nodes: &[u16],
    rules: &[u16],
    tokens: &[u32],
    reading: Reading,
    start: &Start,
    captures: &mut [u32],
) -> Listed {
    match list_metered(nodes, rules, tokens, reading, start, captures, Unmetered) {
        Ok(listed) => listed,
        Err(never) => match never {},
    }
}

/// As `list`, but `None` once more than `steps` expressions were entered, and then the
/// slice is as it was.
pub fn list_within(
    nodes: &[u16],
    rules: &[u16],
    tokens: &[u32],
    reading: Reading,
    start: &Start,
    captures: &mut [u32],
    steps: u64,
) -> Option<Listed> {
    list_metered(nodes, rules, tokens, reading, start, captures, Steps(steps)).ok()
}

fn list_metered<M: Meter>(
    nodes: &[u16],
    rules: &[u16],
    tokens: &[u32],
    reading: Reading,
    start: &Start,
    captures: &mut [u32],
    meter: M,
) -> Result<Listed, M::Stop> {
    let mut found = Captures {
        room: captures.len() / 4,
        ..Captures::default()
    };
    let with = With {
        meter,
        lister: &mut found,
        memory: Unremembered,
    };
    let listed = match run_with(nodes, rules, tokens, reading, start, with)? {
        // Check 13: "fewer capture places than the list needs", after all the others.
        Ran::Success { .. } if found.count > found.room => return Ok(Listed::Refused(13)),
        Ran::Success {
            read,
            lower,
            upper,
            flag,
            farthest,
        } => Listed::Success {
            read,
            lower,
            upper,
            flag,
            farthest,
            captures: u32::try_from(found.count).expect("a lent slice below 64 GiB"),
        },
        Ran::Failure { farthest } => Listed::Failure { farthest },
        Ran::Refused(number) => return Ok(Listed::Refused(number)),
        Ran::IllFormed(node) => return Ok(Listed::IllFormed(node)),
    };
    let words = found.first.as_flattened();
    let (list, past) = captures.split_at_mut(words.len());
    list.copy_from_slice(words);
    past.fill(0);
    Ok(listed)
}

/// The captures on the way to the state reached, those of rules that have not ended
/// included. An alternative that is given up later may hold more than the list, and
/// more than there is room for: only the first are kept, and all are counted.
#[derive(Default)]
struct Captures {
    /// The first `count` of them, or the first `room` if these are fewer.
    first: Vec<[u32; 4]>,
    room: usize,
    count: usize,
    /// The rules that have not ended, from the outermost on: each one's place in the
    /// list. At most 128 * 4,097 rules lie around one another.
    open: Vec<usize>,
}

#[derive(Clone, Copy)]
struct Mark {
    count: usize,
    open: usize,
}

impl Lister for &mut Captures {
    type Mark = Mark;

    #[inline]
    fn mark(&self) -> Mark {
        Mark {
            count: self.count,
            open: self.open.len(),
        }
    }

    /// "an outer one stands before those inside it": a rule is listed as it begins.
    #[inline]
    fn rule(&mut self, rule: u16, place: u16) {
        if self.count < self.room {
            let around = self.open.len() as u32;
            // The token after the last is put in at the rule's end.
            self.first
                .push([u32::from(rule), u32::from(place), 0, around]);
        }
        self.open.push(self.count);
        self.count += 1;
    }

    #[inline]
    fn succeeded(&mut self, mark: Mark, place: u16) {
        for ended in self.open.drain(mark.open..) {
            if let Some(capture) = self.first.get_mut(ended) {
                capture[2] = u32::from(place);
            }
        }
    }

    #[inline]
    fn failed(&mut self, mark: Mark) {
        self.open.truncate(mark.open);
        self.count = mark.count;
        self.first.truncate(mark.count);
    }
}
