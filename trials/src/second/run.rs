//! The interpreter, with two ends for the column interval: 01 "Columns and states",
//! the steps of 02 Note 1, and the ten clauses of 001, or of 02 Note 5 where a run
//! names the 2014 reading; and how far the reader looked, 02 Note 7. A run may list its
//! captures, which is `list`'s, or remember outcomes, which is `remember`'s; the walk is
//! the same.

use super::{check, kind, relation, Verdict, MOST_COLUMN, MOST_TOKENS};
use std::convert::Infallible;

/// The rules by which a run reads, 02 Note 5: "A run may name that reading".
#[derive(Debug, Clone, Copy, PartialEq, Eq)]
pub enum Reading {
    /// Those of 001.
    By2017,
    /// Those of 000, figure 6: "under a set flag an indent passes the interval through
    /// unchanged both ways, and an align hands on the flag as its child left it; all
    /// else is as before".
    By2014,
}

/// "A start gives a node, a token place, an interval .."
#[derive(Debug, Clone, Copy, PartialEq, Eq)]
pub struct Start {
    pub node: u16,
    pub place: u32,
    pub lower: u32,
    /// `None` is without end.
    pub upper: Option<u32>,
    pub flag: bool,
    pub mode: u16,
}

impl Start {
    /// "from token 0, interval 0 without end, flag clear"
    pub fn from_first(node: u16, mode: u16) -> Self {
        Start {
            node,
            place: 0,
            lower: 0,
            upper: None,
            flag: false,
            mode,
        }
    }
}

/// What the interpreter answers. Success and failure carry the farthest place, 02 Note
/// 7: "the largest token place that a terminal was tried at" in the whole run, "the
/// count itself if tried past the last token, and the start place if none was tried".
/// It is a place in the token list, not one from the start's place on.
#[derive(Debug, Clone, Copy, PartialEq, Eq)]
pub enum Ran {
    Success {
        /// The number of tokens read from the start's place on.
        read: u32,
        lower: u32,
        upper: Option<u32>,
        flag: bool,
        farthest: u32,
    },
    Failure {
        farthest: u32,
    },
    /// 3, 4, 5, 11, 12 or 16.
    Refused(u8),
    /// 7, with the lowest node that is not well formed.
    IllFormed(u16),
}

/// Runs the start on the tokens. The recursion may be some millions of calls deep:
/// the caller lends the stack.
pub fn run(nodes: &[u16], rules: &[u16], tokens: &[u32], reading: Reading, start: &Start) -> Ran {
    match run_with(nodes, rules, tokens, reading, start, With::plain(Unmetered)) {
        Ok(ran) => ran,
        Err(never) => match never {},
    }
}

/// As `run`, but `None` once more than `steps` expressions were entered.
pub fn run_within(
    nodes: &[u16],
    rules: &[u16],
    tokens: &[u32],
    reading: Reading,
    start: &Start,
    steps: u64,
) -> Option<Ran> {
    let with = With::plain(Steps(steps));
    run_with(nodes, rules, tokens, reading, start, with).ok()
}

/// Checks 3, 4, 5, 7, 11, 12 and 16, in this order.
pub(super) fn refusal(
    nodes: &[u16],
    rules: &[u16],
    tokens: &[u32],
    reading: Reading,
    start: &Start,
) -> Result<(), Ran> {
    match check::check(nodes, rules) {
        Verdict::Passes => {}
        Verdict::Refused(number) => return Err(Ran::Refused(number)),
        Verdict::IllFormed(node) => return Err(Ran::IllFormed(node)),
    }
    let list = token_list(tokens).map_err(Ran::Refused)?;
    // Check 12: the start.
    if usize::from(start.node) >= nodes.len() / 4
        || start.place as usize > list.len()
        || start.upper.is_some_and(|upper| start.lower > upper)
        || start.lower > MOST_COLUMN
        || start.upper.is_some_and(|upper| upper > MOST_COLUMN)
        || start.mode >= relation::COUNT
    {
        return Err(Ran::Refused(12));
    }
    // Check 16: "under 2014 a position node anywhere in the table or a mode ..".
    let (table, _) = nodes.as_chunks::<4>();
    if reading == Reading::By2014
        && (table.iter().any(|&[kind, ..]| kind == kind::POSITION) || start.mode != relation::EQUAL)
    {
        return Err(Ran::Refused(16));
    }
    Ok(())
}

/// Check 11: "token words no multiple of 4, over 4,096 tokens ..". Gives the tokens.
pub(super) fn token_list(tokens: &[u32]) -> Result<&[[u32; 4]], u8> {
    let (list, over) = tokens.as_chunks::<4>();
    if !over.is_empty()
        || list.len() > MOST_TOKENS
        || list
            .iter()
            .any(|token| token[0] > 255 || token[1] > MOST_COLUMN)
    {
        return Err(11);
    }
    Ok(list)
}

/// What goes with the walk.
pub(super) struct With<M, L, R> {
    pub meter: M,
    pub lister: L,
    pub memory: R,
}

impl<M> With<M, Unlisted, Unremembered> {
    fn plain(meter: M) -> Self {
        With {
            meter,
            lister: Unlisted,
            memory: Unremembered,
        }
    }
}

pub(super) fn run_with<M: Meter, L: Lister, R: Memory>(
    nodes: &[u16],
    rules: &[u16],
    tokens: &[u32],
    reading: Reading,
    start: &Start,
    with: With<M, L, R>,
) -> Result<Ran, M::Stop> {
    if let Err(refused) = refusal(nodes, rules, tokens, reading, start) {
        return Ok(refused);
    }
    let begin = State {
        interval: Interval {
            lower: start.lower,
            upper: start.upper,
        },
        // At most 4,096 by checks 11 and 12.
        place: start.place as u16,
        flag: start.flag,
    };
    let mut reader = Reader {
        nodes: nodes.as_chunks().0,
        rules,
        tokens: tokens.as_chunks().0,
        reading,
        state: begin,
        farthest: begin.place,
        with,
    };
    let succeeds = reader.expression(start.node, start.mode)?;
    let farthest = u32::from(reader.farthest);
    if !succeeds {
        return Ok(Ran::Failure { farthest });
    }
    let end = reader.state;
    Ok(Ran::Success {
        read: u32::from(end.place - begin.place),
        lower: end.interval.lower,
        upper: end.interval.upper,
        flag: end.flag,
        farthest,
    })
}

/// Counts the expressions entered.
pub(super) trait Meter {
    type Stop;
    fn enter(&mut self) -> Result<(), Self::Stop>;
}

pub(super) struct Unmetered;

impl Meter for Unmetered {
    type Stop = Infallible;
    #[inline]
    fn enter(&mut self) -> Result<(), Infallible> {
        Ok(())
    }
}

/// The steps left.
pub(super) struct Steps(pub u64);

impl Meter for Steps {
    type Stop = ();
    #[inline]
    fn enter(&mut self) -> Result<(), ()> {
        self.0 = self.0.checked_sub(1).ok_or(())?;
        Ok(())
    }
}

/// Lists the captures, 02 Note 2: "every rule that succeeded on the way ..".
pub(super) trait Lister {
    /// Where the list stands as an expression is entered.
    type Mark: Copy;
    fn mark(&self) -> Self::Mark;
    /// A rule begins at a place, inside all those that have begun and not ended.
    fn rule(&mut self, rule: u16, place: u16);
    /// The expression entered at the mark has succeeded up to a place, and with it the
    /// rules begun since that have not ended: their outcome is the expression's.
    fn succeeded(&mut self, mark: Self::Mark, place: u16);
    /// The expression entered at the mark has failed: nothing since is listed.
    fn failed(&mut self, mark: Self::Mark);
}

pub(super) struct Unlisted;

impl Lister for Unlisted {
    type Mark = ();
    #[inline]
    fn mark(&self) {}
    #[inline]
    fn rule(&mut self, _: u16, _: u16) {}
    #[inline]
    fn succeeded(&mut self, (): (), _: u16) {}
    #[inline]
    fn failed(&mut self, (): ()) {}
}

/// Where an expression begins. By the clauses its outcome hangs on nothing else, for one
/// table with its rules, tokens and reading.
#[derive(Debug, Clone, Copy, PartialEq, Eq, Hash)]
pub(super) struct Entry {
    pub node: u16,
    pub mode: u16,
    pub state: State,
}

/// What came of an expression.
#[derive(Debug, Clone, Copy, PartialEq, Eq)]
pub(super) struct Outcome {
    /// `None` after a failure.
    pub end: Option<State>,
    /// The largest place that a terminal was tried at inside, 0 if none was.
    pub farthest: u16,
}

/// Remembers outcomes, 02 Note 8.
pub(super) trait Memory {
    const REMEMBERS: bool;
    fn recall(&mut self, entry: &Entry) -> Option<Outcome>;
    fn keep(&mut self, entry: Entry, outcome: Outcome);
}

pub(super) struct Unremembered;

impl Memory for Unremembered {
    const REMEMBERS: bool = false;
    #[inline]
    fn recall(&mut self, _: &Entry) -> Option<Outcome> {
        None
    }
    #[inline]
    fn keep(&mut self, _: Entry, _: Outcome) {}
}

/// "a lower column and an upper end ..", `None` if without end. It is never empty
/// (001, theorem 2.1; by 2014 too, where an indent does as in 001 or leaves it alone).
/// An end rises by at most 31 an indent, and at most 512 * 4,097 expressions lie around
/// one another, so an end is at most 65,535 + 31 * 512 * 4,097.
#[derive(Debug, Clone, Copy, PartialEq, Eq, Hash)]
pub(crate) struct Interval {
    pub lower: u32,
    pub upper: Option<u32>,
}

impl Interval {
    /// i to i.
    pub(crate) fn only(column: u32) -> Self {
        Interval {
            lower: column,
            upper: Some(column),
        }
    }

    pub(crate) fn holds(self, column: u32) -> bool {
        self.lower <= column && self.upper.is_none_or(|upper| column <= upper)
    }

    /// The table's "inner set on the way in". Under a step "both ends rise by that
    /// amount", past 65,535 too.
    pub(crate) fn inner(self, relation: u16) -> Self {
        let (lower, upper) = match relation {
            relation::EQUAL => (self.lower, self.upper),
            relation::GREATER => (self.lower + 1, None),
            relation::AT_LEAST => (self.lower, None),
            relation::ANY => (0, None),
            step => {
                let amount = u32::from(relation::amount(step));
                (self.lower + amount, self.upper.map(|upper| upper + amount))
            }
        };
        Interval { lower, upper }
    }

    /// The table's "outer set on the way out". Under greater the upper end is at
    /// least 1, since the interval lies within an inner set under greater. Under a step
    /// "both fall, stopping at 0", and the upper end is at least the amount likewise.
    pub(crate) fn outer(self, relation: u16) -> Self {
        let (lower, upper) = match relation {
            relation::EQUAL => (self.lower, self.upper),
            relation::GREATER => (0, self.upper.map(|upper| upper - 1)),
            relation::AT_LEAST => (0, self.upper),
            relation::ANY => (0, None),
            step => {
                let amount = u32::from(relation::amount(step));
                let fall = |end: u32| end.saturating_sub(amount);
                (fall(self.lower), self.upper.map(fall))
            }
        };
        Interval { lower, upper }
    }

    pub(crate) fn meet(self, other: Self) -> Self {
        Interval {
            lower: self.lower.max(other.lower),
            upper: match (self.upper, other.upper) {
                (Some(one), Some(two)) => Some(one.min(two)),
                (one, two) => one.or(two),
            },
        }
    }
}

/// "A state is the place in the token list, the interval .."
#[derive(Debug, Clone, Copy, PartialEq, Eq, Hash)]
pub(crate) struct State {
    pub interval: Interval,
    pub place: u16,
    pub flag: bool,
}

impl State {
    /// Clause 2 on one token of the right terminal.
    #[inline]
    pub(crate) fn read(self, column: u32, mode: u16) -> Option<State> {
        let interval = if self.flag {
            // "with the flag set, i must lie in the interval .."
            if !self.interval.holds(column) {
                return None;
            }
            Interval::only(column)
        } else {
            // "else i must lie in the mode's inner set .."
            if !self.interval.inner(mode).holds(column) {
                return None;
            }
            self.interval.meet(Interval::only(column).outer(mode))
        };
        Some(State {
            interval,
            place: self.place + 1,
            flag: false,
        })
    }
}

/// The tables, the reading, and the state reached. The state is held here and not
/// handed from call to call, which keeps the calls small on the stack.
struct Reader<'t, M, L, R> {
    nodes: &'t [[u16; 4]],
    rules: &'t [u16],
    tokens: &'t [[u32; 4]],
    reading: Reading,
    state: State,
    /// The largest place that a terminal was tried at so far, 02 Note 7, or the start
    /// place, below which none is. It stands beside the state, since it stays where an
    /// old state is put back: "Trials inside a not and in failed alternatives count",
    /// and those of a repeat's last round. In an expression that is to be remembered it
    /// is that of the expression alone, up to its end.
    farthest: u16,
    with: With<M, L, R>,
}

impl<M: Meter, L: Lister, R: Memory> Reader<'_, M, L, R> {
    /// One expression in a mode from the state reached: whether it succeeds, and then
    /// the state is where it ended. After a failure the state may be anything, and
    /// whoever goes on puts its own copy back. What is remembered is not walked again.
    fn expression(&mut self, node: u16, mode: u16) -> Result<bool, M::Stop> {
        if !R::REMEMBERS {
            return self.walked(node, mode);
        }
        let state = self.state;
        let entry = Entry { node, mode, state };
        if let Some(Outcome { end, farthest }) = self.with.memory.recall(&entry) {
            self.with.meter.enter()?;
            self.state = end.unwrap_or(state);
            self.farthest = self.farthest.max(farthest);
            return Ok(end.is_some());
        }
        let before = std::mem::take(&mut self.farthest);
        let succeeds = self.walked(node, mode)?;
        let outcome = Outcome {
            end: succeeds.then_some(self.state),
            farthest: self.farthest,
        };
        self.with.memory.keep(entry, outcome);
        self.farthest = before.max(outcome.farthest);
        Ok(succeeds)
    }

    /// The same, walked. The list needs no copy, since a failure takes back what it
    /// listed: so an alternative, a round or a not's child that fails leaves none, and a
    /// not whose child succeeds fails itself.
    #[inline(always)]
    fn walked(&mut self, node: u16, mode: u16) -> Result<bool, M::Stop> {
        let mark = self.with.lister.mark();
        let succeeds = self.parts(node, mode)?;
        if succeeds {
            self.with.lister.succeeded(mark, self.state.place);
        } else {
            self.with.lister.failed(mark);
        }
        Ok(succeeds)
    }

    /// The expression by its clause. Where the last part's outcome is the whole's, the
    /// loop goes on with that part instead of a call, unless it is to be remembered.
    #[inline(always)]
    fn parts(&mut self, mut node: u16, mut mode: u16) -> Result<bool, M::Stop> {
        loop {
            self.with.meter.enter()?;
            let [kind, a, b, relation] = self.nodes[usize::from(node)];
            match kind {
                // Clause 1.
                kind::EMPTY => return Ok(true),
                // Clause 2.
                kind::TERMINAL => {
                    let place = self.state.place;
                    // A trial, at the token count too and whatever comes of it.
                    self.farthest = self.farthest.max(place);
                    let end = match self.tokens.get(usize::from(place)) {
                        Some(&[terminal, column, ..]) if terminal == u32::from(a) => {
                            self.state.read(column, mode)
                        }
                        _ => None,
                    };
                    if let Some(end) = end {
                        self.state = end;
                    }
                    return Ok(end.is_some());
                }
                // Clause 3.
                kind::RULE => {
                    self.with.lister.rule(a, self.state.place);
                    node = self.rules[usize::from(a)];
                }
                // Clause 4: b from where a ended.
                kind::SEQUENCE => {
                    if !self.expression(a, mode)? {
                        return Ok(false);
                    }
                    node = b;
                }
                // Clause 5: b from the old state.
                kind::CHOICE => {
                    let old = self.state;
                    if self.expression(a, mode)? {
                        return Ok(true);
                    }
                    self.state = old;
                    node = b;
                }
                // Clause 6: the old state is handed on.
                kind::NOT => {
                    let old = self.state;
                    let child = self.expression(a, mode)?;
                    self.state = old;
                    return Ok(!child);
                }
                // Clause 7. It ends: in a well-formed grammar each round reads.
                kind::REPEAT => loop {
                    let old = self.state;
                    if !self.expression(a, mode)? {
                        self.state = old;
                        return Ok(true);
                    }
                },
                // By 2014, "under a set flag": the interval goes "through unchanged
                // both ways", so the child's outcome is the indent's.
                kind::INDENT if self.reading == Reading::By2014 && self.state.flag => node = a,
                // Clause 8, by 2017 under a set flag too.
                kind::INDENT => {
                    let old = self.state.interval;
                    self.state.interval = old.inner(relation);
                    if !self.expression(a, mode)? {
                        return Ok(false);
                    }
                    self.state.interval = old.meet(self.state.interval.outer(relation));
                    return Ok(true);
                }
                // Clause 9.
                kind::POSITION => {
                    mode = relation;
                    node = a;
                }
                // By 2014 an align "hands on the flag as its child left it".
                kind::ALIGN if self.reading == Reading::By2014 => {
                    self.state.flag = true;
                    node = a;
                }
                // Clause 10: "set exactly if .. both before and at the inner end".
                _ => {
                    let old = self.state.flag;
                    self.state.flag = true;
                    if !self.expression(a, mode)? {
                        return Ok(false);
                    }
                    self.state.flag &= old;
                    return Ok(true);
                }
            }
            if R::REMEMBERS {
                return self.expression(node, mode);
            }
        }
    }
}

#[cfg(test)]
mod tests {
    use super::*;

    fn step(amount: u16) -> u16 {
        relation::ANY + amount
    }

    fn ends(lower: u32, upper: impl Into<Option<u32>>) -> Interval {
        Interval {
            lower,
            upper: upper.into(),
        }
    }

    /// "On the way in both ends rise by that amount": steps of 1, 2 and 31.
    #[test]
    fn steps_in() {
        assert_eq!(ends(3, 9).inner(step(1)), ends(4, 10));
        assert_eq!(ends(3, 9).inner(step(2)), ends(5, 11));
        assert_eq!(ends(3, 9).inner(step(31)), ends(34, 40));
        assert_eq!(ends(0, 0).inner(step(31)), ends(31, 31));
        assert_eq!(ends(3, None).inner(step(31)), ends(34, None));
        assert_eq!(ends(65_530, 65_535).inner(step(31)), ends(65_561, 65_566));
    }

    /// "on the way out both fall, stopping at 0", each end by itself.
    #[test]
    fn steps_out() {
        assert_eq!(ends(4, 10).outer(step(1)), ends(3, 9));
        assert_eq!(ends(5, 11).outer(step(2)), ends(3, 9));
        assert_eq!(ends(34, 40).outer(step(31)), ends(3, 9));
        assert_eq!(ends(65_561, 65_566).outer(step(31)), ends(65_530, 65_535));
        assert_eq!(ends(34, None).outer(step(31)), ends(3, None));
        // The lower end below the amount, at it, and above it.
        assert_eq!(ends(1, 5).outer(step(3)), ends(0, 2));
        assert_eq!(ends(3, 5).outer(step(3)), ends(0, 2));
        assert_eq!(ends(4, 5).outer(step(3)), ends(1, 2));
        assert_eq!(ends(0, None).outer(step(31)), ends(0, None));
        assert_eq!(ends(30, 31).outer(step(31)), ends(0, 0));
        // The upper end too, where no agreement with sets is claimed.
        assert_eq!(ends(0, 30).outer(step(31)), ends(0, 0));
        assert_eq!(ends(0, 0).outer(step(1)), ends(0, 0));
    }

    /// Every step goes in and comes back, from both sides of the largest column.
    #[test]
    fn steps_in_and_out() {
        for step in (1..=31).map(step) {
            for lower in [0, 1, 30, 31, 32, 65_534, 65_535, 65_536, 65_000_000] {
                for upper in [None, Some(lower), Some(lower + 7)] {
                    let interval = ends(lower, upper);
                    assert_eq!(interval.inner(step).outer(step), interval);
                }
            }
        }
    }
}
