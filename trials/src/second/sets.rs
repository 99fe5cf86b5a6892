//! 01 "The clauses over sets": the ten clauses with a set of natural numbers in the
//! state, and nothing of the two ends; the two by which the 2014 reading differs, 02
//! Note 5: "sets under its own clauses"; the captures that "the clauses' own derivation
//! gives", 02 Note 2; and the farthest place, 02 Note 7: "the clauses over sets carry it
//! too".

use super::{kind, relation, run::refusal, Ran, Reading, Start};

/// What a run over sets answers. `farthest` is as in `Ran`.
#[derive(Debug, Clone, PartialEq, Eq)]
pub enum SetRan {
    Success {
        read: u32,
        set: ColumnSet,
        flag: bool,
        farthest: u32,
    },
    Failure {
        farthest: u32,
    },
    /// 3, 4, 5, 11, 12 or 16.
    Refused(u8),
    /// 7, with the lowest node that is not well formed.
    IllFormed(u16),
}

/// A set of natural numbers whose membership changes at finitely many numbers: the
/// numbers at which it changes, rising. A number is in the set exactly if an odd
/// count of changes lies at or below it.
#[derive(Debug, Clone, PartialEq, Eq)]
pub struct ColumnSet {
    changes: Vec<u64>,
}

impl ColumnSet {
    pub fn contains(&self, n: u64) -> bool {
        self.changes.partition_point(|&change| change <= n) % 2 == 1
    }

    pub fn is_empty(&self) -> bool {
        self.changes.is_empty()
    }

    /// The set as its longest runs, rising: the first number of each and the last,
    /// `None` for a run without end.
    pub fn runs(&self) -> Vec<(u64, Option<u64>)> {
        self.changes
            .chunks(2)
            .map(|ends| (ends[0], ends.get(1).map(|&end| end - 1)))
            .collect()
    }

    /// The one number.
    fn only(n: u64) -> Self {
        ColumnSet {
            changes: vec![n, n + 1],
        }
    }

    /// The set of which `member` tells, if membership changes at `points` only.
    fn told(mut points: Vec<u64>, member: impl Fn(u64) -> bool) -> Self {
        points.push(0);
        points.sort_unstable();
        points.dedup();
        let mut inside = false;
        points.retain(|&point| {
            let changes = member(point) != inside;
            inside ^= changes;
            changes
        });
        ColumnSet { changes: points }
    }

    /// The numbers in both.
    fn meet(&self, other: &ColumnSet) -> Self {
        let points = [&self.changes[..], &other.changes].concat();
        Self::told(points, |n| self.contains(n) && other.contains(n))
    }

    /// The inner set: "every i that stands in the relation to some k ..".
    fn inner(&self, relation: u16) -> Self {
        let reach = reach(relation);
        Self::told(self.near_changes(reach), |i| {
            self.some(i, reach, |k| stands(relation, i, k))
        })
    }

    /// The outer set: "every k to which some i in T so stands".
    fn outer(&self, relation: u16) -> Self {
        let reach = reach(relation);
        Self::told(self.near_changes(reach), |k| {
            self.some(k, reach, |i| stands(relation, i, k))
        })
    }

    /// The changes and the numbers a reach from them. Whether a number has a partner in
    /// the set turns at these, or at 0, only. The first four relations compare two
    /// numbers by order, so a number and the next have the same partners unless one of
    /// them, or one next to them, enters or leaves the set. Under a step a number has
    /// one partner, the amount below or above it, so it turns where a change lies that
    /// far below or above. An inner number below the amount has none, and the amount's
    /// own is 0, which is a change if it is in the set.
    fn near_changes(&self, reach: u64) -> Vec<u64> {
        self.changes
            .iter()
            .flat_map(|&change| [change.saturating_sub(reach), change, change + reach])
            .collect()
    }

    /// Whether some number of the set passes the test. Where the test asks only for
    /// the order of the number and `from`, in each run of the set its first number,
    /// its last (or, without end, one above `from`), and `from` itself and its
    /// neighbours stand for all. Under a step the test passes one number at most, a
    /// reach above or below `from`.
    fn some(&self, from: u64, reach: u64, test: impl Fn(u64) -> bool) -> bool {
        let beyond = self.changes.last().map_or(0, |&last| last.max(from) + 1);
        let ends = self
            .changes
            .iter()
            .flat_map(|&change| [change.saturating_sub(1), change]);
        let near = [from.saturating_sub(reach), from, from + reach, beyond];
        ends.chain(near).any(|n| self.contains(n) && test(n))
    }
}

/// How an inner column `i` stands to an outer baseline `k`.
fn stands(relation: u16, i: u64, k: u64) -> bool {
    match relation {
        relation::EQUAL => i == k,
        relation::GREATER => i > k,
        relation::AT_LEAST => i >= k,
        relation::ANY => true,
        step => i == k + u64::from(relation::amount(step)),
    }
}

/// How far from a number those lie that decide about it: beside it where the relation
/// compares by order, the amount away under a step.
fn reach(relation: u16) -> u64 {
    match relation {
        relation::EQUAL | relation::GREATER | relation::AT_LEAST | relation::ANY => 1,
        step => u64::from(relation::amount(step)),
    }
}

/// The clauses' state: "a place, a set S of natural numbers and the flag". With it goes
/// the count of captures listed on the way to it, so that whoever hands an old state on
/// hands on the list as it was then.
#[derive(Clone)]
struct State {
    place: usize,
    set: ColumnSet,
    flag: bool,
    listed: usize,
    farthest: Farthest,
}

/// "the largest token place that a terminal was tried at" so far, `None` if none was
/// tried. Whoever hands an old state on does so with the farthest place of what was
/// tried since, for "Trials inside a not and in failed alternatives count".
type Farthest = Option<usize>;

/// How an expression ends: "both success and failure" carry the farthest place.
enum End {
    Success(State),
    Failure(Farthest),
}

/// More expressions were entered than allowed.
struct OutOfSteps;

type Outcome = Result<End, OutOfSteps>;

struct Clauses<'t> {
    nodes: &'t [u16],
    rules: &'t [u16],
    tokens: &'t [u32],
    reading: Reading,
    steps_left: u64,
    /// Those listed on the way to a state are its first `listed`; what stands behind is
    /// of a derivation given up. `None` if the run lists none.
    captures: Option<Vec<[u32; 4]>>,
    /// The rules begun and not ended.
    around: u32,
}

/// Runs the clauses over sets; the caller lends the stack.
pub fn run(
    nodes: &[u16],
    rules: &[u16],
    tokens: &[u32],
    reading: Reading,
    start: &Start,
) -> SetRan {
    // So many steps are never taken in the lifetime of a machine.
    run_within(nodes, rules, tokens, reading, start, u64::MAX).expect("the steps do not run out")
}

/// As `run`, but `None` once more than `steps` expressions were entered.
pub fn run_within(
    nodes: &[u16],
    rules: &[u16],
    tokens: &[u32],
    reading: Reading,
    start: &Start,
    steps: u64,
) -> Option<SetRan> {
    let (ran, _) = listed_within(nodes, rules, tokens, reading, start, steps, None)?;
    Some(ran)
}

/// As `run_within`, with all the captures, of which only a success has any. Here the
/// room for them is without end, so there is no 13.
pub fn list_within(
    nodes: &[u16],
    rules: &[u16],
    tokens: &[u32],
    reading: Reading,
    start: &Start,
    steps: u64,
) -> Option<(SetRan, Vec<[u32; 4]>)> {
    listed_within(
        nodes,
        rules,
        tokens,
        reading,
        start,
        steps,
        Some(Vec::new()),
    )
}

fn listed_within(
    nodes: &[u16],
    rules: &[u16],
    tokens: &[u32],
    reading: Reading,
    start: &Start,
    steps: u64,
    captures: Option<Vec<[u32; 4]>>,
) -> Option<(SetRan, Vec<[u32; 4]>)> {
    match refusal(nodes, rules, tokens, reading, start) {
        Err(Ran::IllFormed(node)) => return Some((SetRan::IllFormed(node), Vec::new())),
        Err(Ran::Refused(number)) => return Some((SetRan::Refused(number), Vec::new())),
        _ => {}
    }
    let mut clauses = Clauses {
        nodes,
        rules,
        tokens,
        reading,
        steps_left: steps,
        captures,
        around: 0,
    };
    // "at first the start's place and flag, and every natural number .."
    let mut changes = vec![u64::from(start.lower)];
    changes.extend(start.upper.map(|upper| u64::from(upper) + 1));
    let begin = State {
        place: start.place as usize,
        set: ColumnSet { changes },
        flag: start.flag,
        listed: 0,
        farthest: None,
    };
    let place = begin.place;
    // "and the start place if none was tried"
    let farthest = |farthest: Farthest| farthest.unwrap_or(place) as u32;
    match clauses.expression(start.node, start.mode, begin) {
        Err(OutOfSteps) => None,
        // "a failure lists none"
        Ok(End::Failure(far)) => {
            let farthest = farthest(far);
            Some((SetRan::Failure { farthest }, Vec::new()))
        }
        Ok(End::Success(end)) => {
            let mut captures = clauses.captures.unwrap_or_default();
            captures.truncate(end.listed);
            let ran = SetRan::Success {
                read: (end.place - place) as u32,
                set: end.set,
                flag: end.flag,
                farthest: farthest(end.farthest),
            };
            Some((ran, captures))
        }
    }
}

impl Clauses<'_> {
    /// An expression in a mode from a state: the state of its success, or its failure.
    fn expression(&mut self, node: u16, mode: u16, state: State) -> Outcome {
        self.steps_left = self.steps_left.checked_sub(1).ok_or(OutOfSteps)?;
        let words = &self.nodes[4 * usize::from(node)..][..4];
        let (a, b, relation) = (words[1], words[2], words[3]);
        match words[0] {
            // "Empty changes nothing."
            kind::EMPTY => Ok(End::Success(state)),
            kind::TERMINAL => Ok(self.terminal(a, mode, state)),
            kind::RULE => self.rule(a, mode, state),
            // "a, then b from where a ended"
            kind::SEQUENCE => match self.expression(a, mode, state)? {
                End::Success(between) => self.expression(b, mode, between),
                failure => Ok(failure),
            },
            // "a, or if a fails b from the old state"
            kind::CHOICE => match self.expression(a, mode, state.clone())? {
                End::Failure(farthest) => self.expression(b, mode, State { farthest, ..state }),
                success => Ok(success),
            },
            // "Not succeeds exactly if its child fails"; "Not and failure hand the old
            // state on".
            kind::NOT => match self.expression(a, mode, state.clone())? {
                End::Success(end) => Ok(End::Failure(end.farthest)),
                End::Failure(farthest) => Ok(End::Success(State { farthest, ..state })),
            },
            // "success in the old state .. else the repeat again .."
            kind::REPEAT => {
                let mut old = state;
                loop {
                    match self.expression(a, mode, old.clone())? {
                        End::Success(end) => old = end,
                        End::Failure(farthest) => {
                            return Ok(End::Success(State { farthest, ..old }));
                        }
                    }
                }
            }
            kind::INDENT => self.indent(a, relation, mode, state),
            // "Position changes the mode for its child, through rules too."
            kind::POSITION => self.expression(a, relation, state),
            _ => self.align(a, mode, state),
        }
    }

    /// A terminal is tried at the state's place, which may be the token count; "success
    /// moves one place on".
    fn terminal(&self, terminal: u16, mode: u16, state: State) -> End {
        let farthest = state.farthest.max(Some(state.place));
        match self.matched(terminal, mode, &state) {
            Some(set) => End::Success(State {
                place: state.place + 1,
                set,
                flag: false,
                listed: state.listed,
                farthest,
            }),
            None => End::Failure(farthest),
        }
    }

    /// What becomes of S, or `None` where the terminal fails: it "also fails at the
    /// token count ..".
    fn matched(&self, terminal: u16, mode: u16, state: &State) -> Option<ColumnSet> {
        let words = self.tokens.get(4 * state.place..4 * state.place + 4)?;
        if words[0] != u32::from(terminal) {
            return None;
        }
        let column = u64::from(words[1]);
        let alone = ColumnSet::only(column);
        if state.flag {
            // "i must lie in [S], which becomes [i alone]"
            state.set.contains(column).then_some(alone)
        } else {
            // "i must lie in the mode's inner set, and [S] is met .."
            state.set.inner(mode).contains(column).then_some(())?;
            Some(state.set.meet(&alone.outer(mode)))
        }
    }

    /// "A rule is its node." Its capture stands behind those on the way to the state
    /// and before those inside it; the token after the last is known at its end.
    fn rule(&mut self, rule: u16, mode: u16, mut state: State) -> Outcome {
        let node = self.rules[usize::from(rule)];
        let own = state.listed;
        match &mut self.captures {
            Some(captures) => {
                captures.truncate(own);
                captures.push([u32::from(rule), state.place as u32, 0, self.around]);
            }
            None => return self.expression(node, mode, state),
        }
        state.listed += 1;
        self.around += 1;
        let end = self.expression(node, mode, state)?;
        self.around -= 1;
        if let (Some(captures), End::Success(end)) = (&mut self.captures, &end) {
            captures[own][2] = end.place as u32;
        }
        Ok(end)
    }

    /// "the child gets the inner set of S; after its success .." By 2014 "under a set
    /// flag" the child gets S, and what it leaves stands.
    fn indent(&mut self, child: u16, relation: u16, mode: u16, state: State) -> Outcome {
        if self.reading == Reading::By2014 && state.flag {
            return self.expression(child, mode, state);
        }
        let inside = State {
            set: state.set.inner(relation),
            ..state
        };
        match self.expression(child, mode, inside)? {
            End::Success(end) => Ok(End::Success(State {
                set: state.set.meet(&end.set.outer(relation)),
                ..end
            })),
            failure => Ok(failure),
        }
    }

    /// "Align sets the flag inside; after success it is set .." By 2014 it "hands on the
    /// flag as its child left it".
    fn align(&mut self, child: u16, mode: u16, state: State) -> Outcome {
        let before = state.flag;
        let inside = State {
            flag: true,
            ..state
        };
        match self.expression(child, mode, inside)? {
            End::Success(end) => Ok(End::Success(State {
                flag: match self.reading {
                    Reading::By2017 => before && end.flag,
                    Reading::By2014 => end.flag,
                },
                ..end
            })),
            failure => Ok(failure),
        }
    }
}

#[cfg(test)]
mod tests {
    use super::*;

    /// From `base` on a set is one of the 2^7 choices among seven numbers, and all or
    /// nothing behind them.
    const CHOSEN: u64 = 7;

    fn chosen(base: u64) -> Vec<ColumnSet> {
        (0u64..256)
            .map(|bits| {
                let member = |n: u64| n >= base && bits >> (n - base).min(CHOSEN) & 1 == 1;
                let set = ColumnSet::told((base..=base + CHOSEN).collect(), member);
                for n in 0..base + 20 {
                    assert_eq!(set.contains(n), member(n));
                }
                set
            })
            .collect()
    }

    /// The inner and outer set by their definitions, number by number. The set does not
    /// change after 35 nor its images after 66, so partners below 110 stand for all.
    fn images(set: &ColumnSet, relation: u16) {
        let inner = set.inner(relation);
        let outer = set.outer(relation);
        for n in 0..75 {
            let has_k = (0..110).any(|k| set.contains(k) && stands(relation, n, k));
            assert_eq!(inner.contains(n), has_k, "{set:?} {relation} {n}");
            let has_i = (0..110).any(|i| set.contains(i) && stands(relation, i, n));
            assert_eq!(outer.contains(n), has_i, "{set:?} {relation} {n}");
        }
        assert_eq!(inner.contains(1 << 40), inner.contains(74));
        assert_eq!(outer.contains(1 << 40), outer.contains(74));
    }

    /// Sets that begin at 0, and sets around the largest amount.
    #[test]
    fn images_by_definition() {
        for base in [0, 28] {
            for set in chosen(base) {
                (0..relation::COUNT).for_each(|relation| images(&set, relation));
            }
        }
    }

    #[test]
    fn runs_and_meets_by_definition() {
        let sets = chosen(0);
        for set in &sets {
            assert_eq!(set.is_empty(), (0..=CHOSEN).all(|n| !set.contains(n)));
            let listed = |n: u64| {
                set.runs()
                    .iter()
                    .any(|&(first, last)| first <= n && last.is_none_or(|last| n <= last))
            };
            for n in 0..20 {
                assert_eq!(set.contains(n), listed(n));
            }
            for other in sets.iter().step_by(7) {
                let both = set.meet(other);
                for n in 0..20 {
                    assert_eq!(both.contains(n), set.contains(n) && other.contains(n));
                }
            }
        }
    }

    /// Steps of sets that are no interval, worked by hand.
    #[test]
    fn steps_of_sets_with_gaps() {
        let step = |amount: u16| relation::ANY + amount;
        // 0, 5, 31, 32, and from 40 on.
        let set = ColumnSet {
            changes: vec![0, 1, 5, 6, 31, 33, 40],
        };
        let one = |n: u64| (n, Some(n));
        let by_31 = [one(31), one(36), (62, Some(63)), (71, None)];
        assert_eq!(set.inner(step(31)).runs(), by_31);
        assert_eq!(set.outer(step(31)).runs(), [(0, Some(1)), (9, None)]);
        let by_1 = [one(1), one(6), (32, Some(33)), (41, None)];
        assert_eq!(set.inner(step(1)).runs(), by_1);
        assert_eq!(
            set.outer(step(1)).runs(),
            [one(4), (30, Some(31)), (39, None)]
        );
        // 1 to 5 by 3, and 0 to 30 by 31, which no outer column reaches.
        let low = ColumnSet {
            changes: vec![1, 6],
        };
        assert_eq!(low.outer(step(3)).runs(), [(0, Some(2))]);
        let below = ColumnSet {
            changes: vec![0, 31],
        };
        assert!(below.outer(step(31)).is_empty());
        assert_eq!(below.inner(step(31)).runs(), [(31, Some(61))]);
    }
}
