//! The table's own checks 3, 4 and 5, and the well-formedness check 7.

use super::{kind, relation, MOST_NODES, MOST_RULES};

/// What the check answers.
#[derive(Debug, Clone, Copy, PartialEq, Eq)]
pub enum Verdict {
    Passes,
    /// 3, 4 or 5.
    Refused(u8),
    /// 7, with the lowest node that is not well formed.
    IllFormed(u16),
}

/// The check: 3, 4, 5 and 7.
pub fn check(nodes: &[u16], rules: &[u16]) -> Verdict {
    if let Err(number) = table(nodes, rules) {
        return Verdict::Refused(number);
    }
    match lowest_ill_formed(nodes.as_chunks().0, rules) {
        Some(node) => Verdict::IllFormed(node),
        None => Verdict::Passes,
    }
}

/// Checks 3, 4 and 5 of a table and its rules.
pub(super) fn table(nodes: &[u16], rules: &[u16]) -> Result<(), u8> {
    // Check 3: "node words no multiple of 4, node or rule count ..".
    let (table, over) = nodes.as_chunks::<4>();
    if !over.is_empty() || !(1..=MOST_NODES).contains(&table.len()) || rules.len() > MOST_RULES {
        return Err(3);
    }
    // Check 4, node by node.
    for (number, &node) in table.iter().enumerate() {
        if !node_stands(number, node, rules.len()) {
            return Err(4);
        }
    }
    // Check 5: "a rule's node .. not in the table".
    if rules.iter().any(|&node| usize::from(node) >= table.len()) {
        return Err(5);
    }
    Ok(())
}

/// Check 4 for one node: "kind over 9, child not lower .. unused word not 0".
fn node_stands(number: usize, [kind, a, b, relation]: [u16; 4], rules: usize) -> bool {
    let lower = |child: u16| usize::from(child) < number;
    match kind {
        kind::EMPTY => a == 0 && b == 0 && relation == 0,
        kind::TERMINAL => a <= 255 && b == 0 && relation == 0,
        kind::RULE => usize::from(a) < rules && b == 0 && relation == 0,
        kind::SEQUENCE | kind::CHOICE => lower(a) && lower(b) && relation == 0,
        kind::NOT | kind::REPEAT | kind::ALIGN => lower(a) && b == 0 && relation == 0,
        kind::INDENT | kind::POSITION => lower(a) && b == 0 && relation < relation::COUNT,
        _ => false,
    }
}

/// May succeed reading nothing.
const NOTHING: u8 = 1;
/// May succeed reading something.
const SOMETHING: u8 = 2;
/// May fail.
const FAILS: u8 = 4;
/// May succeed.
const SUCCEEDS: u8 = NOTHING | SOMETHING;

/// 01 "Well formed": the lowest node that is not, if any. The table has passed 3 to
/// 5. Both fixed points are reached by passes in rising order from nothing known.
/// Children are lower than parents, so after a pass only a rule node can lag behind
/// what it stands for, and another pass is needed exactly then.
fn lowest_ill_formed(nodes: &[[u16; 4]], rules: &[u16]) -> Option<u16> {
    // "Three facts are the least ones under Ford's rules".
    let mut facts = [0; MOST_NODES];
    loop {
        for (number, &node) in nodes.iter().enumerate() {
            facts[number] = facts_of(node, rules, &facts);
        }
        if !rule_lags(nodes, rules, &facts) {
            break;
        }
    }
    // "Well formed is also least".
    let mut well = [false; MOST_NODES];
    loop {
        for (number, &node) in nodes.iter().enumerate() {
            well[number] = well_formed(node, rules, &facts, &well);
        }
        if !rule_lags(nodes, rules, &well) {
            break;
        }
    }
    (0u16..)
        .zip(&well[..nodes.len()])
        .find_map(|(number, &well)| (!well).then_some(number))
}

/// Whether some rule node differs from the node that its rule stands for.
fn rule_lags<T: PartialEq>(nodes: &[[u16; 4]], rules: &[u16], known: &[T; MOST_NODES]) -> bool {
    nodes.iter().zip(known).any(|(&[kind, a, ..], value)| {
        kind == kind::RULE && *value != known[usize::from(rules[usize::from(a)])]
    })
}

/// One node's facts from those of its children.
fn facts_of([kind, a, b, _]: [u16; 4], rules: &[u16], facts: &[u8; MOST_NODES]) -> u8 {
    let of = |node: u16| facts[usize::from(node)];
    match kind {
        kind::EMPTY => NOTHING,
        kind::TERMINAL => SOMETHING | FAILS,
        kind::RULE => of(rules[usize::from(a)]),
        kind::SEQUENCE => {
            let (a, b) = (of(a), of(b));
            // "nothing if both"
            let mut facts = a & b & NOTHING;
            // "something if both may succeed and one reads something"
            if a & SUCCEEDS != 0 && b & SUCCEEDS != 0 && (a | b) & SOMETHING != 0 {
                facts |= SOMETHING;
            }
            // "fails if a may fail, or a may succeed .."
            if a & FAILS != 0 || (a & SUCCEEDS != 0 && b & FAILS != 0) {
                facts |= FAILS;
            }
            facts
        }
        // "a's successes, and if a may fail all of b's facts"
        kind::CHOICE => (of(a) & SUCCEEDS) | if of(a) & FAILS != 0 { of(b) } else { 0 },
        // "nothing if the child may fail; fails if it may succeed"
        kind::NOT => {
            let child = of(a);
            (if child & FAILS != 0 { NOTHING } else { 0 })
                | (if child & SUCCEEDS != 0 { FAILS } else { 0 })
        }
        // "something if the child reads something; nothing if it may fail"
        kind::REPEAT => (of(a) & SOMETHING) | if of(a) & FAILS != 0 { NOTHING } else { 0 },
        // Indent, position, align: "those of their child".
        _ => of(a),
    }
}

/// Whether one node is well formed, by what is known of its children.
fn well_formed(
    [kind, a, b, _]: [u16; 4],
    rules: &[u16],
    facts: &[u8; MOST_NODES],
    well: &[bool; MOST_NODES],
) -> bool {
    let of = |node: u16| well[usize::from(node)];
    let reads_nothing = |node: u16| facts[usize::from(node)] & NOTHING != 0;
    match kind {
        kind::EMPTY | kind::TERMINAL => true,
        kind::RULE => of(rules[usize::from(a)]),
        // "a sequence whose a is, and b too if .."
        kind::SEQUENCE => of(a) && (!reads_nothing(a) || of(b)),
        kind::CHOICE => of(a) && of(b),
        // "a repeat whose child is and may not succeed reading nothing"
        kind::REPEAT => of(a) && !reads_nothing(a),
        _ => of(a),
    }
}
