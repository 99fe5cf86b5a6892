//! Both readers on the deepest runs that the limits allow: forms of one kind laid over the list X = (a X) / empty until
//! the table has 512 nodes, over 4,096 tokens, by 2017 and some by 2014, plain and as they remember. Some list their
//! captures, this reader on no more stack than it is to need.

use crate::compare::same;
use trials::generate::MOST_WORDS;
use trials::ours;
use trials::second::relation::{ANY, AT_LEAST, COUNT, EQUAL};
use trials::second::{self, kind, Reading, Start};

/// The kinds laid over the list, with their b and relation; `EMPTY` is the list's own empty.
const FORMS: [(&str, u16, u16, u16); 6] = [
    ("aligns", kind::ALIGN, 0, 0),
    ("indents, at least", kind::INDENT, 0, AT_LEAST),
    ("indents, any", kind::INDENT, 0, ANY),
    ("nots", kind::NOT, 0, 0),
    ("choices", kind::CHOICE, EMPTY, 0),
    ("sequences", kind::SEQUENCE, EMPTY, 0),
];
const EMPTY: u16 = 1;

/// Each is the terminal 0 at column 0.
static TOKENS: [u32; 4 * 4096] = [0; 4 * 4096];

/// The stack that this reader lists on: 4 MiB for the list by itself, 1 GiB for others.
const LIST_STACK: usize = 4 << 20;
const STACK: usize = 1 << 30;

/// A table and a start at its last node, for which rule 0 stands too.
struct Deep {
    name: &'static str,
    nodes: Vec<u16>,
    rules: Vec<u16>,
    reading: Reading,
    start: Start,
}

pub fn deep() -> Result<(), String> {
    let first = Start::from_first(0, AT_LEAST);
    for (name, form, b, relation) in FORMS {
        let nodes = under([[form, b, relation]; 2], list());
        Deep::new(name, &nodes, &[], first).run()?;
    }
    // Both ends nearly as high as they come. In mode any the tokens are read, though all of them lie left of the ends.
    let highest = Start {
        lower: 65_535,
        upper: Some(65_535),
        ..Start::from_first(0, ANY)
    };
    let last_step = [kind::INDENT, 0, COUNT - 1];
    let nodes = under([last_step; 2], list());
    Deep::new("indents, the last step", &nodes, &[], highest).run()?;
    // Under a set flag indents leave both ends alone by 2014.
    let align = [kind::ALIGN, 0, 0];
    let at_least = [kind::INDENT, 0, AT_LEAST];
    for (name, forms) in [
        ("aligns", [align; 2]),
        ("indents, at least", [at_least; 2]),
        ("aligns and indents, the last step", [last_step, align]),
    ] {
        Deep::new(name, &under(forms, list()), &[], first)
            .by_2014()
            .run()?;
    }
    println!(
        "{} grammars of the deepest kind by 2017, 3 by 2014: no difference",
        FORMS.len() + 1
    );

    Deep::new("nothing", &list(), &[], first).list(LIST_STACK)?;
    let aligns = [align; 2];
    Deep::new("aligns", &under(aligns, list()), &[], first).list(STACK)?;
    // The longest list of nested captures: 128 rules, each of which stands for the node below it, at each of 4,097 places.
    let (mut nodes, mut others) = (list(), vec![]);
    for rule in 1..128 {
        others.push(nodes.len() as u16 - 1);
        nodes.push([kind::RULE, rule, 0, 0]);
    }
    Deep::new("rules and aligns", &under(aligns, nodes), &others, first).list(STACK)?;
    println!("3 lists of the deepest kind: no difference");
    Ok(())
}

/// X = (a X) / empty, where X is rule 0.
fn list() -> Vec<[u16; 4]> {
    vec![
        [kind::TERMINAL, 0, 0, 0],
        [kind::EMPTY, 0, 0, 0],
        [kind::RULE, 0, 0, 0],
        [kind::SEQUENCE, 0, 2, 0],
        [kind::CHOICE, 3, EMPTY, 0],
    ]
}

/// Nodes under as many of two forms in turn as a table holds. An odd number of nots would never succeed.
fn under(forms: [[u16; 3]; 2], mut nodes: Vec<[u16; 4]>) -> Vec<[u16; 4]> {
    while nodes.len() + 2 <= 512 {
        for [form, b, relation] in forms {
            nodes.push([form, nodes.len() as u16 - 1, b, relation]);
        }
    }
    nodes
}

impl Deep {
    /// The list under what `name` says, with the rules behind rule 0, from the last node in place of the start's own.
    fn new(name: &'static str, nodes: &[[u16; 4]], others: &[u16], start: Start) -> Self {
        let node = nodes.len() as u16 - 1;
        Deep {
            name,
            nodes: nodes.concat(),
            rules: [&[node], others].concat(),
            reading: Reading::By2017,
            start: Start { node, ..start },
        }
    }

    /// The same by 2014, in mode equal.
    fn by_2014(mut self) -> Self {
        self.reading = Reading::By2014;
        self.start.mode = EQUAL;
        self
    }

    fn told(&self) -> String {
        format!("the list under {}, {:?}", self.name, self.reading)
    }

    fn run(&self) -> Result<(), String> {
        let (nodes, rules, tokens) = (&self.nodes, &self.rules, &TOKENS);
        let (reading, start) = (self.reading, &self.start);
        let ran = second::run(nodes, rules, tokens, reading, start);
        let ours = ours::run(nodes, rules, tokens, reading, start);
        same("the run", ours, ran, || self.told())?;
        let held = vec![ours::TOKEN_WORD; MOST_WORDS];
        for length in [0, MOST_WORDS] {
            let ours = ours::remember(nodes, rules, tokens, reading, start, &held[..length]);
            let cleared = ours.map(|(ran, words)| (ran, words == vec![0; length]));
            same("the run that remembers", cleared, (ran, true), || {
                self.told()
            })?;
        }
        Ok(())
    }

    /// Lists with room for a capture of each rule at each place, this reader on so much stack.
    fn list(&self, stack: usize) -> Result<(), String> {
        let (nodes, rules, tokens) = (&self.nodes, &self.rules, &TOKENS);
        let (reading, start) = (self.reading, &self.start);
        let mut words = vec![ours::TOKEN_WORD; 4 * 4097 * rules.len()];
        let listed = second::list(nodes, rules, tokens, reading, start, &mut words);
        let ours = std::thread::scope(|scope| {
            let list = || ours::list(nodes, rules, tokens, reading, start, words.len());
            let thread = std::thread::Builder::new().stack_size(stack);
            let thread = thread.spawn_scoped(scope, list);
            thread.expect("a thread").join().expect("a list")
        });
        // The words are millions, so they are not shown where they differ.
        let alike = ours.map(|(listed, all)| (listed, all == words));
        same("the list", alike, (listed, true), || self.told()).map(|_| ())
    }
}
