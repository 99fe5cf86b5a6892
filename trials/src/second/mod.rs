//! The indentation grammar reader, written from document 01, which orders the work,
//! Notes 1 to 8 of 02, of which Note 6 asks nothing here, and the papers alone. 001
//! below is Nestra 2017, 000 is Adams and Ağacan 2014.
//!
//! Four parts: the file reader (`read`), the scanner (`scan`, `next_token`), the
//! check (`check`) and the interpreter (`run`); `line` is the program over them.
//! `list` is the run that also lists its captures, `remember` the one that remembers
//! outcomes; `shown` and `text` give the text shown for a capture. `write` writes the
//! grammar file of tables and a start. `sets` holds the same clauses over sets of
//! natural numbers. Every run names its `Reading`, and every success or failure tells
//! how far the reader looked.

mod check;
#[cfg(test)]
mod farthest;
mod file;
mod line;
mod list;
#[cfg(test)]
mod readings;
mod remember;
pub(crate) mod run;
mod scan;
pub mod sets;
mod shown;
mod write;

pub use check::{check, Verdict};
pub use file::{read, FileRead};
pub use line::{line, line_of, line_within};
pub use list::{list, list_within, Listed};
pub use remember::{remember, remember_within, Outcomes, PARTS};
pub use run::{run, run_within, Ran, Reading, Start};
pub use scan::{next_token, scan, Handed, Value};
pub use shown::{shown, text, Shown};
pub use write::write;

/// The kinds of nodes, 01 "The grammar table".
pub mod kind {
    pub const EMPTY: u16 = 0;
    pub const TERMINAL: u16 = 1;
    pub const RULE: u16 = 2;
    pub const SEQUENCE: u16 = 3;
    pub const CHOICE: u16 = 4;
    pub const NOT: u16 = 5;
    pub const REPEAT: u16 = 6;
    pub const INDENT: u16 = 7;
    pub const POSITION: u16 = 8;
    pub const ALIGN: u16 = 9;
}

/// The relations, which are also the token modes.
pub mod relation {
    pub const EQUAL: u16 = 0;
    pub const GREATER: u16 = 1;
    pub const AT_LEAST: u16 = 2;
    pub const ANY: u16 = 3;
    /// The count of relations. Those after any are the steps, 02 Note 1.
    pub const COUNT: u16 = 35;

    /// A step's amount, "the value less 3": its inner column is the outer one plus it.
    pub const fn amount(step: u16) -> u16 {
        step - ANY
    }
}

/// "At most 65,535 bytes", for the grammar file and for the report.
pub(crate) const MOST_BYTES: usize = 65_535;
/// "1 to 512 nodes".
pub(crate) const MOST_NODES: usize = 512;
/// "0 to 128 rules".
pub(crate) const MOST_RULES: usize = 128;
/// "At most 253 keywords".
pub(crate) const MOST_KEYWORDS: usize = 253;
/// "At most 4,096 tokens".
pub(crate) const MOST_TOKENS: usize = 4_096;
/// "columns at most 65,535".
pub(crate) const MOST_COLUMN: u32 = 65_535;
