//! A seeded, repeatable generator of inputs for the reader's parts: mostly good ones
//! on which something happens, and damaged ones for every number.

mod files;
mod grammars;
mod letters;
mod makers;
mod memory;
mod reports;
mod runs;
mod shared;
mod shown;
mod stats;
mod writes;

pub use files::{file_input, spellings, FileInput, Spellings};
pub use memory::{Holds, Slice, MOST_WORDS};
pub use reports::{report_input, ReportInput};
pub use runs::{run_input, run_input_by_2014, RunInput};
pub use shown::{shown_input, ShownInput};
pub use stats::{Stats, NEARLY};
pub use writes::{write_input, WriteInput};

/// A splitmix64 stream.
#[derive(Debug, Clone)]
pub struct Rng {
    state: u64,
}

impl Rng {
    pub fn new(seed: u64) -> Self {
        Rng { state: seed }
    }

    pub fn word(&mut self) -> u64 {
        self.state = self.state.wrapping_add(0x9e37_79b9_7f4a_7c15);
        let mut word = self.state;
        word = (word ^ (word >> 30)).wrapping_mul(0xbf58_476d_1ce4_e5b9);
        word = (word ^ (word >> 27)).wrapping_mul(0x94d0_49bb_1331_11eb);
        word ^ (word >> 31)
    }

    /// A number below `bound`, which is not 0.
    pub fn below(&mut self, bound: usize) -> usize {
        (self.word() % bound as u64) as usize
    }

    /// A number from `low` to `high`, both of them possible.
    pub fn between(&mut self, low: usize, high: usize) -> usize {
        low + self.below(high - low + 1)
    }

    /// True in so many of a hundred cases.
    pub fn chance(&mut self, percent: usize) -> bool {
        self.below(100) < percent
    }

    /// One of the choices, which are not none.
    pub fn pick<'c, T>(&mut self, choices: &'c [T]) -> &'c T {
        &choices[self.below(choices.len())]
    }

    /// The number of a weight, as often as it weighs.
    pub fn weighted(&mut self, weights: &[usize]) -> usize {
        let mut left = self.below(weights.iter().sum());
        for (number, &weight) in weights.iter().enumerate() {
            if left < weight {
                return number;
            }
            left -= weight;
        }
        unreachable!("the number left is below the sum of the weights")
    }
}
