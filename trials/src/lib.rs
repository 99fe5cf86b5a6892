//! Trials of the proved reader against a second one that was written from documents 01 and 02 and the papers alone: generated
//! inputs, published examples and benchmarks.

pub mod generate;
pub mod ours;
pub mod second;
