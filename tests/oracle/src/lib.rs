//! The paper's definitions as plain Rust, written from the paper alone and as simply as they can be
//! run. Speed is no aim: forbidden sets and assignments are drawn one by one.

pub mod block;
pub mod closed;
pub mod columns;
pub mod desk;
pub mod enough;
pub mod families;
pub mod lent;
pub mod listing;
pub mod merge;
pub mod nogood;
pub mod order;
pub mod parts;
pub mod report;
pub mod search;
pub mod sheet;
pub mod small;
pub mod store;

pub use nogood::{filter, FilterEnding};
pub use report::report;
pub use search::{run, Ending, Outcome};
pub use sheet::{question, Problem, Refusal};

/// The values of a set (bit v for value v), ascending.
pub fn members(set: u16) -> Vec<usize> {
    (0..16).filter(|&value| contains(set, value)).collect()
}

/// Is the value in the set?
pub fn contains(set: u16, value: usize) -> bool {
    value < 16 && set >> value & 1 == 1
}
