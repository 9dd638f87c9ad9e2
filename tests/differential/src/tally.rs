//! What passed, what failed, and how many of a part's cases got each refusal number.

use oracle::{FilterEnding, Refusal};
use std::collections::BTreeMap;

/// How many differences are printed in full.
const SHOWN: usize = 10;

/// The number that stands for a lent buffer of another size than the fixed one.
pub const WRONG_SIZE: u32 = 255;

#[derive(Default)]
pub struct Tally {
    /// The cases of each part.
    pub cases: usize,
    pub passed: usize,
    pub failed: usize,
    /// The part's cases that were accepted, and those that got each number.
    pub accepted: usize,
    pub refused: BTreeMap<u32, usize>,
    /// Filters by the code of their ending.
    pub endings: [usize; 3],
    /// Answers to "at least so many plans?" by their kind, from 1.
    pub enough: [usize; 3],
    /// Counts of families, and dashes.
    pub families: [usize; 2],
    /// Runs with closed exchanges, and with a product missing.
    pub closed: [usize; 2],
    /// Turns at a desk by the kind of their answer, from 1.
    pub turns: [usize; 4],
    /// Heads that joined, and those of which a range is missing.
    pub joins: [usize; 2],
    /// What is tested now, printed with a difference.
    pub case: String,
}

impl Tally {
    /// Counts a comparison; a difference is printed with what was lent.
    pub fn same<T: PartialEq + std::fmt::Debug>(&mut self, what: &str, planner: T, oracle: T, lent: &[u8]) {
        if planner == oracle {
            self.passed += 1;
            return;
        }
        self.failed += 1;
        if self.failed <= SHOWN {
            println!("DIFFERENT {what}, {}", self.case);
            println!("  planner {}", short(&format!("{planner:?}")));
            println!("  oracle  {}", short(&format!("{oracle:?}")));
            println!("  lent    {}", short(&hex(lent)));
        }
    }

    /// Counts the oracle's answer to questions.
    pub fn answer<T>(&mut self, answer: &Result<T, Refusal>) {
        match answer {
            Ok(_) => self.accepted += 1,
            Err(refusal) => self.count(refusal.number),
        }
    }

    /// Counts a refusal.
    pub fn count(&mut self, number: u32) {
        *self.refused.entry(number).or_default() += 1;
    }
}

/// How the filter ended, as the exported function gives it.
pub fn ending_code(ending: FilterEnding) -> u32 {
    match ending {
        FilterEnding::Consistent => 0,
        FilterEnding::Entailed => 1,
        FilterEnding::Failed => 2,
    }
}

/// The answer as the exported functions give it: 0, or number * 256 + item.
pub fn code<T>(answer: &Result<T, Refusal>) -> u32 {
    answer.as_ref().map_or_else(|refusal| refusal.number * 256 + refusal.item, |_| 0)
}

/// A lent buffer of a pattern, with a margin on both sides that nothing may change.
#[derive(Clone, Debug, PartialEq, Eq)]
pub struct Guarded {
    pub bytes: Vec<u8>,
    length: usize,
}

const MARGIN: usize = 32;

impl Guarded {
    pub fn new(length: usize, pattern: u8) -> Guarded {
        let byte = |i: usize| pattern.wrapping_add(i as u8).wrapping_mul(37) | 128;
        Guarded { bytes: (0..length + 2 * MARGIN).map(byte).collect(), length }
    }

    /// The part that is lent.
    pub fn lent(&mut self) -> &mut [u8] {
        &mut self.bytes[MARGIN..MARGIN + self.length]
    }
}

fn hex(bytes: &[u8]) -> String {
    bytes.iter().map(|byte| format!("{byte:02x}")).collect()
}

fn short(text: &str) -> String {
    let cut: String = text.chars().take(2400).collect();
    if cut.len() < text.len() {
        cut + " .."
    } else {
        cut
    }
}
