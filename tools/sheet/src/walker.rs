//! Runs of the proved planner, call by call: each goes on where the one before it stood, so that a run can be watched and stopped and no
//! trial is made twice.

use crate::make::Made;
use planner::{run_part, Ending, Head, Refusal};

/// The most trials of a call: a tenth of a second or less, beside which making the sheet ready, below a thousandth, doesn't count.
const STEP: u64 = 1 << 19;

/// What a hall's tree is made of.
#[derive(Clone, Copy)]
pub struct Tree<'a> {
    pub sheet: &'a [u8],
    pub pairs: &'a [u8],
    pub block: &'a [u8],
    pub windows: usize,
}

impl<'a> Tree<'a> {
    pub fn of(made: &'a Made) -> Tree<'a> {
        let Made { problem, sheet, pairs, block } = made;
        Tree { sheet, pairs, block, windows: problem.variables.len() }
    }
}

/// What one call found: its head, and its plans one after the other.
pub struct Step<'a> {
    pub head: Head,
    pub rows: &'a [u8],
}

/// Where a run stands in a range of a tree.
pub struct Walker<'a> {
    tree: Tree<'a>,
    /// The last trial made, else where the range begins.
    pub at: Vec<u8>,
    pub upto: Vec<u8>,
    list: Vec<u8>,
}

impl<'a> Walker<'a> {
    /// Before the first trial after `from`; no trial after `upto` is made.
    pub fn new(tree: Tree<'a>, from: &[u8], upto: &[u8]) -> Walker<'a> {
        Walker { tree, at: from.to_vec(), upto: upto.to_vec(), list: Vec::new() }
    }

    /// Goes on, with at most so many trials and room for so many plans. A step that ends full leaves the walker where it stood.
    pub fn step(&mut self, trials: u64, plans: u64) -> Result<Step<'_>, Refusal> {
        let limit = trials.min(STEP);
        let room = self.tree.windows * plans.min(limit) as usize;
        if self.list.len() < room {
            self.list = vec![0; room];
        }
        let Tree { sheet, pairs, block, windows } = self.tree;
        let list = &mut self.list[..room];
        let head = run_part(sheet, pairs, block, &self.at, &self.upto, limit as u32, list)?;
        if head.answer().ending != Ending::Full {
            self.at = head.last().to_vec();
        }
        Ok(Step { head, rows: &self.list[..windows * head.answer().plans as usize] })
    }
}
