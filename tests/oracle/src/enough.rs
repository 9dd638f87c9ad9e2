//! At least so many plans? (paper 02, #101) Told from the list of all trials, in the order in which they are due.

use crate::lent::{question_lent, trials};
use crate::Refusal;
use std::iter::once;

#[derive(Clone, Copy, Debug, PartialEq, Eq)]
pub enum Said {
    Yes,
    No,
    Spent,
}

/// What is said, the plans found and the trials made.
#[derive(Clone, Copy, Debug, PartialEq, Eq)]
pub struct Enough {
    pub said: Said,
    pub plans: u32,
    pub nodes: u32,
}

/// The questions of a run, then the answer.
pub fn at_least(
    sheet: &[u8],
    pairs: &[u8],
    block: &[u8],
    plans: u32,
    node_limit: u32,
) -> Result<Enough, Refusal> {
    let (problem, order) = question_lent(sheet, pairs, block)?;
    Ok(enough(&trials(&problem, &order), plans, node_limit))
}

/// The trials tell, as they are due, whether they find a plan. Yes at the m-th plan if the allowance reaches it; else no if it
/// reaches the last trial; else spent. No plans are there before the first trial.
pub fn enough(trials: &[bool], plans: u32, node_limit: u32) -> Enough {
    let allowed = trials.len().min(node_limit as usize);
    let found = (1..=allowed).filter(|&made| trials[made - 1]);
    if let Some(made) = once(0).chain(found.clone()).nth(plans as usize) {
        return Enough { said: Said::Yes, plans, nodes: made as u32 };
    }
    let said = if allowed == trials.len() { Said::No } else { Said::Spent };
    Enough { said, plans: found.count() as u32, nodes: allowed as u32 }
}
