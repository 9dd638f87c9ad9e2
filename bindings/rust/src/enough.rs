//! At least so many plans? (paper 02, #101)

use crate::{number, Refusal};
use planner_sys::planner_at_least;

/// Whether there are as many plans as asked for, with the plans found and the trials made.
#[derive(Clone, Copy, Debug, PartialEq, Eq)]
pub enum Enough {
    /// There are: `plans` is the number asked for, and `nodes` the trials up to the last of them.
    Yes { plans: u32, nodes: u32 },
    /// Nothing is left to try, and there are fewer.
    No { plans: u32, nodes: u32 },
    /// A further trial is due, and the node limit is reached.
    Spent { plans: u32, nodes: u32 },
}

/// Asks whether [`crate::run_lent`], lent the same and room for all its plans, lists at least `plans`, and stops at the plan
/// that answers it. With `plans` 0 it is yes without a trial, once every question is passed.
pub fn at_least(
    sheet: &[u8],
    pairs: &[u8],
    block: &[u8],
    plans: u32,
    node_limit: u32,
) -> Result<Enough, Refusal> {
    let mut answer = [0; 12];
    Refusal::from_code(planner_at_least(sheet, pairs, block, plans, node_limit, &mut answer))?;
    let [kind, plans, nodes] = [0, 1, 2].map(|i| number(&answer, i));
    Ok(match kind {
        1 => Enough::Yes { plans, nodes },
        2 => Enough::No { plans, nodes },
        _ => Enough::Spent { plans, nodes },
    })
}
