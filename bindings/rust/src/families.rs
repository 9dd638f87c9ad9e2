//! Families of solutions (paper 02, #104).
//!
//! A family is all solutions that the exchanges, the sheet's own and the block's, join one after another, through unlisted ones
//! too.

use crate::{number, Refusal};
use planner_sys::planner_families;

/// The number of families, or `None` for the dash: the run that is lent the same with room for 4,096 plans isn't finished, or that
/// of the sheet without exchanges and block isn't.
pub fn families(sheet: &[u8], pairs: &[u8], block: &[u8], node_limit: u32) -> Result<Option<u32>, Refusal> {
    let mut answer = [0; 12];
    Refusal::from_code(planner_families(sheet, pairs, block, node_limit, &mut answer))?;
    Ok((number(&answer, 0) == 1).then(|| number(&answer, 1)))
}
