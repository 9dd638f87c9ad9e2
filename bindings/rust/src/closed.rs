//! Closed exchanges (paper 02, #112).
//!
//! A family is all solutions that the exchanges, the sheet's own and the block's, join one after another, through unlisted ones
//! too.

use crate::{number, Refusal};
use planner_sys::planner_closed;

/// Whether any two exchanges (or one twice), one after the other, make one of them or the exchange that moves nothing.
#[derive(Clone, Copy, Debug, PartialEq, Eq)]
pub enum Closed {
    /// A finished run lists one plan of each family, the one that reads earliest.
    Yes,
    /// The first two, by the first and then the second, that one after the other make an exchange that is missing. They are
    /// numbered from 0, the sheet's own first, then the block's orderings.
    Missing { first: u32, second: u32 },
}

/// Are the exchanges of a run closed?
pub fn closed(sheet: &[u8], pairs: &[u8], block: &[u8]) -> Result<Closed, Refusal> {
    let mut answer = [0; 12];
    Refusal::from_code(planner_closed(sheet, pairs, block, &mut answer))?;
    Ok(match number(&answer, 0) {
        1 => Closed::Yes,
        _ => Closed::Missing { first: number(&answer, 1), second: number(&answer, 2) },
    })
}
