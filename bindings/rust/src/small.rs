//! Every small sheet (paper 02, #114): two windows and two duties, one rule on both, at most one exchange.

use crate::{number, Refusal};
use planner_sys::planner_small_sheet;

/// The room that is asked for a small sheet.
const ROOM: usize = 52;

/// Writes the small sheet at a position, from 0, to the front of `out`; its length is the answer. Refusals 39
/// (past the last) and 40 (under 52 bytes of room); after one `out` is as it came.
pub fn small_sheet(position: u32, out: &mut [u8]) -> Result<usize, Refusal> {
    let mut answer = [0; 12];
    Refusal::from_code(planner_small_sheet(position, out, &mut answer))?;
    Ok(number(&answer, 1) as usize)
}

/// All small sheets, in the order of their positions.
pub fn small_sheets() -> impl Iterator<Item = Vec<u8>> {
    (0..).map_while(|position| {
        let mut sheet = vec![0; ROOM];
        let length = small_sheet(position, &mut sheet).ok()?;
        sheet.truncate(length);
        Some(sheet)
    })
}
