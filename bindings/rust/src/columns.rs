//! Plans stored by window (paper 02, #103): rows to columns and back.

use crate::{number, Refusal};
use planner_sys::{planner_columns, planner_rows};

/// Writes rows of `places` values as columns: a header of four 16-bit numbers, low byte first (places, plans,
/// offset 8, total length), then place 0 of every plan, place 1 of every plan, and so on. They stand at the
/// front of `out`, which takes 8 bytes more than the rows; how many were written is the answer. Refusals 20
/// to 22; after one `out` is as it came.
pub fn columns(places: u32, rows: &[u8], out: &mut [u8]) -> Result<usize, Refusal> {
    let mut answer = [0; 12];
    Refusal::from_code(planner_columns(places, rows, out, &mut answer))?;
    Ok(number(&answer, 1) as usize)
}

/// Turns such a store back into rows at the front of `out`; how many bytes were written is the answer.
/// Refusals 23 and 20 to 22; after one `out` is as it came.
pub fn rows(store: &[u8], out: &mut [u8]) -> Result<usize, Refusal> {
    let mut answer = [0; 12];
    Refusal::from_code(planner_rows(store, out, &mut answer))?;
    Ok(number(&answer, 1) as usize)
}
