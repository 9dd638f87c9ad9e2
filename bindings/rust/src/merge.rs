//! One list from two (paper 02, #106).

use crate::{number, Refusal};
use planner_sys::planner_merge;

/// Writes the rows of either list, ascending, each once, to the front of `out`; how many bytes were written is
/// the answer. Rows have `places` bytes, any value, and are compared in the settling order of the pairs ("this
/// place before that place", two bytes each), without pairs by place. Refusals 24, 28 to 30, 25 to 27; after one
/// `out` is as it came.
pub fn merge(
    places: u32,
    pairs: &[u8],
    first: &[u8],
    second: &[u8],
    out: &mut [u8],
) -> Result<usize, Refusal> {
    let mut answer = [0; 12];
    Refusal::from_code(planner_merge(places, pairs, first, second, out, &mut answer))?;
    let [low, high] = [1, 2].map(|half| number(&answer, half) as u64);
    Ok((low | high << 32) as usize)
}
