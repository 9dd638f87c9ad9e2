//! One list from two (paper 02, #106), rows compared in the settling order of lent pairs (#108).

use crate::order::{reading, settling_order};
use crate::Refusal;
use std::collections::BTreeMap;

/// Writes the rows of either list, ascending, each once, to the front of the room; how many bytes were written.
pub fn merge(
    places: u32,
    pairs: &[u8],
    first: &[u8],
    second: &[u8],
    room: &mut [u8],
) -> Result<usize, Refusal> {
    let refuse = |number: u32| Err(Refusal { number, item: 0 });
    let n = places as usize;
    if !(1..=12).contains(&n) || !first.len().is_multiple_of(n) || !second.len().is_multiple_of(n) {
        return refuse(24);
    }
    let order = settling_order(n, pairs)?;
    for (list, number) in [(first, 25), (second, 26)] {
        let rows: Vec<Vec<u8>> = list.chunks(n).map(|row| reading(&order, row)).collect();
        if rows.windows(2).any(|two| two[0] >= two[1]) {
            return refuse(number);
        }
    }
    let rows = first.chunks(n).chain(second.chunks(n));
    let merged: BTreeMap<Vec<u8>, &[u8]> = rows.map(|row| (reading(&order, row), row)).collect();
    if merged.len() * n > room.len() {
        return refuse(27);
    }
    for (row, to) in merged.values().zip(room.chunks_mut(n)) {
        to.copy_from_slice(row);
    }
    Ok(merged.len() * n)
}
