//! Every small sheet (paper 02, #114), by brute force: every four numbers below 4 are tried as a table.

use crate::{question, Refusal};
use std::sync::OnceLock;

/// The room that is asked for a small sheet.
const ROOM: usize = 52;

/// All sheets of two places and two values with one rule on both and at most one exchange, in the paper's
/// order.
pub fn small_sheets() -> &'static [Vec<u8>] {
    static ALL: OnceLock<Vec<Vec<u8>>> = OnceLock::new();
    ALL.get_or_init(|| {
        let none = vec![Vec::new()];
        let some = (0..256).map(|number| [6, 4, 2, 0].map(|shift| number >> shift & 3).to_vec()).collect();
        let mut all = Vec::new();
        for tables in [none, some] {
            for (first, second, rows) in shapes() {
                all.extend(tables.iter().map(|table| sheet(first, second, rows, table)));
            }
        }
        all.retain(|sheet| question(sheet).is_ok());
        all
    })
}

/// First set, second set and row set, in the paper's order.
fn shapes() -> impl Iterator<Item = (u16, u16, u16)> {
    (1..4).flat_map(|first| (1..4).flat_map(move |second| (0..16).map(move |rows| (first, second, rows))))
}

fn sheet(first: u16, second: u16, rows: u16, table: &[u16]) -> Vec<u8> {
    let rows: Vec<u16> =
        (0..4).filter(|row| rows >> row & 1 == 1).flat_map(|row| [row >> 1, row & 1]).collect();
    let third = 28 + 2 * rows.len() as u16;
    let length = third + 2 * table.len() as u16;
    let mut words = vec![2, 2, 1, table.len() as u16 / 4, 16, 20, third, length, first, second];
    words.extend([2, rows.len() as u16 / 2, 0, 1]);
    words.extend(rows);
    words.extend(table);
    words.iter().flat_map(|word| word.to_le_bytes()).collect()
}

/// Writes the small sheet at a position to the front of the room, and answers its length.
pub fn small_sheet(position: u32, room: &mut [u8]) -> Result<usize, Refusal> {
    let sheet = small_sheets().get(position as usize).ok_or(Refusal { number: 39, item: 0 })?;
    if room.len() < ROOM {
        return Err(Refusal { number: 40, item: 0 });
    }
    room[..sheet.len()].copy_from_slice(sheet);
    Ok(sheet.len())
}
