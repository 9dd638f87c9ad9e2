//! Plans stored by window (paper 02, #103).

use crate::Refusal;

/// The most plans.
const PLANS: usize = 4096;

fn refuse<T>(number: u32) -> Result<T, Refusal> {
    Err(Refusal { number, item: 0 })
}

/// Writes rows as columns to the front of the room; how many bytes were written.
pub fn columns(places: u32, rows: &[u8], room: &mut [u8]) -> Result<usize, Refusal> {
    questions(places, rows)?;
    let plans: Vec<&[u8]> = rows.chunks(places as usize).collect();
    let header = [places as usize, plans.len(), 8, 8 + rows.len()];
    let mut store: Vec<u8> = header.iter().flat_map(|&number| (number as u16).to_le_bytes()).collect();
    for place in 0..places as usize {
        store.extend(plans.iter().map(|plan| plan[place]));
    }
    write(&store, room)
}

/// Turns a store back into rows at the front of the room; how many bytes were written.
pub fn rows(store: &[u8], room: &mut [u8]) -> Result<usize, Refusal> {
    if store.len() < 8 {
        return refuse(23);
    }
    let number = |i: usize| u64::from(store[2 * i]) + 256 * u64::from(store[2 * i + 1]);
    let (places, plans, offset, total) = (number(0), number(1), number(2), number(3));
    let length = store.len() as u64;
    if offset != 8 || length != total || length != 8 + places * plans {
        return refuse(23);
    }
    let mut left = &store[8..];
    questions(places as u32, left)?;
    let mut rows = vec![Vec::new(); left.len() / places as usize];
    for _ in 0..places {
        for row in rows.iter_mut() {
            row.push(left[0]);
            left = &left[1..];
        }
    }
    write(&rows.concat(), room)
}

/// Questions 20 and 21.
fn questions(places: u32, bytes: &[u8]) -> Result<(), Refusal> {
    if places == 0 || places > 12 {
        return refuse(20);
    }
    let places = places as usize;
    if !bytes.len().is_multiple_of(places) || bytes.len() > PLANS * places {
        return refuse(20);
    }
    if bytes.iter().any(|&value| value > 15) {
        return refuse(21);
    }
    Ok(())
}

/// Question 22, then the bytes.
fn write(bytes: &[u8], room: &mut [u8]) -> Result<usize, Refusal> {
    if room.len() < bytes.len() {
        return refuse(22);
    }
    room[..bytes.len()].copy_from_slice(bytes);
    Ok(bytes.len())
}
