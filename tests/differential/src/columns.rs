//! Part `columns`: rows to columns and back (paper 02, #103), for all shapes; rows, stores and rooms right and damaged.

use crate::tally::{code, Guarded, Tally, WRONG_SIZE};
use oracle::Refusal;
use planner_sys::{planner_columns, planner_rows};
use sheets::Rng;

/// A call: rows of some places to columns, or a store to rows.
#[derive(Clone, Copy)]
enum Call {
    Columns(u32),
    Rows,
}

impl Call {
    fn planner(self, bytes: &[u8], out: &mut [u8], answer: &mut [u8]) -> u32 {
        match self {
            Call::Columns(places) => planner_columns(places, bytes, out, answer),
            Call::Rows => planner_rows(bytes, out, answer),
        }
    }

    fn oracle(self, bytes: &[u8], out: &mut [u8]) -> Result<usize, Refusal> {
        match self {
            Call::Columns(places) => oracle::columns::columns(places, bytes, out),
            Call::Rows => oracle::columns::rows(bytes, out),
        }
    }
}

/// Compares a call with the oracle: the status, and every byte lent.
fn compare(call: Call, bytes: &[u8], room: usize, rng: &mut Rng, tally: &mut Tally) {
    let mut out = Guarded::new(room, rng.word() as u8);
    let mut answer = Guarded::new(12, rng.word() as u8);
    let (mut expected_out, mut expected_answer) = (out.clone(), answer.clone());
    let expected = call.oracle(bytes, expected_out.lent());
    if let Ok(written) = expected {
        for (i, word) in [1, written as u32, 0].iter().enumerate() {
            expected_answer.lent()[4 * i..4 * i + 4].copy_from_slice(&word.to_le_bytes());
        }
    }
    let lent = bytes.to_vec();
    let status = call.planner(&lent, out.lent(), answer.lent());
    tally.answer(&expected);
    tally.same("status", status, code(&expected), bytes);
    tally.same("answer", &answer.bytes, &expected_answer.bytes, bytes);
    tally.same("room after", out.bytes == expected_out.bytes, true, bytes);
    tally.same("lent bytes after", lent == bytes, true, bytes);
}

/// With an answer that isn't 12 bytes long nothing is written.
fn wrong_answer_room(call: Call, bytes: &[u8], rng: &mut Rng, tally: &mut Tally) {
    let mut out = Guarded::new(8 + bytes.len(), rng.word() as u8);
    let mut answer = Guarded::new(rng.pick(&[0, 1, 11, 13, 24]), rng.word() as u8);
    let (out_before, answer_before) = (out.clone(), answer.clone());
    let status = call.planner(bytes, out.lent(), answer.lent());
    tally.same("status", status, 256 * WRONG_SIZE, bytes);
    tally.same("room untouched", &out.bytes, &out_before.bytes, bytes);
    tally.same("answer untouched", &answer.bytes, &answer_before.bytes, bytes);
}

/// All shapes up to 4,096 plans of 12 places, to columns and back.
pub fn all_shapes(tally: &mut Tally) {
    let mut rng = Rng::new(1);
    let values: Vec<u8> = (0..12 * 4096).map(|_| rng.below(16) as u8).collect();
    let answer_of = |count: usize| [1u32, count as u32, 0].map(u32::to_le_bytes).concat();
    for places in 1..=12 {
        for plans in 0..=4096 {
            tally.case = format!("{plans} plans of {places} places");
            let rows = &values[..places * plans];
            let call = Call::Columns(places as u32);
            let (mut store, mut expected) = (vec![255; 8 + rows.len()], vec![0; 8 + rows.len()]);
            let mut answer = [0; 12];
            let status = call.planner(rows, &mut store, &mut answer);
            let written = call.oracle(rows, &mut expected);
            tally.same("status", (status, written), (0, Ok(expected.len())), rows);
            tally.same("answer", &answer[..], &answer_of(expected.len()), rows);
            tally.same("columns", store == expected, true, rows);
            let mut back = vec![255; rows.len()];
            let status = Call::Rows.planner(&store, &mut back, &mut answer);
            tally.same("status", status, 0, rows);
            tally.same("answer", &answer[..], &answer_of(rows.len()), rows);
            tally.same("rows again", back == rows, true, rows);
        }
    }
}

pub fn case(rng: &mut Rng, tally: &mut Tally) {
    let places = rng.between(1, 12);
    let plans = match rng.below(16) {
        0 => 0,
        1 => rng.pick(&[4095, 4096, 4097]),
        2 => rng.below(4098),
        _ => rng.below(40),
    };
    let rows: Vec<u8> = (0..places * plans).map(|_| rng.below(16) as u8).collect();
    for _ in 0..3 {
        let (places, bytes) = damaged_rows(rng, places, &rows);
        compare(Call::Columns(places), &bytes, room(rng, 8 + bytes.len()), rng, tally);
    }
    let mut store = vec![0; 8 + rows.len()];
    if oracle::columns::columns(places as u32, &rows, &mut store).is_err() {
        store = wrapping_store(rng);
    }
    for _ in 0..3 {
        let bytes = damaged_store(rng, &store);
        compare(Call::Rows, &bytes, room(rng, bytes.len().saturating_sub(8)), rng, tally);
    }
    for at in 0..4 {
        let bytes = damaged_number(rng, &store, at);
        compare(Call::Rows, &bytes, room(rng, rows.len()), rng, tally);
    }
    let bytes = wrapping_store(rng);
    compare(Call::Rows, &bytes, room(rng, bytes.len()), rng, tally);
    if rng.chance(10) {
        wrong_answer_room(Call::Columns(places as u32), &rows, rng, tally);
        wrong_answer_room(Call::Rows, &store, rng, tally);
    }
}

/// A room of just the size, short by one byte, longer, or any.
fn room(rng: &mut Rng, size: usize) -> usize {
    match rng.below(6) {
        0 => size.saturating_sub(1),
        1 => rng.below(size + 1),
        2 => size + rng.below(40),
        3 => 0,
        _ => size,
    }
}

/// Rows as they are, or with one fault.
fn damaged_rows(rng: &mut Rng, places: usize, rows: &[u8]) -> (u32, Vec<u8>) {
    let mut bytes = rows.to_vec();
    match rng.below(8) {
        0 => return (rng.pick(&[0, 13, 255, 256 + places as u32, 1 << 31, u32::MAX]), bytes),
        1 => return (rng.between(0, 14) as u32, bytes),
        2 => bytes.push(rng.below(16) as u8),
        3 if !bytes.is_empty() => bytes.truncate(rng.below(rows.len())),
        4 if !bytes.is_empty() => large_value(rng, &mut bytes, 0),
        _ => {}
    }
    (places as u32, bytes)
}

/// A value of 16 or more from an index on.
fn large_value(rng: &mut Rng, bytes: &mut [u8], from: usize) {
    let any = rng.between(from, bytes.len() - 1);
    let at = rng.pick(&[from, bytes.len() - 1, any]);
    bytes[at] = rng.pick(&[16, 17, 128, 255]);
}

/// A store as it is, cut off, longer, or with a value too large.
fn damaged_store(rng: &mut Rng, store: &[u8]) -> Vec<u8> {
    let mut bytes = store.to_vec();
    match rng.below(8) {
        0 => bytes.truncate(rng.below(9)),
        1 => bytes.truncate(rng.below(store.len() + 1)),
        2 => bytes.push(rng.below(16) as u8),
        3 => bytes[rng.below(8)] ^= 1 << rng.below(8),
        4 if bytes.len() > 8 => large_value(rng, &mut bytes, 8),
        _ => {}
    }
    bytes
}

/// A store with another number in one field of its header, and now and then the total to fit.
fn damaged_number(rng: &mut Rng, store: &[u8], field: usize) -> Vec<u8> {
    let mut bytes = store.to_vec();
    let number = |bytes: &[u8], at: usize| u16::from_le_bytes([bytes[2 * at], bytes[2 * at + 1]]);
    let (old, places, plans) = (number(store, field), number(store, 0), number(store, 1));
    let any = rng.word() as u16;
    let new = rng.pick(&[0, 1, 7, 9, 12, 13, places, plans, old.wrapping_add(1), old.wrapping_sub(1), any]);
    bytes[2 * field..2 * field + 2].copy_from_slice(&new.to_le_bytes());
    if rng.chance(30) {
        let total = 8u16.wrapping_add(number(&bytes, 0).wrapping_mul(number(&bytes, 1)));
        bytes[6..8].copy_from_slice(&total.to_le_bytes());
        if rng.chance(50) {
            bytes.resize(usize::from(total).max(8), 3);
        }
    }
    bytes
}

/// A header whose product of places and plans is that of the bytes after it in 16 bits only, or is 0.
fn wrapping_store(rng: &mut Rng) -> Vec<u8> {
    let (places, plans) = match rng.below(4) {
        0 => (0, rng.word() as u16),
        1 => (rng.word() as u16, 0),
        2 => rng.pick(&[(256, 256), (4, 49152), (12, 21846), (13, 5041), (16384, 12), (32768, 2)]),
        _ => (rng.word() as u16, rng.word() as u16),
    };
    let body = usize::from(places.wrapping_mul(plans));
    let header = [places, plans, 8, 8u16.wrapping_add(body as u16)];
    let mut bytes: Vec<u8> = header.iter().flat_map(|number| number.to_le_bytes()).collect();
    bytes.resize(8 + body, 5);
    bytes
}
