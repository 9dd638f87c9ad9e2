//! Part `merge`: one list from two (paper 02, #106), with pairs (#108); lists, pairs and rooms right and damaged.

use crate::tally::{code, Guarded, Tally, WRONG_SIZE};
use oracle::order::settling_order;
use planner_sys::planner_merge;
use sheets::{pairs, Rng};

/// What a merge is lent besides its room.
#[derive(Clone, Debug, PartialEq, Eq)]
struct Lent {
    places: u32,
    pairs: Vec<u8>,
    first: Vec<u8>,
    second: Vec<u8>,
}

impl Lent {
    fn planner(&self, out: &mut [u8], answer: &mut [u8]) -> u32 {
        planner_merge(self.places, &self.pairs, &self.first, &self.second, out, answer)
    }

    fn oracle(&self, out: &mut [u8]) -> Result<usize, oracle::Refusal> {
        oracle::merge::merge(self.places, &self.pairs, &self.first, &self.second, out)
    }
}

pub fn case(rng: &mut Rng, tally: &mut Tally) {
    let places = rng.between(1, 12);
    let pairs = pairs(rng, places);
    let order = settling_order(places, &pairs).unwrap_or((0..places).collect());
    let rows = rows(rng, &order);
    let [first, second] = [0, 1].map(|_| part(rng, &rows));
    let right = Lent { places: places as u32, pairs, first, second };
    for _ in 0..4 {
        let mut lent = right.clone();
        for _ in 0..rng.pick(&[0, 1, 1, 2]) {
            damage(rng, &mut lent);
        }
        let room = room(rng, &lent);
        compare(&lent, room, rng, tally);
    }
    if rng.chance(10) {
        wrong_answer_room(&right, rng, tally);
    }
}

/// Compares a merge with the oracle: the status, and every byte lent.
fn compare(lent: &Lent, room: usize, rng: &mut Rng, tally: &mut Tally) {
    let mut out = Guarded::new(room, rng.word() as u8);
    let mut answer = Guarded::new(12, rng.word() as u8);
    let (mut expected_out, mut expected_answer) = (out.clone(), answer.clone());
    let expected = lent.oracle(expected_out.lent());
    if let Ok(written) = expected {
        let words = [1, written as u32, (written as u64 >> 32) as u32].map(u32::to_le_bytes).concat();
        expected_answer.lent().copy_from_slice(&words);
    }
    let after = lent.clone();
    let status = after.planner(out.lent(), answer.lent());
    tally.answer(&expected);
    tally.same("status", status, code(&expected), &lent.first);
    tally.same("answer", &answer.bytes, &expected_answer.bytes, &lent.first);
    tally.same("room after", &out.bytes, &expected_out.bytes, &lent.first);
    tally.same("pairs and lists after", &after, lent, &lent.first);
}

/// Different rows that ascend in the order, of few values or of any bytes.
fn rows(rng: &mut Rng, order: &[usize]) -> Vec<Vec<u8>> {
    let count = match rng.below(12) {
        0 => 0,
        1 => rng.pick(&[300, 4096, 5000]),
        _ => rng.below(40),
    };
    let values = rng.pick(&[2, 3, 16, 256]);
    let mut readings: Vec<Vec<u8>> =
        (0..count).map(|_| order.iter().map(|_| rng.below(values) as u8).collect()).collect();
    readings.sort();
    readings.dedup();
    let at = |place: usize| order.iter().position(|&other| other == place).expect("each place once");
    let row = |reading: Vec<u8>| (0..order.len()).map(|place| reading[at(place)]).collect();
    readings.into_iter().map(row).collect()
}

/// A list of some of the rows, of none or of all.
fn part(rng: &mut Rng, rows: &[Vec<u8>]) -> Vec<u8> {
    let percent = rng.pick(&[0, 20, 50, 80, 100]);
    rows.iter().filter(|_| rng.chance(percent)).flatten().copied().collect()
}

/// A fault: a list that isn't whole, rows twice or out of order, another number of places; or lists that are alike.
fn damage(rng: &mut Rng, lent: &mut Lent) {
    let n = lent.places.clamp(1, 12) as usize;
    let list = if rng.chance(50) { &mut lent.first } else { &mut lent.second };
    let rows = list.len() / n;
    match rng.below(10) {
        0 => lent.places = rng.pick(&[0, 13, 256 + n as u32, u32::MAX]),
        1 => list.push(1),
        2 if rows > 0 => list.truncate(rng.below(list.len())),
        3 | 4 if rows > 0 => list.extend_from_within((rows - 1) * n..),
        5 | 6 if rows > 1 => {
            let at = rng.below(rows - 1) * n;
            list[at..at + 2 * n].rotate_left(n);
        }
        _ => lent.second = lent.first.clone(),
    }
}

/// A room of just the size of the merged list, short by one byte, or any.
fn room(rng: &mut Rng, lent: &Lent) -> usize {
    let mut plenty = vec![0; lent.first.len() + lent.second.len()];
    let size = lent.oracle(&mut plenty).unwrap_or(plenty.len());
    match rng.below(6) {
        0 => size.saturating_sub(1),
        1 => rng.below(size + 1),
        2 => size + rng.below(40),
        _ => size,
    }
}

/// With an answer that isn't 12 bytes long nothing is written.
fn wrong_answer_room(lent: &Lent, rng: &mut Rng, tally: &mut Tally) {
    let mut out = Guarded::new(lent.first.len() + lent.second.len(), rng.word() as u8);
    let mut answer = Guarded::new(rng.pick(&[0, 1, 11, 13, 24]), rng.word() as u8);
    let (out_before, answer_before) = (out.clone(), answer.clone());
    let status = lent.planner(out.lent(), answer.lent());
    tally.same("status", status, 256 * WRONG_SIZE, &lent.first);
    tally.same("room untouched", &out.bytes, &out_before.bytes, &lent.first);
    tally.same("answer untouched", &answer.bytes, &answer_before.bytes, &lent.first);
}
