//! Part `run`: sheets right and damaged, with node limits and rooms around the ends of the search.

use crate::tally::{Guarded, Tally, WRONG_SIZE};
use oracle::{Ending, Outcome};
use planner_sys::planner_run;
use sheets::{damaged, encode, problem, Rng};

pub fn case(rng: &mut Rng, tally: &mut Tally) {
    let problem = problem(rng);
    let sheet = if rng.chance(20) { damaged(rng, &problem) } else { encode(&problem) };
    let mut plenty = vec![0; 12 * 4096];
    let whole = oracle::run(&sheet, u32::MAX, &mut plenty);
    tally.answer(&whole);
    let (plans, nodes) = whole.map_or((1, 1), |outcome| (outcome.plans as usize, outcome.nodes));
    for _ in 0..4 {
        let (limit, room) = (node_limit(rng, nodes), room(rng, plans * problem.variables));
        run(&sheet, limit, room, rng, tally);
    }
    if rng.chance(10) {
        wrong_answer_room(&sheet, rng, tally);
    }
}

/// A node limit around the end of a search of so many nodes.
pub fn node_limit(rng: &mut Rng, nodes: u32) -> u32 {
    match rng.below(6) {
        0 => rng.below(nodes as usize + 1) as u32,
        1 => nodes.saturating_sub(1),
        2 => nodes,
        3 => rng.below(4) as u32,
        _ => rng.pick(&[nodes + 1, 1_000_000, u32::MAX]),
    }
}

/// A room around the one that is just enough.
pub fn room(rng: &mut Rng, enough: usize) -> usize {
    match rng.below(6) {
        0 => rng.below(enough + 1),
        1 => enough.saturating_sub(1),
        2 => rng.below(3),
        3 => enough,
        _ => enough + rng.below(40),
    }
}

fn run(sheet: &[u8], limit: u32, room: usize, rng: &mut Rng, tally: &mut Tally) {
    let mut list = Guarded::new(room, rng.word() as u8);
    let mut expected_list = list.clone();
    let expected = oracle::run(sheet, limit, expected_list.lent());
    let mut answer = Guarded::new(12, rng.word() as u8);
    let mut expected_answer = answer.clone();
    let expected_status = match expected {
        Err(refusal) => refusal.number * 256 + refusal.item,
        Ok(outcome) => {
            for (i, word) in words(outcome).iter().enumerate() {
                expected_answer.lent()[4 * i..4 * i + 4].copy_from_slice(&word.to_le_bytes());
            }
            0
        }
    };
    let lent = sheet.to_vec();
    let status = planner_run(&lent, limit, list.lent(), answer.lent());
    tally.same("status", status, expected_status, sheet);
    tally.same("answer", &answer.bytes, &expected_answer.bytes, sheet);
    tally.same("list after", &list.bytes, &expected_list.bytes, sheet);
    tally.same("sheet after", &lent[..], sheet, sheet);
}

/// Kind, plans, trials.
pub fn words(outcome: Outcome) -> [u32; 3] {
    let kind = match outcome.ending {
        Ending::Finished => 1,
        Ending::Spent => 2,
        Ending::Full => 3,
    };
    [kind, outcome.plans, outcome.nodes]
}

/// With a room for the answer that isn't 12 bytes nothing is written.
fn wrong_answer_room(sheet: &[u8], rng: &mut Rng, tally: &mut Tally) {
    let mut list = Guarded::new(100, rng.word() as u8);
    let mut answer = Guarded::new(rng.pick(&[0, 1, 11, 13, 24]), rng.word() as u8);
    let (list_before, answer_before) = (list.clone(), answer.clone());
    let status = planner_run(sheet, 100, list.lent(), answer.lent());
    tally.same("status", status, 256 * WRONG_SIZE, sheet);
    tally.same("list untouched", &list.bytes, &list_before.bytes, sheet);
    tally.same("answer untouched", &answer.bytes, &answer_before.bytes, sheet);
}
