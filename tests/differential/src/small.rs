//! Part `small`: every small sheet (paper 02, #114) by its position, then a run of each beside a listing by brute
//! force; positions, rooms and answers of any size.

use crate::tally::{code, Guarded, Tally, WRONG_SIZE};
use oracle::listing::{families, leaders, reached, solutions};
use oracle::small::{small_sheet, small_sheets};
use oracle::Problem;
use planner_sys::{planner_run, planner_small_sheet};
use sheets::Rng;
use std::time::Instant;

/// One position and room, right or wrong.
pub fn case(rng: &mut Rng, tally: &mut Tally) {
    let position = match rng.below(4) {
        0 => 540 + rng.below(8) as u32,
        1 => rng.word() as u32,
        _ => rng.below(544) as u32,
    };
    let room = if rng.chance(30) { rng.below(52) } else { 52 + rng.below(20) };
    compare(position, room, rng, tally);
    if rng.chance(10) {
        wrong_answer_room(position, rng, tally);
    }
}

/// Compares one call with the oracle: the status, and every byte lent.
fn compare(position: u32, room: usize, rng: &mut Rng, tally: &mut Tally) {
    let mut out = Guarded::new(room, rng.word() as u8);
    let mut answer = Guarded::new(12, rng.word() as u8);
    let (mut expected_out, mut expected_answer) = (out.clone(), answer.clone());
    let expected = small_sheet(position, expected_out.lent());
    if let Ok(length) = expected {
        let words = [1, length as u32, 0].map(u32::to_le_bytes);
        expected_answer.lent().copy_from_slice(&words.concat());
    }
    tally.answer(&expected);
    let status = call(position, &mut out, &mut answer);
    let lent = position.to_le_bytes();
    tally.same("status", status, code(&expected), &lent);
    tally.same("room after", &out.bytes, &expected_out.bytes, &lent);
    tally.same("answer after", &answer.bytes, &expected_answer.bytes, &lent);
}

fn call(position: u32, out: &mut Guarded, answer: &mut Guarded) -> u32 {
    let (out, answer) = (out.lent(), answer.lent());
    planner_small_sheet(position, out, answer)
}

/// With a room for the answer that isn't 12 bytes nothing is written.
fn wrong_answer_room(position: u32, rng: &mut Rng, tally: &mut Tally) {
    let mut out = Guarded::new(rng.pick(&[0, 51, 52, 60]), rng.word() as u8);
    let mut answer = Guarded::new(rng.pick(&[0, 1, 11, 13, 24]), rng.word() as u8);
    let (out_before, answer_before) = (out.clone(), answer.clone());
    let status = call(position, &mut out, &mut answer);
    let lent = position.to_le_bytes();
    tally.same("status", status, 256 * WRONG_SIZE, &lent);
    tally.same("room untouched", &out.bytes, &out_before.bytes, &lent);
    tally.same("answer untouched", &answer.bytes, &answer_before.bytes, &lent);
}

/// All positions in turn, timed; then compared, and each sheet as the library gives it run by the library.
pub fn all(tally: &mut Tally) {
    let mut rng = Rng::new(1);
    let start = Instant::now();
    let found =
        (0..).take_while(|&k| call(k, &mut Guarded::new(52, 0), &mut Guarded::new(12, 0)) == 0).count();
    println!("small: {found} sheets by position, {:.3} s", start.elapsed().as_secs_f64());
    for position in 0..small_sheets().len() as u32 + 3 {
        compare(position, 52, &mut rng, tally);
    }
    for position in 0..small_sheets().len() as u32 {
        tally.case = format!("part small, position {position}");
        let (mut out, mut answer) = (Guarded::new(52, 0), Guarded::new(12, 0));
        call(position, &mut out, &mut answer);
        let length = answer.lent()[4] as usize;
        run(&out.lent()[..length], tally);
    }
}

/// The run of a sheet beside the listing by brute force: the list, the ending, the plans, and that chains of
/// exchanges reach every solution from them.
fn run(sheet: &[u8], tally: &mut Tally) {
    let Ok(problem) = oracle::question(sheet) else {
        tally.same("accepted", false, true, sheet);
        return;
    };
    let plans = listed(sheet, tally);
    tally.same("plans", &plans, &leaders(&problem), sheet);
    tally.same("reached", reached(&problem, &plans), solutions(&problem), sheet);
    tally.same("a plan of each family", plans_by_family(&problem, &plans), families(&problem), sheet);
}

/// The plans that the library lists; the run must be finished, with the oracle's trials.
fn listed(sheet: &[u8], tally: &mut Tally) -> Vec<Vec<usize>> {
    let (mut list, mut answer) = ([0; 8], [0; 12]);
    planner_run(sheet, 1_000_000, &mut list, &mut answer);
    let trials = oracle::run(sheet, 1_000_000, &mut [0; 8]).map(|outcome| outcome.nodes as u8);
    tally.same("finished", (answer[0], Ok(answer[8])), (1, trials), sheet);
    let count = answer[4] as usize;
    list.chunks(2).take(count).map(|row| row.iter().map(|&value| value as usize).collect()).collect()
}

/// How many families have a listed plan.
fn plans_by_family(problem: &Problem, plans: &[Vec<usize>]) -> usize {
    let mut seen: Vec<Vec<Vec<usize>>> =
        plans.iter().map(|plan| reached(problem, std::slice::from_ref(plan))).collect();
    seen.sort();
    seen.dedup();
    seen.len()
}
