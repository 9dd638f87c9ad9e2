//! Part `families`: the number of families (paper 02, #104), on sheets, pairs and blocks right and damaged, with allowances around
//! the ends of the run and of the run without exchanges. Under closed exchanges the finished run has as many plans.

use crate::closed::tables_of_three;
use crate::lent::{drawn, Lent};
use crate::tally::{code, Guarded, Tally, WRONG_SIZE};
use oracle::closed::{earliest, missing_product};
use oracle::families::families;
use oracle::lent::{question_lent, search_in};
use oracle::sheet::Constraint;
use oracle::{Ending, Problem, Refusal};
use planner_sys::planner_families;
use sheets::{encode, Rng};

const ANSWER_BYTES: usize = 12;

impl Lent {
    pub fn families(&self, limit: u32, answer: &mut [u8]) -> u32 {
        planner_families(&self.sheet, &self.pairs, &self.block, limit, answer)
    }
}

pub fn case(rng: &mut Rng, tally: &mut Tally) {
    let (lent, _) = drawn(rng);
    let asked = question_lent(&lent.sheet, &lent.pairs, &lent.block);
    tally.answer(&asked);
    match asked {
        Ok((problem, order)) => around(&lent, &problem, &order, rng, tally),
        Err(refusal) => count(&lent, rng.pick(&[0, 1000, u32::MAX]), Err(refusal), rng, tally),
    }
    if rng.chance(10) {
        wrong_answer_room(&lent, rng, tally);
    }
}

/// Allowances around the ends of both runs. A run that isn't stopped ends after so many trials: it is finished just if the allowance
/// reaches them.
fn around(lent: &Lent, problem: &Problem, order: &[usize], rng: &mut Rng, tally: &mut Tally) {
    let bare = Problem { symmetries: Vec::new(), ..problem.clone() };
    let last = [problem, &bare].map(|problem| {
        let outcome = search_in(problem, order, u32::MAX, &mut vec![0; 12 * 4096]).outcome;
        assert_eq!(outcome.ending, Ending::Finished);
        outcome.nodes
    });
    let number = earliest(problem, order).len();
    let mut limits: Vec<u32> =
        last.iter().flat_map(|&last| [last.saturating_sub(1), last, last + 1]).collect();
    limits.extend([0, 1_000_000, u32::MAX]);
    limits.sort();
    limits.dedup();
    for limit in limits {
        let expected = last.iter().all(|&last| last <= limit).then_some(number);
        count(lent, limit, Ok(expected), rng, tally);
    }
    if missing_product(&lent.sheet, &lent.pairs, &lent.block) == Ok(None) {
        let mut list = vec![0; 12 * 4096];
        let plans = search_in(problem, order, u32::MAX, &mut list).outcome.plans as usize;
        tally.same("plans under closed exchanges", plans, number, &lent.bytes());
    }
    let limit = rng.pick(&last);
    count(lent, limit, families(&lent.sheet, &lent.pairs, &lent.block, limit), rng, tally);
}

/// Compares one count with the oracle's: the status, and every byte lent.
fn count(
    lent: &Lent,
    limit: u32,
    expected: Result<Option<usize>, Refusal>,
    rng: &mut Rng,
    tally: &mut Tally,
) {
    let mut answer = Guarded::new(ANSWER_BYTES, rng.word() as u8);
    let mut expected_answer = answer.clone();
    if let Ok(families) = expected {
        tally.families[usize::from(families.is_none())] += 1;
        let numbers = families.map_or([2, 0, 0], |families| [1, families as u32, 0]);
        expected_answer.lent().copy_from_slice(&numbers.map(u32::to_le_bytes).concat());
    }
    let after = lent.clone();
    let status = after.families(limit, answer.lent());
    tally.same(&format!("status with {limit} trials"), status, code(&expected), &lent.bytes());
    tally.same(&format!("answer with {limit} trials"), &answer.bytes, &expected_answer.bytes, &lent.bytes());
    tally.same("what is lent after", &after, lent, &lent.bytes());
}

/// With an answer that isn't 12 bytes long nothing is written, whatever else is lent.
fn wrong_answer_room(lent: &Lent, rng: &mut Rng, tally: &mut Tally) {
    let mut answer = Guarded::new(rng.pick(&[0, 1, 11, 13, 24, 60]), rng.word() as u8);
    let before = answer.clone();
    let limit = rng.pick(&[0, 1, 1000]);
    let status = lent.families(limit, answer.lent());
    tally.count(WRONG_SIZE);
    tally.same("status", status, 256 * WRONG_SIZE, &lent.bytes());
    tally.same("answer untouched", &answer.bytes, &before.bytes, &lent.bytes());
}

/// Sheets with 4,096 solutions, which fit, with one more, and with many more, which don't.
pub fn many_plans(tally: &mut Tally) {
    let free = |places: usize, values: usize| Problem {
        variables: places,
        values,
        initial: vec![((1u32 << values) - 1) as u16; places],
        constraints: Vec::new(),
        symmetries: Vec::new(),
    };
    let cases = [
        (free(12, 2), Some(4096), Some(3072)),
        (free(11, 2), Some(2048), Some(1536)),
        (one_more(1), Some(4096), Some(2176)),
        (one_more(3), None, None),
        (free(4, 9), None, None),
    ];
    for (problem, alone, alike) in cases {
        tally.case = format!("part families, {problem:?}");
        for (block, expected) in [(Vec::new(), alone), (vec![0, 2], alike)] {
            let lent = Lent { sheet: encode(&problem), pairs: Vec::new(), block };
            let oracle = families(&lent.sheet, &[], &lent.block, u32::MAX);
            tally.same("the oracle's figure", oracle, Ok(expected), &lent.bytes());
            count(&lent, u32::MAX, Ok(expected), &mut Rng::new(1), tally);
        }
    }
}

/// Three windows of sixteen duties, alike, and a fourth: at its duty 0 the others are free, at 1 all have duty 0.
fn one_more(last: u16) -> Problem {
    let mut rows = vec![vec![0, 0], vec![0, 1]];
    rows.extend((1..16).map(|duty| vec![duty, 0]));
    let rule = |place| Constraint { scope: vec![place, 3], rows: rows.clone() };
    Problem {
        variables: 4,
        values: 16,
        initial: vec![u16::MAX, u16::MAX, u16::MAX, last],
        constraints: (0..3).map(rule).collect(),
        symmetries: Vec::new(),
    }
}

/// Three free windows of two duties, with every row of up to three orderings of the windows as exchanges: cycles of one and two
/// places, the rotation, and sets of them that aren't closed.
pub fn orderings_of_three(tally: &mut Tally) {
    for symmetries in tables_of_three() {
        tally.case = format!("part families, three windows, exchanges {symmetries:?}");
        let problem =
            Problem { variables: 3, values: 2, initial: vec![3; 3], constraints: Vec::new(), symmetries };
        let lent = Lent { sheet: encode(&problem), pairs: Vec::new(), block: Vec::new() };
        let expected = earliest(&problem, &[0, 1, 2]).len();
        count(&lent, 14, Ok(Some(expected)), &mut Rng::new(1), tally);
    }
}
