//! Part `enough`: at least so many plans? (paper 02, #101) On sheets, pairs and blocks right and damaged: every number of plans
//! from 0 to two more than there are, with allowances one before, at and one after each plan's trial and the last trial.

use crate::lent::{drawn, Lent};
use crate::tally::{code, Guarded, Tally, WRONG_SIZE};
use oracle::enough::{at_least, enough, Enough, Said};
use oracle::lent::{question_lent, trials};
use oracle::Refusal;
use planner_sys::planner_at_least;
use sheets::Rng;

const ANSWER_BYTES: usize = 12;
/// With up to so many plans every number is asked with the allowances around every plan; with more, with those around its own.
const FEW: usize = 12;
/// With more plans than these the first and the last numbers are asked, and some between.
const MANY: usize = 60;

impl Lent {
    pub fn at_least(&self, plans: u32, limit: u32, answer: &mut [u8]) -> u32 {
        planner_at_least(&self.sheet, &self.pairs, &self.block, plans, limit, answer)
    }
}

pub fn case(rng: &mut Rng, tally: &mut Tally) {
    let (lent, _) = drawn(rng);
    let asked = question_lent(&lent.sheet, &lent.pairs, &lent.block);
    tally.answer(&asked);
    match asked {
        Ok((problem, order)) => around(&lent, &trials(&problem, &order), rng, tally),
        Err(_) => {
            for plans in [0, 1, u32::MAX] {
                let limit = rng.pick(&[0, 1, 1000, u32::MAX]);
                let refused = at_least(&lent.sheet, &lent.pairs, &lent.block, plans, limit);
                ask(&lent, plans, limit, refused, rng, tally);
            }
        }
    }
    if rng.chance(10) {
        wrong_answer_room(&lent, rng, tally);
    }
}

/// All numbers of plans and allowances that matter to a sheet, given its trials.
fn around(lent: &Lent, trials: &[bool], rng: &mut Rng, tally: &mut Tally) {
    let at: Vec<usize> = (1..=trials.len()).filter(|&trial| trials[trial - 1]).collect();
    let is_asked = |number: usize, rng: &mut Rng| {
        at.len() <= MANY || number < FEW || number + FEW > at.len() || rng.chance(5)
    };
    for plans in 0..=at.len() + 2 {
        if is_asked(plans, rng) {
            for limit in limits(plans, &at, trials.len(), rng) {
                ask(lent, plans as u32, limit, Ok(enough(trials, plans as u32, limit)), rng, tally);
            }
        }
    }
    ask(lent, u32::MAX, u32::MAX, Ok(enough(trials, u32::MAX, u32::MAX)), rng, tally);
}

/// Allowances around the trials that find plans, the first, the last and any, and plenty.
fn limits(plans: usize, at: &[usize], last: usize, rng: &mut Rng) -> Vec<u32> {
    let near = match at.len() <= FEW {
        true => at,
        false => &at[plans.saturating_sub(2).min(at.len())..(plans + 1).min(at.len())],
    };
    let ends = [0, 1, last, rng.below(last + 1)];
    let around = |&trial: &usize| [trial.saturating_sub(1), trial, trial + 1];
    let mut limits: Vec<u32> = near.iter().chain(&ends).flat_map(around).map(|limit| limit as u32).collect();
    limits.extend([1_000_000, u32::MAX]);
    limits.sort();
    limits.dedup();
    limits
}

/// Compares one answer with the oracle's: the status, and every byte lent.
pub fn ask(
    lent: &Lent,
    plans: u32,
    limit: u32,
    expected: Result<Enough, Refusal>,
    rng: &mut Rng,
    tally: &mut Tally,
) {
    let mut answer = Guarded::new(ANSWER_BYTES, rng.word() as u8);
    let mut expected_answer = answer.clone();
    if let Ok(enough) = expected {
        let kind = match enough.said {
            Said::Yes => 1,
            Said::No => 2,
            Said::Spent => 3,
        };
        tally.enough[kind as usize - 1] += 1;
        let numbers = [kind, enough.plans, enough.nodes].map(u32::to_le_bytes).concat();
        expected_answer.lent().copy_from_slice(&numbers);
    }
    let after = lent.clone();
    let status = after.at_least(plans, limit, answer.lent());
    let what = |name: &str| format!("{name}, {plans} plans, {limit} trials");
    tally.same(&what("status"), status, code(&expected), &lent.bytes());
    tally.same(&what("answer"), &answer.bytes, &expected_answer.bytes, &lent.bytes());
    tally.same(&what("sheet, pairs and block after"), &after, lent, &lent.bytes());
}

/// With an answer that isn't 12 bytes long nothing is written, whatever else is lent.
fn wrong_answer_room(lent: &Lent, rng: &mut Rng, tally: &mut Tally) {
    let mut answer = Guarded::new(rng.pick(&[0, 1, 11, 13, 24, 60]), rng.word() as u8);
    let before = answer.clone();
    let status = lent.at_least(rng.below(3) as u32, rng.below(3) as u32, answer.lent());
    tally.count(WRONG_SIZE);
    tally.same("status", status, 256 * WRONG_SIZE, &lent.bytes());
    tally.same("answer untouched", &answer.bytes, &before.bytes, &lent.bytes());
}
