//! The questions and the run that are lent pairs and a block beside the sheet (paper 02, #107, #108, #111).
//!
//! Pairs are two bytes each, "this window before that window", at most 64, repeats included; no bytes are no pairs.
//! The settling order always takes the lowest-numbered window whose forerunners are all settled. A block is no bytes,
//! or two: the first of 2 to 5 neighbouring windows that are alike, and how many; all its orderings act as exchanges
//! after the sheet's own.

use crate::{number, Answer, Refusal};
use planner_sys::{planner_question_lent, planner_run_lent};

/// What a run answers, and its trials by the window that each settles, under the window's number: they add up to the
/// trials made, and windows that the sheet hasn't have 0.
#[derive(Clone, Copy, Debug, PartialEq, Eq)]
pub struct LentAnswer {
    pub answer: Answer,
    pub counts: [u32; 12],
}

/// Puts all questions that a run puts: 1 to 16 to the sheet, then 28 to 30 to the pairs, then 36 to the block, then 15
/// and 16 to its orderings, with items that count on from the sheet's exchanges.
pub fn question_lent(sheet: &[u8], pairs: &[u8], block: &[u8]) -> Result<(), Refusal> {
    Refusal::from_code(planner_question_lent(sheet, pairs, block))
}

/// As [`crate::run`], with the windows settled in the order of the pairs: the trials follow it, and so does the order
/// in which plans read and are listed; each plan is written by window number. After a refusal the list is as it came.
pub fn run_lent(
    sheet: &[u8],
    pairs: &[u8],
    block: &[u8],
    node_limit: u32,
    list: &mut [u8],
) -> Result<LentAnswer, Refusal> {
    let mut answer = [0; 60];
    Refusal::from_code(planner_run_lent(sheet, pairs, block, node_limit, list, &mut answer))?;
    let counts = std::array::from_fn(|window| number(&answer, 3 + window));
    Ok(LentAnswer { answer: Answer::from_bytes(&answer), counts })
}
