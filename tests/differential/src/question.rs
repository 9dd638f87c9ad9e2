//! Part `question`: sheets right and damaged, small and at the limits.

use crate::tally::{code, Tally};
use planner_sys::planner_question;
use sheets::{damaged, encode, large_problem, problem, Rng};

pub fn case(number: usize, rng: &mut Rng, tally: &mut Tally) {
    let problem = if number.is_multiple_of(16) { large_problem(rng) } else { problem(rng) };
    let sheet = encode(&problem);
    ask(&sheet, tally);
    for _ in 0..4 {
        ask(&damaged(rng, &problem), tally);
    }
    if number % 64 == 1 && sheet.len() < 1000 {
        every_length(&sheet, tally);
        every_byte(&sheet, rng, tally);
    }
}

fn ask(sheet: &[u8], tally: &mut Tally) {
    let expected = oracle::question(sheet);
    let lent = sheet.to_vec();
    tally.same("answer", planner_question(&lent), code(&expected), sheet);
    tally.same("sheet after", &lent[..], sheet, sheet);
    tally.answer(&expected);
}

/// The sheet cut off at every length, as it is and with the stated length lowered to fit.
fn every_length(sheet: &[u8], tally: &mut Tally) {
    for length in 0..sheet.len() {
        let mut cut = sheet[..length].to_vec();
        ask(&cut, tally);
        if length >= 16 {
            cut[14..16].copy_from_slice(&(length as u16).to_le_bytes());
            ask(&cut, tally);
        }
    }
}

/// A bit changed in every byte.
fn every_byte(sheet: &[u8], rng: &mut Rng, tally: &mut Tally) {
    for at in 0..sheet.len() {
        let mut changed = sheet.to_vec();
        changed[at] ^= 1 << rng.below(8);
        ask(&changed, tally);
    }
}
