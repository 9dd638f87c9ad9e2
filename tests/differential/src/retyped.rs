//! Part `retyped` (paper 02, #109): sheets with two to four exchanges, typed in all orders of these. Under the same pairs,
//! block, allowance and room each answers with the same status, and every lent byte is the same; so does whether there are at
//! least so many plans, and the number of families.

use crate::lent::{Lent, ANSWER_BYTES};
use crate::run::{node_limit, room};
use crate::tally::{Guarded, Tally};
use oracle::lent::run_lent;
use oracle::Problem;
use sheets::{alike_problem, encode, pairs, problem, Rng};

pub fn case(rng: &mut Rng, tally: &mut Tally) {
    let (mut problem, block) = with_exchanges(rng);
    problem.symmetries.truncate(4);
    let block = if block[1] > 0 { block.to_vec() } else { Vec::new() };
    let first = Lent { sheet: encode(&problem), pairs: pairs(rng, problem.variables), block };
    let whole = run_lent(&first.sheet, &first.pairs, &first.block, u32::MAX, &mut vec![0; 12 * 4096]);
    let (plans, nodes) =
        whole.map_or((1, 1), |tallied| (tallied.outcome.plans as usize, tallied.outcome.nodes));
    let (limit, room) = (node_limit(rng, nodes), room(rng, plans * problem.variables));
    let pattern = rng.word() as u8;
    let expected = run(&first, limit, room, pattern);
    for symmetries in orders(&problem.symmetries) {
        let sheet = encode(&Problem { symmetries, ..problem.clone() });
        let other = Lent { sheet, ..first.clone() };
        let answer = run(&other, limit, room, pattern);
        tally.same("statuses, list and answers in another order", answer, expected.clone(), &other.bytes());
    }
}

/// A problem with at least two exchanges, with or without a block of alike places.
fn with_exchanges(rng: &mut Rng) -> (Problem, [u8; 2]) {
    loop {
        let drawn = if rng.chance(30) { alike_problem(rng) } else { (problem(rng), [0, 0]) };
        if drawn.0.symmetries.len() >= 2 {
            return drawn;
        }
    }
}

/// The statuses, and every byte that is written to.
fn run(lent: &Lent, limit: u32, room: usize, pattern: u8) -> ([u32; 3], Vec<u8>) {
    let [mut list, mut answer, mut enough, mut families] =
        [room, ANSWER_BYTES, 12, 12].map(|length| Guarded::new(length, pattern));
    let statuses = [
        lent.run(limit, list.lent(), answer.lent()),
        lent.at_least(room as u32 / 4, limit, enough.lent()),
        lent.families(limit, families.lent()),
    ];
    (statuses, [list.bytes, answer.bytes, enough.bytes, families.bytes].concat())
}

/// Every order of some things.
fn orders<T: Clone>(things: &[T]) -> Vec<Vec<T>> {
    if things.is_empty() {
        return vec![Vec::new()];
    }
    let mut all = Vec::new();
    for first in 0..things.len() {
        let mut others = things.to_vec();
        let front = others.remove(first);
        for rest in orders(&others) {
            all.push([vec![front.clone()], rest].concat());
        }
    }
    all
}
