//! Part `closed`: whether the exchanges are closed (paper 02, #112), on sheets, pairs and blocks right and damaged. Where the library
//! says so, its finished run lists the earliest plan of each family and nothing else.

use crate::lent::{drawn, Lent, ANSWER_BYTES as RUN_BYTES};
use crate::tally::{code, Guarded, Tally, WRONG_SIZE};
use oracle::closed::{earliest, missing_product};
use oracle::lent::question_lent;
use oracle::Problem;
use planner_sys::planner_closed;
use sheets::{encode, Rng};

const ANSWER_BYTES: usize = 12;

impl Lent {
    fn closed(&self, answer: &mut [u8]) -> u32 {
        planner_closed(&self.sheet, &self.pairs, &self.block, answer)
    }
}

pub fn case(rng: &mut Rng, tally: &mut Tally) {
    let (lent, _) = drawn(rng);
    tally.answer(&question_lent(&lent.sheet, &lent.pairs, &lent.block));
    closed(&lent, rng, tally);
    if rng.chance(10) {
        wrong_answer_room(&lent, rng, tally);
    }
}

/// Compares one answer with the oracle's: the status, and every byte lent.
fn closed(lent: &Lent, rng: &mut Rng, tally: &mut Tally) {
    let mut answer = Guarded::new(ANSWER_BYTES, rng.word() as u8);
    let mut expected_answer = answer.clone();
    let expected = missing_product(&lent.sheet, &lent.pairs, &lent.block);
    if let Ok(missing) = expected {
        let numbers = match missing {
            Some([first, second]) => [2, first as u32, second as u32],
            None => [1, 0, 0],
        };
        expected_answer.lent().copy_from_slice(&numbers.map(u32::to_le_bytes).concat());
    }
    let after = lent.clone();
    let status = after.closed(answer.lent());
    tally.same("status", status, code(&expected), &lent.bytes());
    tally.same("answer", &answer.bytes, &expected_answer.bytes, &lent.bytes());
    tally.same("what is lent after", &after, lent, &lent.bytes());
    if let Ok((problem, order)) = question_lent(&lent.sheet, &lent.pairs, &lent.block) {
        let is_closed = answer.lent()[0] == 1;
        if !problem.symmetries.is_empty() {
            tally.closed[usize::from(!is_closed)] += 1;
        }
        if is_closed {
            one_of_each(lent, &problem, &order, tally);
        }
    }
}

/// The run's list is the earliest plan of each family.
fn one_of_each(lent: &Lent, problem: &Problem, order: &[usize], tally: &mut Tally) {
    let expected: Vec<u8> = earliest(problem, order).concat().into_iter().map(|duty| duty as u8).collect();
    let (mut list, mut answer) = (vec![0; 12 * 4096], vec![0; RUN_BYTES]);
    let status = lent.run(u32::MAX, &mut list, &mut answer);
    let number = |at: usize| u32::from_le_bytes(answer[at..at + 4].try_into().unwrap()) as usize;
    tally.same("status and ending of the run", (status, number(0)), (0, FINISHED), &lent.bytes());
    list.truncate(number(4) * problem.variables);
    tally.same("one plan of each family", &list, &expected, &lent.bytes());
}

/// The kind of a finished run.
const FINISHED: usize = 1;

/// With an answer that isn't 12 bytes long nothing is written, whatever else is lent.
fn wrong_answer_room(lent: &Lent, rng: &mut Rng, tally: &mut Tally) {
    let mut answer = Guarded::new(rng.pick(&[0, 1, 11, 13, 24, 60]), rng.word() as u8);
    let before = answer.clone();
    let status = lent.closed(answer.lent());
    tally.count(WRONG_SIZE);
    tally.same("status", status, 256 * WRONG_SIZE, &lent.bytes());
    tally.same("answer untouched", &answer.bytes, &before.bytes, &lent.bytes());
}

/// Every row of up to three orderings of three windows of two duties, as tables.
pub fn tables_of_three() -> Vec<Vec<Vec<usize>>> {
    let orderings = [[0, 1, 2], [0, 2, 1], [1, 0, 2], [1, 2, 0], [2, 0, 1], [2, 1, 0]];
    let table = |to: [usize; 3]| (0..6).map(|number| 2 * to[number / 2] + number % 2).collect();
    let tables: Vec<Vec<usize>> = orderings.map(table).to_vec();
    let longer = |rows: &Vec<Vec<Vec<usize>>>| -> Vec<Vec<Vec<usize>>> {
        rows.iter().flat_map(|row| tables.iter().map(|table| [&row[..], &[table.clone()]].concat())).collect()
    };
    let one = longer(&vec![Vec::new()]);
    let two = longer(&one);
    let three = longer(&two);
    [one, two, three].concat()
}

/// Three free windows of two duties, with each of these as exchanges.
pub fn orderings_of_three(tally: &mut Tally) {
    for symmetries in tables_of_three() {
        tally.case = format!("part closed, three windows, exchanges {symmetries:?}");
        let problem =
            Problem { variables: 3, values: 2, initial: vec![3; 3], constraints: Vec::new(), symmetries };
        let lent = Lent { sheet: encode(&problem), pairs: Vec::new(), block: Vec::new() };
        closed(&lent, &mut Rng::new(1), tally);
    }
}
