//! Part `lent`: the questions and the run that are lent pairs and a block (paper 02, #107, #108, #111), on sheets, pairs
//! and blocks right and damaged, with node limits and rooms around the ends of the search; without them also beside
//! the plain run.

use crate::run::{node_limit, room, words};
use crate::tally::{code, Guarded, Tally, WRONG_SIZE};
use oracle::lent::{question_lent, run_lent, Tallied};
use oracle::{Problem, Refusal};
use planner_sys::{planner_question_lent, planner_run, planner_run_lent};
use sheets::{alike_problem, block, damaged, encode, pairs, problem, Rng};
use std::fs;
use std::path::Path;

/// Kind, plans, trials, and the trials of twelve places.
pub const ANSWER_BYTES: usize = 60;

/// What a run is lent besides its list.
#[derive(Clone, Debug, PartialEq, Eq)]
pub struct Lent {
    pub sheet: Vec<u8>,
    pub pairs: Vec<u8>,
    pub block: Vec<u8>,
}

impl Lent {
    fn question(&self) -> u32 {
        planner_question_lent(&self.sheet, &self.pairs, &self.block)
    }

    pub fn run(&self, limit: u32, list: &mut [u8], answer: &mut [u8]) -> u32 {
        planner_run_lent(&self.sheet, &self.pairs, &self.block, limit, list, answer)
    }

    /// All that is lent, to be printed.
    pub fn bytes(&self) -> Vec<u8> {
        [&self.pairs[..], &self.block, &self.sheet].concat()
    }
}

/// A sheet, pairs and a block, right or damaged, and the number of places.
pub fn drawn(rng: &mut Rng) -> (Lent, usize) {
    let (problem, alike) = match rng.chance(20) {
        true => alike_problem(rng),
        false => (problem(rng), [0, 0]),
    };
    let sheet = if rng.chance(10) { damaged(rng, &problem) } else { encode(&problem) };
    let block = if alike[1] > 0 { alike.to_vec() } else { block(rng, problem.variables) };
    (Lent { sheet, pairs: pairs(rng, problem.variables), block }, problem.variables)
}

pub fn case(rng: &mut Rng, tally: &mut Tally) {
    let (lent, places) = drawn(rng);
    question(&lent, tally);
    let whole = run_lent(&lent.sheet, &lent.pairs, &lent.block, u32::MAX, &mut vec![0; 12 * 4096]);
    let (plans, nodes) =
        whole.map_or((1, 1), |tallied| (tallied.outcome.plans as usize, tallied.outcome.nodes));
    let enough = plans * places;
    for _ in 0..3 {
        let (limit, room) = (node_limit(rng, nodes), room(rng, enough));
        run(&lent, limit, room, rng, tally);
    }
    let (limit, room) = (node_limit(rng, nodes), room(rng, enough));
    as_plain(&lent.sheet, limit, room, rng, tally);
    if rng.chance(10) {
        wrong_answer_room(&lent, rng, tally);
    }
}

pub fn question(lent: &Lent, tally: &mut Tally) {
    let expected = question_lent(&lent.sheet, &lent.pairs, &lent.block);
    let after = lent.clone();
    let status = after.question();
    tally.answer(&expected);
    tally.same("answer to the questions", status, code(&expected), &lent.bytes());
    tally.same("sheet, pairs and block after", &after, lent, &lent.bytes());
}

/// Compares one run with the oracle's.
pub fn run(lent: &Lent, limit: u32, room: usize, rng: &mut Rng, tally: &mut Tally) {
    let oracle = |list: &mut [u8]| run_lent(&lent.sheet, &lent.pairs, &lent.block, limit, list);
    run_beside(oracle, lent, limit, room, rng, tally);
}

/// Compares one run with what the oracle makes of the list: the status, and every byte lent.
pub fn run_beside(
    oracle: impl FnOnce(&mut [u8]) -> Result<Tallied, Refusal>,
    lent: &Lent,
    limit: u32,
    room: usize,
    rng: &mut Rng,
    tally: &mut Tally,
) {
    let mut list = Guarded::new(room, rng.word() as u8);
    let mut answer = Guarded::new(ANSWER_BYTES, rng.word() as u8);
    let (mut expected_list, mut expected_answer) = (list.clone(), answer.clone());
    let expected = oracle(expected_list.lent());
    if let Ok(tallied) = expected {
        let numbers = [&words(tallied.outcome)[..], &tallied.counts].concat();
        let numbers: Vec<u8> = numbers.into_iter().flat_map(u32::to_le_bytes).collect();
        expected_answer.lent().copy_from_slice(&numbers);
    }
    let after = lent.clone();
    let status = after.run(limit, list.lent(), answer.lent());
    tally.same("status", status, code(&expected), &lent.bytes());
    tally.same("answer", &answer.bytes, &expected_answer.bytes, &lent.bytes());
    tally.same("list after", &list.bytes, &expected_list.bytes, &lent.bytes());
    tally.same("sheet, pairs and block after", &after, lent, &lent.bytes());
}

/// Without pairs and block: status, list, and the first three numbers of the answer are those of the plain run.
fn as_plain(sheet: &[u8], limit: u32, room: usize, rng: &mut Rng, tally: &mut Tally) {
    let mut lists = [0, 1].map(|_| Guarded::new(room, 3));
    let pattern = rng.word() as u8;
    let mut answers = [ANSWER_BYTES, 12].map(|length| Guarded::new(length, pattern));
    let lent = Lent { sheet: sheet.to_vec(), pairs: Vec::new(), block: Vec::new() };
    let status = lent.run(limit, lists[0].lent(), answers[0].lent());
    let plain = planner_run(sheet, limit, lists[1].lent(), answers[1].lent());
    tally.same("status without pairs", status, plain, sheet);
    tally.same("list without pairs", &lists[0].bytes, &lists[1].bytes, sheet);
    let [answer, plain] = answers.each_mut().map(Guarded::lent);
    tally.same("answer without pairs", &answer[..12], &*plain, sheet);
}

/// With an answer that isn't 60 bytes long nothing is written, whatever else is lent.
fn wrong_answer_room(lent: &Lent, rng: &mut Rng, tally: &mut Tally) {
    let mut list = Guarded::new(100, rng.word() as u8);
    let mut answer = Guarded::new(rng.pick(&[0, 1, 12, 59, 61, 64, 120]), rng.word() as u8);
    let (list_before, answer_before) = (list.clone(), answer.clone());
    let status = lent.run(100, list.lent(), answer.lent());
    tally.count(WRONG_SIZE);
    tally.same("status", status, 256 * WRONG_SIZE, &lent.bytes());
    tally.same("list untouched", &list.bytes, &list_before.bytes, &lent.bytes());
    tally.same("answer untouched", &answer.bytes, &answer_before.bytes, &lent.bytes());
}

/// The stored sheets A and the rotation, and twelve free windows, with single pairs, a chain, circles, 64 and 65 pairs,
/// half a pair and a block.
pub fn examples(tally: &mut Tally) {
    let folder = Path::new(env!("CARGO_MANIFEST_DIR")).join("../../examples");
    let stored = |name: &str| fs::read(folder.join(name)).expect("a stored sheet");
    let chain: Vec<u8> = (0..11).rev().flat_map(|place| [place + 1, place]).collect();
    let round = |count: u8| (0..count).flat_map(|place| [place, (place + 1) % count]).collect();
    let mut all: Vec<Vec<u8>> = vec![Vec::new(), chain, round(1), round(2), round(3), round(12)];
    all.extend((0..9).map(|number| vec![number / 3, number % 3]));
    all.extend([[1, 0].repeat(64), [1, 0].repeat(65), vec![1], vec![1, 0, 1]]);
    let twelve = Problem {
        variables: 12,
        values: 3,
        initial: vec![1, 3, 1, 1, 7, 1, 1, 1, 3, 1, 1, 5],
        constraints: Vec::new(),
        symmetries: Vec::new(),
    };
    for sheet in [stored("a.sheet"), stored("cycle.sheet"), encode(&twelve)] {
        for pairs in &all {
            for block in
                [&[][..], &[0], &[0, 1], &[0, 2], &[1, 2], &[0, 3], &[2, 5], &[5, 3], &[0, 6], &[0, 2, 0]]
            {
                tally.case = format!("part lent, pairs {pairs:?}, block {block:?}");
                let lent = Lent { sheet: sheet.clone(), pairs: pairs.clone(), block: block.to_vec() };
                question(&lent, tally);
                run(&lent, 1_000_000, 12 * 100, &mut Rng::new(1), tally);
            }
        }
    }
}
