//! Part `parts`: parts of a run between two paths and the join of their heads, on sheets, pairs and blocks right and damaged: random cuts, every
//! cut of small trees, spent parts gone on with, heads shuffled, repeated, missing and damaged; a joined whole beside the run.

use crate::lent::{drawn, Lent};
use crate::run::{node_limit, room};
use crate::tally::{code, Guarded, Tally, WRONG_SIZE};
use oracle::lent::run_lent;
use oracle::parts::{head, join, Range, Tree, END, HEAD_BYTES};
use oracle::Refusal;
use planner_sys::{planner_join, planner_run_part};
use sheets::Rng;
use std::fs;
use std::path::Path;

/// The bytes of a join's answer.
const JOIN_BYTES: usize = 152;
/// Room for every plan of the trees that are cut.
const ROOM: usize = 12 * 4096;
/// Trees with more trials are not cut.
const MOST_TRIALS: usize = 400;

impl Lent {
    fn run_part(&self, range: Range, list: &mut [u8], answer: &mut [u8]) -> u32 {
        planner_run_part(
            &self.sheet,
            &self.pairs,
            &self.block,
            range.from,
            range.upto,
            range.node_limit,
            list,
            answer,
        )
    }
}

/// What is lent, and the oracle's tree of it.
pub struct Grown {
    pub lent: Lent,
    pub tree: Result<Tree, Refusal>,
}

impl Grown {
    pub fn new(lent: Lent) -> Grown {
        let tree = Tree::new(&lent.sheet, &lent.pairs, &lent.block);
        Grown { lent, tree }
    }

    /// The paths of all trials; a sheet that is refused has none.
    pub fn paths(&self) -> Vec<Vec<u8>> {
        self.tree.iter().flat_map(|tree| &tree.trials).map(|trial| trial.path.clone()).collect()
    }
}

pub fn case(rng: &mut Rng, tally: &mut Tally) {
    let (lent, places) = drawn(rng);
    let grown = Grown::new(lent);
    tally.answer(&grown.tree);
    let paths = grown.paths();
    if paths.len() > MOST_TRIALS {
        return;
    }
    let (from, upto) = (path(rng, &paths), path(rng, &paths));
    let limit = node_limit(rng, paths.len() as u32);
    let room = room(rng, 3 * places);
    part(&grown, Range { from: &from, upto: &upto, node_limit: limit }, room, rng, tally);
    if rng.chance(10) {
        wrong_size(&grown.lent, rng, tally);
    }
    if !paths.is_empty() {
        let all = cuts(rng, &paths);
        whole(&grown, &all, rng, tally);
        let other = cuts(rng, &paths);
        mixed(&grown, &all, &other, rng, tally);
    }
}

/// A path: a trial, the front of one, one that goes on behind it, or any bytes; none, or the last.
pub fn path(rng: &mut Rng, paths: &[Vec<u8>]) -> Vec<u8> {
    let trial = if paths.is_empty() { Vec::new() } else { rng.pick(paths) };
    match rng.below(6) {
        0 => Vec::new(),
        1 => END.to_vec(),
        2 => trial[..rng.below(trial.len() + 1)].to_vec(),
        3 => [&trial[..], &[rng.below(18) as u8, 0]].concat(),
        4 => (0..rng.below(15)).map(|_| rng.below(18) as u8).collect(),
        _ => trial,
    }
}

/// Some cuts in order, the last path behind them.
pub fn cuts(rng: &mut Rng, paths: &[Vec<u8>]) -> Vec<Vec<u8>> {
    let mut cuts: Vec<Vec<u8>> = (0..rng.below(5)).map(|_| path(rng, paths)).collect();
    cuts.sort();
    cuts.push(END.to_vec());
    cuts
}

/// Compares one part with the oracle: the status, and every byte lent. The head, if there is one.
pub fn part(grown: &Grown, range: Range, room: usize, rng: &mut Rng, tally: &mut Tally) -> Option<Vec<u8>> {
    let lent = &grown.lent;
    let mut list = Guarded::new(room, rng.word() as u8);
    let mut answer = Guarded::new(HEAD_BYTES, rng.word() as u8);
    let (mut expected_list, mut expected_answer) = (list.clone(), answer.clone());
    if let Ok(tree) = &grown.tree {
        let walked = tree.walk(range, expected_list.lent());
        let head = head(&lent.sheet, &lent.pairs, &lent.block, range, &walked);
        expected_answer.lent().copy_from_slice(&head);
    }
    let (after, ends) = (lent.clone(), [range.from.to_vec(), range.upto.to_vec()]);
    let lent_range = Range { from: &ends[0], upto: &ends[1], node_limit: range.node_limit };
    let status = after.run_part(lent_range, list.lent(), answer.lent());
    tally.same("status of a part", status, code(&grown.tree), &lent.bytes());
    tally.same("head", &answer.bytes, &expected_answer.bytes, &lent.bytes());
    tally.same("list after a part", &list.bytes, &expected_list.bytes, &lent.bytes());
    tally.same("sheet, pairs and block after", &after, lent, &lent.bytes());
    tally.same("paths after", &ends[..], &[range.from.to_vec(), range.upto.to_vec()][..], &lent.bytes());
    grown.tree.is_ok().then(|| answer.lent().to_vec())
}

/// Cuts a tree, runs each range in one piece or in spent parts, and joins the heads: shuffled and repeated they are the run; with one missing and damaged
/// as the oracle says.
pub fn whole(grown: &Grown, cuts: &[Vec<u8>], rng: &mut Rng, tally: &mut Tally) {
    let mut heads = of_cuts(grown, cuts, rng, tally);
    the_run(&grown.lent, &heads, rng, tally);
    for _ in 0..rng.below(3) {
        heads.push(rng.pick(&heads));
    }
    shuffle(&mut heads, rng);
    joined(&heads.concat(), rng, tally);
    joined(&without_one(&heads, rng).concat(), rng, tally);
    joined(&damaged(&heads, rng), rng, tally);
}

/// The heads of two cuts of one tree, shuffled: one whole and the other with a head missing are the run; with a head of each missing they are what the
/// oracle says.
fn mixed(grown: &Grown, cuts: &[Vec<u8>], other: &[Vec<u8>], rng: &mut Rng, tally: &mut Tally) {
    let (whole, other) = (of_cuts(grown, cuts, rng, tally), of_cuts(grown, other, rng, tally));
    let other = without_one(&other, rng);
    let mut heads = [&whole[..], &other].concat();
    shuffle(&mut heads, rng);
    the_run(&grown.lent, &heads, rng, tally);
    let mut heads = [without_one(&whole, rng), other].concat();
    shuffle(&mut heads, rng);
    joined(&heads.concat(), rng, tally);
}

/// The heads of the ranges between cuts, each range in one piece or in spent parts.
fn of_cuts(grown: &Grown, cuts: &[Vec<u8>], rng: &mut Rng, tally: &mut Tally) -> Vec<Vec<u8>> {
    let mut heads = Vec::new();
    let mut from: &[u8] = &[];
    for upto in cuts {
        let some = 1 + rng.below(20) as u32;
        let limit = rng.pick(&[u32::MAX, some]);
        heads.extend(pieces(grown, from, upto, limit, rng, tally));
        from = upto;
    }
    heads
}

/// The heads join, and their sums are the figures of the run.
fn the_run(lent: &Lent, heads: &[Vec<u8>], rng: &mut Rng, tally: &mut Tally) {
    let expected = run_lent(&lent.sheet, &lent.pairs, &lent.block, u32::MAX, &mut vec![0; ROOM]);
    if let Ok(run) = expected {
        let sums = run.outcome.sums(&run.counts);
        let all = joined(&heads.concat(), rng, tally);
        tally.same("sums of a run", all, Some(sums), &lent.bytes());
    }
}

fn shuffle(heads: &mut [Vec<u8>], rng: &mut Rng) {
    for i in (1..heads.len()).rev() {
        heads.swap(i, rng.below(i + 1));
    }
}

fn without_one(heads: &[Vec<u8>], rng: &mut Rng) -> Vec<Vec<u8>> {
    let mut fewer = heads.to_vec();
    fewer.remove(rng.below(fewer.len()));
    fewer
}

/// The heads of a range that is run with a limit, gone on with from where each part stands until it is finished.
fn pieces(
    grown: &Grown,
    from: &[u8],
    upto: &[u8],
    limit: u32,
    rng: &mut Rng,
    tally: &mut Tally,
) -> Vec<Vec<u8>> {
    let (mut heads, mut from) = (Vec::new(), from.to_vec());
    while let Some(head) = part(grown, Range { from: &from, upto, node_limit: limit }, ROOM, rng, tally) {
        let (spent, last) = (head[0] == 2, head[103..103 + usize::from(head[102])].to_vec());
        heads.push(head);
        if !spent {
            break;
        }
        from = last;
    }
    heads
}

/// Compares a join with the oracle; the sums where the heads join.
fn joined(heads: &[u8], rng: &mut Rng, tally: &mut Tally) -> Option<[u64; 14]> {
    let mut answer = Guarded::new(JOIN_BYTES, rng.word() as u8);
    let mut expected_answer = answer.clone();
    let expected = join(heads);
    tally.answer(&expected);
    if let Ok(join) = &expected {
        expected_answer.lent().copy_from_slice(&join.bytes());
        tally.joins[usize::from(join.missing.is_some())] += 1;
    }
    let after = heads.to_vec();
    let bytes = answer.lent();
    let status = planner_join(&after, bytes);
    tally.same("status of a join", status, code(&expected), heads);
    tally.same("answer of a join", &answer.bytes, &expected_answer.bytes, heads);
    tally.same("heads after", &after[..], heads, heads);
    expected.ok().filter(|join| join.missing.is_none()).map(|join| join.sums)
}

/// Heads of which one is cut short, of another kind, sheet, pairs or block, full, backwards, or of another shape; or none.
fn damaged(heads: &[Vec<u8>], rng: &mut Rng) -> Vec<u8> {
    let mut heads = heads.to_vec();
    let which = rng.below(heads.len());
    let head = &mut heads[which];
    match rng.below(10) {
        0 => head.truncate(rng.below(HEAD_BYTES)),
        1 => head[0] = rng.pick(&[0, 4, 255]),
        2 => head[3] = 1,
        3 => head[60 + rng.below(16)] ^= 1,
        4 => head[0] = 3,
        5 => head[rng.pick(&[76, 89, 102])] = 13,
        6 => head[rng.pick(&[88, 101, 114])] ^= 1,
        7 => head[76..102].rotate_left(13),
        8 => head[76 + rng.below(39)] = rng.below(13) as u8,
        _ => return Vec::new(),
    }
    heads.concat()
}

/// With an answer of another size nothing is written, whatever else is lent.
fn wrong_size(lent: &Lent, rng: &mut Rng, tally: &mut Tally) {
    let mut list = Guarded::new(100, rng.word() as u8);
    let mut answer = Guarded::new(rng.pick(&[0, 1, 60, 114, 116, 151, 153]), rng.word() as u8);
    let (list_before, answer_before) = (list.clone(), answer.clone());
    let range = Range { from: &[], upto: &END, node_limit: 100 };
    let status = lent.run_part(range, list.lent(), answer.lent());
    tally.count(WRONG_SIZE);
    tally.same("status of a part", status, 256 * WRONG_SIZE, &lent.bytes());
    tally.same("list untouched", &list.bytes, &list_before.bytes, &lent.bytes());
    tally.same("head untouched", &answer.bytes, &answer_before.bytes, &lent.bytes());
    let (heads, bytes) = ([0; HEAD_BYTES], answer.lent());
    let status = planner_join(&heads, bytes);
    tally.same("status of a join", status, 256 * WRONG_SIZE, &heads);
    tally.same("answer untouched", &answer.bytes, &answer_before.bytes, &heads);
}

/// Every two cuts of the trees of the stored sheets A and the rotation, at trials and between them; many heads.
pub fn examples(tally: &mut Tally) {
    let folder = Path::new(env!("CARGO_MANIFEST_DIR")).join("../../examples");
    for name in ["a.sheet", "cycle.sheet"] {
        let sheet = fs::read(folder.join(name)).expect("a stored sheet");
        for pairs in [&[][..], &[1, 0]] {
            let lent = Lent { sheet: sheet.clone(), pairs: pairs.to_vec(), block: Vec::new() };
            every_cut(&Grown::new(lent), name, tally);
        }
        most_heads(&Grown::new(Lent { sheet, pairs: Vec::new(), block: Vec::new() }), name, tally);
    }
}

/// As many heads as are allowed, and one more: copies of one that reaches nothing.
fn most_heads(grown: &Grown, name: &str, tally: &mut Tally) {
    let mut rng = Rng::new(1);
    tally.case = format!("part parts, {name}, 65,536 heads and one more");
    let range = Range { from: &[], upto: &END, node_limit: 0 };
    let head = part(grown, range, ROOM, &mut rng, tally).expect("a head");
    joined(&head.repeat(65_536), &mut rng, tally);
    joined(&head.repeat(65_537), &mut rng, tally);
}

fn every_cut(grown: &Grown, name: &str, tally: &mut Tally) {
    let paths = grown.paths();
    let mut rng = Rng::new(1);
    for (i, first) in paths.iter().enumerate() {
        for second in paths[i..].iter().step_by(1 + paths.len() / 40) {
            tally.case =
                format!("part parts, {name}, pairs {:?}, cuts {first:?} {second:?}", grown.lent.pairs);
            whole(grown, &[first.clone(), second.clone(), END.to_vec()], &mut rng, tally);
        }
    }
}
