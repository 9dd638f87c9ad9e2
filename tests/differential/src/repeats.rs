//! Part `repeats`: trees of which many subtrees repeat others, so that a memo of subtrees is met: groups of places with no rule between them, rules of three,
//! all-different halls; with exchanges, pairs and blocks. Every limit and every room of small trees; runs, parts, the desk, and "at least so many
//! plans?"; more different subtrees than a memo has entries.

use crate::block::{different, different_hall, with_exchanges};
use crate::enough::ask;
use crate::lent::{run_beside, Lent};
use crate::parts::{cuts, part, path, Grown};
use crate::tally::Tally;
use crate::{desk, parts};
use oracle::enough::enough;
use oracle::lent::question_lent;
use oracle::parts::{Range, END};
use oracle::sheet::Constraint;
use oracle::Problem;
use sheets::{crowd, encode, groups, neighbours, right_pairs, Rng};

/// The most choices of a value for each place: trees stay small.
const CHOICES: u64 = 2500;
/// Trees of up to so many trials are run with every limit and every room.
const SMALL: usize = 300;
/// Limits and rooms of other trees.
const SOME: usize = 12;
/// Halls with more different subtrees than a memo has entries.
const CROWDS: usize = 12;
/// Halls with an exchange that hardly ever respects them.
const DISRESPECTED: usize = 400;

pub fn case(rng: &mut Rng, tally: &mut Tally) {
    let problem = groups(rng, CHOICES);
    let lent = drawn(&problem, rng);
    let Some(whole) = Whole::of(lent, tally) else {
        return;
    };
    if whole.nodes() > SMALL {
        return whole.some(rng, tally);
    }
    match rng.below(20) {
        0..=7 => whole.every(rng, tally),
        8 => desk::cuts(problem, 200 / whole.nodes().max(2), rng, tally),
        9..=11 => parts::whole(&whole.grown, &cuts(rng, &whole.paths), rng, tally),
        _ => whole.some(rng, tally),
    }
}

/// A problem, often with pairs, and with a block where places are found alike.
fn drawn(problem: &Problem, rng: &mut Rng) -> Lent {
    let n = problem.variables;
    let mut lent = Lent { sheet: encode(problem), pairs: Vec::new(), block: Vec::new() };
    if rng.chance(40) {
        lent.pairs = right_pairs(rng, n);
    }
    for _ in 0..if n > 1 { rng.pick(&[0, 0, 4]) } else { 0 } {
        let block = neighbours(rng, n);
        if question_lent(&lent.sheet, &lent.pairs, &block).is_ok() {
            lent.block = block.to_vec();
        }
    }
    lent
}

/// What is lent, with the paths of all trials, and which of them find a plan.
struct Whole {
    grown: Grown,
    paths: Vec<Vec<u8>>,
    plans: Vec<bool>,
}

impl Whole {
    /// What is lent, if it is accepted.
    fn of(lent: Lent, tally: &mut Tally) -> Option<Whole> {
        let grown = Grown::new(lent);
        tally.answer(&grown.tree);
        let plans = grown.tree.as_ref().ok()?.trials.iter().map(|trial| trial.plan).collect();
        Some(Whole { paths: grown.paths(), plans, grown })
    }

    fn nodes(&self) -> usize {
        self.plans.len()
    }

    fn found(&self) -> usize {
        self.plans.iter().filter(|&&plan| plan).count()
    }

    /// Every limit with a list that takes all plans and with any; every room, in plans, with a limit that takes all trials and with any.
    fn every(&self, rng: &mut Rng, tally: &mut Tally) {
        let (nodes, found) = (self.nodes(), self.found());
        for limit in 0..=nodes + 1 {
            self.run([limit, found], rng, tally);
            self.run([limit, rng.below(found + 2)], rng, tally);
        }
        for room in 0..=found + 1 {
            self.run([nodes, room], rng, tally);
            self.run([rng.below(nodes + 2), room], rng, tally);
        }
    }

    /// All trials with a list that takes all plans, and some limits and rooms.
    fn some(&self, rng: &mut Rng, tally: &mut Tally) {
        let (nodes, found) = (self.nodes(), self.found());
        self.run([nodes, found], rng, tally);
        for _ in 0..SOME {
            let (limit, room) = (rng.below(nodes + 2), rng.below(found + 2));
            let both = rng.pick(&[[limit, found], [nodes, room], [limit, room]]);
            self.run(both, rng, tally);
        }
    }

    /// A run with a limit and a room in plans, the same between two paths, and whether there are as many plans as the room takes.
    fn run(&self, [limit, room]: [usize; 2], rng: &mut Rng, tally: &mut Tally) {
        let (lent, node_limit, plans) = (&self.grown.lent, limit as u32, room as u32);
        let places = usize::from(lent.sheet[0]);
        let bytes = places * room + rng.below(places);
        let all = Range { from: &[], upto: &END, node_limit };
        let walk = |list: &mut [u8]| {
            self.grown.tree.as_ref().map(|tree| tree.walk(all, list).tallied).map_err(|&refusal| refusal)
        };
        run_beside(walk, lent, node_limit, bytes, rng, tally);
        let ends = match rng.chance(50) {
            true => [Vec::new(), END.to_vec()],
            false => [path(rng, &self.paths), path(rng, &self.paths)],
        };
        part(&self.grown, Range { from: &ends[0], upto: &ends[1], node_limit }, bytes, rng, tally);
        ask(lent, plans, node_limit, Ok(enough(&self.plans, plans, node_limit)), rng, tally);
    }
}

/// All-different halls with every limit and room; a value that only a rule of three tells apart; crowds; at the desk a sheet whose exchange doesn't respect it,
/// where equal sets don't make equal subtrees.
pub fn examples(tally: &mut Tally) {
    let rng = &mut Rng::new(1);
    for (places, values) in [(3, 4), (3, 5), (4, 3), (4, 4), (5, 4)] {
        for (exchanges, block) in [(0, &[][..]), (1, &[]), (0, &[0, 2]), (2, &[1, 2])] {
            for pairs in [&[][..], &[places as u8 - 1, 0]] {
                let hall = with_exchanges(different_hall(places, values), exchanges);
                let lent = Lent { sheet: encode(&hall), pairs: pairs.to_vec(), block: block.to_vec() };
                tally.case = format!("part repeats, {places} places all different of {values} values, {exchanges} exchanges, pairs {pairs:?}, block {block:?}");
                Whole::of(lent, tally).expect("an accepted sheet").every(rng, tally);
            }
        }
    }
    let halls = [
        ("an even sum", even(0)),
        ("an even sum, a place between", even(1)),
        ("twins", twins()),
        ("a last set", last_set()),
    ];
    for (name, hall) in halls {
        tally.case = format!("part repeats, {name}");
        let lent = Lent { sheet: encode(&hall), pairs: Vec::new(), block: Vec::new() };
        Whole::of(lent, tally).expect("an accepted sheet").every(rng, tally);
    }
    for number in 0..CROWDS {
        let lent = drawn(&crowd(rng), rng);
        tally.case = format!("part repeats, crowd {number}");
        Whole::of(lent, tally).expect("an accepted sheet").some(rng, tally);
    }
    for number in 0..DISRESPECTED {
        tally.case = format!("part repeats, exchange {number} that doesn't respect the sheet, at the desk");
        let rng = &mut Rng::new(number as u64);
        desk::cuts(disrespected(rng), 5, rng, tally);
    }
}

/// The first place and the last two have an even sum, and the last two are different: below the first place's two values the sets are the same, and only one
/// has plans. Places between them say nothing.
fn even(between: usize) -> Problem {
    let n = 3 + between;
    let last = [n - 2, n - 1];
    let rows = [[0, 0, 0], [0, 1, 1], [1, 0, 1], [1, 1, 0]].map(|row| row.to_vec()).to_vec();
    let mut hall = different_hall(0, 2);
    (hall.variables, hall.initial) = (n, vec![3; n]);
    hall.constraints = vec![Constraint { scope: vec![0, last[0], last[1]], rows }, different(last, 2)];
    hall
}

/// The first two places, of which the exchange makes the next two, and three that are different and have two values: only the exchange tells apart what two
/// values of the second place leave.
fn twins() -> Problem {
    let mut hall = different_hall(0, 2);
    (hall.variables, hall.initial) = (7, vec![3; 7]);
    hall.constraints = [[4, 5], [4, 6], [5, 6]].map(|pair| different(pair, 2)).to_vec();
    hall.symmetries = vec![vec![4, 5, 6, 7, 0, 1, 2, 3, 8, 9, 10, 11, 12, 13]];
    hall
}

/// A first place that says nothing, one that leaves the last place a set of its own, and four places that are different and have three values: what is left
/// to do differs in the last set alone.
fn last_set() -> Problem {
    let mut hall = different_hall(0, 4);
    (hall.variables, hall.initial) = (6, vec![3, 15, 7, 7, 7, 7]);
    let rows = [[0, 0], [0, 1], [1, 0], [1, 2], [2, 1], [2, 2], [3, 0], [3, 1], [3, 2]];
    let rows = rows.map(|row| row.to_vec()).to_vec();
    hall.constraints = (2..6).flat_map(|i| (i + 1..6).map(move |j| different([i, j], 4))).collect();
    hall.constraints.push(Constraint { scope: vec![1, 5], rows });
    hall
}

/// Four places without a rule, and an exchange of any of their pairs; three places that are different and have two values.
fn disrespected(rng: &mut Rng) -> Problem {
    let (mut hall, mut table) = (twins(), (0..14).collect::<Vec<usize>>());
    rng.shuffle(&mut table[..8]);
    hall.symmetries = vec![table];
    hall
}
