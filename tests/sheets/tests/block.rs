//! Blocks of alike places (paper 02, #111), tried on the oracle.

use oracle::block::{orderings, with_block};
use oracle::lent::{question_lent, run_lent, search_in};
use oracle::listing::solutions;
use oracle::order::{reading, settling_order};
use oracle::sheet::Constraint;
use oracle::{Ending, Problem, Refusal};
use sheets::{alike_problem, encode, right_pairs, Rng};

#[test]
fn the_orderings_of_five() {
    let rows = orderings();
    assert_eq!((rows.len(), rows.concat().len()), (120, 600));
    assert!(rows.is_sorted() && rows.iter().all(|row| (0..5).all(|number| row.contains(&number))));
    for (count, first) in [(2, 2), (3, 6), (4, 24), (5, 120)] {
        assert!(rows[..first].iter().all(|row| (0..5 - count).all(|i| row[i] == i)));
    }
}

/// Two places with three values, different or free.
fn two(rows: Vec<Vec<usize>>) -> Problem {
    let constraints = vec![Constraint { scope: vec![0, 1], rows }];
    Problem { variables: 2, values: 3, initial: vec![7, 7], constraints, symmetries: Vec::new() }
}

/// Sheet A, its exchange named by a block.
#[test]
fn sheet_a() {
    let a = two([[0, 1], [0, 2], [1, 0], [1, 2], [2, 0], [2, 1]].map(|row| row.to_vec()).to_vec());
    let mut list = [9; 6];
    let tallied = run_lent(&encode(&a), &[], &[0, 2], 1_000_000, &mut list).unwrap();
    assert_eq!((tallied.outcome.ending, tallied.outcome.nodes), (Ending::Finished, 6));
    assert_eq!((list, &tallied.counts[..2]), ([0, 1, 0, 2, 1, 2], &[3, 3][..]));
}

#[test]
fn refused() {
    let refused = |number: u32, item: u32| Err(Refusal { number, item });
    let free = two((0..9).map(|number| vec![number / 3, number % 3]).collect());
    for block in [&[0][..], &[0, 1], &[0, 3], &[1, 2], &[0, 6], &[0, 2, 0]] {
        assert_eq!(with_block(free.clone(), block), refused(36, 0));
    }
    assert_eq!(with_block(free.clone(), &[]), Ok(free.clone()));
    let mut unlike = free.clone();
    unlike.initial[1] = 3;
    assert_eq!(with_block(unlike, &[0, 2]), refused(15, 1));
    let mut unlike = two(vec![vec![0, 1]]);
    assert_eq!(with_block(unlike.clone(), &[0, 2]), refused(16, 1));
    unlike.symmetries = vec![(0..6).collect(); 3];
    assert_eq!(with_block(unlike, &[0, 2]), refused(16, 4));
}

/// A hall of alike places, all different or free of rules.
fn hall(places: usize, values: usize, different: bool) -> Problem {
    let mut constraints = Vec::new();
    for second in (1..places).filter(|_| different) {
        let rows = (0..values * values).map(|number| vec![number / values, number % values]);
        let rows: Vec<Vec<usize>> = rows.filter(|row| row[0] != row[1]).collect();
        constraints
            .extend((0..second).map(|first| Constraint { scope: vec![first, second], rows: rows.clone() }));
    }
    let initial = vec![((1u32 << values) - 1) as u16; places];
    Problem { variables: places, values, initial, constraints, symmetries: Vec::new() }
}

/// A run with room for so many plans: its ending, the plans, and the trials by place.
fn listed(hall: &Problem, pairs: &[u8], block: &[u8], room: usize) -> (Ending, Vec<Vec<u8>>, Vec<u32>) {
    let n = hall.variables;
    let mut list = vec![99; room * n];
    let tallied = run_lent(&encode(hall), pairs, block, 1_000_000, &mut list).unwrap();
    let plans = list.chunks(n).take(tallied.outcome.plans as usize).map(|row| row.to_vec()).collect();
    assert_eq!(tallied.outcome.nodes, tallied.counts.iter().sum::<u32>());
    (tallied.outcome.ending, plans, tallied.counts[..n].to_vec())
}

/// Worked by hand: the plans ascend in the block, as it is settled.
#[test]
fn worked_by_hand() {
    let plans = |rows: &[&[u8]]| rows.iter().map(|row| row.to_vec()).collect::<Vec<_>>();
    let (three, bits) = (hall(3, 3, true), hall(3, 2, false));
    let expected = (Ending::Finished, plans(&[&[0, 1, 2]]), vec![3, 2, 1]);
    assert_eq!(listed(&three, &[], &[0, 3], 9), expected);
    let expected = (Ending::Finished, plans(&[&[2, 1, 0]]), vec![1, 2, 3]);
    assert_eq!(listed(&three, &[2, 1, 1, 0], &[0, 3], 9), expected);
    let expected = (Ending::Finished, plans(&[&[1, 0, 2]]), vec![2, 3, 1]);
    assert_eq!(listed(&three, &[1, 0], &[0, 3], 9), expected);
    let ascending = plans(&[&[0, 0, 0], &[0, 0, 1], &[0, 1, 1], &[1, 1, 1]]);
    assert_eq!(listed(&bits, &[], &[0, 3], 9), (Ending::Finished, ascending, vec![2, 3, 4]));
    let last_two = plans(&[&[0, 0, 0], &[0, 0, 1], &[0, 1, 1], &[1, 0, 0], &[1, 0, 1], &[1, 1, 1]]);
    assert_eq!(listed(&bits, &[], &[1, 2], 9), (Ending::Finished, last_two, vec![2, 4, 6]));
    let backwards = plans(&[&[0, 0, 0], &[0, 1, 0], &[0, 1, 1], &[1, 0, 0], &[1, 1, 0], &[1, 1, 1]]);
    assert_eq!(listed(&bits, &[2, 1], &[1, 2], 9), (Ending::Finished, backwards, vec![2, 6, 4]));
    let sixteen = plans(&[&[0, 1, 2, 3, 4], &[0, 1, 2, 3, 5], &[0, 1, 2, 3, 6]]);
    assert_eq!(listed(&hall(5, 16, true), &[], &[0, 5], 3), (Ending::Full, sixteen, vec![1, 1, 1, 1, 4]));
}

/// With an exchange of its own, of the two values, the first place hasn't 1; of 0 0 and 0 1 the block leaves both.
#[test]
fn beside_an_exchange() {
    let mut bits = hall(2, 2, false);
    bits.symmetries = vec![vec![1, 0, 3, 2]];
    let plans = vec![vec![0, 0], vec![0, 1]];
    assert_eq!(listed(&bits, &[], &[0, 2], 4), (Ending::Finished, plans, vec![2, 2]));
}

/// Free places of two values: the plans are so many for the other places, times one more than the block has places.
#[test]
fn at_each_first_place() {
    for (places, count) in [(2, 2), (5, 2), (5, 3), (5, 4), (5, 5), (7, 3), (7, 4), (7, 5)] {
        for first in 0..=places - count {
            let (ending, plans, _) = listed(&hall(places, 2, false), &[], &[first as u8, count as u8], 200);
            assert_eq!((ending, plans.len()), (Ending::Finished, (count + 1) << (places - count)));
        }
    }
    for (places, count, plans) in [(2, 2, 120), (3, 3, 560)] {
        let (ending, listed, _) = listed(&hall(places, 16, true), &[], &[0, count], 600);
        assert_eq!((ending, listed.len()), (Ending::Finished, plans));
    }
}

/// The first ordering that moves a place has the item: 24, 6, 2, 1, 1 for the places of a block of five, the last 4, 3, 2
/// of these for smaller ones, counted on from the sheet's exchanges.
#[test]
fn items() {
    for (own, first, count) in [(0, 0, 5), (3, 2, 5), (0, 1, 4), (16, 3, 4), (1, 0, 3), (2, 5, 2)] {
        let items = &[24, 6, 2, 1, 1][5 - count..];
        for (place, item) in (first..).zip(items) {
            let mut alike = hall(7, 2, false);
            alike.symmetries = vec![(0..14).collect(); own];
            let (mut set, mut rule) = (alike.clone(), alike);
            set.initial[place] = 2;
            rule.constraints.push(Constraint { scope: vec![place], rows: vec![vec![0]] });
            let block = [first as u8, count as u8];
            let item = own as u32 + item;
            assert_eq!(question_lent(&encode(&set), &[], &block), Err(Refusal { number: 15, item }));
            assert_eq!(question_lent(&encode(&rule), &[], &block), Err(Refusal { number: 16, item }));
        }
    }
    let bits = encode(&hall(7, 2, false));
    for block in
        [&[6, 2][..], &[3, 5], &[7, 2], &[255, 2], &[0, 0], &[0, 1], &[0, 6], &[0, 255], &[0], &[0, 2, 0]]
    {
        assert_eq!(question_lent(&bits, &[1, 0], block), Err(Refusal { number: 36, item: 0 }));
    }
}

/// Without exchanges of its own a sheet with a block has the solutions whose values in the block ascend in the order.
#[test]
fn ascending_in_the_block() {
    let mut rng = Rng::new(1);
    let mut left_out = 0;
    for _ in 0..200 {
        let (mut problem, block) = alike_problem(&mut rng);
        problem.symmetries.clear();
        let order = settling_order(problem.variables, &right_pairs(&mut rng, problem.variables)).unwrap();
        let mut expected = solutions(&problem);
        let all = expected.len();
        let inside = |place: &&usize| (block[0]..block[0] + block[1]).contains(&(**place as u8));
        expected.retain(|plan| order.iter().filter(inside).map(|&place| plan[place]).is_sorted());
        expected.sort_by_key(|plan| reading(&order, plan));
        left_out += all - expected.len();
        let mut list = vec![0; 12 * 4096];
        let problem = with_block(problem, &block).unwrap();
        let tallied = search_in(&problem, &order, u32::MAX, &mut list);
        assert_eq!(tallied.outcome.ending, Ending::Finished);
        let plans: Vec<Vec<usize>> = list
            .chunks(problem.variables)
            .take(tallied.outcome.plans as usize)
            .map(|row| row.iter().map(|&value| value as usize).collect())
            .collect();
        assert_eq!(plans, expected);
    }
    assert!(left_out > 1000, "{left_out}");
}
