//! Pairs and lists written out by hand, tried on the oracle.

use oracle::lent::{question_lent, run_lent, Tallied};
use oracle::merge::merge;
use oracle::order::settling_order;
use oracle::sheet::Constraint;
use oracle::{Ending, Outcome, Problem, Refusal};
use sheets::encode;

fn refused<T>(number: u32) -> Result<T, Refusal> {
    Err(Refusal { number, item: 0 })
}

/// Places with three values each, every two different, and an exchange.
fn different(variables: usize, table: Vec<usize>) -> Vec<u8> {
    let rows = [[0, 1], [0, 2], [1, 0], [1, 2], [2, 0], [2, 1]].map(|row| row.to_vec()).to_vec();
    let two = (0..variables).flat_map(|i| (i + 1..variables).map(move |j| vec![i, j]));
    let constraints = two.map(|scope| Constraint { scope, rows: rows.clone() }).collect();
    let initial = vec![7; variables];
    encode(&Problem { variables, values: 3, initial, constraints, symmetries: vec![table] })
}

/// The paper's sheet A.
fn a() -> Vec<u8> {
    different(2, vec![3, 4, 5, 0, 1, 2])
}

/// The paper's rotation: (i, v) goes to (i + 1, v).
fn rotation() -> Vec<u8> {
    different(3, vec![3, 4, 5, 6, 7, 8, 0, 1, 2])
}

/// The plans that a run lists, its trials and the first of its counts.
fn listed(sheet: &[u8], pairs: &[u8], n: usize) -> (Vec<Vec<u8>>, u32, Vec<u32>) {
    let mut list = [9; 100];
    let Tallied { outcome, counts } = run_lent(sheet, pairs, &[], 1_000_000, &mut list).unwrap();
    assert_eq!((outcome.ending, &counts[n..]), (Ending::Finished, &vec![0; 12 - n][..]));
    let plans = list.chunks(n).take(outcome.plans as usize).map(<[u8]>::to_vec).collect();
    (plans, outcome.nodes, counts[..n].to_vec())
}

#[test]
fn sheet_a_with_the_second_window_first() {
    let plans = |rows: [[u8; 2]; 3]| rows.map(|row| row.to_vec()).to_vec();
    assert_eq!(listed(&a(), &[], 2), (plans([[0, 1], [0, 2], [1, 2]]), 6, vec![3, 3]));
    assert_eq!(listed(&a(), &[0, 1], 2), listed(&a(), &[], 2));
    assert_eq!(listed(&a(), &[1, 0], 2), (plans([[1, 0], [2, 0], [2, 1]]), 6, vec![3, 3]));
    let mut list = [9; 3];
    let outcome = Outcome { ending: Ending::Full, plans: 1, nodes: 3 };
    let counts = [2, 1, 0, 0, 0, 0, 0, 0, 0, 0, 0, 0];
    assert_eq!(run_lent(&a(), &[1, 0], &[], 100, &mut list), Ok(Tallied { outcome, counts }));
    assert_eq!(list, [1, 0, 9]);
    let outcome = Outcome { ending: Ending::Spent, plans: 0, nodes: 1 };
    let counts = [0, 1, 0, 0, 0, 0, 0, 0, 0, 0, 0, 0];
    assert_eq!(run_lent(&a(), &[1, 0], &[], 1, &mut list), Ok(Tallied { outcome, counts }));
}

/// Left out is a plan that is another carried along, one that reads earlier in the order.
#[test]
fn the_rotation_with_each_pair() {
    let rows =
        |rows: [&str; 3]| rows.map(|row| row.bytes().map(|byte| byte - b'0').collect::<Vec<u8>>()).to_vec();
    for (pairs, order, plans) in [
        ([0, 1], [0, 1, 2], rows(["012", "021", "120"])),
        ([0, 2], [0, 1, 2], rows(["012", "021", "120"])),
        ([1, 2], [0, 1, 2], rows(["012", "021", "120"])),
        ([1, 0], [1, 0, 2], rows(["102", "201", "012"])),
        ([2, 0], [1, 2, 0], rows(["201", "102", "012"])),
        ([2, 1], [0, 2, 1], rows(["021", "012", "120"])),
    ] {
        assert_eq!(settling_order(3, &pairs), Ok(order.to_vec()));
        assert_eq!(listed(&rotation(), &pairs, 3).0, plans, "{pairs:?}");
    }
}

#[test]
fn a_chain_of_twelve() {
    let chain: Vec<u8> = (0..11).rev().flat_map(|place| [place + 1, place]).collect();
    assert_eq!(settling_order(12, &chain), Ok((0..12).rev().collect()));
    let initial = [3, 3].into_iter().chain([1; 10]).collect();
    let free = Problem { variables: 12, values: 2, initial, constraints: Vec::new(), symmetries: Vec::new() };
    let (plans, nodes, counts) = listed(&encode(&free), &chain, 12);
    assert_eq!(
        plans.iter().map(|plan| [plan[0], plan[1]]).collect::<Vec<_>>(),
        [[0, 0], [1, 0], [0, 1], [1, 1]]
    );
    assert_eq!((nodes, counts), (16, vec![4, 2, 1, 1, 1, 1, 1, 1, 1, 1, 1, 1]));
}

#[test]
fn circles() {
    let round = |count: u8| (0..count).flat_map(|place| [place, (place + 1) % count]).collect::<Vec<u8>>();
    assert_eq!(round(1), [0, 0]);
    for count in 1..=12 {
        assert_eq!(settling_order(12, &round(count)), refused(30));
        assert!(settling_order(12, &round(count)[2..]).is_ok());
    }
    assert_eq!(settling_order(3, &[0, 1, 0, 1, 0, 1]), Ok(vec![0, 1, 2]));
    assert_eq!(question_lent(&a(), &[1, 1], &[]), refused(30));
}

#[test]
fn too_many_pairs_or_half_a_pair() {
    assert_eq!(settling_order(2, &[1, 0].repeat(64)), Ok(vec![1, 0]));
    assert_eq!(settling_order(2, &[1, 0].repeat(65)), refused(28));
    assert_eq!(settling_order(2, &[1, 0, 1]), refused(28));
    assert_eq!(settling_order(2, &[9; 129]), refused(28));
    assert_eq!(settling_order(2, &[0, 2, 0, 0]), refused(29));
    assert_eq!(settling_order(2, &[255, 0]), refused(29));
    assert_eq!(question_lent(&a(), &[2, 0], &[]), refused(29));
    assert_eq!(question_lent(&a(), &[2, 0], &[0]), refused(29));
    assert_eq!(question_lent(&a(), &[1, 0], &[0, 3]), refused(36));
    assert_eq!(question_lent(&a()[1..], &[2], &[7]), refused(2));
}

/// Sheet A's plans, and the plans of another sheet.
const DRY: [u8; 6] = [0, 1, 0, 2, 1, 2];
const WET: [u8; 4] = [0, 2, 2, 0];

#[test]
fn one_list_from_two() {
    let mut room = [9; 9];
    assert_eq!(merge(2, &[], &DRY, &WET, &mut room), Ok(8));
    assert_eq!(room, [0, 1, 0, 2, 1, 2, 2, 0, 9]);
    assert_eq!(merge(2, &[], &WET, &DRY, &mut room[..8]), Ok(8));
    assert_eq!(room, [0, 1, 0, 2, 1, 2, 2, 0, 9]);
    assert_eq!(merge(2, &[1, 0], &[2, 0, 0, 1], &[1, 1, 1, 2], &mut room), Ok(8));
    assert_eq!(room, [2, 0, 0, 1, 1, 1, 1, 2, 9]);
    assert_eq!(merge(1, &[], &[3, 200], &[0, 255], &mut room), Ok(4));
    assert_eq!(room[..4], [0, 3, 200, 255]);
    assert_eq!(merge(12, &[], &[], &[], &mut []), Ok(0));
}

#[test]
fn refused_lists() {
    let mut room = [9; 20];
    let mut merged = |places, pairs: &[u8], first: &[u8], second: &[u8]| {
        let answer = merge(places, pairs, first, second, &mut room);
        assert_eq!(room, [9; 20]);
        answer
    };
    for places in [0, 13, 1 << 31] {
        assert_eq!(merged(places, &[7], &[], &[]), refused(24));
    }
    assert_eq!(merged(2, &[7], &DRY[..5], &WET), refused(24));
    assert_eq!(merged(2, &[7], &DRY, &WET[..3]), refused(24));
    assert_eq!(merged(2, &[7], &[1, 0, 0, 0], &WET), refused(28));
    assert_eq!(merged(2, &[2, 0], &[1, 0, 0, 0], &WET), refused(29));
    assert_eq!(merged(2, &[0, 0], &[1, 0, 0, 0], &WET), refused(30));
    assert_eq!(merged(2, &[], &[1, 0, 0, 0], &[1, 1, 1, 1]), refused(25));
    assert_eq!(merged(2, &[], &DRY, &[1, 1, 1, 1]), refused(26));
    assert_eq!(merged(2, &[1, 0], &[0, 1, 1, 0], &WET), refused(25));
    assert_eq!(merged(2, &[1, 0], &[1, 0, 0, 1], &WET), refused(26));
    assert_eq!(merge(2, &[], &DRY, &WET, &mut room[..7]), refused(27));
    assert_eq!(room, [9; 20]);
}
