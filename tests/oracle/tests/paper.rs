//! The paper's checked examples, tried on the oracle.

use oracle::closed::{earliest, missing_product};
use oracle::enough::{at_least, Enough, Said};
use oracle::families::families;
use oracle::lent::{question_lent, run_lent};
use oracle::sheet::Constraint;
use oracle::{filter, question, report, run, Ending, FilterEnding, Outcome, Problem, Refusal};

fn sheet(words: &[u16]) -> Vec<u8> {
    words.iter().flat_map(|word| word.to_le_bytes()).collect()
}

/// Sheet A with the given exchanges.
fn sheet_a(tables: &[[u16; 6]]) -> Vec<u8> {
    let mut words = vec![2, 3, 1, tables.len() as u16, 16, 20, 52, 52 + 12 * tables.len() as u16, 7, 7];
    words.extend([2, 6, 0, 1, 0, 1, 0, 2, 1, 0, 1, 2, 2, 0, 2, 1]);
    words.extend(tables.iter().flatten());
    sheet(&words)
}

fn a() -> Vec<u8> {
    sheet_a(&[[3, 4, 5, 0, 1, 2]])
}

fn outcome(ending: Ending, plans: u32, nodes: u32) -> Result<Outcome, Refusal> {
    Ok(Outcome { ending, plans, nodes })
}

#[test]
fn sheet_a_has_three_plans() {
    assert_eq!(report(&a()), "plan 0 1\nplan 0 2\nplan 1 2\nfinished 3 6 3\n");
    let mut list = [9; 100];
    assert_eq!(run(&sheet_a(&[]), 1_000_000, &mut list), outcome(Ending::Finished, 6, 9));
}

#[test]
fn sheet_a_has_three_trials_of_each_place() {
    let counts = |limit| run_lent(&a(), &[], &[], limit, &mut [0; 6]).unwrap().counts;
    assert_eq!(counts(1_000_000)[..3], [3, 3, 0]);
    assert_eq!(counts(2)[..3], [1, 1, 0]);
}

#[test]
fn sheet_a_with_small_limits() {
    let mut list = [9; 8];
    assert_eq!(run(&a(), 2, &mut list), outcome(Ending::Spent, 1, 2));
    assert_eq!(list, [0, 1, 9, 9, 9, 9, 9, 9]);
    assert_eq!(run(&a(), 5, &mut list), outcome(Ending::Spent, 3, 5));
    assert_eq!(run(&a(), 6, &mut list), outcome(Ending::Finished, 3, 6));
    assert_eq!(list, [0, 1, 0, 2, 1, 2, 9, 9]);
    assert_eq!(run(&a(), 1_000_000, &mut list[..2]), outcome(Ending::Full, 1, 3));
    assert_eq!(run(&a(), 2, &mut []), outcome(Ending::Full, 0, 2));
}

#[test]
fn at_least_so_many_plans_of_sheet_a() {
    for (plans, limit, said, found, nodes) in [
        (0, 0, Said::Yes, 0, 0),
        (1, 0, Said::Spent, 0, 0),
        (1, 2, Said::Yes, 1, 2),
        (2, 2, Said::Spent, 1, 2),
        (2, 1_000_000, Said::Yes, 2, 3),
        (3, 5, Said::Yes, 3, 5),
        (4, 5, Said::Spent, 3, 5),
        (4, 6, Said::No, 3, 6),
        (u32::MAX, u32::MAX, Said::No, 3, 6),
    ] {
        let answer = at_least(&a(), &[], &[], plans, limit);
        assert_eq!(answer, Ok(Enough { said, plans: found, nodes }), "{plans} plans, {limit} trials");
    }
    assert_eq!(at_least(&a()[..63], &[], &[], 0, 0), Err(Refusal { number: 6, item: 0 }));
    assert_eq!(at_least(&a(), &[0], &[], 0, 0), Err(Refusal { number: 28, item: 0 }));
    assert_eq!(at_least(&a(), &[], &[0], 0, 0), Err(Refusal { number: 36, item: 0 }));
}

#[test]
fn an_exchange_that_does_not_respect_the_sheet() {
    let refusal = Refusal { number: 16, item: 0 };
    assert_eq!(question(&sheet_a(&[[1, 0, 2, 3, 4, 5]])), Err(refusal));
}

/// Three places that differ, carried on to the next.
fn rotation() -> Vec<u8> {
    let mut words = vec![3, 3, 3, 1, 16, 22, 22 + 3 * 32, 22 + 3 * 32 + 18, 7, 7, 7];
    for (first, second) in [(0, 1), (0, 2), (1, 2)] {
        words.extend([2, 6, first, second, 0, 1, 0, 2, 1, 0, 1, 2, 2, 0, 2, 1]);
    }
    words.extend([3, 4, 5, 6, 7, 8, 0, 1, 2]);
    sheet(&words)
}

#[test]
fn a_rotation_of_three_places() {
    assert_eq!(report(&rotation()), "plan 0 1 2\nplan 0 2 1\nplan 1 2 0\nfinished 3 9 2\n");
}

/// A's run is finished after 6 trials, the one without its exchange after 9.
#[test]
fn families_on_the_sheet() {
    assert_eq!(families(&rotation(), &[], &[], 1_000_000), Ok(Some(2)));
    assert_eq!(families(&rotation(), &[2, 0], &[], 1_000_000), Ok(Some(2)));
    assert_eq!(families(&a(), &[], &[], 9), Ok(Some(3)));
    assert_eq!(families(&a(), &[], &[], 8), Ok(None));
}

#[test]
fn the_rotation_is_not_closed() {
    let first_of_each = |sheet: &[u8], pairs: &[u8], block: &[u8]| {
        let (problem, order) = question_lent(sheet, pairs, block).unwrap();
        earliest(&problem, &order)
    };
    for pairs in [&[][..], &[2, 0]] {
        assert_eq!(missing_product(&rotation(), pairs, &[]), Ok(Some([0, 0])));
        assert_eq!(first_of_each(&rotation(), pairs, &[]).len(), 2);
    }
    // The rotation and all orderings of the three places: the rotation is one of them.
    assert_eq!(missing_product(&rotation(), &[], &[0, 3]), Ok(None));
    assert_eq!(first_of_each(&rotation(), &[], &[0, 3]), [[0, 1, 2]]);
    assert_eq!(missing_product(&rotation(), &[], &[1, 2]), Ok(Some([0, 0])));
    assert_eq!(missing_product(&a(), &[], &[]), Ok(None));
    assert_eq!(first_of_each(&a(), &[], &[]), [[0, 1], [0, 2], [1, 2]]);
    assert_eq!(missing_product(&sheet_a(&[]), &[], &[]), Ok(None));
    assert_eq!(missing_product(&a(), &[0], &[]), Err(Refusal { number: 28, item: 0 }));
    assert_eq!(missing_product(&a(), &[], &[0]), Err(Refusal { number: 36, item: 0 }));
}

#[test]
fn one_place_and_one_value() {
    assert_eq!(report(&sheet(&[1, 1, 0, 0, 16, 18, 18, 18, 1])), "plan 0\nfinished 1 1 1\n");
    let without_rows = [1, 1, 1, 0, 16, 18, 24, 24, 1, 1, 0, 0];
    assert_eq!(report(&sheet(&without_rows)), "finished 0 0 0\n");
    assert_eq!(run(&sheet(&without_rows), 0, &mut []), outcome(Ending::Finished, 0, 0));
}

/// The number that a sheet is refused with.
fn refused(words: &[u16]) -> Option<u32> {
    question(&sheet(words)).err().map(|refusal| refusal.number)
}

#[test]
fn twelve_places() {
    let free = |n: u16| {
        let end = 16 + 2 * n;
        let mut words = vec![n, 1, 0, 0, 16, end, end, end];
        words.extend(vec![1; n as usize]);
        refused(&words)
    };
    assert_eq!(free(12), None);
    assert_eq!(free(13), Some(2));
}

#[test]
fn two_hundred_and_fifty_six_rows() {
    let rows = |count: u16| {
        let end = 32 + 6 * count;
        let mut words = vec![3, 16, 1, 0, 16, 22, end, end, 7, 7, 7, 3, count, 0, 1, 2];
        words.extend((0..count).flat_map(|row| [row / 256, row / 16 % 16, row % 16]));
        refused(&words)
    };
    assert_eq!(rows(256), None);
    assert_eq!(rows(257), Some(10));
}

#[test]
fn seventeen_exchanges_come_before_the_length() {
    assert_eq!(refused(&[2, 3, 1, 17, 16, 20, 52, 64]), Some(5));
}

/// The four nogoods of source document 001: x1 to x6 are places 0 to 5.
const INDEX: [u8; 8] = [0, 1, 2, 3, 4, 2, 5, 0];
const EQUAL: [u8; 8] = [255, 1, 255, 1, 1, 255, 2, 255];
const NOT_EQUAL: [u8; 8] = [2, 255, 1, 255, 255, 2, 255, 1];

#[test]
fn the_worked_filter() {
    let mut sets = [6, 6, 6, 2, 2, 6];
    assert_eq!(filter(&mut sets, &INDEX, &EQUAL, &NOT_EQUAL), Ok(FilterEnding::Entailed));
    assert_eq!(sets, [2, 4, 6, 2, 2, 6]);
    // With x5 in {1, 2}, and with x2 = 1.
    let mut sets = [6, 6, 6, 2, 6, 6];
    assert_eq!(filter(&mut sets, &INDEX, &EQUAL, &NOT_EQUAL), Ok(FilterEnding::Consistent));
    assert_eq!(sets, [2, 6, 6, 2, 6, 6]);
    let mut sets = [6, 2, 6, 2, 2, 6];
    assert_eq!(filter(&mut sets, &INDEX, &EQUAL, &NOT_EQUAL), Ok(FilterEnding::Failed));
    assert_eq!(sets, [0; 6]);
}

#[test]
fn small_filters() {
    let mut sets = [1, 9];
    assert_eq!(filter(&mut sets, &[], &[], &[]), Ok(FilterEnding::Entailed));
    assert_eq!(sets, [1, 9]);
    assert_eq!(filter(&mut sets, &[0], &[255], &[0]), Ok(FilterEnding::Failed));
    assert_eq!(sets, [0, 0]);
}

/// The smallest sheet found on which nogoods one at a time take more trials.
#[test]
fn nogoods_are_filtered_together() {
    let first = vec![8, 7, 6, 10, 9, 11, 4, 3, 5, 2, 1, 0];
    let second = vec![11, 9, 10, 0, 2, 1, 6, 7, 8, 4, 3, 5];
    let constraints: Vec<Constraint> = Vec::new();
    let problem = Problem {
        variables: 4,
        values: 3,
        initial: vec![7; 4],
        constraints,
        symmetries: vec![first, second],
    };
    let outcome = oracle::search::search(&problem, 1_000_000, &mut [0; 1000]);
    assert_eq!(outcome, Outcome { ending: Ending::Finished, plans: 22, nodes: 51 });
}
