//! The small sheets of the oracle: their number and order, and its run of each beside a listing by brute force.

use oracle::listing::{families, leaders, reached, solutions};
use oracle::small::{small_sheet, small_sheets};
use oracle::{question, run, Ending, Refusal};

#[test]
fn there_are_144_without_an_exchange_and_400_with_one() {
    let with_exchange = |sheet: &Vec<u8>| sheet[6] == 1;
    let all = small_sheets();
    assert_eq!(all.iter().filter(|sheet| !with_exchange(sheet)).count(), 144);
    assert!(!all[..144].iter().any(with_exchange));
    assert_eq!(all.len(), 544);
    let mut sorted = all.to_vec();
    sorted.sort();
    sorted.dedup();
    assert_eq!(sorted.len(), 544, "each stands at one position");
}

#[test]
fn the_first_the_last_and_past_it() {
    let mut room = [9; 60];
    assert_eq!(small_sheet(0, &mut room), Ok(28));
    assert_eq!(
        room[..28],
        [2, 0, 2, 0, 1, 0, 0, 0, 16, 0, 20, 0, 28, 0, 28, 0, 1, 0, 1, 0, 2, 0, 0, 0, 0, 0, 1, 0]
    );
    assert_eq!(room[28..], [9; 32]);
    assert_eq!(small_sheet(543, &mut room), Ok(52));
    assert_eq!(room[44..52], [3, 0, 2, 0, 1, 0, 0, 0], "the last table is 3 2 1 0");
    assert_eq!(small_sheet(544, &mut []), Err(Refusal { number: 39, item: 0 }));
    assert_eq!(small_sheet(543, &mut [0; 51]), Err(Refusal { number: 40, item: 0 }));
}

#[test]
fn runs_list_the_leaders() {
    let (mut carried, mut twins) = (0, 0);
    for sheet in small_sheets() {
        let problem = question(sheet).unwrap();
        let mut list = [0; 8];
        let outcome = run(sheet, u32::MAX, &mut list).unwrap();
        let plans: Vec<Vec<usize>> = list
            .chunks(2)
            .take(outcome.plans as usize)
            .map(|row| row.iter().map(|&value| value as usize).collect())
            .collect();
        assert_eq!((outcome.ending, &plans), (Ending::Finished, &leaders(&problem)));
        assert_eq!(reached(&problem, &plans), solutions(&problem), "chains reach every solution");
        assert!(families(&problem) <= plans.len());
        carried += solutions(&problem).len() - plans.len();
        twins += plans.len() - families(&problem);
    }
    assert_eq!(
        (carried, twins),
        (44, 2),
        "solutions not listed, and plans listed beside another of their family"
    );
}
