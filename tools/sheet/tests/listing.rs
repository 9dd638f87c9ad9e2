//! A run step by step, and on several cores, comes to what one call of the planner comes to.

use planner::{Ending, START};
use sheet::listing::{list, Limits, Listing};
use sheet::make;
use sheet::make::Made;
use sheet::runner::Manner;
use sheet::watch::Watch;

fn listed(made: &Made, limits: Limits, jobs: usize) -> Listing {
    list(made, limits, &Manner { from: START.to_vec(), jobs }, &Watch::nobody()).unwrap()
}

/// The same as one call of the planner.
fn is_one_call(made: &Made, limits: Limits) {
    let mut room = vec![0; made.problem.variables.len() * limits.plans as usize];
    let lent = planner::run_lent(&made.sheet, &made.pairs, &made.block, limits.trials, &mut room).unwrap();
    for jobs in [1, 2, 3] {
        let listing = listed(made, limits, jobs);
        assert_eq!(listing.ending, lent.answer.ending, "{limits:?}, {jobs} jobs");
        assert_eq!(listing.trials, lent.answer.nodes.into());
        assert_eq!(listing.counts, lent.counts.map(u64::from));
        assert_eq!(listing.plans.len(), lent.answer.plans as usize);
        assert!(room.starts_with(listing.plans.bytes()));
    }
}

#[test]
fn long_runs() {
    let text = "windows a b c d e f\nduties 0 1 2 3 4 5 6 7 8 9 10 11\ndifferent a b\nforbid c 3 d 4\n";
    let made = make(text).unwrap();
    let all = 12 * 11 * 143 * 144;
    for trials in [0, 1, 1 << 19, (1 << 19) + 1, 2_345_678, u32::MAX] {
        is_one_call(&made, Limits { trials, plans: all, first: false });
    }
    for plans in [0, 1, 4_096, 1_234_567, all - 1] {
        is_one_call(&made, Limits { trials: u32::MAX, plans, first: false });
    }
}

#[test]
fn long_runs_under_exchanges() {
    let text = "windows a b c d e f g\nduties 0 1 2 3 4 5 6 7 8 9\nbefore f b\nalike a b c\n\
                exchange duties 8 9\ndifferent d e\n";
    let made = make(text).unwrap();
    for (trials, plans) in [(u32::MAX, 2_000_000), (1_000_000, 2_000_000), (u32::MAX, 800_000)] {
        is_one_call(&made, Limits { trials, plans, first: false });
    }
}

/// One plan is enough: the run stops soon after it, and it is the first of all.
#[test]
fn the_first_plan() {
    let made = make("windows a b c\nduties 0 1 2 3\nall different a b c\nforbid a 0\n").unwrap();
    let all = listed(&made, Limits { trials: 1000, plans: 100, first: false }, 1);
    let first = listed(&made, Limits { trials: u32::MAX, plans: 1, first: true }, 2);
    assert_eq!(first.plans.bytes(), all.plans.iter().next().unwrap());
    assert!(first.trials <= 1024);
}

/// What comes after a path is the rest of the list.
#[test]
fn after_a_path() {
    let made = make("windows a b c\nduties 0 1 2 3\nall different a b c\nbefore c a\n").unwrap();
    let limits = Limits { trials: 1000, plans: 100, first: false };
    let all = listed(&made, limits, 1);
    for from in [vec![0], vec![1, 2], vec![1, 3, 3], vec![3, 2, 1], vec![255]] {
        let manner = Manner { from: from.clone(), jobs: 1 };
        let rest = list(&made, limits, &manner, &Watch::nobody()).unwrap();
        let read = |plan: &[u8]| vec![plan[1], plan[2], plan[0]];
        let later = all.plans.filtered(|plan| read(plan) > from);
        assert_eq!(rest.plans, later);
        assert_eq!(rest.ending, Ending::Finished);
    }
}
