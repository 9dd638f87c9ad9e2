//! The oracle's closed exchanges beside its runs, and the earliest of each family beside chains by brute force.

use oracle::closed::{earliest, missing_product};
use oracle::lent::{question_lent, run_lent};
use oracle::listing;
use oracle::nogood::assignments;
use sheets::{alike_problem, encode, problem, right_pairs, Rng};

/// With closed exchanges the run lists the earliest of each family, else these and perhaps more; a block alone is closed.
#[test]
fn beside_chains_and_runs() {
    let mut rng = Rng::new(1);
    let (mut closed, mut twins) = (0, 0);
    for _ in 0..150 {
        let (mut problem, block) = match rng.chance(30) {
            true => alike_problem(&mut rng),
            false => (problem(&mut rng), [0, 0]),
        };
        let block = if block[1] > 0 { &block[..] } else { &[] };
        if !block.is_empty() && rng.chance(50) {
            problem.symmetries.clear();
            assert_eq!(missing_product(&encode(&problem), &[], block), Ok(None));
        }
        let (sheet, pairs) = (encode(&problem), right_pairs(&mut rng, problem.variables));
        let (problem, order) = question_lent(&sheet, &pairs, block).unwrap();
        let earliest = earliest(&problem, &order);
        if assignments(&problem.initial).len() <= 200 {
            assert_eq!(earliest.len(), listing::families(&problem));
        }
        let mut list = vec![0; 12 * 4096];
        let count = run_lent(&sheet, &pairs, block, u32::MAX, &mut list).unwrap().outcome.plans as usize;
        let plans: Vec<Vec<usize>> = list
            .chunks(problem.variables)
            .take(count)
            .map(|plan| plan.iter().map(|&duty| usize::from(duty)).collect())
            .collect();
        match missing_product(&sheet, &pairs, block).unwrap() {
            None => {
                assert_eq!(plans, earliest);
                closed += usize::from(!problem.symmetries.is_empty());
            }
            Some(_) => {
                assert!(earliest.iter().all(|plan| plans.contains(plan)));
                twins += usize::from(earliest.len() < plans.len());
            }
        }
    }
    assert!(closed > 20 && twins > 10, "{closed} closed, {twins} with twins");
}
