//! The oracle's answer to "at least so many plans?" beside its runs.

use oracle::enough::{at_least, Said};
use oracle::lent::run_lent;
use oracle::Ending;
use sheets::{alike_problem, encode, problem, right_pairs, Rng};

/// From one plan up it says what a run with room for one plan fewer says: full is yes, finished no, spent spent. Yes and no
/// agree with the complete list.
#[test]
fn beside_runs() {
    let mut rng = Rng::new(1);
    let mut seen = [0; 3];
    for _ in 0..150 {
        let (problem, block) = match rng.chance(30) {
            true => alike_problem(&mut rng),
            false => (problem(&mut rng), [0, 0]),
        };
        let block = if block[1] > 0 { &block[..] } else { &[] };
        let (sheet, pairs) = (encode(&problem), right_pairs(&mut rng, problem.variables));
        let run = |limit, plans| {
            run_lent(&sheet, &pairs, block, limit, &mut vec![0; plans * problem.variables]).unwrap().outcome
        };
        let whole = run(u32::MAX, 4096);
        for _ in 0..6 {
            let plans = rng.below(whole.plans as usize + 3);
            let limit = rng.below(whole.nodes as usize + 2) as u32;
            let answer = at_least(&sheet, &pairs, block, plans as u32, limit).unwrap();
            seen[answer.said as usize] += 1;
            match answer.said {
                Said::Yes => assert!(answer.plans == plans as u32 && answer.plans <= whole.plans),
                Said::No => assert!((plans as u32) > whole.plans && answer.nodes == whole.nodes),
                Said::Spent => assert!(answer.nodes == limit && limit < whole.nodes),
            }
            if plans == 0 {
                assert_eq!((answer.said, answer.nodes), (Said::Yes, 0));
                continue;
            }
            let run = run(limit, plans - 1);
            let (said, more) = match run.ending {
                Ending::Full => (Said::Yes, 1),
                Ending::Finished => (Said::No, 0),
                Ending::Spent => (Said::Spent, 0),
            };
            assert_eq!((answer.said, answer.plans, answer.nodes), (said, run.plans + more, run.nodes));
        }
    }
    assert!(seen.iter().all(|&count| count > 80), "{seen:?}");
}
