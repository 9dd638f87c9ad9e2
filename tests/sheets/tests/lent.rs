//! The oracle's run in the settling order beside listings by brute force, and beside the run without pairs.

use oracle::lent::{question_lent, run_lent, search_in, sets_at, Tallied};
use oracle::listing::{image, solutions};
use oracle::order::reading;
use oracle::{members, Ending, Problem};
use sheets::{block, damaged, encode, pairs, problem, right_pairs, typed_in, Rng};

/// A problem with pairs, and the order that comes of them.
fn lent(rng: &mut Rng) -> (Problem, Vec<u8>, Vec<usize>) {
    let problem = problem(rng);
    let pairs = right_pairs(rng, problem.variables);
    let (read, order) = question_lent(&encode(&problem), &pairs, &[]).unwrap();
    assert_eq!(read, problem);
    (problem, pairs, order)
}

/// The plans that a complete run lists, and what it counts.
fn complete(problem: &Problem, order: &[usize]) -> (Vec<Vec<usize>>, Tallied) {
    let mut list = vec![0; 12 * 4096];
    let tallied = search_in(problem, order, u32::MAX, &mut list);
    assert_eq!(tallied.outcome.ending, Ending::Finished);
    let rows = list.chunks(problem.variables).take(tallied.outcome.plans as usize);
    (rows.map(|row| row.iter().map(|&value| value as usize).collect()).collect(), tallied)
}

/// Without pairs it is the run of paper 01.
#[test]
fn an_empty_lending_changes_nothing() {
    let mut rng = Rng::new(1);
    for _ in 0..400 {
        let problem = problem(&mut rng);
        let sheet = if rng.chance(20) { damaged(&mut rng, &problem) } else { encode(&problem) };
        for limit in [0, rng.below(40) as u32, 1_000_000] {
            let mut lists = [vec![77; rng.below(100)], Vec::new()];
            lists[1] = lists[0].clone();
            let [one, other] = &mut lists;
            let plain = oracle::run(&sheet, limit, one);
            let tallied = run_lent(&sheet, &[], &[], limit, other);
            assert_eq!(tallied.map(|tallied| tallied.outcome), plain);
            assert_eq!(lists[0], lists[1]);
        }
    }
}

/// The pairs' questions come after the sheet's, the block's after the pairs', and a refusal writes nothing.
#[test]
fn refusals() {
    let mut rng = Rng::new(1);
    let mut seen = [0; 37];
    for _ in 0..1000 {
        let problem = problem(&mut rng);
        let pairs = pairs(&mut rng, problem.variables);
        let sheet = if rng.chance(30) { damaged(&mut rng, &problem) } else { encode(&problem) };
        let block = block(&mut rng, problem.variables);
        let mut list = vec![77; 30];
        if let Err(refusal) = run_lent(&sheet, &pairs, &block, 1000, &mut list) {
            assert_eq!(oracle::question(&sheet).err().unwrap_or(refusal), refusal);
            assert_eq!(question_lent(&sheet, &pairs, &[]).err().unwrap_or(refusal), refusal);
            assert_eq!(question_lent(&sheet, &pairs, &block), Err(refusal));
            assert_eq!(list, [77; 30]);
            seen[refusal.number as usize] += 1;
        }
    }
    assert!([28, 29, 30, 36].iter().all(|&number| seen[number] > 20), "{seen:?}");
}

/// A finished run lists the solutions onto which no exchange brings one that reads earlier in the order, as they
/// read in it; and every solution is reached from a listed plan by exchanges, each giving one that reads later.
#[test]
fn leaders_and_chains() {
    let mut rng = Rng::new(1);
    let (mut carried, mut moved) = (0, 0);
    for _ in 0..300 {
        let (problem, _, order) = lent(&mut rng);
        let mut all = solutions(&problem);
        all.sort_by_key(|solution| reading(&order, solution));
        let earlier = |a: &Vec<usize>, b: &Vec<usize>| reading(&order, a) < reading(&order, b);
        let mut steps = Vec::new();
        for table in &problem.symmetries {
            steps.extend(all.iter().map(|solution| (solution.clone(), image(&problem, table, solution))));
        }
        steps.retain(|(from, to)| earlier(from, to));
        let mut leaders = all.clone();
        leaders.retain(|leader| !steps.iter().any(|(_, to)| to == leader));
        let (plans, _) = complete(&problem, &order);
        assert_eq!(plans, leaders);
        let mut reached = plans.clone();
        for solution in &all {
            let from = |(from, to): &(Vec<usize>, Vec<usize>)| to == solution && reached.contains(from);
            if steps.iter().any(from) {
                reached.push(solution.clone());
            }
        }
        reached.sort();
        reached.dedup();
        assert_eq!(reached, solutions(&problem));
        carried += all.len() - plans.len();
        moved += usize::from(plans.windows(2).any(|two| two[0] > two[1]));
    }
    assert!(carried > 300 && moved > 50, "{carried} carried, {moved} lists in another order");
}

/// The trials by place are those of the tree, level by level; of places from n up there are none.
#[test]
fn trials_by_place() {
    let mut rng = Rng::new(1);
    for _ in 0..200 {
        let (problem, _, order) = lent(&mut rng);
        let mut counts = [0; 12];
        let mut level: Vec<Vec<usize>> = vec![Vec::new()];
        for &place in &order {
            let mut next = Vec::new();
            for prefix in &level {
                if let Some(sets) = sets_at(&problem, &order, prefix) {
                    next.extend(
                        members(sets[place]).into_iter().map(|value| [&prefix[..], &[value]].concat()),
                    );
                }
            }
            counts[place] = next.len() as u32;
            level = next;
        }
        let (_, tallied) = complete(&problem, &order);
        assert_eq!(tallied.counts, counts);
        assert_eq!(counts.iter().sum::<u32>(), tallied.outcome.nodes);
    }
}

/// A stopped run holds the first part of the list, and its counts are those of the trials so far.
#[test]
fn stopped_runs() {
    let mut rng = Rng::new(1);
    for _ in 0..200 {
        let (problem, pairs, order) = lent(&mut rng);
        let (plans, whole) = complete(&problem, &order);
        let n = problem.variables;
        let room = rng.below(n * plans.len() + 4);
        let limit = rng.below(whole.outcome.nodes as usize + 2) as u32;
        let mut list = vec![77; room];
        let Tallied { outcome, counts } = run_lent(&encode(&problem), &pairs, &[], limit, &mut list).unwrap();
        let listed: Vec<u8> =
            plans[..outcome.plans as usize].concat().iter().map(|&value| value as u8).collect();
        assert_eq!(list, [&listed[..], &vec![77; room - listed.len()]].concat());
        assert_eq!(counts.iter().sum::<u32>(), outcome.nodes);
        assert!(counts.iter().zip(whole.counts).all(|(&part, all)| part <= all));
        assert!(outcome.nodes <= limit);
        match outcome.ending {
            Ending::Finished => assert_eq!(counts, whole.counts),
            Ending::Spent => assert!(outcome.nodes == limit && limit < whole.outcome.nodes),
            Ending::Full => assert!(room < n * (outcome.plans as usize + 1)),
        }
    }
}

/// It is the run of paper 01 on the hall typed in that order.
#[test]
fn as_the_hall_typed_in_the_order() {
    let mut rng = Rng::new(1);
    for _ in 0..300 {
        let (problem, pairs, order) = lent(&mut rng);
        let typed = encode(&typed_in(&problem, &order));
        let mut lists = [vec![77; 12 * 4096], vec![77; 12 * 4096]];
        let limit = rng.pick(&[3, 20, u32::MAX]);
        let tallied = run_lent(&encode(&problem), &pairs, &[], limit, &mut lists[0]).unwrap();
        assert_eq!(Ok(tallied.outcome), oracle::run(&typed, limit, &mut lists[1]));
        let [rows, typed_rows] = lists.each_ref().map(|list| list.chunks(order.len()));
        for (row, typed) in rows.zip(typed_rows).take(tallied.outcome.plans as usize) {
            assert_eq!(reading(&order, row), typed);
        }
    }
}
