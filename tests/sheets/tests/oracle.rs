//! The oracle beside listings by brute force, on random sheets and lists.

use oracle::listing::{image, solutions};
use oracle::nogood::{
    ending_by_assignments, ending_by_counts, filtered_by_assignments, filtered_by_products, Entry,
    FilterEnding,
};
use oracle::Ending;
use sheets::{encode, problem, right_lists, Rng};

/// Plans are the solutions onto which no exchange brings an earlier one.
#[test]
fn plans_are_the_leaders() {
    let mut rng = Rng::new(1);
    let mut carried = 0;
    for _ in 0..300 {
        let problem = problem(&mut rng);
        assert_eq!(oracle::question(&encode(&problem)), Ok(problem.clone()));
        let all = solutions(&problem);
        let mut leaders = all.clone();
        for table in &problem.symmetries {
            for solution in &all {
                let image = image(&problem, table, solution);
                assert!(all.contains(&image), "an image of a solution is a solution");
                leaders.retain(|leader| !(*leader == image && solution < leader));
            }
        }
        carried += all.len() - leaders.len();
        let mut list = vec![0; 12 * 4096];
        let outcome = oracle::search::search(&problem, u32::MAX, &mut list);
        let rows = list.chunks(problem.variables).take(outcome.plans as usize);
        let plans: Vec<Vec<usize>> = rows.map(|row| row.iter().map(|&v| v as usize).collect()).collect();
        assert_eq!((outcome.ending, plans), (Ending::Finished, leaders));
    }
    assert!(carried > 300, "symmetries take away plans often enough");
}

/// The two ways to filter agree, and the two ways to say how it ended; each ending comes often.
#[test]
fn assignments_and_products_agree() {
    let mut rng = Rng::new(1);
    let mut endings = Vec::new();
    for _ in 0..5000 {
        let lists = right_lists(&mut rng);
        if lists.sets.iter().map(|set| set.count_ones() as u64).product::<u64>() > 2000 {
            continue;
        }
        let entry = |i: usize| match (lists.index[i] as usize, lists.equal[i], lists.not_equal[i]) {
            (variable, value, 255) => Entry::Equal(variable, value as usize),
            (variable, _, value) => Entry::NotEqual(variable, value as usize),
        };
        let entries: Vec<Entry> = (0..lists.index.len()).map(entry).collect();
        let (first, second) =
            (filtered_by_assignments(&lists.sets, &entries), filtered_by_products(&lists.sets, &entries));
        assert_eq!(first, second);
        let ending = ending_by_assignments(&lists.sets, &first, &entries);
        assert_eq!(ending, ending_by_counts(&lists.sets, &first, &entries));
        endings.push(ending);
    }
    for ending in [FilterEnding::Failed, FilterEnding::Entailed, FilterEnding::Consistent] {
        let met = endings.iter().filter(|&&other| other == ending).count();
        assert!(met > 300, "{ending:?} only {met} times");
    }
}

/// The generator makes real symmetries often: none that moves nothing, some that are no product of places and
/// values, and many that differ from their inverse.
#[test]
fn symmetries_are_real() {
    let mut rng = Rng::new(1);
    let (mut moving, mut turning, mut splitting, mut sixteen) = (0, 0, 0, 0);
    for _ in 0..1000 {
        let problem = problem(&mut rng);
        let d = problem.values;
        let moves = |table: &Vec<usize>| (0..table.len()).any(|i| table[i] != i);
        let turns = |table: &Vec<usize>| (0..table.len()).any(|i| table[table[i]] != i);
        let splits = |table: &Vec<usize>| {
            let pairs = (0..table.len()).filter(|&i| problem.is_pair(i));
            pairs.clone().any(|i| pairs.clone().any(|j| i / d == j / d && table[i] / d != table[j] / d))
        };
        moving += problem.symmetries.iter().any(moves) as usize;
        turning += problem.symmetries.iter().any(turns) as usize;
        splitting += problem.symmetries.iter().any(splits) as usize;
        sixteen += (problem.symmetries.len() == 16) as usize;
    }
    println!(
        "moving {moving}, not their own inverse {turning}, splitting places {splitting}, sixteen {sixteen}"
    );
    assert!(moving > 500 && turning > 250 && splitting > 10 && sixteen > 20);
}
