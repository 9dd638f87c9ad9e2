//! Random problems whose exchanges respect the sheet.

use crate::symmetry::{random_symmetry, Symmetry};
use crate::{neighbours, Rng};
use oracle::nogood::assignments;
use oracle::sheet::Constraint;
use oracle::{contains, Problem};

/// The most choices of one value for each place, so that brute force stays quick.
const MOST_ASSIGNMENTS: u64 = 1024;

/// A small problem with 0 to 32 rules and 0 to 16 exchanges.
pub fn problem(rng: &mut Rng) -> Problem {
    let mut problem = empty_problem(rng);
    let mut tables: Vec<Vec<usize>> = Vec::new();
    match rng.below(10) {
        0..=1 => {
            all_different(rng, &mut problem);
            tables.extend(transposition(&problem));
        }
        2..=6 => {
            let generators: Vec<Symmetry> = (0..rng.pick(&[1, 1, 2]))
                .map(|_| random_symmetry(rng, &problem.initial, problem.values))
                .collect();
            tables = closed(rng, &mut problem, &generators);
        }
        _ => {
            for _ in 0..rng.pick(&[0, 1, 1, 2, 3, 6, 32]) {
                let constraint = random_constraint(rng, &problem);
                problem.constraints.push(constraint);
            }
        }
    }
    add_symmetries(rng, &mut problem, tables);
    problem
}

/// A problem with a block of alike places: its first place, and how many.
pub fn alike_problem(rng: &mut Rng) -> (Problem, [u8; 2]) {
    let mut problem = empty_problem(rng);
    while problem.variables < 2 {
        problem = empty_problem(rng);
    }
    let block = neighbours(rng, problem.variables);
    let places = usize::from(block[0])..usize::from(block[0] + block[1]);
    let smallest =
        *problem.initial[places.clone()].iter().min_by_key(|set| set.count_ones()).expect("a place");
    problem.initial[places.clone()].fill(smallest);
    let trades: Vec<Symmetry> = (places.start + 1..places.end)
        .map(|second| {
            let mut to: Vec<usize> = (0..problem.variables).collect();
            to.swap(second - 1, second);
            Symmetry { to, value: vec![(0..problem.values).collect(); problem.variables] }
        })
        .collect();
    let tables = closed(rng, &mut problem, &trades);
    add_symmetries(rng, &mut problem, tables);
    (problem, block)
}

/// Places, values and initial sets.
fn empty_problem(rng: &mut Rng) -> Problem {
    let variables = rng.pick(&[1, 2, 2, 3, 3, 3, 4, 4, 5, 6, 8, 12]);
    let values = rng.pick(&[1, 2, 2, 3, 3, 3, 4, 4, 5, 7, 16]);
    let mut initial = vec![full(values); variables];
    let style = rng.below(3);
    for set in initial.iter_mut() {
        if style > 0 && rng.chance(60) {
            *set = random_set(rng, values);
        }
    }
    if style == 2 && variables > 1 {
        for i in 0..variables / 2 {
            initial[2 * i + 1] = initial[2 * i];
        }
    }
    while initial.iter().map(|set| set.count_ones() as u64).product::<u64>() > MOST_ASSIGNMENTS {
        let variable = rng.below(variables);
        initial[variable] &= random_set(rng, values) | 1 << initial[variable].trailing_zeros();
    }
    Problem { variables, values, initial, constraints: Vec::new(), symmetries: Vec::new() }
}

/// The set of all values.
fn full(values: usize) -> u16 {
    ((1u32 << values) - 1) as u16
}

fn random_set(rng: &mut Rng, values: usize) -> u16 {
    let always = rng.below(values);
    (0..values).filter(|&value| value == always || rng.chance(45)).fold(0, |set, value| set | 1 << value)
}

/// A rule on 1 to 3 places. Its rows may hold values outside the initial sets.
fn random_constraint(rng: &mut Rng, problem: &Problem) -> Constraint {
    let mut scope: Vec<usize> = (0..problem.variables).collect();
    rng.shuffle(&mut scope);
    scope.truncate(rng.pick(&[1, 2, 2, 3, 3]));
    scope.sort();
    let style = rng.below(8);
    let percent = rng.pick(&[0, 50, 80, 80, 90, 97]);
    let mut rows = assignments(&vec![full(problem.values); scope.len()]);
    rows.retain(|row| match style {
        0 => row.windows(2).all(|two| two[0] != two[1]),
        1 => row.windows(2).all(|two| two[0] <= two[1]),
        2 => row.iter().sum::<usize>() % 3 != 0,
        _ => rng.chance(percent),
    });
    while rows.len() > 256 {
        rows.remove(rng.below(rows.len()));
    }
    Constraint { scope, rows }
}

/// Every two places different.
fn all_different(rng: &mut Rng, problem: &mut Problem) {
    let count = problem.variables.min(8);
    let d = problem.values;
    for i in 0..count {
        for j in i + 1..count {
            let rows = assignments(&[full(d), full(d)]).into_iter().filter(|row| row[0] != row[1]).collect();
            problem.constraints.push(Constraint { scope: vec![i, j], rows });
        }
    }
    rng.shuffle(&mut problem.constraints);
}

/// The exchange of places and values, where there are as many of both: no place goes to a place.
fn transposition(problem: &Problem) -> Option<Vec<usize>> {
    let n = problem.variables;
    let square = n == problem.values && problem.initial.iter().all(|&set| set == full(n));
    square.then(|| (0..n * n).map(|number| number % n * n + number / n).collect())
}

/// Random rules closed under symmetries, and these as tables.
fn closed(rng: &mut Rng, problem: &mut Problem, generators: &[Symmetry]) -> Vec<Vec<usize>> {
    for _ in 0..rng.pick(&[0, 1, 1, 2, 3]) {
        let mut constraint = random_constraint(rng, problem);
        constraint.rows.retain(|row| meets(problem, &constraint.scope, row));
        let mut orbit = vec![constraint];
        let mut at = 0;
        while at < orbit.len() && orbit.len() <= 32 {
            for generator in generators {
                let image = generator.image(&orbit[at]);
                if !orbit.contains(&image) {
                    orbit.push(image);
                }
            }
            at += 1;
        }
        if orbit.len() + problem.constraints.len() <= 32 {
            problem.constraints.extend(orbit);
        }
    }
    add_rows_never_met(rng, problem);
    generators.iter().map(|generator| generator.table(problem)).collect()
}

/// Are the values of a row all in the initial sets of its places?
fn meets(problem: &Problem, scope: &[usize], row: &[usize]) -> bool {
    scope.iter().zip(row).all(|(&variable, &value)| contains(problem.initial[variable], value))
}

/// Adds rows with a value outside the initial sets to some rules.
fn add_rows_never_met(rng: &mut Rng, problem: &mut Problem) {
    let mut constraints = std::mem::take(&mut problem.constraints);
    for Constraint { scope, rows } in &mut constraints {
        if rng.chance(50) {
            continue;
        }
        let mut others = assignments(&vec![full(problem.values); scope.len()]);
        others.retain(|row| !meets(problem, scope, row));
        rng.shuffle(&mut others);
        others.truncate((others.len() / 2).min(256 - rows.len()));
        rows.extend(others);
        rows.sort();
    }
    problem.constraints = constraints;
}

/// Adds up to 16 exchanges that respect the sheet: the given ones, which do so as they were made, and, tested by
/// the oracle, products of those already there, random ones that move places, and any permutation of pairs.
fn add_symmetries(rng: &mut Rng, problem: &mut Problem, given: Vec<Vec<usize>>) {
    let wanted = rng.pick(&[0, 1, 1, 1, 2, 2, 3, 4, 8, 16]);
    let mut found = given;
    for _ in 0..4 * wanted {
        let candidate = if found.len() >= 2 && rng.chance(50) {
            let (first, second) = (rng.pick(&found), rng.pick(&found));
            first.iter().map(|&number| second[number]).collect()
        } else if rng.chance(60) {
            random_symmetry(rng, &problem.initial, problem.values).table(problem)
        } else {
            any_permutation(rng, problem)
        };
        if problem.respected_by(&candidate) {
            found.push(candidate);
        }
    }
    rng.shuffle(&mut found);
    found.truncate(wanted);
    problem.symmetries = found;
}

/// Any permutation of the pairs, or of a few of them.
fn any_permutation(rng: &mut Rng, problem: &Problem) -> Vec<usize> {
    let numbers = 0..problem.variables * problem.values;
    let mut moved: Vec<usize> = numbers.clone().filter(|&number| problem.is_pair(number)).collect();
    rng.shuffle(&mut moved);
    moved.truncate(rng.pick(&[2, 3, 4, 192]));
    let mut table: Vec<usize> = numbers.collect();
    for i in 0..moved.len() {
        table[moved[i]] = moved[(i + 1) % moved.len()];
    }
    table
}

/// A problem at the format's limits: up to 12 places, 16 values, 256 rows and 32 rules.
pub fn large_problem(rng: &mut Rng) -> Problem {
    let (variables, values) = (rng.between(8, 12), rng.between(7, 16));
    let initial = (0..variables).map(|_| random_set(rng, values) | 3).collect();
    let mut problem = Problem { variables, values, initial, constraints: Vec::new(), symmetries: Vec::new() };
    for _ in 0..rng.pick(&[1, 8, 31, 32]) {
        let constraint = random_constraint(rng, &problem);
        if constraint.rows.len() > 100 || rng.chance(20) {
            problem.constraints.push(constraint);
        }
    }
    let identity = (0..variables * values).collect();
    problem.symmetries = vec![identity; rng.pick(&[0, 1, 1, 2, 16])];
    problem
}
