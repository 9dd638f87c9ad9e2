//! The plans, chains and families of a problem by brute force: all assignments are drawn.

use crate::nogood::assignments;
use crate::Problem;

/// All solutions in reading order.
pub fn solutions(problem: &Problem) -> Vec<Vec<usize>> {
    let mut all = assignments(&problem.initial);
    for constraint in &problem.constraints {
        all.retain(|solution| {
            let row: Vec<usize> = constraint.scope.iter().map(|&variable| solution[variable]).collect();
            constraint.rows.contains(&row)
        });
    }
    all
}

/// The image of a solution, as the values in place order.
pub fn image(problem: &Problem, table: &[usize], solution: &[usize]) -> Vec<usize> {
    let mut pairs: Vec<_> = solution
        .iter()
        .enumerate()
        .map(|(variable, &value)| problem.image(table, (variable, value)))
        .collect();
    pairs.sort();
    assert!(pairs.iter().enumerate().all(|(i, pair)| pair.0 == i), "an image of a solution is an assignment");
    pairs.iter().map(|pair| pair.1).collect()
}

/// The solutions onto which no exchange brings one that reads earlier.
pub fn leaders(problem: &Problem) -> Vec<Vec<usize>> {
    let all = solutions(problem);
    let brought = |leader: &Vec<usize>| {
        problem.symmetries.iter().any(|table| {
            all.iter().any(|solution| solution < leader && image(problem, table, solution) == *leader)
        })
    };
    all.iter().filter(|leader| !brought(leader)).cloned().collect()
}

/// Whatever chains of exchanges make of the given solutions, these included, in reading order.
pub fn reached(problem: &Problem, from: &[Vec<usize>]) -> Vec<Vec<usize>> {
    let mut all = from.to_vec();
    let mut next = 0;
    while next < all.len() {
        for table in &problem.symmetries {
            let image = image(problem, table, &all[next]);
            if !all.contains(&image) {
                all.push(image);
            }
        }
        next += 1;
    }
    all.sort();
    all
}

/// The number of families: all solutions joined by chains of exchanges are one. What a chain brings from a
/// solution is its whole family, since an exchange comes back to where it began.
pub fn families(problem: &Problem) -> usize {
    let mut left = solutions(problem);
    let mut count = 0;
    while let Some(first) = left.first().cloned() {
        let family = reached(problem, &[first]);
        left.retain(|solution| !family.contains(solution));
        count += 1;
    }
    count
}
