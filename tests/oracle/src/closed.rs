//! Whether the exchanges of a run are closed (paper 02, #112), and the plan of each family that reads earliest. All solutions are
//! drawn.

use crate::lent::question_lent;
use crate::listing::{image, solutions};
use crate::order::reading;
use crate::{Problem, Refusal};

/// The questions of a run, then the first two exchanges, by the one and then the other, that one after the other make neither an
/// exchange of the run nor the one that moves nothing. `None`: they are closed.
pub fn missing_product(sheet: &[u8], pairs: &[u8], block: &[u8]) -> Result<Option<[usize; 2]>, Refusal> {
    let (problem, _) = question_lent(sheet, pairs, block)?;
    let tables = &problem.symmetries;
    let is_there = |product: &Vec<usize>| {
        tables.contains(product) || product.iter().enumerate().all(|(number, &image)| number == image)
    };
    let all = (0..tables.len()).flat_map(|first| (0..tables.len()).map(move |second| [first, second]));
    let product = |[first, second]: [usize; 2]| -> Vec<usize> {
        tables[first].iter().map(|&number| tables[second][number]).collect()
    };
    Ok(all.into_iter().find(|&two| !is_there(&product(two))))
}

/// The earliest solution of each family, read in the order given: the solutions fall into sets once each is put together with what
/// each exchange makes of it.
pub fn earliest(problem: &Problem, order: &[usize]) -> Vec<Vec<usize>> {
    let all = solutions(problem);
    let mut ranks: Vec<usize> = (0..all.len()).collect();
    ranks.sort_by_key(|&number| reading(order, &all[number]));
    let mut parent: Vec<usize> = (0..all.len()).collect();
    for (number, solution) in all.iter().enumerate() {
        for table in &problem.symmetries {
            let other = all.binary_search(&image(problem, table, solution)).expect("a solution");
            let [one, other] = [number, other].map(|number| root(&parent, number));
            parent[one] = other;
        }
    }
    let mut seen = vec![false; all.len()];
    ranks.retain(|&number| !std::mem::replace(&mut seen[root(&parent, number)], true));
    ranks.into_iter().map(|number| all[number].clone()).collect()
}

fn root(parent: &[usize], mut number: usize) -> usize {
    while parent[number] != number {
        number = parent[number];
    }
    number
}
