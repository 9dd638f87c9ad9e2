//! A block of alike places (paper 02, #111): all its orderings act as exchanges after the sheet's own.

use crate::nogood::assignments;
use crate::{Problem, Refusal};

/// All orderings of five, ascending.
pub fn orderings() -> Vec<Vec<usize>> {
    let each_once = |row: &Vec<usize>| (0..5).all(|number| row.contains(&number));
    assignments(&[31; 5]).into_iter().filter(each_once).collect()
}

/// Question 36 to the block, then 15 and 16 to each of its orderings in turn; the problem with these as exchanges. No
/// bytes are no block.
pub fn with_block(mut problem: Problem, block: &[u8]) -> Result<Problem, Refusal> {
    if block.is_empty() {
        return Ok(problem);
    }
    let refuse = |number: u32, item: usize| Err(Refusal { number, item: item as u32 });
    let &[first, count] = block else {
        return refuse(36, 0);
    };
    let (first, count) = (usize::from(first), usize::from(count));
    if !(2..=5).contains(&count) || first + count > problem.variables {
        return refuse(36, 0);
    }
    for ordering in orderings().into_iter().take((1..=count).product()) {
        let (table, item) = (table(&problem, first, count, &ordering), problem.symmetries.len());
        if !problem.permutes_pairs(&table) {
            return refuse(15, item);
        }
        if !problem.respected_by(&table) {
            return refuse(16, item);
        }
        problem.symmetries.push(table);
    }
    Ok(problem)
}

/// Each pair (first + i, v) goes to (first + e(5 - m + i) - (5 - m), v) for i below m, the block's count; other numbers
/// stay put.
fn table(problem: &Problem, first: usize, count: usize, ordering: &[usize]) -> Vec<usize> {
    let d = problem.values;
    let image = |number: usize| {
        let place = number / d;
        if problem.is_pair(number) && (first..first + count).contains(&place) {
            let other = 5 - count;
            (first + ordering[other + place - first] - other) * d + number % d
        } else {
            number
        }
    };
    (0..problem.variables * d).map(image).collect()
}
