//! A run that is lent pairs (paper 02, #108) and a block (#111): prefixes, trials and the list follow the settling
//! order, and rows are written by place number. Its tally has the trials by place (#107).

use crate::block::with_block;
use crate::nogood::{filtered_by_products, Entry};
use crate::order::settling_order;
use crate::{contains, members, question, Ending, Outcome, Problem, Refusal};

/// An ending with the plans listed and the trials, and the trials by place.
#[derive(Clone, Copy, Debug, PartialEq, Eq)]
pub struct Tallied {
    pub outcome: Outcome,
    pub counts: [u32; 12],
}

/// All questions that a run puts: the sheet's, then the pairs', then the block's. What the sheet states, with the block's
/// orderings as exchanges, and the order.
pub fn question_lent(sheet: &[u8], pairs: &[u8], block: &[u8]) -> Result<(Problem, Vec<usize>), Refusal> {
    let problem = question(sheet)?;
    let order = settling_order(problem.variables, pairs)?;
    Ok((with_block(problem, block)?, order))
}

/// A run: the questions, then the search.
pub fn run_lent(
    sheet: &[u8],
    pairs: &[u8],
    block: &[u8],
    node_limit: u32,
    list: &mut [u8],
) -> Result<Tallied, Refusal> {
    let (problem, order) = question_lent(sheet, pairs, block)?;
    Ok(search_in(&problem, &order, node_limit, list))
}

/// The search that settles the places in the order.
pub fn search_in(problem: &Problem, order: &[usize], node_limit: u32, list: &mut [u8]) -> Tallied {
    let (mut plans, mut nodes, mut counts) = (0, 0, [0; 12]);
    let mut due = trials_below(problem, order, &[]);
    let ending = loop {
        let Some(prefix) = due.pop() else {
            break Ending::Finished;
        };
        if nodes == node_limit {
            break Ending::Spent;
        }
        nodes += 1;
        counts[order[prefix.len() - 1]] += 1;
        if prefix.len() < order.len() {
            due.extend(trials_below(problem, order, &prefix));
        } else if sets_at(problem, order, &prefix).is_some() {
            let Some(room) = list.chunks_exact_mut(order.len()).nth(plans as usize) else {
                break Ending::Full;
            };
            for (&place, &value) in order.iter().zip(&prefix) {
                room[place] = value as u8;
            }
            plans += 1;
        }
    };
    Tallied { outcome: Outcome { ending, plans, nodes }, counts }
}

/// All trials of the tree in the order in which they are due; of each, whether it finds a plan.
pub fn trials(problem: &Problem, order: &[usize]) -> Vec<bool> {
    let (mut all, mut due) = (Vec::new(), trials_below(problem, order, &[]));
    while let Some(prefix) = due.pop() {
        let settled = prefix.len() == order.len();
        all.push(settled && sets_at(problem, order, &prefix).is_some());
        if !settled {
            due.extend(trials_below(problem, order, &prefix));
        }
    }
    all
}

/// The trials that settle the place after a prefix, the first to be made last; of a dead prefix there are none.
pub(crate) fn trials_below(problem: &Problem, order: &[usize], prefix: &[usize]) -> Vec<Vec<usize>> {
    let Some(sets) = sets_at(problem, order, prefix) else {
        return Vec::new();
    };
    let values = members(sets[order[prefix.len()]]);
    values.into_iter().rev().map(|value| [prefix, &[value]].concat()).collect()
}

/// The sets at a prefix, which gives values to the first places of the order. `None` if the prefix is dead.
pub fn sets_at(problem: &Problem, order: &[usize], prefix: &[usize]) -> Option<Vec<u16>> {
    let mut sets = problem.initial.clone();
    for (&place, &value) in order.iter().zip(prefix) {
        sets[place] &= 1 << value;
    }
    let lists: Vec<Vec<Entry>> =
        problem.symmetries.iter().map(|table| nogoods(problem, order, table, prefix)).collect();
    loop {
        let mut left = with_rows(problem, &sets);
        for list in &lists {
            left = filtered_by_products(&left, list);
        }
        if left.contains(&0) {
            return None;
        }
        if left == sets {
            return Some(sets);
        }
        sets = left;
    }
}

/// The nogoods of an exchange at a prefix: for each place of it and each smaller value of that place's initial set,
/// the images of the pairs before in the order imply "not the image of that place with that value".
fn nogoods(problem: &Problem, order: &[usize], table: &[usize], prefix: &[usize]) -> Vec<Entry> {
    let mut entries = Vec::new();
    for (&place, &given) in order.iter().zip(prefix) {
        for value in members(problem.initial[place]).into_iter().filter(|&value| value < given) {
            let (image, not) = problem.image(table, (place, value));
            entries.push(Entry::NotEqual(image, not));
        }
        let (image, equal) = problem.image(table, (place, given));
        entries.push(Entry::Equal(image, equal));
    }
    entries
}

/// Leaves each place the values that have a row inside the sets in every rule on the place.
fn with_rows(problem: &Problem, sets: &[u16]) -> Vec<u16> {
    let mut left = sets.to_vec();
    for constraint in &problem.constraints {
        let scope = &constraint.scope;
        let inside =
            |row: &&Vec<usize>| scope.iter().zip(*row).all(|(&place, &value)| contains(sets[place], value));
        let rows: Vec<&Vec<usize>> = constraint.rows.iter().filter(inside).collect();
        for (column, &place) in scope.iter().enumerate() {
            let values = rows.iter().fold(0, |values, row| values | 1 << row[column]);
            left[place] &= values;
        }
    }
    left
}
