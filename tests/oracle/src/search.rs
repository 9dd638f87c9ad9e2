//! The sets at a prefix, and the run.

use crate::nogood::{filtered_by_products, Entry};
use crate::sheet::Constraint;
use crate::{contains, members, question, Problem, Refusal};

/// How a run ends.
#[derive(Clone, Copy, Debug, PartialEq, Eq)]
pub enum Ending {
    Finished,
    Spent,
    Full,
}

/// An ending with the plans listed and the trials.
#[derive(Clone, Copy, Debug, PartialEq, Eq)]
pub struct Outcome {
    pub ending: Ending,
    pub plans: u32,
    pub nodes: u32,
}

/// The nogoods of an exchange at a prefix: for each place of it and each smaller value of that place's
/// initial set, the images of the pairs before imply "not the image of that place with that value".
pub fn nogoods(problem: &Problem, table: &[usize], prefix: &[usize]) -> Vec<Entry> {
    let mut entries = Vec::new();
    for (variable, &given) in prefix.iter().enumerate() {
        for value in members(problem.initial[variable]) {
            let image = problem.image(table, (variable, value));
            if value < given {
                entries.push(Entry::NotEqual(image.0, image.1));
            }
        }
        let image = problem.image(table, (variable, given));
        entries.push(Entry::Equal(image.0, image.1));
    }
    entries
}

/// The sets at a prefix, by rounds of pruning until nothing moves. `None` if the prefix is dead.
pub fn sets_at(problem: &Problem, prefix: &[usize]) -> Option<Vec<u16>> {
    let mut sets = problem.initial.clone();
    for (variable, &value) in prefix.iter().enumerate() {
        sets[variable] &= 1 << value;
    }
    let lists: Vec<Vec<Entry>> =
        problem.symmetries.iter().map(|table| nogoods(problem, table, prefix)).collect();
    loop {
        let before = sets.clone();
        for constraint in &problem.constraints {
            prune(constraint, &mut sets);
        }
        for list in &lists {
            sets = filtered_by_products(&sets, list);
        }
        if sets.contains(&0) {
            return None;
        }
        if sets == before {
            return Some(sets);
        }
    }
}

/// Leaves each place of a rule the values that have a row of the rule inside the sets.
fn prune(constraint: &Constraint, sets: &mut [u16]) {
    let scope = &constraint.scope;
    let mut left = vec![0; scope.len()];
    for row in &constraint.rows {
        if row.iter().zip(scope).all(|(&value, &variable)| contains(sets[variable], value)) {
            for (set, value) in left.iter_mut().zip(row) {
                *set |= 1 << value;
            }
        }
    }
    for (&variable, set) in scope.iter().zip(left) {
        sets[variable] = set;
    }
}

/// A run: the questions, then the search.
pub fn run(sheet: &[u8], node_limit: u32, list: &mut [u8]) -> Result<Outcome, Refusal> {
    Ok(search(&question(sheet)?, node_limit, list))
}

/// The search with a node limit and a list for the plans.
pub fn search(problem: &Problem, node_limit: u32, list: &mut [u8]) -> Outcome {
    let mut search = Search { problem, node_limit, list, plans: 0, nodes: 0 };
    let ending = match sets_at(problem, &[]) {
        Some(sets) => search.settle(&mut Vec::new(), &sets),
        None => Ending::Finished,
    };
    Outcome { ending, plans: search.plans, nodes: search.nodes }
}

struct Search<'a> {
    problem: &'a Problem,
    node_limit: u32,
    list: &'a mut [u8],
    plans: u32,
    nodes: u32,
}

impl Search<'_> {
    /// Tries the values that the parent's sets leave the next place, ascending.
    fn settle(&mut self, prefix: &mut Vec<usize>, sets: &[u16]) -> Ending {
        for value in members(sets[prefix.len()]) {
            if self.nodes == self.node_limit {
                return Ending::Spent;
            }
            prefix.push(value);
            let ending = self.try_prefix(prefix);
            prefix.pop();
            if ending != Ending::Finished {
                return ending;
            }
        }
        Ending::Finished
    }

    /// One trial, and all that lies below it.
    fn try_prefix(&mut self, prefix: &mut Vec<usize>) -> Ending {
        self.nodes += 1;
        match sets_at(self.problem, prefix) {
            None => Ending::Finished,
            Some(_) if prefix.len() == self.problem.variables => self.write(prefix),
            Some(sets) => self.settle(prefix, &sets),
        }
    }

    /// Lists a plan if there is room.
    fn write(&mut self, plan: &[usize]) -> Ending {
        let start = self.plans as usize * plan.len();
        if start + plan.len() > self.list.len() {
            return Ending::Full;
        }
        for (i, &value) in plan.iter().enumerate() {
            self.list[start + i] = value as u8;
        }
        self.plans += 1;
        Ending::Finished
    }
}
