//! What plans cost, by the duties that each window may have: classes of duties that cost the same, and the least and the
//! most that windows with some sets cost.

use crate::problem::Problem;
use crate::score::Score;

/// The duties of each window by what they cost beyond its cheapest, ascending.
pub struct Classes {
    /// What all windows cost at least, each taken alone.
    pub least: u64,
    pub by_window: Vec<Vec<(u64, u16)>>,
    /// Windows in groups of which no two ever have the same duty.
    apart: Vec<Vec<usize>>,
}

impl Classes {
    pub fn new(problem: &Problem, score: &Score) -> Classes {
        let mut classes = Classes { least: 0, by_window: Vec::new(), apart: apart(problem) };
        for window in 0..problem.variables.len() {
            let cost = |value: usize| score.of(window, value);
            let least = problem.values_of(window).map(cost).min().unwrap_or(0);
            let mut costs: Vec<u64> = problem.values_of(window).map(|value| cost(value) - least).collect();
            costs.sort();
            costs.dedup();
            let set = |extra: u64| {
                let values = problem.values_of(window).filter(|&value| cost(value) - least == extra);
                values.fold(0, |set, value| set | 1 << value)
            };
            classes.by_window.push(costs.into_iter().map(|extra| (extra, set(extra))).collect());
            classes.least += least;
        }
        classes
    }

    /// All duties of each window.
    pub fn sets(&self) -> Vec<u16> {
        let all = |classes: &Vec<(u64, u16)>| classes.iter().fold(0, |set, (_, class)| set | class);
        self.by_window.iter().map(all).collect()
    }

    /// What windows with some sets cost at least beyond their cheapest, where no two of a group have the same duty; `None`
    /// where there are too few duties.
    pub fn least_of(&self, sets: &[u16]) -> Option<u64> {
        self.apart.iter().map(|group| self.least_apart(group, sets)).sum()
    }

    /// The least of one group. Windows with one duty have it; for each part of the others, the least that its windows cost
    /// with the duties so far.
    fn least_apart(&self, group: &[usize], sets: &[u16]) -> Option<u64> {
        let (one, several): (Vec<usize>, Vec<usize>) =
            group.iter().partition(|&&window| sets[window].count_ones() == 1);
        let taken = one.iter().fold(0, |set, &window| set | sets[window]);
        if taken.count_ones() as usize != one.len() {
            return None;
        }
        let mut least = vec![None; 1 << several.len()];
        least[0] = one.iter().map(|&window| self.cost(window, taken & sets[window])).sum();
        for duty in (0..16).map(|duty| 1 << duty).filter(|duty| taken & duty == 0) {
            let cost = |(at, &window)| Some((1usize << at, self.cost(window, sets[window] & duty)?));
            let costs: Vec<(usize, u64)> = several.iter().enumerate().filter_map(cost).collect();
            add_duty(&mut least, &costs);
        }
        least.pop().flatten()
    }

    /// What the cheapest duty of a set costs at a window, if it may have one.
    fn cost(&self, window: usize, set: u16) -> Option<u64> {
        self.by_window[window].iter().find(|(_, class)| class & set != 0).map(|(extra, _)| *extra)
    }

    /// The most that windows with some sets cost beyond their cheapest.
    pub fn most_of(&self, sets: &[u16]) -> u64 {
        let most = |(classes, set): (&Vec<(u64, u16)>, &u16)| {
            classes.iter().rev().find(|(_, class)| class & set != 0).map_or(0, |(extra, _)| *extra)
        };
        self.by_window.iter().zip(sets).map(most).sum()
    }
}

/// Takes a duty for one window more of each part, where that is cheaper: each window as a bit, with what the duty costs
/// there. Larger parts come first, so that it is taken once.
fn add_duty(least: &mut [Option<u64>], costs: &[(usize, u64)]) {
    for part in (1..least.len()).rev() {
        let windows = costs.iter().filter(|(window, _)| part & window != 0);
        let taken = windows.filter_map(|(window, cost)| Some(least[part ^ window]? + cost)).min();
        least[part] = least[part].into_iter().chain(taken).min();
    }
}

/// The windows in groups: each stands in the first of which it never has the same duty as another.
fn apart(problem: &Problem) -> Vec<Vec<usize>> {
    let mut groups: Vec<Vec<usize>> = Vec::new();
    for window in 0..problem.variables.len() {
        let fits = |group: &&mut Vec<usize>| group.iter().all(|&other| never_same(problem, other, window));
        match groups.iter_mut().find(fits) {
            Some(group) => group.push(window),
            None => groups.push(vec![window]),
        }
    }
    groups
}

/// Do rules keep two windows from having the same duty, whichever it is?
fn never_same(problem: &Problem, one: usize, other: usize) -> bool {
    let kept_apart = |value: usize| {
        problem.constraints.iter().any(|rule| {
            let at = |window: usize| rule.scope.iter().position(|&of| of == window);
            at(one).zip(at(other)).is_some_and(|(one, other)| {
                rule.rows.iter().all(|row| row[one] != value || row[other] != value)
            })
        })
    };
    problem.values_of(one).filter(|&value| problem.may(other, value)).all(kept_apart)
}
