//! How many of some windows have a duty, said by rules on at most three windows.
//!
//! Only windows that may have the duty and another one count; m of them are left. Of such windows a rule on three can say
//! that not all of one, two or three have the duty, and that not all of them lack it. So `at most N` can be said of any
//! number of windows where N is at most 2, and `at least N` where at most two of them may lack the duty; what takes a rule
//! for every three of them, of at most six.

use crate::compose::MOST_RULES;
use crate::problem::{draws, Constraint, Problem};
use crate::words::listed;

/// The most windows of a rule.
const MOST_WINDOWS: usize = 3;

/// Of more windows there are more threes than rules.
const MOST_BY_THREES: usize = 6;

/// A count, with the windows that may have the duty and another one.
pub struct Amount {
    value: usize,
    /// Those that may have the duty, and those of them that may have another.
    may: Vec<usize>,
    open: Vec<usize>,
    /// How many of the open windows are to have the duty; `None` where it can't be.
    wanted: Option<(usize, usize)>,
}

impl Amount {
    pub fn new(problem: &Problem, least: usize, most: usize, value: usize, scope: &[usize]) -> Amount {
        let may: Vec<usize> = scope.iter().copied().filter(|&window| problem.may(window, value)).collect();
        let open: Vec<usize> =
            may.iter().copied().filter(|&window| problem.values_of(window).count() > 1).collect();
        let sure = may.len() - open.len();
        let (least, most) = (least.saturating_sub(sure), most.checked_sub(sure));
        let wanted = most.map(|most| (least, most.min(open.len()))).filter(|(least, most)| least <= most);
        Amount { value, may, open, wanted }
    }

    /// How many windows a rule names that forbids too many with the duty, and one that forbids too many without it.
    fn sizes(&self) -> [Option<usize>; 2] {
        let (least, most) = self.wanted.unwrap_or((0, self.open.len()));
        [(most < self.open.len()).then_some(most + 1), (least > 0).then_some(self.open.len() - least + 1)]
    }

    /// The rules, for windows of which it can be said.
    pub fn rules(&self, problem: &Problem) -> Vec<Constraint> {
        let Some((least, most)) = self.wanted else {
            return self.never(problem);
        };
        let sizes = self.sizes();
        if self.open.len() <= MOST_WINDOWS {
            let fits = |row: &Vec<usize>| (least..=most).contains(&self.count(row));
            let some = sizes.iter().any(Option::is_some).then(|| self.open.clone());
            return some.into_iter().map(|scope| rule(problem, scope, fits)).collect();
        }
        let mut distinct: Vec<usize> = sizes.into_iter().flatten().collect();
        distinct.sort();
        distinct.dedup();
        let rules = distinct.into_iter().flat_map(|size| {
            let fits = move |row: &Vec<usize>| {
                let too_many = sizes[0] == Some(size) && self.count(row) == size;
                let too_few = sizes[1] == Some(size) && self.count(row) == 0;
                !too_many && !too_few
            };
            chosen(&self.open, size).into_iter().map(move |scope| rule(problem, scope, fits))
        });
        rules.collect()
    }

    /// Rules without a row, on all windows that exchanges may carry into one another.
    fn never(&self, problem: &Problem) -> Vec<Constraint> {
        let all: Vec<usize> = (0..problem.variables.len()).collect();
        let windows = if self.may.is_empty() { &all } else { &self.may };
        windows.iter().map(|&window| Constraint { scope: vec![window], rows: Vec::new() }).collect()
    }

    fn count(&self, row: &[usize]) -> usize {
        row.iter().filter(|value| **value == self.value).count()
    }

    /// Why it can't be said, if it can't.
    pub fn unsaid(&self, problem: &Problem) -> Option<String> {
        let windows = self.open.len();
        let sizes = self.sizes();
        let most = if windows > MOST_BY_THREES { MOST_WINDOWS - 1 } else { MOST_WINDOWS };
        let wide = sizes.into_iter().flatten().any(|size| size > most);
        if self.wanted.is_none() || windows <= MOST_WINDOWS || !wide {
            return None;
        }
        let names: Vec<&String> = self.open.iter().map(|&window| &problem.variables[window]).collect();
        let what = match sizes {
            [Some(size), _] if size > most => {
                format!("at most {} of them", if most == MOST_WINDOWS { "0, 1 or 2" } else { "0 or 1" })
            }
            _ => format!("at least {} of them", windows + 1 - most),
        };
        let rules = match most == MOST_WINDOWS {
            true => String::new(),
            false => format!(", there are at most {MOST_RULES} rules"),
        };
        Some(format!(
            "it doesn't fit: a rule has at most three windows{rules}, and {} of these may have `{}`, {}. Of so many it can be \
             said that {what} have it; anything of three windows: fewer by `clerk` or `may` lines, or `fix` it at one",
            windows, problem.values[self.value],
            listed(&names)
        ))
    }
}

/// The rule on some windows that allows the rows of duties that fit.
fn rule(problem: &Problem, scope: Vec<usize>, fits: impl Fn(&Vec<usize>) -> bool) -> Constraint {
    let rows = draws(problem, &scope).into_iter().filter(fits).collect();
    Constraint { scope, rows }
}

/// All choices of so many of the windows, ascending.
fn chosen(windows: &[usize], size: usize) -> Vec<Vec<usize>> {
    if size == 0 {
        return vec![Vec::new()];
    }
    let with_first = |i: usize| {
        let rest = chosen(&windows[i + 1..], size - 1);
        rest.into_iter().map(move |rest| [&[windows[i]], &rest[..]].concat())
    };
    (0..windows.len()).flat_map(with_first).collect()
}
