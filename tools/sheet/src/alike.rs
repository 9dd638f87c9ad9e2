//! Alike windows (paper 02, #111): the `alike` line of a text, or a file with two bytes, the first of 2 to 5 neighbouring
//! windows and how many; and what is wrong with such a block.

use crate::compose::Ruled;
use crate::explain::broken;
use crate::problem::Problem;
use crate::text::{Statement, Text};
use crate::words::counted;
use planner::Refusal;

/// The most windows of a block.
pub const MOST: usize = 5;

/// Why two windows aren't alike that the rules as written bear to be traded.
const PUT_TOGETHER: &str = "the rules, put together to fit into 32, tell them apart";

/// The block of a text, its first window and how many, and its line.
pub fn line(text: &Text) -> Option<([u8; 2], usize)> {
    text.statements.iter().find_map(|stated| match stated.statement {
        Statement::Alike(first, count) => Some(([first as u8, count as u8], stated.first)),
        _ => None,
    })
}

/// The block that a text is lent: two bytes, or none.
pub fn stated(text: &Text) -> Vec<u8> {
    line(text).map_or(Vec::new(), |(block, _)| block.to_vec())
}

/// The trades of the neighbours in a text's block, as tables.
pub fn trades(text: &Text, problem: &Problem) -> Vec<Vec<usize>> {
    let (first, count) =
        line(text).map_or((0, 1), |([first, count], _)| (usize::from(first), usize::from(count)));
    (first + 1..first + count).map(|second| trade(problem, [second - 1, second])).collect()
}

/// The table that trades two windows.
fn trade(problem: &Problem, [one, other]: [usize; 2]) -> Vec<usize> {
    let d = problem.values.len();
    let to = |window: usize| match window {
        _ if window == one => other,
        _ if window == other => one,
        _ => window,
    };
    let image =
        |number: usize| if problem.is_pair(number) { to(number / d) * d + number % d } else { number };
    (0..problem.variables.len() * d).map(image).collect()
}

/// Why a block is refused: what it is not, or which two of its windows aren't alike; `rules` are those that the sheet
/// states, and `stands` says where one stands. The sheet's own exchanges come before the block's orderings.
pub fn wrong(
    block: &[u8],
    problem: &Problem,
    rules: &[Ruled],
    stands: impl Fn(usize) -> String,
    refusal: Refusal,
) -> String {
    if refusal.number == 36 {
        return no_block(block, problem.variables.len());
    }
    let row = (refusal.item as usize).saturating_sub(problem.symmetries.len());
    let Some(two) = traded(block, row) else {
        return "the windows aren't alike".to_string();
    };
    let [one, other] = two.map(|window| &problem.variables[window]);
    let reason = unlike_sets(problem, two).or_else(|| unlike_rules(problem, rules, two, stands));
    let reason = reason.unwrap_or(PUT_TOGETHER.to_string());
    format!("`{one}` and `{other}` aren't alike: {reason}")
}

/// Why bytes are no block of so many windows.
fn no_block(block: &[u8], windows: usize) -> String {
    match block {
        [_, count] if !(2..=MOST as u8).contains(count) => {
            format!("a block of {}, and 2 to {MOST} are allowed", counted(u64::from(*count), "window"))
        }
        [first, count] => {
            let last = usize::from(*first) + usize::from(*count) - 1;
            format!("a block of the windows {first} to {last}, and the last is {}", windows - 1)
        }
        _ => format!("{}, and a block takes two", counted(block.len() as u64, "byte")),
    }
}

/// The two windows that an ordering of the block trades, if these are all that it moves. The orderings ascend, and the
/// first that is refused is the trade of two neighbours.
fn traded(block: &[u8], row: usize) -> Option<[usize; 2]> {
    let (first, count) = (usize::from(block[0]), usize::from(block[1]));
    let moved = ordering(count, row).into_iter().enumerate().filter(|(i, to)| i != to);
    let windows: Vec<usize> = moved.map(|(i, _)| first + i).collect();
    windows.try_into().ok()
}

/// The ordering of so many in that row of all their orderings, ascending.
fn ordering(count: usize, row: usize) -> Vec<usize> {
    let (mut left, mut row): (Vec<usize>, usize) = ((0..count).collect(), row);
    let mut ordering = Vec::new();
    while !left.is_empty() {
        let others: usize = (1..left.len()).product();
        ordering.push(left.remove(row / others % left.len()));
        row %= others;
    }
    ordering
}

/// A duty that one of the windows may have, and the other not.
fn unlike_sets(problem: &Problem, [one, other]: [usize; 2]) -> Option<String> {
    let value =
        (0..problem.values.len()).find(|&value| problem.may(one, value) != problem.may(other, value))?;
    let [has, lacks] = if problem.may(one, value) { [one, other] } else { [other, one] };
    let [has, lacks] = [has, lacks].map(|window| &problem.variables[window]);
    Some(format!("`{has}` may have `{}`, and `{lacks}` may not", problem.values[value]))
}

/// What a rule forbids, and no rule once the windows are traded.
fn unlike_rules(
    problem: &Problem,
    rules: &[Ruled],
    two: [usize; 2],
    stands: impl Fn(usize) -> String,
) -> Option<String> {
    let constraints: Vec<_> = rules.iter().map(|(rule, _)| rule.clone()).collect();
    let problem = Problem { constraints, ..problem.clone() };
    let (rule, set, image) = broken(&problem, &trade(&problem, two))?;
    let names = |set: &[usize]| {
        set.iter().map(|&number| problem.pair_name(number)).collect::<Vec<String>>().join(" ")
    };
    Some(format!("{} forbids {}, and no rule forbids {}", stands(rule), names(&set), names(&image)))
}
