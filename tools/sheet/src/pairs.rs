//! Pairs, "this window before that window" (paper 02, #108): the `before` lines of a text, or a file with two bytes
//! for each; the order in which they settle the windows; and what is wrong with them.

use crate::problem::Problem;
use crate::text::{refused_line, Parsed, Statement, Text};
use crate::words::{counted, listed};
use planner::Refusal;

/// The most pairs.
pub const MOST_PAIRS: usize = 64;

/// Why pairs are refused: the refusal, the pair at fault, and the words.
#[derive(Clone, Debug, PartialEq, Eq)]
pub struct Wrong {
    pub refusal: Refusal,
    pub pair: usize,
    pub words: String,
}

/// The pairs of a text, two bytes for each `before` line.
pub fn stated(text: &Text) -> Vec<u8> {
    lines(text).flat_map(|(pair, _)| pair).collect()
}

/// Each pair of a text with its line.
fn lines(text: &Text) -> impl Iterator<Item = ([u8; 2], usize)> + '_ {
    text.statements.iter().filter_map(|stated| match stated.statement {
        Statement::Before(first, second) => Some(([first as u8, second as u8], stated.first)),
        _ => None,
    })
}

/// Says what is wrong with the pairs of a text, if anything is.
pub fn check(text: &Text) -> Parsed<()> {
    let line: Vec<usize> = lines(text).map(|(_, line)| line).collect();
    match wrong(&stated(text), &text.variables, |pair| format!("line {}", line[pair])) {
        Some(wrong) => refused_line(line[wrong.pair], &wrong.words, wrong.refusal),
        None => Ok(()),
    }
}

/// What is wrong with pairs of named windows, if anything is; `stands` says where a pair stands.
pub fn wrong(pairs: &[u8], windows: &[String], stands: impl Fn(usize) -> String) -> Option<Wrong> {
    let wrong = |number: u32, pair: usize, words: String| {
        Some(Wrong { refusal: Refusal { number, item: 0 }, pair, words })
    };
    if pairs.len() % 2 == 1 {
        let bytes = counted(pairs.len() as u64, "byte");
        return wrong(28, pairs.len() / 2, format!("{bytes}, and a pair takes two"));
    }
    if pairs.len() > 2 * MOST_PAIRS {
        let words = format!("{} pairs, and at most {MOST_PAIRS} are allowed", pairs.len() / 2);
        return wrong(28, MOST_PAIRS, words);
    }
    if let Some(at) = pairs.iter().position(|&window| usize::from(window) >= windows.len()) {
        let words = format!("has the number {}, and the last is {}", pairs[at], windows.len() - 1);
        return wrong(29, at / 2, format!("{} {words}", stands(at / 2)));
    }
    let round = circle(pairs)?;
    let name = |pair: usize, side: usize| &windows[usize::from(pairs[2 * pair + side])];
    let step = |&pair: &usize| format!("`{}` before `{}` in {}", name(pair, 0), name(pair, 1), stands(pair));
    let words = match round[..] {
        [pair] => format!("`{}` can't come before itself", name(pair, 0)),
        _ => format!("a circle: {}", listed(&round.iter().map(step).collect::<Vec<_>>())),
    };
    wrong(30, round[0], words)
}

/// The circle that the first pair to close one closes: that pair, then those that lead back to it.
fn circle(pairs: &[u8]) -> Option<Vec<usize>> {
    (0..pairs.len() / 2).find_map(|last| {
        let back = way(&pairs[..2 * last], pairs[2 * last + 1], pairs[2 * last])?;
        Some([&[last], &back[..]].concat())
    })
}

/// The fewest pairs that lead from a window to another.
fn way(pairs: &[u8], from: u8, to: u8) -> Option<Vec<usize>> {
    let mut reached: Vec<(u8, Vec<usize>)> = vec![(from, Vec::new())];
    let mut next = 0;
    while next < reached.len() {
        let (window, way) = reached[next].clone();
        if window == to {
            return Some(way);
        }
        for (number, pair) in pairs.chunks(2).enumerate() {
            if pair[0] == window && reached.iter().all(|(other, _)| *other != pair[1]) {
                reached.push((pair[1], [&way[..], &[number]].concat()));
            }
        }
        next += 1;
    }
    None
}

/// The order of pairs without a circle: always the first window whose forerunners are all settled.
pub fn order(windows: usize, pairs: &[u8]) -> Vec<usize> {
    let mut order: Vec<usize> = Vec::new();
    let waits = |order: &[usize], window: usize| {
        let not_yet = |pair: &[u8]| usize::from(pair[1]) == window && !order.contains(&pair[0].into());
        pairs.chunks(2).any(not_yet)
    };
    while let Some(window) = (0..windows).find(|window| !order.contains(window) && !waits(&order, *window)) {
        order.push(window);
    }
    order
}

/// The names of the windows in the order that pairs give; none without pairs.
pub fn settled(problem: &Problem, pairs: &[u8]) -> Vec<String> {
    match pairs {
        [] => Vec::new(),
        _ => order(problem.variables.len(), pairs).iter().map(|&i| problem.variables[i].clone()).collect(),
    }
}
