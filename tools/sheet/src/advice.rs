//! What helps a run that used up its allowance: the windows where the trials went, and `before` lines that settle them
//! first, tried out.

use crate::counts::share;
use crate::listing::Limits;
use crate::make::Made;
use crate::pairs::{order, wrong};
use crate::words::{counted, listed, written};
use planner::Ending;

/// The most trials of one attempt.
const ATTEMPT: u32 = 100_000;

/// Fewer trials say too little of where they go.
const LEAST: u64 = 1_000;

/// So many percent of the trials say where they went.
const MOST: u64 = 80;

/// An order that was tried: the pairs that it adds, and the trials after which it ends.
struct Tried {
    pairs: Vec<[u8; 2]>,
    trials: u32,
}

/// What helps, as a line of its own, for a run that made so many trials at each window.
pub fn advice(made: &Made, counts: &[u64; 12], limits: Limits) -> String {
    let windows = &made.problem.variables;
    let total: u64 = counts.iter().sum();
    if total < LEAST {
        return String::new();
    }
    let mut ranked: Vec<usize> = (0..windows.len()).collect();
    ranked.sort_by_key(|&window| std::cmp::Reverse(counts[window]));
    let sum = |some: &[usize]| some.iter().map(|&window| counts[window]).sum::<u64>();
    let busy = (1..=ranked.len()).find(|&count| sum(&ranked[..count]) >= total / 100 * MOST);
    let mut busy = ranked[..busy.unwrap_or(ranked.len())].to_vec();
    busy.sort();
    let went = format!("{} of the trials went to {}", share(sum(&busy), total), names(made, &busy));
    let tried = (1..ranked.len()).filter_map(|count| attempt(made, &ranked[..count], limits));
    match tried.min_by_key(|tried| tried.trials) {
        Some(tried) => {
            format!("\n({went}; the run ends after {} with {})", trials(tried.trials), lines(made, &tried))
        }
        None => format!(
            "\n({went}; settling some windows before others doesn't end it either, tried with {})",
            trials(limits.trials.min(ATTEMPT))
        ),
    }
}

/// The same for a run of which only the ending is known.
pub fn advice_of(made: &Made, limits: Limits) -> String {
    let mut room = vec![0; made.problem.variables.len() * limits.plans as usize];
    let trials = limits.trials.min(ATTEMPT);
    match planner::run_lent(&made.sheet, &made.pairs, &made.block, trials, &mut room) {
        Ok(lent) if lent.answer.ending == Ending::Spent => advice(made, &lent.counts.map(u64::from), limits),
        _ => String::new(),
    }
}

fn trials(count: u32) -> String {
    counted(count, "trial")
}

fn names(made: &Made, windows: &[usize]) -> String {
    let names = windows.iter().map(|&window| format!("`{}`", made.problem.variables[window]));
    listed(&names.collect::<Vec<_>>())
}

/// The `before` lines of an order.
fn lines(made: &Made, tried: &Tried) -> String {
    let name = |window: u8| written(&made.problem.variables[usize::from(window)]);
    let line = |pair: &[u8; 2]| format!("`before {} {}`", name(pair[0]), name(pair[1]));
    listed(&tried.pairs.iter().map(line).collect::<Vec<_>>())
}

/// A run that settles some windows before all others, if it ends. It is enough that those that stand before the last
/// of them wait for it.
fn attempt(made: &Made, first: &[usize], limits: Limits) -> Option<Tried> {
    let windows = &made.problem.variables;
    let last = *first.iter().max()?;
    let waiting = (0..last).filter(|window| !first.contains(window));
    let new: Vec<[u8; 2]> = waiting.map(|window| [last as u8, window as u8]).collect();
    let pairs = [&made.pairs[..], &new.concat()].concat();
    let same = || order(windows.len(), &pairs) == order(windows.len(), &made.pairs);
    if wrong(&pairs, windows, |_| String::new()).is_some() || same() {
        return None;
    }
    let mut room = vec![0; windows.len() * limits.plans as usize];
    let trials = limits.trials.min(ATTEMPT);
    let lent = planner::run_lent(&made.sheet, &pairs, &made.block, trials, &mut room).ok()?;
    let ended = lent.answer.ending == Ending::Finished || limits.first && lent.answer.plans > 0;
    ended.then_some(Tried { pairs: new, trials: lent.answer.nodes })
}
