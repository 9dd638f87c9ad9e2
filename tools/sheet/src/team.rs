//! A run on several cores: each takes a part of the tree after the other, and who finds none left gets the rest of another's. The steps are
//! taken together in the order of the tree, as long as the run's limits hold.

use crate::runner::{Run, Sum};
use crate::walker::{Step, Tree, Walker};
use planner::{Ending, Head, Refusal, END, STACK_BYTES};
use std::collections::{BTreeMap, VecDeque};
use std::sync::{Condvar, Mutex, MutexGuard};
use std::thread;
use std::time::Duration;

/// So long is waited for the next step before it is asked again whether the run is to stop.
const PATIENCE: Duration = Duration::from_millis(50);

/// A part of the tree, from the path under which it stands.
#[derive(Default)]
struct Part {
    upto: Vec<u8>,
    is_taken: bool,
    /// Is no more to come: is all of it run, or enough for the limits?
    is_left: bool,
    is_finished: bool,
    /// The trials and plans so far, and the steps that weren't taken together yet.
    trials: u64,
    plans: u64,
    steps: VecDeque<(Head, Vec<u8>)>,
}

struct State {
    parts: BTreeMap<Vec<u8>, Part>,
    /// How many cores run a part, and how many wait for one.
    running: usize,
    waiting: usize,
    is_over: bool,
    refusal: Option<Refusal>,
}

/// The cores that make a run.
pub struct Team<'a> {
    tree: Tree<'a>,
    /// The trials and plans that were found before, and how many there may be.
    before: [u64; 2],
    limits: [u64; 2],
    state: Mutex<State>,
    change: Condvar,
}

impl<'a> Team<'a> {
    /// What is left of a run, cut at paths.
    pub fn new(run: &Run<'a>, sum: &Sum, bounds: impl Iterator<Item = Vec<u8>>) -> Team<'a> {
        let later = bounds.filter(|bound| *bound > sum.at && bound < &END.to_vec());
        let mut begins: Vec<Vec<u8>> = [sum.at.clone()].into_iter().chain(later).collect();
        begins.dedup();
        let ends = begins[1..].iter().cloned().chain([END.to_vec()]);
        let part = |(from, upto): (Vec<u8>, Vec<u8>)| (from, Part { upto, ..Part::default() });
        let parts = begins.iter().cloned().zip(ends).map(part).collect();
        let state = State { parts, running: 0, waiting: 0, is_over: false, refusal: None };
        let (before, limits) = ([sum.trials, sum.plans], [run.trials, run.plans]);
        Team { tree: run.tree, before, limits, state: Mutex::new(state), change: Condvar::new() }
    }

    /// Runs the parts, and takes them together until the run ends, is stopped, or comes to a limit.
    pub fn work(&self, jobs: usize, run: &Run, sum: &mut Sum) -> Result<(), Refusal> {
        thread::scope(|scope| {
            let start = || thread::Builder::new().stack_size(2 * STACK_BYTES);
            let started = (0..jobs).map(|_| start().spawn_scoped(scope, || self.serve()).is_ok());
            if started.filter(|started| *started).count() > 0 {
                self.collect(run, sum);
            }
            self.state().is_over = true;
            self.change.notify_all();
        });
        self.state().refusal.map_or(Ok(()), Err)
    }

    fn state(&self) -> MutexGuard<'_, State> {
        self.state.lock().expect("no core fails")
    }

    /// One core: a part after the other.
    fn serve(&self) {
        while let Some((from, upto)) = self.next() {
            let refusal = self.run_part(&from, &upto).err();
            let mut state = self.state();
            state.running -= 1;
            state.refusal = state.refusal.or(refusal);
            state.is_over |= refusal.is_some();
            if let Some(part) = state.parts.get_mut(&from) {
                part.is_left = true;
            }
            self.change.notify_all();
        }
    }

    /// The first part that nobody has, once there is one.
    fn next(&self) -> Option<(Vec<u8>, Vec<u8>)> {
        let mut state = self.state();
        loop {
            if state.is_over {
                return None;
            }
            if let Some((from, part)) = state.parts.iter_mut().find(|(_, part)| !part.is_taken) {
                part.is_taken = true;
                let range = (from.clone(), part.upto.clone());
                state.running += 1;
                return Some(range);
            }
            if state.running == 0 {
                return None;
            }
            state.waiting += 1;
            state = self.change.wait(state).expect("no core fails");
            state.waiting -= 1;
        }
    }

    /// Runs a part step by step. Where others wait for one, it keeps the nearest piece and gives the rest away.
    fn run_part(&self, from: &Vec<u8>, upto: &[u8]) -> Result<(), Refusal> {
        let mut walker = Walker::new(self.tree, from, upto);
        while !self.is_enough(from) {
            let step = walker.step(u64::MAX, u64::MAX)?;
            let (head, rows) = (step.head, step.rows.to_vec());
            let mut state = self.state();
            let part = state.parts.get_mut(from).expect("a part that is run");
            part.trials += u64::from(head.answer().nodes);
            part.plans += u64::from(head.answer().plans);
            part.is_finished = head.answer().ending == Ending::Finished;
            part.steps.push_back((head, rows));
            if part.is_finished {
                break;
            }
            state.share(from, &mut walker, self.tree.windows);
            self.change.notify_all();
        }
        Ok(())
    }

    /// Is the run over, or does a limit fall into what was run up to here?
    fn is_enough(&self, from: &Vec<u8>) -> bool {
        let state = self.state();
        let [mut trials, mut plans] = self.before;
        for (_, part) in state.parts.range::<Vec<u8>, _>(..=from) {
            trials += part.trials;
            plans += part.plans;
        }
        state.is_over || trials > self.limits[0] || plans > self.limits[1]
    }

    /// Takes the steps together in order, until the last is taken, one doesn't fit, or the run is stopped and none is there.
    fn collect(&self, run: &Run, sum: &mut Sum) {
        let mut from = sum.at.clone();
        let mut state = self.state();
        while !state.is_over {
            let Some(part) = state.parts.get_mut(&from) else {
                sum.ending = Some(Ending::Finished);
                return;
            };
            match part.steps.pop_front() {
                Some((head, _)) if !self.fits(sum, &head) => return,
                Some((head, rows)) => {
                    sum.add(&Step { head, rows: &rows });
                    sum.at = head.last().to_vec();
                }
                None if part.is_finished => {
                    from = part.upto.clone();
                    sum.at = from.clone();
                }
                None if part.is_left || run.watch.stops().is_some() => return,
                None => {
                    let [trials, plans] = self.before;
                    let found = |of: fn(&Part) -> u64| state.parts.values().map(of).sum::<u64>();
                    run.hear(trials + found(|part| part.trials), plans + found(|part| part.plans));
                    state = self.change.wait_timeout(state, PATIENCE).expect("no core fails").0;
                }
            }
        }
    }

    /// Do the trials and plans of a step stay within the run's limits?
    fn fits(&self, sum: &Sum, head: &Head) -> bool {
        let [trials, plans] = [head.answer().nodes, head.answer().plans].map(u64::from);
        sum.trials + trials <= self.limits[0] && sum.plans + plans <= self.limits[1]
    }
}

impl State {
    /// Gives the rest of a part away if somebody waits and nothing else is left.
    fn share(&mut self, from: &Vec<u8>, walker: &mut Walker, windows: usize) {
        if self.waiting == 0 || self.parts.values().any(|part| !part.is_taken) {
            return;
        }
        let Some(bound) = bound(&walker.at, &walker.upto, windows) else { return };
        let upto = std::mem::replace(&mut walker.upto, bound.clone());
        self.parts.get_mut(from).expect("a part that is run").upto = bound.clone();
        self.parts.insert(bound, Part { upto, ..Part::default() });
    }
}

/// A path between two others: the end of the largest piece of the tree around the first that ends before the second.
fn bound(at: &[u8], upto: &[u8], windows: usize) -> Option<Vec<u8>> {
    let ends = (1..windows.min(at.len() + 1)).map(|depth| [&at[..depth], END].concat());
    ends.into_iter().find(|end| &end[..] < upto)
}

#[cfg(test)]
mod tests {
    use super::*;

    #[test]
    fn what_is_given_away() {
        let at = [3, 1, 2];
        assert_eq!(bound(&at, END, 3), Some(vec![3, 255]));
        assert_eq!(bound(&at, &[4, 0], 3), Some(vec![3, 255]));
        assert_eq!(bound(&at, &[3, 255], 3), Some(vec![3, 1, 255]));
        assert_eq!(bound(&at, &[3, 2], 3), Some(vec![3, 1, 255]));
        assert_eq!(bound(&at, &[3, 1, 255], 3), None);
        assert_eq!(bound(&[3, 1], &[3, 1, 255], 3), None);
        assert_eq!(bound(&[3, 1], &[3, 2], 3), Some(vec![3, 1, 255]));
        assert_eq!(bound(&[], END, 3), None);
    }
}
