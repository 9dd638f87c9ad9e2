//! All solutions of a hall, in reading order, with a list that doesn't grow with their number.

use crate::pairs::order;
use crate::problem::Problem;
use crate::walker::{Tree, Walker};
use crate::watch::{Progress, Watch};
use planner::{at_least, Ending, Enough, Refusal, END, START};

/// The most trials of a short run.
const SHORT: u32 = 1_000;

/// A hall without exchanges, the order in which it is read, and the trials left to it.
pub struct Parts<'a> {
    problem: Problem,
    pairs: Vec<u8>,
    pub order: Vec<usize>,
    allowance: u32,
    pub trials: u32,
    watch: &'a Watch,
}

/// How the reading of a part ended.
#[derive(Clone, Copy, Debug, PartialEq, Eq)]
pub enum Read {
    /// All was read, or enough of it.
    Done,
    /// The trials are used up, or the run was stopped.
    Spent,
}

impl<'a> Parts<'a> {
    pub fn new(problem: &Problem, pairs: &[u8], trials: u32, watch: &'a Watch) -> Parts<'a> {
        let problem = Problem { symmetries: Vec::new(), ..problem.clone() };
        let order = order(problem.variables.len(), pairs);
        Parts { problem, pairs: pairs.to_vec(), order, allowance: trials, trials, watch }
    }

    /// Shows every solution from some sets in reading order, as long as `take` goes on, with at most so many trials and room
    /// for so many plans in each call's list.
    pub fn each(
        &mut self,
        sets: Vec<u16>,
        [trials, room]: [u32; 2],
        mut take: impl FnMut(&[u8]) -> bool,
    ) -> Result<Read, Refusal> {
        let kept = self.trials.saturating_sub(trials);
        let (windows, pairs) = (self.order.len(), self.pairs.clone());
        let sheet = Problem { initial: sets, ..self.problem.clone() }.encode();
        let tree = Tree { sheet: &sheet, pairs: &pairs, block: &[], windows };
        let mut walker = Walker::new(tree, START, END);
        while self.watch.stops().is_none() {
            let most = self.trials - kept;
            let step = walker.step(most.into(), room.into())?;
            let answer = step.head.answer();
            let plans = step.rows.chunks(windows);
            let last = plans.clone().last().map(<[u8]>::to_vec);
            self.took(answer.nodes, most);
            if !plans.into_iter().all(&mut take) {
                return Ok(Read::Done);
            }
            match (answer.ending, last) {
                (Ending::Finished, _) => return Ok(Read::Done),
                (Ending::Full, Some(plan)) => {
                    walker.at = self.order.iter().map(|&window| plan[window]).collect()
                }
                _ if self.trials == kept => return Ok(Read::Spent),
                _ => {}
            }
        }
        Ok(Read::Spent)
    }

    /// May there be a solution from some sets? There may be one, unless a short run finds that there is none.
    pub fn may_have_plan(&mut self, sets: &[u16]) -> Result<bool, Refusal> {
        if self.watch.stops().is_some() {
            return Ok(true);
        }
        let sheet = Problem { initial: sets.to_vec(), ..self.problem.clone() }.encode();
        let most = self.trials.min(SHORT);
        let answer = at_least(&sheet, &self.pairs, &[], 1, most)?;
        let (Enough::Yes { nodes, .. } | Enough::No { nodes, .. } | Enough::Spent { nodes, .. }) = answer;
        self.took(nodes, most);
        Ok(!matches!(answer, Enough::No { .. }))
    }

    /// Takes off the trials of a call, and one for a call that makes none, if it might have made one.
    fn took(&mut self, trials: u32, most: u32) {
        self.trials -= trials.max(1).min(most);
        let made = u64::from(self.allowance - self.trials);
        self.watch.hear(Progress { trials: made, plans: None, allowance: Some(self.allowance.into()) });
    }
}
