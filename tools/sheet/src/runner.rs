//! A run, alone or on several cores: the parts of its tree one after the other, taken together until its limits are reached. Whatever the
//! steps and the cut, it comes to what one call of the planner comes to.

use crate::command::{refuse, Arguments, Choice, Stop};
use crate::cut::cut;
use crate::listing::{Limits, Plans, Ran};
use crate::make::Made;
use crate::path::path;
use crate::team::Team;
use crate::walker::{Step, Tree, Walker};
use crate::watch::{Cause, Progress, Watch};
use planner::{Ending, Refusal, END, START};

/// The first allowance of a run for the first plan; the next is always twice the one before.
const FIRST: u64 = 1 << 10;

/// So many trials are made before other cores are asked, and so many parts are made for each core.
const ALONE: u64 = 1 << 19;
const PARTS: usize = 32;

pub const FROM_OPTION: Choice = Choice {
    name: "--from",
    value: Some("PATH"),
    about: "lists only what comes after a path, such as a stopped run names",
};

pub const JOBS_OPTION: Choice =
    Choice { name: "--jobs", value: Some("N"), about: "runs on N cores (1); with 0 on all" };

/// The most cores.
const MOST_JOBS: u32 = 1_024;

/// How a run is made.
#[derive(Clone, Debug, PartialEq, Eq)]
pub struct Manner {
    /// The path after which it begins.
    pub from: Vec<u8>,
    /// On how many cores.
    pub jobs: usize,
}

impl Default for Manner {
    /// From the first trial on, on one core.
    fn default() -> Manner {
        Manner { from: START.to_vec(), jobs: 1 }
    }
}

impl Manner {
    /// As the options say.
    pub fn of(arguments: &Arguments) -> Result<Manner, Stop> {
        let from = match arguments.all(FROM_OPTION.name).last() {
            None => START.to_vec(),
            Some(word) => match path(word) {
                Some(path) => path,
                None => return refuse(format!("--from takes a path as `3.0.12`, not `{word}`")),
            },
        };
        let jobs = match arguments.number(JOBS_OPTION.name, MOST_JOBS)? {
            Some(0) => std::thread::available_parallelism().map_or(1, usize::from),
            jobs => jobs.unwrap_or(1) as usize,
        };
        Ok(Manner { from, jobs })
    }
}

/// What a run has come to so far.
pub struct Sum {
    pub trials: u64,
    pub plans: u64,
    pub counts: [u64; 12],
    /// The plans, if they are wanted.
    rows: Option<Vec<u8>>,
    /// Every trial up to here is made.
    pub at: Vec<u8>,
    pub ending: Option<Ending>,
}

impl Sum {
    /// Before the first trial after a path; the plans are kept if they are wanted.
    pub fn new(from: &[u8], keeps: bool) -> Sum {
        let rows = keeps.then(Vec::new);
        Sum { trials: 0, plans: 0, counts: [0; 12], rows, at: from.to_vec(), ending: None }
    }

    /// Goes on with a step of at most so many trials, as long as the trials and plans are at most so many in all.
    pub fn step(&mut self, walker: &mut Walker, trials: u64, most: [u64; 2]) -> Result<(), Refusal> {
        let step = walker.step(trials, most[1] - self.plans)?;
        self.add(&step);
        self.ending = match step.head.answer().ending {
            Ending::Spent if self.trials < most[0] => None,
            ending => Some(ending),
        };
        self.at = walker.at.clone();
        Ok(())
    }

    /// What a run of so many windows came to that began after a path and may have been stopped for a cause.
    pub fn ran(&mut self, windows: usize, from: &[u8], stop: Option<Cause>) -> Ran {
        let plans = Plans::new(windows, self.rows.take().unwrap_or_default(), self.plans as usize);
        let ending = self.ending.unwrap_or(Ending::Spent);
        let (from, at) = (from.to_vec(), self.at.clone());
        Ran { ending, plans, trials: self.trials, counts: self.counts, from, at, stop }
    }

    /// Adds the figures and the plans of a step.
    pub fn add(&mut self, step: &Step) {
        let answer = step.head.answer();
        self.trials += u64::from(answer.nodes);
        self.plans += u64::from(answer.plans);
        self.counts.iter_mut().zip(step.head.counts()).for_each(|(sum, count)| *sum += u64::from(count));
        if let Some(rows) = &mut self.rows {
            rows.extend(step.rows);
        }
    }
}

/// A run of a hall: how many trials it may make, and how many plans it has room for.
pub struct Run<'a> {
    made: &'a Made,
    pub tree: Tree<'a>,
    pub trials: u64,
    pub plans: u64,
    pub watch: &'a Watch,
}

/// Lists the plans of a hall.
pub fn list(made: &Made, limits: Limits, manner: &Manner, watch: &Watch) -> Result<Ran, Refusal> {
    let [trials, plans] = [limits.trials, limits.plans].map(u64::from);
    let run = Run { made, tree: Tree::of(made), trials, plans, watch };
    let mut sum = Sum::new(&manner.from, true);
    match limits.first {
        true => run.to_first(&mut sum)?,
        false => run.to_end(&mut sum, manner.jobs)?,
    }
    let stop = watch.stopped().filter(|_| sum.ending.is_none());
    Ok(sum.ran(run.tree.windows, &manner.from, stop))
}

/// Goes on until there is one plan more than so many; full then says that there is.
pub fn count(made: &Made, plans: u64, trials: u64, watch: &Watch) -> Result<Sum, Refusal> {
    let run = Run { made, tree: Tree::of(made), trials, plans, watch };
    let mut sum = Sum::new(START, false);
    run.to_end(&mut sum, 1)?;
    Ok(sum)
}

impl Run<'_> {
    /// Raises the allowance until a plan is there.
    fn to_first(&self, sum: &mut Sum) -> Result<(), Refusal> {
        let mut allowance = FIRST.min(self.trials);
        loop {
            self.alone(sum, allowance)?;
            if sum.ending.is_some() || self.watch.stops().is_some() {
                return Ok(());
            }
            if sum.plans > 0 {
                sum.ending = Some(Ending::Spent);
                return Ok(());
            }
            allowance = (allowance * 2).min(self.trials);
        }
    }

    fn to_end(&self, sum: &mut Sum, jobs: usize) -> Result<(), Refusal> {
        if jobs > 1 {
            self.alone(sum, ALONE.min(self.trials))?;
        }
        if jobs > 1 && sum.ending.is_none() && self.watch.stops().is_none() {
            let bounds = cut(self.made, PARTS * jobs).into_iter().map(|[from, _]| from);
            Team::new(self, sum, bounds).work(jobs, self, sum)?;
        }
        self.alone(sum, self.trials)
    }

    /// Goes on, on this core, until so many trials are made.
    fn alone(&self, sum: &mut Sum, trials: u64) -> Result<(), Refusal> {
        let mut walker = Walker::new(self.tree, &sum.at, END);
        while sum.ending.is_none() && (sum.trials < trials || trials == self.trials) {
            if self.watch.stops().is_some() {
                break;
            }
            sum.step(&mut walker, trials - sum.trials, [self.trials, self.plans])?;
            self.hear(sum.trials, sum.plans);
        }
        Ok(())
    }

    /// Tells whoever watches how many trials and plans there are.
    pub fn hear(&self, trials: u64, plans: u64) {
        self.watch.hear(Progress { trials, plans: Some(plans), allowance: Some(self.trials) });
    }
}
