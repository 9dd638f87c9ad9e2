//! A hall at the desk: its run round by round, and what it came to.

use crate::answers::failure;
use crate::command::{Status, Stop};
use crate::input::Input;
use crate::json::{object, Json};
use crate::listing::{Families, Limits, Listing};
use crate::make::Made;
use crate::plans::{ended, in_order, json};
use crate::runner::Sum;
use crate::table::table;
use crate::walker::{Tree, Walker};
use crate::watch::Cause;
use crate::{answers, desk};
use planner::{Ending, Refusal, END, STACK_BYTES, START};
use std::sync::mpsc::{channel, Receiver, TryRecvError};
use std::thread;

/// With so many trials families are counted within a round; a longer count goes on beside the rounds.
const COUNT: u32 = 1 << 16;

pub struct Seat {
    pub name: String,
    hall: Result<Input, Stop>,
    pub sum: Sum,
    listing: Option<Listing>,
    /// Where the number of families comes from, while it is counted.
    count: Option<Receiver<Option<u32>>>,
    pub is_shown: bool,
}

impl Seat {
    pub fn new(name: &str, hall: Result<Input, Stop>) -> Seat {
        let (listing, count) = (None, None);
        Seat { name: name.to_string(), hall, sum: Sum::new(START, true), listing, count, is_shown: false }
    }

    /// Is it to go on?
    pub fn runs(&self) -> bool {
        self.hall.is_ok() && self.listing.is_none()
    }

    /// Is there nothing more to be known?
    pub fn has_ended(&self) -> bool {
        !self.runs() && self.count.is_none()
    }

    /// Is it a hall whose plans aren't shown yet?
    pub fn is_at_work(&self) -> bool {
        self.hall.is_ok() && !self.is_shown
    }

    /// Goes on with at most so many trials.
    pub fn go_on(&mut self, trials: u64, limits: Limits) {
        if let Err(stop) = self.step(trials, limits) {
            self.hall = Err(stop);
        }
    }

    fn step(&mut self, trials: u64, limits: Limits) -> Result<(), Stop> {
        let Ok(input) = &self.hall else { return Ok(()) };
        let most = [limits.trials, limits.plans].map(u64::from);
        let mut walker = Walker::new(Tree::of(&input.made), &self.sum.at, END);
        let trials = trials.min(most[0] - self.sum.trials);
        input.accepted(self.sum.step(&mut walker, trials, most))?;
        match self.sum.ending {
            None => Ok(()),
            Some(_) => self.came_to(limits, None),
        }
    }

    /// The run has ended, or is stopped for a cause.
    fn came_to(&mut self, limits: Limits, stop: Option<Cause>) -> Result<(), Stop> {
        let Ok(input) = &self.hall else { return Ok(()) };
        let made = &input.made;
        let ran = self.sum.ran(made.problem.variables.len(), START, stop);
        let families = match Listing::counts_families(made, &ran, limits) {
            true => {
                let count = input.accepted(counted(made, limits.trials.min(COUNT)))?;
                if count.is_none() && limits.trials > COUNT {
                    self.count = Some(counting(made, limits.trials));
                }
                let closed = input.accepted(planner::closed(&made.sheet, &made.pairs, &made.block))?;
                Some(Families { count, stop: None, closed })
            }
            false => None,
        };
        self.listing = Some(input.chosen(Listing::with(ran, limits, families)));
        Ok(())
    }

    /// Takes the number of families, once it is there.
    pub fn take_count(&mut self) {
        let count = match self.count.as_ref().map(Receiver::try_recv) {
            None | Some(Err(TryRecvError::Empty)) => return,
            Some(Ok(count)) => count,
            Some(Err(TryRecvError::Disconnected)) => None,
        };
        self.count = None;
        self.families(|families| families.count = count);
    }

    /// Stops for a cause.
    pub fn stop(&mut self, cause: Cause, limits: Limits) {
        if self.runs() {
            if let Err(stop) = self.came_to(limits, Some(cause)) {
                self.hall = Err(stop);
            }
        }
        if self.count.take().is_some() {
            self.families(|families| families.stop = Some(cause));
        }
    }

    fn families(&mut self, change: impl FnOnce(&mut Families)) {
        if let Some(families) = self.listing.as_mut().and_then(|listing| listing.families.as_mut()) {
            change(families);
        }
    }

    pub fn status(&self) -> Status {
        match (&self.hall, &self.listing) {
            (Err(stop), _) => stop.status,
            (_, Some(listing)) => listing.status(),
            _ => Status::Short,
        }
    }

    /// What it came to: the plans and the ending as `sheet plans` has them, or the faults.
    pub fn said(&self, explain: bool) -> String {
        match (&self.hall, &self.listing) {
            (Err(stop), _) => stop.said() + "\n",
            (Ok(input), Some(listing)) => {
                let hint = match listing.ending {
                    Ending::Full => " (a seat has room for so many)",
                    _ => listing.hint(),
                };
                table(&input.made.problem, listing) + &ended(input, listing, hint, explain) + &in_order(input)
            }
            _ => String::new(),
        }
    }

    /// The same for machines: as `sheet plans` has it, or a failure.
    pub fn json(&self) -> Json {
        match (&self.hall, &self.listing) {
            (Ok(input), Some(listing)) => {
                let mut fields = json(desk::COMMAND.name, input, listing);
                let plans = listing.plans.iter().map(|plan| answers::plan(&input.made.problem, plan));
                fields.push(("plans", Json::List(plans.collect())));
                object(fields)
            }
            (Err(stop), _) => {
                let (mut fields, faults) = failure(desk::COMMAND.name, Some(&self.name), stop, stop.status);
                fields.push(("faults", Json::List(faults)));
                object(fields)
            }
            _ => Json::Null,
        }
    }
}

fn counted(made: &Made, trials: u32) -> Result<Option<u32>, Refusal> {
    planner::families(&made.sheet, &made.pairs, &made.block, trials)
}

/// Counts families on a thread of its own; where none is to be had, nothing is counted.
fn counting(made: &Made, trials: u32) -> Receiver<Option<u32>> {
    let [sheet, pairs, block] = [&made.sheet, &made.pairs, &made.block].map(Vec::clone);
    let (send, receive) = channel();
    let count = move || {
        let count = planner::families(&sheet, &pairs, &block, trials).ok().flatten();
        // nobody takes it where the desk has stopped
        let _ = send.send(count);
    };
    let _ = thread::Builder::new().stack_size(2 * STACK_BYTES).spawn(count);
    receive
}
