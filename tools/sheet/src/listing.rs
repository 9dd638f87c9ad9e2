//! What runs came to, and how they ended in words.

use crate::command::{refuse, Arguments, Choice, Status, Stop};
use crate::make::Made;
use crate::path::word;
use crate::runner::{self, Manner};
use crate::watch::{Cause, Watch};
use crate::words::{counted, families};
use planner::{Closed, Ending, Enough, Refusal, STACK_BYTES, START};
use std::sync::mpsc;
use std::thread;
use std::time::Duration;

/// The allowance and the room of the report (paper 01).
const TRIALS: u32 = 1_000_000;
const PLANS: u32 = 4_096;

/// The most plans that room is made for.
const MOST_PLANS: u32 = 10_000_000;

/// So long is waited for the number of families before it is asked again whether to stop.
const PATIENCE: Duration = Duration::from_millis(50);

pub const TRIALS_OPTION: Choice = Choice {
    name: "--trials",
    value: Some("N"),
    about: "the allowance: stop after N trials (1,000,000; at most 4,294,967,295)",
};
pub const PLANS_OPTION: Choice = Choice {
    name: "--plans",
    value: Some("N"),
    about: "the room: list at most N plans (4,096; at most 10,000,000)",
};

/// What a run may use.
#[derive(Clone, Copy, Debug, PartialEq, Eq)]
pub struct Limits {
    pub trials: u32,
    pub plans: u32,
    /// Is the first plan enough?
    pub first: bool,
}

impl Limits {
    /// The limits that the options give.
    pub fn of(arguments: &Arguments) -> Result<Limits, Stop> {
        let trials = arguments.number("--trials", u32::MAX)?.unwrap_or(TRIALS);
        let plans = match arguments.has("--first") {
            true => 1,
            false => arguments.number("--plans", MOST_PLANS)?.unwrap_or(PLANS),
        };
        Ok(Limits { trials, plans, first: plans == 1 })
    }

    /// Limits for the question whether there is a plan.
    pub fn first(self) -> Limits {
        Limits { plans: 1, first: true, ..self }
    }
}

/// The families of the plans listed.
#[derive(Clone, Copy, Debug, PartialEq, Eq)]
pub struct Families {
    /// How many there are, where they were counted.
    pub count: Option<u32>,
    /// Why their count stopped, if it did.
    pub stop: Option<Cause>,
    pub closed: Closed,
}

/// Plans one after the other, a number for each window's duty.
#[derive(Clone, Debug, PartialEq, Eq)]
pub struct Plans {
    windows: usize,
    bytes: Vec<u8>,
}

impl Plans {
    /// The plans at the front of a list of so many windows.
    pub fn new(windows: usize, mut bytes: Vec<u8>, plans: usize) -> Plans {
        bytes.truncate(windows * plans);
        Plans { windows, bytes }
    }

    pub fn len(&self) -> usize {
        self.bytes.len() / self.windows
    }

    pub fn is_empty(&self) -> bool {
        self.bytes.is_empty()
    }

    pub fn iter(&self) -> std::slice::ChunksExact<'_, u8> {
        self.bytes.chunks_exact(self.windows)
    }

    /// All rows, nothing between them.
    pub fn bytes(&self) -> &[u8] {
        &self.bytes
    }

    /// Those plans that fit.
    pub fn filtered(&self, fits: impl Fn(&[u8]) -> bool) -> Plans {
        let bytes = self.iter().filter(|plan| fits(plan)).flatten().copied().collect();
        Plans { windows: self.windows, bytes }
    }
}

/// What a run came to: its ending, its plans, its trials and these by window.
pub struct Ran {
    pub ending: Ending,
    pub plans: Plans,
    pub trials: u64,
    pub counts: [u64; 12],
    /// The path after which it began, and where it stands.
    pub from: Vec<u8>,
    pub at: Vec<u8>,
    /// Why it stopped before its limits, if it did; its ending is then spent.
    pub stop: Option<Cause>,
}

/// The plans that a run listed, and how it ended.
#[derive(Clone, Debug, PartialEq, Eq)]
pub struct Listing {
    pub ending: Ending,
    /// The plans to be shown.
    pub plans: Plans,
    /// How many the run listed.
    pub listed: u64,
    /// Which of them are shown, where not all are.
    pub shown: Option<String>,
    pub trials: u64,
    /// The trials by window.
    pub counts: [u64; 12],
    /// What is known of the families, where a finished run lists plans under exchanges.
    pub families: Option<Families>,
    pub limits: Limits,
    /// What to ask for to go further.
    pub hint: String,
    /// The path after which the run began, and where it stands.
    pub from: Vec<u8>,
    pub at: Vec<u8>,
    /// Why it stopped before its limits, if it did.
    pub stop: Option<Cause>,
}

/// Lists the plans of a hall, in the order of its pairs.
pub fn list(made: &Made, limits: Limits, manner: &Manner, watch: &Watch) -> Result<Listing, Refusal> {
    let listing = Listing::of(made, runner::list(made, limits, manner, watch)?, limits, watch);
    watch.clear();
    listing
}

/// Are there at least so many plans? The allowance alone matters of the limits.
pub fn at_least(made: &Made, plans: u32, limits: Limits, watch: &Watch) -> Result<Enough, Refusal> {
    let Some(room) = plans.checked_sub(1) else { return Ok(Enough::Yes { plans, nodes: 0 }) };
    let sum = runner::count(made, room.into(), limits.trials.into(), watch)?;
    watch.clear();
    let [found, nodes] = [sum.plans, sum.trials].map(|number| number as u32);
    Ok(match sum.ending {
        Some(Ending::Full) => Enough::Yes { plans, nodes },
        Some(Ending::Finished) => Enough::No { plans: found, nodes },
        _ => Enough::Spent { plans: found, nodes },
    })
}

/// The families of a finished run's plans, counted on a thread of their own that is left behind when they are to stop.
fn families_of(made: &Made, limits: Limits, watch: &Watch) -> Result<Families, Refusal> {
    let Made { sheet, pairs, block, .. } = made;
    let closed = planner::closed(sheet, pairs, block)?;
    let [sheet, pairs, block] = [sheet, pairs, block].map(Vec::clone);
    let (send, receive) = mpsc::channel();
    let count = move || send.send(planner::families(&sheet, &pairs, &block, limits.trials));
    let thread = thread::Builder::new().stack_size(2 * STACK_BYTES).spawn(count);
    loop {
        match receive.recv_timeout(PATIENCE) {
            Ok(count) => return Ok(Families { count: count?, stop: None, closed }),
            Err(_) if watch.stops().is_some() || thread.is_err() => {
                return Ok(Families { count: None, stop: watch.stops(), closed })
            }
            Err(_) => {}
        }
    }
}

impl Listing {
    /// What a run came to, with its families.
    pub fn of(made: &Made, ran: Ran, limits: Limits, watch: &Watch) -> Result<Listing, Refusal> {
        let families = match Listing::counts_families(made, &ran, limits) {
            true => Some(families_of(made, limits, watch)?),
            false => None,
        };
        Ok(Listing::with(ran, limits, families))
    }

    /// Are the families of what a run came to counted?
    pub fn counts_families(made: &Made, ran: &Ran, limits: Limits) -> bool {
        let is_whole = ran.ending == Ending::Finished && ran.from == START && !limits.first;
        is_whole && !ran.plans.is_empty() && made.has_exchanges()
    }

    /// What a run came to, and what is known of its families.
    pub fn with(ran: Ran, limits: Limits, families: Option<Families>) -> Listing {
        let Ran { ending, plans, trials, counts, from, at, stop } = ran;
        let listed = plans.len() as u64;
        let hint = match ending {
            _ if limits.first && listed > 0 => String::new(),
            _ if stop.is_some() => format!(" (plans --from {} goes on)", word(&at)),
            Ending::Finished => String::new(),
            Ending::Full => " (--plans N makes room)".to_string(),
            Ending::Spent => " (--trials N allows more)".to_string(),
        };
        let shown = None;
        Listing { ending, plans, listed, shown, trials, counts, families, limits, hint, from, at, stop }
    }

    /// A listing that shows a plan, or that has none to show.
    pub fn some_shown(self) -> Result<Listing, Stop> {
        match self.plans.is_empty() && self.listed > 0 {
            true => refuse(self.ending()),
            false => Ok(self),
        }
    }

    /// Was one plan enough, and is it there?
    fn first_found(&self) -> bool {
        self.limits.first && self.listed > 0
    }

    pub fn status(&self) -> Status {
        match self.ending {
            _ if self.first_found() => Status::Finished,
            Ending::Finished if self.listed == 0 && self.from == START => Status::NoPlan,
            Ending::Finished => Status::Finished,
            _ => Status::Short,
        }
    }

    /// The ending as a word.
    pub fn word(&self) -> &'static str {
        match self.ending {
            _ if self.stop.is_some() => "stopped",
            Ending::Finished => "finished",
            _ if self.first_found() => "first",
            Ending::Spent => "spent",
            Ending::Full => "full",
        }
    }

    /// The ending in words, and which plans are shown.
    pub fn ending(&self) -> String {
        let shown = self.shown.as_ref().map_or(String::new(), |shown| format!("; {shown}"));
        let after = match &self.from[..] {
            START => String::new(),
            from => format!("; only what comes after {}", word(from)),
        };
        self.ended() + &after + &shown
    }

    fn ended(&self) -> String {
        let plans = match self.listed {
            0 => "no plan".to_string(),
            count => counted(count, "plan"),
        };
        let spent = match self.stop {
            Some(cause) => format!("{} and {}", cause.words(), counted(self.trials, "trial")),
            None => format!("stopped at the allowance of {}", counted(self.limits.trials, "trial")),
        };
        match self.ending {
            Ending::Finished => {
                let count = self.families.and_then(|families| families.count);
                let families = count.map_or(String::new(), |count| format!(", {}", families(count)));
                format!("finished: {plans}{families}, {}", counted(self.trials, "trial"))
            }
            Ending::Full if self.first_found() => "stopped at the first plan: there are more".to_string(),
            Ending::Spent if self.first_found() => {
                "stopped at the first plan: more plans may exist".to_string()
            }
            Ending::Full if self.listed == 0 => "stopped at a plan, with room for none".to_string(),
            Ending::Full => format!("stopped at {plans}: there are more"),
            Ending::Spent if self.listed == 0 => format!("{spent}, {plans} so far: plans may exist"),
            Ending::Spent => format!("{spent}, {plans} listed: more plans may exist"),
        }
    }

    /// What to ask for to go further.
    pub fn hint(&self) -> &str {
        &self.hint
    }
}
