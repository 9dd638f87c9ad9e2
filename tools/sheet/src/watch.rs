//! How runs are watched and stopped: how far they have come, on standard error; a limit of time; Ctrl-C and TERM.

use crate::command::{Arguments, Choice, Stop};
use crate::counts::share;
use crate::signals;
use crate::words::{counted, grouped};
use std::cell::Cell;
use std::io::{IsTerminal, Write};
use std::time::{Duration, Instant};

pub const SECONDS_OPTION: Choice =
    Choice { name: "--seconds", value: Some("N"), about: "stop after N seconds, with what there is" };

pub const EVERY_OPTION: Choice = Choice {
    name: "--every",
    value: Some("SECONDS"),
    about:
        "says on standard error every so many seconds how far the run has come; on a terminal every second",
};

/// Why a run stopped that might have gone on.
#[derive(Clone, Copy, Debug, PartialEq, Eq)]
pub enum Cause {
    Seconds(u32),
    Signal,
}

impl Cause {
    pub fn words(self) -> String {
        match self {
            Cause::Seconds(seconds) => format!("stopped after {}", counted(seconds, "second")),
            Cause::Signal => "stopped by a signal".to_string(),
        }
    }
}

/// How far a run has come: its trials, its plans if they are counted, and how many trials it may make, if that is limited.
#[derive(Clone, Copy, Debug, PartialEq, Eq)]
pub struct Progress {
    pub trials: u64,
    pub plans: Option<u64>,
    pub allowance: Option<u64>,
}

/// Watches the runs of one command.
pub struct Watch {
    start: Instant,
    seconds: Option<u32>,
    /// How often is it said how far a run has come, and is it said in place?
    every: Option<Duration>,
    in_place: bool,
    told: Cell<Instant>,
    /// Does a text stand on the terminal?
    shown: Cell<bool>,
    /// The trials of all runs, and those of the present one when it was last heard of.
    made: Cell<u64>,
    heard: Cell<u64>,
    stopped: Cell<Option<Cause>>,
    catches: bool,
}

impl Watch {
    /// Nobody watches, and nothing stops a run but its limits.
    pub fn nobody() -> Watch {
        let start = Instant::now();
        Watch {
            start,
            seconds: None,
            every: None,
            in_place: false,
            told: Cell::new(start),
            shown: Cell::new(false),
            made: Cell::new(0),
            heard: Cell::new(0),
            stopped: Cell::new(None),
            catches: false,
        }
    }

    /// As the options say. From now on signals ask the runs to stop.
    pub fn of(arguments: &Arguments) -> Result<Watch, Stop> {
        let every = arguments.number(EVERY_OPTION.name, u32::MAX)?;
        let mut watch = Watch::nobody();
        watch.seconds = arguments.number(SECONDS_OPTION.name, u32::MAX)?;
        watch.in_place = every.is_none() && std::io::stderr().is_terminal();
        let every = every.or(watch.in_place.then_some(1));
        watch.every = every.map(|seconds| Duration::from_secs(seconds.into()));
        watch.catches = true;
        signals::catch();
        Ok(watch)
    }

    /// Is the run to stop now, and why? Once it is, every later run is too.
    pub fn stops(&self) -> Option<Cause> {
        let is_over = |&seconds: &u32| self.start.elapsed() >= Duration::from_secs(seconds.into());
        let cause = match self.stopped.get() {
            None if self.catches && signals::asked() => Some(Cause::Signal),
            None => self.seconds.filter(is_over).map(Cause::Seconds),
            cause => cause,
        };
        self.stopped.set(cause);
        cause
    }

    /// Why runs stopped, if they did.
    pub fn stopped(&self) -> Option<Cause> {
        self.stopped.get()
    }

    /// Hears how far a run has come, and says it if it is time.
    pub fn hear(&self, progress: Progress) {
        let new = progress.trials.checked_sub(self.heard.get()).unwrap_or(progress.trials);
        self.made.set(self.made.get() + new);
        self.heard.set(progress.trials);
        if !self.every.is_some_and(|every| self.told.get().elapsed() >= every) {
            return;
        }
        self.told.set(Instant::now());
        let words = self.words(progress);
        let _ = match self.in_place {
            true => write!(std::io::stderr(), "\r\x1b[K{words}"),
            false => writeln!(std::io::stderr(), "{words}"),
        };
        self.shown.set(self.in_place);
    }

    fn words(&self, Progress { trials, plans, allowance }: Progress) -> String {
        let millis = self.start.elapsed().as_millis().max(1);
        let rate = (u128::from(self.made.get()) * 1000 / millis) as u64;
        let part = allowance.map(|allowance| format!(", {} of the allowance", share(trials, allowance)));
        let plans = plans.map(|plans| format!(", {}", counted(plans, "plan")));
        let [part, plans] = [part, plans].map(Option::unwrap_or_default);
        format!("{}, {} a second{part}{plans}", counted(trials, "trial"), grouped(rate))
    }

    /// Takes the text on the terminal away.
    pub fn clear(&self) {
        if self.shown.replace(false) {
            let _ = write!(std::io::stderr(), "\r\x1b[K");
        }
    }
}

impl Drop for Watch {
    fn drop(&mut self) {
        self.clear();
        if self.catches {
            signals::release();
        }
    }
}
