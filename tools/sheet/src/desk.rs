//! `sheet desk`: several halls by turns, so that none waits behind another's long run, and a fault in one text stops no other.

use crate::answers;
use crate::command::{out, print, refuse, say, Arguments, Choice, Command, Outcome, Source, Status, Stop};
use crate::counts::share;
use crate::input::{Input, WHERE_OPTION};
use crate::json::{write_rows, JSON_OPTION};
use crate::listing::{Limits, TRIALS_OPTION};
use crate::plans::EXPLAIN_OPTION;
use crate::runner::{Manner, JOBS_OPTION};
use crate::seat::Seat;
use crate::watch::{Watch, SECONDS_OPTION};
use crate::words::counted;
use planner::{SEAT_PLANS, STACK_BYTES};
use std::io::{IsTerminal, Write};
use std::sync::Mutex;
use std::thread;
use std::time::{Duration, Instant};

pub const COMMAND: Command = Command {
    name: "desk",
    usage: "TEXT ..",
    about: "runs several halls by turns, and shows each one's plans as it ends",
    files: 1..=usize::MAX,
    options: &[&[
        JSON_OPTION,
        TRIALS_OPTION,
        SECONDS_OPTION,
        Choice {
            name: EVERY,
            value: Some("N"),
            about: "after every N turns of each seat, says on standard error how it stands",
        },
        JOBS_OPTION,
        EXPLAIN_OPTION,
        WHERE_OPTION,
    ]],
    asks: false,
    run,
};

const EVERY: &str = "--every";

/// The trials of a turn (paper 02, #113).
const TURN: u64 = 64;

/// The most turns of each seat in one round; each sheet is prepared once a round.
const ROUND: u32 = 1_024;

/// So long is waited for those that count families when nobody runs.
const PATIENCE: Duration = Duration::from_millis(10);

fn run(arguments: &Arguments) -> Result<Outcome, Stop> {
    let limits = Limits { plans: SEAT_PLANS as u32, first: false, ..Limits::of(arguments)? };
    let every = arguments.number(EVERY, u32::MAX)?;
    if every == Some(0) {
        return refuse("--every takes a number from 1 on");
    }
    let jobs = Manner::of(arguments)?.jobs;
    let watch = Watch::of(arguments)?;
    let mut desk = Desk::new(arguments, limits);
    let mut progress = Progress::new(every);
    desk.show_ended()?;
    while !desk.has_ended() {
        let turns = progress.turns();
        match watch.stops() {
            Some(cause) => desk.seats.iter_mut().for_each(|seat| seat.stop(cause, limits)),
            None => desk.round(u64::from(turns) * TURN, jobs),
        }
        progress.show(&desk, turns);
        if desk.seats.iter().any(|seat| seat.has_ended() && !seat.is_shown) {
            progress.clear();
            desk.show_ended()?;
        }
    }
    progress.clear();
    desk.end()
}

/// The seats, a hall at each, and how they are shown.
struct Desk {
    seats: Vec<Seat>,
    limits: Limits,
    explain: bool,
    is_json: bool,
}

impl Desk {
    /// Seats every text; what is wrong with one is said, and shown at its seat.
    fn new(arguments: &Arguments, limits: Limits) -> Desk {
        let seat = |source: &Source| {
            let hall = Input::read(source).and_then(|input| input.lent(arguments));
            match &hall {
                Ok(input) => say(&input.notes()),
                Err(stop) => say(&stop.said()),
            }
            Seat::new(source.name(), hall)
        };
        let [explain, is_json] = [EXPLAIN_OPTION, JSON_OPTION].map(|option| arguments.has(option.name));
        Desk { seats: arguments.sources.iter().map(seat).collect(), limits, explain, is_json }
    }

    fn has_ended(&self) -> bool {
        self.seats.iter().all(Seat::has_ended)
    }

    /// Each hall that runs goes on with so many trials, one after the other, on so many cores.
    fn round(&mut self, trials: u64, jobs: usize) {
        let limits = self.limits;
        let running: Vec<&mut Seat> = self.seats.iter_mut().filter(|seat| seat.runs()).collect();
        if running.is_empty() {
            thread::sleep(PATIENCE);
        }
        let others = jobs.min(running.len()).saturating_sub(1);
        let queue = Mutex::new(running.into_iter());
        let serve = || {
            while let Some(seat) = next(&queue) {
                seat.go_on(trials, limits);
            }
        };
        thread::scope(|scope| {
            for _ in 0..others {
                // what a thread that can't be had would serve, the others serve
                let _ = thread::Builder::new().stack_size(2 * STACK_BYTES).spawn_scoped(scope, serve);
            }
            serve();
        });
        self.seats.iter_mut().for_each(Seat::take_count);
    }

    /// Shows those that have ended since.
    fn show_ended(&mut self) -> Result<(), Stop> {
        for (number, seat) in self.seats.iter_mut().enumerate() {
            if seat.has_ended() && !seat.is_shown && !self.is_json {
                print(format!("seat {number}, {}\n{}\n", seat.name, seat.said(self.explain)).as_bytes())?;
            }
            seat.is_shown = seat.has_ended();
        }
        Ok(())
    }

    /// All have ended.
    fn end(&self) -> Result<Outcome, Stop> {
        let status = self.seats.iter().map(Seat::status).fold(Status::Finished, Status::worst);
        if self.is_json {
            let fields = [answers::head(COMMAND.name), vec![("status", (status as u32).into())]].concat();
            let mut out = out();
            out.all(|out| write_rows(out, &fields, "halls", self.seats.iter().map(Seat::json)))?;
            out.end()?;
        }
        Ok(Outcome { output: Vec::new(), note: String::new(), status })
    }
}

/// The next seat to be served.
fn next<'a>(queue: &Mutex<impl Iterator<Item = &'a mut Seat>>) -> Option<&'a mut Seat> {
    queue.lock().expect("no core fails").next()
}

/// How far the halls have come: a line for each that runs, after every so many turns or, on a terminal, again and again in
/// place.
struct Progress {
    every: Option<u32>,
    /// The turns until the next lines.
    due: u32,
    told: Option<Instant>,
    lines: usize,
}

/// On a terminal so many halls are shown, and so often.
const SHOWN: usize = 20;
const PAUSE: Duration = Duration::from_millis(500);

impl Progress {
    fn new(every: Option<u32>) -> Progress {
        let watched = every.is_none() && std::io::stderr().is_terminal();
        Progress { every, due: every.unwrap_or(ROUND), told: watched.then(Instant::now), lines: 0 }
    }

    /// The turns of the next round.
    fn turns(&self) -> u32 {
        self.due.min(ROUND)
    }

    /// So many turns were made.
    fn show(&mut self, desk: &Desk, turns: u32) {
        if let Some(every) = self.every {
            self.due -= turns;
            if self.due == 0 || desk.has_ended() {
                say(&lines(desk, usize::MAX));
                self.due = every;
            }
        } else if self.told.is_some_and(|told| told.elapsed() > PAUSE) {
            self.clear();
            let text = lines(desk, SHOWN);
            say(&text);
            self.lines = text.lines().count();
            self.told = Some(Instant::now());
        }
    }

    /// Takes the lines on the terminal away.
    fn clear(&mut self) {
        if self.lines > 0 {
            let _ = write!(std::io::stderr(), "\x1b[{}A\x1b[J", self.lines);
            self.lines = 0;
        }
    }
}

/// A line for each of the first seats that are at work: the trials and plans so far, and their share of the allowance.
fn lines(desk: &Desk, most: usize) -> String {
    let at_work = || desk.seats.iter().enumerate().filter(|(_, seat)| seat.is_at_work());
    let cells: Vec<[String; 5]> = at_work()
        .take(most)
        .map(|(number, Seat { name, sum, .. })| {
            let share = share(sum.trials, desk.limits.trials.into());
            let [trials, plans] = [counted(sum.trials, "trial"), counted(sum.plans, "plan")];
            [number.to_string(), name.clone(), trials, plans, share]
        })
        .collect();
    let width = |column: usize| cells.iter().map(|row| row[column].chars().count()).max().unwrap_or(0);
    let [numbers, names, trials, plans, shares] = [0, 1, 2, 3, 4].map(width);
    let line = |[number, name, made, listed, share]: &[String; 5]| {
        format!(
            "seat {number:numbers$}  {name:names$}  {made:>trials$}  {listed:>plans$}  {share:>shares$} of the allowance\n"
        )
    };
    let rest = match at_work().count().saturating_sub(most) {
        0 => String::new(),
        rest => format!("and {}\n", counted(rest as u64, "hall")),
    };
    cells.iter().map(line).collect::<String>() + &rest
}
