//! The desk for eight halls (paper 02, #113). A hall at its seat has the trials of its tree that are still due, made one by one in the order
//! in which they come; and what lent bytes mean.

use crate::search::sets_at;
use crate::sheet::{question_without_16, Problem};
use crate::{members, question, Ending, Refusal};

pub const SEATS: usize = 8;
/// The trials of a turn.
pub const TRIALS: u32 = 64;
/// The plans that a seat's list has room for.
pub const PLANS: usize = 4096;

/// A hall at its seat.
#[derive(Clone, Debug, PartialEq, Eq)]
pub struct Hall {
    pub allowance: u32,
    pub nodes: u32,
    /// These by the place that each settles.
    pub counts: [u32; 12],
    pub plans: Vec<Vec<u8>>,
    pub ending: Option<Ending>,
    /// The last trial made.
    pub last: Vec<u8>,
    problem: Problem,
    /// The trials due, the first one last; those below a trial come in when it is made.
    due: Vec<Vec<usize>>,
}

/// The seats, and where the next turn begins to look.
#[derive(Clone, Debug, PartialEq, Eq)]
pub struct Desk {
    pub seats: [Option<Hall>; SEATS],
    pub next: usize,
}

fn refused<T>(number: u32) -> Result<T, Refusal> {
    Err(Refusal { number, item: 0 })
}

/// The trials that settle the place after a prefix, the first one last; of a dead or a whole prefix there are none.
fn trials_below(problem: &Problem, prefix: &[usize]) -> Vec<Vec<usize>> {
    match sets_at(problem, prefix) {
        Some(sets) if prefix.len() < sets.len() => {
            members(sets[prefix.len()]).into_iter().rev().map(|value| [prefix, &[value]].concat()).collect()
        }
        _ => Vec::new(),
    }
}

impl Hall {
    pub fn new(problem: Problem, allowance: u32) -> Hall {
        let due = trials_below(&problem, &[]);
        Hall {
            allowance,
            nodes: 0,
            counts: [0; 12],
            plans: Vec::new(),
            ending: None,
            last: Vec::new(),
            problem,
            due,
        }
    }

    /// Takes the trial that is due first, and puts those below it in its place.
    fn take(&mut self) -> Option<Vec<usize>> {
        let trial = self.due.pop()?;
        self.due.extend(trials_below(&self.problem, &trial));
        Some(trial)
    }

    /// So many trials, fewer only if the run ends; an ending that needs no further trial falls in the same turn.
    fn turn(&mut self) {
        for _ in 0..TRIALS {
            self.end_without_trial();
            if self.ending.is_none() {
                self.try_next();
            }
        }
        self.end_without_trial();
    }

    fn end_without_trial(&mut self) {
        if self.ending.is_none() && self.due.is_empty() {
            self.ending = Some(Ending::Finished);
        } else if self.ending.is_none() && self.nodes == self.allowance {
            self.ending = Some(Ending::Spent);
        }
    }

    /// Is a further trial due?
    pub fn is_due(&self) -> bool {
        !self.due.is_empty()
    }

    /// Makes the trial that is due first.
    pub fn try_next(&mut self) {
        let trial = self.take().expect("a trial that is due");
        self.nodes += 1;
        self.counts[trial.len() - 1] += 1;
        self.last = trial.iter().map(|&value| value as u8).collect();
        if trial.len() == self.problem.variables && sets_at(&self.problem, &trial).is_some() {
            if self.plans.len() == PLANS {
                self.ending = Some(Ending::Full);
            } else {
                self.plans.push(self.last.clone());
            }
        }
    }
}

impl Desk {
    pub fn new() -> Desk {
        Desk { seats: [const { None }; SEATS], next: 0 }
    }

    /// The seats, from the one where the next turn begins to look.
    fn round(&self) -> impl Iterator<Item = usize> {
        let next = self.next;
        (0..SEATS).map(move |step| (next + step) % SEATS)
    }

    /// Does somebody sit there whose run hasn't ended?
    pub fn waits(&self, seat: usize) -> bool {
        self.seats[seat].as_ref().is_some_and(|hall| hall.ending.is_none())
    }

    /// The number of the newcomer's seat.
    pub fn sit(&mut self, sheet: &[u8], allowance: u32) -> Result<usize, Refusal> {
        let Some(seat) = (0..SEATS).find(|&seat| self.seats[seat].is_none()) else {
            return refused(37);
        };
        self.seats[seat] = Some(Hall::new(question(sheet)?, allowance));
        Ok(seat)
    }

    /// The seat served.
    pub fn turn(&mut self) -> Option<usize> {
        let seat = self.round().find(|&seat| self.waits(seat))?;
        self.seats[seat].as_mut()?.turn();
        self.next = (seat + 1) % SEATS;
        Some(seat)
    }

    /// Turns one by one, until each seat that waits has had so many or has ended. The turns of each seat.
    pub fn rounds(&mut self, rounds: u32) -> [u32; SEATS] {
        let mut had = [0; SEATS];
        while (0..SEATS).any(|seat| self.waits(seat) && had[seat] < rounds) {
            let seat = self.turn().expect("a seat that waits");
            had[seat] += 1;
        }
        had
    }

    pub fn look(&self, seat: u32) -> Result<&Hall, Refusal> {
        let hall = self.seats.get(seat as usize).and_then(Option::as_ref);
        hall.map_or(refused(38), Ok)
    }

    /// The plans listed so far go to the front of the room; the answer is their length.
    pub fn leave(&mut self, seat: u32, room: &mut [u8]) -> Result<usize, Refusal> {
        let bytes = self.look(seat)?.plans.concat();
        if room.len() < bytes.len() {
            return refused(22);
        }
        room[..bytes.len()].copy_from_slice(&bytes);
        self.seats[seat as usize] = None;
        Ok(bytes.len())
    }
}

impl Default for Desk {
    fn default() -> Desk {
        Desk::new()
    }
}

// ---- A desk in bytes: eight seats, then where the next turn begins to look. A seat, low bytes first:

/// Whether it is taken; zero is free.
pub const FLAG: usize = 0;
/// The sheet's length, two bytes.
pub const LENGTH: usize = 1;
/// Four bytes.
pub const ALLOWANCE: usize = 3;
/// 0 goes on, 1 finished, 2 spent, 3 full.
pub const STANDING: usize = 7;
/// The trials made, four bytes.
pub const NODES: usize = 8;
/// The plans listed, two bytes.
pub const LISTED: usize = 12;
/// The length of the last trial made, then its values, twelve bytes.
pub const LAST: usize = 14;
/// The trials by place, twelve numbers of four bytes.
pub const COUNTS: usize = 27;
pub const SHEET: usize = COUNTS + 12 * 4;
pub const SHEET_BYTES: usize = 55_656;
pub const LIST: usize = SHEET + SHEET_BYTES;
pub const SEAT_BYTES: usize = LIST + 12 * PLANS;
pub const NEXT: usize = SEATS * SEAT_BYTES;
pub const DESK_BYTES: usize = NEXT + 1;

/// The number in `count` bytes.
fn number(bytes: &[u8], at: usize, count: usize) -> usize {
    bytes[at..at + count].iter().rev().fold(0, |number, &byte| 256 * number + byte as usize)
}

/// The desk that any DESK_BYTES bytes are.
pub fn meaning(bytes: &[u8]) -> Desk {
    let mut desk = Desk::new();
    for (seat, bytes) in bytes[..NEXT].chunks(SEAT_BYTES).enumerate() {
        desk.seats[seat] = (bytes[FLAG] != 0).then(|| hall_in(bytes));
    }
    desk.next = bytes[NEXT] as usize;
    desk
}

/// The hall at a seat. A number that is too large counts as the largest, trials above the allowance as the allowance, trials of a place above
/// all trials as all. A sheet that is refused, question 16 left out, has no trials. Those that come after the last one are due.
fn hall_in(seat: &[u8]) -> Hall {
    let sheet = &seat[SHEET..][..number(seat, LENGTH, 2).min(SHEET_BYTES)];
    let none = Problem { variables: 0, values: 0, initial: vec![], constraints: vec![], symmetries: vec![] };
    let mut hall = Hall::new(question_without_16(sheet).unwrap_or(none), number(seat, ALLOWANCE, 4) as u32);
    hall.nodes = hall.allowance.min(number(seat, NODES, 4) as u32);
    hall.counts = std::array::from_fn(|place| hall.nodes.min(number(seat, COUNTS + 4 * place, 4) as u32));
    let width = number(seat, SHEET, 2).min(12);
    let listed = number(seat, LISTED, 2).min(PLANS);
    hall.plans = (0..listed).map(|plan| seat[LIST + plan * width..][..width].to_vec()).collect();
    hall.ending = match seat[STANDING] {
        0 => None,
        1 => Some(Ending::Finished),
        2 => Some(Ending::Spent),
        _ => Some(Ending::Full),
    };
    hall.last = seat[LAST + 1..][..seat[LAST].min(12) as usize].to_vec();
    let last: Vec<usize> = hall.last.iter().map(|&value| value as usize).collect();
    while hall.due.last().is_some_and(|trial| *trial <= last) {
        hall.take();
    }
    hall
}

/// A newcomer's bytes; those after its sheet stay.
pub fn write_newcomer(bytes: &mut [u8], seat: usize, sheet: &[u8], allowance: u32) {
    let head = [
        &[1][..],
        &(sheet.len() as u16).to_le_bytes(),
        &allowance.to_le_bytes(),
        &[0; SHEET - STANDING],
        sheet,
    ];
    write(bytes, seat * SEAT_BYTES, &head.concat());
}

/// A hall's run so far: how it stands, its figures, its last trial, its trials by place, its list; all other bytes stay.
pub fn write_run(bytes: &mut [u8], seat: usize, hall: &Hall) {
    let standing = match hall.ending {
        None => 0,
        Some(Ending::Finished) => 1,
        Some(Ending::Spent) => 2,
        Some(Ending::Full) => 3,
    };
    let mut last = hall.last.clone();
    last.resize(12, 0);
    let (nodes, listed) = (hall.nodes.to_le_bytes(), (hall.plans.len() as u16).to_le_bytes());
    let counts: Vec<u8> = hall.counts.iter().flat_map(|count| count.to_le_bytes()).collect();
    let run = [&[standing][..], &nodes, &listed, &[hall.last.len() as u8], &last, &counts];
    write(bytes, seat * SEAT_BYTES + STANDING, &run.concat());
    write(bytes, seat * SEAT_BYTES + LIST, &hall.plans.concat());
}

fn write(bytes: &mut [u8], at: usize, part: &[u8]) {
    bytes[at..at + part.len()].copy_from_slice(part);
}
