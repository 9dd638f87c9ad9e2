//! Part `desk`: eight halls at one desk (paper 02, #113). Sequences of calls on an empty desk, on one of random bytes and on one with damaged
//! seats, beside the oracle's; every cut of a hall's tree; rounds beside turns one by one. `visits` has halls that come and go beside runs alone.

use crate::tally::{code, Guarded, Tally, WRONG_SIZE};
use crate::visits::Visits;
use oracle::desk::{self, Desk, Hall, DESK_BYTES, PLANS, SEATS, SEAT_BYTES, SHEET_BYTES};
use oracle::{Ending, Problem, Refusal};
use planner_sys::{
    planner_desk_leave, planner_desk_look, planner_desk_rounds, planner_desk_sit, planner_desk_turn,
};
use sheets::{damaged, encode, problem, Rng};

/// Calls of one sequence.
const CALLS: usize = 20;

#[derive(Clone, Debug)]
pub enum Call {
    Sit(Vec<u8>, u32),
    Turn,
    Rounds(u32),
    Look(u32),
    /// The seat, and the length of the room.
    Leave(u32, usize),
}

impl Call {
    pub fn answer_bytes(&self) -> usize {
        match self {
            Call::Turn => 16,
            Call::Look(_) => 64,
            _ => 12,
        }
    }

    fn room_bytes(&self) -> usize {
        match self {
            Call::Leave(_, room) => *room,
            _ => 0,
        }
    }
}

/// What a call gave back: the returned number, the answer and the room.
pub type Reply = (u32, Guarded, Guarded);

/// A call to the library. The answer and the room come with a pattern.
pub fn reply(call: &Call, desk: &mut [u8], answer_bytes: usize, pattern: u8) -> Reply {
    let mut answer = Guarded::new(answer_bytes, pattern);
    let mut room = Guarded::new(call.room_bytes(), pattern);
    let status = match call {
        Call::Sit(sheet, limit) => planner_desk_sit(desk, sheet, *limit, answer.lent()),
        Call::Turn => planner_desk_turn(desk, answer.lent()),
        Call::Rounds(rounds) => planner_desk_rounds(desk, *rounds, answer.lent()),
        Call::Look(seat) => planner_desk_look(desk, *seat, answer.lent()),
        Call::Leave(seat, _) => planner_desk_leave(desk, *seat, room.lent(), answer.lent()),
    };
    (status, answer, room)
}

/// How a seat stands: kind, seat, plans, trials.
fn stands(seat: usize, hall: &Hall) -> Vec<u32> {
    let kind = match hall.ending {
        Some(Ending::Finished) => 1,
        Some(Ending::Spent) => 2,
        Some(Ending::Full) => 3,
        None => 4,
    };
    vec![kind, seat as u32, hall.plans.len() as u32, hall.nodes]
}

/// The numbers that the oracle answers. Its desk is changed, and so are the bytes.
fn done(call: &Call, desk: &mut Desk, bytes: &mut [u8], room: &mut [u8]) -> Result<Vec<u32>, Refusal> {
    match call {
        Call::Sit(sheet, limit) => {
            let seat = desk.sit(sheet, *limit)?;
            desk::write_newcomer(bytes, seat, sheet, *limit);
            Ok(vec![1, seat as u32, 0])
        }
        Call::Turn => {
            let Some(seat) = desk.turn() else {
                return Ok(vec![0; 4]);
            };
            served(desk, bytes, seat);
            Ok(stands(seat, desk.look(seat as u32)?))
        }
        Call::Rounds(rounds) => {
            let waiting = |desk: &Desk| {
                (0..SEATS).filter(|&seat| desk.waits(seat)).fold(0, |set, seat| set | 1 << seat)
            };
            let before: u32 = waiting(desk);
            let had = desk.rounds(*rounds);
            (0..SEATS).filter(|&seat| had[seat] > 0).for_each(|seat| served(desk, bytes, seat));
            Ok(vec![1, before & !waiting(desk), waiting(desk)])
        }
        Call::Look(seat) => {
            desk.look(*seat).map(|hall| [&stands(*seat as usize, hall)[..], &hall.counts].concat())
        }
        Call::Leave(seat, _) => {
            let length = desk.leave(*seat, room)?;
            bytes[*seat as usize * SEAT_BYTES + desk::FLAG] = 0;
            Ok(vec![1, length as u32, 0])
        }
    }
}

/// The bytes after a seat was served.
fn served(desk: &Desk, bytes: &mut [u8], seat: usize) {
    let hall = desk.seats[seat].as_ref().expect("a seat that was served");
    desk::write_run(bytes, seat, hall);
    bytes[desk::NEXT] = desk.next as u8;
}

/// The reply by the oracle.
fn expected(call: &Call, desk: &mut Desk, bytes: &mut [u8], pattern: u8, tally: &mut Tally) -> Reply {
    let mut room = Guarded::new(call.room_bytes(), pattern);
    let mut answer = Guarded::new(call.answer_bytes(), pattern);
    let done = done(call, desk, bytes, room.lent());
    tally.answer(&done);
    if let Ok(numbers) = &done {
        if matches!(call, Call::Turn) && numbers[0] > 0 {
            tally.turns[numbers[0] as usize - 1] += 1;
        }
        let numbers: Vec<u8> = numbers.iter().flat_map(|number| number.to_le_bytes()).collect();
        answer.lent().copy_from_slice(&numbers);
    }
    (code(&done), answer, room)
}

/// The first byte that differs: where, and the two.
fn difference(one: &[u8], other: &[u8]) -> Option<(usize, u8, u8)> {
    match one == other {
        true => None,
        false => (0..one.len()).find(|&i| one[i] != other[i]).map(|i| (i, one[i], other[i])),
    }
}

/// A desk in bytes beside the oracle's, with the bytes that this one should have.
struct Pair {
    bytes: Guarded,
    desk: Desk,
    right: Guarded,
}

impl Pair {
    fn new(start: &[u8]) -> Pair {
        let mut bytes = Guarded::new(DESK_BYTES, 0);
        bytes.lent().copy_from_slice(start);
        Pair { right: bytes.clone(), bytes, desk: desk::meaning(start) }
    }

    /// Puts a hall at the first seat of an empty desk.
    fn seat(&mut self, sheet: &[u8], hall: &Hall) {
        for bytes in [self.bytes.lent(), self.right.lent()] {
            desk::write_newcomer(bytes, 0, sheet, hall.allowance);
            desk::write_run(bytes, 0, hall);
            bytes[desk::NEXT] = 0;
        }
        self.desk = desk::meaning(self.bytes.lent());
    }

    /// One call: the reply, and every byte of the desk.
    fn call(&mut self, call: &Call, rng: &mut Rng, tally: &mut Tally) {
        let pattern = rng.word() as u8;
        let right = expected(call, &mut self.desk, self.right.lent(), pattern, tally);
        let got = reply(call, self.bytes.lent(), call.answer_bytes(), pattern);
        let lent = format!("{call:?}");
        tally.same("reply", got, right, lent.as_bytes());
        tally.same("desk after", difference(&self.bytes.bytes, &self.right.bytes), None, lent.as_bytes());
    }
}

/// The sheets of a case, most of them right.
fn sheets(rng: &mut Rng) -> Vec<Vec<u8>> {
    let sheet = |i| {
        let problem = problem(rng);
        if i < 2 {
            damaged(rng, &problem)
        } else {
            encode(&problem)
        }
    };
    (0..8).map(sheet).collect()
}

pub fn allowance(rng: &mut Rng) -> u32 {
    match rng.below(3) {
        0 => rng.below(200) as u32,
        1 => rng.pick(&[0, 1, 2, 63, 64, 65, 127, 128, 129]),
        _ => rng.pick(&[1_000_000, u32::MAX]),
    }
}

fn seat(rng: &mut Rng) -> u32 {
    match rng.chance(90) {
        true => rng.below(SEATS) as u32,
        false => rng.pick(&[8, 9, 255, 256, 65_536, u32::MAX]),
    }
}

fn call(sheets: &[Vec<u8>], rng: &mut Rng) -> Call {
    match rng.below(20) {
        0..=6 => Call::Sit(rng.pick(sheets), allowance(rng)),
        7..=12 => Call::Turn,
        13 => Call::Rounds(rng.pick(&[0, 1, 1, 2, 3, 1024, u32::MAX])),
        14..=15 => Call::Look(seat(rng)),
        _ => Call::Leave(seat(rng), rng.pick(&[0, 1, 24, 100, 12 * PLANS - 1, 12 * PLANS, 12 * PLANS + 40])),
    }
}

/// Bytes that no call wrote. Of most seats the sheet is one that a newcomer could have, now and then with exchanges that don't respect it.
fn random_bytes(sheets: &[Vec<u8>], rng: &mut Rng) -> Vec<u8> {
    let mut bytes: Vec<u8> = (0..DESK_BYTES / 8 + 1).flat_map(|_| rng.word().to_le_bytes()).collect();
    bytes.truncate(DESK_BYTES);
    for seat in bytes[..desk::NEXT].chunks_mut(SEAT_BYTES) {
        seat[desk::FLAG] = rng.pick(&[0, 1, 1, 2, 255]);
        if rng.chance(80) {
            damaged_seat(seat, &rng.pick(sheets), rng);
        }
    }
    if rng.chance(50) {
        bytes[desk::NEXT] = rng.below(SEATS) as u8;
    }
    bytes
}

/// A seat with a sheet and random figures: near the ends of the allowance and of the list, or anywhere.
fn damaged_seat(seat: &mut [u8], sheet: &[u8], rng: &mut Rng) {
    let length = if rng.chance(90) { sheet.len() } else { rng.pick(&[0, 15, 16, SHEET_BYTES, 65_535]) };
    seat[desk::SHEET..][..sheet.len()].copy_from_slice(sheet);
    seat[desk::LENGTH..][..2].copy_from_slice(&(length as u16).to_le_bytes());
    let allowance = allowance(rng);
    let near = allowance.wrapping_sub(rng.below(70) as u32);
    let nodes = rng.pick(&[0, near, near, allowance, u32::MAX, u32::MAX - 63]);
    seat[desk::ALLOWANCE..][..4].copy_from_slice(&allowance.to_le_bytes());
    seat[desk::NODES..][..4].copy_from_slice(&nodes.to_le_bytes());
    seat[desk::STANDING] = rng.pick(&[0, 0, 0, 0, 0, 1, 2, 3, 4, 255]);
    let listed = rng.pick(&[0, 0, 0, 1, 1, 7, 7, 30, 4090, 4095, 4096, 65_535]);
    seat[desk::LISTED..][..2].copy_from_slice(&(listed as u16).to_le_bytes());
    seat[desk::LAST] = rng.pick(&[0, 0, 1, 2, 3, 5, 11, 12, 13, 255]);
    for value in &mut seat[desk::LAST + 1..desk::COUNTS] {
        *value = if rng.chance(90) { rng.below(4) as u8 } else { *value };
    }
    for count in seat[desk::COUNTS..desk::SHEET].chunks_mut(4) {
        let trials = rng.pick(&[0, 1, 64, nodes, nodes.wrapping_add(1), allowance, u32::MAX]);
        count.copy_from_slice(&trials.to_le_bytes());
    }
}

pub fn case(rng: &mut Rng, tally: &mut Tally) {
    let sheets = sheets(rng);
    let start = if rng.chance(50) { vec![0; DESK_BYTES] } else { random_bytes(&sheets, rng) };
    sequence(&start, &sheets, rng, tally);
    let percent = if rng.chance(5) { 100 } else { 5 };
    cuts(problem(rng), percent, rng, tally);
    rounds(&start, &sheets, rng, tally);
    Visits::new().all(&sheets, rng, tally);
    if rng.chance(10) {
        wrong_sizes(&start, &call(&sheets, rng), rng, tally);
    }
}

/// Each call's reply and every byte of the desk, beside the desk that the bytes meant at first.
fn sequence(start: &[u8], sheets: &[Vec<u8>], rng: &mut Rng, tally: &mut Tally) {
    let mut pair = Pair::new(start);
    for _ in 0..CALLS {
        pair.call(&call(sheets, rng), rng, tally);
    }
    let meaning = desk::meaning(pair.bytes.lent());
    tally.same("meaning of the desk after", meaning == pair.desk, true, &[]);
}

/// A run cut behind each of its trials, or behind so many of them, and given a turn; now and then with another path for the last trial, or
/// with a list that is nearly full.
pub fn cuts(problem: Problem, percent: usize, rng: &mut Rng, tally: &mut Tally) {
    let (sheet, places) = (encode(&problem), problem.variables);
    let mut hall = Hall::new(problem, u32::MAX);
    let mut pair = Pair::new(&vec![0; DESK_BYTES]);
    loop {
        if rng.chance(percent) {
            let mut cut = hall.clone();
            cut.allowance = hall.nodes.saturating_add(rng.pick(&[0, 1, 2, 63, 64, 65, u32::MAX]));
            match rng.below(6) {
                0 => cut.last = (0..rng.below(13)).map(|_| rng.below(4) as u8).collect(),
                1 => cut.plans.resize(PLANS - rng.below(4), vec![3; places]),
                _ => {}
            }
            pair.seat(&sheet, &cut);
            pair.call(&Call::Turn, rng, tally);
        }
        if !hall.is_due() {
            return;
        }
        hall.try_next();
    }
}

/// Rounds leave the same bytes as so many turns one by one, all by the library.
fn rounds(start: &[u8], sheets: &[Vec<u8>], rng: &mut Rng, tally: &mut Tally) {
    let mut one = start.to_vec();
    for _ in 0..rng.below(SEATS) {
        let call = Call::Sit(rng.pick(sheets), allowance(rng));
        reply(&call, &mut one, 12, 0);
    }
    (0..rng.below(4)).for_each(|_| drop(reply(&Call::Turn, &mut one, 16, 0)));
    let mut other = one.clone();
    let rounds = rng.pick(&[0, 1, 2, 3, 5, u32::MAX]);
    let turns: u32 = desk::meaning(&one).rounds(rounds).iter().sum();
    reply(&Call::Rounds(rounds), &mut one, 12, 0);
    (0..turns).for_each(|_| drop(reply(&Call::Turn, &mut other, 16, 0)));
    tally.same("rounds beside turns", difference(&one, &other), None, &rounds.to_le_bytes());
}

/// With a desk or an answer of another size nothing is written.
fn wrong_sizes(start: &[u8], call: &Call, rng: &mut Rng, tally: &mut Tally) {
    let size = rng.pick(&[0, 1, DESK_BYTES - 1, DESK_BYTES + 1]);
    let mut other: Vec<u8> = start.iter().copied().cycle().take(size).collect();
    let mut whole = start.to_vec();
    let others: Vec<usize> = [0, 1, 11, 12, 13, 15, 16, 17, 63, 64, 65]
        .into_iter()
        .filter(|&length| length != call.answer_bytes())
        .collect();
    let length = rng.pick(&others);
    for (bytes, answer_bytes) in [(&mut other, call.answer_bytes()), (&mut whole, length)] {
        let before = bytes.clone();
        let pattern = rng.word() as u8;
        let got = reply(call, bytes, answer_bytes, pattern);
        let untouched = [answer_bytes, call.room_bytes()].map(|length| Guarded::new(length, pattern));
        let [answer, room] = untouched;
        tally.count(WRONG_SIZE);
        tally.same("wrong size", got, (256 * WRONG_SIZE, answer, room), format!("{call:?}").as_bytes());
        tally.same("desk untouched", difference(bytes, &before), None, &[]);
    }
}

/// Windows that may have each of so many duties, without a rule.
fn free(variables: usize, values: usize) -> Vec<u8> {
    let initial = vec![((1u32 << values) - 1) as u16; variables];
    encode(&Problem { variables, values, initial, constraints: Vec::new(), symmetries: Vec::new() })
}

/// A full desk: lists that just fit and that fill up, runs that end with a turn's last trial, without any and with the allowance; by turns, by
/// rounds, and with a newcomer for each that leaves.
pub fn examples(tally: &mut Tally) {
    let rng = &mut Rng::new(1);
    for rounds in [0, 1, 60, 80] {
        tally.case = format!("part desk, examples, {rounds} rounds");
        let mut pair = Pair::new(&vec![0; DESK_BYTES]);
        for (windows, duties, limit) in [
            (4, 8, 4680),
            (5, 6, u32::MAX),
            (12, 2, 4096),
            (1, 16, 16),
            (2, 7, 56),
            (6, 2, 64),
            (6, 2, 126),
            (1, 1, 0),
        ] {
            pair.call(&Call::Sit(free(windows, duties), limit), rng, tally);
        }
        pair.call(&Call::Sit(Vec::new(), 1), rng, tally);
        pair.call(&Call::Rounds(rounds), rng, tally);
        for _ in 0..24 {
            pair.call(&Call::Turn, rng, tally);
        }
        pair.call(&Call::Rounds(u32::MAX), rng, tally);
        pair.call(&Call::Turn, rng, tally);
        for seat in (0..10).rev() {
            pair.call(&Call::Look(seat), rng, tally);
            pair.call(&Call::Leave(seat, 0), rng, tally);
            pair.call(&Call::Leave(seat, 12 * PLANS), rng, tally);
            pair.call(&Call::Sit(free(2, 9), 100), rng, tally);
        }
        pair.call(&Call::Rounds(2), rng, tally);
    }
}
