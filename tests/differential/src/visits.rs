//! Part `desk`, halls that come and go: one that stays and hasn't ended is served within any eight turns, and its list and figures are those
//! of the run alone.

use crate::desk::{allowance, reply, Call};
use crate::lent::{Lent, ANSWER_BYTES};
use crate::tally::{Guarded, Tally};
use oracle::desk::{DESK_BYTES, PLANS, SEATS};
use sheets::Rng;

/// The kind of a seat whose run hasn't ended.
const RUNNING: u32 = 4;

/// Calls of one sequence.
const VISITS: usize = 24;

/// A hall that the test has seated: its sheet and allowance, and the turns of others since its last one.
struct Visitor {
    sheet: Vec<u8>,
    limit: u32,
    waited: usize,
}

/// Halls that come and go at a desk of the library, to be compared with its runs alone.
pub struct Visits {
    desk: Vec<u8>,
    seats: [Option<Visitor>; SEATS],
}

/// The numbers of an answer.
fn numbers(mut answer: Guarded) -> Vec<u32> {
    answer.lent().chunks(4).map(|four| u32::from_le_bytes(four.try_into().expect("four bytes"))).collect()
}

impl Visits {
    pub fn new() -> Visits {
        Visits { desk: vec![0; DESK_BYTES], seats: [const { None }; SEATS] }
    }

    pub fn all(&mut self, sheets: &[Vec<u8>], rng: &mut Rng, tally: &mut Tally) {
        for _ in 0..VISITS {
            match rng.below(10) {
                0..=3 => self.sit(rng.pick(sheets), allowance(rng)),
                4..=8 => self.turn(tally),
                _ => self.leave(rng.below(SEATS), tally),
            }
        }
        (0..SEATS).for_each(|seat| self.leave(seat, tally));
        tally.same("nobody is left", self.stands(&Call::Turn), vec![0; 4], &[]);
    }

    fn sit(&mut self, sheet: Vec<u8>, limit: u32) {
        let (status, answer, _) = reply(&Call::Sit(sheet.clone(), limit), &mut self.desk, 12, 0);
        if status == 0 {
            self.seats[numbers(answer)[1] as usize] = Some(Visitor { sheet, limit, waited: 0 });
        }
    }

    /// The numbers of a call that answers with a seat.
    fn stands(&mut self, call: &Call) -> Vec<u32> {
        numbers(reply(call, &mut self.desk, call.answer_bytes(), 0).1)
    }

    /// A turn. A hall that others' turns have passed over eight times has ended.
    fn turn(&mut self, tally: &mut Tally) {
        let served = self.stands(&Call::Turn);
        for seat in 0..SEATS {
            let kind = self.stands(&Call::Look(seat as u32))[0];
            if let Some(visitor) = &mut self.seats[seat] {
                visitor.waited = if served[1] as usize == seat { 0 } else { visitor.waited + 1 };
                let is_served = kind != RUNNING || visitor.waited < SEATS;
                tally.same("a turn within any eight", is_served, true, &visitor.sheet);
            }
        }
    }

    /// The list and the figures of a hall that leaves are those of the run alone; if its run hasn't ended, with the trials made for its
    /// allowance.
    fn leave(&mut self, seat: usize, tally: &mut Tally) {
        let Some(Visitor { sheet, limit, .. }) = self.seats[seat].take() else {
            return;
        };
        let stands = self.stands(&Call::Look(seat as u32));
        let room = PLANS * sheet[0] as usize;
        let (mut list, mut answer) = (Guarded::new(room, 0), Guarded::new(ANSWER_BYTES, 0));
        let limit = if stands[0] == RUNNING { stands[3] } else { limit };
        let lent = Lent { sheet: sheet.clone(), pairs: Vec::new(), block: Vec::new() };
        lent.run(limit, list.lent(), answer.lent());
        let alone = numbers(answer);
        let ending = if stands[0] == RUNNING { alone[0] } else { stands[0] };
        tally.same("figures alone", [&[ending], &stands[2..]].concat(), alone, &sheet);
        let left = reply(&Call::Leave(seat as u32, room), &mut self.desk, 12, 0);
        tally.same("list alone", left.2, list, &sheet);
    }
}
