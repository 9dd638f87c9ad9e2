//! The desk for eight halls (paper 02, #113).

use crate::{number, Ending, Refusal};
use planner_sys::{
    planner_desk_leave, planner_desk_look, planner_desk_rounds, planner_desk_sit, planner_desk_turn,
};

/// A desk's size in bytes.
pub const DESK_BYTES: usize = 839_065;
/// Its seats are numbered from 0.
pub const SEATS: u32 = 8;
/// A seat's list has room for so many plans.
pub const SEAT_PLANS: usize = 4_096;

/// No run was waiting for a turn.
const NONE: u32 = 0;
/// A run that hasn't ended; else the kind is that of its ending.
const RUNNING: u32 = 4;

/// How a seat stands: its run's ending, if it has ended, its plans and its trials so far.
#[derive(Clone, Copy, Debug, PartialEq, Eq)]
pub struct Standing {
    pub seat: u32,
    pub ending: Option<Ending>,
    pub plans: u32,
    pub nodes: u32,
}

impl Standing {
    /// What the first four numbers of an answer say; `None` where no run was waiting.
    fn from_answer(answer: &[u8]) -> Option<Standing> {
        let [kind, seat, plans, nodes] = [0, 1, 2, 3].map(|i| number(answer, i));
        let ending = (kind != RUNNING).then(|| Ending::from_kind(kind));
        (kind != NONE).then_some(Standing { seat, ending, plans, nodes })
    }
}

/// What a look at a seat says: how it stands, and its trials by the place that each settles.
#[derive(Clone, Copy, Debug, PartialEq, Eq)]
pub struct Look {
    pub standing: Standing,
    pub counts: [u32; 12],
}

/// What rounds of turns did: the seats whose run ended in them, and those whose run goes on.
#[derive(Clone, Debug, PartialEq, Eq)]
pub struct Rounds {
    pub ended: Vec<u32>,
    pub going_on: Vec<u32>,
}

/// Eight seats. Each holds a copy of a hall's sheet, its node limit, a list with room for [`SEAT_PLANS`] plans and the run so far, without
/// pairs or block. What happens at one seat changes nothing at another. A hall that stays seated and not ended gets a turn within any eight
/// turns; when it ends, its list, ending and figures, its trials by window too, are those of [`crate::run_lent`] with the same node limit
/// and that room. A refusal changes nothing.
#[derive(Clone)]
pub struct Desk {
    /// DESK_BYTES of them.
    bytes: Box<[u8]>,
}

impl Desk {
    /// An empty desk.
    pub fn new() -> Desk {
        Desk { bytes: vec![0; DESK_BYTES].into() }
    }

    /// Any bytes are a desk.
    pub fn from_bytes(bytes: Box<[u8; DESK_BYTES]>) -> Desk {
        Desk { bytes }
    }

    pub fn bytes(&self) -> &[u8; DESK_BYTES] {
        self.bytes.as_ref().try_into().expect("as many bytes as a desk has")
    }

    /// Seats a newcomer at the lowest free seat, and answers its number.
    pub fn sit(&mut self, sheet: &[u8], node_limit: u32) -> Result<u32, Refusal> {
        let mut answer = [0; 12];
        Refusal::from_code(planner_desk_sit(&mut self.bytes, sheet, node_limit, &mut answer))?;
        Ok(number(&answer, 1))
    }

    /// A turn of 64 trials, fewer only if the run ends, for the next seat after the one last served whose run hasn't ended: how it stands
    /// then, or `None` if there is no such seat.
    pub fn turn(&mut self) -> Option<Standing> {
        let mut answer = [0; 16];
        let code = planner_desk_turn(&mut self.bytes, &mut answer);
        assert_eq!(code, 0, "a turn refuses nothing");
        Standing::from_answer(&answer)
    }

    /// Gives each seat whose run hasn't ended up to so many turns: the desk afterwards is that of these turns one by one, but each sheet is
    /// prepared once.
    pub fn rounds(&mut self, rounds: u32) -> Rounds {
        let mut answer = [0; 12];
        let code = planner_desk_rounds(&mut self.bytes, rounds, &mut answer);
        assert_eq!(code, 0, "rounds refuse nothing");
        let [ended, going_on] =
            [1, 2].map(|i| (0..SEATS).filter(|seat| number(&answer, i) >> seat & 1 == 1).collect());
        Rounds { ended, going_on }
    }

    /// How a seat stands.
    pub fn look(&self, seat: u32) -> Result<Look, Refusal> {
        let mut answer = [0; 64];
        Refusal::from_code(planner_desk_look(&self.bytes, seat, &mut answer))?;
        let standing = Standing::from_answer(&answer).expect("a seat that somebody holds");
        Ok(Look { standing, counts: std::array::from_fn(|place| number(&answer, 4 + place)) })
    }

    /// Frees a seat: the plans listed so far go to the front of the room; the answer is their length in bytes.
    pub fn leave(&mut self, seat: u32, room: &mut [u8]) -> Result<usize, Refusal> {
        let mut answer = [0; 12];
        Refusal::from_code(planner_desk_leave(&mut self.bytes, seat, room, &mut answer))?;
        Ok(number(&answer, 1) as usize)
    }
}

impl Default for Desk {
    fn default() -> Desk {
        Desk::new()
    }
}
