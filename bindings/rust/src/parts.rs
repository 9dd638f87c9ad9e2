//! A run in parts: the trials of one tree between two paths, run apart and joined.
//!
//! A path is any bytes: the values of windows in the settling order. No bytes ([`START`]) is before the first trial, the one byte 255
//! ([`END`]) after the last; otherwise a trial comes after a path that is the front of it, or that has the smaller value at the first
//! difference. Parts that go on from each other, whatever their limits and lists, are together the run.

use crate::{number, Answer, Refusal};
use planner_sys::{planner_join, planner_run_part};

/// The path before the first trial.
pub const START: &[u8] = &[];

/// The path after the last trial.
pub const END: &[u8] = &[255];

/// The bytes of a head.
pub const HEAD_BYTES: usize = 115;

/// What a part answers: how it ended, its range, where it stands, and the name of its problem.
#[derive(Clone, Copy, Debug, PartialEq, Eq)]
pub struct Head {
    bytes: [u8; HEAD_BYTES],
}

impl Head {
    /// Any bytes are taken; [`join`] asks whether they are a head.
    pub fn from_bytes(bytes: [u8; HEAD_BYTES]) -> Head {
        Head { bytes }
    }

    /// As [`join`] takes it, one head behind the other.
    pub fn bytes(&self) -> &[u8; HEAD_BYTES] {
        &self.bytes
    }

    /// The ending, the plans listed and the trials made.
    pub fn answer(&self) -> Answer {
        Answer::from_bytes(&self.bytes)
    }

    /// The trials by the window that each settles.
    pub fn counts(&self) -> [u32; 12] {
        std::array::from_fn(|window| number(&self.bytes, 3 + window))
    }

    /// The digests that name the sheet, the pairs and the block.
    pub fn problem(&self) -> &[u8] {
        &self.bytes[60..76]
    }

    /// Where the part begins; of a longer path its first twelve values, which mean the same range.
    pub fn from(&self) -> &[u8] {
        path(&self.bytes[76..89])
    }

    /// Where it is to end.
    pub fn upto(&self) -> &[u8] {
        path(&self.bytes[89..102])
    }

    /// The last trial made, else where it begins: a spent part is gone on with from here.
    pub fn last(&self) -> &[u8] {
        path(&self.bytes[102..115])
    }
}

/// A path in thirteen bytes: its length, at most twelve, then its values.
fn path(bytes: &[u8]) -> &[u8] {
    &bytes[1..][..usize::from(bytes[0]).min(12)]
}

/// As [`crate::run_lent`], for exactly the trials that come after the path `from` and not after `upto`, with a limit and a list of their
/// own. After a refusal the list is as it came.
pub fn run_part(
    sheet: &[u8],
    pairs: &[u8],
    block: &[u8],
    from: &[u8],
    upto: &[u8],
    node_limit: u32,
    list: &mut [u8],
) -> Result<Head, Refusal> {
    let mut bytes = [0; HEAD_BYTES];
    Refusal::from_code(planner_run_part(sheet, pairs, block, from, upto, node_limit, list, &mut bytes))?;
    Ok(Head { bytes })
}

/// The figures of parts together.
#[derive(Clone, Copy, Debug, PartialEq, Eq)]
pub struct Sums {
    pub plans: u64,
    pub nodes: u64,
    pub counts: [u64; 12],
}

/// What heads say together.
#[derive(Clone, Debug, PartialEq, Eq)]
pub enum Join {
    /// The parts go from the first to the last path: the figures are those of the run.
    Joined(Sums),
    /// No part goes on from the path `from`; the next that begins after it begins at `upto`. The figures are those of the parts up to
    /// there.
    Missing { from: Vec<u8>, upto: Vec<u8>, sums: Sums },
}

/// Joins the heads of parts, one behind the other, in any order and with repeats. They are joined exactly if some of them go, each from
/// where the one before it reaches, from the first to the last path. Beginning at the first path, always that head is taken that begins
/// where one stands and reaches furthest, of equals the first; of heads that join only those that lead to the last path. Refusals: 41 (no
/// half head, at most 65,536 heads), 42 (each has the shape of a head), 43 (all are of one problem), 44 (none is full).
pub fn join(heads: &[u8]) -> Result<Join, Refusal> {
    let mut answer = [0; 152];
    Refusal::from_code(planner_join(heads, &mut answer))?;
    let sums = Sums {
        plans: wide(&answer, 1),
        nodes: wide(&answer, 2),
        counts: std::array::from_fn(|window| wide(&answer, 3 + window)),
    };
    Ok(match number(&answer, 0) {
        1 => Join::Joined(sums),
        _ => Join::Missing {
            from: path(&answer[120..133]).to_vec(),
            upto: path(&answer[133..146]).to_vec(),
            sums,
        },
    })
}

/// The i-th of an answer's 64-bit numbers, low byte first.
fn wide(answer: &[u8], i: usize) -> u64 {
    u64::from_le_bytes(answer[8 * i..8 * i + 8].try_into().expect("eight bytes"))
}
