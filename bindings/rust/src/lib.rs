//! Safe functions over the proved hall planner, libplanner.a. Every function takes any slices: what a
//! caller can get wrong comes back as a [`Refusal`] with its number, which [`words`] puts in words. Any
//! number of threads may call at once. A call takes up to [`STACK_BYTES`] of the thread's stack;
//! [`with_stack`] makes it on a thread of its own.

use planner_sys::{planner_filter, planner_question, planner_report, planner_run};
use std::{fmt, io, panic, thread};

mod closed;
mod columns;
mod desk;
mod enough;
mod families;
mod lent;
mod merge;
mod parts;
mod small;
mod store;
mod version;
mod words;

pub use closed::{closed, Closed};
pub use columns::{columns, rows};
pub use desk::{Desk, Look, Rounds, Standing, DESK_BYTES, SEATS, SEAT_PLANS};
pub use enough::{at_least, Enough};
pub use families::families;
pub use lent::{question_lent, run_lent, LentAnswer};
pub use merge::merge;
pub use parts::{join, run_part, Head, Join, Sums, END, HEAD_BYTES, START};
pub use small::{small_sheet, small_sheets};
pub use store::{Store, STORE_BYTES, TABLE_BYTES};
pub use version::{version, Version, VERSION};
pub use words::{item_words, words};

/// The mark for an absent value in a nogood list.
pub const ABSENT: u8 = 255;

/// A stack that is enough for every call, with some to spare for the thread itself; planner.h has the figures.
pub const STACK_BYTES: usize = 384 * 1024;

/// No report is longer.
const REPORT_ROOM: usize = 217_160;

/// The first question answered "no", and the window, rule, exchange or entry that it speaks of.
#[derive(Clone, Copy, Debug, PartialEq, Eq)]
pub struct Refusal {
    pub number: u32,
    pub item: u32,
}

impl Refusal {
    /// A refusal as the exported functions give it, number * 256 + item.
    fn from_code(code: u32) -> Result<(), Refusal> {
        match code {
            0 => Ok(()),
            _ => Err(Refusal { number: code / 256, item: code % 256 }),
        }
    }

    /// What was asked and isn't so.
    pub fn words(&self) -> &'static str {
        words(self.number).unwrap_or("")
    }
}

impl fmt::Display for Refusal {
    fn fmt(&self, f: &mut fmt::Formatter) -> fmt::Result {
        write!(f, "refused {} {}", self.number, self.item)
    }
}

impl std::error::Error for Refusal {}

/// How a run ended.
#[derive(Clone, Copy, Debug, PartialEq, Eq)]
pub enum Ending {
    /// Nothing is left to try: the list is complete.
    Finished,
    /// A further trial is due, and the node limit is reached.
    Spent,
    /// The last trial found a plan that the list has no room for.
    Full,
}

impl Ending {
    /// The ending that an answer's kind stands for.
    fn from_kind(kind: u32) -> Ending {
        match kind {
            1 => Ending::Finished,
            2 => Ending::Spent,
            _ => Ending::Full,
        }
    }
}

/// How the filter ended.
#[derive(Clone, Copy, Debug, PartialEq, Eq)]
pub enum FilterEnding {
    /// Some assignments from the sets left obey the nogoods, and some don't.
    Consistent,
    /// Every assignment from the sets left obeys them all, and there is one.
    Entailed,
    /// No assignment from the lent sets obeys them: every set is empty now.
    Failed,
}

/// What a run answers: its ending, the plans listed and the trials made.
#[derive(Clone, Copy, Debug, PartialEq, Eq)]
pub struct Answer {
    pub ending: Ending,
    pub plans: u32,
    pub nodes: u32,
}

impl Answer {
    /// What the first three numbers of an answer say.
    fn from_bytes(answer: &[u8]) -> Answer {
        let [kind, plans, nodes] = [0, 1, 2].map(|i| number(answer, i));
        Answer { ending: Ending::from_kind(kind), plans, nodes }
    }
}

/// Makes a call on a thread of its own that has enough stack, and waits for it. The error is that no thread
/// could be made.
pub fn with_stack<T: Send>(call: impl FnOnce() -> T + Send) -> io::Result<T> {
    thread::scope(|scope| {
        let thread = thread::Builder::new().stack_size(2 * STACK_BYTES).spawn_scoped(scope, call)?;
        Ok(thread.join().unwrap_or_else(|cause| panic::resume_unwind(cause)))
    })
}

/// Puts questions 1 to 16 to a sheet.
pub fn question(sheet: &[u8]) -> Result<(), Refusal> {
    Refusal::from_code(planner_question(sheet))
}

/// Filters sets of values (bit v for value v) by nogoods in three lists of one length. Entry i speaks of the
/// window `index[i]`, and one of `equal[i]` and `not_equal[i]` is [`ABSENT`]: an equal value adds "the window
/// has it" to what the entries after it ask; a not-equal value says that the window hasn't it if all that was
/// added before holds. After a refusal the sets are as they came.
pub fn filter(
    sets: &mut [u16],
    index: &[u8],
    equal: &[u8],
    not_equal: &[u8],
) -> Result<FilterEnding, Refusal> {
    let mut bytes: Vec<u8> = sets.iter().flat_map(|set| set.to_le_bytes()).collect();
    let code = planner_filter(&mut bytes, index, equal, not_equal);
    let ending = match code {
        0 => FilterEnding::Consistent,
        1 => FilterEnding::Entailed,
        2 => FilterEnding::Failed,
        _ => return Err(Refusal { number: code / 256, item: code % 256 }),
    };
    for (set, two) in sets.iter_mut().zip(bytes.chunks(2)) {
        *set = u16::from_le_bytes([two[0], two[1]]);
    }
    Ok(ending)
}

/// Lists the sheet's plans, n bytes each, at the front of the list, with at most `node_limit` trials.
/// The bytes after the listed plans are unchanged; after a refusal all are.
pub fn run(sheet: &[u8], node_limit: u32, list: &mut [u8]) -> Result<Answer, Refusal> {
    let mut answer = [0; 12];
    Refusal::from_code(planner_run(sheet, node_limit, list, &mut answer))?;
    Ok(Answer::from_bytes(&answer))
}

/// The i-th of an answer's 32-bit numbers, low byte first.
fn number(answer: &[u8], i: usize) -> u32 {
    u32::from_le_bytes(answer[4 * i..4 * i + 4].try_into().expect("four bytes"))
}

/// What the lister prints for this standard input.
pub fn report(input: &[u8]) -> String {
    let mut out = vec![0; REPORT_ROOM];
    let mut answer = [0; 12];
    let code = planner_report(input, &mut out, &mut answer);
    assert_eq!(code, 0, "room for every report");
    out.truncate(number(&answer, 1) as usize);
    String::from_utf8(out).expect("a report is plain text")
}
