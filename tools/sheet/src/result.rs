//! What `sheet part` leaves in a file: the heads of a range that the planner answered, the plans, what they are of, and a digest of all of
//! it. A range is one head, or several that go on from each other where one can't count its trials.

use crate::make::Made;
use crate::path::word;
use crate::walker::{Step, Tree};
use crate::words::counted;
use planner::{run_part, Ending, Head, Refusal, END, HEAD_BYTES};

/// The first line of a result, with the version of what follows.
const MAGIC: &[u8] = b"sheet part 1\n";

/// The bytes of the numbers after the lines: the hall's digest, the windows, the heads and the plans.
const NUMBERS: usize = 24;

/// Do bytes begin as a result does, whole or cut short?
pub fn is_part(bytes: &[u8]) -> bool {
    bytes.iter().zip(MAGIC).all(|(one, other)| one == other)
}

/// What tells a hall from others: the digests that its heads bear, and one of its own.
#[derive(Clone, Copy, Debug, PartialEq, Eq)]
pub struct Hall {
    problem: [u8; 16],
    digest: u64,
    windows: usize,
}

impl Hall {
    pub fn new(made: &Made) -> Result<Hall, Refusal> {
        let Tree { sheet, pairs, block, windows } = Tree::of(made);
        let head = run_part(sheet, pairs, block, END, END, 0, &mut [])?;
        let lengths = [sheet, pairs, block].map(|bytes| (bytes.len() as u64).to_le_bytes()).concat();
        let digest = digest(&[&lengths, sheet, pairs, block].concat());
        Ok(Hall { problem: head.problem().try_into().expect("four digests"), digest, windows })
    }
}

/// A range of a hall's tree as far as it was run.
#[derive(Clone, Debug, PartialEq, Eq)]
pub struct Part {
    hall: Hall,
    pub heads: Vec<Head>,
    pub rows: Vec<u8>,
}

impl Part {
    /// No trial of a hall yet.
    pub fn new(hall: Hall) -> Part {
        Part { hall, heads: Vec::new(), rows: Vec::new() }
    }

    /// Takes a step that goes on from the last one and isn't full. Where its trials don't fit into the last head it gets its own.
    pub fn take(&mut self, step: Step) {
        let joined = self.heads.last().and_then(|head| together(head, &step.head));
        match (self.heads.last_mut(), joined) {
            (Some(last), Some(joined)) => *last = joined,
            _ => self.heads.push(step.head),
        }
        self.rows.extend(step.rows);
    }

    /// How many trials fit into the last head still.
    pub fn trials_left(&self) -> u64 {
        let made = self.heads.last().map_or(0, |head| head.answer().nodes);
        match u32::MAX - made {
            0 => u32::MAX.into(),
            left => left.into(),
        }
    }

    pub fn is_of(&self, hall: &Hall) -> bool {
        self.hall == *hall
    }

    pub fn is_finished(&self) -> bool {
        self.heads.last().is_some_and(|head| head.answer().ending == Ending::Finished)
    }

    /// Is it a part of this range?
    pub fn has_range(&self, from: &[u8], upto: &[u8]) -> bool {
        self.heads.first().is_some_and(|head| head.from() == from && head.upto() == upto)
    }

    pub fn plans(&self) -> usize {
        self.rows.len() / self.hall.windows
    }

    /// The plans of one of its heads.
    pub fn rows_of(&self, head: usize) -> &[u8] {
        let plans = |heads: &[Head]| heads.iter().map(|head| head.answer().plans as usize).sum::<usize>();
        &self.rows
            [self.hall.windows * plans(&self.heads[..head])..self.hall.windows * plans(&self.heads[..=head])]
    }

    /// The last trial made, else where it begins.
    pub fn last(&self) -> &[u8] {
        self.heads.last().map_or(planner::START, Head::last)
    }

    /// The range and what was found, for people.
    pub fn words(&self) -> String {
        let trials: u64 = self.heads.iter().map(|head| u64::from(head.answer().nodes)).sum();
        let found = format!("{}, {}", counted(self.plans() as u64, "plan"), counted(trials, "trial"));
        let Some(head) = self.heads.first() else { return found };
        let reached = match self.is_finished() {
            true => String::new(),
            false => format!(", come to {}", word(self.last())),
        };
        format!("{} {}{reached}: {found}", word(head.from()), word(head.upto()))
    }

    pub fn bytes(&self) -> Vec<u8> {
        let Hall { digest: hall, windows, .. } = self.hall;
        let mut bytes = [MAGIC, self.words().as_bytes(), b"\n", &hall.to_le_bytes()].concat();
        bytes.extend((windows as u32).to_le_bytes());
        bytes.extend((self.heads.len() as u32).to_le_bytes());
        bytes.extend((self.plans() as u64).to_le_bytes());
        bytes.extend(self.heads.iter().flat_map(|head| head.bytes()));
        bytes.extend(&self.rows);
        bytes.extend(digest(&bytes).to_le_bytes());
        bytes
    }

    /// The part that bytes hold; nothing where they are cut short, damaged or something else.
    pub fn read(bytes: &[u8]) -> Option<Part> {
        let rest = bytes.strip_prefix(MAGIC)?;
        let line = rest.iter().take(200).position(|byte| *byte == b'\n')? + 1;
        let (numbers, rest) = rest[line..].split_at_checked(NUMBERS)?;
        let hall = u64::from_le_bytes(numbers[..8].try_into().ok()?);
        let small =
            |at: usize| u32::from_le_bytes(numbers[at..at + 4].try_into().expect("four bytes")) as usize;
        let [windows, heads] = [8, 12].map(small);
        let (heads, rest) = rest.split_at_checked(heads.checked_mul(HEAD_BYTES)?)?;
        let heads: Vec<Head> = heads
            .chunks(HEAD_BYTES)
            .map(|head| Head::from_bytes(head.try_into().expect("a whole head")))
            .collect();
        let rows = rest.get(..rest.len().checked_sub(8)?)?.to_vec();
        let problem = heads.first()?.problem().try_into().ok()?;
        let part = Part { hall: Hall { problem, digest: hall, windows }, heads, rows };
        (windows > 0 && part.is_whole() && part.bytes() == bytes).then_some(part)
    }

    /// Do the heads go on from each other, none of them full, and list as many plans as there are?
    fn is_whole(&self) -> bool {
        let plans: u64 = self.heads.iter().map(|head| u64::from(head.answer().plans)).sum();
        let goes_on = |two: &[Head]| {
            two[0].answer().ending == Ending::Spent
                && two[0].last() == two[1].from()
                && two[0].upto() == two[1].upto()
                && two[0].problem() == two[1].problem()
        };
        plans * self.hall.windows as u64 == self.rows.len() as u64
            && self.heads.iter().all(|head| head.answer().ending != Ending::Full)
            && self.heads.windows(2).all(goes_on)
    }
}

/// The head of two parts of which the second goes on from the first, if it can count their trials.
fn together(one: &Head, two: &Head) -> Option<Head> {
    let (first, second) = (one.answer(), two.answer());
    first.nodes.checked_add(second.nodes)?;
    let sum = |at: usize| {
        let number =
            |head: &Head| u32::from_le_bytes(head.bytes()[at..at + 4].try_into().expect("four bytes"));
        (number(one) + number(two)).to_le_bytes()
    };
    let mut bytes = *two.bytes();
    (4..60).step_by(4).for_each(|at| bytes[at..at + 4].copy_from_slice(&sum(at)));
    bytes[76..89].copy_from_slice(&one.bytes()[76..89]);
    Some(Head::from_bytes(bytes))
}

/// FNV-1a in 64 bits.
fn digest(bytes: &[u8]) -> u64 {
    let step = |sum: u64, byte: &u8| (sum ^ u64::from(*byte)).wrapping_mul(0x0000_0100_0000_01b3);
    bytes.iter().fold(0xcbf2_9ce4_8422_2325, step)
}

#[cfg(test)]
mod tests {
    use super::*;

    /// A head of a hall that has the digests 0: its kind, plans and trials, where it begins and where it stands.
    fn head([kind, plans, trials]: [u32; 3], from: &[u8], last: &[u8]) -> Head {
        let path = |path: &[u8]| [&[path.len() as u8], path, &[0; 12][path.len()..]].concat();
        let numbers = [kind, plans, trials].map(u32::to_le_bytes).concat();
        let bytes = [numbers, vec![0; 64], path(from), path(END), path(last)].concat();
        Head::from_bytes(bytes.try_into().unwrap())
    }

    #[test]
    fn more_trials_than_a_head_counts() {
        let mut part = Part::new(Hall { problem: [0; 16], digest: 7, windows: 2 });
        part.take(Step { head: head([2, 1, u32::MAX - 15], &[], &[2]), rows: &[1, 2] });
        part.take(Step { head: head([2, 0, 10], &[2], &[3]), rows: &[] });
        assert_eq!((part.heads.len(), part.trials_left()), (1, 5));
        part.take(Step { head: head([2, 1, 5], &[3], &[4]), rows: &[3, 4] });
        assert_eq!((part.heads.len(), part.trials_left()), (1, u32::MAX.into()));
        part.take(Step { head: head([1, 2, 20], &[4], &[9]), rows: &[5, 6, 7, 8] });
        assert_eq!(part.heads, [head([2, 2, u32::MAX], &[], &[4]), head([1, 2, 20], &[4], &[9])]);
        assert_eq!([part.rows_of(0), part.rows_of(1)], [[1, 2, 3, 4], [5, 6, 7, 8]]);
        assert!(part.is_finished() && part.has_range(&[], END));
        assert_eq!(part.words(), "start end: 4 plans, 4,294,967,315 trials");
        assert_eq!(Part::read(&part.bytes()), Some(part));
    }
}
