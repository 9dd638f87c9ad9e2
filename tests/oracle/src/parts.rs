//! A run in parts: the trials of the tree that come after one path and not after another, walked along with a limit and a list of their own,
//! and the heads of parts joined. Paths are compared as words in a dictionary are: the front of a word comes before it.

use crate::lent::{question_lent, sets_at, trials_below, Tallied};
use crate::{Ending, Outcome, Refusal};
use std::cmp::Reverse;
use std::collections::HashSet;

/// The bytes of a head, and the path after the last trial.
pub const HEAD_BYTES: usize = 115;
pub const END: [u8; 1] = [255];

/// What a part is lent besides its list.
#[derive(Clone, Copy)]
pub struct Range<'a> {
    pub from: &'a [u8],
    pub upto: &'a [u8],
    pub node_limit: u32,
}

/// A trial, and whether it finds a plan.
pub struct Trial {
    pub path: Vec<u8>,
    pub plan: bool,
}

/// All trials in the order in which they are due, drawn once for many runs.
pub struct Tree {
    order: Vec<usize>,
    pub trials: Vec<Trial>,
}

/// A run along the trials of a range, and its last trial or the range's first path.
pub struct Walked {
    pub tallied: Tallied,
    last: Vec<u8>,
}

impl Tree {
    pub fn new(sheet: &[u8], pairs: &[u8], block: &[u8]) -> Result<Tree, Refusal> {
        let (problem, order) = question_lent(sheet, pairs, block)?;
        let (mut trials, mut due) = (Vec::new(), trials_below(&problem, &order, &[]));
        while let Some(prefix) = due.pop() {
            let settled = prefix.len() == order.len();
            let plan = settled && sets_at(&problem, &order, &prefix).is_some();
            trials.push(Trial { path: prefix.iter().map(|&value| value as u8).collect(), plan });
            if !settled {
                due.extend(trials_below(&problem, &order, &prefix));
            }
        }
        Ok(Tree { order, trials })
    }

    pub fn walk(&self, range: Range, list: &mut [u8]) -> Walked {
        let (mut plans, mut nodes, mut counts, mut last) = (0, 0, [0; 12], range.from);
        let mut ending = Ending::Finished;
        for trial in self
            .trials
            .iter()
            .filter(|trial| trial.path.as_slice() > range.from && trial.path.as_slice() <= range.upto)
        {
            if nodes == range.node_limit {
                ending = Ending::Spent;
                break;
            }
            nodes += 1;
            counts[self.order[trial.path.len() - 1]] += 1;
            last = &trial.path;
            if !trial.plan {
                continue;
            }
            let Some(row) = list.chunks_exact_mut(self.order.len()).nth(plans as usize) else {
                ending = Ending::Full;
                break;
            };
            for (&place, &value) in self.order.iter().zip(&trial.path) {
                row[place] = value;
            }
            plans += 1;
        }
        Walked { tallied: Tallied { outcome: Outcome { ending, plans, nodes }, counts }, last: last.to_vec() }
    }
}

/// The head of a part.
pub fn head(sheet: &[u8], pairs: &[u8], block: &[u8], range: Range, walked: &Walked) -> [u8; HEAD_BYTES] {
    let Outcome { ending, plans, nodes } = walked.tallied.outcome;
    let name = [digest(sheet, 1000003), digest(sheet, 65599), digest(pairs, 1000003), digest(block, 1000003)];
    let numbers = [&[kind(ending), plans, nodes][..], &walked.tallied.counts, &name].concat();
    let mut head: Vec<u8> = numbers.into_iter().flat_map(u32::to_le_bytes).collect();
    for path in [range.from, range.upto, &walked.last] {
        head.extend(path_bytes(path));
    }
    head.try_into().expect("115 bytes")
}

fn kind(ending: Ending) -> u32 {
    match ending {
        Ending::Finished => 1,
        Ending::Spent => 2,
        Ending::Full => 3,
    }
}

fn digest(bytes: &[u8], base: u64) -> u32 {
    bytes.iter().fold(1u64, |h, &x| (h * base + u64::from(x) + 1) % 2147483647) as u32
}

/// How many of its first twelve values there are, these, zeros.
fn path_bytes(path: &[u8]) -> [u8; 13] {
    let mut bytes = [0; 13];
    let kept = path.len().min(12);
    bytes[0] = kept as u8;
    bytes[1..=kept].copy_from_slice(&path[..kept]);
    bytes
}

/// The figures of parts together: plans, trials, twelve counts.
pub type Sums = [u64; 14];

/// What heads say together: their sums, and the range that is missing, if one is.
#[derive(Clone, Debug, PartialEq, Eq)]
pub struct Join {
    pub sums: Sums,
    pub missing: Option<(Vec<u8>, Vec<u8>)>,
}

impl Outcome {
    /// The figures of a run and its counts as sums.
    pub fn sums(&self, counts: &[u32; 12]) -> Sums {
        let mut sums = [0; 14];
        sums[0] = u64::from(self.plans);
        sums[1] = u64::from(self.nodes);
        for (sum, &count) in sums[2..].iter_mut().zip(counts) {
            *sum = u64::from(count);
        }
        sums
    }
}

impl Join {
    /// The answer of 152 bytes.
    pub fn bytes(&self) -> Vec<u8> {
        let mut bytes = u64::from(1 + u32::from(self.missing.is_some())).to_le_bytes().to_vec();
        bytes.extend(self.sums.iter().flat_map(|sum| sum.to_le_bytes()));
        if let Some((from, upto)) = &self.missing {
            bytes.extend(path_bytes(from));
            bytes.extend(path_bytes(upto));
        }
        bytes.resize(152, 0);
        bytes
    }
}

/// A head as it is read.
struct Head<'a> {
    bytes: &'a [u8],
}

impl<'a> Head<'a> {
    fn number(&self, i: usize) -> u32 {
        u32::from_le_bytes(self.bytes[4 * i..4 * i + 4].try_into().expect("four bytes"))
    }

    fn path(&self, at: usize) -> &'a [u8] {
        &self.bytes[at + 1..at + 1 + usize::from(self.bytes[at])]
    }

    fn from(&self) -> &'a [u8] {
        self.path(76)
    }

    fn reach(&self) -> &'a [u8] {
        self.path(if self.number(0) == 1 { 89 } else { 102 })
    }

    fn is_head(&self) -> bool {
        (1..=3).contains(&self.number(0))
            && [76, 89, 102].iter().all(|&at| {
                let (length, values) = (usize::from(self.bytes[at]), &self.bytes[at + 1..at + 13]);
                length <= 12 && values[length..].iter().all(|&value| value == 0)
            })
    }
}

/// The paths from which some heads go to the last path, each from where the one before it reaches. A head reaches only what comes after its
/// beginning, so those that begin later come first.
fn ways<'a>(heads: &[Head<'a>]) -> HashSet<&'a [u8]> {
    let mut onward: Vec<&Head<'a>> = heads.iter().filter(|head| head.from() < head.reach()).collect();
    onward.sort_by_key(|head| Reverse(head.from()));
    let mut ways = HashSet::from([&END[..]]);
    for head in onward {
        if ways.contains(head.reach()) {
            ways.insert(head.from());
        }
    }
    ways
}

/// The questions 41 to 44, then the heads one behind the other: those that lead to the last path, if there are such from the first on.
pub fn join(bytes: &[u8]) -> Result<Join, Refusal> {
    let heads: Vec<Head> = bytes.chunks(HEAD_BYTES).map(|bytes| Head { bytes }).collect();
    let ask = |yes: bool, number: u32| if yes { Ok(()) } else { Err(Refusal { number, item: 0 }) };
    ask(bytes.len() % HEAD_BYTES == 0 && heads.len() <= 65_536, 41)?;
    ask(heads.iter().all(Head::is_head), 42)?;
    ask(heads.iter().all(|head| head.bytes[60..76] == heads[0].bytes[60..76]), 43)?;
    ask(heads.iter().all(|head| head.number(0) != 3), 44)?;
    let ways = ways(&heads);
    let joins = ways.contains(&[][..]);
    let may = |head: &&Head| !joins || ways.contains(head.reach());
    let (mut here, mut sums): (&[u8], Sums) = (&[], [0; 14]);
    while here != END {
        let from_here = heads.iter().filter(|head| head.from() == here && may(head));
        let Some(furthest) = from_here.clone().map(Head::reach).max() else {
            break;
        };
        if furthest <= here {
            break;
        }
        let head = from_here.clone().find(|head| head.reach() == furthest).expect("the furthest");
        for (i, sum) in sums.iter_mut().enumerate() {
            *sum += u64::from(head.number(i + 1));
        }
        here = furthest;
    }
    let nearest = heads.iter().map(Head::from).filter(|&from| from > here).min().unwrap_or(&END);
    let missing = (here != END).then(|| (here.to_vec(), nearest.to_vec()));
    Ok(Join { sums, missing })
}
