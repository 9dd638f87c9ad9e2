//! A tree cut into parts of about the same size. The cut follows from the hall and the number of parts alone.

use crate::make::Made;
use crate::sketch::{Sets, Sketch};
use planner::{END, START};
use std::collections::BinaryHeap;

/// So many ways down from a path say how large the tree is below it.
const DIVES: u64 = 8;

/// A piece of the tree that has at most this part of a part's share isn't cut further.
const FINE: u128 = 16;

/// The trials of the sketch that a cut may take, and those for each part.
const TRIALS: u64 = 20_000;
const TRIALS_OF_PART: u64 = 400;

/// The tree below a path, and its guessed size.
#[derive(Clone, Debug, PartialEq, Eq, PartialOrd, Ord)]
struct Piece {
    size: u128,
    path: Vec<u8>,
    sets: Sets,
}

/// The ranges of so many parts, in order: where each begins and ends.
pub fn cut(made: &Made, parts: usize) -> Vec<[Vec<u8>; 2]> {
    let bounds = bounds(made, parts);
    let begins = [START.to_vec()].into_iter().chain(bounds.iter().cloned());
    let ends = bounds.iter().cloned().chain([END.to_vec()]);
    begins.zip(ends).map(|(from, upto)| [from, upto]).collect()
}

/// The paths between so many parts, ascending: each is that of the first piece whose middle comes after so many parts' shares.
fn bounds(made: &Made, parts: usize) -> Vec<Vec<u8>> {
    let mut pieces = Pieces::new(made, parts).all();
    pieces.sort_by(|one, other| one.path.cmp(&other.path));
    let mut total = 0;
    let middle = |piece: &Piece| {
        let middle = 2 * total + piece.size;
        total += piece.size;
        middle
    };
    let middles: Vec<u128> = pieces.iter().map(middle).collect();
    let bound = |before: usize| {
        let first = middles.partition_point(|middle| middle * (parts as u128) < 2 * total * before as u128);
        pieces.get(first).map_or(END.to_vec(), |piece| piece.path.clone())
    };
    (1..parts).map(bound).collect()
}

/// The pieces of a tree, the largest to be cut next.
struct Pieces {
    sketch: Sketch,
    pieces: BinaryHeap<Piece>,
    total: u128,
    parts: u128,
    /// The trials left.
    trials: u64,
    /// What the next way down follows.
    chance: u64,
}

impl Pieces {
    fn new(made: &Made, parts: usize) -> Pieces {
        let trials = TRIALS + TRIALS_OF_PART * parts as u64;
        let sketch = Sketch::new(made);
        let mut pieces =
            Pieces { sketch, pieces: BinaryHeap::new(), total: 0, parts: parts as u128, trials, chance: 1 };
        if let Some(sets) = pieces.sketch.root() {
            pieces.add(START.to_vec(), sets);
        }
        pieces
    }

    /// Cuts the largest piece, as long as it is large and trials are left.
    fn all(mut self) -> Vec<Piece> {
        while let Some(piece) = self.pieces.pop() {
            let is_small = piece.size * self.parts * FINE <= self.total;
            if is_small || self.trials == 0 || piece.path.len() == self.sketch.depth() {
                self.pieces.push(piece);
                break;
            }
            self.total -= piece.size;
            self.divide(&piece);
        }
        self.pieces.into_vec()
    }

    /// The pieces below one.
    fn divide(&mut self, piece: &Piece) {
        let depth = piece.path.len();
        for value in self.sketch.values(&piece.sets, depth).collect::<Vec<_>>() {
            self.trials = self.trials.saturating_sub(1);
            if let Some(sets) = self.sketch.tried(&piece.sets, depth, value) {
                self.add([&piece.path[..], &[value]].concat(), sets);
            }
        }
    }

    fn add(&mut self, path: Vec<u8>, sets: Sets) {
        let size = 1 + (0..DIVES).map(|_| self.dive(sets, path.len())).sum::<u128>();
        self.total += size;
        self.pieces.push(Piece { size, path, sets });
    }

    /// The trials that there would be below a path if every way down had as many choices as this one.
    fn dive(&mut self, mut sets: Sets, depth: usize) -> u128 {
        let (mut width, mut trials) = (1, 0);
        for depth in depth..self.sketch.depth() {
            let values: Vec<u8> = self.sketch.values(&sets, depth).collect();
            width *= values.len() as u128;
            trials += width;
            let value = values[self.chosen(values.len())];
            self.trials = self.trials.saturating_sub(1);
            match self.sketch.tried(&sets, depth, value) {
                Some(left) => sets = left,
                None => break,
            }
        }
        trials
    }

    /// One of so many choices, by the numbers of a generator that always begins alike.
    fn chosen(&mut self, choices: usize) -> usize {
        self.chance =
            self.chance.wrapping_mul(6_364_136_223_846_793_005).wrapping_add(1_442_695_040_888_963_407);
        ((self.chance >> 33) % choices as u64) as usize
    }
}
