//! Examples of part `lent`: blocks of 2 to 5 alike places (paper 02, #111) at each place of a hall, right and wrong, with
//! pairs that order their places, on sheets with exchanges of their own too.

use crate::lent::{question, run, Lent};
use crate::tally::Tally;
use oracle::sheet::Constraint;
use oracle::Problem;
use sheets::{encode, Rng};

/// An allowance that is enough in small halls.
const SOME: u32 = 240;

pub fn examples(tally: &mut Tally) {
    for places in [2, 3, 4, 5, 6, 12] {
        for block in blocks(places) {
            let exchanges = usize::from(block[0] + block[1]) % 3;
            for hall in [free(places, 3), different_hall(places, 4), joined(places, block)] {
                with_pairs(&with_exchanges(hall, exchanges), block, tally);
            }
            unlike(&free(places, 2), exchanges, block, tally);
        }
        for block in no_blocks(places) {
            compare(&free(places, 2), &[], &block, SOME, tally);
            compare(&with_exchanges(different_hall(places, 3), 16), &[1, 0], &block, SOME, tally);
        }
    }
    for (places, limit) in [(2, 1_000_000), (3, 1_000_000), (4, 60), (5, 60), (6, 20), (12, 20)] {
        let hall = with_exchanges(different_hall(places, 16), places % 2);
        for block in blocks(places) {
            compare(&hall, &[], &block, limit, tally);
            compare(&hall, &[block[0] + 1, block[0]], &block, limit, tally);
        }
    }
}

/// Every block of a hall: 2 to 5 places from each first place on.
fn blocks(places: usize) -> Vec<[u8; 2]> {
    let of =
        |count: usize| (0..(places + 1).saturating_sub(count)).map(move |first| [first as u8, count as u8]);
    (2..=5).flat_map(of).collect()
}

/// Blocks past the last place, of 0, 1, 6 and 255 places, and of 1 and 3 bytes.
fn no_blocks(places: usize) -> Vec<Vec<u8>> {
    let past = (2..=5).map(|count| vec![(places as u8 + 1).saturating_sub(count), count]);
    let counts = [0, 1, 6, 255].map(|count| vec![0, count]);
    let others = [vec![0], vec![0, 2, 0], vec![places as u8, 2], vec![255, 2], vec![254, 255]];
    past.chain(counts).chain(others).collect()
}

/// No rules.
fn free(places: usize, values: usize) -> Problem {
    let initial = vec![((1u32 << values) - 1) as u16; places];
    Problem { variables: places, values, initial, constraints: Vec::new(), symmetries: Vec::new() }
}

pub fn different(places: [usize; 2], values: usize) -> Constraint {
    let rows = (0..values * values).map(|number| vec![number / values, number % values]);
    Constraint { scope: places.to_vec(), rows: rows.filter(|row| row[0] != row[1]).collect() }
}

/// All places different, or the first six of more.
pub fn different_hall(places: usize, values: usize) -> Problem {
    let mut hall = free(places, values);
    for second in 1..places.min(6) {
        hall.constraints.extend((0..second).map(|first| different([first, second], values)));
    }
    hall
}

/// Each place of the block has the same rule with every second place outside it, as far as 32 rules go.
fn joined(places: usize, block: [u8; 2]) -> Problem {
    let mut hall = free(places, 3);
    let inside = usize::from(block[0])..usize::from(block[0] + block[1]);
    for other in (0..places).filter(|place| !inside.contains(place)).step_by(2) {
        for place in inside.clone() {
            let mut rule = different([place.min(other), place.max(other)], 3);
            rule.rows.retain(|row| row[usize::from(other > place)] != 1 + other % 2);
            hall.constraints.push(rule);
        }
    }
    hall.constraints.truncate(32 / inside.len() * inside.len());
    hall
}

/// With so many exchanges of its own: by turns of the values 0 and 1 of all places, and of nothing; in a hall that values
/// aren't alike in, of nothing.
pub fn with_exchanges(mut hall: Problem, count: usize) -> Problem {
    let numbers = 0..hall.variables * hall.values;
    let trade = |number: usize| match number % hall.values {
        0 => number + 1,
        1 => number - 1,
        _ => number,
    };
    let alike = hall.constraints.iter().all(|rule| rule.rows.len() == hall.values * (hall.values - 1));
    let tables = [numbers.clone().collect::<Vec<usize>>(), numbers.map(trade).collect()];
    hall.symmetries =
        (0..count).map(|number| tables[(number + 1) % 2 * usize::from(alike)].clone()).collect();
    hall
}

/// Without pairs, and with pairs that order the block's places: forwards, backwards, from the middle on; backwards all
/// places too.
fn with_pairs(hall: &Problem, block: [u8; 2], tally: &mut Tally) {
    let [first, last] = [block[0], block[0] + block[1] - 1];
    let forwards: Vec<u8> = (first..last).flat_map(|place| [place, place + 1]).collect();
    let backwards: Vec<u8> = (first..last).flat_map(|place| [place + 1, place]).collect();
    let all: Vec<u8> = (1..hall.variables as u8).flat_map(|place| [place, place - 1]).collect();
    let middle = vec![first + block[1] / 2, first];
    for pairs in [Vec::new(), forwards, backwards, all, middle] {
        compare(hall, &pairs, &block, SOME / hall.variables as u32, tally);
    }
}

/// A block of which one place has a smaller set (15), a rule of its own (16), with another of them a rule that isn't the
/// same both ways (16), or a rule of its own where the first place has a smaller set (the lower item), on a sheet with so
/// many exchanges of nothing.
fn unlike(hall: &Problem, exchanges: usize, block: [u8; 2], tally: &mut Tally) {
    let mut hall = hall.clone();
    hall.symmetries = vec![(0..2 * hall.variables).collect(); exchanges];
    let first = usize::from(block[0]);
    for place in first..first + usize::from(block[1]) {
        let [mut set, mut own, mut both] = [0; 3].map(|_| hall.clone());
        set.initial[place] = 1;
        own.constraints.push(Constraint { scope: vec![place], rows: vec![vec![1]] });
        let other = if place == first { first + 1 } else { first };
        let rows = [[0, 0], [0, 1], [1, 1]].map(|row| row.to_vec()).to_vec();
        both.constraints.push(Constraint { scope: vec![place.min(other), place.max(other)], rows });
        let mut two_faults = own.clone();
        two_faults.initial[first] = 2;
        for hall in [set, own, both, two_faults] {
            compare(&hall, &[], &block, SOME, tally);
        }
    }
}

/// Compares the questions and one run with the oracle's.
fn compare(hall: &Problem, pairs: &[u8], block: &[u8], limit: u32, tally: &mut Tally) {
    let lent = Lent { sheet: encode(hall), pairs: pairs.to_vec(), block: block.to_vec() };
    let (n, d, g) = (hall.variables, hall.values, hall.symmetries.len());
    tally.case =
        format!("part lent, {n} places of {d} values, {g} exchanges, pairs {pairs:?}, block {block:?}");
    question(&lent, tally);
    run(&lent, limit, 12 * 600, &mut Rng::new(1), tally);
}
