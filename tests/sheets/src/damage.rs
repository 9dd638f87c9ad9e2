//! Sheets with one or several faults, at every field.

use crate::encode::{encode, layout, Layout};
use crate::Rng;
use oracle::Problem;

/// A problem's sheet with up to three faults. Now and then a fault leaves the sheet right.
pub fn damaged(rng: &mut Rng, problem: &Problem) -> Vec<u8> {
    let mut sheet = encode(problem);
    let place = layout(problem);
    for _ in 0..rng.pick(&[1, 1, 1, 2, 3]) {
        if sheet.len() >= 16 {
            fault(rng, problem, &place, &mut sheet);
        }
    }
    sheet
}

fn fault(rng: &mut Rng, problem: &Problem, place: &Layout, sheet: &mut Vec<u8>) {
    match rng.below(12) {
        0 => header(rng, sheet),
        1 => length(rng, sheet),
        2 => moved_part(rng, sheet),
        3 => initial_set(rng, problem, sheet),
        4 => counts(rng, place, sheet),
        5 => scope(rng, problem, place, sheet),
        6 => row_value(rng, problem, place, sheet),
        7 => rows_order(rng, problem, place, sheet),
        8 | 9 => table(rng, problem, place, sheet),
        10 => permuted_table(rng, problem, place, sheet),
        _ => {
            let at = rng.below(sheet.len());
            sheet[at] ^= 1 << rng.below(8);
        }
    }
}

fn word(sheet: &[u8], at: usize) -> u16 {
    if at + 2 <= sheet.len() {
        u16::from_le_bytes([sheet[at], sheet[at + 1]])
    } else {
        0
    }
}

fn set_word(sheet: &mut [u8], at: usize, word: usize) {
    if at + 2 <= sheet.len() {
        sheet[at..at + 2].copy_from_slice(&(word as u16).to_le_bytes());
    }
}

fn change(rng: &mut Rng, word: u16) -> usize {
    let near = [word.wrapping_add(1), word.wrapping_sub(1), word.wrapping_add(2), word.wrapping_sub(2)];
    let limits = [0, 1, 3, 4, 12, 13, 16, 17, 32, 33, 255, 256, 257, 65535, rng.word() as u16];
    (if rng.chance(50) { rng.pick(&near) } else { rng.pick(&limits) }) as usize
}

/// One word of the header.
fn header(rng: &mut Rng, sheet: &mut [u8]) {
    let at = 2 * rng.below(8);
    let to = change(rng, word(sheet, at));
    set_word(sheet, at, to);
}

/// Bytes cut off or added at the end, with the stated length raised to fit or not.
fn length(rng: &mut Rng, sheet: &mut Vec<u8>) {
    let to = match rng.below(4) {
        0 => rng.below(sheet.len()),
        1 => rng.below(20),
        2 => sheet.len() - rng.between(1, 4).min(sheet.len()),
        _ => sheet.len() + rng.between(1, 4),
    };
    let filler = rng.word() as u8;
    sheet.resize(to, filler);
    if rng.chance(70) {
        set_word(sheet, 14, to);
    }
}

/// Bytes taken out or put in before the exchanges, with length and third offset raised to fit, or one.
fn moved_part(rng: &mut Rng, sheet: &mut Vec<u8>) {
    let third = word(sheet, 12) as usize;
    let second = word(sheet, 10) as usize;
    let count = rng.pick(&[1, 2, 2, 4, 6]);
    if third > sheet.len() || third < second + count {
        return;
    }
    if rng.chance(50) {
        sheet.drain(third - count..third);
        set_word(sheet, 12, third - count);
    } else {
        sheet.splice(third..third, vec![rng.pick(&[0, 1, 255]); count]);
        set_word(sheet, 12, third + count);
    }
    if rng.chance(90) {
        let length = sheet.len();
        set_word(sheet, 14, length);
    }
}

fn initial_set(rng: &mut Rng, problem: &Problem, sheet: &mut [u8]) {
    let at = 16 + 2 * rng.below(problem.variables);
    let high = 1usize << rng.between(problem.values, 16);
    let any = rng.word() as usize;
    let to = rng.pick(&[0, high, high | 1, 65535, any]);
    set_word(sheet, at, to);
}

/// A rule's number of places or of rows.
fn counts(rng: &mut Rng, place: &Layout, sheet: &mut [u8]) {
    if !place.constraints.is_empty() {
        let at = rng.pick(&place.constraints) + rng.pick(&[0, 2]);
        let to = change(rng, word(sheet, at));
        set_word(sheet, at, to);
    }
}

fn scope(rng: &mut Rng, problem: &Problem, place: &Layout, sheet: &mut [u8]) {
    if !place.constraints.is_empty() {
        let item = rng.below(place.constraints.len());
        let scope = &problem.constraints[item].scope;
        let at = place.constraints[item] + 4 + 2 * rng.below(scope.len());
        let any = rng.below(problem.variables);
        let to = rng.pick(&[problem.variables, 65535, scope[0], any]);
        set_word(sheet, at, to);
    }
}

/// The offset of a random row of a random rule, and its number of places.
fn random_row(rng: &mut Rng, problem: &Problem, place: &Layout) -> Option<(usize, usize)> {
    let item = rng.below(place.constraints.len().max(1));
    let constraint = problem.constraints.get(item)?;
    let arity = constraint.scope.len();
    let first = place.constraints[item] + 4 + 2 * arity;
    (constraint.rows.len() >= 2).then(|| (first + 2 * arity * rng.below(constraint.rows.len() - 1), arity))
}

fn row_value(rng: &mut Rng, problem: &Problem, place: &Layout, sheet: &mut [u8]) {
    if let Some((at, arity)) = random_row(rng, problem, place) {
        let any = rng.below(problem.values);
        let to = rng.pick(&[problem.values, 65535, 16, any]);
        set_word(sheet, at + 2 * rng.below(arity), to);
    }
}

/// A row repeated in place of the next, or the two swapped.
fn rows_order(rng: &mut Rng, problem: &Problem, place: &Layout, sheet: &mut [u8]) {
    if let Some((at, arity)) = random_row(rng, problem, place) {
        let swap = rng.chance(50);
        for i in (at..at + 2 * arity).step_by(2) {
            let (first, second) = (word(sheet, i), word(sheet, i + 2 * arity));
            set_word(sheet, i + 2 * arity, first as usize);
            if swap {
                set_word(sheet, i, second as usize);
            }
        }
    }
}

/// The offset of a random exchange.
fn random_table(rng: &mut Rng, problem: &Problem, place: &Layout) -> Option<usize> {
    let item = rng.below(problem.symmetries.len().max(1));
    let size = 2 * problem.variables * problem.values;
    (!problem.symmetries.is_empty()).then(|| place.third + item * size)
}

/// A number of an exchange changed, or two of them swapped.
fn table(rng: &mut Rng, problem: &Problem, place: &Layout, sheet: &mut [u8]) {
    if let Some(start) = random_table(rng, problem, place) {
        let size = problem.variables * problem.values;
        let (first, second) = (start + 2 * rng.below(size), start + 2 * rng.below(size));
        if rng.chance(60) {
            let (one, other) = (word(sheet, first), word(sheet, second));
            set_word(sheet, first, other as usize);
            set_word(sheet, second, one as usize);
        } else {
            let (inside, any) = (rng.below(size), rng.word() as usize);
            let to = rng.pick(&[size, 65535, inside, any]);
            set_word(sheet, first, to);
        }
    }
}

/// An exchange of two or three pairs only: a permutation that seldom respects the sheet.
fn permuted_table(rng: &mut Rng, problem: &Problem, place: &Layout, sheet: &mut [u8]) {
    if let Some(start) = random_table(rng, problem, place) {
        let size = problem.variables * problem.values;
        let mut pairs: Vec<usize> = (0..size).filter(|&number| problem.is_pair(number)).collect();
        rng.shuffle(&mut pairs);
        pairs.truncate(rng.pick(&[2, 3]));
        for number in 0..size {
            let image = match pairs.iter().position(|&pair| pair == number) {
                Some(i) => pairs[(i + 1) % pairs.len()],
                None => number,
            };
            set_word(sheet, start + 2 * number, image);
        }
    }
}
