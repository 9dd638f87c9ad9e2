//! Random sets and nogood lists for the filter, right and damaged.

use crate::Rng;
use oracle::members;

/// Lent sets and the three lists.
#[derive(Clone, Debug, PartialEq, Eq)]
pub struct Lists {
    pub sets: Vec<u16>,
    pub index: Vec<u8>,
    pub equal: Vec<u8>,
    pub not_equal: Vec<u8>,
}

const ABSENT: u8 = 255;

/// Sets and lists; most are right, the others have one fault.
pub fn lists(rng: &mut Rng) -> Lists {
    let mut lists = right_lists(rng);
    if rng.chance(30) {
        damage(rng, &mut lists);
    }
    lists
}

/// Sets and lists that the filter accepts. Half of them are short, over sets of two or more values: their filter
/// often ends consistent.
pub fn right_lists(rng: &mut Rng) -> Lists {
    let short = rng.chance(50);
    let count = rng.pick(if short { &[2, 3, 4, 5, 6] } else { &[1, 2, 2, 3, 3, 4, 5, 6, 12] });
    let style = if short { SHORT } else { rng.below(SHORT) };
    let sets: Vec<u16> = (0..count).map(|_| lent_set(rng, style)).collect();
    let length =
        rng.pick(if short { &[2, 3, 4, 5, 6, 8] } else { &[0, 1, 2, 3, 4, 6, 8, 12, 20, 60, 191, 192] });
    let equalities = rng.pick(if short { &[50] } else { &[0, 10, 30, 50, 90] });
    let mut lists = Lists { sets, index: Vec::new(), equal: Vec::new(), not_equal: Vec::new() };
    for _ in 0..length {
        let variable = rng.below(count);
        let choices = members(lists.sets[variable]);
        let outside = choices.is_empty() || rng.chance(8);
        let value = if outside { rng.below(16) } else { rng.pick(&choices) } as u8;
        let equality = rng.chance(equalities);
        lists.index.push(variable as u8);
        lists.equal.push(if equality { value } else { ABSENT });
        lists.not_equal.push(if equality { ABSENT } else { value });
    }
    lists
}

/// The style of the sets of short lists.
const SHORT: usize = 4;

/// A lent set: of one to three values, of any, or now and then empty; for short lists of two to four.
fn lent_set(rng: &mut Rng, style: usize) -> u16 {
    let any = rng.word() as u16;
    match style {
        0 => any & rng.word() as u16 & rng.word() as u16,
        1 if rng.chance(50) => 1 << rng.below(4),
        1 | 2 => 1 << rng.below(4) | 1 << rng.below(4) | 1 << rng.below(3),
        SHORT => 3 << rng.below(4) | 1 << rng.below(4) | 1 << rng.below(16),
        _ if rng.chance(3) => 0,
        _ => any | 1,
    }
}

/// One fault: in the number of sets, the lengths or an entry.
fn damage(rng: &mut Rng, lists: &mut Lists) {
    let length = lists.index.len();
    match rng.below(6) {
        0 => lists.sets.clear(),
        1 => lists.sets.resize(rng.pick(&[13, 14, 40]), 7),
        2 => {
            let list = rng.below(3);
            let list = [&mut lists.index, &mut lists.equal, &mut lists.not_equal].into_iter().nth(list);
            list.unwrap().resize(rng.pick(&[0, length + 1, length / 2, 193]), 0);
        }
        3 => {
            for list in [&mut lists.index, &mut lists.equal, &mut lists.not_equal] {
                list.resize(rng.pick(&[193, 193, 193, 256]), 0);
            }
        }
        _ if length > 0 => damage_entry(rng, lists),
        _ => lists.sets.truncate(1),
    }
}

fn damage_entry(rng: &mut Rng, lists: &mut Lists) {
    let at = rng.below(lists.index.len());
    match rng.below(5) {
        0 => lists.index[at] = lists.sets.len() as u8,
        1 => lists.index[at] = rng.word() as u8,
        2 => lists.equal[at] = rng.pick(&[0, 15, 16, 254, 255]),
        3 => lists.not_equal[at] = rng.pick(&[0, 15, 16, 254, 255]),
        _ => {
            (lists.equal[at], lists.not_equal[at]) =
                rng.pick(&[(16, 255), (255, 16), (255, 255), (1, 1), (254, 255)])
        }
    }
}
