//! Part `filter`: sets and nogood lists, right and damaged.

use crate::tally::{code, ending_code, Guarded, Tally, WRONG_SIZE};
use planner_sys::planner_filter;
use sheets::{lists, Lists, Rng};

pub fn case(rng: &mut Rng, tally: &mut Tally) {
    for _ in 0..8 {
        let lists = lists(rng);
        let odd = rng.chance(4);
        filter(&lists, odd, rng, tally);
    }
}

/// The sets as bytes, low byte first.
fn bytes(sets: &[u16]) -> Vec<u8> {
    sets.iter().flat_map(|set| set.to_le_bytes()).collect()
}

fn filter(lists: &Lists, odd: bool, rng: &mut Rng, tally: &mut Tally) {
    let mut left = lists.sets.clone();
    let answer = oracle::filter(&mut left, &lists.index, &lists.equal, &lists.not_equal);
    let mut before = bytes(&lists.sets);
    let mut after = bytes(&left);
    let mut expected = answer.map_or_else(|_| code(&answer), ending_code);
    if odd {
        before.push(7);
        after = before.clone();
        expected = 256 * WRONG_SIZE;
    } else {
        tally.answer(&answer);
        if let Ok(ending) = answer {
            tally.endings[ending_code(ending) as usize] += 1;
        }
    }
    let mut room = Guarded::new(before.len(), rng.word() as u8);
    room.lent().copy_from_slice(&before);
    let mut expected_room = room.clone();
    expected_room.lent().copy_from_slice(&after);
    let Lists { index, equal, not_equal, .. } = lists.clone();
    let got = planner_filter(room.lent(), &index, &equal, &not_equal);
    let lent = [&before[..], &index, &equal, &not_equal].concat();
    tally.same("filter's answer", got, expected, &lent);
    tally.same("sets after", &room.bytes, &expected_room.bytes, &lent);
    let lists_same = (&index, &equal, &not_equal) == (&lists.index, &lists.equal, &lists.not_equal);
    tally.same("lists after", lists_same, true, &lent);
}
