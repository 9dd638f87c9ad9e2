//! Eight halls at one desk, through the safe functions: one makes a million trials, the others are done in their first turns. The order in
//! which they end is printed; a newcomer takes the seat of one that left, and its list fills up.

use planner::{Desk, SEATS};

/// Windows that may have each of so many duties; those from `first` on all differ.
fn hall(windows: u16, duties: u16, first: u16) -> Vec<u8> {
    let mut rules = Vec::new();
    for (i, j) in (first..windows).flat_map(|i| (i + 1..windows).map(move |j| (i, j))) {
        rules.extend([2, duties * (duties - 1), i, j]);
        for (one, other) in (0..duties).flat_map(|one| (0..duties).map(move |other| (one, other))) {
            rules.extend(if one == other { vec![] } else { vec![one, other] });
        }
    }
    let count = (windows - first) * (windows - first).saturating_sub(1) / 2;
    let second = 16 + 2 * windows;
    let third = second + 2 * rules.len() as u16;
    let mut sheet = vec![windows, duties, count, 0, 16, second, third, third];
    sheet.extend(vec![(1 << duties) - 1; windows as usize]);
    sheet.extend(rules);
    sheet.iter().flat_map(|word| word.to_le_bytes()).collect()
}

/// Turns one by one, up to so many; each ending is printed.
fn turns(desk: &mut Desk, count: usize) {
    for turn in 1..=count {
        match desk.turn() {
            Some(standing) if standing.ending.is_some() => println!("turn {turn}: {standing:?}"),
            Some(_) => {}
            None => return println!("no run waits"),
        }
    }
}

fn main() {
    let mut desk = Desk::new();
    let small = hall(2, 3, 0);
    for sheet in [&small, &hall(3, 2, 0), &hall(12, 7, 4), &hall(2, 7, 2)] {
        println!("{:?}", desk.sit(sheet, 1_000_000));
    }
    for node_limit in [9, 8, 1, 0, 9] {
        println!("{:?}", desk.sit(&small, node_limit));
    }
    turns(&mut desk, SEATS as usize);
    let mut list = vec![0; 98];
    println!("{:?} {:?}", desk.leave(3, &mut list[..97]), desk.leave(3, &mut list));
    println!("{:?}", desk.sit(&hall(5, 6, 5), 1_000_000));
    loop {
        let rounds = desk.rounds(1_024);
        for &seat in &rounds.ended {
            println!("rounds: {:?}", desk.look(seat));
        }
        if rounds.going_on.is_empty() {
            break;
        }
    }
    turns(&mut desk, 1);
    println!("{:?} {:?}", desk.look(8), desk.leave(8, &mut list));
}
