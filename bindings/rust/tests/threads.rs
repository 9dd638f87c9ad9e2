//! The stack that a call takes at most, calls on a thread of their own, and calls from several threads at once.

use planner::{at_least, closed, families, report, run, run_lent, with_stack};
use planner::{Closed, Desk, Ending, Enough, Rounds, STACK_BYTES};
use std::thread;

/// The sheet that goes deepest: 12 windows of 16 duties. Of two neighbours, a duty below 15 of the first has rows
/// with the second's low duties by one rule and with its high ones by another, so each is tried and dead at once. The
/// first `ruled` windows have these rules with the next.
fn deepest(ruled: u16) -> Vec<u8> {
    let (n, d) = (12, 16);
    let mut rules: Vec<u16> = Vec::new();
    for window in 0..ruled {
        for half in [0..8, 8..16] {
            let dead = (0..15).flat_map(|duty| half.clone().map(move |next| [duty, next]));
            let rows: Vec<[u16; 2]> = dead.chain((0..d).map(|next| [15, next])).collect();
            rules.extend([2, rows.len() as u16, window, window + 1]);
            rules.extend(rows.iter().flatten());
        }
    }
    let second = 16 + 2 * n;
    let third = second + 2 * rules.len() as u16;
    let mut sheet = vec![n, d, 2 * ruled, 0, 16, second, third, third];
    sheet.extend(vec![0xffff; n as usize]);
    sheet.extend(rules);
    sheet.iter().flat_map(|word| word.to_le_bytes()).collect()
}

/// The sheet with an exchange of its last two windows, if it has none.
fn exchanged(mut sheet: Vec<u8>) -> Vec<u8> {
    let length = sheet.len() as u16 + 2 * 192;
    sheet[6] = 1;
    sheet[14..16].copy_from_slice(&length.to_le_bytes());
    let to = |number: u16| match number / 16 {
        10 => number + 16,
        11 => number - 16,
        _ => number,
    };
    sheet.extend((0..192).flat_map(|number| to(number).to_le_bytes()));
    sheet
}

#[test]
fn the_stack_is_enough() {
    let sheet = deepest(11);
    let calls = move || {
        let mut list = vec![0; 16 * 12];
        let answer = run(&sheet, 1_000_000, &mut list).unwrap();
        assert_eq!((answer.ending, answer.plans, answer.nodes), (Ending::Finished, 16, 192));
        assert!(report(&sheet).ends_with("finished 16 192 16\n"));
        let lent = run_lent(&sheet, &[], &[], 1_000_000, &mut list).unwrap();
        assert_eq!((lent.answer, lent.counts), (answer, [16; 12]));
        let reverse: Vec<u8> = (1..12).rev().flat_map(|window| [window, window - 1]).collect();
        let answer = run_lent(&sheet, &reverse, &[], 1_000_000, &mut list).unwrap().answer;
        assert_eq!((answer.ending, answer.plans), (Ending::Finished, 16));
        let mut list = vec![0; 4096 * 12];
        let answer = run_lent(&deepest(9), &[0, 1], &[10, 2], 1_000_000, &mut list).unwrap().answer;
        assert_eq!((answer.ending, answer.plans, answer.nodes), (Ending::Finished, 16 * 136, 2592));
        assert_eq!(families(&deepest(9), &[0, 1], &[10, 2], 1_000_000), Ok(Some(16 * 136)));
        assert!(report(&exchanged(deepest(9))).ends_with("finished 2176 2592 2176\n"));
        let enough = at_least(&sheet, &[], &[], 16, 1_000_000).unwrap();
        assert_eq!(enough, Enough::Yes { plans: 16, nodes: 192 });
        assert_eq!(closed(&sheet, &[], &[]), Ok(Closed::Yes));
        let mut desk = Desk::new();
        assert_eq!((desk.sit(&sheet, 1_000_000), desk.sit(&sheet, 1_000_000)), (Ok(0), Ok(1)));
        assert_eq!(desk.turn().map(|standing| standing.nodes), Some(64));
        assert_eq!(desk.rounds(3), Rounds { ended: vec![0, 1], going_on: vec![] });
        assert_eq!(desk.look(1).map(|look| (look.standing.plans, look.standing.nodes)), Ok((16, 192)));
        assert_eq!(desk.leave(1, &mut list), Ok(16 * 12));
    };
    thread::Builder::new().stack_size(STACK_BYTES).spawn(calls).unwrap().join().unwrap();
}

#[test]
fn a_thread_of_its_own() {
    let sheet = deepest(11);
    let mut list = vec![7; 5 * 12];
    let answer = with_stack(|| run(&sheet, 1_000_000, &mut list)).unwrap().unwrap();
    assert_eq!((answer.ending, answer.plans, answer.nodes), (Ending::Full, 5, 182));
    assert_eq!(list[4 * 12..], [15, 15, 15, 15, 15, 15, 15, 15, 15, 15, 15, 4]);
    let refusal = with_stack(|| run(&sheet[1..], 1_000_000, &mut list)).unwrap().unwrap_err();
    assert_eq!((refusal.number, refusal.item), (2, 0));
    assert!(std::panic::catch_unwind(|| with_stack(|| panic!("as asked"))).is_err());
}

#[test]
fn several_threads_at_once() {
    let sheet = deepest(11);
    let alone = report(&sheet);
    thread::scope(|scope| {
        for _ in 0..8 {
            scope.spawn(|| assert_eq!(report(&sheet), alone));
        }
    });
}
