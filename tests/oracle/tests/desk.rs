//! The desk for eight halls, tried on the oracle.

use oracle::desk::{meaning, write_newcomer, write_run, Desk, DESK_BYTES, LAST, NEXT, SEAT_BYTES, STANDING};
use oracle::{Ending, Refusal};

/// Windows that may have each of so many duties, without a rule.
fn free(windows: u16, duties: u16) -> Vec<u8> {
    let second = 16 + 2 * windows;
    let mut sheet = vec![windows, duties, 0, 0, 16, second, second, second];
    sheet.extend(vec![((1u32 << duties) - 1) as u16; windows as usize]);
    sheet.iter().flat_map(|word| word.to_le_bytes()).collect()
}

fn refused<T>(number: u32) -> Result<T, Refusal> {
    Err(Refusal { number, item: 0 })
}

/// The seat served, how its run ended, its plans and its trials.
fn turn(desk: &mut Desk) -> (usize, Option<Ending>, usize, u32) {
    let seat = desk.turn().expect("a seat that waits");
    let hall = desk.look(seat as u32).unwrap();
    (seat, hall.ending, hall.plans.len(), hall.nodes)
}

#[test]
fn the_lowest_free_seat() {
    let mut desk = Desk::new();
    assert_eq!(desk.sit(&[], 1), refused(1));
    (0..8).for_each(|seat| assert_eq!(desk.sit(&free(1, 2), 1), Ok(seat)));
    assert_eq!((desk.sit(&free(1, 2), 1), desk.sit(&[], 1)), (refused(37), refused(37)));
    assert_eq!((desk.leave(6, &mut []), desk.leave(1, &mut [])), (Ok(0), Ok(0)));
    assert_eq!((desk.leave(1, &mut []), desk.leave(8, &mut [])), (refused(38), refused(38)));
    assert_eq!((desk.sit(&free(1, 2), 1), desk.sit(&free(1, 2), 1)), (Ok(1), Ok(6)));
}

#[test]
fn turns_go_round() {
    let mut desk = Desk::new();
    assert_eq!((desk.turn(), desk.next), (None, 0));
    for (windows, allowance) in [(2, 1000), (1, 1000), (3, 80)] {
        desk.sit(&free(windows, 16), allowance).unwrap();
    }
    assert_eq!(turn(&mut desk), (0, None, 60, 64));
    assert_eq!(turn(&mut desk), (1, Some(Ending::Finished), 16, 16));
    desk.sit(&free(1, 16), 16).unwrap();
    assert_eq!(turn(&mut desk), (2, None, 59, 64));
    assert_eq!(turn(&mut desk), (3, Some(Ending::Finished), 16, 16));
    let mut room = [9; 122];
    assert_eq!(desk.leave(0, &mut room[..119]), refused(22));
    assert_eq!(desk.leave(0, &mut room), Ok(120));
    assert_eq!((&room[..4], &room[118..]), (&[0, 0, 0, 1][..], &[3, 11, 9, 9][..]));
    assert_eq!(turn(&mut desk), (2, Some(Ending::Spent), 74, 80));
    assert_eq!((desk.turn(), desk.next), (None, 3));
}

/// An ending that needs no further trial falls in the same turn, never before a first turn.
#[test]
fn endings() {
    let mut desk = Desk::new();
    for (windows, allowance) in [(6, 126), (6, 64), (6, 63), (6, 0), (5, 62)] {
        let seat = desk.sit(&free(windows, 2), allowance).unwrap();
        assert_eq!(desk.look(seat as u32).unwrap().ending, None);
    }
    assert_eq!(turn(&mut desk), (0, None, 32, 64));
    assert_eq!(turn(&mut desk), (1, Some(Ending::Spent), 32, 64));
    assert_eq!(turn(&mut desk), (2, Some(Ending::Spent), 32, 63));
    assert_eq!(turn(&mut desk), (3, Some(Ending::Spent), 0, 0));
    assert_eq!(turn(&mut desk), (4, Some(Ending::Finished), 32, 62));
    assert_eq!(turn(&mut desk), (0, Some(Ending::Finished), 64, 126));
    assert_eq!(desk.turn(), None);
}

#[test]
fn room_for_4096_plans() {
    let mut desk = Desk::new();
    desk.sit(&free(4, 8), 4680).unwrap();
    desk.sit(&free(5, 6), u32::MAX).unwrap();
    assert_eq!(desk.rounds(100), [74, 77, 0, 0, 0, 0, 0, 0]);
    let stands = [0, 1].map(|seat| desk.look(seat).unwrap()).map(|hall| (hall.ending, hall.nodes));
    assert_eq!(stands, [(Some(Ending::Finished), 4680), (Some(Ending::Full), 4917)]);
    assert_eq!((desk.look(1).unwrap().plans.len(), desk.next), (4096, 2));
}

#[test]
fn rounds_are_turns() {
    let mut desk = Desk::new();
    (0..3).for_each(|seat| assert_eq!(desk.sit(&free(3, 9), 1000), Ok(seat)));
    desk.turn();
    let mut other = desk.clone();
    assert_eq!(desk.rounds(2), [2, 2, 2, 0, 0, 0, 0, 0]);
    (0..6).for_each(|_| assert!(other.turn().is_some()));
    assert_eq!((&desk, desk.next), (&other, 1));
    assert_eq!(desk.rounds(0), [0; 8]);
    assert_eq!(desk, other);
}

#[test]
fn any_bytes_are_a_desk() {
    let mut bytes = vec![0; DESK_BYTES];
    assert_eq!(meaning(&bytes), Desk::new());
    let mut desk = Desk::new();
    desk.sit(&free(2, 9), 80).unwrap();
    write_newcomer(&mut bytes, 0, &free(2, 9), 80);
    assert_eq!(meaning(&bytes), desk);
    desk.turn();
    write_run(&mut bytes, 0, desk.look(0).unwrap());
    bytes[NEXT] = 1;
    assert_eq!(meaning(&bytes), desk);
    assert_eq!(bytes[STANDING..LAST + 4], [0, 64, 0, 0, 0, 57, 0, 2, 6, 2, 0]);
    bytes[LAST + 1] = 9;
    let mut desk = meaning(&bytes);
    assert_eq!(turn(&mut desk), (0, Some(Ending::Finished), 57, 64));
    let mut desk = meaning(&vec![5; DESK_BYTES]);
    assert_eq!((desk.turn(), desk.look(7).unwrap().ending), (None, Some(Ending::Full)));
    assert_eq!(desk.leave(7, &mut vec![0; 5 * SEAT_BYTES]), Ok(1285 * 12));
}
