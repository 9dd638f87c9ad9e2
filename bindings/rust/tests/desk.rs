//! The desk's typed answers, and the halls at it beside runs alone.

use planner::{run_lent, small_sheets, Answer, Desk, Ending, LentAnswer, Look, Refusal, Rounds, Standing};
use planner::{DESK_BYTES, SEATS, SEAT_PLANS};

/// Windows that may have each of so many duties, without a rule.
fn free(windows: u16, duties: u16) -> Vec<u8> {
    let second = 16 + 2 * windows;
    let mut sheet = vec![windows, duties, 0, 0, 16, second, second, second];
    sheet.extend(vec![((1u32 << duties) - 1) as u16; windows as usize]);
    sheet.iter().flat_map(|word| word.to_le_bytes()).collect()
}

fn refused<T>(number: u32) -> Result<T, Refusal> {
    Err(Refusal { number, item: 0 })
}

#[test]
fn coming_and_leaving() {
    let mut desk = Desk::default();
    assert_eq!(desk.sit(&[], 1), refused(1));
    for seat in 0..SEATS {
        assert_eq!(desk.sit(&free(1, 2), 1), Ok(seat));
    }
    assert_eq!((desk.sit(&free(1, 2), 1), desk.sit(&[], 1)), (refused(37), refused(37)));
    assert_eq!(desk.leave(5, &mut []), Ok(0));
    assert_eq!(desk.leave(2, &mut []), Ok(0));
    assert_eq!([2, 8, u32::MAX].map(|seat| desk.look(seat)), [38; 3].map(refused));
    assert_eq!((desk.leave(2, &mut []), desk.leave(8, &mut [])), (refused(38), refused(38)));
    assert_eq!((desk.sit(&free(1, 2), 1), desk.sit(&free(1, 2), 1)), (Ok(2), Ok(5)));
}

#[test]
fn turns_go_round() {
    let mut desk = Desk::new();
    assert_eq!(desk.turn(), None);
    assert_eq!(*desk.bytes(), *Desk::new().bytes());
    for windows in [2, 1, 3] {
        desk.sit(&free(windows, 16), 1_000_000).unwrap();
    }
    let going_on = |seat, plans, nodes| Some(Standing { seat, ending: None, plans, nodes });
    let finished = |seat, plans, nodes| Some(Standing { seat, ending: Some(Ending::Finished), plans, nodes });
    assert_eq!(desk.turn(), going_on(0, 60, 64));
    assert_eq!(desk.turn(), finished(1, 16, 16));
    assert_eq!(desk.turn(), going_on(2, 59, 64));
    let mut room = [9; 200];
    assert_eq!(desk.leave(0, &mut room[..119]), refused(22));
    let look = desk.look(0).unwrap();
    assert_eq!(Some(look.standing), going_on(0, 60, 64));
    assert_eq!(look.counts, [4, 60, 0, 0, 0, 0, 0, 0, 0, 0, 0, 0]);
    assert_eq!(desk.leave(0, &mut room), Ok(120));
    assert_eq!((&room[..4], &room[118..122]), (&[0, 0, 0, 1][..], &[3, 11, 9, 9][..]));
    assert_eq!(desk.sit(&free(1, 1), 0), Ok(0));
    let spent = Some(Standing { seat: 0, ending: Some(Ending::Spent), plans: 0, nodes: 0 });
    assert_eq!((desk.turn(), desk.turn()), (spent, going_on(2, 119, 128)));
    assert_eq!(desk.rounds(u32::MAX), Rounds { ended: vec![2], going_on: vec![] });
    let look = desk.look(2).unwrap();
    assert_eq!(Some(look.standing), finished(2, 4096, 4368));
    assert_eq!(look.counts, [16, 256, 4096, 0, 0, 0, 0, 0, 0, 0, 0, 0]);
    assert_eq!((desk.turn(), desk.rounds(9)), (None, Rounds { ended: vec![], going_on: vec![] }));
}

/// Every small sheet at one of eight seats: list, ending, figures and trials by place are those of a run alone.
#[test]
fn as_alone() {
    let mut desk = Desk::new();
    for sheet in small_sheets() {
        let limits = [0, 1, 2, 3, 4, 5, 6, u32::MAX];
        assert_eq!(limits.map(|node_limit| desk.sit(&sheet, node_limit)), [0, 1, 2, 3, 4, 5, 6, 7].map(Ok));
        desk.rounds(1);
        for (seat, node_limit) in (0..SEATS).zip(limits) {
            let mut lists = [vec![7; 2 * SEAT_PLANS], vec![7; 2 * SEAT_PLANS]];
            let LentAnswer { answer, counts } =
                run_lent(&sheet, &[], &[], node_limit, &mut lists[0]).unwrap();
            let Answer { ending, plans, nodes } = answer;
            let standing = Standing { seat, ending: Some(ending), plans, nodes };
            assert_eq!(desk.look(seat), Ok(Look { standing, counts }));
            assert_eq!(desk.leave(seat, &mut lists[1]), Ok(2 * plans as usize));
            assert_eq!(lists[0], lists[1]);
        }
    }
}

/// Rounds are turns one by one; any bytes are a desk.
#[test]
fn rounds_are_turns() {
    let mut desks = [Desk::new(), Desk::new()];
    for desk in &mut desks {
        for windows in [2, 3, 1, 3] {
            desk.sit(&free(windows, 16), 1_000_000).unwrap();
        }
        desk.turn();
    }
    let [one, other] = &mut desks;
    assert_eq!(one.rounds(3), Rounds { ended: vec![2], going_on: vec![0, 1, 3] });
    (0..10).for_each(|_| assert!(other.turn().is_some()));
    assert!(one.bytes() == other.bytes());
    assert_eq!(one.turn().unwrap().seat, 1);
    let mut any = Desk::from_bytes(vec![7; DESK_BYTES].into_boxed_slice().try_into().unwrap());
    assert_eq!((any.turn(), any.sit(&free(1, 1), 1)), (None, refused(37)));
    let standing = Standing { seat: 7, ending: Some(Ending::Full), plans: 1799, nodes: 0x0707_0707 };
    assert_eq!(any.look(7), Ok(Look { standing, counts: [0x0707_0707; 12] }));
}
