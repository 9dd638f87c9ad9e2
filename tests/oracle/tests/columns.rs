//! Stores written out by hand, tried on the oracle.

use oracle::columns::{columns, rows};
use oracle::Refusal;

fn refused(number: u32) -> Result<usize, Refusal> {
    Err(Refusal { number, item: 0 })
}

/// Sheet A's three plans.
const ROWS: [u8; 6] = [0, 1, 0, 2, 1, 2];
const STORE: [u8; 14] = [2, 0, 3, 0, 8, 0, 14, 0, 0, 0, 1, 1, 2, 2];

#[test]
fn sheet_a_by_window() {
    let mut room = [9; 16];
    assert_eq!(columns(2, &ROWS, &mut room), Ok(14));
    assert_eq!((&room[..14], &room[14..]), (&STORE[..], &[9, 9][..]));
    let mut room = [9; 7];
    assert_eq!(rows(&STORE, &mut room), Ok(6));
    assert_eq!((&room[..6], room[6]), (&ROWS[..], 9));
}

#[test]
fn no_plans() {
    let mut room = [9; 8];
    assert_eq!(columns(12, &[], &mut room), Ok(8));
    assert_eq!(room, [12, 0, 0, 0, 8, 0, 8, 0]);
    assert_eq!(rows(&room, &mut []), Ok(0));
}

#[test]
fn refusals_in_their_order() {
    let mut room = [9; 20];
    for (places, bytes) in [(0, &ROWS[..]), (13, &[][..]), (4, &ROWS[..]), (2, &[16; 3][..])] {
        assert_eq!(columns(places, bytes, &mut room), refused(20));
    }
    assert_eq!(columns(1, &[0; 4097], &mut room), refused(20));
    assert_eq!(columns(1, &[0; 4096], &mut room), refused(22));
    assert_eq!(columns(2, &[0, 16], &mut []), refused(21));
    assert_eq!(columns(2, &ROWS, &mut room[..13]), refused(22));
    assert_eq!(rows(&STORE, &mut room[..5]), refused(22));
    assert_eq!(rows(&[0, 0, 9, 9, 8, 0, 8, 0], &mut room), refused(20));
    assert_eq!(room, [9; 20]);
}

#[test]
fn what_is_no_store() {
    let mut room = [9; 20];
    for (at, byte) in [(0, 3), (2, 2), (4, 7), (6, 13), (1, 1), (3, 1), (5, 1), (7, 1)] {
        let mut store = STORE;
        store[at] = byte;
        assert_eq!(rows(&store, &mut room), refused(23), "byte {at}");
    }
    assert_eq!(rows(&STORE[..7], &mut room), refused(23));
    assert_eq!(rows(&STORE[..13], &mut room), refused(23));
    // 256 × 256 and 4 × 49,152 are 0 in 16 bits
    assert_eq!(rows(&[0, 1, 0, 1, 8, 0, 8, 0], &mut room), refused(23));
    assert_eq!(rows(&[4, 0, 0, 192, 8, 0, 8, 0], &mut room), refused(23));
    assert_eq!(room, [9; 20]);
}
