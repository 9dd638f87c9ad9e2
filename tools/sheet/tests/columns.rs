//! Rows to stores and back through the program: what it writes, and its words and exit status for each refusal.

/// The program's standard output, or what it says where its exit status is 1.
fn sheet(words: &[&str], input: &[u8]) -> Result<Vec<u8>, String> {
    let done = crate::program::fed(words, input);
    if done.status.success() {
        return Ok(done.stdout);
    }
    assert_eq!((done.status.code(), done.stdout.len()), (Some(1), 0));
    Err(String::from_utf8(done.stderr).unwrap().trim_end().to_string())
}

/// Sheet A's three plans.
const ROWS: [u8; 6] = [0, 1, 0, 2, 1, 2];
const STORE: [u8; 14] = [2, 0, 3, 0, 8, 0, 14, 0, 0, 0, 1, 1, 2, 2];

#[test]
fn round_trips() {
    assert_eq!(sheet(&["columns", "2"], &ROWS), Ok(STORE.to_vec()));
    assert_eq!(sheet(&["rows"], &STORE), Ok(ROWS.to_vec()));
    let rows: Vec<u8> = (0..12 * 4096).map(|i| (i % 251 % 16) as u8).collect();
    let store = sheet(&["columns", "12"], &rows).unwrap();
    assert_eq!(sheet(&["rows"], &store), Ok(rows));
    let empty = sheet(&["columns", "5"], &[]).unwrap();
    assert_eq!((&empty[..], sheet(&["rows"], &empty)), (&[5, 0, 0, 0, 8, 0, 8, 0][..], Ok(Vec::new())));
}

#[test]
fn refused_rows() {
    let columns = |places: &str, rows: &[u8]| sheet(&["columns", places], rows).unwrap_err();
    assert_eq!(columns("0", &ROWS), "refused 20 0: 0 places, and 1 to 12 are allowed");
    assert_eq!(columns("13", &ROWS), "refused 20 0: 13 places, and 1 to 12 are allowed");
    assert_eq!(columns("4", &ROWS), "refused 20 0: 6 bytes aren't whole rows of 4");
    assert_eq!(columns("1", &[0; 4097]), "refused 20 0: 4097 rows, and at most 4096 are allowed");
    assert_eq!(
        columns("2", &[0, 1, 2, 16]),
        "refused 21 0: row 1, place 1: the value is 16, and at most 15 is allowed"
    );
    assert_eq!(columns("two", &ROWS), "`two` is no number of places");
}

/// What is said of sheet A's store with other bytes.
fn refused(changes: &[(usize, u8)]) -> String {
    let mut store = STORE;
    for &(at, byte) in changes {
        store[at] = byte;
    }
    sheet(&["rows"], &store).unwrap_err()
}

#[test]
fn refused_stores() {
    let short = sheet(&["rows"], &STORE[..7]);
    assert_eq!(short.unwrap_err(), "refused 23 0: the store has 7 bytes, and the header alone takes 8");
    assert_eq!(refused(&[(4, 9)]), "refused 23 0: offset 4: the columns start at 9, and must start at 8");
    assert_eq!(refused(&[(6, 15)]), "refused 23 0: offset 6: the total is 15, and the store has 14 bytes");
    assert_eq!(refused(&[(0, 3)]), "refused 23 0: 3 plans of 3 places take 17 bytes, and the store has 14");
    assert_eq!(
        refused(&[(9, 200)]),
        "refused 21 0: offset 9: place 0 of plan 1 is 200, and at most 15 is allowed"
    );
    let wide = [&[13, 0, 1, 0, 8, 0, 21, 0][..], &[0; 13]].concat();
    let said = sheet(&["rows"], &wide).unwrap_err();
    assert_eq!(said, "refused 20 0: 13 places, and 1 to 12 are allowed");
}
