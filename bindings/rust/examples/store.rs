//! Two courses' tables for hall three in one store, through the safe functions: each course's sheet is planned
//! with its own table, and refused with the other's.

use planner::{question, report, Refusal, Store, TABLE_BYTES};

/// Two windows and three duties that differ.
const FIRST: [u16; 26] = [2, 3, 1, 1, 16, 20, 52, 64, 7, 7, 2, 6, 0, 1, 0, 1, 0, 2, 1, 0, 1, 2, 2, 0, 2, 1];
/// Duty 0 or 1 at window 0, duty 2 at window 1.
const SECOND: [u16; 18] = [2, 3, 1, 1, 16, 20, 36, 48, 7, 7, 2, 2, 0, 1, 0, 2, 1, 2];
/// The windows change places; the duties 0 and 1 do at window 0.
const TABLES: [[u16; 6]; 2] = [[3, 4, 5, 0, 1, 2], [1, 0, 2, 3, 4, 5]];

fn bytes(words: &[u16]) -> Vec<u8> {
    words.iter().flat_map(|word| word.to_le_bytes()).collect()
}

/// A sheet with the table that a course keeps for hall three, fetched into the sheet's own bytes.
fn with_table(front: &[u16], store: &Store, course: u32) -> Result<Vec<u8>, Refusal> {
    let mut sheet = bytes(front);
    let third = sheet.len();
    sheet.resize(third + 12, 0);
    store.fetch(course, 3, &mut sheet[third..])?;
    question(&sheet)?;
    Ok(sheet)
}

fn main() {
    let mut store = Store::new();
    for (course, table) in TABLES.iter().enumerate() {
        println!("{:?}", store.put(course as u32, 3, &bytes(table)));
    }
    for (own, front) in [&FIRST[..], &SECOND[..]].into_iter().enumerate() {
        for course in 0..3 {
            print!("sheet of course {own}, table of course {course}: ");
            match with_table(front, &store, course) {
                Ok(sheet) => print!("\n{}", report(&sheet)),
                Err(refusal) => println!("{refusal}"),
            }
        }
    }
    println!("{:?}", store.put(0, 4, &[0; TABLE_BYTES + 1]));
    println!("{:?}", store.fetch(0, 3, &mut [0; 11]));
    println!("{:?} {:?}", store.drop(0, 3), store.drop(0, 3));
    println!("{:?}", store.put(4, 3, &[]));
}
