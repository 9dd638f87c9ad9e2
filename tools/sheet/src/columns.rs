//! Plans stored by window (paper 02, #103): files of rows to stores and back. A file of rows has one byte for each
//! value and nothing between the rows.

use crate::command::{refuse, Arguments, Command, Outcome, Source, Status, Stop};
use crate::problem::word;
use planner::Refusal;

pub const COLUMNS: Command = Command {
    name: "columns",
    usage: "PLACES [ROWS]",
    about: "stores plans by window: writes rows of bytes as columns behind a header",
    files: 1..=2,
    options: &[],
    asks: false,
    run: run_columns,
};

pub const ROWS: Command = Command {
    name: "rows",
    usage: "[STORE]",
    about: "writes the rows of such a store",
    files: 0..=1,
    options: &[],
    asks: false,
    run: run_rows,
};

fn run_columns(arguments: &Arguments) -> Result<Outcome, Stop> {
    let places = &arguments.sources[0].0;
    match places.parse() {
        Ok(places) => answer(columns(places, &input(arguments, 1)?)),
        Err(_) => refuse(format!("`{places}` is no number of places")),
    }
}

fn run_rows(arguments: &Arguments) -> Result<Outcome, Stop> {
    answer(rows(&input(arguments, 0)?))
}

/// What the file at an index holds, or standard input where no file is named.
fn input(arguments: &Arguments, at: usize) -> Result<Vec<u8>, Stop> {
    arguments.sources.get(at).map_or_else(|| Source("-".to_string()).bytes(), Source::bytes)
}

/// The bytes, or the refusal.
fn answer(bytes: Result<Vec<u8>, String>) -> Result<Outcome, Stop> {
    let output = bytes.or_else(refuse)?;
    Ok(Outcome { output, note: String::new(), status: Status::Finished })
}

/// The store of rows of some places, or the refusal in words.
pub fn columns(places: u32, rows: &[u8]) -> Result<Vec<u8>, String> {
    let mut store = vec![0; 8 + rows.len()];
    let explain =
        |refusal: Refusal| format!("{refusal}: {}", rows_reason(refusal.number, places as usize, rows));
    planner::columns(places, rows, &mut store).map(|_| store).map_err(explain)
}

/// The rows of a store, or the refusal in words.
pub fn rows(store: &[u8]) -> Result<Vec<u8>, String> {
    let mut rows = vec![0; store.len().saturating_sub(8)];
    let explain = |refusal: Refusal| format!("{refusal}: {}", store_reason(refusal.number, store));
    planner::rows(store, &mut rows).map(|_| rows).map_err(explain)
}

/// Why rows are refused. The room always suffices here.
fn rows_reason(number: u32, places: usize, rows: &[u8]) -> String {
    let length = rows.len();
    match number {
        21 => {
            let at = rows.iter().position(|&value| value > 15).expect("a value that the refusal speaks of");
            let (row, place) = (at / places, at % places);
            format!("row {row}, place {place}: the value is {}, and at most 15 is allowed", rows[at])
        }
        _ if !(1..=12).contains(&places) => format!("{places} places, and 1 to 12 are allowed"),
        _ if !length.is_multiple_of(places) => format!("{length} bytes aren't whole rows of {places}"),
        _ => format!("{} rows, and at most 4096 are allowed", length / places),
    }
}

/// Why a store is refused.
fn store_reason(number: u32, store: &[u8]) -> String {
    let length = store.len();
    if length < 8 {
        return format!("the store has {length} bytes, and the header alone takes 8");
    }
    let (places, plans, offset, total) = (word(store, 0), word(store, 2), word(store, 4), word(store, 6));
    match number {
        21 => {
            let at = 8 + store[8..].iter().position(|&value| value > 15).expect("a value above 15");
            let (place, plan) = ((at - 8) / plans, (at - 8) % plans);
            format!("offset {at}: place {place} of plan {plan} is {}, and at most 15 is allowed", store[at])
        }
        23 if offset != 8 => format!("offset 4: the columns start at {offset}, and must start at 8"),
        23 if length != total => format!("offset 6: the total is {total}, and the store has {length} bytes"),
        23 => format!(
            "{plans} plans of {places} places take {} bytes, and the store has {length}",
            8 + places * plans
        ),
        _ => rows_reason(number, places, &store[8..]),
    }
}
