//! `sheet merge`: one list from two (paper 02, #106). A file of rows has one byte for each place and nothing between
//! the rows, as `sheet plans --rows` writes it.

use crate::command::{refuse, Arguments, Choice, Command, Outcome, Source, Status, Stop};
use crate::pairs::{order, wrong};
use planner::Refusal;

pub const COMMAND: Command = Command {
    name: "merge",
    usage: "PLACES FIRST SECOND > ROWS",
    about: "makes one file of two: the rows of either, ascending, each once",
    files: 3..=3,
    options: &[&[Choice {
        name: "--pairs",
        value: Some("FILE"),
        about: "compares rows in the order of a file of pairs, as the runs that listed them",
    }]],
    asks: false,
    run,
};

fn run(arguments: &Arguments) -> Result<Outcome, Stop> {
    let [places, first, second] = &arguments.sources[..] else { unreachable!("three words") };
    let Ok(places) = places.0.parse::<u32>() else {
        return refuse(format!("`{}` is no number of places", places.0));
    };
    let pairs = match arguments.file("--pairs") {
        Some(file) => Read::new(file)?,
        None => Read { name: String::new(), bytes: Vec::new() },
    };
    let lists = [Read::new(Source(first.0.clone()))?, Read::new(Source(second.0.clone()))?];
    let mut rows = vec![0; lists[0].bytes.len() + lists[1].bytes.len()];
    match planner::merge(places, &pairs.bytes, &lists[0].bytes, &lists[1].bytes, &mut rows) {
        Ok(written) => {
            rows.truncate(written);
            Ok(Outcome { output: rows, note: String::new(), status: Status::Finished })
        }
        Err(refusal) => refuse(reason(refusal, places as usize, &pairs, &lists)),
    }
}

/// A file's name for people, and what it holds.
struct Read {
    name: String,
    bytes: Vec<u8>,
}

impl Read {
    fn new(file: Source) -> Result<Read, Stop> {
        Ok(Read { name: file.name().to_string(), bytes: file.bytes()? })
    }
}

/// The refusal in words, with the file that it speaks of. The room always suffices here.
fn reason(refusal: Refusal, places: usize, pairs: &Read, lists: &[Read; 2]) -> String {
    let (file, words) = match refusal.number {
        24 if !(1..=12).contains(&places) => {
            return format!("{refusal}: {places} places, and 1 to 12 are allowed");
        }
        24 => {
            let file = lists.iter().find(|list| list.bytes.len() % places != 0).unwrap_or(&lists[0]);
            (file, format!("{} bytes aren't whole rows of {places}", file.bytes.len()))
        }
        25 | 26 => {
            let file = &lists[refusal.number as usize - 25];
            (file, fallen(&file.bytes, &order(places, &pairs.bytes)))
        }
        _ => {
            let names: Vec<String> = (0..places).map(|place| place.to_string()).collect();
            let wrong = wrong(&pairs.bytes, &names, |pair| format!("pair {pair}"));
            (pairs, wrong.map_or(String::new(), |wrong| wrong.words))
        }
    };
    format!("{}: {refusal}: {words}", file.name)
}

/// The first row that doesn't come after the one before it in the order.
fn fallen(list: &[u8], order: &[usize]) -> String {
    let rows: Vec<&[u8]> = list.chunks(order.len()).collect();
    let reading = |row: &[u8]| order.iter().map(|&place| row[place]).collect::<Vec<u8>>();
    let at = (1..rows.len()).find(|&row| reading(rows[row - 1]) >= reading(rows[row])).unwrap_or(1);
    let [before, row] = [rows[at - 1], rows[at]].map(numbers);
    let words = format!("row {at}, {row}, doesn't come after row {}, {before}", at - 1);
    match order.windows(2).all(|two| two[0] < two[1]) {
        true => words,
        false => format!("{words}, with the places in the order {}", numbers(order)),
    }
}

fn numbers<T: ToString>(numbers: &[T]) -> String {
    numbers.iter().map(T::to_string).collect::<Vec<_>>().join(" ")
}
