//! `sheet split`: where a run is cut into parts.

use crate::command::{refuse, text, Arguments, Command, Outcome, Stop};
use crate::cut::cut;
use crate::input::{Input, TEXT_OPTIONS};
use crate::path::word;
use crate::words::grouped;

pub const COMMAND: Command = Command {
    name: "split",
    usage: "N TEXT",
    about: "cuts the run into N parts of about the same size: a line FROM UPTO for each",
    files: 2..=2,
    options: &[TEXT_OPTIONS],
    asks: false,
    run,
};

/// The most parts of one run.
pub const MOST_PARTS: usize = 100_000;

fn run(arguments: &Arguments) -> Result<Outcome, Stop> {
    let [parts, source] = &arguments.sources[..] else { unreachable!("two words") };
    let Some(parts) = number(&parts.0) else {
        return refuse(format!(
            "split takes a number of parts from 1 to {}, not `{}`",
            grouped(MOST_PARTS as u64),
            parts.0
        ));
    };
    let input = Input::read(source)?.lent(arguments)?;
    let line = |[from, upto]: [Vec<u8>; 2]| format!("{} {}\n", word(&from), word(&upto));
    let lines = cut(&input.made, parts).into_iter().map(line).collect();
    Ok(Outcome { note: input.notes(), ..text(lines) })
}

/// A number of parts.
pub fn number(word: &str) -> Option<usize> {
    let number = word.replace([',', '_'], "").parse().ok()?;
    (1..=MOST_PARTS).contains(&number).then_some(number)
}
