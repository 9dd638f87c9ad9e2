//! From a text to its sheet, if the planner accepts it.

use crate::alike;
use crate::command::{refuse, Arguments, Choice, Command, Outcome, Status, Stop};
use crate::compose::{as_written, compose, Composed, MOST_EXCHANGES};
use crate::explain::{broken_set, reason};
use crate::fixed::kept;
use crate::input::Input;
use crate::pairs;
use crate::parse::parse;
use crate::problem::{Place, Problem};
use crate::text::{fault, refused_line, Faults, Parsed, Stated, Statement, Text};
use planner::Refusal;

pub const COMMAND: Command = Command {
    name: "make",
    usage: "TEXT > SHEET",
    about: "makes the sheet; a fault is said with its line, and nothing is written",
    files: 1..=1,
    options: &[&[
        Choice {
            name: "--pairs",
            value: Some("FILE"),
            about: "writes the pairs of the `before` lines to a file, two bytes each",
        },
        Choice {
            name: "--block",
            value: Some("FILE"),
            about: "writes the `alike` line to a file, two bytes: its first window and how many",
        },
    ]],
    asks: false,
    run,
};

/// What a sheet leaves out.
const NO_PAIRS: &str = "the sheet doesn't hold the `before` lines; --pairs FILE writes them beside it\n";
const NO_BLOCK: &str = "the sheet doesn't hold the `alike` line; --block FILE writes it beside it\n";
const NO_WISHES: &str = "the sheet doesn't hold preferences; `sheet best` takes them from the text\n";

fn run(arguments: &Arguments) -> Result<Outcome, Stop> {
    let files = ["--pairs", "--block"].map(|name| arguments.file(name));
    for (file, what) in files.iter().zip(["pairs", "block"]) {
        if file.as_ref().is_some_and(|file| file.0 == "-") {
            return refuse(format!("make writes the {what} to a file, not to standard output"));
        }
    }
    let input = Input::read(&arguments.sources[0])?;
    let mut note = input.notes();
    if input.text.statements.iter().any(|stated| stated.statement.prefers()) {
        note += NO_WISHES;
    }
    let made = input.made;
    for ((file, bytes), left_out) in files.iter().zip([&made.pairs, &made.block]).zip([NO_PAIRS, NO_BLOCK]) {
        match file {
            Some(file) => file.write(bytes)?,
            None if bytes.is_empty() => {}
            None => note += left_out,
        }
    }
    Ok(Outcome { output: made.sheet, note, status: Status::Finished })
}

/// An accepted sheet, what it states, and the pairs and the block lent beside it.
#[derive(Debug)]
pub struct Made {
    /// What the sheet states, with the text's names.
    pub problem: Problem,
    /// The sheet's bytes.
    pub sheet: Vec<u8>,
    /// Two bytes for each `before` line.
    pub pairs: Vec<u8>,
    /// Two bytes for the `alike` line, or none.
    pub block: Vec<u8>,
}

impl Made {
    /// Is a plan left out that an exchange makes of an earlier one?
    pub fn has_exchanges(&self) -> bool {
        !self.problem.symmetries.is_empty() || !self.block.is_empty()
    }
}

/// The sheet that a text describes, or all faults that can be told at once.
pub fn make(text: &str) -> Result<Made, Faults> {
    make_all(&kept(&parse(text)?)?.text)
}

/// The sheet, or the faults of all lines that can be judged: after a fault the rest is asked without its line. Where a
/// line is left out that says which plans there are, exchanges aren't judged any more, as it may be what they need.
pub fn make_all(text: &Text) -> Result<Made, Faults> {
    let (mut rest, mut all) = (text.clone(), Faults::new());
    loop {
        let faults = match make_stated(&rest) {
            Ok(made) if all.is_empty() => return Ok(made),
            Ok(_) => break,
            Err(faults) => faults,
        };
        let before = rest.statements.len();
        let wrong = |stated: &Stated| faults.iter().any(|fault| fault.line == stated.first);
        let narrows = rest.statements.iter().any(|stated| wrong(stated) && stated.statement.narrows());
        rest.statements.retain(|stated| !wrong(stated) && !(narrows && stated.statement.exchanges()));
        all.extend(faults);
        if rest.statements.len() == before || over_counted(text) {
            break;
        }
    }
    all.sort_by_key(|fault| fault.line);
    Err(all)
}

/// Are there more exchanges or `before` lines than a sheet takes? Each of them would be a fault.
fn over_counted(text: &Text) -> bool {
    let count = |wanted: fn(&Statement) -> bool| {
        text.statements.iter().filter(|stated| wanted(&stated.statement)).count()
    };
    count(|statement| matches!(statement, Statement::Exchange(_))) > MOST_EXCHANGES
        || count(|statement| matches!(statement, Statement::Before(..))) > pairs::MOST_PAIRS
}

/// The sheet, or the first faults.
pub fn make_stated(text: &Text) -> Result<Made, Faults> {
    let composed = compose(text)?;
    let (sheet, pairs, block) = (composed.problem.encode(), pairs::stated(text), alike::stated(text));
    let wrong = match planner::question_lent(&sheet, &pairs, &block) {
        Ok(()) => return Ok(Made { problem: composed.problem, sheet, pairs, block }),
        Err(refusal) if (28..=30).contains(&refusal.number) => {
            pairs::check(text).and(fault(1, refusal.to_string()))
        }
        Err(refusal) if of_block(&composed.problem, refusal) => not_alike(text, &composed, refusal),
        Err(refusal) => refused(text, &composed, &sheet, refusal),
    };
    wrong.map_err(|fault| vec![fault])
}

/// Does a refusal speak of the block: of itself, or of an ordering after the sheet's own exchanges?
pub fn of_block(problem: &Problem, refusal: Refusal) -> bool {
    let item = refusal.item as usize;
    refusal.number == 36 || (15..=16).contains(&refusal.number) && item >= problem.symmetries.len()
}

/// A refusal of the block as a fault of its line.
fn not_alike<T>(text: &Text, composed: &Composed, refusal: Refusal) -> Parsed<T> {
    let rules = as_written(text, &composed.problem);
    let stands = |rule: usize| format!("line {}", rules[rule].1);
    let words = alike::wrong(&alike::stated(text), &composed.problem, &rules, stands, refusal);
    refused_line(alike::line(text).map_or(1, |(_, line)| line), &words, refusal)
}

/// A refusal as a fault of the line that it comes from, in the text's own names.
fn refused<T>(text: &Text, composed: &Composed, sheet: &[u8], refusal: Refusal) -> Parsed<T> {
    let reason = reason(sheet, &composed.problem, refusal);
    let line = composed.line_of(if refusal.number == 5 { Place::Symmetry(16) } else { reason.place });
    let words = match (refusal.number, reason.place) {
        (10, _) if !is_written(text, line) => reason.words + "; fewer duties by `may` lines make fewer rows",
        (16, Place::Symmetry(item)) if composed.packed => respect_packed(text, composed, item),
        _ => reason.words,
    };
    refused_line(line, &words, refusal)
}

/// Does a `rule` stand in the line?
fn is_written(text: &Text, line: usize) -> bool {
    let is_rule = |stated: &Stated| matches!(stated.statement, Statement::Rule(_));
    text.statements.iter().any(|stated| stated.first == line && is_rule(stated))
}

/// Why an exchange doesn't respect rules that were put together: the rules as written show it too, or the
/// exchange doesn't carry those on three windows into one another.
fn respect_packed(text: &Text, composed: &Composed, item: usize) -> String {
    let mut written = composed.problem.clone();
    written.constraints = as_written(text, &written).into_iter().map(|(rule, _)| rule).collect();
    match (broken_set(&written, item), broken_set(&composed.problem, item)) {
        (Some(words), _) => words,
        (None, words) => {
            words.unwrap_or_default() + ", once rules are put together on three windows to fit into 32"
        }
    }
}
