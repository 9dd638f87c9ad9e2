//! Answers for machines: what `--json` writes. docs/schema/sheet.json says the same, and the tests hold the one to the other.

use crate::command::{Status, Stop, Told};
use crate::families::number;
use crate::input::Input;
use crate::json::{list, object, Fields, Json};
use crate::listing::Listing;
use crate::pairs::order;
use crate::path::word;
use crate::problem::Problem;
use planner::{Closed, Ending};

/// What every answer begins with: the versions of the program and of the proved library, and the command.
pub fn head(command: &str) -> Fields {
    vec![
        ("version", env!("CARGO_PKG_VERSION").into()),
        ("planner", planner::version().to_string().into()),
        ("command", command.into()),
    ]
}

/// What a command answers of a hall: its name, its windows and duties, the order in which the windows are settled, what is
/// said beside the answer, and the ending.
pub fn of_hall(command: &str, input: &Input, notes: &str, ending: Fields) -> Fields {
    let problem = &input.made.problem;
    let order = order(problem.variables.len(), &input.made.pairs);
    let hall = vec![
        ("hall", input.name.as_str().into()),
        ("windows", names(&problem.variables)),
        ("duties", names(&problem.values)),
        ("order", list(order.iter().map(|&window| problem.variables[window].as_str()))),
        ("notes", list(notes.lines())),
    ];
    [head(command), hall, ending].concat()
}

/// How a command ended: a word, the exit status, and the words for people.
pub fn ending(word: &str, status: Status, words: &str) -> Fields {
    vec![("ending", word.into()), ("status", (status as u32).into()), ("words", words.trim_end().into())]
}

/// How a run ended, and its figures.
pub fn run(input: &Input, listing: &Listing) -> Fields {
    let problem = &input.made.problem;
    let closed = listing.families.map(|families| families.closed == Closed::Yes);
    let by_window = problem.variables.iter().zip(&listing.counts);
    let by_window = by_window.map(|(window, &count)| (window.clone(), count.into())).collect();
    let mut fields = ending(listing.word(), listing.status(), &listing.ending());
    fields.extend([
        ("listed", listing.plans.len().into()),
        ("found", listing.listed.into()),
        ("trials", listing.trials.into()),
        ("allowance", listing.limits.trials.into()),
        ("room", listing.limits.plans.into()),
        ("families", number(listing, input).into()),
        ("closed", closed.into()),
        ("by_window", Json::Object(by_window)),
        ("from", word(&listing.from).into()),
        ("at", (listing.ending == Ending::Spent).then(|| word(&listing.at)).into()),
    ]);
    fields
}

/// The duty of each window in a plan.
pub fn plan(problem: &Problem, plan: &[u8]) -> Json {
    Json::Object(problem.named(plan).map(|(window, duty)| (window.to_string(), duty.into())).collect())
}

/// The duties that have these numbers.
pub fn duties(problem: &Problem, numbers: impl Iterator<Item = usize>) -> Json {
    list(numbers.map(|duty| problem.values[duty].as_str()))
}

fn names(names: &[String]) -> Json {
    list(names.iter().map(String::as_str))
}

/// A command that got no answer, with the hall if its name is known.
pub fn failure(command: &str, hall: Option<&str>, stop: &Stop, status: Status) -> (Fields, Vec<Json>) {
    let refused = stop.told.iter().any(|told| told.line.is_none() && told.refusal.is_some());
    let word = match stop.status {
        Status::Failed => "failed",
        _ if refused => "refused",
        _ => "fault",
    };
    let ending = ending(word, status, &stop.said());
    ([head(command), vec![("hall", hall.into())], ending].concat(), faults(stop))
}

fn faults(stop: &Stop) -> Vec<Json> {
    let told = |told: &Told| {
        object(vec![
            ("file", told.file.as_deref().into()),
            ("line", told.line.into()),
            ("number", told.refusal.map(|refusal| refusal.number).into()),
            ("item", told.refusal.map(|refusal| refusal.item).into()),
            ("words", told.words.as_str().into()),
        ])
    };
    stop.told.iter().map(told).collect()
}
