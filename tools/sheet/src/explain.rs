//! A refusal in words, with the place in the sheet.

use crate::answers::{ending, head};
use crate::command::{is_sheet, refuse_told, text, Arguments, Command, Outcome, Source, Status, Stop, Told};
use crate::json::{fields_text, JSON_OPTION};
use crate::make::make;
use crate::problem::{draws, word, words, Place, Problem};
use planner::Refusal;

pub const COMMAND: Command = Command {
    name: "explain",
    usage: "SHEET",
    about: "says that a sheet (or a text) is accepted, or why it is refused",
    files: 1..=1,
    options: &[&[JSON_OPTION]],
    asks: false,
    run,
};

fn run(arguments: &Arguments) -> Result<Outcome, Stop> {
    let source = &arguments.sources[0];
    let bytes = source.bytes()?;
    let is_json = arguments.has(JSON_OPTION.name);
    let answer = match std::str::from_utf8(&bytes) {
        Ok(words) if !words.is_empty() && !is_sheet(&bytes) => {
            make(words).map(|made| made.problem).map_err(|faults| source.faults(&faults))
        }
        _ => question(&bytes).or_else(|refused| refuse_told(refused.told(is_json.then_some(source.name())))),
    };
    match answer {
        Ok(problem) if is_json => Ok(text(json(source, &problem))),
        Ok(problem) => Ok(text(accepted(&problem) + "\n")),
        Err(stop) if is_json => Err(stop),
        Err(stop) => Ok(Outcome { status: stop.status, ..text(stop.said() + "\n") }),
    }
}

/// An accepted sheet for machines.
fn json(source: &Source, problem: &Problem) -> String {
    let mut fields = head(COMMAND.name);
    fields.push(("hall", source.name().into()));
    fields.extend(ending("accepted", Status::Finished, &accepted(problem)));
    fields.extend([
        ("windows", problem.variables.len().into()),
        ("duties", problem.values.len().into()),
        ("rules", problem.constraints.len().into()),
        ("exchanges", problem.symmetries.len().into()),
    ]);
    fields_text(&fields)
}

/// A sheet's refusal, and why.
pub struct Refused {
    pub refusal: Refusal,
    pub words: String,
}

impl Refused {
    /// As a fault, of a file if it is to be named.
    pub fn told(self, file: Option<&str>) -> Told {
        Told { file: file.map(String::from), refusal: Some(self.refusal), ..Told::words(self.words) }
    }
}

/// Why a sheet is refused: the part that the refusal speaks of, the offset at which to look, and the words.
pub struct Reason {
    pub place: Place,
    pub offset: Option<usize>,
    pub words: String,
}

impl Reason {
    fn new(place: Place, offset: impl Into<Option<usize>>, words: String) -> Reason {
        Reason { place, offset: offset.into(), words }
    }
}

/// The planner's answer to a sheet in words, or its refusal.
pub fn explain(sheet: &[u8]) -> Result<String, String> {
    question(sheet).map(|problem| accepted(&problem)).map_err(|refused| refused.words)
}

/// What a sheet states, or its refusal.
pub fn question(sheet: &[u8]) -> Result<Problem, Refused> {
    match planner::question(sheet) {
        Ok(()) => Ok(Problem::decode(sheet)),
        Err(refusal) => {
            let problem = if refusal.number >= 15 { Problem::decode(sheet) } else { nameless(sheet) };
            let Reason { place, offset, words } = reason(sheet, &problem, refusal);
            let place = match place {
                Place::Header => String::new(),
                Place::Variable(item) => format!("window {item}"),
                Place::Constraint(item) => format!("rule {item}"),
                Place::Symmetry(item) => format!("exchange {item}"),
            };
            let parts = [place, offset.map_or(String::new(), |offset| format!("offset {offset}"))];
            let parts: Vec<String> = parts.into_iter().filter(|part| !part.is_empty()).collect();
            let place = if parts.is_empty() { String::new() } else { format!("{}: ", parts.join(", ")) };
            Err(Refused { refusal, words: format!("{refusal}: {place}{words}") })
        }
    }
}

pub fn accepted(problem: &Problem) -> String {
    format!(
        "accepted: windows {}, duties {}, rules {}, exchanges {}",
        problem.variables.len(),
        problem.values.len(),
        problem.constraints.len(),
        problem.symmetries.len()
    )
}

/// Names only, for a sheet whose rules can't be read; a count out of bounds is cut.
fn nameless(sheet: &[u8]) -> Problem {
    let count = |at: usize| {
        if sheet.len() >= 16 {
            word(sheet, at).min(16)
        } else {
            0
        }
    };
    Problem {
        variables: (0..count(0)).map(|i| format!("w{i}")).collect(),
        values: (0..count(2)).map(|v| format!("d{v}")).collect(),
        initial: Vec::new(),
        constraints: Vec::new(),
        symmetries: Vec::new(),
    }
}

/// The part that a refusal speaks of, and why it is refused.
pub fn reason(sheet: &[u8], problem: &Problem, refusal: Refusal) -> Reason {
    let item = refusal.item as usize;
    match refusal.number {
        8 => initial_set(sheet, problem, item),
        9..=13 => constraint(sheet, problem, refusal),
        15 => permutation(sheet, problem, item),
        16 => respect(problem, item),
        number => header(sheet, number),
    }
}

fn header(sheet: &[u8], number: u32) -> Reason {
    let length = sheet.len();
    let at = |offset: usize| word(sheet, offset);
    let (offset, words) = match number {
        1 => (None, format!("the sheet has {length} bytes, and the header alone takes 16")),
        2 => (Some(0), format!("{} windows, and 1 to 12 are allowed", at(0))),
        3 => (Some(2), format!("{} duties, and 1 to 16 are allowed", at(2))),
        4 => (Some(4), format!("{} rules, and at most 32 are allowed", at(4))),
        5 => (Some(6), format!("{} exchanges, and at most 16 are allowed", at(6))),
        6 => (Some(14), format!("the stated length is {}, and the sheet has {length} bytes", at(14))),
        7 if at(8) != 16 => (Some(8), format!("the first offset is {}, and must be 16", at(8))),
        7 if at(10) != 16 + 2 * at(0) => {
            (Some(10), format!("the second offset is {}, and must be {}", at(10), 16 + 2 * at(0)))
        }
        7 => (Some(12), format!("the third offset is {}, and must lie from {} to {length}", at(12), at(10))),
        _ => {
            let (third, tables) = (at(12), at(6));
            let expected = third + 2 * tables * at(0) * at(2);
            let must = format!("with {tables} exchanges from {third} on it must be {expected}");
            (Some(14), format!("the length is {length}, and {must}"))
        }
    };
    Reason::new(Place::Header, offset, words)
}

fn initial_set(sheet: &[u8], problem: &Problem, item: usize) -> Reason {
    let offset = 16 + 2 * item;
    let (set, d) = (word(sheet, offset), problem.values.len());
    let name = &problem.variables[item];
    let words = match set >> d {
        0 => format!("`{name}` may have no duty"),
        _ => format!("the set of `{name}` is {set}, with bits from {d} up"),
    };
    Reason::new(Place::Variable(item), offset, words)
}

/// The offset of a rule; all rules before it can be read.
fn constraint_offset(sheet: &[u8], item: usize) -> usize {
    let mut at = 16 + 2 * word(sheet, 0);
    for _ in 0..item {
        at += 4 + 2 * word(sheet, at) * (1 + word(sheet, at + 2));
    }
    at
}

fn constraint(sheet: &[u8], problem: &Problem, refusal: Refusal) -> Reason {
    let item = refusal.item as usize;
    let (at, third) = (constraint_offset(sheet, item), word(sheet, 12));
    if item == word(sheet, 4) {
        return Reason::new(
            Place::Header,
            at,
            format!("the rules end here, and the third offset is {third}"),
        );
    }
    let (offset, words) = rule_fault(sheet, problem, refusal.number, at);
    Reason::new(Place::Constraint(item), offset, words)
}

/// What is wrong with the rule at an offset, and where.
fn rule_fault(sheet: &[u8], problem: &Problem, number: u32, at: usize) -> (usize, String) {
    let third = word(sheet, 12);
    if at + 4 > third {
        return (at, format!("its counts end beyond the third offset, {third}"));
    }
    let (arity, rows) = (word(sheet, at), word(sheet, at + 2));
    let end = at + 4 + 2 * arity * (1 + rows);
    match number {
        9 => (at, format!("it ends at {end}, beyond the third offset, {third}")),
        10 if !(1..=3).contains(&arity) => (at, format!("{arity} windows, and 1 to 3 are allowed")),
        10 => (at + 2, format!("{rows} rows, and at most 256 are allowed")),
        11 => {
            let (scope, n) = (words(sheet, at + 4, arity), problem.variables.len());
            (at + 4, format!("windows {scope:?} aren't all below {n} and ascending"))
        }
        number => row_fault(sheet, problem, at, number),
    }
}

/// The first row of the rule at an offset that breaks question 12 or 13.
fn row_fault(sheet: &[u8], problem: &Problem, at: usize, number: u32) -> (usize, String) {
    let (arity, rows, d) = (word(sheet, at), word(sheet, at + 2), problem.values.len());
    let offset = |row: usize| at + 4 + 2 * arity * (1 + row);
    let row = |row: usize| words(sheet, offset(row), arity);
    let beyond = |i: &usize| row(*i).iter().any(|&value| value >= d);
    let unordered = |i: &usize| *i > 0 && row(i - 1) >= row(*i);
    let i = if number == 12 { (0..rows).find(beyond) } else { (0..rows).find(unordered) };
    let i = i.expect("a row that the refusal speaks of");
    let words = match number {
        12 => format!("row {i}: the duties {:?} aren't all below {d}", row(i)),
        _ => format!("row {i}: {:?} doesn't come after {:?}", row(i), row(i - 1)),
    };
    (offset(i), words)
}

/// The first number of an exchange that breaks question 15.
fn permutation(sheet: &[u8], problem: &Problem, item: usize) -> Reason {
    let table = &problem.symmetries[item];
    let start = sheet.len() - 2 * table.len() * (problem.symmetries.len() - item);
    for (number, &image) in table.iter().enumerate() {
        let (from, to) = (problem.pair_name(number), problem.pair_name(image));
        let words = if !problem.is_pair(number) && image != number {
            format!("{from} is no pair, and goes to {to}")
        } else if problem.is_pair(number) && !problem.is_pair(image) {
            format!("{from} goes to {to}, which is no pair")
        } else if let Some(other) = table[..number].iter().position(|&other| other == image) {
            format!("{from} goes to {to}, and so does {}", problem.pair_name(other))
        } else {
            continue;
        };
        return Reason::new(Place::Symmetry(item), start + 2 * number, words);
    }
    Reason::new(Place::Symmetry(item), None, "it doesn't permute the pairs".to_string())
}

fn respect(problem: &Problem, item: usize) -> Reason {
    let words = broken_set(problem, item).unwrap_or("it doesn't respect the sheet".to_string());
    Reason::new(Place::Symmetry(item), None, words)
}

/// A forbidden set whose image under an exchange contains none, in words.
pub fn broken_set(problem: &Problem, item: usize) -> Option<String> {
    let names =
        |set: &[usize]| set.iter().map(|&number| problem.pair_name(number)).collect::<Vec<_>>().join(" ");
    let (from, to) = match two_of_one(problem, &problem.symmetries[item]) {
        Some(two) => two,
        None => broken(problem, &problem.symmetries[item]).map(|(_, set, image)| (set, image))?,
    };
    let (from, to) = (names(&from), names(&to));
    Some(format!("it doesn't respect the sheet: {from} is forbidden, and its image {to} is not"))
}

fn image(table: &[usize], set: &[usize]) -> Vec<usize> {
    set.iter().map(|&number| table[number]).collect()
}

/// Two pairs of one window whose images contain no forbidden set, and these.
fn two_of_one(problem: &Problem, table: &[usize]) -> Option<(Vec<usize>, Vec<usize>)> {
    let d = problem.values.len();
    let two =
        |variable: usize| draws(problem, &[variable, variable]).into_iter().map(move |two| (variable, two));
    (0..problem.variables.len())
        .flat_map(two)
        .filter(|(_, two)| two[0] < two[1])
        .map(|(variable, two)| two.iter().map(|value| variable * d + value).collect::<Vec<usize>>())
        .map(|set| (image(table, &set), set))
        .find(|(image, _)| !contains_forbidden(problem, image))
        .map(|(image, set)| (set, image))
}

/// The first rule that forbids a set whose image under a table contains no forbidden set, that set and its image.
pub fn broken(problem: &Problem, table: &[usize]) -> Option<(usize, Vec<usize>, Vec<usize>)> {
    let d = problem.values.len();
    for (rule, constraint) in problem.constraints.iter().enumerate() {
        for row in draws(problem, &constraint.scope) {
            let set: Vec<usize> =
                constraint.scope.iter().zip(&row).map(|(variable, value)| variable * d + value).collect();
            let image = image(table, &set);
            if constraint.rows.binary_search(&row).is_err() && !contains_forbidden(problem, &image) {
                return Some((rule, set, image));
            }
        }
    }
    None
}

fn contains_forbidden(problem: &Problem, set: &[usize]) -> bool {
    let d = problem.values.len();
    let twice = |i: usize| set[..i].iter().any(|pair| pair / d == set[i] / d);
    (0..set.len()).any(twice)
        || problem.constraints.iter().any(|constraint| {
            let value =
                |variable: &usize| set.iter().find(|&&pair| pair / d == *variable).map(|pair| pair % d);
            let row: Option<Vec<usize>> = constraint.scope.iter().map(value).collect();
            row.is_some_and(|row| constraint.rows.binary_search(&row).is_err())
        })
}
