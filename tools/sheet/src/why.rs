//! `sheet why`: where there is no plan, lines of the text that already have none, none of which can be left out.

use crate::answers;
use crate::command::{Arguments, Command, Outcome, Status, Stop};
use crate::input::{Input, HALL_OPTIONS};
use crate::json::{object, rows_text, Fields, Json, JSON_OPTION};
use crate::listing::{list, Limits, Listing};
use crate::make::make_stated;
use crate::runner::Manner;
use crate::table::table;
use crate::text::{Stated, Statement, Text};
use crate::watch::Watch;
use crate::words::{counted, listed};
use planner::{Ending, Refusal};

pub const COMMAND: Command = Command {
    name: "why",
    usage: "TEXT",
    about: "shows a plan, or lines of the text that already have none",
    files: 1..=1,
    options: &[&[JSON_OPTION], HALL_OPTIONS],
    asks: false,
    run,
};

/// What the planner says of a text.
enum Known {
    Plan,
    None,
    /// The allowance was used up, or the sheet can't be made.
    Open,
}

fn run(arguments: &Arguments) -> Result<Outcome, Stop> {
    let limits = Limits::of(arguments)?.first();
    let input = Input::read(&arguments.sources[0])?.lent(arguments)?;
    let watch = Watch::of(arguments)?;
    let listing = input.list(limits, &Manner::default(), &watch)?;
    let left = match listing.status() {
        Status::NoPlan => Some(narrow(&input.text, limits, &watch)),
        _ => None,
    };
    let words = match &left {
        _ if listing.listed > 0 => "there is a plan:\n".to_string(),
        Some(left) => no_plan(&input, left, &watch),
        None => listing.ending() + listing.hint() + "\n",
    };
    let (word, status) = match watch.stopped() {
        Some(_) if listing.listed == 0 => ("stopped", Status::Short),
        _ => (listing.word(), listing.status()),
    };
    let output = match arguments.has(JSON_OPTION.name) {
        true => json(&input, &listing, left, answers::ending(word, status, words.trim_end_matches(":\n"))),
        false if listing.listed > 0 => format!("{words}\n{}", table(&input.made.problem, &listing)),
        false => words,
    };
    Ok(Outcome { output: output.into_bytes(), note: input.notes(), status })
}

/// The answer for machines: a plan, or lines.
fn json(input: &Input, listing: &Listing, left: Option<Left>, ending: Fields) -> String {
    let problem = &input.made.problem;
    let mut fields = answers::of_hall(COMMAND.name, input, &input.notes(), ending);
    fields.extend([
        ("trials", listing.trials.into()),
        ("allowance", listing.limits.trials.into()),
        ("plan", listing.plans.iter().next().map(|plan| answers::plan(problem, plan)).into()),
    ]);
    let left = left.unwrap_or_default();
    let line = |stated: &Stated| {
        object(vec![
            ("first", stated.first.into()),
            ("last", stated.last.into()),
            ("words", source_line(&input.source, stated).into()),
            ("needed", if left.open.contains(&stated.first) { Json::Null } else { true.into() }),
        ])
    };
    rows_text(&fields, "lines", left.lines.iter().map(line))
}

fn no_plan(input: &Input, left: &Left, watch: &Watch) -> String {
    let mut words = match left.lines.len() {
        1 => "there is no plan: this line alone has none\n".to_string(),
        count => format!("there is no plan: these {count} lines together have none\n"),
    };
    for stated in &left.lines {
        words += &said(&input.source, stated);
    }
    if left.lines.len() > 1 {
        words += &needed(left);
    }
    words + &watch.stopped().map_or(String::new(), |cause| format!("({})\n", cause.words()))
}

/// Of which lines it is known that they are needed, and of which it isn't.
fn needed(left: &Left) -> String {
    let numbers = |lines: &[usize]| {
        let names: Vec<String> = lines.iter().map(usize::to_string).collect();
        format!("{} {}", if lines.len() == 1 { "line" } else { "lines" }, listed(&names))
    };
    let lines = left.lines.iter().map(|stated| stated.first);
    let (open, known): (Vec<usize>, Vec<usize>) = lines.partition(|line| left.open.contains(line));
    let known = match known.len() {
        _ if open.is_empty() => return "Without any one of them the others have a plan.\n".to_string(),
        0 => return format!("Whether each of them is needed isn't known: {SHORT}.\n"),
        1 => numbers(&known),
        _ => format!("any one of {}", numbers(&known)),
    };
    format!("Without {known} the others have a plan; of {} it isn't known: {SHORT}.\n", numbers(&open))
}

/// Why nothing is known of a line.
const SHORT: &str = "without it the run stops short (--trials N allows more), or no sheet fits";

/// The first line of a statement.
fn source_line<'a>(source: &'a str, stated: &Stated) -> &'a str {
    source.lines().nth(stated.first - 1).unwrap_or("").trim()
}

/// A statement as it stands in the text, with its line.
fn said(source: &str, stated: &Stated) -> String {
    let line = source_line(source, stated);
    match &stated.statement {
        Statement::Rule(rule) if stated.last > stated.first => {
            let rows = counted(rule.rows.len() as u64, "row");
            format!("  lines {} to {}: {line} ({rows})\n", stated.first, stated.last)
        }
        _ => format!("  line {}: {line}\n", stated.first),
    }
}

/// Lines that have no plan, and those of them of which it isn't known that they are needed.
#[derive(Default)]
pub struct Left {
    pub lines: Vec<Stated>,
    pub open: Vec<usize>,
}

/// Takes away each line in turn, last first and first first, as long as there is no plan without it; the shorter
/// of the two rests.
pub fn narrow(text: &Text, limits: Limits, watch: &Watch) -> Left {
    let narrowing: Vec<usize> =
        (0..text.statements.len()).filter(|&i| text.statements[i].statement.narrows()).collect();
    let backwards: Vec<usize> = narrowing.iter().rev().copied().collect();
    let rests = [backwards, narrowing].map(|order| rest(text, &order, limits, watch));
    rests.into_iter().min_by_key(|left| (left.open.len(), left.lines.len())).expect("two rests")
}

fn rest(text: &Text, order: &[usize], limits: Limits, watch: &Watch) -> Left {
    let mut kept = vec![true; text.statements.len()];
    let open = tried(text, order, (limits, watch), &mut kept);
    let open = tried(text, &open, (limits, watch), &mut kept);
    let lines = part(text, &kept).statements;
    Left {
        lines: lines.into_iter().filter(|stated| stated.statement.narrows()).collect(),
        open: open.into_iter().map(|statement| text.statements[statement].first).collect(),
    }
}

/// Takes away each of some statements that isn't needed; those stay of which it isn't known, and are the answer.
fn tried(text: &Text, order: &[usize], limits: (Limits, &Watch), kept: &mut [bool]) -> Vec<usize> {
    let mut open = Vec::new();
    for &statement in order {
        kept[statement] = false;
        match ask(part(text, kept), limits) {
            Known::None => continue,
            Known::Plan => {}
            Known::Open => open.push(statement),
        }
        kept[statement] = true;
    }
    open
}

/// The text with the kept statements alone.
fn part(text: &Text, kept: &[bool]) -> Text {
    let statements =
        text.statements.iter().zip(kept).filter(|(_, kept)| **kept).map(|(stated, _)| stated.clone());
    Text { statements: statements.collect(), ..text.clone() }
}

/// Has the text a plan? Exchanges say nothing of that: those that the other lines no longer bear are left out.
fn ask(mut text: Text, (limits, watch): (Limits, &Watch)) -> Known {
    loop {
        match make_stated(&text) {
            Ok(made) => return known(list(&made, limits, &Manner::default(), watch)),
            Err(faults) => {
                let before = text.statements.len();
                let wrong = |stated: &Stated| faults.iter().any(|fault| fault.line == stated.first);
                text.statements.retain(|stated| !wrong(stated) || stated.statement.narrows());
                if text.statements.len() == before {
                    return Known::Open;
                }
            }
        }
    }
}

fn known(listing: Result<Listing, Refusal>) -> Known {
    match listing {
        Ok(listing) if !listing.plans.is_empty() => Known::Plan,
        Ok(listing) if listing.ending == Ending::Finished => Known::None,
        _ => Known::Open,
    }
}
