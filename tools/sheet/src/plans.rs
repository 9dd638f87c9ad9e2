//! `sheet plans`: a text's plans by name.

use crate::answers;
use crate::command::{out, refuse, Arguments, Choice, Command, Out, Outcome, Stop};
use crate::counts::drawn;
use crate::csv::BOM;
use crate::families::{closed, not_counted};
use crate::input::{Input, HALL_OPTIONS, WHERE_OPTION};
use crate::json::{write_rows, Fields, JSON_OPTION};
use crate::listing::{Limits, Listing, PLANS_OPTION};
use crate::pairs::settled;
use crate::runner::{Manner, FROM_OPTION, JOBS_OPTION};
use crate::table::{write_counts, write_csv, write_table, Columns};
use crate::watch::Watch;
use crate::words::written_all;
use std::io::Write;

pub const COMMAND: Command = Command {
    name: "plans",
    usage: "TEXT",
    about: "lists the plans by name, then says how the run ended",
    files: 1..=1,
    options: &[
        &[
            CSV_OPTION,
            BOM_OPTION,
            JSON_OPTION,
            ROWS_OPTION,
            Choice { name: "--first", value: None, about: "one plan is enough, as with --plans 1" },
            FREE_OPTION,
            BY_WINDOW_OPTION,
            EXPLAIN_OPTION,
            WHERE_OPTION,
            PLANS_OPTION,
            FROM_OPTION,
            JOBS_OPTION,
        ],
        HALL_OPTIONS,
    ],
    asks: false,
    run,
};

pub const CSV_OPTION: Choice =
    Choice { name: "--csv", value: None, about: "as CSV; the ending goes to standard error" };

pub const BOM_OPTION: Choice = Choice {
    name: "--bom",
    value: None,
    about: "as CSV with a byte order mark, by which a spreadsheet knows the letters",
};

pub const ROWS_OPTION: Choice = Choice {
    name: "--rows",
    value: None,
    about: "as plain bytes, a number for each window's duty; the ending goes to standard error",
};

pub const FREE_OPTION: Choice = Choice {
    name: FREE,
    value: None,
    about: "with each plan who is free, and after the plans how often each stands and is free",
};

pub const BY_WINDOW_OPTION: Choice = Choice {
    name: BY_WINDOW,
    value: None,
    about: "after the ending, a line for each window: its trials, their share and a bar",
};

pub const EXPLAIN_OPTION: Choice = Choice {
    name: "--explain",
    value: None,
    about: "says whether the exchanges are closed, or which of them make one that isn't there",
};

/// Shows who is free.
const FREE: &str = "--free";

/// Shows where the trials go.
const BY_WINDOW: &str = "--by-window";

/// What a list leaves out under exchanges.
const LEFT_OUT: &str = "(a plan that an exchange makes of an earlier one is left out)\n";

/// Does a command write CSV?
pub fn as_csv(arguments: &Arguments) -> bool {
    arguments.has(CSV_OPTION.name) || arguments.has(BOM_OPTION.name)
}

fn run(arguments: &Arguments) -> Result<Outcome, Stop> {
    let forms = forms(arguments)?;
    let (limits, manner) = (Limits::of(arguments)?, Manner::of(arguments)?);
    let input = Input::read(&arguments.sources[0])?.lent(arguments)?;
    let listing = input.list(limits, &manner, &Watch::of(arguments)?)?;
    shown(arguments, forms, &input, &listing)
}

/// Are plans to be written as CSV, as JSON, as rows?
pub fn forms(arguments: &Arguments) -> Result<[bool; 3], Stop> {
    let forms = [as_csv(arguments), arguments.has(JSON_OPTION.name), arguments.has("--rows")];
    if forms.iter().filter(|form| **form).count() > 1 {
        return refuse("plans takes one of --csv, --json and --rows");
    }
    if let Some(name) = [BY_WINDOW, FREE].iter().find(|name| arguments.has(name) && forms.contains(&true)) {
        return refuse(format!("{name} goes with the table alone"));
    }
    Ok(forms)
}

/// Writes a listing as the options ask for.
pub fn shown(
    arguments: &Arguments,
    forms: [bool; 3],
    input: &Input,
    listing: &Listing,
) -> Result<Outcome, Stop> {
    let problem = &input.made.problem;
    let ending = listing.ending() + listing.hint() + "\n";
    let mut out = out();
    let note = match forms {
        [true, _, _] => {
            out.all(|out| write_all_csv(out, arguments, input, listing))?;
            ending
        }
        [_, true, _] => {
            let plans = listing.plans.iter().map(|plan| answers::plan(problem, plan));
            out.all(|out| write_rows(out, &json(arguments.command, input, listing), "plans", plans))?;
            String::new()
        }
        [_, _, true] => {
            out.all(|out| out.write_all(listing.plans.bytes()))?;
            ending
        }
        _ => {
            write_shown(&mut out, input, listing, arguments)?;
            String::new()
        }
    };
    out.end()?;
    Ok(Outcome { output: Vec::new(), note: input.notes() + &note, status: listing.status() })
}

/// What a run answers for machines, but for its plans.
pub fn json(command: &str, input: &Input, listing: &Listing) -> Fields {
    answers::of_hall(command, input, &input.notes(), answers::run(input, listing))
}

fn write_all_csv(
    out: &mut dyn Write,
    arguments: &Arguments,
    input: &Input,
    listing: &Listing,
) -> std::io::Result<()> {
    write_bom(out, arguments)?;
    write_csv(out, &input.made.problem, &listing.plans)
}

/// The byte order mark, if it is asked for.
pub fn write_bom(out: &mut dyn Write, arguments: &Arguments) -> std::io::Result<()> {
    write!(out, "{}", if arguments.has(BOM_OPTION.name) { BOM } else { "" })
}

/// The table, the ending, and what the options ask for.
fn write_shown(out: &mut Out, input: &Input, listing: &Listing, arguments: &Arguments) -> Result<(), Stop> {
    let problem = &input.made.problem;
    let columns = Columns { costs: None, free: arguments.has(FREE).then(|| input.present()) };
    out.all(|out| write_table(out, problem, &listing.plans, columns))?;
    out.all(|out| {
        write!(out, "{}", ended(input, listing, listing.hint(), arguments.has(EXPLAIN_OPTION.name)))?;
        write!(out, "{}", in_order(input))?;
        if let Some(present) = columns.free {
            write_counts(out, problem, &listing.plans, present)?;
        }
        let by_window = arguments.has(BY_WINDOW).then(|| drawn(&problem.variables, &listing.counts));
        write!(out, "{}", by_window.unwrap_or_default())
    })
}

/// The ending with a hint, below a table if there is one, and what is to be said of exchanges.
pub fn ended(input: &Input, listing: &Listing, hint: &str, explain: bool) -> String {
    let gap = if listing.plans.is_empty() { "" } else { "\n" };
    let left = if input.made.has_exchanges() { LEFT_OUT } else { "" };
    let closed = if explain { closed(listing, input) } else { None };
    let exchanges = not_counted(listing).into_iter().chain(closed);
    let exchanges: String = exchanges.map(|words| format!("({words})\n")).collect();
    format!("{gap}{}{hint}\n{left}{exchanges}", listing.ending())
}

/// The order in which pairs settle the windows.
pub fn in_order(input: &Input) -> String {
    match settled(&input.made.problem, &input.made.pairs) {
        windows if windows.is_empty() => String::new(),
        windows => format!("(windows settled in the order {})\n", written_all(windows)),
    }
}
