//! `sheet enough`: are there at least so many plans? (paper 02, #101) The answer in words and as exit status.

use crate::advice::advice_of;
use crate::answers;
use crate::command::{refuse, Arguments, Command, Outcome, Status, Stop};
use crate::input::{Input, HALL_OPTIONS};
use crate::json::{fields_text, Fields, JSON_OPTION};
use crate::listing::Limits;
use crate::watch::{Cause, Watch};
use crate::words::counted;
use planner::Enough;

pub const COMMAND: Command = Command {
    name: "enough",
    usage: "M TEXT",
    about: "says whether there are at least M plans, also by its status: 0 yes, 1 no, 2 not known",
    files: 2..=2,
    options: &[&[JSON_OPTION], HALL_OPTIONS],
    asks: true,
    run,
};

/// What is not counted under exchanges.
const LEFT_OUT: &str = "(a plan that an exchange makes of an earlier one isn't counted)\n";

fn run(arguments: &Arguments) -> Result<Outcome, Stop> {
    let [plans, source] = &arguments.sources[..] else { unreachable!("two words") };
    let Ok(plans) = plans.0.replace([',', '_'], "").parse::<u32>() else {
        return refuse(format!("`{}` is no number of plans", plans.0));
    };
    let limits = Limits::of(arguments)?;
    let input = Input::read(source)?.lent(arguments)?;
    let watch = Watch::of(arguments)?;
    let enough = input.at_least(plans, limits, &watch)?;
    let stop = watch.stopped();
    let (words, status) = said(enough, stop);
    let advice = match (status, stop) {
        (Status::UNKNOWN, None) => advice_of(&input.made, limits),
        _ => String::new(),
    };
    let words = words + &advice;
    let ending = answers::ending(word(enough, stop), status, &words);
    let output = match arguments.has(JSON_OPTION.name) {
        true => json(&input, [plans, limits.trials], enough, ending),
        false => format!("{words}\n{}", if input.made.has_exchanges() { LEFT_OUT } else { "" }),
    };
    Ok(Outcome { output: output.into_bytes(), note: input.notes(), status })
}

/// The answer for machines, to the plans asked for with an allowance.
fn json(input: &Input, [asked, allowance]: [u32; 2], enough: Enough, ending: Fields) -> String {
    let (Enough::Yes { plans, nodes } | Enough::No { plans, nodes } | Enough::Spent { plans, nodes }) =
        enough;
    let mut fields = answers::of_hall(COMMAND.name, input, &input.notes(), ending);
    fields.extend([
        ("asked", asked.into()),
        ("found", plans.into()),
        ("trials", nodes.into()),
        ("allowance", allowance.into()),
    ]);
    fields_text(&fields)
}

/// The answer as a word.
fn word(enough: Enough, stop: Option<Cause>) -> &'static str {
    match enough {
        Enough::Yes { .. } => "yes",
        Enough::No { .. } => "no",
        Enough::Spent { .. } if stop.is_some() => "stopped",
        Enough::Spent { .. } => "spent",
    }
}

/// The answer in words, and as status; where it isn't known because of a cause, with that.
fn said(enough: Enough, stop: Option<Cause>) -> (String, Status) {
    match enough {
        Enough::Yes { plans, nodes } => {
            (format!("yes: at least {}, {}", counted(plans, "plan"), counted(nodes, "trial")), Status::YES)
        }
        Enough::No { plans, nodes } => {
            (format!("no: {} in all, {}", number(plans), counted(nodes, "trial")), Status::NO)
        }
        Enough::Spent { plans, nodes } => {
            let (plans, trials) = (number(plans), counted(nodes, "trial"));
            let words = match stop {
                Some(cause) => format!("{} and {trials}, {plans} so far", cause.words()),
                None => {
                    format!("stopped at the allowance of {trials}, {plans} so far (--trials N allows more)")
                }
            };
            (format!("not known: {words}"), Status::UNKNOWN)
        }
    }
}

/// A number of plans that may be none.
fn number(plans: u32) -> String {
    match plans {
        0 => "no plan".to_string(),
        plans => counted(plans, "plan"),
    }
}
