//! Families (paper 02, #104) and closed exchanges (#112) after a finished run, in words.

use crate::input::Input;
use crate::listing::Listing;
use crate::text::Statement;
use planner::{Closed, Ending};

/// How much of a line is shown.
const LONGEST: usize = 60;

const NOT_COUNTED: &str =
    "families aren't counted: without the exchanges the run doesn't finish, with this allowance and room for 4,096 plans";
const ONE_OF_EACH: &str = "one plan of each family, the one that reads earliest: the exchanges are closed";

/// How many families a finished run's plans are of, where they were counted: without exchanges each plan is one.
pub fn number(listing: &Listing, input: &Input) -> Option<u64> {
    match listing.families {
        Some(families) => families.count.map(u64::from),
        None if listing.ending != Ending::Finished => None,
        None if listing.listed == 0 || !input.made.has_exchanges() => Some(listing.listed),
        None => None,
    }
}

/// Why they weren't counted, where they weren't.
pub fn not_counted(listing: &Listing) -> Option<String> {
    let families = listing.families.filter(|families| families.count.is_none())?;
    Some(match families.stop {
        Some(cause) => format!("families aren't counted: {}", cause.words()),
        None => NOT_COUNTED.to_string(),
    })
}

/// Are the exchanges closed? Every family has a listed plan, so as many plans as families are one of each.
pub fn closed(listing: &Listing, input: &Input) -> Option<String> {
    let families = listing.families?;
    let several = match families.count {
        Some(count) if u64::from(count) == listing.listed => "one plan of each family, though",
        Some(_) => "some family has several plans, as",
        None => "a family may have several plans, as",
    };
    Some(match families.closed {
        Closed::Yes => ONE_OF_EACH.to_string(),
        Closed::Missing { first, second } => {
            format!("{several} the exchanges aren't closed: {}", product(input, first, second))
        }
    })
}

fn product(input: &Input, first: u32, second: u32) -> String {
    let [one, other] = [first, second].map(|number| name(input, number));
    match first == second {
        true => format!("{one} twice makes one that isn't there"),
        false => format!("{one} and then {other} make one that isn't there"),
    }
}

/// An exchange of a run, as its line has it, or as an ordering of the alike windows.
fn name(input: &Input, number: u32) -> String {
    let lines = input.text.statements.iter();
    let mut exchanges = lines.filter(|stated| matches!(stated.statement, Statement::Exchange(_)));
    match exchanges.nth(number as usize).and_then(|stated| input.source.lines().nth(stated.first - 1)) {
        Some(line) => format!("`{}`", short(line.split('#').next().unwrap_or(line).trim())),
        None => {
            let first = input.made.problem.symmetries.len();
            format!("ordering {} of the alike windows", number as usize - first + 1)
        }
    }
}

/// The first words of a line that is long.
fn short(line: &str) -> String {
    match line.char_indices().nth(LONGEST) {
        Some((end, _)) => format!("{} ..", line[..end].rsplit_once(' ').map_or(line, |(front, _)| front)),
        None => line.to_string(),
    }
}
