//! The text of the report.

use crate::families::families;
use crate::search::search;
use crate::{question, Ending};

const NODE_LIMIT: u32 = 1_000_000;
const PLANS: usize = 4096;
const LONGEST_INPUT: usize = 65536;

/// What the lister prints for a standard input.
pub fn report(input: &[u8]) -> String {
    let sheet = &input[..input.len().min(LONGEST_INPUT)];
    let problem = match question(sheet) {
        Ok(problem) => problem,
        Err(refusal) => return format!("refused {} {}\n", refusal.number, refusal.item),
    };
    let mut list = vec![0; PLANS * problem.variables];
    let outcome = search(&problem, NODE_LIMIT, &mut list);
    let mut text = String::new();
    for plan in list.chunks(problem.variables).take(outcome.plans as usize) {
        text += "plan";
        for value in plan {
            text += &format!(" {value}");
        }
        text += "\n";
    }
    let ending = match outcome.ending {
        Ending::Finished => "finished",
        Ending::Spent => "spent",
        Ending::Full => "full",
    };
    let families = match families(sheet, &[], &[], NODE_LIMIT) {
        Ok(Some(families)) => families.to_string(),
        _ => "-".to_string(),
    };
    text + &format!("{ending} {} {} {families}\n", outcome.plans, outcome.nodes)
}
