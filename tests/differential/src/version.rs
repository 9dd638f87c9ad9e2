//! The number of the library's version beside the file VERSION, once a run.

use crate::tally::Tally;
use planner_sys::planner_version;

/// As the repository names it.
const VERSION: &str = include_str!("../../../VERSION");

pub fn compare(tally: &mut Tally) {
    let number =
        VERSION.trim().split('.').fold(0, |sum, part| 256 * sum + part.parse::<u32>().expect("a number"));
    tally.case = "version".to_string();
    tally.same("version", planner_version(), number, VERSION.as_bytes());
}
