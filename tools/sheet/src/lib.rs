//! Halls as texts: what the program `sheet` uses, for Rust callers.
//!
//! [`make()`] reads a text and makes its sheet, if the planner accepts it, or tells all faults with their lines;
//! [`Problem::named`] gives a plan's duties by the text's names. [`parse()`](parse::parse) is the first half of [`make()`]: what
//! a text states, line by line. [`show()`] is the way back, from a sheet to a text, and [`explain()`] says why a sheet is refused.
//! Which sheets are accepted and which plans there are is always asked of the proved library, the crate [`planner`].
//!
//! ```
//! use sheet::planner::{run_lent, Ending};
//!
//! let text = "windows cash pay desk      # in this order
//!             duties ann ben cid
//!             may cash ann ben
//!             all different cash pay desk
//!             before pay cash            # the list is read by pay first
//!             ";
//! let made = sheet::make(text).expect("a text without faults");
//! let mut list = vec![0; 100 * made.problem.variables.len()];
//! let answer = run_lent(&made.sheet, &made.pairs, &made.block, 1_000_000, &mut list)?.answer;
//! assert_eq!((answer.ending, answer.plans), (Ending::Finished, 4));
//!
//! let plans = list.chunks(made.problem.variables.len()).take(answer.plans as usize);
//! let first: Vec<(&str, &str)> = made.problem.named(plans.clone().next().unwrap()).collect();
//! assert_eq!(first, [("cash", "ben"), ("pay", "ann"), ("desk", "cid")]);
//!
//! let faults = sheet::make("windows cash\nduties ann\nmay till ann\n").unwrap_err();
//! assert_eq!((faults[0].line, faults[0].text.as_str()), (3, "no window is called `till`"));
//! # Ok::<(), sheet::planner::Refusal>(())
//! ```

// `fixed` keeps the exchanges that a text's fixed duties bear; `compose`, `amount` and `pack` make what its sheet states;
// `runner` runs the planner; what costs too much `best` reckons by itself. Each command is a module with a `COMMAND` in the
// list of `command`.

mod advice;
mod alike;
mod amount;
mod answers;
mod classes;
mod columns;
mod compose;
mod counts;
mod csv;
mod desk;
mod enough;
mod explain;
mod families;
mod import;
mod join;
mod letters;
mod merge;
mod pack;
mod page;
mod part;
mod path;
mod plans;
mod seat;
mod show;
mod signals;
mod sketch;
mod split;
mod table;
mod team;
mod walker;
mod words;

pub mod make;
pub mod parse;
pub mod problem;
pub mod text;

// of the program, for its tests and its main function
#[doc(hidden)]
pub mod best;
#[doc(hidden)]
pub mod command;
#[doc(hidden)]
pub mod cut;
#[doc(hidden)]
pub mod fixed;
#[doc(hidden)]
pub mod input;
#[doc(hidden)]
pub mod json;
#[doc(hidden)]
pub mod listing;
#[doc(hidden)]
pub mod pairs;
#[doc(hidden)]
pub mod parts;
#[doc(hidden)]
pub mod result;
#[doc(hidden)]
pub mod runner;
#[doc(hidden)]
pub mod score;
#[doc(hidden)]
pub mod watch;
#[doc(hidden)]
pub mod why;

pub use explain::explain;
pub use make::make;
pub use planner;
pub use problem::Problem;
pub use show::show;
