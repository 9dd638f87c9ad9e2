//! What a text states, line by line, with names resolved to numbers.

use crate::problem::Constraint;
use planner::Refusal;

/// A fault in a text.
#[derive(Clone, Debug, PartialEq, Eq)]
pub struct Fault {
    /// The line, from 1.
    pub line: usize,
    /// What is wrong with it.
    pub text: String,
    /// The number and the item of the planner's refusal, which the text names too.
    pub refusal: Option<Refusal>,
}

impl Fault {
    pub fn new(line: usize, text: impl Into<String>) -> Fault {
        Fault { line, text: text.into(), refusal: None }
    }
}

pub type Parsed<T> = Result<T, Fault>;

/// All faults of a text, by line.
pub type Faults = Vec<Fault>;

pub fn fault<T>(line: usize, text: impl Into<String>) -> Parsed<T> {
    Err(Fault::new(line, text))
}

/// The fault of a line that the planner refuses, for a reason.
pub fn refused_line<T>(line: usize, reason: &str, refusal: Refusal) -> Parsed<T> {
    Err(Fault { refusal: Some(refusal), ..Fault::new(line, format!("{reason} ({refusal})")) })
}

/// A text without faults.
#[derive(Clone, Debug)]
pub struct Text {
    /// The comment above `windows`.
    pub about: String,
    /// The windows.
    pub variables: Vec<String>,
    /// The duties.
    pub values: Vec<String>,
    /// All other lines, in order.
    pub statements: Vec<Stated>,
}

/// A statement, its lines, first and last, and the comment right above it.
#[derive(Clone, Debug)]
pub struct Stated {
    pub first: usize,
    pub last: usize,
    pub comment: String,
    pub statement: Statement,
}

/// What a line says; windows and duties by their numbers.
#[derive(Clone, Debug)]
pub enum Statement {
    /// `may`: a window and its set, bit v for value v.
    May(usize, u16),
    /// `clerk`: a duty and the windows that may have it, bit w for window w.
    Clerk(usize, u16),
    /// `away`: a duty that no window may have.
    Away(usize),
    /// `fix`: a window and the duty that it has.
    Fix(usize, usize),
    /// `rule` and its `rows`, with windows and columns as written.
    Rule(Constraint),
    /// `different`, `all different`: the windows ascending.
    Different(Vec<usize>),
    /// `forbid`, `never together`: rows of windows, ascending, with their duties.
    Forbid(Vec<Vec<(usize, usize)>>),
    /// `exactly`, `at least`, `at most`: how many of the windows have the duty.
    Count { least: usize, most: usize, value: usize, scope: Vec<usize> },
    /// `exchange`.
    Exchange(Exchange),
    /// `before`: the first window is settled before the second.
    Before(usize, usize),
    /// `alike`: the first of neighbouring windows, and how many.
    Alike(usize, usize),
    /// `prefer`, `avoid`: what a plan costs whose window lacks, or has, the duty.
    Wish { window: usize, value: usize, weight: u32, wanted: bool },
    /// `near`: a file with a plan, and what each window costs that differs from it.
    Near(String, u32),
}

/// A permutation of pairs, as a line says it.
#[derive(Clone, Debug)]
pub enum Exchange {
    /// Each window goes to a window, and each duty to a duty.
    Product(Vec<usize>, Vec<usize>),
    /// The image of each number named; the others stay.
    Pairs(Vec<(usize, usize)>),
    /// The image of each number.
    Table(Vec<usize>),
}

impl Statement {
    /// Does the statement say which plans there are (and is no exchange, order or preference)?
    pub fn narrows(&self) -> bool {
        !matches!(self, Statement::Before(..)) && !self.exchanges() && !self.prefers()
    }

    /// Does it say which plans are better?
    pub fn prefers(&self) -> bool {
        matches!(self, Statement::Wish { .. } | Statement::Near(..))
    }

    /// Is it about one day: a fixed duty, or a duty that is away?
    pub fn is_of_the_day(&self) -> bool {
        matches!(self, Statement::Fix(..) | Statement::Away(_))
    }

    /// Does it say under what the hall looks the same?
    pub fn exchanges(&self) -> bool {
        matches!(self, Statement::Exchange(_) | Statement::Alike(..))
    }
}
