//! A day's fixed duties and the exchanges: those that a `fix` or an `away` breaks are left out, and it is said which and why.

use crate::alike;
use crate::compose::{as_written, sets, table};
use crate::explain::broken;
use crate::problem::Problem;
use crate::text::{Exchange, Faults, Stated, Statement, Text};
use crate::words::listed;

/// A text with the exchanges that hold beside its fixed duties, and what is said of each that doesn't.
pub struct Kept {
    pub text: Text,
    pub broken: Vec<Broken>,
}

/// An exchange or alike windows that fixed duties break: the line, why, and what becomes of it.
pub struct Broken {
    pub line: usize,
    pub why: String,
    pub left: String,
}

/// Keeps what the fixed duties don't break. An exchange that doesn't hold without them either stays, for the planner to
/// refuse.
pub fn kept(text: &Text) -> Result<Kept, Faults> {
    if !text.statements.iter().any(|stated| stated.statement.is_of_the_day()) {
        return Ok(Kept { text: text.clone(), broken: Vec::new() });
    }
    let mut base = text.clone();
    base.statements.retain(|stated| !stated.statement.is_of_the_day());
    let (usual, today) = (sets(&base)?.0, sets(text)?.0);
    let rules = as_written(&base, &usual).into_iter().map(|(rule, _)| rule).collect();
    let day = Day { text, usual: Problem { constraints: rules, ..usual }, today };
    let mut kept = Kept { text: Text { statements: Vec::new(), ..text.clone() }, broken: Vec::new() };
    for stated in &text.statements {
        let (statement, broken) = day.judged(stated);
        kept.broken.extend(broken.map(|broken| Broken { line: stated.first, ..broken }));
        kept.text.statements.extend(statement.map(|statement| Stated { statement, ..stated.clone() }));
    }
    Ok(kept)
}

/// A lent block of two bytes as far as it holds beside the fixed duties, and how it is broken.
pub fn kept_block(text: &Text, block: Vec<u8>) -> (Vec<u8>, Option<Broken>) {
    let [first, count] = block[..] else { return (block, None) };
    let [start, windows] = [first, count].map(usize::from);
    if windows < 2 || start + windows > text.variables.len() {
        return (block, None);
    }
    let statement = Statement::Alike(start, windows);
    let alike = Stated { first: 0, last: 0, comment: String::new(), statement };
    let day = Text { statements: [&text.statements[..], &[alike]].concat(), ..text.clone() };
    let Ok(Kept { text: kept, broken }) = kept(&day) else { return (block, None) };
    (alike::stated(&kept), broken.into_iter().find(|broken| broken.line == 0))
}

/// What stays of a statement, and how it is broken.
type Judged = (Option<Statement>, Option<Broken>);

const LEFT_OUT: &str = "it is left out";

fn breaks(why: String, left: String) -> Option<Broken> {
    Some(Broken { line: 0, why, left })
}

/// A hall as it usually is, and with a day's sets.
struct Day<'a> {
    text: &'a Text,
    usual: Problem,
    today: Problem,
}

impl Day<'_> {
    /// What stays of a statement, and what is to be said of it.
    fn judged(&self, stated: &Stated) -> Judged {
        match &stated.statement {
            Statement::Exchange(exchange) => self.exchange(exchange),
            Statement::Alike(first, count) => self.alike(*first, *count),
            statement => (Some(statement.clone()), None),
        }
    }

    /// An exchange stays where it takes today's pairs to today's pairs.
    fn exchange(&self, exchange: &Exchange) -> Judged {
        let stays = |exchange: &Exchange| (Some(Statement::Exchange(exchange.clone())), None);
        let images = match table(&self.usual, exchange) {
            Ok(images) if self.usual.permutes_pairs(&images) && broken(&self.usual, &images).is_none() => {
                images
            }
            _ => return stays(exchange),
        };
        let pairs = self.today.pairs();
        match pairs.iter().find(|&&pair| !self.today.is_pair(images[pair])) {
            Some(&pair) => (None, breaks(self.taken_to(pair, images[pair]), LEFT_OUT.to_string())),
            None => {
                let image = |pair: usize| if self.today.is_pair(pair) { images[pair] } else { pair };
                stays(&Exchange::Table((0..images.len()).map(image).collect()))
            }
        }
    }

    /// Why a pair can't go to another today.
    fn taken_to(&self, from: usize, to: usize) -> String {
        let names = [from, to].map(|pair| self.usual.pair_name(pair));
        let d = self.usual.values.len();
        format!("it takes {} to {}, and {}", names[0], names[1], self.not_today(to / d, to % d))
    }

    /// Why a window doesn't have a duty today.
    fn not_today(&self, window: usize, value: usize) -> String {
        let fixed = self.text.statements.iter().find_map(|stated| match stated.statement {
            Statement::Fix(other, fixed) if other == window => Some(fixed),
            _ => None,
        });
        let names = &self.usual.values;
        match fixed {
            Some(fixed) => format!("`{}` is fixed to `{}`", self.usual.variables[window], names[fixed]),
            None => format!("`{}` is away", names[value]),
        }
    }

    /// Of alike windows the longest row stays in which they may have the same today.
    fn alike(&self, first: usize, count: usize) -> Judged {
        let set = |window: usize| self.today.initial[window];
        let row =
            |start: usize| (start..first + count).take_while(|&window| set(window) == set(start)).count();
        let (start, longest) = (first..first + count)
            .map(|start| (start, row(start)))
            .reduce(|best, next| if next.1 > best.1 { next } else { best })
            .expect("at least one window");
        let usually = |window: usize| self.usual.initial[window] == self.usual.initial[first];
        if longest == count || !(first..first + count).all(usually) {
            return (Some(Statement::Alike(first, count)), None);
        }
        let why = self.unlike(start, (first..first + count).find(|&other| set(other) != set(start)));
        let stays: Vec<String> =
            (start..start + longest).map(|window| format!("`{}`", self.usual.variables[window])).collect();
        match longest {
            1 => (None, breaks(why, LEFT_OUT.to_string())),
            _ => {
                let left = format!("only {} stay alike", listed(&stays));
                (Some(Statement::Alike(start, longest)), breaks(why, left))
            }
        }
    }

    /// Why two windows that usually may have the same may not today.
    fn unlike(&self, one: usize, other: Option<usize>) -> String {
        let other = other.unwrap_or(one);
        let has = |window: usize, value: usize| self.today.may(window, value);
        let value = (0..self.usual.values.len()).find(|&value| has(one, value) != has(other, value));
        let value = value.unwrap_or(0);
        self.not_today(if has(one, value) { other } else { one }, value)
    }
}
