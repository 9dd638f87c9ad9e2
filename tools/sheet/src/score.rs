//! What a plan costs: the weights of the preferences that it doesn't keep.

use crate::command::{refuse_told, Source, Stop, Told};
use crate::csv;
use crate::letters::cleaned;
use crate::problem::Problem;
use crate::text::{Statement, Text};
use std::path::Path;

/// A preference: the duties of a window that keep it, what another one costs, and what is then to be said.
struct Wish {
    window: usize,
    kept: u16,
    weight: u32,
    broken: String,
}

pub struct Score {
    wishes: Vec<Wish>,
    /// What files of plans left open.
    pub notes: String,
}

impl Score {
    /// The preferences of a text and of further files of plans; the text's own are looked for beside it.
    pub fn new(text: &Text, beside: &Source, files: &[Source]) -> Result<Score, Stop> {
        let mut score = Score { wishes: Vec::new(), notes: String::new() };
        let folder = Path::new(&beside.0).parent().unwrap_or(Path::new(""));
        for stated in &text.statements {
            match &stated.statement {
                Statement::Wish { window, value, weight, wanted } => {
                    score.wishes.push(wish(text, *window, *value, *weight, *wanted));
                }
                Statement::Near(name, weight) => {
                    let file = Source(folder.join(name).to_string_lossy().into_owned());
                    score.near(text, &file, name, *weight)?;
                }
                _ => {}
            }
        }
        files.iter().try_for_each(|file| score.near(text, file, file.name(), 1))?;
        Ok(score)
    }

    pub fn is_empty(&self) -> bool {
        self.wishes.is_empty()
    }

    /// A preference for each window's duty in a plan: the first row of a table whose first row names windows, or a row alone.
    fn near(&mut self, text: &Text, file: &Source, name: &str, weight: u32) -> Result<(), Stop> {
        let rows = csv::read(&file.text()?);
        let find = |names: &[String], cell: &String| {
            names.iter().position(|name| *name == cleaned(csv::name(cell.trim())))
        };
        let heads =
            rows.first().is_some_and(|row| row.iter().any(|cell| find(&text.variables, cell).is_some()));
        let windows: Vec<Option<usize>> = match heads {
            true => rows[0].iter().map(|cell| find(&text.variables, cell)).collect(),
            false => (0..text.variables.len()).map(Some).collect(),
        };
        let Some(plan) = rows.get(usize::from(heads)) else {
            return refuse_told(Told::of(name, "no row of duties"));
        };
        if !heads && plan.len() != windows.len() {
            let words = format!("a row of {} cells for {} windows", plan.len(), windows.len());
            return refuse_told(Told::of(name, words));
        }
        let mut named = Vec::new();
        for (window, cell) in windows.into_iter().zip(plan).filter_map(|(window, cell)| Some((window?, cell)))
        {
            named.push(window);
            match find(&text.values, cell) {
                Some(value) => self.wishes.push(Wish {
                    window,
                    kept: 1 << value,
                    weight,
                    broken: format!("`{}` had `{}` in {name}", text.variables[window], text.values[value]),
                }),
                None => self.notes += &format!("{name}: no duty is called `{}`\n", cell.trim()),
            }
        }
        for window in (0..text.variables.len()).filter(|window| !named.contains(window)) {
            self.notes += &format!("{name}: nothing is said of `{}`\n", text.variables[window]);
        }
        Ok(())
    }

    /// What it costs that a window has a duty.
    pub fn of(&self, window: usize, value: usize) -> u64 {
        let broken = |wish: &&Wish| wish.window == window && wish.kept >> value & 1 == 0;
        self.wishes.iter().filter(broken).map(|wish| u64::from(wish.weight)).sum()
    }

    pub fn of_plan(&self, plan: &[u8]) -> u64 {
        plan.iter().enumerate().map(|(window, &value)| self.of(window, value.into())).sum()
    }

    /// The preferences that a plan doesn't keep, with their weights.
    pub fn broken(&self, plan: &[u8]) -> Vec<String> {
        let broken = self.wishes.iter().filter(|wish| wish.kept >> plan[wish.window] & 1 == 0);
        broken.map(|wish| format!("{} ({})", wish.broken, wish.weight)).collect()
    }

    /// Does an exchange of pairs leave the cost of every plan as it is?
    pub fn is_kept_by(&self, problem: &Problem, images: &[usize]) -> bool {
        let d = problem.values.len();
        let cost = |pair: usize| self.of(pair / d, pair % d);
        problem.pairs().into_iter().all(|pair| cost(pair) == cost(images[pair]))
    }
}

/// `prefer` or `avoid`.
fn wish(text: &Text, window: usize, value: usize, weight: u32, wanted: bool) -> Wish {
    let (kept, verb) = if wanted { (1 << value, "hasn't") } else { (!(1 << value), "has") };
    let broken = format!("`{}` {verb} `{}`", text.variables[window], text.values[value]);
    Wish { window, kept, weight, broken }
}
