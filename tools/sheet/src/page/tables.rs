//! The plans as tables: the list, and how often each window has each duty. The page's script reads windows, duties and
//! plans here; a cell's class `d3` is its duty's number.

use super::escaped;
use crate::listing::Plans;
use crate::problem::Problem;
use crate::table::free;
use std::io::{Result, Write};

/// What stands in the tables' heads and cells, escaped.
pub struct Tables<'a> {
    windows: Vec<String>,
    duties: Vec<String>,
    problem: &'a Problem,
    plans: &'a Plans,
    /// The duties that aren't away.
    present: u16,
}

impl Tables<'_> {
    pub fn new<'a>(problem: &'a Problem, plans: &'a Plans, present: u16) -> Tables<'a> {
        let names = |names: &[String]| names.iter().map(|name| escaped(name)).collect();
        Tables { windows: names(&problem.variables), duties: names(&problem.values), problem, plans, present }
    }

    /// The plans, a column for each window and, where a plan leaves a duty over, one for those that are free.
    pub fn list(&self, out: &mut dyn Write) -> Result<()> {
        let has_free = self.plans.iter().any(|plan| self.free(plan).next().is_some());
        self.start(out, "list", "The plans, by number", "Plan", if has_free { "Free" } else { "" })?;
        for (number, plan) in self.plans.iter().enumerate() {
            write!(out, "<tr><th scope=\"row\">{}</th>", number + 1)?;
            plan.iter().try_for_each(|&duty| {
                write!(out, "<td class=\"d{duty}\">{}</td>", self.duties[usize::from(duty)])
            })?;
            if has_free {
                write!(out, "<td>{}</td>", self.free(plan).collect::<Vec<_>>().join(", "))?;
            }
            writeln!(out, "</tr>")?;
        }
        end(out)
    }

    /// How many plans have each duty at each window, and at any; nothing where the window may not have it.
    pub fn counts(&self, out: &mut dyn Write) -> Result<()> {
        let (counts, any) = self.counted();
        self.start(out, "counts", "Plans by duty and window", "Duty", "Any window")?;
        for (duty, name) in self.duties.iter().enumerate() {
            let cell = |window: usize| match self.problem.may(window, duty) {
                true => format!("<td>{}</td>", counts[window][duty]),
                false => "<td></td>".to_string(),
            };
            let cells: String = (0..self.windows.len()).map(cell).collect();
            let any = if self.is_away(duty) { "away".to_string() } else { any[duty].to_string() };
            writeln!(out, "<tr><th scope=\"row\" class=\"d{duty}\">{name}</th>{cells}<td>{any}</td></tr>")?;
        }
        end(out)
    }

    /// How many plans have each duty by window, and how many have it anywhere.
    fn counted(&self) -> (Vec<Vec<usize>>, Vec<usize>) {
        let none = vec![0; self.duties.len()];
        let (mut counts, mut any) = (vec![none.clone(); self.windows.len()], none);
        for plan in self.plans.iter() {
            plan.iter().zip(&mut counts).for_each(|(&duty, counts)| counts[usize::from(duty)] += 1);
            any.iter_mut()
                .enumerate()
                .for_each(|(duty, any)| *any += usize::from(plan.contains(&(duty as u8))));
        }
        (counts, any)
    }

    fn is_away(&self, duty: usize) -> bool {
        self.present >> duty & 1 == 0
    }

    /// The duties that no window has and that aren't away.
    fn free<'a>(&'a self, plan: &'a [u8]) -> impl Iterator<Item = &'a str> {
        free(plan, self.present).map(|duty| self.duties[duty].as_str())
    }

    /// A table that scrolls both ways under the names of its columns: the windows between a first and, if it has a name, a
    /// last.
    fn start(&self, out: &mut dyn Write, id: &str, label: &str, first: &str, last: &str) -> Result<()> {
        let windows = self.windows.iter().map(String::as_str);
        let names = [first].into_iter().chain(windows).chain((!last.is_empty()).then_some(last));
        let head: String = names.map(|name| format!("<th scope=\"col\">{name}</th>")).collect();
        write!(
            out,
            "<div class=\"wide tall\" tabindex=\"0\" role=\"region\" aria-label=\"{label}\"><table class=\"plans\" id=\"{id}\">\n\
             <thead><tr>{head}</tr></thead>\n<tbody>\n"
        )
    }
}

fn end(out: &mut dyn Write) -> Result<()> {
    write!(out, "</tbody>\n</table></div>\n")
}
