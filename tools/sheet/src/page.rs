//! `sheet page`: the hall and its plans as one page that needs nothing else. It reads without script; with it, one
//! chooses among the plans.

mod tables;

use crate::command::{out, Arguments, Command, Outcome, Stop};
use crate::counts::share;
use crate::families::{closed, not_counted};
use crate::input::{Input, HALL_OPTIONS, WHERE_OPTION};
use crate::listing::{Limits, Listing, PLANS_OPTION};
use crate::pairs::settled;
use crate::plans::EXPLAIN_OPTION;
use crate::problem::Problem;
use crate::runner::Manner;
use crate::text::{Stated, Statement};
use crate::watch::Watch;
use crate::why::narrow;
use planner::Ending;
use std::io::{Result as Written, Write};
use std::path::Path;
use tables::Tables;

pub const COMMAND: Command = Command {
    name: "page",
    usage: "TEXT > hall.html",
    about: "writes the hall and its plans as a page",
    files: 1..=1,
    options: &[&[EXPLAIN_OPTION, WHERE_OPTION, PLANS_OPTION], HALL_OPTIONS],
    asks: false,
    run,
};

const STYLE: &str = include_str!("page/page.css");
const SCRIPT: &str = include_str!("page/page.js");

/// Nothing is fetched, and nothing is sent.
const POLICY: &str = "default-src 'none'; style-src 'unsafe-inline'; script-src 'unsafe-inline'; \
    base-uri 'none'; form-action 'none'";

const PROOF: &str = "The plans were listed by a program that is proved, for every hall, to end, to list what its \
    definition says and nothing else, and to count its trials as defined; a finished list leaves out only plans that \
    the exchanges make of listed ones. The proof covers the planner from the sheet's bytes to the list; reading the \
    text and writing this page are ordinary programs with tests.";

/// What the list leaves out under exchanges, and so the counts too.
const LEFT_OUT: &str =
    "A plan that an exchange makes of an earlier one is left out: where no listed plan has a duty at \
    a window, an exchange may still bring it there.";

fn run(arguments: &Arguments) -> Result<Outcome, Stop> {
    let limits = Limits::of(arguments)?;
    let source = &arguments.sources[0];
    let input = Input::read(source)?.lent(arguments)?;
    let watch = Watch::of(arguments)?;
    let listing = input.list(limits, &Manner::default(), &watch)?.some_shown()?;
    let title = match source.0.as_str() {
        "-" => "Hall".to_string(),
        file => Path::new(file).file_stem().map_or(file.into(), |stem| stem.to_string_lossy().into_owned()),
    };
    let why = match listing.ending {
        Ending::Finished if listing.plans.is_empty() => narrow(&input.text, limits.first(), &watch).lines,
        _ => Vec::new(),
    };
    drop(watch);
    let page =
        Page { title, input: &input, listing: &listing, why, explain: arguments.has(EXPLAIN_OPTION.name) };
    let mut out = out();
    out.all(|out| page.write(out))?;
    out.end()?;
    Ok(Outcome {
        output: Vec::new(),
        note: input.notes() + &listing.ending() + listing.hint(),
        status: listing.status(),
    })
}

/// What a page shows.
pub struct Page<'a> {
    pub title: String,
    pub input: &'a Input,
    pub listing: &'a Listing,
    /// Lines that already have no plan.
    pub why: Vec<Stated>,
    /// Is it to be said whether the exchanges are closed?
    pub explain: bool,
}

impl Page<'_> {
    fn problem(&self) -> &Problem {
        &self.input.made.problem
    }

    /// The plans row by row, whatever their number.
    pub fn write(&self, out: &mut dyn Write) -> Written<()> {
        write!(out, "{}{}{}", self.head(), self.ending(), self.no_plan())?;
        self.plans(out)?;
        write!(
            out,
            "{}{}{}</main>\n<footer>\n<h2>How it was proved</h2>\n<p>{PROOF}</p>\n</footer>\n</body>\n</html>\n",
            self.windows(),
            self.lines(),
            self.trials()
        )
    }

    /// What comes before the ending.
    fn head(&self) -> String {
        let title = escaped(&self.title);
        let class = if self.problem().variables.len() > 8 { " class=\"broad\"" } else { "" };
        let script = match self.listing.plans.is_empty() {
            true => String::new(),
            false => format!("<script>\n{SCRIPT}</script>\n"),
        };
        format!(
            "<!DOCTYPE html>\n<html lang=\"en\">\n<head>\n<meta charset=\"utf-8\">\n\
             <meta name=\"viewport\" content=\"width=device-width, initial-scale=1\">\n\
             <meta http-equiv=\"Content-Security-Policy\" content=\"{POLICY}\">\n\
             <title>{title}</title>\n<style>\n{STYLE}</style>\n{script}</head>\n<body{class}>\n<main>\n<h1>{title}</h1>\n{}",
            paragraph(&escaped(&self.input.text.about))
        )
    }

    /// How the run ended, and what that means.
    fn ending(&self) -> String {
        let meaning = match (self.listing.ending, self.listing.plans.is_empty()) {
            (Ending::Finished, true) => "Everything was tried: there is no plan.",
            (Ending::Finished, false) if !self.input.made.has_exchanges() => {
                "Everything was tried: these are all the plans."
            }
            (Ending::Finished, false) => {
                "Everything was tried: every plan is listed, or exchanges make it of a listed one."
            }
            (Ending::Spent, _) => {
                "Not everything was tried: this is the first part of the list, and what isn't listed may still be a plan."
            }
            (Ending::Full, _) => "The room was used up: this is the first part of the list, and there is more.",
        };
        format!(
            "<div class=\"ending {}\"><strong>{}</strong>{meaning}</div>\n",
            if self.listing.plans.is_empty() { "none" } else { self.listing.word() },
            escaped(&self.listing.ending())
        )
    }

    /// Where there is no plan, lines that already have none.
    fn no_plan(&self) -> String {
        let lines = self.why.iter().map(|stated| self.line(stated)).collect();
        let title =
            if self.why.len() == 1 { "A line that has no plan" } else { "Lines that together have no plan" };
        section("h2", title, lines)
    }

    /// The windows, and the duties that each may have.
    fn windows(&self) -> String {
        let row = |variable: usize| {
            let duties: Vec<&str> = self
                .problem()
                .values_of(variable)
                .map(|value| self.problem().values[value].as_str())
                .collect();
            let duties = match duties.len() == self.problem().values.len() {
                true => "every duty".to_string(),
                false => escaped(&duties.join(", ")),
            };
            format!(
                "<tr><th scope=\"row\">{}</th><td>{duties}</td></tr>\n",
                escaped(&self.problem().variables[variable])
            )
        };
        let rows: String = (0..self.problem().variables.len()).map(row).collect();
        format!(
            "<h2>The hall</h2>\n<div class=\"wide\"><table>\n<thead><tr><th scope=\"col\">Window</th>\
             <th scope=\"col\">May have</th></tr></thead>\n\
             <tbody>\n{rows}</tbody>\n</table></div>\n<p class=\"soft\">Duties: {}.</p>\n",
            escaped(&self.problem().values.join(", "))
        )
    }

    /// Rules, exchanges and the order, as the text has them.
    fn lines(&self) -> String {
        let of = |wanted: fn(&Statement) -> bool| {
            let stated = self.input.text.statements.iter().filter(|stated| wanted(&stated.statement));
            stated.map(|stated| self.line(stated)).collect::<String>()
        };
        let rules = of(|statement| statement.narrows() && !matches!(statement, Statement::May(..)));
        let exchanges = of(Statement::exchanges);
        let order = of(|statement| matches!(statement, Statement::Before(..)));
        section("h3", "Rules", rules)
            + &section("h3", "Exchanges", exchanges)
            + &section("h3", "Order", order)
    }

    fn line(&self, stated: &Stated) -> String {
        let lines = self.input.source.lines().enumerate().skip(stated.first - 1);
        let lines = lines.take(1 + stated.last - stated.first).filter(|(_, line)| !line.trim().is_empty());
        let code: String = lines
            .map(|(number, line)| format!("<code><span>{}</span>{}</code>", number + 1, escaped(line.trim())))
            .collect();
        match stated.comment.is_empty() {
            true => format!("<li>{code}</li>\n"),
            false => format!("<li class=\"said\">{}{code}</li>\n", escaped(&stated.comment)),
        }
    }

    /// The plans, and how often each window has each duty.
    fn plans(&self, out: &mut dyn Write) -> Written<()> {
        if self.listing.plans.is_empty() {
            return Ok(());
        }
        let tables = Tables::new(self.problem(), &self.listing.plans, self.input.present());
        let duties = self.problem().values.len();
        write!(
            out,
            "<section id=\"plans\" style=\"--duties:{duties}\">\n<h2>The plans</h2>\n{}",
            self.said()
        )?;
        tables.list(out)?;
        write!(out, "<h3>How many plans have a duty at a window</h3>\n")?;
        tables.counts(out)?;
        write!(out, "</section>\n")
    }

    /// What is said of the plans.
    fn said(&self) -> String {
        let left = if self.input.made.has_exchanges() { LEFT_OUT } else { "" };
        let closed = if self.explain { closed(self.listing, self.input) } else { None };
        let families = not_counted(self.listing).into_iter().chain(closed);
        let families: String = families.map(|words| paragraph(&marked(&sentence(&words)))).collect();
        let order = match settled(self.problem(), &self.input.made.pairs) {
            windows if windows.is_empty() => String::new(),
            windows => format!("Read in the order in which windows are settled: {}.", windows.join(", ")),
        };
        paragraph(left) + &families + &paragraph(&escaped(&order))
    }

    /// Where the trials went: a bar for each window, the longest for the largest count.
    fn trials(&self) -> String {
        let windows = &self.problem().variables;
        let counts = self.listing.counts;
        let total = counts.iter().sum();
        let most = counts.iter().copied().max().unwrap_or(0);
        let row = |(window, count): (&String, u64)| {
            format!(
                "<tr><th scope=\"row\">{}</th><td class=\"number\">{count}</td><td class=\"number\">{}</td><td>\
                 <svg class=\"bar\" viewBox=\"0 0 1000 1\" preserveAspectRatio=\"none\" aria-hidden=\"true\">\
                 <rect width=\"{}\" height=\"1\"/></svg></td></tr>\n",
                escaped(window),
                share(count, total),
                count * 1000 / most
            )
        };
        if total == 0 {
            return String::new();
        }
        format!(
            "<h2>Where the trials went</h2>\n<div class=\"wide\"><table>\n<thead><tr><th scope=\"col\">Window</th>\
             <th scope=\"col\">Trials</th><th scope=\"col\" colspan=\"2\">Share</th></tr></thead>\n\
             <tbody>\n{}</tbody>\n</table></div>\n",
            windows.iter().zip(counts).map(row).collect::<String>()
        )
    }
}

/// A heading and its items, if there are any.
fn section(level: &str, title: &str, items: String) -> String {
    match items.is_empty() {
        true => String::new(),
        false => format!("<{level}>{title}</{level}>\n<ul>\n{items}</ul>\n"),
    }
}

fn paragraph(html: &str) -> String {
    match html.is_empty() {
        true => String::new(),
        false => format!("<p class=\"soft\">{html}</p>\n"),
    }
}

/// A text inside HTML, with what stands between two backticks as code.
fn marked(text: &str) -> String {
    let parts: Vec<String> = text.split('`').map(escaped).collect();
    let code = |part: &String| format!("<code>{part}</code>");
    match parts.len() % 2 {
        1 => parts.chunks(2).map(|two| two[0].clone() + &two.get(1).map_or(String::new(), code)).collect(),
        _ => parts.join("`"),
    }
}

/// Words as a sentence.
fn sentence(words: &str) -> String {
    let mut letters = words.chars();
    letters.next().map_or(String::new(), |first| format!("{}{}.", first.to_uppercase(), letters.as_str()))
}

/// A text inside HTML.
fn escaped(text: &str) -> String {
    text.replace('&', "&amp;").replace('<', "&lt;").replace('>', "&gt;").replace('"', "&quot;")
}
