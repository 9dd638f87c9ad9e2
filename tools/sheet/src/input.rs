//! A text that a command is given, with what it states and its accepted sheet.

use crate::advice::advice;
use crate::command::{refuse, refuse_told, Arguments, Choice, Source, Status, Stop, Told};
use crate::compose::full_set;
use crate::fixed::{kept, kept_block, Broken};
use crate::listing::{at_least, list, Limits, Listing, TRIALS_OPTION};
use crate::make::{make_all, of_block, Made};
use crate::parse::parse;
use crate::runner::Manner;
use crate::text::{Fault, Stated, Statement, Text};
use crate::watch::{Watch, EVERY_OPTION, SECONDS_OPTION};
use crate::words::{counted, name_of, nearest, written};
use crate::{alike, pairs};
use planner::{Ending, Enough, Refusal};

const PAIRS_OPTION: Choice = Choice {
    name: "--pairs",
    value: Some("FILE"),
    about: "settles windows in the order of a file of pairs, as `sheet make --pairs` writes it",
};

const BLOCK_OPTION: Choice = Choice {
    name: "--block",
    value: Some("FILE"),
    about: "takes windows for alike by a file, as `sheet make --block` writes it",
};

const FIX_OPTION: Choice = Choice {
    name: "--fix",
    value: Some("WINDOW=DUTY"),
    about: "the window has that duty, as by a `fix` line; may stand several times",
};

const STRICT_OPTION: Choice = Choice {
    name: "--strict",
    value: None,
    about: "refuses exchanges that fixed duties break, rather than leaving them out",
};

/// What every command takes that runs a hall.
pub const HALL_OPTIONS: &[Choice] =
    &[FIX_OPTION, STRICT_OPTION, TRIALS_OPTION, SECONDS_OPTION, EVERY_OPTION, PAIRS_OPTION, BLOCK_OPTION];

/// What every command takes that says which hall is run.
pub const TEXT_OPTIONS: &[Choice] = &[FIX_OPTION, STRICT_OPTION, PAIRS_OPTION, BLOCK_OPTION];

pub const WHERE_OPTION: Choice = Choice {
    name: "--where",
    value: Some("WINDOW=DUTY"),
    about: "shows those of the listed plans where the window has that duty; may stand several times",
};

pub struct Input {
    /// The file's name for people.
    pub name: String,
    /// The text as written, with a `fix` line for each --fix below it.
    pub source: String,
    pub text: Text,
    pub made: Made,
    /// What fixed duties break, and what becomes of it.
    broken: Vec<(Told, String)>,
    /// The windows' duties by which plans are chosen.
    wanted: Vec<(usize, usize)>,
}

impl Input {
    pub fn read(source: &Source) -> Result<Input, Stop> {
        Input::new(source.name(), source.text()?, &[])
    }

    /// A text whose last lines stand for options.
    fn new(name: &str, source: String, options: &[String]) -> Result<Input, Stop> {
        let own = source.lines().count() - options.len();
        let told = |fault: &Fault| match fault.line.checked_sub(own + 1) {
            Some(option) => Told {
                refusal: fault.refusal,
                ..Told::words(format!("--fix {}: {}", options[option], fault.text))
            },
            None => Told::at(name, fault),
        };
        let stop =
            |faults: Vec<Fault>| Stop { status: Status::Refused, told: faults.iter().map(told).collect() };
        let kept = parse(&source).and_then(|text| kept(&text)).map_err(stop)?;
        let made = make_all(&kept.text).map_err(stop)?;
        let line = |line: usize| source.lines().nth(line - 1).unwrap_or("").trim();
        let told = |Broken { line: at, why, left }: Broken| {
            (Told::at(name, &Fault::new(at, format!("`{}` doesn't hold today: {why}", line(at)))), left)
        };
        let broken = kept.broken.into_iter().map(told).collect();
        Ok(Input { name: name.to_string(), text: kept.text, made, broken, wanted: Vec::new(), source })
    }

    /// What is to be said beside the answer: what is left out of the text.
    pub fn notes(&self) -> String {
        self.broken.iter().map(|(broken, left)| format!("{}; {left}\n", broken.said())).collect()
    }

    /// The same with what the options say: fixed duties, the duties by which plans are chosen, and the pairs and the
    /// block of the files that `--pairs` and `--block` name.
    pub fn lent(mut self, arguments: &Arguments) -> Result<Input, Stop> {
        let options: Vec<String> = arguments.all(FIX_OPTION.name).cloned().collect();
        if !options.is_empty() {
            let mut source = self.source.trim_end().to_string() + "\n\n";
            for option in &options {
                let (window, value) = self.pair(FIX_OPTION.name, option)?;
                let [window, value] = [&self.text.variables[window], &self.text.values[value]];
                source += &format!("fix {} {} # --fix\n", written(window), written(value));
            }
            self = Input::new(&self.name, source, &options)?;
        }
        let wanted = arguments.all(WHERE_OPTION.name).map(|option| self.pair(WHERE_OPTION.name, option));
        self.wanted = wanted.collect::<Result<_, Stop>>()?;
        self.files(arguments)?;
        match arguments.has(STRICT_OPTION.name) && !self.broken.is_empty() {
            true => {
                let told = self.broken.into_iter().map(|(broken, _)| broken).collect();
                Err(Stop { status: Status::Refused, told })
            }
            false => Ok(self),
        }
    }

    /// The window and the duty of an option such as `win1=cid`.
    fn pair(&self, name: &str, option: &str) -> Result<(usize, usize), Stop> {
        let find = |names: &[String], word: &str| names.iter().position(|other| *other == name_of(word));
        let parts: Vec<(&str, &str)> =
            option.match_indices('=').map(|(at, _)| (&option[..at], &option[at + 1..])).collect();
        let (windows, duties) = (&self.text.variables, &self.text.values);
        let found =
            parts.iter().find_map(|(window, duty)| Some((find(windows, window)?, find(duties, duty)?)));
        let (kind, names, word) = match (found, parts.first()) {
            (Some(pair), _) => return Ok(pair),
            (None, None) => return refuse(format!("{name} takes WINDOW=DUTY, not `{option}`")),
            (None, Some((window, _))) if find(windows, window).is_none() => ("window", windows, window),
            (None, Some((_, duty))) => ("duty", duties, duty),
        };
        refuse(format!("{name} {option}: no {kind} is called `{word}`{}", nearest(word, names)))
    }

    /// Takes the pairs and the block of files.
    fn files(&mut self, arguments: &Arguments) -> Result<(), Stop> {
        let [pairs, block] = ["--pairs", "--block"].map(|name| arguments.file(name));
        if let Some(file) = &pairs {
            if !self.made.pairs.is_empty() {
                return refuse(format!("{} has `before` lines, and so takes no --pairs", self.name));
            }
            self.made.pairs = file.bytes()?;
        }
        if let Some(file) = &block {
            if !self.made.block.is_empty() {
                return refuse(format!("{} has an `alike` line, and so takes no --block", self.name));
            }
            let (kept, broken) = kept_block(&self.text, file.bytes()?);
            let told = |broken: Broken| {
                let words = format!("the block doesn't hold today: {}", broken.why);
                (Told::of(file.name(), words), broken.left)
            };
            self.broken.extend(broken.map(told));
            self.made.block = kept;
        }
        match planner::question_lent(&self.made.sheet, &self.made.pairs, &self.made.block) {
            Ok(()) => Ok(()),
            Err(refusal) => {
                let (file, words) = match of_block(&self.made.problem, refusal) {
                    true => (block, not_alike(&self.made, refusal)),
                    false => (pairs, not_pairs(&self.made)),
                };
                let name = file.as_ref().map_or(self.name.as_str(), Source::name);
                let words = format!("{refusal}: {words}");
                refuse_told(Told { refusal: Some(refusal), ..Told::of(name, words) })
            }
        }
    }

    /// The plans, those that `--where` chooses.
    pub fn list(&self, limits: Limits, manner: &Manner, watch: &Watch) -> Result<Listing, Stop> {
        let mut listing = self.accepted(list(&self.made, limits, manner, watch))?;
        if listing.ending == Ending::Spent && listing.stop.is_none() {
            listing.hint += &advice(&self.made, &listing.counts, limits);
        }
        Ok(self.chosen(listing))
    }

    /// A listing with the plans that `--where` chooses.
    pub fn chosen(&self, mut listing: Listing) -> Listing {
        if self.chooses() {
            listing.plans = listing.plans.filtered(|plan| self.is_wanted(plan));
            listing.shown = Some(self.shown(listing.plans.len()));
        }
        listing
    }

    /// The duties that aren't away.
    pub fn present(&self) -> u16 {
        let away = |stated: &Stated| match stated.statement {
            Statement::Away(value) => 1 << value,
            _ => 0,
        };
        let all = full_set(self.text.values.len());
        self.text.statements.iter().map(away).fold(all, |set, away: u16| set & !away)
    }

    /// Are only some of the listed plans to be shown?
    pub fn chooses(&self) -> bool {
        !self.wanted.is_empty()
    }

    /// Is a plan to be shown?
    pub fn is_wanted(&self, plan: &[u8]) -> bool {
        self.wanted.iter().all(|&(window, duty)| plan[window] == duty as u8)
    }

    /// Which of the listed plans are shown, so many.
    pub fn shown(&self, plans: usize) -> String {
        let duty = |&(window, duty): &(usize, usize)| {
            format!("{}={}", written(&self.text.variables[window]), written(&self.text.values[duty]))
        };
        let wanted: Vec<String> = self.wanted.iter().map(duty).collect();
        let plans = if plans == 0 { "none".to_string() } else { counted(plans as u64, "plan") };
        format!("of those listed, {plans} with {} shown", wanted.join(" "))
    }

    /// Are there at least so many plans?
    pub fn at_least(&self, plans: u32, limits: Limits, watch: &Watch) -> Result<Enough, Stop> {
        self.accepted(at_least(&self.made, plans, limits, watch))
    }

    /// What the planner answers, or its refusal.
    pub fn accepted<T>(&self, answer: Result<T, Refusal>) -> Result<T, Stop> {
        answer.or_else(|refusal| {
            refuse_told(Told { refusal: Some(refusal), ..Told::of(&self.name, refusal.to_string()) })
        })
    }
}

/// What is wrong with a file of pairs.
fn not_pairs(made: &Made) -> String {
    let wrong = pairs::wrong(&made.pairs, &made.problem.variables, |pair| format!("pair {pair}"));
    wrong.map_or(String::new(), |wrong| wrong.words)
}

/// What is wrong with a file of a block.
fn not_alike(made: &Made, refusal: Refusal) -> String {
    let rules: Vec<_> = made.problem.constraints.iter().map(|rule| (rule.clone(), 0)).collect();
    alike::wrong(&made.block, &made.problem, &rules, |rule| format!("rule {rule}"), refusal)
}
