//! What all commands share: arguments, reading, writing and exit statuses. A command is a module with a
//! `COMMAND`, which stands in the list below.

use crate::answers::failure;
use crate::json::{rows_text, JSON_OPTION};
use crate::text::Fault;
use crate::words::nearest;
use crate::{
    best, columns, desk, enough, explain, import, join, make, merge, page, part, plans, show, split, why,
};
use planner::Refusal;
use std::io::{BufWriter, Read, StdoutLock, Write};
use std::ops::RangeInclusive;
use std::sync::atomic::{AtomicBool, Ordering};

/// The commands, in the order of the help.
const COMMANDS: [Command; 16] = [
    import::COMMAND,
    plans::COMMAND,
    best::COMMAND,
    enough::COMMAND,
    why::COMMAND,
    page::COMMAND,
    desk::COMMAND,
    split::COMMAND,
    part::COMMAND,
    join::COMMAND,
    make::COMMAND,
    show::COMMAND,
    explain::COMMAND,
    columns::COLUMNS,
    columns::ROWS,
    merge::COMMAND,
];

/// The exit statuses. A command that asks a question answers yes by the first, no by the second and that it isn't known by the
/// third; the fourth then stands for refusals and faults too.
#[derive(Clone, Copy, Debug, PartialEq, Eq)]
pub enum Status {
    /// There is a plan, or all is done as asked.
    Finished = 0,
    /// Refused, or a fault in the text or the command.
    Refused = 1,
    /// A run stopped before all was tried.
    Short = 2,
    /// Reading or writing failed.
    Failed = 3,
    /// All was tried, and there is no plan.
    NoPlan = 4,
}

impl Status {
    pub const YES: Status = Status::Finished;
    pub const NO: Status = Status::Refused;
    pub const UNKNOWN: Status = Status::Short;

    /// Of several outcomes the one to be told first.
    pub fn worst(self, other: Status) -> Status {
        let order = [Status::Failed, Status::Refused, Status::Short, Status::NoPlan];
        order.into_iter().find(|status| [self, other].contains(status)).unwrap_or(Status::Finished)
    }
}

pub struct Command {
    pub name: &'static str,
    /// What follows the name.
    pub usage: &'static str,
    pub about: &'static str,
    /// How many words it takes, files and others.
    pub files: RangeInclusive<usize>,
    /// Its own, and those that it shares with others.
    pub options: &'static [&'static [Choice]],
    /// Does its status answer yes or no?
    pub asks: bool,
    pub run: fn(&Arguments) -> Result<Outcome, Stop>,
}

impl Command {
    /// The name of the one hall that the command is about.
    fn hall(&self, arguments: &Arguments) -> Option<String> {
        let source = match self.usage {
            "TEXT .." => None,
            usage if usage.starts_with("TEXT") => arguments.sources.first(),
            _ => arguments.sources.last(),
        };
        source.map(|source| source.name().to_string())
    }

    fn choices(&self) -> impl Iterator<Item = &'static Choice> {
        self.options.iter().flat_map(|group| group.iter())
    }

    fn answer(&self, words: &[String]) -> Result<Outcome, Stop> {
        let arguments = Arguments::new(self, words);
        let hall = arguments.as_ref().ok().and_then(|arguments| self.hall(arguments));
        arguments.and_then(|arguments| (self.run)(&arguments)).or_else(|stop| {
            let status = if self.asks { Status::Failed } else { stop.status };
            let asked = words.iter().any(|word| word == JSON_OPTION.name);
            let is_json = asked && self.choices().any(|choice| choice.name == JSON_OPTION.name);
            match is_json && !stop.is_of_output() {
                true => {
                    let (fields, faults) = failure(self.name, hall.as_deref(), &stop, status);
                    let output = rows_text(&fields, "faults", faults.into_iter()).into_bytes();
                    Ok(Outcome { output, note: stop.said(), status })
                }
                false => Err(Stop { status, ..stop }),
            }
        })
    }
}

/// An option, with a name for its value if it takes one, or two names for two words.
pub struct Choice {
    pub name: &'static str,
    pub value: Option<&'static str>,
    pub about: &'static str,
}

/// What a command has to say: standard output, standard error, the status.
pub struct Outcome {
    pub output: Vec<u8>,
    pub note: String,
    pub status: Status,
}

/// A command that got no answer: the status, and why.
#[derive(Debug)]
pub struct Stop {
    pub status: Status,
    pub told: Vec<Told>,
}

impl Stop {
    /// Could standard output not be written?
    fn is_of_output(&self) -> bool {
        self.told.iter().any(|told| told.file.as_deref() == Some(OUTPUT))
    }

    /// For people, a line for each fault.
    pub fn said(&self) -> String {
        self.told.iter().map(Told::said).collect::<Vec<_>>().join("\n")
    }
}

/// A fault: where it stands, the planner's refusal if it comes from one, and the words.
#[derive(Clone, Debug, Default)]
pub struct Told {
    pub file: Option<String>,
    pub line: Option<usize>,
    pub refusal: Option<Refusal>,
    pub words: String,
}

impl Told {
    pub fn words(words: impl Into<String>) -> Told {
        Told { words: words.into(), ..Told::default() }
    }

    /// A fault of a file as a whole.
    pub fn of(file: &str, words: impl Into<String>) -> Told {
        Told { file: Some(file.to_string()), ..Told::words(words) }
    }

    /// A fault of a file's line.
    pub fn at(file: &str, fault: &Fault) -> Told {
        Told { line: Some(fault.line), refusal: fault.refusal, ..Told::of(file, &fault.text) }
    }

    /// For people.
    pub fn said(&self) -> String {
        match (&self.file, self.line) {
            (Some(file), Some(line)) => format!("{file}:{line}: {}", self.words),
            (Some(file), None) => format!("{file}: {}", self.words),
            (None, _) => self.words.clone(),
        }
    }
}

pub fn refuse<T>(text: impl Into<String>) -> Result<T, Stop> {
    refuse_told(Told::words(text))
}

pub fn refuse_told<T>(told: Told) -> Result<T, Stop> {
    Err(Stop { status: Status::Refused, told: vec![told] })
}

pub struct Arguments {
    pub command: &'static str,
    pub sources: Vec<Source>,
    options: Vec<(&'static str, String)>,
}

impl Arguments {
    fn new(command: &Command, words: &[String]) -> Result<Arguments, Stop> {
        let (mut sources, mut options) = (Vec::new(), Vec::new());
        let mut words = words.iter();
        while let Some(word) = words.next() {
            let (name, given) = match word.split_once('=') {
                Some((name, value)) if word.starts_with("--") => (name, Some(value.to_string())),
                _ => (word.as_str(), None),
            };
            match command.choices().find(|choice| choice.name == name) {
                Some(Choice { name, value: Some(kind), .. }) => {
                    match given.or_else(|| value(kind, &mut words)) {
                        Some(value) => options.push((*name, value)),
                        None if *kind == "FILE" => return refuse(format!("{name} takes a file")),
                        None if *kind == "N" => return refuse(format!("{name} takes a number")),
                        None => return refuse(format!("{name} takes {kind}")),
                    }
                }
                Some(choice) if given.is_none() => options.push((choice.name, String::new())),
                None if word == "-" || !word.starts_with('-') => sources.push(Source(word.clone())),
                _ => return refuse(format!("{} takes no {word}", command.name)),
            }
        }
        if !command.files.contains(&sources.len()) {
            return refuse(format!("sheet {} {}", command.name, command.usage));
        }
        let names = sources.iter().map(|source: &Source| &source.0);
        if names.chain(options.iter().map(|(_, value)| value)).filter(|name| *name == "-").count() > 1 {
            return refuse("standard input can stand for one file only");
        }
        Ok(Arguments { command: command.name, sources, options })
    }

    pub fn has(&self, name: &str) -> bool {
        self.options.iter().any(|(other, _)| *other == name)
    }

    /// What an option gives, if it is there.
    fn value(&self, name: &str) -> Option<&String> {
        self.options.iter().rev().find(|(other, _)| *other == name).map(|(_, value)| value)
    }

    /// What an option that may stand several times gives, in turn.
    pub fn all(&self, name: &str) -> impl Iterator<Item = &String> {
        let name = name.to_string();
        self.options.iter().filter(move |(other, _)| *other == name).map(|(_, value)| value)
    }

    /// The file that an option names, if it is there.
    pub fn file(&self, name: &str) -> Option<Source> {
        self.value(name).cloned().map(Source)
    }

    /// The number that an option gives, if it is there; at most `most`.
    pub fn number(&self, name: &str, most: u32) -> Result<Option<u32>, Stop> {
        let Some(value) = self.value(name) else {
            return Ok(None);
        };
        match value.replace([',', '_'], "").parse::<u32>() {
            Ok(number) if number <= most => Ok(Some(number)),
            _ => refuse(format!("{name} takes a number from 0 to {most}, not `{value}`")),
        }
    }
}

/// The words of an option's value, as many as it has names.
fn value<'a>(kind: &str, words: &mut impl Iterator<Item = &'a String>) -> Option<String> {
    let value: Option<Vec<&str>> = kind.split(' ').map(|_| words.next().map(String::as_str)).collect();
    value.map(|words| words.join(" "))
}

/// A file, or `-` for standard input.
pub struct Source(pub String);

impl Source {
    /// What the file holds.
    pub fn bytes(&self) -> Result<Vec<u8>, Stop> {
        let mut bytes = Vec::new();
        let read = match self.0.as_str() {
            "-" => std::io::stdin().lock().read_to_end(&mut bytes).map(|_| bytes),
            file => std::fs::read(file),
        };
        read.map_err(|error| self.failed(error))
    }

    /// Writes a file that isn't standard output.
    pub fn write(&self, bytes: &[u8]) -> Result<(), Stop> {
        std::fs::write(&self.0, bytes).map_err(|error| self.failed(error))
    }

    /// The file can't be read or written.
    pub fn failed(&self, error: std::io::Error) -> Stop {
        Stop { status: Status::Failed, told: vec![Told::of(self.name(), error.to_string())] }
    }

    /// The file's name for people.
    pub fn name(&self) -> &str {
        match self.0.as_str() {
            "-" => "standard input",
            file => file,
        }
    }

    /// The text of the file. Of a sheet it is the text that `show` writes.
    pub fn text(&self) -> Result<String, Stop> {
        let bytes = self.bytes()?;
        if bytes.starts_with(&[0xff, 0xfe]) || bytes.starts_with(&[0xfe, 0xff]) {
            return Err(self.faults(&[Fault::new(1, "a text in UTF-16; save it as UTF-8")]));
        }
        if is_sheet(&bytes) {
            return match explain::question(&bytes) {
                Ok(problem) => Ok(show::show(&problem)),
                Err(refused) => refuse_told(refused.told(Some(self.name()))),
            };
        }
        String::from_utf8(bytes).or_else(|error| {
            let line = 1 + error.as_bytes()[..error.utf8_error().valid_up_to()]
                .iter()
                .filter(|b| **b == b'\n')
                .count();
            Err(self.faults(&[Fault::new(line, "not a text in UTF-8")]))
        })
    }

    /// The faults of the file's text, a line for each.
    pub fn faults(&self, faults: &[Fault]) -> Stop {
        let told = faults.iter().map(|fault| Told::at(self.name(), fault)).collect();
        Stop { status: Status::Refused, told }
    }
}

/// A sheet has a byte 0 in its header, and a text has none.
pub fn is_sheet(bytes: &[u8]) -> bool {
    bytes.contains(&0)
}

/// Runs the command that the words name.
pub fn run(words: &[String]) -> Result<Outcome, Stop> {
    let Some(name) = words.first() else {
        return refuse(help());
    };
    if ["--help", "-h", "help"].contains(&name.as_str()) {
        return Ok(text(help()));
    }
    if name == "--version" {
        return Ok(text(format!("sheet {}, planner {}\n", env!("CARGO_PKG_VERSION"), planner::version())));
    }
    match COMMANDS.iter().find(|command| command.name == name) {
        Some(command) if words.iter().any(|word| word == "--help" || word == "-h") => {
            Ok(text(command_help(command)))
        }
        Some(command) => command.answer(&words[1..]),
        None => {
            let names: Vec<String> = COMMANDS.iter().map(|command| command.name.to_string()).collect();
            refuse(format!("`{name}` is no command{}\n{}", nearest(name, &names), help().trim_end()))
        }
    }
}

/// An outcome that is a text alone.
pub fn text(text: String) -> Outcome {
    Outcome { output: text.into_bytes(), note: String::new(), status: Status::Finished }
}

fn help() -> String {
    let mut text =
        "Halls as texts, sheets and plans. TEXT is a file, or - for standard input.\n\n".to_string();
    for command in &COMMANDS {
        let usage = format!("sheet {} {}", command.name, command.usage);
        let gap = if usage.len() < 28 { String::new() } else { format!("\n  {:28}", "") };
        text += &format!("  {usage:28}{gap}{}\n", command.about);
    }
    text + "\n`sheet COMMAND --help` has a command's options. Exit status: 0 there is a plan, or all is done as\n\
            asked; 1 refused, or a fault in a text or in the command; 2 stopped short; 3 reading or writing\n\
            failed; 4 all was tried, and there is no plan. Of `enough`: 0 yes, 1 no, 2 stopped short, 3 all\n\
            else. Of `desk`: the first of 3, 1, 2, 4 and 0 that a hall has.\n"
}

fn command_help(command: &Command) -> String {
    let mut text = format!("sheet {} {}\n{}\n", command.name, command.usage, command.about);
    let name = |choice: &Choice| [choice.name, choice.value.unwrap_or("")].join(" ").trim_end().to_string();
    let width = command.choices().map(|choice| name(choice).len() + 2).max().unwrap_or(0).max(14);
    for choice in command.choices() {
        text += &format!("  {:width$}{}\n", name(choice), choice.about);
    }
    text
}

/// Runs the command, writes what it has to say, and gives the status.
pub fn main(words: &[String]) -> Status {
    let outcome = run(words).unwrap_or_else(|stop| Outcome {
        output: Vec::new(),
        note: stop.said(),
        status: stop.status,
    });
    let written = print(&outcome.output);
    say(&outcome.note);
    match written {
        Ok(()) => outcome.status,
        Err(stop) => {
            say(&stop.said());
            stop.status
        }
    }
}

/// Was standard output closed when the program started? The program says so before anything is opened in its place.
pub static OUTPUT_CLOSED: AtomicBool = AtomicBool::new(false);

/// Its name in faults.
const OUTPUT: &str = "standard output";

/// Standard output, written bit by bit.
pub struct Out(BufWriter<StdoutLock<'static>>);

pub fn out() -> Out {
    Out(BufWriter::with_capacity(1 << 16, std::io::stdout().lock()))
}

impl Out {
    /// Writes a part.
    pub fn all(&mut self, write: impl FnOnce(&mut dyn Write) -> std::io::Result<()>) -> Result<(), Stop> {
        match OUTPUT_CLOSED.load(Ordering::Relaxed) {
            true => written(Err(std::io::Error::from_raw_os_error(CLOSED))),
            false => written(write(&mut self.0)),
        }
    }

    /// Sees that all is written.
    pub fn end(&mut self) -> Result<(), Stop> {
        written(self.0.flush())
    }
}

/// The error of a file that isn't open.
const CLOSED: i32 = 9;

fn written(result: std::io::Result<()>) -> Result<(), Stop> {
    let told = |error: std::io::Error| vec![Told::of(OUTPUT, error.to_string())];
    result.map_err(|error| Stop { status: Status::Failed, told: told(error) })
}

/// Writes to standard output.
pub fn print(bytes: &[u8]) -> Result<(), Stop> {
    if bytes.is_empty() {
        return Ok(());
    }
    let mut out = out();
    out.all(|out| out.write_all(bytes))?;
    out.end()
}

/// Says lines on standard error, if they can be said.
pub fn say(text: &str) {
    if !text.is_empty() {
        let _ = writeln!(std::io::stderr(), "{}", text.trim_end());
    }
}
