//! `sheet part`: one part of a run, left in a file for `sheet join`.

use crate::command::{refuse, Arguments, Choice, Command, Outcome, Source, Status, Stop};
use crate::cut::cut;
use crate::input::{Input, TEXT_OPTIONS};
use crate::path::{path, word};
use crate::result::{is_part, Hall, Part};
use crate::split::{number, MOST_PARTS};
use crate::walker::{Tree, Walker};
use crate::watch::{Progress, Watch, EVERY_OPTION, SECONDS_OPTION};
use crate::words::grouped;
use planner::{Ending, Refusal};
use std::fs;
use std::io::Write;
use std::path::Path;

pub const COMMAND: Command = Command {
    name: "part",
    usage: "TEXT",
    about: "runs one part, and leaves its plans in a file for `sheet join`; what is there already isn't run again",
    files: 1..=1,
    options: &[
        &[
            Choice { name: PART, value: Some("K/N"), about: "the K-th of N parts, as `sheet split N` cuts them" },
            Choice { name: RANGE, value: Some("FROM UPTO"), about: "the trials after FROM and not after UPTO" },
            Choice { name: OUT, value: Some("FILE"), about: "the file, written aside and then renamed" },
            Choice { name: TRIALS, value: Some("N"), about: "stop after N trials; the same words then go on" },
            SECONDS_OPTION,
            EVERY_OPTION,
        ],
        TEXT_OPTIONS,
    ],
    asks: false,
    run,
};

const PART: &str = "--part";
const RANGE: &str = "--range";
const OUT: &str = "--out";
const TRIALS: &str = "--trials";

/// The most plans of a part.
const MOST_PLANS: usize = 10_000_000;

fn run(arguments: &Arguments) -> Result<Outcome, Stop> {
    let Some(file) = arguments.file(OUT).filter(|file| file.0 != "-") else {
        return refuse("part takes --out FILE, which isn't standard output");
    };
    let (trials, wanted) = (allowance(arguments)?, Wanted::of(arguments)?);
    let input = Input::read(&arguments.sources[0])?.lent(arguments)?;
    let [from, upto] = wanted.range(&input);
    let hall = input.accepted(Hall::new(&input.made))?;
    let mut part = match found(&file, &hall, [&from, &upto])? {
        Some(part) if part.is_finished() => return Ok(silent(Status::Finished)),
        Some(part) => part,
        None => Part::new(hall),
    };
    let task = Task { from, upto, trials, watch: Watch::of(arguments)? };
    input.accepted(go_on(&input, &task, &mut part))?;
    leave(&file, &part.bytes())?;
    match part.is_finished() {
        true => Ok(silent(Status::Finished)),
        false => Ok(Outcome { note: stopped(&part), ..silent(Status::Short) }),
    }
}

fn silent(status: Status) -> Outcome {
    Outcome { output: Vec::new(), note: String::new(), status }
}

/// How far a part came that isn't finished.
fn stopped(part: &Part) -> String {
    let rest = match part.plans() < MOST_PLANS {
        true => "the same words go on",
        false => "a part has no room for more plans, and `sheet join` names the rest",
    };
    format!("stopped short: {}; {rest}", part.words())
}

/// How many trials may be made, if that is limited.
fn allowance(arguments: &Arguments) -> Result<Option<u64>, Stop> {
    let Some(value) = arguments.all(TRIALS).last() else { return Ok(None) };
    match value.replace([',', '_'], "").parse() {
        Ok(trials) => Ok(Some(trials)),
        Err(_) => refuse(format!("{TRIALS} takes a number, not `{value}`")),
    }
}

/// A range, how many trials may be made, and who watches.
struct Task {
    from: Vec<u8>,
    upto: Vec<u8>,
    trials: Option<u64>,
    watch: Watch,
}

/// What the words ask for.
enum Wanted {
    Part { part: usize, parts: usize },
    Range([Vec<u8>; 2]),
}

impl Wanted {
    fn of(arguments: &Arguments) -> Result<Wanted, Stop> {
        match (arguments.all(PART).last(), arguments.all(RANGE).last()) {
            (Some(words), None) => Wanted::part(words),
            (None, Some(words)) => Wanted::between(words),
            _ => refuse(format!("part takes one of {PART} K/N and {RANGE} FROM UPTO")),
        }
    }

    fn part(words: &str) -> Result<Wanted, Stop> {
        let numbers = words.split_once('/').and_then(|(part, parts)| Some((number(part)?, number(parts)?)));
        match numbers {
            Some((part, parts)) if part <= parts => Ok(Wanted::Part { part, parts }),
            _ => refuse(format!(
                "{PART} takes K/N, K from 1 to N and N to {}, not `{words}`",
                grouped(MOST_PARTS as u64)
            )),
        }
    }

    fn between(words: &str) -> Result<Wanted, Stop> {
        let paths: Option<Vec<Vec<u8>>> = words.split(' ').map(path).collect();
        match paths.as_deref() {
            Some([from, upto]) if from <= upto => Ok(Wanted::Range([from.clone(), upto.clone()])),
            Some([from, upto]) => {
                refuse(format!("{RANGE} {words}: {} comes after {}", word(from), word(upto)))
            }
            _ => refuse(format!("{RANGE} takes two of `start`, paths as `3.0.12`, and `end`, not `{words}`")),
        }
    }

    fn range(self, input: &Input) -> [Vec<u8>; 2] {
        match self {
            Wanted::Part { part, parts } => cut(&input.made, parts).swap_remove(part - 1),
            Wanted::Range(range) => range,
        }
    }
}

/// The part of a range that is in the file already. A file that holds something else stays; a damaged one is run anew.
fn found(file: &Source, hall: &Hall, [from, upto]: [&[u8]; 2]) -> Result<Option<Part>, Stop> {
    match fs::metadata(&file.0) {
        Err(_) => return folder(file).map(|()| None),
        Ok(about) if !about.is_file() => return refuse(format!("{}: no file to be written", file.0)),
        Ok(_) => {}
    }
    let bytes = file.bytes()?;
    match Part::read(&bytes) {
        None if !is_part(&bytes) => refuse(format!("{} is something else than a part, and stays", file.0)),
        Some(part) if !part.is_of(hall) => refuse(format!("{} is a part of another hall", file.0)),
        Some(part) if !part.has_range(from, upto) => {
            refuse(format!("{} is another part: {}", file.0, part.words()))
        }
        part => Ok(part),
    }
}

/// Sees that there is a folder for the file before anything is run.
fn folder(file: &Source) -> Result<(), Stop> {
    let folder = Path::new(&file.0).parent().filter(|folder| *folder != Path::new(""));
    let found = fs::metadata(folder.unwrap_or(Path::new("."))).map(|_| ());
    found.map_err(|error| file.failed(error))
}

/// Goes on with a part, with so many trials more, until it is finished or stopped or has no room for more plans.
fn go_on(input: &Input, task: &Task, part: &mut Part) -> Result<(), Refusal> {
    let from = if part.heads.is_empty() { &task.from } else { part.last() };
    let mut walker = Walker::new(Tree::of(&input.made), from, &task.upto);
    let mut made = 0;
    loop {
        let room = (MOST_PLANS - part.plans()) as u64;
        let limit = match task.watch.stops() {
            Some(_) => 0,
            None => (task.trials.unwrap_or(u64::MAX) - made).min(part.trials_left()).min(room),
        };
        let step = walker.step(limit, limit)?;
        let answer = step.head.answer();
        part.take(step);
        made += u64::from(answer.nodes);
        let plans = Some(part.plans() as u64);
        task.watch.hear(Progress { trials: made, plans, allowance: task.trials });
        if answer.ending == Ending::Finished || limit == 0 {
            return Ok(());
        }
    }
}

/// Writes a file aside, then gives it its name, so that no half file ever has it.
fn leave(file: &Source, bytes: &[u8]) -> Result<(), Stop> {
    let host = fs::read_to_string("/proc/sys/kernel/hostname").unwrap_or_default();
    let aside = format!("{}.new.{}.{}", file.0, host.trim(), std::process::id());
    let written = write(Path::new(&aside), bytes).and_then(|()| fs::rename(&aside, &file.0));
    written.map_err(|error| {
        let _ = fs::remove_file(&aside);
        file.failed(error)
    })
}

fn write(aside: &Path, bytes: &[u8]) -> std::io::Result<()> {
    let mut file = fs::File::create(aside)?;
    file.write_all(bytes)?;
    file.sync_all()
}
