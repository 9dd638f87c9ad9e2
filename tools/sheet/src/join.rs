//! `sheet join`: the whole of a run from the results of its parts, or the ranges that are missing.

use crate::answers;
use crate::command::{refuse, Arguments, Choice, Command, Outcome, Source, Status, Stop};
use crate::input::{Input, TEXT_OPTIONS, WHERE_OPTION};
use crate::json::{object, rows_text, JSON_OPTION};
use crate::listing::{Limits, Listing, Plans, Ran};
use crate::path::word;
use crate::plans::{
    forms, shown, BOM_OPTION, BY_WINDOW_OPTION, CSV_OPTION, EXPLAIN_OPTION, FREE_OPTION, ROWS_OPTION,
};
use crate::result::{Hall, Part};
use crate::watch::Watch;
use crate::words::counted;
use planner::{join, Ending, Head, Join, Sums, END, START};
use std::collections::BTreeMap;
use std::path::Path;

pub const COMMAND: Command = Command {
    name: "join",
    usage: "TEXT FILE ..",
    about: "lists the plans of a run from its parts, in any order, or says which parts are missing",
    files: 2..=usize::MAX,
    options: &[
        &[
            CSV_OPTION,
            BOM_OPTION,
            JSON_OPTION,
            ROWS_OPTION,
            FREE_OPTION,
            BY_WINDOW_OPTION,
            EXPLAIN_OPTION,
            WHERE_OPTION,
            Choice {
                name: "--trials",
                value: Some("N"),
                about: "the allowance of the count of families (1,000,000)",
            },
        ],
        TEXT_OPTIONS,
    ],
    asks: false,
    run,
};

fn run(arguments: &Arguments) -> Result<Outcome, Stop> {
    let forms = forms(arguments)?;
    let limits = Limits::of(arguments)?;
    let [source, files @ ..] = &arguments.sources[..] else { unreachable!("a text and files") };
    let input = Input::read(source)?.lent(arguments)?;
    let hall = input.accepted(Hall::new(&input.made))?;
    let (parts, notes) = read(files, &hall)?;
    let heads: Vec<u8> = parts.iter().flat_map(|part| &part.heads).flat_map(|head| *head.bytes()).collect();
    match input.accepted(join(&heads))? {
        Join::Joined(sums) => {
            let ran = whole(&input, parts, sums)?;
            let listing = input.accepted(Listing::of(&input.made, ran, limits, &Watch::nobody()))?;
            let outcome = shown(arguments, forms, &input, &input.chosen(listing))?;
            Ok(Outcome { note: notes + &outcome.note, ..outcome })
        }
        Join::Missing { .. } => {
            let ranges = missing(&parts);
            let output = match forms {
                [_, true, _] => json(&input, &notes, &ranges).into_bytes(),
                _ => Vec::new(),
            };
            let lines = ranges.iter().map(|range| again(arguments, files, range));
            Ok(Outcome { output, note: notes + &lines.collect::<String>(), status: Status::Short })
        }
    }
}

/// The parts that files hold. What is damaged is left out and noted as a comment of a shell, so that the lines of what is missing can be
/// run as they stand.
fn read(files: &[Source], hall: &Hall) -> Result<(Vec<Part>, String), Stop> {
    let (mut parts, mut notes) = (Vec::new(), String::new());
    for file in files {
        match Part::read(&file.bytes()?) {
            Some(part) if part.is_of(hall) => parts.push(part),
            Some(_) => return refuse(format!("{} is a part of another hall", file.name())),
            None => notes += &format!("# {}: damaged, or no part; left out\n", file.name()),
        }
    }
    Ok((parts, notes))
}

/// Where a head of a part leads: how far it reaches, and which one it is.
#[derive(Clone, PartialEq, Eq)]
struct Way {
    reach: Vec<u8>,
    part: usize,
    head: usize,
}

/// For each path where heads begin, the one that reaches furthest, of equals the first.
fn ways(parts: &[Part]) -> BTreeMap<Vec<u8>, Way> {
    let mut ways: BTreeMap<Vec<u8>, Way> = BTreeMap::new();
    let heads = parts
        .iter()
        .enumerate()
        .flat_map(|(part, of)| of.heads.iter().enumerate().map(move |head| (part, head)));
    for (part, (number, head)) in heads {
        let way = Way { reach: reach(head).to_vec(), part, head: number };
        let is_further = |other: &Way| way.reach > other.reach;
        if way.reach > head.from().to_vec() && ways.get(head.from()).is_none_or(is_further) {
            ways.insert(head.from().to_vec(), way);
        }
    }
    ways
}

/// The path up to which a head that isn't full has made every trial.
fn reach(head: &Head) -> &[u8] {
    match head.answer().ending {
        Ending::Finished => head.upto(),
        _ => head.last(),
    }
}

/// The ranges that no part has.
fn missing(parts: &[Part]) -> Vec<[Vec<u8>; 2]> {
    let ways = ways(parts);
    let (mut at, mut ranges) = (START.to_vec(), Vec::new());
    while at < END.to_vec() {
        at = match ways.get(&at) {
            Some(way) => way.reach.clone(),
            None => {
                let next = ways.range(at.clone()..).next().map_or(END.to_vec(), |(from, _)| from.clone());
                ranges.push([at, next.clone()]);
                next
            }
        };
    }
    ranges
}

/// The ranges that are missing, for machines.
fn json(input: &Input, notes: &str, ranges: &[[Vec<u8>; 2]]) -> String {
    let words = format!("{} missing", counted(ranges.len() as u64, "range"));
    let ending = answers::ending("missing", Status::Short, &words);
    let notes = input.notes() + notes;
    let range =
        |[from, upto]: &[Vec<u8>; 2]| object(vec![("from", word(from).into()), ("upto", word(upto).into())]);
    rows_text(&answers::of_hall(COMMAND.name, input, &notes, ending), "missing", ranges.iter().map(range))
}

/// The run that joined parts are, with the figures that the planner summed.
fn whole(input: &Input, parts: Vec<Part>, sums: Sums) -> Result<Ran, Stop> {
    let ways = ways(&parts);
    let (mut at, mut rows) = (START.to_vec(), Vec::new());
    while let Some(way) = ways.get(&at) {
        rows.extend(parts[way.part].rows_of(way.head));
        at = way.reach.clone();
    }
    let windows = input.made.problem.variables.len();
    match rows.len() as u64 == sums.plans * windows as u64 {
        true => {
            let plans = Plans::new(windows, rows, sums.plans as usize);
            let Sums { nodes: trials, counts, .. } = sums;
            let (from, at) = (START.to_vec(), END.to_vec());
            Ok(Ran { ending: Ending::Finished, plans, trials, counts, from, at, stop: None })
        }
        false => refuse("the parts don't have the plans that their heads tell of"),
    }
}

/// The words that run a range, with a file beside the others.
fn again(arguments: &Arguments, files: &[Source], [from, upto]: &[Vec<u8>; 2]) -> String {
    let [from, upto] = [from, upto].map(|path| word(path));
    let folder = Path::new(&files[0].0).parent().unwrap_or(Path::new(""));
    let file = folder.join(format!("{from}-{upto}.part")).to_string_lossy().into_owned();
    let program = std::env::args().next().unwrap_or("sheet".to_string());
    let option = |choice: &'static Choice| {
        let words = |value: &String| [Some(choice.name.to_string()), choice.value.map(|_| value.clone())];
        arguments.all(choice.name).flat_map(words).flatten().collect::<Vec<_>>()
    };
    let mut words = vec![program, "part".into(), "--range".into(), from, upto, "--out".into(), file];
    words.extend(TEXT_OPTIONS.iter().flat_map(option));
    words.push(arguments.sources[0].0.clone());
    words.iter().map(|word| quoted(word)).collect::<Vec<_>>().join(" ") + "\n"
}

/// A word as a shell takes it whole.
fn quoted(word: &str) -> String {
    let is_plain = |letter: char| letter.is_alphanumeric() || "-_./=+:,@%".contains(letter);
    match !word.is_empty() && word.chars().all(is_plain) {
        true => word.to_string(),
        false => format!("'{}'", word.replace('\'', "'\\''")),
    }
}
