//! The proved planner beside the oracle: `differential [PART ..]`, with no word all parts. SEED and CASES
//! are read from the environment, and SHARED_BENCH for another folder of sheets with reports than
//! ../shared/bench beside the repository. Case i of a part draws from SEED + i, so that a difference comes
//! back with that seed and one case. Every refusal number must be reached by its part, and every ending of the filter and
//! every answer to "at least so many plans?", to how many families there are, to whether exchanges are closed and of a turn at a desk.

mod block;
mod closed;
mod columns;
mod desk;
mod enough;
mod families;
mod filter;
mod lent;
mod merge;
mod parts;
mod question;
mod repeats;
mod report;
mod retyped;
mod run;
mod small;
mod store;
mod tally;
mod version;
mod visits;

use sheets::Rng;
use std::collections::BTreeMap;
use std::ops::RangeInclusive;
use std::path::{Path, PathBuf};
use std::time::Instant;
use tally::{Tally, WRONG_SIZE};

const PARTS: &[&str] = &[
    "question", "filter", "run", "lent", "enough", "families", "closed", "retyped", "report", "columns",
    "merge", "store", "small", "desk", "parts", "repeats",
];
/// The refusal numbers that a part must reach.
const REFUSALS: &[(&str, RangeInclusive<u32>)] = &[
    ("question", 1..=16),
    ("filter", 17..=19),
    ("lent", 28..=30),
    ("lent", 36..=36),
    ("lent", WRONG_SIZE..=WRONG_SIZE),
    ("enough", 15..=16),
    ("enough", 28..=30),
    ("enough", 36..=36),
    ("enough", WRONG_SIZE..=WRONG_SIZE),
    ("families", 15..=16),
    ("families", 28..=30),
    ("families", 36..=36),
    ("families", WRONG_SIZE..=WRONG_SIZE),
    ("closed", 15..=16),
    ("closed", 28..=30),
    ("closed", 36..=36),
    ("closed", WRONG_SIZE..=WRONG_SIZE),
    ("columns", 20..=23),
    ("merge", 24..=30),
    ("store", 31..=35),
    ("small", 39..=40),
    ("desk", 1..=16),
    ("desk", 22..=22),
    ("desk", 37..=38),
    ("desk", WRONG_SIZE..=WRONG_SIZE),
    ("parts", 15..=16),
    ("parts", 28..=30),
    ("parts", 36..=36),
    ("parts", 41..=44),
    ("parts", WRONG_SIZE..=WRONG_SIZE),
];
const CASES: usize = 2000;
/// With fewer cases, numbers and endings that nothing reached are no failure.
const ENOUGH_CASES: usize = 1000;
/// The endings of the filter by their code; each must be met at least as often as there are cases.
const ENDINGS: [&str; 3] = ["consistent", "entailed", "failed"];
/// Likewise what is said of so many plans, by its kind.
const SAID: [&str; 3] = ["yes", "no", "spent"];
/// Likewise of families.
const FAMILIES: [&str; 2] = ["families counted", "dash"];
/// Likewise of exchanges; these are asked once a case, so a tenth of the cases will do.
const CLOSED: [&str; 2] = ["closed", "product missing"];
/// Likewise of turns at a desk, whose run then goes on or has ended.
const TURNS: [&str; 4] = ["finished", "spent", "full", "goes on"];
/// Likewise of heads.
const JOINS: [&str; 2] = ["joined", "missing"];

fn environment(name: &str, otherwise: usize) -> usize {
    std::env::var(name)
        .map_or(otherwise, |word| word.parse().unwrap_or_else(|_| panic!("{name} is a number")))
}

fn main() {
    let mut parts: Vec<String> = std::env::args().skip(1).collect();
    if parts.iter().any(|part| !PARTS.contains(&part.as_str())) {
        eprintln!("differential [PART ..], of {}", PARTS.join(" "));
        std::process::exit(2);
    }
    if parts.is_empty() {
        parts = PARTS.iter().map(|part| part.to_string()).collect();
    }
    let (seed, cases) = (environment("SEED", 1), environment("CASES", CASES));
    println!("differential: SEED={seed} CASES={cases}");
    let mut tally = Tally { cases, ..Tally::default() };
    version::compare(&mut tally);
    for part in &parts {
        (tally.accepted, tally.refused) = (0, BTreeMap::new());
        test(part, seed, cases, &mut tally);
        reached(part, cases, &mut tally);
    }
    if parts.iter().any(|part| part == "filter") {
        met(ENDINGS, tally.endings, cases, &mut tally);
    }
    if parts.iter().any(|part| part == "enough") {
        met(SAID, tally.enough, cases, &mut tally);
    }
    if parts.iter().any(|part| part == "families") {
        met(FAMILIES, tally.families, cases, &mut tally);
    }
    if parts.iter().any(|part| part == "closed") {
        met(CLOSED, tally.closed, cases / 10, &mut tally);
    }
    if parts.iter().any(|part| part == "desk") {
        met(TURNS, tally.turns, cases / 10, &mut tally);
    }
    if parts.iter().any(|part| part == "parts") {
        met(JOINS, tally.joins, cases / 10, &mut tally);
    }
    println!("differential: {} passed, {} failed", tally.passed, tally.failed);
    std::process::exit(if tally.failed == 0 { 0 } else { 1 });
}

fn test(part: &str, seed: usize, cases: usize, tally: &mut Tally) {
    let start = Instant::now();
    let before = tally.passed + tally.failed;
    for number in 0..cases {
        let mut rng = Rng::new((seed + number) as u64);
        tally.case = format!("part {part}, SEED={} CASES=1", seed + number);
        match part {
            "question" => question::case(seed + number, &mut rng, tally),
            "filter" => filter::case(&mut rng, tally),
            "run" => run::case(&mut rng, tally),
            "lent" => lent::case(&mut rng, tally),
            "enough" => enough::case(&mut rng, tally),
            "families" => families::case(&mut rng, tally),
            "closed" => closed::case(&mut rng, tally),
            "retyped" => retyped::case(&mut rng, tally),
            "columns" => columns::case(&mut rng, tally),
            "merge" => merge::case(&mut rng, tally),
            "store" => store::case(&mut rng, tally),
            "small" => small::case(&mut rng, tally),
            "desk" => desk::case(&mut rng, tally),
            "parts" => parts::case(&mut rng, tally),
            "repeats" => repeats::case(&mut rng, tally),
            _ => report::case(seed + number, &mut rng, tally),
        }
    }
    if part == "lent" {
        lent::examples(tally);
        block::examples(tally);
    }
    if part == "families" {
        families::many_plans(tally);
        families::orderings_of_three(tally);
    }
    if part == "closed" {
        closed::orderings_of_three(tally);
    }
    if part == "columns" {
        columns::all_shapes(tally);
    }
    if part == "small" {
        small::all(tally);
    }
    if part == "desk" {
        desk::examples(tally);
    }
    if part == "parts" {
        parts::examples(tally);
    }
    if part == "repeats" {
        repeats::examples(tally);
    }
    if part == "report" {
        report::many_plans(tally);
        let root = Path::new(env!("CARGO_MANIFEST_DIR")).join("../..");
        report::folder(&root.join("examples"), tally);
        let shared = std::env::var("SHARED_BENCH").map_or(root.join("../shared/bench"), PathBuf::from);
        report::folder(&shared, tally);
    }
    let comparisons = tally.passed + tally.failed - before;
    println!("{part}: {comparisons} comparisons, {:.1} s", start.elapsed().as_secs_f64());
}

/// How often each answer was met, and a failure for each that was met too seldom.
fn met<const N: usize>(names: [&str; N], counts: [usize; N], least: usize, tally: &mut Tally) {
    for (name, count) in names.iter().zip(counts) {
        println!("{name} {count}");
        if count < least && tally.cases >= ENOUGH_CASES {
            println!("{name} was met less than {least} times");
            tally.failed += 1;
        }
    }
}

/// How many of a part's cases got each number, and a failure for each of its numbers that none got.
fn reached(part: &str, cases: usize, tally: &mut Tally) {
    let counts: Vec<String> =
        tally.refused.iter().map(|(number, count)| format!("{number}: {count}")).collect();
    if tally.accepted > 0 || !counts.is_empty() {
        println!("  accepted {}, refused {}", tally.accepted, counts.join(", "));
    }
    let numbers =
        REFUSALS.iter().filter(|(other, _)| *other == part).flat_map(|(_, numbers)| numbers.clone());
    for number in numbers.filter(|number| !tally.refused.contains_key(number)) {
        println!("refusal {number} was never reached");
        tally.failed += usize::from(cases >= ENOUGH_CASES);
    }
}
