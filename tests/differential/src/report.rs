//! Part `report`: the text for random inputs, for the sheets of the repository's examples, and for the
//! shared bench sheets if they stand beside the repository.

use crate::tally::{Guarded, Tally};
use oracle::Problem;
use planner_sys::planner_report;
use sheets::{damaged, encode, problem, Rng};
use std::fs;
use std::path::Path;

/// No report is longer.
const REPORT_ROOM: usize = 217_160;

/// The statuses where the room is shorter than the report, and where the answer has another length than 12 bytes.
const NO_ROOM: u32 = 22 * 256;
const ANSWER_ROOM: u32 = 255 * 256;

pub fn case(number: usize, rng: &mut Rng, tally: &mut Tally) {
    if number.is_multiple_of(8) {
        long_input(rng, tally);
    }
    let problem = problem(rng);
    let sheet = if rng.chance(25) { damaged(rng, &problem) } else { encode(&problem) };
    let expected = oracle::report(&sheet);
    let room = match rng.below(6) {
        0 => expected.len() - 1,
        1 => rng.below(expected.len()),
        2 => expected.len(),
        3 => REPORT_ROOM,
        _ => expected.len() + rng.below(50),
    };
    report(&sheet, expected.as_bytes(), room, tally);
    if rng.chance(10) {
        wrong_answer_room(&sheet, expected.len(), rng, tally);
    }
}

/// A sheet with just room for its 4,096 plans, and one with more plans.
pub fn many_plans(tally: &mut Tally) {
    for (variables, values) in [(3, 16), (12, 2), (4, 9)] {
        let initial = vec![((1u32 << values) - 1) as u16; variables];
        let (constraints, symmetries) = (Vec::new(), Vec::new());
        let sheet = encode(&Problem { variables, values, initial, constraints, symmetries });
        tally.case = format!("{variables} free variables of {values} values");
        report(&sheet, oracle::report(&sheet).as_bytes(), REPORT_ROOM, tally);
    }
}

/// Compares the report with the expected one: the status, and every byte lent.
fn report(input: &[u8], expected: &[u8], room: usize, tally: &mut Tally) {
    let mut out = Guarded::new(room, input.len() as u8);
    let mut answer = Guarded::new(12, expected.len() as u8);
    let (mut expected_out, mut expected_answer) = (out.clone(), answer.clone());
    let fits = expected.len() <= room;
    if fits {
        expected_out.lent()[..expected.len()].copy_from_slice(expected);
        let words = [1, expected.len() as u32, 0].map(u32::to_le_bytes).concat();
        expected_answer.lent().copy_from_slice(&words);
    }
    let lent = input.to_vec();
    let status = planner_report(&lent, out.lent(), answer.lent());
    let [text, expected_text] = [&mut out, &mut expected_out]
        .map(|out| String::from_utf8_lossy(&out.lent()[..expected.len().min(room)]).to_string());
    tally.same("status", status, if fits { 0 } else { NO_ROOM }, input);
    tally.same("report", text, expected_text, input);
    tally.same("answer", &answer.bytes, &expected_answer.bytes, input);
    tally.same("room after", out.bytes == expected_out.bytes, true, input);
    tally.same("input after", &lent[..], input, &[]);
}

/// With an answer that isn't 12 bytes long nothing is written.
fn wrong_answer_room(input: &[u8], room: usize, rng: &mut Rng, tally: &mut Tally) {
    let mut out = Guarded::new(room, rng.word() as u8);
    let mut answer = Guarded::new(rng.pick(&[0, 1, 11, 13, 24]), rng.word() as u8);
    let (out_before, answer_before) = (out.clone(), answer.clone());
    let status = planner_report(input, out.lent(), answer.lent());
    tally.same("status", status, ANSWER_ROOM, input);
    tally.same("room untouched", &out.bytes, &out_before.bytes, input);
    tally.same("answer untouched", &answer.bytes, &answer_before.bytes, input);
}

/// Inputs at and above 65,536 bytes, of which the first 65,536 are the sheet.
fn long_input(rng: &mut Rng, tally: &mut Tally) {
    let mut input = encode(&problem(rng));
    input.resize(rng.pick(&[65535, 65536, 65537, 70000]), 0);
    let stated = rng.pick(&[0, 1, 65535, input.len() as u16]);
    input[14..16].copy_from_slice(&stated.to_le_bytes());
    let expected = oracle::report(&input);
    report(&input, expected.as_bytes(), REPORT_ROOM, tally);
}

/// Every sheet of a folder, beside its stored report (that of paper 02, where there are two), or else beside the oracle's.
pub fn folder(folder: &Path, tally: &mut Tally) {
    let Ok(entries) = fs::read_dir(folder) else {
        println!("report: no folder {}, skipped", folder.display());
        return;
    };
    let mut files: Vec<_> = entries.flatten().map(|entry| entry.path()).collect();
    files.retain(|file| file.extension().is_some_and(|word| word == "sheet"));
    files.sort();
    for file in &files {
        let sheet = fs::read(file).expect("a sheet that can be read");
        let stored = ["report02", "report"].iter().find_map(|name| fs::read(file.with_extension(name)).ok());
        let expected = stored.unwrap_or_else(|| oracle::report(&sheet).into_bytes());
        tally.case = format!("{}", file.display());
        report(&sheet, &expected, REPORT_ROOM, tally);
    }
    println!("report: {} sheets of {}", files.len(), folder.display());
}
