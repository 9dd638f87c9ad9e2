//! Several halls at one desk: what the program prints of each as it ends, the line of each seat, faults in their place, and the exit status.

use sheet::json::Json;
use std::path::PathBuf;
use std::process::Output;

use crate::program::{fed, root, said};
use crate::schema::{field, members, parse, Schema};

/// The program with words parted by spaces.
fn sheet(words: &str) -> Output {
    fed(&words.split_whitespace().collect::<Vec<_>>(), b"")
}

/// Writes a text of a test, and gives its name.
fn text(name: &str, lines: &str) -> String {
    let file = PathBuf::from(env!("CARGO_TARGET_TMPDIR")).join(name);
    std::fs::write(&file, lines).unwrap();
    file.to_str().unwrap().to_string()
}

/// The files of the halls, in the order in which they end, with their seats.
fn ended(output: &Output) -> Vec<String> {
    said(&output.stdout).lines().filter(|line| line.starts_with("seat ")).map(str::to_string).collect()
}

/// The examples, and texts with `before` and `alike` lines.
fn files() -> Vec<String> {
    let examples =
        ["stand", "a", "hall", "cycle", "mixed", "square"].map(|name| format!("examples/{name}.txt"));
    let others =
        ["order", "alike", "broken", "office"].map(|name| format!("tools/sheet/tests/golden/{name}.txt"));
    [&examples[..], &others].concat()
}

/// Of each hall the seat, and what `sheet plans` prints, whatever the turns and the cores.
#[test]
fn as_alone() {
    let files = files();
    for (words, manner, status) in [
        ("", "", 4),
        ("", "--jobs 3 --every 2", 4),
        ("--trials 100", "--every 1", 2),
        ("--trials 216", "--every 1 --jobs 2", 4),
        ("--trials 216 --explain --where win1=cid", "--every 3", 1),
        ("--trials 0", "--jobs 0", 2),
    ] {
        let output = sheet(&format!("desk {words} {manner} {}", files.join(" ")));
        assert_eq!(output.status.code(), Some(status), "{words} {manner}");
        let mut left = said(&output.stdout).len();
        for (seat, file) in files.iter().enumerate() {
            let alone = sheet(&format!("plans {words} {file}"));
            let plans = if alone.status.code() == Some(1) { &alone.stderr } else { &alone.stdout };
            let expected = format!("seat {seat}, {file}\n{}\n", said(plans));
            assert!(said(&output.stdout).contains(&expected), "{words} {manner}: {expected}");
            left -= expected.len();
        }
        assert_eq!(left, 0, "{words} {manner}");
    }
}

/// A hall that is done is shown before a longer one that sat down earlier.
#[test]
fn as_they_end() {
    let output = sheet("desk --every 1 examples/stand.txt examples/a.txt examples/cycle.txt");
    let order = ["seat 1, examples/a.txt", "seat 2, examples/cycle.txt", "seat 0, examples/stand.txt"];
    assert_eq!((ended(&output), output.status.code()), (order.map(String::from).to_vec(), Some(0)));
    let lines = "seat 0  examples/stand.txt  64 trials  14 plans  0.0% of the allowance\n\
                 seat 1  examples/a.txt       6 trials   3 plans  0.0% of the allowance\n\
                 seat 2  examples/cycle.txt   9 trials   3 plans  0.0% of the allowance\n\
                 seat 0  examples/stand.txt  128 trials  29 plans  0.0% of the allowance\n\
                 seat 0  examples/stand.txt  192 trials  50 plans  0.0% of the allowance\n\
                 seat 0  examples/stand.txt  216 trials  57 plans  0.0% of the allowance\n";
    assert_eq!(said(&output.stderr), lines);
    let output = sheet("desk --trials 200 --every 2 examples/stand.txt examples/a.txt");
    let lines = "seat 0  examples/stand.txt  128 trials  29 plans  64.0% of the allowance\n\
                 seat 1  examples/a.txt        6 trials   3 plans   3.0% of the allowance\n\
                 seat 0  examples/stand.txt  200 trials  51 plans  100.0% of the allowance\n";
    assert_eq!((said(&output.stderr), output.status.code()), (lines, Some(2)));
    let output = sheet("desk --every 3000 tools/sheet/tests/golden/hard.txt");
    let made: Vec<&str> = said(&output.stderr).lines().map(|line| line.split("  ").nth(2).unwrap()).collect();
    let every = ["192,000", "384,000", "576,000", "768,000", "960,000", "1,000,000"];
    assert_eq!(made, every.map(|trials| format!("{trials} trials")));
}

/// Short halls don't wait behind long ones, however many.
#[test]
fn more_than_eight() {
    let long = ["tools/sheet/tests/golden/hard.txt"; 9].join(" ");
    for jobs in ["", "--jobs 2"] {
        let output = sheet(&format!("desk {jobs} {long} examples/a.txt {long} examples/stand.txt"));
        let order = ended(&output);
        assert_eq!(order[..2], ["seat 9, examples/a.txt", "seat 19, examples/stand.txt"], "{jobs}");
        assert_eq!((order.len(), output.status.code()), (20, Some(2)));
    }
}

#[test]
fn room_for_4096() {
    let file = text("full.txt", "windows a b c d e\nduties 1 2 3 4 5 6\n");
    let output = sheet(&format!("desk {file} examples/a.txt"));
    let lines: Vec<&str> = said(&output.stdout).lines().collect();
    assert_eq!((lines[1], output.status.code()), ("a  b  c  d  e", Some(2)));
    let last = "stopped at 4,096 plans: there are more (a seat has room for so many)";
    assert!(lines.contains(&last) && lines.contains(&"4  1  6  5  4") && !lines.contains(&"4  1  6  5  5"));
    let none =
        "stopped at the allowance of 3 trials, no plan so far: plans may exist (--trials N allows more)\n\n";
    let output = sheet(&format!("desk --trials 3 {file}"));
    assert_eq!(said(&output.stdout), format!("seat 0, {file}\n{none}"));
}

/// Families whose count takes more than a round are counted beside it.
#[test]
fn many_families() {
    let free: Vec<String> = (1..=8).map(|number| format!("f{number}")).collect();
    let may = |windows: &[String], duties: &str| {
        windows.iter().map(|window| format!("may {window} {duties}\n")).collect::<String>()
    };
    let bound =
        |window: &String| format!("rule {window} p4\nrows v c, v d, w c, x c, y c, v e, w e, x e, y e\n");
    let lines = format!(
        "windows {} p1 p2 p3 p4\nduties v w x y b c d e\n{}{}may p4 c d e\nall different p1 p2 p3 p4\n{}exchange windows p1 p2\n",
        free.join(" "),
        may(&free, "v w x y"),
        may(&["p1", "p2", "p3"].map(String::from), "b c e"),
        free.iter().map(bound).collect::<String>()
    );
    let file = text("families.txt", &lines);
    let alone = sheet(&format!("plans --trials 9000000 {file}"));
    let output = sheet(&format!("desk --trials 9000000 examples/a.txt {file}"));
    let expected = format!("\nseat 1, {file}\n{}\n", said(&alone.stdout));
    assert!(said(&output.stdout).ends_with(&expected), "{expected}{}", said(&output.stdout));
    assert!(expected.contains("3 plans, 3 families, "), "{expected}");
}

/// What is wrong with one text is told in its place and on standard error, and the others run.
#[test]
fn faults() {
    let fault = text("fault.txt", "windows a b\nduties x y\ndifferent a till\nmay b z\n");
    let none = text("none_left.txt", "windows a b\nduties x\ndifferent a b\n");
    let faults = format!("{fault}:3: no window is called `till`\n{fault}:4: no duty is called `z`\n");
    let missing = "none.txt: No such file or directory (os error 2)\n";
    let output = sheet(&format!("desk examples/cycle.txt {fault} none.txt examples/a.txt"));
    let plans = |file: &str| said(&sheet(&format!("plans {file}")).stdout).to_string();
    let expected = format!(
        "seat 1, {fault}\n{faults}\nseat 2, none.txt\n{missing}\nseat 0, examples/cycle.txt\n{}\nseat 3, examples/a.txt\n{}\n",
        plans("examples/cycle.txt"),
        plans("examples/a.txt")
    );
    assert_eq!(said(&output.stdout), expected);
    assert_eq!(
        (said(&output.stderr), output.status.code()),
        (format!("{faults}{missing}").as_str(), Some(3))
    );
    for (files, status) in [
        ("examples/a.txt", 0),
        ("examples/a.txt NONE", 4),
        ("examples/a.txt NONE examples/stand.txt", 2),
        ("FAULT examples/a.txt NONE examples/stand.txt", 1),
        ("FAULT examples/a.txt NONE examples/stand.txt none.txt", 3),
    ] {
        let files = files.replace("NONE", &none).replace("FAULT", &fault);
        assert_eq!(sheet(&format!("desk --trials 100 {files}")).status.code(), Some(status), "{files}");
    }
}

/// For machines: each hall's answer in the order of the texts, as `sheet plans` has it.
#[test]
fn json() {
    let schema = std::fs::read_to_string(root().join("docs/schema/sheet.json")).unwrap();
    let schema = Schema(parse(&schema).unwrap());
    let files = [&files()[..], &["none.txt".to_string()]].concat();
    let output = sheet(&format!("desk --json --trials 200 {}", files.join(" ")));
    let value = parse(said(&output.stdout)).unwrap();
    assert_eq!((schema.wrong("desk", &value), schema.wrong_in_all(&value)), (None, None));
    assert_eq!((field(&value, "status"), output.status.code()), (Some(&Json::Number(3)), Some(3)));
    let halls = members(field(&value, "halls").unwrap());
    assert_eq!(halls.len(), files.len());
    for (file, hall) in files.iter().zip(halls) {
        let alone = sheet(&format!("plans --json --trials 200 {file}"));
        let alone = said(&alone.stdout).replace("\"command\": \"plans\"", "\"command\": \"desk\"");
        assert_eq!(*hall, parse(&alone).unwrap(), "{file}");
    }
    let wrong = parse(said(&sheet("desk --json --fast examples/a.txt").stdout)).unwrap();
    assert_eq!((schema.wrong("failure", &wrong), field(&wrong, "hall")), (None, Some(&Json::Null)));
}

/// A limit of time ends all runs, with what there is.
#[test]
fn seconds() {
    let long = ["tools/sheet/tests/golden/hard.txt"; 3].join(" ");
    let output = sheet(&format!("desk --trials 4294967295 --seconds 1 {long} examples/a.txt"));
    assert_eq!((ended(&output)[0].as_str(), output.status.code()), ("seat 3, examples/a.txt", Some(2)));
    assert_eq!(said(&output.stdout).matches("stopped after 1 second and ").count(), 3);
}

#[test]
fn wrong_words() {
    for (words, reason) in [
        ("desk", "sheet desk TEXT ..\n"),
        ("desk - examples/a.txt -", "standard input can stand for one file only\n"),
        ("desk --every 0 examples/a.txt", "--every takes a number from 1 on\n"),
        ("desk --plans 3 examples/a.txt", "desk takes no --plans\n"),
        ("desk --pairs p examples/a.txt", "desk takes no --pairs\n"),
    ] {
        let output = sheet(words);
        assert_eq!((said(&output.stderr), said(&output.stdout)), (reason, ""), "{words}");
        assert_eq!(output.status.code(), Some(1), "{words}");
    }
}
