//! Runs that are watched, stopped by time or by a signal, gone on with, and made on several cores.

use std::fs;
use std::io::{BufRead, BufReader, Read};
use std::path::PathBuf;
use std::process::{Child, Command, Output, Stdio};

use crate::program::{root, said};

fn sheet(words: &[&str]) -> Command {
    let mut command = Command::new(env!("CARGO_BIN_EXE_sheet"));
    command.current_dir(root()).args(words).stdin(Stdio::null());
    command
}

fn output(words: &[&str]) -> Output {
    sheet(words).output().unwrap()
}

/// A hall in a file of its own: with four windows before its last seven it has a hundred million trials and 60,000 plans, with three a
/// tenth of that.
struct Hall(PathBuf);

impl Hall {
    fn new(name: &str, first: &str) -> Hall {
        let file = std::env::temp_dir().join(format!("sheet-watching-{}-{name}.txt", std::process::id()));
        let mut text = format!("windows {first} e f g i j k l\nduties 0 1 2 3 4 5 6 7 8 9\n");
        text += "may i 0 1 2\nmay j 0 1 2\nmay k 0 1 2\nmay l 0 1 2 3\nall different i j k l\n";
        for window in ["e", "f", "g"] {
            let rows: Vec<String> = (0..9).map(|duty| format!("{window} {duty} l 3")).collect();
            text += &format!("forbid {}\n", rows.join(", "));
        }
        fs::write(&file, text).unwrap();
        Hall(file)
    }

    fn file(&self) -> &str {
        self.0.to_str().unwrap()
    }
}

impl Drop for Hall {
    fn drop(&mut self) {
        let _ = fs::remove_file(&self.0);
    }
}

/// The limits that the whole hall needs.
const ALL: [&str; 4] = ["--trials", "4294967295", "--plans", "100000"];

/// Begins a run that hears both signals: where the tests run behind `&`, INT is ignored from the start, and the program leaves it so.
const HEARS: [&str; 2] = ["--default-signal=INT,TERM", env!("CARGO_BIN_EXE_sheet")];

/// Starts a run that says how far it has come, and sends it a signal once it has said so: what it answers, and the lines that it said.
fn signalled(words: &[&str], signal: &str) -> (Output, Vec<String>) {
    let mut command = Command::new("env");
    command.current_dir(root()).args(HEARS).args(words).args(["--every", "0"]).stdin(Stdio::null());
    let mut run = command.stdout(Stdio::piped()).stderr(Stdio::piped()).spawn().unwrap();
    let mut errors = BufReader::new(run.stderr.take().unwrap());
    let mut line = String::new();
    errors.read_line(&mut line).unwrap();
    send(&run, signal);
    let mut stdout = run.stdout.take().unwrap();
    let reader = std::thread::spawn(move || {
        let mut bytes = Vec::new();
        stdout.read_to_end(&mut bytes).map(|_| bytes)
    });
    errors.read_to_string(&mut line).unwrap();
    let stdout = reader.join().unwrap().unwrap();
    let status = run.wait().unwrap();
    (Output { status, stdout, stderr: Vec::new() }, line.lines().map(String::from).collect())
}

/// Sends a signal at once: by the program `kill` it would come after the end of a run that takes no longer than that program.
fn send(run: &Child, signal: &str) {
    unsafe extern "C" {
        fn kill(process: i32, signal: i32) -> i32;
    }
    let number = match signal {
        "-INT" => 2,
        "-TERM" => 15,
        _ => panic!("{signal}"),
    };
    // SAFETY: the process is this one's child, which nobody has waited for.
    assert_eq!(unsafe { kill(run.id().try_into().unwrap(), number) }, 0);
}

/// The path with which a stopped run goes on.
fn path(ending: &str) -> &str {
    let (_, rest) = ending.split_once("(plans --from ").unwrap_or_else(|| panic!("{ending}"));
    rest.split_once(" goes on)").unwrap().0
}

/// What a signal stopped and what `--from` goes on with are together the whole.
#[test]
fn a_signal_and_the_rest() {
    let hall = Hall::new("signal", "a b c d");
    let whole = output(&[&["plans", "--rows"], &ALL[..], &[hall.file()]].concat());
    assert_eq!((whole.status.code(), whole.stdout.len()), (Some(0), 60_000 * 11));
    for (signal, jobs) in [("-TERM", "1"), ("-INT", "2")] {
        let words = [&["plans", "--rows", "--jobs", jobs], &ALL[..], &[hall.file()]].concat();
        let (stopped, lines) = signalled(&words, signal);
        let ending = lines.last().unwrap();
        assert_eq!(stopped.status.code(), Some(2), "{ending}");
        assert!(ending.starts_with("stopped by a signal and "), "{ending}");
        let words = [&["plans", "--rows", "--from", path(ending)], &ALL[..], &[hall.file()]].concat();
        let rest = output(&words);
        assert_eq!(rest.status.code(), Some(0));
        let note = said(&rest.stderr);
        assert!(note.starts_with("finished: "), "{note}");
        assert!(note.ends_with(&format!("; only what comes after {}\n", path(ending))), "{note}");
        assert!([stopped.stdout, rest.stdout].concat() == whole.stdout, "{ending}");
    }
}

/// A part that is stopped leaves what it has, and the same words go on.
#[test]
fn a_part_and_a_signal() {
    let hall = Hall::new("part", "a b c d");
    let file = hall.file().replace(".txt", ".part");
    let words = ["part", "--part", "1/1", "--out", &file, hall.file()];
    let (stopped, lines) = signalled(&words, "-TERM");
    assert_eq!(stopped.status.code(), Some(2));
    let last = lines.last().unwrap();
    assert!(last.starts_with("stopped short: start end, come to "), "{last}");
    let short = output(&["part", "--part", "1/1", "--seconds", "0", "--out", &file, hall.file()]);
    assert_eq!((short.status.code(), said(&short.stderr).trim_end()), (Some(2), last.as_str()));
    let rest = output(&words);
    assert_eq!((rest.status.code(), said(&rest.stderr)), (Some(0), ""));
    let joined = output(&["join", "--rows", hall.file(), &file]);
    let whole = output(&[&["plans", "--rows", "--jobs", "0"], &ALL[..], &[hall.file()]].concat());
    assert!(joined.stdout == whole.stdout);
    assert_eq!(said(&joined.stderr), said(&whole.stderr));
    fs::remove_file(file).unwrap();
}

#[test]
fn seconds() {
    let hall = Hall::new("seconds", "a b c d");
    let none = "stopped after 0 seconds and 0 trials, no plan so far: plans may exist (plans --from start goes on)\n";
    for jobs in ["1", "2"] {
        let stopped = output(&["plans", "--seconds", "0", "--jobs", jobs, hall.file()]);
        assert_eq!((stopped.status.code(), said(&stopped.stdout)), (Some(2), none));
    }
    for (words, start) in [
        (&["enough", "7"][..], "not known: stopped after 0 seconds and 0 trials, no plan so far\n"),
        (&["why"], none),
        (&["best"], "stopped after 0 seconds and 0 trials, no plan so far: plans that cost 0 or more may be missing\n"),
        (&["page"], "<!DOCTYPE html>"),
    ] {
        let stopped = output(&[words, &["--seconds", "0", hall.file()]].concat());
        assert_eq!(stopped.status.code(), Some(2), "{words:?}");
        assert!(said(&stopped.stdout).starts_with(start), "{}", said(&stopped.stdout));
    }
    let one =
        output(&[&["plans", "--seconds", "1", "--csv", "--every", "0"], &ALL[..], &[hall.file()]].concat());
    let said = said(&one.stderr);
    if one.status.code() == Some(2) {
        assert!(said.lines().last().unwrap().starts_with("stopped after 1 second and "), "{said}");
    } else {
        assert!(said.lines().last().unwrap().starts_with("finished: "), "{said}");
    }
}

/// The trials that a line on progress tells of; it has a rate, a share and plans too, where they are counted.
fn trials(line: &str, counts_plans: bool) -> u64 {
    let parts: Vec<&str> = line.split(", ").collect();
    let [trials, rate, share] = [0, 1, 2].map(|part| parts[part].split_once(' ').unwrap());
    assert!(trials.1.starts_with("trial"), "{line}");
    assert_eq!((rate.1, share.1), ("a second", "of the allowance"), "{line}");
    assert!(share.0.ends_with('%'), "{line}");
    let number = |word: &str| word.replace(',', "").parse::<u64>().unwrap();
    number(rate.0);
    match parts[3..] {
        [plans] if counts_plans => assert!(plans.split(' ').nth(1).unwrap().starts_with("plan"), "{line}"),
        [] if !counts_plans => {}
        _ => panic!("{line}"),
    }
    number(trials.0)
}

/// Every step tells of more trials than the one before, and the last of all: none is made twice.
#[test]
fn progress() {
    let hall = Hall::new("progress", "a b c d");
    let limits = ["--trials", "3000000", "--every", "0"];
    for (words, counts_plans) in
        [(&["plans"][..], true), (&["enough", "60001"], true), (&["page"], true), (&["best"], false)]
    {
        let run = output(&[words, &limits[..], &[hall.file()]].concat());
        let lines: Vec<&str> = said(&run.stderr).lines().filter(|line| line.contains(" a second")).collect();
        let trials: Vec<u64> =
            lines.iter().map(|line| trials(line, counts_plans || line.contains("plan"))).collect();
        assert!(trials.len() > 1, "{lines:?}");
        if words != ["best"] {
            assert!(trials.is_sorted(), "{lines:?}");
            assert_eq!(trials.last(), Some(&3_000_000));
        }
    }
    let why = output(&[&["why"], &limits[..], &[hall.file()]].concat());
    assert!(said(&why.stderr).lines().all(|line| trials(line, true) <= 3_000_000));
    let quiet = output(&["plans", "--trials", "3000000", hall.file()]);
    assert_eq!(said(&quiet.stderr), "");
}

/// The same output to the byte on any number of cores.
#[test]
fn cores() {
    let hall = Hall::new("cores", "a b c");
    for limits in
        ["--trials 4294967295 --plans 10000", "--trials 3000000", "--trials 9000000 --plans 1700", "--first"]
    {
        let limits: Vec<&str> = limits.split(' ').collect();
        let run = |jobs: &str| output(&[&["plans", "--jobs", jobs], &limits[..], &[hall.file()]].concat());
        let alone = run("1");
        for jobs in ["2", "3", "0"] {
            let team = run(jobs);
            assert!(team.stdout == alone.stdout, "{limits:?}, {jobs} cores");
            assert_eq!((said(&team.stderr), team.status), (said(&alone.stderr), alone.status));
        }
    }
    for text in ["a", "cycle", "hall", "mixed", "square", "stand"].map(|name| format!("examples/{name}.txt"))
    {
        for options in [
            "--by-window --explain",
            "--json",
            "--trials 5",
            "--plans 2 --csv",
            "--trials 0 --plans 0",
            "--first",
        ] {
            let options: Vec<&str> = options.split(' ').collect();
            let run = |jobs: &str| output(&[&["plans", "--jobs", jobs], &options[..], &[&text]].concat());
            let (alone, team) = (run("1"), run("3"));
            assert_eq!((team.stdout, team.stderr, team.status), (alone.stdout, alone.stderr, alone.status));
        }
    }
}

#[test]
fn faults() {
    for (option, value, said_) in [
        ("--jobs", "x", "--jobs takes a number from 0 to 1024, not `x`\n"),
        ("--jobs", "2000", "--jobs takes a number from 0 to 1024, not `2000`\n"),
        ("--seconds", "-1", "--seconds takes a number from 0 to 4294967295, not `-1`\n"),
        ("--every", "x", "--every takes a number from 0 to 4294967295, not `x`\n"),
        ("--from", "3,4", "--from takes a path as `3.0.12`, not `3,4`\n"),
    ] {
        let refused = output(&["plans", option, value, "examples/a.txt"]);
        assert_eq!(
            (refused.status.code(), said(&refused.stderr), said(&refused.stdout)),
            (Some(1), said_, "")
        );
    }
    let none = output(&["plans", "--from", "end", "examples/a.txt"]);
    let words = "finished: no plan, 0 trials; only what comes after end\n\
                 (a plan that an exchange makes of an earlier one is left out)\n";
    assert_eq!((none.status.code(), said(&none.stdout)), (Some(0), words));
    let rest = output(&["plans", "--from", "0.1", "examples/a.txt"]);
    assert!(
        said(&rest.stdout).contains("finished: 2 plans, 4 trials; only what comes after 0.1\n"),
        "{}",
        said(&rest.stdout)
    );
}
