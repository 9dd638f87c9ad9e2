//! A run in parts by the program: cut, run, joined, with parts missing, stopped, damaged or of another hall.

use planner::{Ending, HEAD_BYTES};
use sheet::cut::cut;
use sheet::make;
use sheet::make::Made;
use sheet::result::Part;
use sheet::Problem;
use sheets::{alike_problem, encode, large_problem, problem, right_pairs, Rng};
use std::fs;
use std::path::{Path, PathBuf};
use std::process::{Command, Output};

const TEXTS: [&str; 9] = [
    "examples/a.txt",
    "examples/cycle.txt",
    "examples/hall.txt",
    "examples/mixed.txt",
    "examples/square.txt",
    "examples/stand.txt",
    "tools/sheet/tests/golden/alike.txt",
    "tools/sheet/tests/golden/broken.txt",
    "tools/sheet/tests/golden/order.txt",
];

use crate::program::{root, said, sheet};
use crate::schema::{field, members, parse, Schema};

fn is_silent(output: Output) {
    assert_eq!(said(&output.stderr), "");
    assert_eq!(said(&output.stdout), "");
    assert_eq!(output.status.code(), Some(0));
}

/// Refused: the status, a word of the message, and nothing on standard output.
fn is_refused(output: Output, status: i32, word: &str) {
    assert!(said(&output.stderr).contains(word), "{}", said(&output.stderr));
    assert_eq!(said(&output.stdout), "");
    assert_eq!(output.status.code(), Some(status));
}

/// A folder of its own for a test.
struct Folder(PathBuf);

impl Folder {
    fn new(name: &str) -> Folder {
        let folder = std::env::temp_dir().join(format!("sheet-parts-{}-{name}", std::process::id()));
        let _ = fs::remove_dir_all(&folder);
        fs::create_dir(&folder).unwrap();
        Folder(folder)
    }

    fn file(&self, name: impl AsRef<Path>) -> String {
        self.0.join(name).to_str().unwrap().to_string()
    }

    /// Runs all of so many parts.
    fn run(&self, text: &str, parts: usize) -> Vec<String> {
        let run = |part: usize| {
            let (file, part) = (self.file(format!("{part}.part")), format!("{part}/{parts}"));
            is_silent(sheet(&["part", "--part", &part, "--out", &file, text]));
            file
        };
        (1..=parts).map(run).collect()
    }

    /// What there is, sorted.
    fn files(&self) -> Vec<String> {
        let names = fs::read_dir(&self.0).unwrap().map(|entry| entry.unwrap().file_name());
        let mut names: Vec<String> = names.map(|name| name.to_str().unwrap().to_string()).collect();
        names.sort();
        names
    }
}

impl Drop for Folder {
    fn drop(&mut self) {
        let _ = fs::remove_dir_all(&self.0);
    }
}

fn join(text: &str, files: &[String]) -> Output {
    let mut words = vec!["join", text];
    words.extend(files.iter().map(String::as_str));
    sheet(&words)
}

/// The parts join to what one run lists.
fn is_whole(text: &str, files: &[String]) {
    let (joined, alone) = (join(text, files), sheet(&["plans", text]));
    assert_eq!(said(&joined.stderr), said(&alone.stderr));
    assert_eq!(said(&joined.stdout), said(&alone.stdout));
    assert_eq!(joined.status.code(), alone.status.code());
}

#[test]
fn every_number_of_parts() {
    let mut rng = Rng::new(35);
    for (number, text) in TEXTS.iter().enumerate() {
        for parts in (1..=40).filter(|parts| parts % TEXTS.len() == number || *parts < 4) {
            let folder = Folder::new(&format!("every-{number}-{parts}"));
            let mut files = folder.run(text, parts);
            is_whole(text, &files);
            let twice = rng.below(parts);
            files.push(files[twice].clone());
            for at in (1..files.len()).rev() {
                files.swap(at, rng.below(at + 1));
            }
            is_whole(text, &files);
        }
    }
}

/// The lines of `split` are the ranges of the parts; they join, and each is run by itself.
#[test]
fn ranges() {
    for text in TEXTS {
        let split = sheet(&["split", "5", text]);
        assert_eq!(split.status.code(), Some(0));
        let lines: Vec<&str> = said(&split.stdout).lines().collect();
        let bounds: Vec<Vec<&str>> = lines.iter().map(|line| line.split(' ').collect()).collect();
        assert_eq!(bounds.len(), 5);
        assert_eq!((bounds[0][0], bounds[4][1]), ("start", "end"));
        assert!(bounds.windows(2).all(|two| two[0][1] == two[1][0]));
        let folder = Folder::new(&format!("ranges-{}", text.replace('/', "-")));
        let files = folder.run(text, 5);
        for ([from, upto], file) in bounds.iter().map(|line| [line[0], line[1]]).zip(&files) {
            let other = folder.file("other");
            is_silent(sheet(&["part", "--range", from, upto, "--out", &other, text]));
            assert_eq!(fs::read(&other).unwrap(), fs::read(file).unwrap());
            fs::remove_file(other).unwrap();
        }
        assert_eq!(split.stdout, sheet(&["split", "5", text]).stdout);
    }
}

/// Parts of a larger tree are about the same.
#[test]
fn even_parts() {
    let text =
        "windows a b c d e f g\nduties 0 1 2 3 4 5 6 7\nall different a b c d e f g\nexchange windows a b\n";
    let made = make(text).unwrap();
    let mut room = vec![0; 7 << 20];
    let mut run = |from: &[u8], upto: &[u8]| {
        planner::run_part(&made.sheet, &[], &[], from, upto, u32::MAX, &mut room).unwrap().answer().nodes
    };
    let whole = run(planner::START, planner::END);
    for parts in [2, 8, 30] {
        let trials: Vec<u32> = cut(&made, parts).iter().map(|[from, upto]| run(from, upto)).collect();
        assert_eq!(trials.iter().sum::<u32>(), whole);
        let most = *trials.iter().max().unwrap() as usize;
        assert!(most * parts < 2 * whole as usize, "{parts} parts: {trials:?} of {whole}");
    }
}

/// Cuts of any hall go on from each other, and the parts have the run's trials and plans, in its order.
#[test]
fn cuts_of_random_halls() {
    let mut rng = Rng::new(355);
    for number in 0..400 {
        let (problem, block) = match number % 4 {
            0 => (large_problem(&mut rng), Vec::new()),
            1 => (problem(&mut rng), Vec::new()),
            _ => {
                let (problem, block) = alike_problem(&mut rng);
                (problem, block.to_vec())
            }
        };
        let sheet = encode(&problem);
        let problem = Problem::decode(&sheet);
        let pairs = if number % 3 == 0 { right_pairs(&mut rng, problem.variables.len()) } else { Vec::new() };
        let made = Made { problem, sheet, pairs, block };
        is_cut(&made, 1 + rng.below(40));
    }
}

fn is_cut(made: &Made, parts: usize) {
    let windows = made.problem.variables.len();
    let mut room = vec![0; windows * 20_000];
    let mut run = |from: &[u8], upto: &[u8]| {
        let Made { sheet, pairs, block, .. } = made;
        let answer = planner::run_part(sheet, pairs, block, from, upto, 20_000, &mut room).unwrap().answer();
        (answer, room[..windows * answer.plans as usize].to_vec())
    };
    let (whole, rows) = run(planner::START, planner::END);
    if whole.ending != Ending::Finished {
        return;
    }
    let ranges = cut(made, parts);
    assert_eq!(
        (ranges.len(), &ranges[0][0][..], &ranges[parts - 1][1][..]),
        (parts, planner::START, planner::END)
    );
    assert!(ranges.windows(2).all(|two| two[0][1] == two[1][0]));
    let found: Vec<_> = ranges.iter().map(|[from, upto]| run(from, upto)).collect();
    assert_eq!(found.iter().map(|(answer, _)| answer.nodes).sum::<u32>(), whole.nodes);
    assert!(found.into_iter().flat_map(|(_, rows)| rows).eq(rows));
}

/// What is missing is said as words that run it.
#[test]
fn missing_parts() {
    let text = "examples/stand.txt";
    let folder = Folder::new("missing");
    let mut files = folder.run(text, 9);
    for part in [8, 5, 4, 0] {
        fs::remove_file(files.remove(part)).unwrap();
    }
    let short = join(text, &files);
    assert_eq!((short.status.code(), said(&short.stdout)), (Some(2), ""));
    let lines = said(&short.stderr);
    assert_eq!(lines.lines().count(), 3, "{lines}");
    assert!(lines.lines().all(|line| line.contains(" part --range ")), "{lines}");
    let shell = Command::new("sh").current_dir(root()).args(["-c", lines]).output().unwrap();
    is_silent(shell);
    files = folder.files().iter().map(|name| folder.file(name)).collect();
    assert_eq!(files.len(), 8);
    is_whole(text, &files);
}

/// The same for machines, by the schema.
#[test]
fn missing_parts_as_json() {
    let text = "examples/stand.txt";
    let folder = Folder::new("json");
    let mut files = folder.run(text, 4);
    files.remove(2);
    fs::write(&files[0], "cut short").unwrap();
    let names: Vec<&str> = files.iter().map(String::as_str).collect();
    let short = sheet(&[&["join", "--json", text], &names[..]].concat());
    assert_eq!(short.status.code(), Some(2));
    assert_eq!(said(&short.stderr).lines().count(), 3);
    let answer = parse(said(&short.stdout)).unwrap();
    let schema = fs::read_to_string(root().join("docs/schema/sheet.json")).unwrap();
    let schema = Schema(parse(&schema).unwrap());
    assert_eq!((schema.wrong("missing", &answer), schema.wrong_in_all(&answer)), (None, None));
    assert_eq!(members(field(&answer, "missing").unwrap()).len(), 2);
}

/// Options that change the hall stand in the words too, in quotes where a shell needs them.
#[test]
fn missing_parts_with_options() {
    let folder = Folder::new("options");
    let text = folder.file("hall of o'hara.txt");
    fs::write(&text, "windows \"a b\" c d\nduties x \"y z\" w\nexchange windows c d\n").unwrap();
    let [first, last] = ["1.part", "2.part"].map(|name| folder.file(name));
    let fix = ["--fix", "a b=y z"];
    is_silent(sheet(&["part", "--range", "1.1", "1.2", "--out", &first, fix[0], fix[1], &text]));
    let short = sheet(&["join", fix[0], fix[1], &text, &first]);
    let lines = said(&short.stderr).to_string();
    assert_eq!((short.status.code(), lines.lines().count()), (Some(2), 2), "{lines}");
    is_silent(Command::new("sh").args(["-c", &lines]).output().unwrap());
    let files: Vec<String> =
        folder.files().iter().filter(|name| name.ends_with(".part")).map(|name| folder.file(name)).collect();
    let mut words = vec!["join", fix[0], fix[1], &text];
    words.extend(files.iter().map(String::as_str));
    assert_eq!(sheet(&words).stdout, sheet(&["plans", fix[0], fix[1], &text]).stdout);
    is_refused(join(&text, &files), 1, "is a part of another hall");
    is_silent(sheet(&["part", "--part", "1/1", "--out", &last, &text]));
    is_whole(&text, &[last]);
}

/// A part stopped by its allowance is a part of a smaller range; the same words go on, and another range fills the gap too.
#[test]
fn stopped_parts() {
    let text = "examples/stand.txt";
    let folder = Folder::new("stopped");
    let file = folder.file("1.part");
    let words = ["part", "--part", "1/1", "--out", &file, "--trials", "100", text];
    let short = sheet(&words);
    assert_eq!((short.status.code(), said(&short.stdout)), (Some(2), ""));
    assert!(said(&short.stderr).starts_with("stopped short: start end, come to "), "{}", said(&short.stderr));
    let missing = join(text, &[file.clone()]);
    assert_eq!((missing.status.code(), said(&missing.stderr).lines().count()), (Some(2), 1));
    is_silent(Command::new("sh").current_dir(root()).args(["-c", said(&missing.stderr)]).output().unwrap());
    let gap = folder.files().into_iter().find(|name| name != "1.part").unwrap();
    is_whole(text, &[folder.file(gap), file.clone()]);
    assert_eq!(sheet(&words).status.code(), Some(2));
    is_silent(sheet(&words));
    is_whole(text, &[file.clone()]);
    let whole = fs::read(&file).unwrap();
    fs::remove_file(&file).unwrap();
    is_silent(sheet(&["part", "--part", "1/1", "--out", &file, text]));
    assert_eq!(fs::read(&file).unwrap(), whole);
}

/// A finished result is done at once, whatever the limits; nothing is written.
#[test]
fn done_at_once() {
    let text = "examples/stand.txt";
    let folder = Folder::new("done");
    let file = folder.run(text, 3).remove(1);
    let before = fs::metadata(&file).unwrap().modified().unwrap();
    is_silent(sheet(&["part", "--part", "2/3", "--out", &file, "--trials", "0", text]));
    assert_eq!(fs::metadata(&file).unwrap().modified().unwrap(), before);
    assert_eq!(folder.files(), ["1.part", "2.part", "3.part"]);
}

/// No byte of a result can be another, and no byte can lack: such a file is left out, and what it held is missing.
#[test]
fn damaged_results() {
    let text = "examples/stand.txt";
    let folder = Folder::new("damaged");
    let files = folder.run(text, 2);
    let bytes = fs::read(&files[1]).unwrap();
    for at in 0..bytes.len() {
        let mut other = bytes.clone();
        other[at] ^= 1 << (at % 8);
        assert_eq!(Part::read(&other), None, "byte {at}");
        assert_eq!(Part::read(&bytes[..at]), None, "cut at {at}");
    }
    assert_eq!(Part::read(&[&bytes[..], b"x"].concat()), None);
    for half in [&bytes[..bytes.len() / 2], &bytes[..20], &[]] {
        fs::write(&files[1], half).unwrap();
        let short = join(text, &files);
        assert_eq!((short.status.code(), said(&short.stdout)), (Some(2), ""));
        let said = said(&short.stderr);
        assert!(said.starts_with(&format!("# {}: damaged", files[1])), "{said}");
        assert_eq!(said.lines().count(), 2);
        is_silent(sheet(&["part", "--part", "2/2", "--out", &files[1], text]));
        assert_eq!(fs::read(&files[1]).unwrap(), bytes);
    }
    fs::write(&files[0], "nothing").unwrap();
    fs::write(&files[1], "nothing").unwrap();
    let none = join(text, &files);
    assert_eq!(none.status.code(), Some(2));
    assert!(said(&none.stderr).lines().last().unwrap().contains(" part --range start end "));
}

/// Heads that are whole in themselves but don't fit their list, or are full, are no result.
#[test]
fn results_that_lie() {
    let text = "examples/stand.txt";
    let folder = Folder::new("lie");
    let file = folder.run(text, 1).remove(0);
    let part = Part::read(&fs::read(&file).unwrap()).unwrap();
    assert_eq!(part.heads.len(), 1);
    let mut fewer = part.clone();
    fewer.rows.truncate(8);
    assert_eq!(Part::read(&fewer.bytes()), None);
    let mut bytes: [u8; HEAD_BYTES] = *part.heads[0].bytes();
    bytes[0] = 3;
    let mut full = part.clone();
    full.heads[0] = planner::Head::from_bytes(bytes);
    assert_eq!(full.heads[0].answer().ending, Ending::Full);
    assert_eq!(Part::read(&full.bytes()), None);
    let mut gap = part.clone();
    gap.heads.push(gap.heads[0]);
    assert_eq!(Part::read(&gap.bytes()), None);
}

#[test]
fn another_hall() {
    let folder = Folder::new("other");
    let [one, other, ordered] = ["one.txt", "other.txt", "ordered.txt"].map(|name| folder.file(name));
    fs::write(&one, "windows a b\nduties x y\n").unwrap();
    fs::write(&other, "windows a b\nduties x y\ndifferent a b\n").unwrap();
    fs::write(&ordered, "windows a b\nduties x y\nbefore b a\n").unwrap();
    let file = folder.file("1.part");
    is_silent(sheet(&["part", "--part", "1/1", "--out", &file, &one]));
    for text in [&other, &ordered] {
        is_refused(join(text, &[file.clone()]), 1, "1.part is a part of another hall");
        let words = ["part", "--part", "1/1", "--out", &file, text];
        is_refused(sheet(&words), 1, "1.part is a part of another hall");
    }
    is_refused(
        sheet(&["part", "--part", "1/2", "--out", &file, &one]),
        1,
        "1.part is another part: start end: 4 plans",
    );
    is_refused(
        sheet(&["part", "--part", "1/1", "--out", &one, &other]),
        1,
        "one.txt is something else than a part",
    );
    is_whole(&one, &[file]);
}

#[test]
fn faults() {
    let text = "examples/a.txt";
    let folder = Folder::new("faults");
    let file = folder.file("1.part");
    for part in ["0/3", "4/3", "1/0", "0/0", "1", "1/", "/1", "x/2", "1/100001", "-1/2", ""] {
        is_refused(sheet(&["part", "--part", part, "--out", &file, text]), 1, "--part takes K/N");
    }
    for [from, upto] in [["1", "0"], ["end", "start"], ["0.1", "0.0.2"], ["0.1", "0"]] {
        is_refused(sheet(&["part", "--range", from, upto, "--out", &file, text]), 1, " comes after ");
    }
    for [from, upto] in [["", "end"], ["start", "3.x"], ["start", "999"], ["-", "end"]] {
        is_refused(sheet(&["part", "--range", from, upto, "--out", &file, text]), 1, "--range takes two of");
    }
    is_refused(sheet(&["part", "--range", "start"]), 1, "--range takes FROM UPTO");
    is_refused(sheet(&["part", "--out", &file, text]), 1, "one of --part K/N and --range FROM UPTO");
    let both = ["part", "--part", "1/1", "--range", "start", "end", "--out", &file, text];
    is_refused(sheet(&both), 1, "one of --part K/N and --range FROM UPTO");
    is_refused(sheet(&["part", "--part", "1/1", text]), 1, "--out FILE");
    is_refused(sheet(&["part", "--part", "1/1", "--out", "-", text]), 1, "--out FILE");
    is_refused(sheet(&["part", "--part", "1/1", "--out", "/dev/null", text]), 1, "no file to be written");
    is_refused(
        sheet(&["part", "--part", "1/1", "--out", &folder.file("none/1.part"), text]),
        3,
        "none/1.part",
    );
    is_refused(sheet(&["part", "--part", "1/1", "--out", &file, "examples/none.txt"]), 3, "none.txt");
    for parts in ["0", "x", "100001", "-1"] {
        is_refused(sheet(&["split", parts, text]), 1, "");
    }
    is_refused(sheet(&["join", text, &folder.file("none.part")]), 3, "none.part");
    is_refused(sheet(&["join", text]), 1, "sheet join TEXT FILE ..");
    assert!(folder.files().is_empty());
    is_silent(sheet(&["part", "--range", "0.1", "0.1", "--out", &file, text]));
}

/// Where a result can't be written whole there is none: neither on a full disk nor where the job is killed.
#[test]
fn no_half_result() {
    let text = "examples/stand.txt";
    let folder = Folder::new("half");
    let file = folder.file("1.part");
    let part = |before: &str| {
        let words =
            format!("{before} '{}' part --part 1/1 --out '{file}' {text}", env!("CARGO_BIN_EXE_sheet"));
        Command::new("sh").current_dir(root()).args(["-c", &words]).output().unwrap()
    };
    // a file of at most 512 bytes: writing more fails, or kills the program where that isn't ignored
    let full = part("trap '' XFSZ; ulimit -f 1;");
    is_refused(full, 3, "1.part");
    assert!(folder.files().is_empty(), "{:?}", folder.files());
    let killed = part("ulimit -c 0; ulimit -f 1; exec");
    assert_eq!(killed.status.code(), None);
    assert!(!folder.files().contains(&"1.part".to_string()));
    is_silent(part(""));
    is_whole(text, &[file]);
}

/// Every form of the plans.
#[test]
fn forms() {
    let text = "examples/stand.txt";
    let folder = Folder::new("forms");
    let files = folder.run(text, 4);
    for options in
        ["--csv", "--bom", "--json", "--rows", "--free", "--by-window", "--explain", "--where win1=cid"]
    {
        let options: Vec<&str> = options.split(' ').collect();
        let alone = sheet(&[&["plans"], &options[..], &[text]].concat());
        let names: Vec<&str> = files.iter().map(String::as_str).collect();
        let joined = sheet(&[&["join"], &options[..], &[text], &names[..]].concat());
        let as_plans = String::from_utf8(joined.stdout)
            .unwrap()
            .replace("\"command\": \"join\"", "\"command\": \"plans\"");
        assert!(as_plans.as_bytes() == alone.stdout, "{options:?}");
        assert_eq!(joined.stderr, alone.stderr, "{options:?}");
        assert_eq!(joined.status, alone.status);
    }
}
