//! One file of rows from two: what the program writes, and its words and exit status for each refusal.

use sheet::parse::parse;
use std::path::PathBuf;
use std::process::{Command, Output};

use crate::common::enumerated;

/// A folder for a test's files, and the program run in it.
struct Folder(PathBuf);

impl Folder {
    fn new(name: &str) -> Folder {
        let folder = PathBuf::from(env!("CARGO_TARGET_TMPDIR")).join(name);
        std::fs::create_dir_all(&folder).unwrap();
        Folder(folder)
    }

    fn write(&self, name: &str, bytes: &[u8]) {
        std::fs::write(self.0.join(name), bytes).unwrap();
    }

    /// The program with words parted by spaces.
    fn sheet(&self, words: &str) -> Output {
        Command::new(env!("CARGO_BIN_EXE_sheet"))
            .current_dir(&self.0)
            .args(words.split(' '))
            .output()
            .unwrap()
    }

    /// What is said of two files of rows, and of a file of pairs if there is one.
    fn refused(&self, places: &str, lists: [&[u8]; 2], pairs: &[u8]) -> String {
        self.write("dry.rows", lists[0]);
        self.write("wet.rows", lists[1]);
        self.write("hall.pairs", pairs);
        let lent = if pairs.is_empty() { "" } else { " --pairs hall.pairs" };
        let output = self.sheet(&format!("merge {places} dry.rows wet.rows{lent}"));
        assert_eq!((output.status.code(), output.stdout.len()), (Some(1), 0));
        String::from_utf8(output.stderr).unwrap().trim_end().to_string()
    }
}

const DRY: [u8; 6] = [0, 1, 0, 2, 1, 2];
const WET: [u8; 4] = [0, 2, 2, 0];

#[test]
fn merged() {
    let folder = Folder::new("merged");
    folder.write("dry.rows", &DRY);
    folder.write("wet.rows", &WET);
    folder.write("none.rows", &[]);
    let expected: [(&str, &[u8]); 5] = [
        ("dry.rows wet.rows", &[0, 1, 0, 2, 1, 2, 2, 0]),
        ("wet.rows dry.rows", &[0, 1, 0, 2, 1, 2, 2, 0]),
        ("dry.rows dry.rows", &DRY),
        ("none.rows wet.rows", &WET),
        ("none.rows none.rows", &[]),
    ];
    for (files, rows) in expected {
        let output = folder.sheet(&format!("merge 2 {files}"));
        assert_eq!((output.status.code(), &output.stdout[..], output.stderr.len()), (Some(0), rows, 0));
    }
    folder.write("first.rows", &[2, 0, 0, 1]);
    folder.write("second.rows", &[1, 1, 1, 2]);
    folder.write("hall.pairs", &[1, 0]);
    let output = folder.sheet("merge 2 first.rows second.rows --pairs hall.pairs");
    assert_eq!((output.status.code(), &output.stdout[..]), (Some(0), &[2, 0, 0, 1, 1, 1, 1, 2][..]));
}

/// The plans good under at least one of two texts.
#[test]
fn two_rule_books() {
    let folder = Folder::new("books");
    let start = "windows a b c\nduties x y z\ndifferent a b\n";
    let [dry, wet] =
        ["forbid a x, c z\n", "all different a b c\nmay b y z\n"].map(|lines| format!("{start}{lines}"));
    for (name, text) in [("dry", &dry), ("wet", &wet)] {
        folder.write(&format!("{name}.txt"), text.as_bytes());
        let rows = folder.sheet(&format!("plans --rows {name}.txt"));
        folder.write(&format!("{name}.rows"), &rows.stdout);
    }
    let mut either: Vec<Vec<usize>> =
        [dry, wet].iter().flat_map(|text| enumerated(&parse(text).unwrap())).collect();
    either.sort();
    either.dedup();
    let expected: Vec<u8> = either.concat().iter().map(|&duty| duty as u8).collect();
    assert!(expected.len() > 3 * 6);
    assert_eq!(folder.sheet("merge 3 dry.rows wet.rows").stdout, expected);
}

#[test]
fn refusals() {
    let folder = Folder::new("refusals");
    let refused = |places, first, second, pairs| folder.refused(places, [first, second], pairs);
    assert_eq!(refused("0", &DRY, &WET, &[]), "refused 24 0: 0 places, and 1 to 12 are allowed");
    assert_eq!(refused("13", &DRY, &WET, &[]), "refused 24 0: 13 places, and 1 to 12 are allowed");
    assert_eq!(refused("2", &DRY[1..], &WET, &[]), "dry.rows: refused 24 0: 5 bytes aren't whole rows of 2");
    assert_eq!(refused("3", &DRY, &WET, &[]), "wet.rows: refused 24 0: 4 bytes aren't whole rows of 3");
    let fallen = "row 2, 0 1, doesn't come after row 1, 1 0";
    let twice = "row 1, 1 1, doesn't come after row 0, 1 1";
    assert_eq!(
        refused("2", &[0, 0, 1, 0, 0, 1], &[1, 1, 1, 1], &[]),
        format!("dry.rows: refused 25 0: {fallen}")
    );
    assert_eq!(refused("2", &DRY, &[1, 1, 1, 1], &[]), format!("wet.rows: refused 26 0: {twice}"));
    let in_order = "row 1, 1 0, doesn't come after row 0, 0 1, with the places in the order 1 0";
    assert_eq!(refused("2", &[0, 1, 1, 0], &WET, &[1, 0]), format!("dry.rows: refused 25 0: {in_order}"));
    for (pairs, words) in [
        (&[1][..], "refused 28 0: 1 byte, and a pair takes two"),
        (&[2, 0], "refused 29 0: pair 0 has the number 2, and the last is 1"),
        (&[0, 0], "refused 30 0: `0` can't come before itself"),
        (&[0, 1, 1, 0], "refused 30 0: a circle: `1` before `0` in pair 1 and `0` before `1` in pair 0"),
    ] {
        assert_eq!(refused("2", &[1, 0, 0, 0], &WET, pairs), format!("hall.pairs: {words}"));
    }
    assert_eq!(refused("two", &DRY, &WET, &[]), "`two` is no number of places");
}

#[test]
fn words() {
    let folder = Folder::new("words");
    folder.write("dry.rows", &DRY);
    for (words, status, said) in [
        ("merge 2 dry.rows", 1, "sheet merge PLACES FIRST SECOND > ROWS\n"),
        ("merge 2 - -", 1, "standard input can stand for one file only\n"),
        ("merge 2 dry.rows dry.rows --pairs", 1, "--pairs takes a file\n"),
        ("merge 2 dry.rows none.rows", 3, "none.rows: No such file or directory (os error 2)\n"),
        ("merge 2 dry.rows dry.rows --pairs none", 3, "none: No such file or directory (os error 2)\n"),
    ] {
        let output = folder.sheet(words);
        assert_eq!(
            (output.status.code(), std::str::from_utf8(&output.stderr).unwrap()),
            (Some(status), said)
        );
        assert!(output.stdout.is_empty());
    }
}
