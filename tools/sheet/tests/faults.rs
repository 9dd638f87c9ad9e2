//! Every message about a text, with its line.

use sheet::make;

const START: &str = "# two windows\nwindows a b c\nduties x y z\n";

/// The faults of a text, as they are printed after the file's name.
fn all(text: &str) -> Vec<String> {
    let faults = make(text).map(|made| made.problem).expect_err("a text with a fault");
    faults.iter().map(|fault| format!("{}: {}", fault.line, fault.text)).collect()
}

/// The only fault of a text.
fn whole(text: &str) -> String {
    let faults = all(text);
    assert_eq!(faults.len(), 1, "{faults:?}");
    faults[0].clone()
}

/// The fault of lines after the names of three windows and three duties, the first of them line 4.
fn after(lines: &str) -> String {
    whole(&format!("{START}{lines}"))
}

#[test]
fn names() {
    assert_eq!(
        whole("\u{feff}windows a\n"),
        "1: the text starts with a byte order mark (BOM); save it as UTF-8 without one"
    );
    assert_eq!(whole("windows: a b\n"), "1: write `windows` without the colon");
    assert_eq!(whole("Windows a b\n"), "1: write `windows` in small letters");
    assert_eq!(whole("window a b\n"), "1: `window` starts no line; did you mean `windows`?");
    assert_eq!(whole("\nduties x"), "2: `windows` stands first and once, then `duties` once");
    assert_eq!(whole("windows a\nwindows b"), "2: `windows` stands first and once, then `duties` once");
    assert_eq!(whole("windows a\nmay a x"), "2: `windows` and `duties` come first");
    assert_eq!(whole(""), "1: the text ends before it has named its windows and duties");
    assert_eq!(whole("windows\n"), "1: `windows` takes at least one name");
    assert_eq!(whole("windows a a"), "1: the name `a` stands twice");
    assert_eq!(
        whole("windows a.b"),
        "1: `a.b` can't be a name but in quotes: a point parts a window from a duty"
    );
    assert_eq!(whole("windows a, b"), "1: names of windows are parted by spaces, not by commas");
    assert_eq!(whole("windows duties"), "1: `duties` can't be a name, but in quotes");
    assert_eq!(whole("windows a\u{7}b"), "1: a word has a character that can't be printed");
    let windows: Vec<String> = (1..=13).map(|i| format!("w{i}")).collect();
    assert_eq!(
        whole(&format!("\nwindows {}\nduties x", windows.join(" "))),
        "2: 13 windows, and at most 12 are allowed"
    );
    let duties: Vec<String> = (1..=17).map(|i| format!("d{i}")).collect();
    assert_eq!(
        whole(&format!("windows a\nduties {}", duties.join(" "))),
        "2: 17 duties, and at most 16 are allowed"
    );
}

#[test]
fn words() {
    assert_eq!(after("may a x#1"), "4: `#` inside the word `x#1`; a comment starts after a space");
    assert_eq!(after("may a w"), "4: no duty is called `w`");
    assert_eq!(after("may a x,"), "4: a comma stands where a duty should");
    assert!(
        after("xyzzy a").starts_with("4: `xyzzy` starts no line; the words that do are windows, duties, may")
    );
    let near = whole("windows cash pay\nduties ann ben\nmay cahs ann");
    assert_eq!(near, "3: no window is called `cahs`");
    let near = whole("windows cashier pay\nduties ann ben\nmay casheir ann");
    assert_eq!(near, "3: no window is called `casheir`; did you mean `cashier`?");
}

#[test]
fn sets() {
    assert_eq!(after("may"), "4: `may` takes a window and its duties");
    assert_eq!(after("may a x\nmay b x\nmay a y"), "6: a second `may` for `a`; the first stands in line 4");
    assert_eq!(after("may b\nexchange nothing"), "4: `b` may have no duty (refused 8 1)");
}

#[test]
fn rules() {
    assert_eq!(after("different a d"), "4: no window is called `d`");
    assert_eq!(after("different a"), "4: `different` takes two windows; of more say `all different`");
    assert_eq!(after("different a a"), "4: `a` stands twice");
    assert_eq!(after("all different a \"a\" b"), "4: `a` stands twice");
    assert_eq!(after("all different a"), "4: `all different` takes two or more windows");
    assert_eq!(after("all a b"), "4: write `all different WINDOW ..`");
    assert_eq!(after("\nrule a b\nrows x w"), "6: no duty is called `w`");
    assert_eq!(after("rule a b\nrows x y, x y"), "5: a row stands twice");
    assert_eq!(after("rule a b\nrows x y,"), "5: an empty row: a comma stands at an end, or two together");
    assert_eq!(after("rule a b\nrows x y z"), "5: a row of 3 duties for 2 windows");
    assert_eq!(after("rows x y"), "4: `rows` follows a `rule`");
    assert_eq!(after("rule a b\ndifferent a b\nrows x y"), "6: `rows` follows a `rule`");
    assert_eq!(after("rule"), "4: a rule has 1 to 3 windows, not 0");
    let rows = "4: `forbid` takes rows parted by commas, each WINDOW DUTY for one to three windows";
    assert_eq!(after("forbid a"), rows);
    assert_eq!(after("forbid a x,"), rows);
    assert_eq!(after("forbid a x b w"), "4: no duty is called `w`");
    assert_eq!(after("forbid a x a y"), "4: `a` stands twice");
    let never = "4: write `never together WINDOW DUTY WINDOW DUTY`";
    assert_eq!(after("never a x b y"), never);
    assert_eq!(after("never together a x"), never);
    assert_eq!(after("at a x"), "4: write `at least` or `at most`, a number, a duty and windows");
    assert_eq!(after("exactly one x a"), "4: `one` is no number; write a number, a duty and windows");
    assert_eq!(after("exactly 1"), "4: a number, a duty and windows are wanted");
    assert_eq!(after("at least 1 x"), "4: a number, a duty and windows are wanted");
}

#[test]
fn exchanges() {
    assert_eq!(
        after("may a x\nmay b y\nexchange windows a b"),
        "6: `a.x` goes to `b.x`, but `b` may not have `x`"
    );
    assert_eq!(
        after("may a y z\nexchange pairs a.x a.y"),
        "5: `a.x` goes to `a.y`, but `a` may not have `x`"
    );
    assert_eq!(after("exchange pairs ax a.y"), "4: `ax` is no pair; write WINDOW.DUTY");
    assert_eq!(after("exchange windows a"), "4: a circle has two or more members");
    assert_eq!(after("exchange windows a b, b c"), "4: a name stands twice in an exchange");
    let takes = "4: `exchange` takes `windows`, `duties`, `pairs`, `table` or `nothing`";
    assert_eq!(after("exchange a b"), takes);
    assert_eq!(after("exchange table 0 1"), "4: a table has 9 numbers here, not 2");
    assert_eq!(after("exchange table 0 1 2 3 4 5 6 7 x"), "4: a table holds numbers from 0 to 65535");
    assert_eq!(
        after("exchange table 0 0 2 3 4 5 6 7 8"),
        "4: a.y goes to a.x, and so does a.x (refused 15 0)"
    );
    assert_eq!(
        after("different a b\nexchange pairs a.x a.y\nexchange nothing"),
        "5: it doesn't respect the sheet: a.x b.x is forbidden, and its image a.y b.x is not (refused 16 0)"
    );
    let many = "exchange nothing\n".repeat(17);
    assert_eq!(after(&many), "20: 17 exchanges, and at most 16 are allowed (refused 5 0)");
    let many = "exchange nothing\n".repeat(700) + "different a b\n";
    assert_eq!(
        whole(&format!("{LARGE}{many}")),
        "19: 700 exchanges, and at most 16 are allowed (refused 5 0)"
    );
}

#[test]
fn pairs() {
    let takes = "4: write `before WINDOW WINDOW`: the first is settled before the second";
    assert_eq!(after("before a"), takes);
    assert_eq!(after("before a b c"), takes);
    assert_eq!(after("before a, b"), takes);
    assert_eq!(after("before a till"), "4: no window is called `till`");
    assert_eq!(after("before b b"), "4: `b` can't come before itself (refused 30 0)");
    assert_eq!(
        all(&format!("{START}before a b\n\n# round\nbefore b a\nbefore c c")),
        [
            "7: a circle: `b` before `a` in line 7 and `a` before `b` in line 4 (refused 30 0)",
            "8: `c` can't come before itself (refused 30 0)"
        ]
    );
    assert_eq!(
        after("before a b\nbefore a c\nbefore b c\nbefore a b\nbefore c a"),
        "8: a circle: `c` before `a` in line 8 and `a` before `c` in line 5 (refused 30 0)"
    );
    assert_eq!(
        after("before c a\nbefore a b\nbefore b c"),
        "6: a circle: `b` before `c` in line 6, `c` before `a` in line 4 and `a` before `b` in line 5 (refused 30 0)"
    );
    let windows: Vec<String> = (0..12).map(|window| format!("w{window}")).collect();
    let round = |window: usize| [windows[window].clone(), windows[(window + 1) % 12].clone()];
    let lines: String =
        (0..12).map(round).map(|[first, second]| format!("before {first} {second}\n")).collect();
    let steps: Vec<String> = (0..12)
        .map(|step| ((step + 11) % 12, round((step + 11) % 12)))
        .map(|(window, [first, second])| format!("`{first}` before `{second}` in line {}", window + 3))
        .collect();
    assert_eq!(
        whole(&format!("windows {}\nduties x\n{lines}", windows.join(" "))),
        format!("14: a circle: {} and {} (refused 30 0)", steps[..11].join(", "), steps[11])
    );
    let many = "before a b\n".repeat(65);
    assert_eq!(after(&many), "68: 65 pairs, and at most 64 are allowed (refused 28 0)");
    assert_eq!(
        after(&format!("before b b\n{many}")),
        "68: 66 pairs, and at most 64 are allowed (refused 28 0)"
    );
    assert_eq!(
        all(&format!("{START}before b b\nmay c")),
        ["4: `b` can't come before itself (refused 30 0)", "5: `c` may have no duty (refused 8 2)"]
    );
}

#[test]
fn alike() {
    assert_eq!(after("alike a"), "4: `alike` takes 2 to 5 windows, not 1");
    assert_eq!(after("alike a a"), "4: `a` stands twice");
    assert_eq!(after("alike a till"), "4: no window is called `till`");
    assert_eq!(
        after("alike c a"),
        "4: alike windows stand side by side in the line `windows`, and `b` stands between `a` and `c`"
    );
    assert_eq!(after("alike a b\nalike b c"), "5: a second `alike`; the first stands in line 4");
    assert_eq!(
        whole("windows a b c d e f\nduties x\nalike a b c d e f"),
        "3: `alike` takes 2 to 5 windows, not 6"
    );
    assert_eq!(
        after("may a x y\nalike a b c"),
        "5: `a` and `b` aren't alike: `b` may have `z`, and `a` may not (refused 15 2)"
    );
    assert_eq!(
        after("different a b\nalike a b c"),
        "5: `b` and `c` aren't alike: line 4 forbids a.x b.x, and no rule forbids a.x c.x (refused 16 1)"
    );
    assert_eq!(
        after("exchange duties x y\nalike b c\nforbid b x c y, b y c x\nforbid c z"),
        "5: `b` and `c` aren't alike: line 7 forbids c.z, and no rule forbids b.z (refused 16 2)"
    );
    assert_eq!(
        all(&format!("{START}may a x\nalike a b\nbefore c c")),
        [
            "5: `a` and `b` aren't alike: `b` may have `y`, and `a` may not (refused 15 1)",
            "6: `c` can't come before itself (refused 30 0)"
        ]
    );
}

/// Sixteen duties, three windows, and a rule that allows all rows but one.
const LARGE: &str = "windows a b c d\nduties 0 1 2 3 4 5 6 7 8 9 10 11 12 13 14 15\n";

#[test]
fn too_long() {
    let duties: Vec<String> = (0..16).map(|duty| duty.to_string()).collect();
    let mut rule = "rule a b c\n".to_string();
    for first in &duties[..2] {
        for second in &duties {
            let rows: Vec<String> = duties.iter().map(|third| format!("{first} {second} {third}")).collect();
            rule += &format!("rows {}\n", rows.join(", "));
        }
    }
    assert_eq!(whole(&format!("{LARGE}{rule}")), "3: 512 rows, and at most 256 are allowed (refused 10 0)");
    assert_eq!(
        whole(&format!("{LARGE}\nforbid a 0 b 0 c 0")),
        "4: 4095 rows, and at most 256 are allowed; fewer duties by `may` lines make fewer rows (refused 10 0)"
    );
    assert_eq!(
        all(&format!("{LARGE}forbid a 0 b 0 c 0\nforbid a 0 b 0 d 0\nat most 1 3 a c d\ndifferent a b")),
        [
            "3: 4095 rows, and at most 256 are allowed; fewer duties by `may` lines make fewer rows (refused 10 0)",
            "4: 4095 rows, and at most 256 are allowed; fewer duties by `may` lines make fewer rows (refused 10 0)",
            "5: too long: with this rule of 4050 rows the sheet passes 65535 bytes; a rule has at most 256 rows"
        ]
    );
}

/// Every fault of a text at once, several of one line too; what follows from another fault isn't told.
#[test]
fn all_at_once() {
    let text = "Windows a b c\nduties: x y z\nmay x a\nnonsense\nMay b x w v\nexactly 3 x a b\nrule a d\n  rows x y\n\
                fix a w\nprefer a x 0\nforbid a x, b\nexchange windows a e, b f\nnear\n";
    assert_eq!(
        all(text),
        [
            "1: write `windows` in small letters",
            "2: write `duties` without the colon",
            "3: no window is called `x`: it is a duty, and a window is due here",
            "3: no duty is called `a`: it is a window, and a duty is due here",
            "4: `nonsense` starts no line; the words that do are windows, duties, may, clerk, away, fix, rule, rows, \
             different, all different, forbid, never together, exactly, at least, at most, exchange, before, alike, \
             prefer, avoid, near",
            "5: write `may` in small letters",
            "5: no duty is called `w`",
            "5: no duty is called `v`",
            "6: `exactly 3` of 2 windows: more than there are",
            "7: no window is called `d`",
            "9: no duty is called `w`",
            "10: a weight is a number from 1 to 1000, not `0`",
            "11: `forbid` takes rows parted by commas, each WINDOW DUTY for one to three windows",
            "12: no window is called `e`",
            "13: write `near FILE`: a CSV file with a plan, and a weight if it isn't 1"
        ]
    );
    let text =
        "windows a b\nduties x y\nmay a x\nexchange windows a b\nexchange duties x y\nexchange nothing\n";
    assert_eq!(
        all(text),
        [
            "4: `b.y` goes to `a.y`, but `a` may not have `y`",
            "5: `a.x` goes to `a.y`, but `a` may not have `y`"
        ]
    );
}

/// A flood of faults ends.
#[test]
fn many_faults() {
    let lines = all(&format!("{START}{}", "nonsense\n".repeat(1_000)));
    assert_eq!((lines.len(), lines[100].as_str()), (101, "104: the faults from here on aren't told"));
    let words: Vec<String> = (0..200_000).map(|i| format!("n{i}")).collect();
    assert_eq!(all(&format!("{START}all different {}", words.join(" "))).len(), 101);
    let names = format!("windows {}\nduties x", words.join(" "));
    assert_eq!(all(&names), ["1: 200000 windows, and at most 12 are allowed"]);
}

#[test]
fn names_of_two_words() {
    let made = make("windows \"win, 1\" pay\nduties \"Anna S.\" Bob \"duties\" \"a \"\"b\"\"\"\nmay pay \"Anna S.\" Bob\n\
                     forbid \"win, 1\" \"duties\"\nexchange pairs pay.\"Anna S.\" pay.Bob\nalike \"win, 1\" pay\n");
    let faults = made.map(|made| made.problem).expect_err("windows that aren't alike");
    assert!(faults[0].text.starts_with("`win, 1` and `pay` aren't alike"), "{faults:?}");
    let made = make("windows w\nduties \"Anna S.\" Bob\nexchange pairs w.\"Anna S.\" w.Bob\n").unwrap();
    assert_eq!(made.problem.values, ["Anna S.", "Bob"]);
    assert_eq!(made.problem.pair_name(0), "w.\"Anna S.\"");
    let names = |names: &str| whole(&format!("windows a\nduties {names}\n"));
    let lone = "; a name in quotes starts and ends with one, and has two for one inside";
    assert_eq!(names("x \"Anna Smith"), "2: a quotation mark without its second: \"Anna Smith");
    assert_eq!(names("Smith\" x"), format!("2: a lone quotation mark in `Smith\"`{lone}"));
    assert_eq!(names("\"Anna\"Smith"), "2: `S` right after the quotation mark of \"Anna\"");
    assert_eq!(
        names("“Anna Smith”"),
        "2: `“` in `“Anna`; names stand in plain quotation marks, \"Anna Smith\""
    );
    assert_eq!(
        names("Anna\u{a0}Smith"),
        "2: a no-break space (U+00A0) in `Anna\u{a0}Smith`; write a plain one, and a name of two words in quotes"
    );
    assert_eq!(
        names("\u{202e}Bob"),
        "2: a mark that can't be seen (U+202E, a direction mark) in `\u{202e}Bob`; take it out"
    );
    assert_eq!(
        names("x \"Anna  Smith\""),
        "2: the name `Anna  Smith` has a space at an end, or two together"
    );
    assert_eq!(names("\"\" x"), "2: a name in quotes has at least one letter");
    assert_eq!(names("\"a\".b"), "2: `\"a\".b` is two words: a name in quotes has nothing beside them");
    assert_eq!(
        names("Zo\u{eb} Zoe\u{308}"),
        "2: the name `Zo\u{eb}` stands twice, here with letter and accent as two characters"
    );
    assert_eq!(
        names("xy x\u{200c}y"),
        "2: the name `x\u{200c}y` looks like one before it: one has a mark that can't be seen"
    );
    assert!(make("windows a\nduties Zo\u{eb} x\nmay a Zoe\u{308}\n").is_ok());
    assert!(make("windows a\nduties \"Jo “J” Smith\" x\n").is_ok());
    let long = "a".repeat(65_536);
    assert_eq!(names(&long), "2: a name of 65,536 characters, and at most 64 are allowed");
    assert_eq!(names(&"ä".repeat(65)), "2: a name of 65 characters, and at most 64 are allowed");
    assert!(make(&format!("windows a\nduties {}\n", "ä".repeat(64))).is_ok());
    let unknown = whole(&format!("windows a\nduties x\nmay a {long}\n"));
    assert_eq!(unknown, format!("3: no duty is called `{}`", "a".repeat(64)));
}

#[test]
fn the_day() {
    assert_eq!(after("clerk x"), "4: `clerk` takes a duty and its windows; one that has none is `away`");
    assert_eq!(after("clerk x a\nclerk x b"), "5: a second `clerk` for `x`; the first stands in line 4");
    assert_eq!(after("clerk x a\nclerk y a\nclerk z a c"), "6: `b` may have no duty (refused 8 1)");
    assert_eq!(after("away"), "4: write `away DUTY`: no window has it");
    assert_eq!(after("may a x\naway x"), "5: without `x` nobody is left for `a`");
    assert_eq!(after("fix a"), "4: write `fix WINDOW DUTY`: the window has that duty");
    assert_eq!(after("fix a x\nfix a y"), "5: a second `fix` for `a`; the first stands in line 4");
    assert_eq!(after("may a y z\nfix a x"), "5: `a` may not have `x` (line 4)");
    assert_eq!(after("fix a x\naway x"), "5: without `x` nobody is left for `a`");
    assert_eq!(after("prefer a"), "4: write `prefer WINDOW DUTY`, and a weight if it isn't 1");
    assert_eq!(after("avoid a x 1001"), "4: a weight is a number from 1 to 1000, not `1001`");
}

/// No message about a text speaks of offsets.
#[test]
fn no_offsets() {
    for text in ["may b", "exchange table 0 0 2 3 4 5 6 7 8", "different a b\nexchange pairs a.x a.y"] {
        assert!(!after(text).contains("offset"));
    }
}
