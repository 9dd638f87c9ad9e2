//! The program: what it prints, held to the files of `golden`, and its exit statuses. With GOLDEN=write the files
//! are written instead.

use std::fs::File;
use std::io::Write;
use std::path::Path;
use std::process::{Command, Output, Stdio};

use crate::program::{root, said};

/// The program at the repository's root, with words parted by spaces.
fn sheet(words: &str) -> Command {
    let mut command = Command::new(env!("CARGO_BIN_EXE_sheet"));
    command.current_dir(root()).args(words.split(' ').filter(|word| !word.is_empty()));
    command
}

fn output(words: &str) -> Output {
    sheet(words).stdin(Stdio::null()).output().unwrap()
}

/// What the program prints for a text on standard input.
fn fed(words: &str, input: &[u8]) -> Output {
    crate::program::fed(&words.split(' ').collect::<Vec<_>>(), input)
}

/// Status, standard output and standard error.
fn is(output: Output, status: i32, out: &str, err: &str) {
    assert_eq!(said(&output.stderr), err);
    assert_eq!(said(&output.stdout), out);
    assert_eq!(output.status.code(), Some(status));
}

/// A page without what its style and its script hold; other texts as they are.
fn bare(text: &str) -> String {
    ["style", "script"].iter().fold(text.to_string(), |text, tag| {
        let [start, end] = [format!("<{tag}>\n"), format!("</{tag}>\n")];
        match text.split_once(&start).and_then(|(front, rest)| Some((front, rest.split_once(&end)?.1))) {
            Some((front, back)) => [front, &start, &end, back].concat(),
            None => text,
        }
    })
}

fn golden(name: &str, output: Output, status: i32) {
    let file = Path::new(env!("CARGO_MANIFEST_DIR")).join("tests/golden").join(name);
    let text = bare(said(&output.stdout));
    if std::env::var("GOLDEN").is_ok_and(|word| word == "write") {
        std::fs::write(&file, &text).unwrap();
    }
    assert_eq!(text, std::fs::read_to_string(&file).unwrap(), "{name}");
    assert_eq!(output.status.code(), Some(status), "{name}");
}

#[test]
fn golden_files() {
    golden("hall.table", output("plans examples/hall.txt"), 0);
    golden("hall.csv", output("plans --csv examples/hall.txt"), 0);
    golden("hall.json", output("plans examples/hall.txt --json"), 0);
    golden("hall.html", output("page examples/hall.txt"), 0);
    golden("stand.table", output("plans examples/stand.txt"), 0);
    golden("cycle.table", output("plans examples/cycle.txt"), 0);
    golden("cycle.html", output("page --explain examples/cycle.txt"), 0);
    golden("cycle.json", output("plans --json examples/cycle.txt"), 0);
    golden("hall.trials", output("plans --by-window examples/hall.txt"), 0);
    golden("spent.html", output("page --trials=4 examples/cycle.txt"), 2);
    golden("full.json", output("plans --plans 2 --json examples/cycle.txt"), 2);
    golden("broken.html", output("page tools/sheet/tests/golden/broken.txt"), 4);
    golden("broken.why", output("why tools/sheet/tests/golden/broken.txt"), 4);
    golden("hall.why", output("why examples/hall.txt"), 0);
    golden("order.table", output("plans tools/sheet/tests/golden/order.txt"), 0);
    golden("order.html", output("page tools/sheet/tests/golden/order.txt"), 0);
    golden("alike.table", output("plans tools/sheet/tests/golden/alike.txt"), 0);
    golden("alike.html", output("page tools/sheet/tests/golden/alike.txt"), 0);
    golden("enough.yes", output("enough 57 examples/stand.txt"), 0);
    golden("enough.no", output("enough 58 examples/stand.txt"), 1);
    golden("enough.spent", output("enough 58 --trials 215 examples/stand.txt"), 2);
    golden("desk.plans", output("desk examples/stand.txt examples/a.txt examples/cycle.txt --every 2"), 0);
    golden("clerks.txt", output("import examples/clerks.csv"), 0);
    golden("office.best", output("best 3 tools/sheet/tests/golden/office.txt"), 0);
    golden("office.csv", output("best 2 --csv tools/sheet/tests/golden/office.txt"), 0);
    golden("fixed.table", output("plans --fix win1=cid examples/stand.txt"), 0);
    golden("free.table", output("plans --free --where desk=cid --fix cash=ben examples/stand.txt"), 0);
    golden("hard.spent", output("plans tools/sheet/tests/golden/hard.txt"), 2);
    golden("help", output("--help"), 0);
    golden("help.plans", output("plans --help"), 0);
    golden("help.enough", output("enough --help"), 0);
    golden("help.desk", output("desk --help"), 0);
    golden("help.best", output("best --help"), 0);
    golden("help.import", output("import --help"), 0);
}

#[test]
fn endings() {
    let hall = "sell1  sell2  cash  pay   desk\nann    ben    cid   dora  eve\n\n";
    let left = "(a plan that an exchange makes of an earlier one is left out)\n";
    let first = format!("{hall}stopped at the first plan: there are more\n{left}");
    is(output("plans --first examples/hall.txt"), 0, &first, "");
    is(output("plans --plans 1 examples/hall.txt"), 0, &first, "");
    let two = "left  right\nsell  pay\nsell  count\n\n";
    let full = format!("{two}stopped at 2 plans: there are more (--plans N makes room)\n{left}");
    is(output("plans --plans 2 examples/a.txt"), 2, &full, "");
    let spent = format!(
        "{hall}stopped at the allowance of 5 trials, 1 plan listed: more plans may exist (--trials N allows more)\n{left}"
    );
    is(output("plans --trials 5 examples/hall.txt"), 2, &spent, "");
    let none =
        "stopped at the allowance of 1 trial, no plan so far: plans may exist (--trials N allows more)\n";
    is(output("plans --trials 1 examples/hall.txt"), 2, &format!("{none}{left}"), "");
    is(output("plans --first --trials 1 examples/hall.txt"), 2, &format!("{none}{left}"), "");
    is(output("why --trials 1 examples/hall.txt"), 2, none, "");
    let none = "stopped at a plan, with room for none (--plans N makes room)\n";
    is(output("plans --plans 0 examples/hall.txt"), 2, &format!("{none}{left}"), "");
    let none = fed("plans -", b"windows a b\nduties x\ndifferent a b\n");
    is(none, 4, "finished: no plan, 0 trials\n", "");
    let one = fed("plans --first -", b"windows a\nduties x\n");
    is(one, 0, "a\nx\n\nfinished: 1 plan, 1 trial\n", "");
    let csv = output("plans --csv --trials 5 examples/hall.txt");
    let note = "stopped at the allowance of 5 trials, 1 plan listed: more plans may exist (--trials N allows more)\n";
    is(csv, 2, "sell1,sell2,cash,pay,desk\nann,ben,cid,dora,eve\n", note);
    let rows = output("plans --rows --trials 5 examples/hall.txt");
    is(rows, 2, "\0\u{1}\u{2}\u{3}\u{4}", note);
    let bar = "#".repeat(40);
    let by_window = format!(
        "finished: 3 plans, 3 families, 6 trials\n{left}left   3  50.0%  {bar}\nright  3  50.0%  {bar}\n"
    );
    let table = "left  right\nsell  pay\nsell  count\npay   count\n\n";
    is(output("plans --by-window examples/a.txt"), 0, &format!("{table}{by_window}"), "");
    let finished = "finished: 3 plans, 3 families, 6 trials\n";
    is(output("plans --rows examples/a.txt"), 0, "\0\u{1}\0\u{2}\u{1}\u{2}", finished);
}

#[test]
fn closed_exchanges() {
    let last = |output: Output, count: usize| {
        let lines: Vec<&str> = said(&output.stdout).lines().collect();
        lines[lines.len() - count..].join("\n")
    };
    let left = "(a plan that an exchange makes of an earlier one is left out)";
    let one = "(one plan of each family, the one that reads earliest: the exchanges are closed)";
    let missing =
        "the exchanges aren't closed: `exchange windows north east south` twice makes one that isn't there";
    let cycle = format!(
        "finished: 3 plans, 2 families, 9 trials\n{left}\n(some family has several plans, as {missing})"
    );
    assert_eq!(last(output("plans --explain examples/cycle.txt"), 3), cycle);
    assert_eq!(
        last(output("plans examples/cycle.txt"), 2),
        cycle.lines().take(2).collect::<Vec<_>>().join("\n")
    );
    let stand = "(one plan of each family, though the exchanges aren't closed: `exchange windows win1 win2` and then \
                 `exchange windows place1 place2` make one that isn't there)";
    assert_eq!(last(output("plans --explain examples/stand.txt"), 1), stand);
    let not_counted = "(families aren't counted: without the exchanges the run doesn't finish, with this allowance and room \
                       for 4,096 plans)";
    let a = format!("finished: 3 plans, 6 trials\n{left}\n{not_counted}\n{one}");
    assert_eq!(last(output("plans --explain --trials 8 examples/a.txt"), 4), a);
    let a = format!("finished: 3 plans, 3 families, 6 trials\n{left}\n{one}");
    assert_eq!(last(output("plans --explain --trials 9 examples/a.txt"), 3), a);
    for (words, lines) in
        [("plans --explain --trials 5", 2), ("plans --explain --plans 2", 2), ("plans --explain --first", 2)]
    {
        let stopped = last(output(&format!("{words} examples/a.txt")), lines);
        assert!(!stopped.contains("closed"), "{stopped}");
    }
    let alike = fed(
        "plans --explain -",
        b"windows a b c\nduties x y\nalike a b\nexchange duties x y # all\nexchange nothing\n",
    );
    let several =
        "(some family has several plans, as the exchanges aren't closed: `exchange duties x y` and then \
                   ordering 2 of the alike windows make one that isn't there)";
    assert_eq!(last(alike, 3), format!("finished: 4 plans, 3 families, 8 trials\n{left}\n{several}"));
    let table: Vec<String> = (0..24).map(|number| ((number + 2) % 24).to_string()).collect();
    let text = format!("windows a b c d e f g h i j k l\nduties x y\nexchange table {}\n", table.join(" "));
    let long = last(fed("plans --explain -", text.as_bytes()), 1);
    let numbers = "2 3 4 5 6 7 8 9 10 11 12 13 14 15 16 17 18";
    assert!(
        long.ends_with(&format!(": `exchange table {numbers} ..` twice makes one that isn't there)")),
        "{long}"
    );
}

#[test]
fn enough() {
    let left = "(a plan that an exchange makes of an earlier one isn't counted)\n";
    for (words, status, said) in [
        ("enough 0 --trials 0", 0, "yes: at least 0 plans, 0 trials"),
        ("enough 1", 0, "yes: at least 1 plan, 2 trials"),
        ("enough 2 --trials 3", 0, "yes: at least 2 plans, 3 trials"),
        (
            "enough 2 --trials 2",
            2,
            "not known: stopped at the allowance of 2 trials, 1 plan so far (--trials N allows more)",
        ),
        (
            "enough 1 --trials 1",
            2,
            "not known: stopped at the allowance of 1 trial, no plan so far (--trials N allows more)",
        ),
        ("enough 4", 1, "no: 3 plans in all, 6 trials"),
        ("enough 4,294,967,295 --trials 6", 1, "no: 3 plans in all, 6 trials"),
    ] {
        is(output(&format!("{words} examples/a.txt")), status, &format!("{said}\n{left}"), "");
    }
    let none = fed("enough 1 -", b"windows a b\nduties x\ndifferent a b\n");
    is(none, 1, "no: no plan in all, 0 trials\n", "");
    let bytes = std::fs::read(root().join("examples/a.sheet")).unwrap();
    is(fed("enough 3 -", &bytes), 0, &format!("yes: at least 3 plans, 5 trials\n{left}"), "");
}

/// What isn't answered has status 3, whatever the reason.
#[test]
fn enough_not_answered() {
    for (words, said) in [
        ("enough", "sheet enough M TEXT\n"),
        ("enough examples/a.txt", "sheet enough M TEXT\n"),
        ("enough few examples/a.txt", "`few` is no number of plans\n"),
        ("enough 4294967296 examples/a.txt", "`4294967296` is no number of plans\n"),
        ("enough --plans 3 1 examples/a.txt", "enough takes no --plans\n"),
        ("enough 1 none.txt", "none.txt: No such file or directory (os error 2)\n"),
    ] {
        is(output(words), 3, "", said);
    }
    let fault = fed("enough 1 -", b"windows a b\nduties x y\ndifferent a till\n");
    is(fault, 3, "", "standard input:3: no window is called `till`\n");
    let round = fed("enough 0 -", b"windows a b\nduties x y\nbefore a b\nbefore b a\n");
    assert_eq!((round.status.code(), said(&round.stdout)), (Some(3), ""));
    assert!(said(&round.stderr).ends_with("(refused 30 0)\n"), "{}", said(&round.stderr));
    let bytes = std::fs::read(root().join("examples/a.sheet")).unwrap();
    let short = "refused 6 0: offset 14: the stated length is 64, and the sheet has 63 bytes";
    is(fed("enough 0 -", &bytes[..63]), 3, "", &format!("standard input: {short}\n"));
}

/// A sheet is taken for its text.
#[test]
fn sheets() {
    let bytes = std::fs::read(root().join("examples/a.sheet")).unwrap();
    let plans = "w0  w1\nd0  d1\nd0  d2\nd1  d2\n\nfinished: 3 plans, 3 families, 6 trials\n\
                 (a plan that an exchange makes of an earlier one is left out)\n";
    is(fed("plans -", &bytes), 0, plans, "");
    is(fed("explain -", &bytes), 0, "accepted: windows 2, duties 3, rules 1, exchanges 1\n", "");
    let text = "windows w0 w1\nduties d0 d1 d2\ndifferent w0 w1\nexchange windows w0 w1\n";
    is(fed("show -", &bytes), 0, text, "");
    let made = fed("make -", text.as_bytes());
    assert_eq!((made.status.code(), made.stdout), (Some(0), bytes.clone()));
    let short = "refused 6 0: offset 14: the stated length is 64, and the sheet has 63 bytes";
    is(fed("explain -", &bytes[..63]), 1, &format!("{short}\n"), "");
    is(fed("plans -", &bytes[..63]), 1, "", &format!("standard input: {short}\n"));
    is(fed("show -", &bytes[..63]), 1, "", &format!("standard input: {short}\n"));
    is(fed("explain -", b""), 1, "refused 1 0: the sheet has 0 bytes, and the header alone takes 16\n", "");
}

#[test]
fn faults() {
    let text = b"windows a b\nduties x y\ndifferent a till\n";
    for words in ["plans -", "why -", "page -", "make -"] {
        is(fed(words, text), 1, "", "standard input:3: no window is called `till`\n");
    }
    is(fed("explain -", text), 1, "standard input:3: no window is called `till`\n", "");
    is(fed("plans -", b"\xff\xfew\0i\0"), 1, "", "standard input:1: a text in UTF-16; save it as UTF-8\n");
    is(fed("plans -", b"windows a\nduties \xff"), 1, "", "standard input:2: not a text in UTF-8\n");
}

#[test]
fn wrong_words() {
    for (words, said) in [
        ("plans", "sheet plans TEXT\n"),
        ("plans a b", "sheet plans TEXT\n"),
        ("plans --fast examples/a.txt", "plans takes no --fast\n"),
        ("why --plans 3 examples/a.txt", "why takes no --plans\n"),
        ("plans examples/a.txt --trials", "--trials takes a number\n"),
        ("plans examples/a.txt --trials x", "--trials takes a number from 0 to 4294967295, not `x`\n"),
        (
            "plans --plans 10000001 examples/a.txt",
            "--plans takes a number from 0 to 10000000, not `10000001`\n",
        ),
        ("plans --first=1 examples/a.txt", "plans takes no --first=1\n"),
        ("plans --csv --rows examples/a.txt", "plans takes one of --csv, --json and --rows\n"),
        ("best --csv --fixed examples/a.txt", "best takes one of --csv, --json and --fixed\n"),
        ("plans --csv --by-window examples/a.txt", "--by-window goes with the table alone\n"),
        ("plans examples/a.txt --pairs", "--pairs takes a file\n"),
        ("plans --pairs - -", "standard input can stand for one file only\n"),
        ("make --pairs - examples/a.txt", "make writes the pairs to a file, not to standard output\n"),
        ("make --block - examples/a.txt", "make writes the block to a file, not to standard output\n"),
    ] {
        is(output(words), 1, "", said);
    }
    let unknown = output("plan examples/a.txt");
    assert!(said(&unknown.stderr).starts_with("`plan` is no command; did you mean `plans`?\n"));
    assert_eq!(unknown.status.code(), Some(1));
    let help = said(&output("--help").stdout).to_string();
    is(output(""), 1, "", &help);
}

#[test]
fn reading_fails() {
    for words in
        ["plans none.txt", "why none.txt", "page none.txt", "make none.txt", "show none", "explain none"]
    {
        let name = words.split(' ').nth(1).unwrap();
        is(output(words), 3, "", &format!("{name}: No such file or directory (os error 2)\n"));
        let folder = sheet(&words.replace(name, "-")).stdin(File::open("/").unwrap()).output().unwrap();
        is(folder, 3, "", "standard input: Is a directory (os error 21)\n");
    }
}

const WRITING: [&str; 9] = [
    "plans examples/hall.txt",
    "enough 2 examples/hall.txt",
    "desk examples/hall.txt",
    "plans --json examples/hall.txt",
    "why examples/hall.txt",
    "page examples/hall.txt",
    "make examples/hall.txt",
    "show examples/hall.sheet",
    "--help",
];

#[test]
fn a_full_disk() {
    for words in WRITING {
        let full = File::options().write(true).open("/dev/full").unwrap();
        let output = sheet(words).stdout(full).stderr(Stdio::piped()).output().unwrap();
        assert!(
            said(&output.stderr).ends_with("standard output: No space left on device (os error 28)\n"),
            "{words}"
        );
        assert_eq!(said(&output.stderr).matches("standard output").count(), 1, "{words}");
        assert_eq!(output.status.code(), Some(3), "{words}");
    }
    let full = || File::options().write(true).open("/dev/full").unwrap();
    let status = sheet("plans examples/hall.txt").stdout(full()).stderr(full()).status().unwrap();
    assert_eq!(status.code(), Some(3));
}

/// The reader of a pipe is gone before the program writes.
#[test]
fn a_closed_pipe() {
    let text = std::fs::read(root().join("examples/hall.txt")).unwrap();
    for words in WRITING.iter().filter(|words| words.ends_with("hall.txt")) {
        let mut child = sheet(&words.replace("examples/hall.txt", "-"))
            .stdin(Stdio::piped())
            .stdout(Stdio::piped())
            .stderr(Stdio::piped())
            .spawn()
            .unwrap();
        drop(child.stdout.take());
        child.stdin.take().unwrap().write_all(&text).unwrap();
        let output = child.wait_with_output().unwrap();
        assert!(said(&output.stderr).ends_with("standard output: Broken pipe (os error 32)\n"), "{words}");
        assert_eq!(output.status.code(), Some(3), "{words}");
    }
}

/// Names that CSV, JSON and HTML have to quote.
#[test]
fn odd_names() {
    let text = "windows \"a\"\"b\" <c>&\nduties 1\\2 äöü\nrule \"a\"\"b\" <c>&\nrows 1\\2 äöü\n".as_bytes();
    let csv = "\"a\"\"b\",<c>&\n1\\2,äöü\n";
    is(fed("plans --csv -", text), 0, csv, "finished: 1 plan, 2 trials\n");
    is(fed("plans -", text), 0, "a\"b  <c>&\n1\\2  äöü\n\nfinished: 1 plan, 2 trials\n", "");
    let json = fed("plans --json -", text);
    assert!(said(&json.stdout).contains("    {\"a\\\"b\": \"1\\\\2\", \"<c>&\": \"äöü\"}\n"));
    let page = fed("page -", text);
    assert!(
        said(&page.stdout).contains("<th scope=\"col\">a&quot;b</th><th scope=\"col\">&lt;c&gt;&amp;</th>")
    );
    assert!(!said(&page.stdout).contains("<c>"));
}

/// The page has the style sheet and the script. The script is short, ends nowhere before its end, and makes no HTML of texts;
/// names can't get into either.
#[test]
fn style_and_script() {
    let style = include_str!("../src/page/page.css");
    let script = include_str!("../src/page/page.js");
    assert!(script.lines().count() <= 300);
    for word in
        ["</", "<!--", "innerHTML", "outerHTML", "insertAdjacentHTML", "document.write", "eval", "://"]
    {
        assert!(!script.contains(word), "{word}");
    }
    let text = "windows </script><script>alert(1)</script> b\nduties </style>x y\n".as_bytes();
    let page = fed("page -", text);
    let page = said(&page.stdout);
    assert_eq!(["<script", "</script", "<style", "</style"].map(|tag| page.matches(tag).count()), [1; 4]);
    assert!(page.contains(&format!("<style>\n{style}</style>\n<script>\n{script}</script>\n</head>\n")));
    let none = fed("page -", b"windows a b\nduties x\ndifferent a b\n");
    assert!(!said(&none.stdout).contains("<script"), "nothing to choose from");
}

/// A document's lines that stand as code.
fn shows(document: &str, text: &str) {
    let words = std::fs::read_to_string(root().join(document)).unwrap();
    for line in text.lines() {
        let indented = if line.is_empty() { "\n\n".to_string() } else { format!("\n    {line}\n") };
        assert!(words.contains(&indented), "{document} lacks: {line}");
    }
}

/// What the documents show is what the program prints.
#[test]
fn documents() {
    let text = said(&output("import examples/clerks.csv").stdout).to_string();
    let ends = [&text.lines().collect::<Vec<_>>()[1..5], &text.lines().collect::<Vec<_>>()[14..]].concat();
    shows("README.md", &ends.join("\n"));
    let table = std::fs::read_to_string(root().join("examples/clerks.csv")).unwrap();
    shows("README.md", &table.lines().take(4).collect::<Vec<_>>().join("\n"));
    let plans = output_of("plans -", &text);
    assert!(plans.contains("finished: 1,056 plans, 3,217 trials\n"), "{plans}");
    let today =
        "fix desk \"Cid Marsh\"\naway \"Gus Reed\"\nprefer pay \"Eve O'Hara\" 3\navoid win1 \"Jo B.\"\n\
                 near examples/lastweek.csv\n";
    shows("README.md", today);
    let best = output_of("best 2 -", &(text + today));
    let lines: Vec<&str> = best.lines().collect();
    shows("README.md", &[&lines[..5], &lines[lines.len() - 1..]].concat().join("\n"));
    let cycle = output("plans --explain examples/cycle.txt");
    shows("README.md", &said(&cycle.stdout).lines().skip(5).collect::<Vec<_>>().join("\n"));
    shows("README.md", said(&output("enough 50 examples/stand.txt").stdout));
    shows("docs/OPERATING.md", said(&output("plans --by-window examples/a.txt").stdout));
    shows("docs/OPERATING.md", said(&output("enough --json 4 examples/a.txt").stdout));
    let round = output_of("plans --json -", "windows a b\nduties x y\nbefore a b\nbefore b a\n");
    shows("docs/OPERATING.md", &round.replace("standard input", "round.txt"));
    let desk = output("desk --every 1 examples/stand.txt examples/cycle.txt");
    shows("docs/OPERATING.md", said(&desk.stderr));
    let fault = "windows a b\nduties x y\ndifferent a till\n";
    let desk = output_of("desk examples/cycle.txt -", fault).replace("standard input", "fault.txt");
    shows("docs/OPERATING.md", &desk);
    let desk = output_of("desk --jobs 2 examples/a.txt -", fault).replace("standard input", "fault.txt");
    shows("README.md", &desk.lines().take(6).collect::<Vec<_>>().join("\n"));
    let why = output("why --json examples/a.txt");
    let lines: Vec<&str> = said(&why.stdout).lines().collect();
    shows("README.md", &[&lines[9..12], &lines[14..]].concat().join("\n"));
}

/// The lines of the library's example that tools/README.md has.
#[test]
fn library_example() {
    let [readme, source] = ["tools/README.md", "tools/sheet/src/lib.rs"]
        .map(|file| std::fs::read_to_string(root().join(file)).unwrap());
    let (_, rest) = readme.split_once("which the tests run:\n\n").unwrap();
    let lines: Vec<&str> = rest.lines().take_while(|line| line.starts_with("    ")).collect();
    assert!(lines.len() > 2);
    for line in lines {
        assert!(source.contains(&format!("//! {}\n", line.trim_start())), "{line}");
    }
}

fn output_of(words: &str, text: &str) -> String {
    said(&fed(words, text.as_bytes()).stdout).to_string()
}

/// README's day without a plan.
#[test]
fn a_day_without_a_plan() {
    let stand = std::fs::read_to_string(root().join("examples/stand.txt")).unwrap();
    let today: String = stand
        .lines()
        .map(|line| match line.split_once(" finn gus hana ivo") {
            Some((may, _)) => format!("{may} gus hana\n"),
            None => format!("{line}\n"),
        })
        .collect();
    shows("README.md", &output_of("why -", &today));
}
