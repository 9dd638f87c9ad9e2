//! The program for an office: fixed duties, chosen plans, tables in and out, and its bounds.

use std::process::{Command, Output};

use crate::program::{fed, root};

const STAND: &str = "examples/stand.txt";

/// Status, standard output and standard error.
fn answer(words: &[&str], input: &str) -> (i32, String, String) {
    let output = fed(words, input.as_bytes());
    let text = |bytes: &[u8]| String::from_utf8(bytes.to_vec()).unwrap();
    (output.status.code().unwrap(), text(&output.stdout), text(&output.stderr))
}

#[test]
fn fixed_by_option() {
    let left = |line: usize, exchange: &str, from: &str| {
        format!(
            "examples/stand.txt:{line}: `exchange windows {exchange}` doesn't hold today: it takes {from}.eve to \
             win1.eve, and `win1` is fixed to `cid`; it is left out\n"
        )
    };
    let lines = [
        left(21, "win1 win2", "win2"),
        left(22, "win1 win3", "win3"),
        left(24, "win1 win2 win3", "win3"),
        left(25, "win1 win3 win2", "win2"),
    ];
    let (status, out, err) = answer(&["plans", "--fix", "win1=cid", STAND], "");
    assert_eq!((status, err), (0, lines.concat()));
    assert!(out.contains("\nfinished: 31 plans, 31 families, 135 trials\n"), "{out}");
    let strict = answer(&["plans", "--strict", "--fix", "win1=cid", STAND], "");
    assert_eq!(strict, (1, String::new(), lines.concat().replace("; it is left out", "")));
    assert_eq!(answer(&["enough", "31", "--fix=win1=cid", STAND], "").0, 0);
    assert_eq!(answer(&["enough", "32", "--fix=win1=cid", STAND], "").0, 1);
    let why = answer(&["why", "--fix", "win1=finn", "--fix", "win2=finn", STAND], "");
    assert!(
        why.1.contains("line 28: fix win1 finn # --fix\n  line 29: fix win2 finn # --fix\n"),
        "{}",
        why.1
    );
    assert_eq!(answer(&["page", "--fix", "win1=cid", STAND], "").0, 0);
    for (option, said) in [
        ("win1", "--fix takes WINDOW=DUTY, not `win1`\n"),
        ("win9=cid", "--fix win9=cid: no window is called `win9`; did you mean `win1`?\n"),
        ("win1=dor", "--fix win1=dor: no duty is called `dor`; did you mean `dora`?\n"),
        ("win1=ann", "--fix win1=ann: `win1` may not have `ann` (line 5)\n"),
    ] {
        assert_eq!(answer(&["plans", "--fix", option, STAND], ""), (1, String::new(), said.to_string()));
    }
}

#[test]
fn fixed_in_the_text() {
    let text = "windows a b c d\nduties x y z\nalike a b c\nexchange duties x y\nfix b z\naway x\n";
    let (status, out, err) = answer(&["plans", "-"], text);
    assert_eq!(status, 0);
    assert!(out.contains("\nfinished: 8 plans, "), "{out}");
    let notes = "standard input:3: `alike a b c` doesn't hold today: `b` is fixed to `z`; it is left out\n\
                 standard input:4: `exchange duties x y` doesn't hold today: it takes a.y to a.x, and `x` is away; it is \
                 left out\n";
    assert_eq!(err, notes);
    let text = "windows a b c d\nduties x y z\nalike a b c\nfix c z\n";
    let part = "standard input:3: `alike a b c` doesn't hold today: `c` is fixed to `z`";
    assert_eq!(answer(&["plans", "-"], text).2, format!("{part}; only `a` and `b` stay alike\n"));
    assert_eq!(answer(&["plans", "--strict", "-"], text), (1, String::new(), format!("{part}\n")));
    let names = "windows \"a=b\" c\nduties \"x=y\" z\n";
    assert!(answer(&["plans", "--fix", "a=b=x=y", "-"], names).1.contains("finished: 2 plans"));
}

#[test]
fn chosen_by_where() {
    let (status, out, _) = answer(&["plans", "--where", "win1=cid", "--where", "pay=eve", STAND], "");
    assert_eq!(status, 0);
    assert_eq!(out.lines().filter(|line| line.starts_with("cid") && line.contains(" eve ")).count(), 5);
    let words =
        "finished: 57 plans, 57 families, 216 trials; of those listed, 5 plans with win1=cid pay=eve shown";
    assert!(out.contains(words), "{out}");
    let none = answer(&["page", "--where", "win1=jo", STAND], "");
    assert_eq!(none.0, 1);
    assert!(none.2.ends_with("216 trials; of those listed, none with win1=jo shown\n"), "{}", none.2);
    let none = answer(&["plans", "--csv", "--where", "win1=jo", STAND], "");
    assert_eq!((none.0, none.1.lines().count()), (0, 1));
    let desk = answer(&["desk", "--where", "left=pay", "examples/a.txt"], "");
    let words = "left  right\npay   count\n\nfinished: 3 plans, 3 families, 6 trials; of those listed, 1 plan with left=pay shown";
    assert!(desk.1.contains(words), "{}", desk.1);
    let best = answer(&["best", "9", "--where", "win2=eve", STAND], "");
    assert!(best.1.contains("finished: the 9 best plans of all, "), "{}", best.1);
}

/// A preference for one of two alike windows: no exchange hides the plan that keeps it.
#[test]
fn preferred() {
    let hall = "windows a b\nduties x y\ndifferent a b\nexchange windows a b\n";
    let best = answer(&["best", "-"], &format!("{hall}prefer a y\n")).1;
    assert_eq!(
        best,
        "cost  a  b  free\n0     y  x\n\nplan 1 costs nothing\nfinished: the best plan of all, 7 trials\n\
         (1 exchange not used: a preference tells apart what they make of one another)\n"
    );
    let both = answer(&["best", "3", "-"], &format!("{hall}prefer a y\nprefer b y\n")).1;
    assert!(
        both.contains("\nplan 1 costs 1: `a` hasn't `y` (1)\nfinished: 1 plan in all, best first, "),
        "{both}"
    );
    let short = answer(&["best", "--trials", "1", "-"], &format!("{hall}prefer a y\n"));
    assert_eq!(short.0, 2);
    assert!(short.1.starts_with("stopped at the allowance of 1 trial, no plan so far: "), "{}", short.1);
    let fixed = answer(&["best", "--fixed", "-"], &format!("{hall}prefer a y\n"));
    assert_eq!(fixed.1, format!("{hall}prefer a y\nfix a y\nfix b x\n"));
    assert!(answer(&["plans", "-"], &fixed.1).1.starts_with("a  b\ny  x\n\nfinished: 1 plan, "));
    let away = answer(&["best", "2", "-"], "windows a\nduties x y z\naway y\nfix a x\n").1;
    assert!(away.starts_with("cost  a  free\n0     x  z\n"), "{away}");
    let away = answer(&["plans", "--free", "-"], "windows a\nduties x y z\naway y\n").1;
    assert!(away.ends_with("\nx  stands 1  free 1\ny  away\nz  stands 1  free 1\n"), "{away}");
    let none = answer(&["best", "-"], "windows a b\nduties x\ndifferent a b\n");
    assert_eq!((none.0, none.1.as_str()), (4, "finished: no plan, 0 trials\n"));
    for (words, said) in [
        (["best", "0", "-"], "best takes a number of plans from 1 to 100000, not `0`\n"),
        (["best", "many", "-"], "best takes a number of plans from 1 to 100000, not `many`\n"),
    ] {
        assert_eq!(answer(&words, hall).2, said);
    }
}

/// Every window ranks ten clerks alike: the eight cheapest are found at once, and so are a thousand plans.
#[test]
fn ranked() {
    let windows = "a b c d e f g h";
    let mut hall = format!("windows {windows}\nduties 0 1 2 3 4 5 6 7 8 9\nall different {windows}\n");
    for window in windows.split(' ') {
        hall += &(1..10).map(|duty| format!("avoid {window} {duty} {duty}\n")).collect::<String>();
    }
    let (status, out, _) = answer(&["best", "--trials", "1000", "-"], &hall);
    assert_eq!(status, 0);
    assert!(out.contains("\n28    0  1  2  3  4  5  6  7  8, 9\n"), "{out}");
    let many = answer(&["best", "1000", "--csv", "-"], &hall);
    assert_eq!((many.0, many.1.lines().count()), (0, 1_001));
}

/// On the page a duty that is away isn't free, and no count is asked of it.
#[test]
fn away_on_the_page() {
    let page = answer(&["page", "-"], "windows a\nduties x y z\naway y\n").1;
    assert!(page.contains("<tr><th scope=\"row\">1</th><td class=\"d0\">x</td><td>z</td></tr>\n"), "{page}");
    assert!(page.contains("<th scope=\"row\" class=\"d1\">y</th><td></td><td>away</td></tr>\n"), "{page}");
    let page = answer(&["page", "-"], "windows a\nduties x y\naway y\n").1;
    assert!(page.contains("<tr><th scope=\"col\">Plan</th><th scope=\"col\">a</th></tr>"), "{page}");
}

/// The plan of last week, as `--csv` writes it or as a row alone.
#[test]
fn near() {
    let folder = std::env::temp_dir().join(format!("sheet-near-{}", std::process::id()));
    std::fs::create_dir_all(&folder).unwrap();
    let file = |name: &str, text: &str| {
        let file = folder.join(name);
        std::fs::write(&file, text).unwrap();
        file.to_string_lossy().into_owned()
    };
    let hall = "windows a b c\nduties \"=x\" y z\nall different a b c\n";
    let text = file("hall.txt", &(hall.to_string() + "near last.csv 3\n"));
    file("last.csv", "\u{feff}c;b;gone\r\n'=x;y;y\r\n");
    let (status, out, err) = answer(&["best", &text], "");
    assert_eq!((status, err.as_str()), (0, "last.csv: nothing is said of `a`\n"));
    assert!(out.starts_with("cost  a  b  c   free\n0     z  y  =x\n"), "{out}");
    let row = file("row.csv", "y,gus,=x\n");
    let (status, out, err) = answer(&["best", "--near", &row, "-"], hall);
    assert_eq!((status, err), (0, format!("{row}: no duty is called `gus`\n")));
    assert!(out.starts_with("cost  a  b  c   free\n0     y  z  =x\n"), "{out}");
    let short = file("short.csv", "y,z\n");
    let refused = (1, String::new(), format!("{short}: a row of 2 cells for 3 windows\n"));
    assert_eq!(answer(&["best", "--near", &short, "-"], hall), refused);
    assert_eq!(answer(&["best", "--near", "none.csv", "-"], hall).0, 3);
    std::fs::remove_dir_all(&folder).unwrap();
}

#[test]
fn tables_in() {
    let text = "# From standard input: 2 windows, 3 clerks.\nwindows w1 \"pay, out\"\nduties \"Ann B.\" Zo\u{eb} Cid\n\
                # Where each may stand.\nclerk \"Ann B.\" w1 \"pay, out\"\nclerk Zo\u{eb} \"pay, out\"\naway Cid\n\
                # Nobody stands at two windows.\nall different w1 \"pay, out\"\n";
    let clerks = "\u{feff}x;w1;pay, out;\r\nAnn\u{a0}B.;1;yes;\r\nZoe\u{308};no;x;\r\nCid;-;;\r\n;;;\r\n";
    let notes = "standard input: row 2: the name is taken as \"Ann B.\"\n\
                 standard input: row 3: the name is taken as Zo\u{eb}\n";
    assert_eq!(answer(&["import", "-"], clerks), (0, text.to_string(), notes.to_string()));
    let windows = ",\"Ann B.\",Zo\u{eb},Cid\nw1,1,,\n\"pay, out\",yes,x,\n";
    assert_eq!(answer(&["import", "--by", "windows", "-"], windows), (0, text.to_string(), String::new()));
    assert_eq!(answer(&["plans", "-"], text).0, 0);
    let names: Vec<String> = (0..13).map(|i| format!("w{i}")).collect();
    for (table, said) in [
        ("", "an empty table".to_string()),
        (",a,b\nx,1,\n", "nobody may stand at `b`".to_string()),
        (",a,a\nx,1,1\n", "the window `a` stands twice".to_string()),
        (",a,\nx,1,1\n", "column 3 has marks and no name".to_string()),
        (",a\n,1\n", "row 2 has marks and no name".to_string()),
        (
            &format!(",{}\nx\n", names.join(",")),
            "13 windows, and 1 to 12 are allowed; with --by windows the table is read the other way round"
                .to_string(),
        ),
    ] {
        assert_eq!(answer(&["import", "-"], table), (1, String::new(), format!("standard input: {said}\n")));
    }
    let wide: String = (0..9).map(|i| format!("c{i}{}\n", ",1".repeat(9))).collect();
    let (status, out, err) = answer(&["import", "-"], &format!(",{}\n{wide}", names[..9].join(",")));
    assert_eq!(status, 0);
    assert!(out.ends_with("\n# all different w0 w1 w2 w3 w4 w5 w6 w7 w8\n"), "{out}");
    assert!(err.contains("What fits: at most 6 duties at each of these windows"), "{err}");
}

/// Nothing that a spreadsheet would run, and letters that it knows.
#[test]
fn tables_out() {
    let hall = "windows =a \"b,c\"\nduties -x \"Zoë\"\nfix =a -x\nfix \"b,c\" Zoë\n";
    let csv = "'=a,\"b,c\"\n'-x,Zoë\n";
    assert_eq!(answer(&["plans", "--csv", "-"], hall).1, csv);
    assert_eq!(answer(&["plans", "--bom", "-"], hall).1, format!("\u{feff}{csv}"));
    assert_eq!(answer(&["best", "--bom", "-"], hall).1, format!("\u{feff}{csv}"));
    let wide = answer(&["plans", "-"], "windows 窓口 b\nduties \"Ann B\" 花\nfix b 花\nfix 窓口 花\n");
    assert!(wide.1.starts_with("窓口  b\n花    花\n"), "{}", wide.1);
}

#[test]
fn what_helps() {
    let hard = "tools/sheet/tests/golden/hard.txt";
    let help = "the run ends after 9 trials with `before j a`, `before j b`, `before j c`, `before j d`, `before j e`, \
                `before j f`, `before j g` and `before j h`)\n";
    for words in [vec!["plans", hard], vec!["why", hard], vec!["enough", "1", hard], vec!["best", hard]] {
        let (status, out, _) = answer(&words, "");
        assert_eq!(status, 2);
        assert!(out.contains(help), "{out}");
    }
    let same =
        "windows a b c d e f g h i j k\nduties t u v w x y z\nmay i x y\nmay j x y\nmay k x y\nprefer a z\n\
                rule i j\nrows x x, y y\nrule j k\nrows x x, y y\ndifferent i k\n";
    let (status, out, _) = answer(&["best", "-"], same);
    assert_eq!(status, 2);
    assert!(out.contains(" of the trials went to ") && out.contains("`before i h`"), "{out}");
    let before: String = "abcdefgh".chars().map(|window| format!("before j {window}\n")).collect();
    let text = std::fs::read_to_string(root().join(hard)).unwrap();
    let helped = answer(&["plans", "-"], &(text + &before));
    assert!(helped.1.starts_with("finished: no plan, 9 trials\n"), "{}", helped.1);
    let free = "windows a b c d e f g h\nduties 0 1 2 3 4 5 6 7\n";
    let (_, out, _) = answer(&["plans", "--trials", "2000", "--plans", "1", "-"], free);
    assert!(!out.contains("went to"), "{out}");
    let (_, out, _) = answer(&["plans", "--trials", "2000", "-"], free);
    assert!(
        out.contains("settling some windows before others doesn't end it either, tried with 2,000 trials)")
    );
}

/// `why` claims only what it knows.
#[test]
fn why_claims() {
    let short = "without it the run stops short (--trials N allows more), or no sheet fits";
    let text =
        "windows a b c d e f g h\nduties t u v w x y z\nall different a b c d e f g h\nmay a t\nmay b t\n";
    let (status, out, _) = answer(&["why", "--trials", "100", "-"], text);
    assert_eq!(status, 4);
    let known = format!("Without line 3 the others have a plan; of lines 4 and 5 it isn't known: {short}.\n");
    assert!(out.ends_with(&known), "{out}");
    let text = "windows a b c\nduties x y z\nmay a x\nmay b x\ndifferent a b\n";
    let (status, out, _) = answer(&["why", "--trials", "1", "-"], text);
    assert_eq!(status, 4);
    assert!(out.ends_with(&format!("Whether each of them is needed isn't known: {short}.\n")), "{out}");
}

/// A shell's line at the repository's root, with the program as `$0`.
fn shell(line: &str) -> Output {
    Command::new("sh").current_dir(root()).args(["-c", line, env!("CARGO_BIN_EXE_sheet")]).output().unwrap()
}

#[test]
fn a_closed_output() {
    for words in
        ["plans", "plans --csv", "plans --rows", "why", "page", "make", "best", "enough 2", "desk", "explain"]
    {
        let output = shell(&format!("exec \"$0\" {words} examples/hall.txt >&-"));
        assert_eq!(output.status.code(), Some(3), "{words}");
        let said = String::from_utf8(output.stderr).unwrap();
        assert!(said.ends_with("standard output: Bad file descriptor (os error 9)\n"), "{words}: {said}");
    }
    assert_eq!(shell("exec \"$0\" plans examples/hall.txt 1<>/dev/null").status.code(), Some(0));
    assert_eq!(shell("exec \"$0\" plans none.txt >&-").status.code(), Some(3));
}

/// A million plans in the memory of their bytes, as a table, as CSV and JSON; fewer as a page.
#[test]
fn row_by_row() {
    let hall = "windows a b c d e f g h\\nduties 0 1 2 3 4 5 6 7\\n";
    let million = 1_000_000;
    let forms = [("plans", million), ("plans --csv", million), ("plans --json", million), ("page", 300_000)];
    for (form, plans) in forms {
        let line = format!(
            "printf '{hall}' | (ulimit -v 100000; exec \"$0\" {form} --plans {plans} --trials 9000000 -) | wc -l"
        );
        let output = shell(&line);
        let lines: usize = String::from_utf8(output.stdout).unwrap().trim().parse().unwrap();
        assert!(lines >= plans, "{form}: {lines} {}", String::from_utf8_lossy(&output.stderr));
    }
}
