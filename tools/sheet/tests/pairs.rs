//! Pairs: of texts, in files, the order that they give, and circles.

use oracle::order::settling_order;
use planner::Ending;
use sheet::listing::{list, Limits};
use sheet::make;
use sheet::pairs::{order, settled, wrong};
use sheet::parse::parse;
use sheet::runner::Manner;
use sheet::watch::Watch;
use sheets::Rng;

use crate::common::enumerated;
use crate::program::{ended, folder, said, sheet};

const TEXT: &str =
    "windows a b c\nduties x y\ndifferent a c\nbefore c a\nexchange windows a c\nbefore b a\nbefore c a\n";

/// The sheet is that of the other lines.
#[test]
fn beside_the_sheet() {
    let made = make(TEXT).unwrap();
    let others: String =
        TEXT.lines().filter(|line| !line.starts_with("before")).map(|line| format!("{line}\n")).collect();
    assert_eq!(made.sheet, make(&others).unwrap().sheet);
    assert_eq!(made.pairs, [2, 0, 1, 0, 2, 0]);
    assert_eq!(settled(&made.problem, &made.pairs), ["b", "c", "a"]);
    assert!(settled(&made.problem, &[]).is_empty());
    assert!(make(&format!("{others}{}", "before a c\n".repeat(64))).is_ok());
}

/// The steps of a circle in words, as the numbers of its windows and of the pair.
fn steps(words: &str) -> Vec<[usize; 3]> {
    let number = |word: &str| word.trim_matches('`').trim_start_matches('w').parse().unwrap();
    let step = |step: &str| {
        let words: Vec<&str> = step.split(' ').collect();
        assert_eq!((words[1], words[3], words[4], words.len()), ("before", "in", "pair", 6));
        [number(words[0]), number(words[2]), number(words[5])]
    };
    let list = words.strip_prefix("a circle: ").unwrap().replace(" and ", ", ");
    list.split(", ").map(step).collect()
}

/// Orders and refusals are the oracle's, and a circle that is told is one.
#[test]
fn orders_and_circles() {
    let mut rng = Rng::new(1);
    let mut rounds = 0;
    for _ in 0..5000 {
        let n = rng.between(1, 12);
        let pairs = sheets::pairs(&mut rng, n);
        let windows: Vec<String> = (0..n).map(|window| format!("w{window}")).collect();
        match (settling_order(n, &pairs), wrong(&pairs, &windows, |pair| format!("pair {pair}"))) {
            (Ok(expected), None) => assert_eq!(order(n, &pairs), expected),
            (Err(refusal), Some(wrong)) => {
                assert_eq!(wrong.refusal.to_string(), format!("refused {} {}", refusal.number, refusal.item));
                if wrong.words.starts_with("a circle") {
                    let steps = steps(&wrong.words);
                    for (i, [from, to, pair]) in steps.iter().enumerate() {
                        assert_eq!(pairs[2 * pair..2 * pair + 2], [*from as u8, *to as u8]);
                        assert_eq!(*to, steps[(i + 1) % steps.len()][0]);
                        assert!(*pair <= wrong.pair);
                    }
                    rounds += 1;
                }
            }
            (expected, got) => panic!("{pairs:?}: {expected:?} {got:?}"),
        }
    }
    assert!(rounds > 200, "{rounds}");
}

#[test]
fn a_file_of_pairs() {
    let folder = folder("file");
    let [text, pairs] =
        ["hall.txt", "hall.pairs"].map(|name| folder.join(name).to_str().unwrap().to_string());
    std::fs::write(&text, TEXT).unwrap();
    let made = sheet(&["make", &text, "--pairs", &pairs]);
    assert_eq!((ended(&made), &made.stdout), ((Some(0), ""), &make(TEXT).unwrap().sheet));
    assert_eq!(std::fs::read(&pairs).unwrap(), [2, 0, 1, 0, 2, 0]);
    let without = sheet(&["make", &text]);
    let note = "the sheet doesn't hold the `before` lines; --pairs FILE writes them beside it\n";
    assert_eq!((ended(&without), without.stdout.clone()), ((Some(0), note), made.stdout));
    let none = sheet(&["make", &text, "--pairs=/none/hall.pairs"]);
    let error = "/none/hall.pairs: No such file or directory (os error 2)\n";
    assert_eq!((ended(&none), none.stdout.len()), ((Some(3), error), 0));
    std::fs::write(&text, "windows a b\nduties x y\n").unwrap();
    assert_eq!(ended(&sheet(&["make", &text, "--pairs", &pairs])), (Some(0), ""));
    assert!(std::fs::read(&pairs).unwrap().is_empty());
}

/// What is wrong with a file of pairs is said with its name.
#[test]
fn files_refused() {
    let folder = folder("refused");
    let [text, pairs] =
        ["hall.txt", "hall.pairs"].map(|name| folder.join(name).to_str().unwrap().to_string());
    std::fs::write(&text, "windows a b c\nduties x y\n").unwrap();
    for (bytes, words) in [
        (&[0, 1, 2][..], "refused 28 0: 3 bytes, and a pair takes two"),
        (&[0, 1].repeat(65), "refused 28 0: 65 pairs, and at most 64 are allowed"),
        (&[0, 1, 1, 3], "refused 29 0: pair 1 has the number 3, and the last is 2"),
        (&[0, 1, 2, 2], "refused 30 0: `c` can't come before itself"),
        (&[0, 1, 1, 0], "refused 30 0: a circle: `b` before `a` in pair 1 and `a` before `b` in pair 0"),
    ] {
        std::fs::write(&pairs, bytes).unwrap();
        for command in ["plans", "why", "page"] {
            let output = sheet(&[command, &text, "--pairs", &pairs]);
            assert_eq!(ended(&output), (Some(1), &format!("{pairs}: {words}\n")[..]));
        }
    }
    let output = sheet(&["plans", &text, "--pairs", "none.pairs"]);
    assert_eq!(ended(&output), (Some(3), "none.pairs: No such file or directory (os error 2)\n"));
    std::fs::write(&text, TEXT).unwrap();
    let output = sheet(&["plans", &text, "--pairs", &pairs]);
    assert_eq!(
        ended(&output),
        (Some(1), &format!("{text} has `before` lines, and so takes no --pairs\n")[..])
    );
}

/// The plans of a text are those of its other lines, read in the order, and a run by steps lists them too.
#[test]
fn plans_in_the_order() {
    let mut rng = Rng::new(1);
    let lines =
        "windows a b c d\nduties x y z\nmay c y z\ndifferent a b\nat least 1 x a c d\nforbid b z d y\n";
    let names = ["a", "b", "c", "d"];
    let mut moved = 0;
    for _ in 0..200 {
        let pairs = sheets::right_pairs(&mut rng, 4);
        let before =
            |pair: &[u8]| format!("before {} {}\n", names[pair[0] as usize], names[pair[1] as usize]);
        let text = lines.to_string() + &pairs.chunks(2).map(before).collect::<String>();
        let made = make(&text).unwrap();
        let order = order(4, &made.pairs);
        let mut plans = enumerated(&parse(&text).unwrap());
        plans.sort_by_key(|plan| order.iter().map(|&window| plan[window]).collect::<Vec<_>>());
        let all = Limits { trials: u32::MAX, plans: 1000, first: false };
        let listing = list(&made, all, &Manner::default(), &Watch::nobody()).unwrap();
        assert_eq!(listing.ending, Ending::Finished);
        let listed: Vec<Vec<usize>> =
            listing.plans.iter().map(|plan| plan.iter().map(|&duty| duty as usize).collect()).collect();
        assert_eq!(listed, plans, "{pairs:?}");
        assert_eq!(list(&made, all, &Manner::default(), &Watch::nobody()).unwrap(), listing);
        let first = list(&made, all.first(), &Manner::default(), &Watch::nobody()).unwrap();
        assert_eq!(Some(first.plans.bytes()), listing.plans.iter().next());
        moved += usize::from(listed.windows(2).any(|two| two[0] > two[1]));
    }
    assert!(moved > 50, "{moved}");
}

/// A sheet with its file of pairs is the text that they were made of.
#[test]
fn a_sheet_with_its_pairs() {
    let folder = folder("lent");
    let name = |name: &str| folder.join(name).to_str().unwrap().to_string();
    let [text, hall, pairs] = ["hall.txt", "hall.sheet", "hall.pairs"].map(name);
    std::fs::write(&text, TEXT).unwrap();
    std::fs::write(&hall, sheet(&["make", &text, "--pairs", &pairs]).stdout).unwrap();
    let [of_text, of_sheet] =
        [sheet(&["plans", "--rows", &text]), sheet(&["plans", "--rows", &hall, "--pairs", &pairs])];
    assert_eq!((ended(&of_text), &of_text.stdout), (ended(&of_sheet), &of_sheet.stdout));
    let without = sheet(&["plans", "--rows", &hall]);
    assert!(of_text.stdout != without.stdout);
    let table = sheet(&["plans", &hall, "--pairs", &pairs]);
    assert!(said(&table.stdout).ends_with("(windows settled in the order w1 w2 w0)\n"));
    let why = sheet(&["why", &hall, "--pairs", &pairs]);
    assert!(said(&why.stdout).starts_with("there is a plan:\n\nw0  w1  w2\n"));
    let page = sheet(&["page", &hall, "--pairs", &pairs]);
    assert!(said(&page.stdout).contains("Read in the order in which windows are settled: w1, w2, w0."));
}
