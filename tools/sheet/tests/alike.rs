//! Alike windows: of texts, in files, the plans that are left, and which two aren't alike.

use planner::Ending;
use sheet::listing::{list, Limits, Listing};
use sheet::make;
use sheet::pairs::order;
use sheet::parse::parse;
use sheet::runner::Manner;
use sheet::watch::Watch;
use sheets::Rng;

use crate::common::enumerated;
use crate::program::{ended, folder, sheet};

const ALL: Limits = Limits { trials: u32::MAX, plans: 10_000, first: false };

/// Five windows, of which b to e have one set and stand in the same rules.
const LINES: &str = "windows a b c d e\nduties x y z u\nmay a x y z\nat most 1 u b c d\nat most 1 u b c e\nat most 1 u b d e\n\
                     at most 1 u c d e\ndifferent a b\ndifferent a c\ndifferent a d\ndifferent a e\n";

const NAMES: [&str; 5] = ["a", "b", "c", "d", "e"];

fn listed(text: &str) -> Listing {
    let listing = list(&make(text).unwrap(), ALL, &Manner::default(), &Watch::nobody()).unwrap();
    assert_eq!(listing.ending, Ending::Finished);
    listing
}

/// The sheet is that of the other lines.
#[test]
fn beside_the_sheet() {
    let made = make(&format!("{LINES}alike d b c\n")).unwrap();
    assert_eq!(made.sheet, make(LINES).unwrap().sheet);
    assert_eq!(made.block, [1, 3]);
    assert!(made.has_exchanges());
    let none = make(LINES).unwrap();
    assert!(none.block.is_empty() && !none.has_exchanges());
}

/// As all orderings typed as exchanges: plans, trials and counts.
#[test]
fn as_typed() {
    let orderings =
        ["nothing", "windows c d", "windows b c", "windows b c d", "windows b d c", "windows b d"];
    for (alike, typed) in [("alike b c d\n", &orderings[..]), ("alike c d\n", &orderings[..2])] {
        for before in ["", "before d b\n", "before e a\nbefore c b\n"] {
            let lines: String = typed.iter().map(|exchange| format!("exchange {exchange}\n")).collect();
            let text = format!("{LINES}{before}");
            assert_eq!(
                listed(&format!("{text}{alike}")),
                listed(&format!("{text}{lines}")),
                "{alike}{before}"
            );
        }
    }
}

/// What is left of all plans: those whose duties at alike windows ascend in the order in which these are settled.
#[test]
fn what_is_left() {
    let mut rng = Rng::new(1);
    for _ in 0..100 {
        let count = rng.between(2, 4);
        let first = rng.between(1, 5 - count);
        let pairs = sheets::right_pairs(&mut rng, 5);
        let before =
            |pair: &[u8]| format!("before {} {}\n", NAMES[pair[0] as usize], NAMES[pair[1] as usize]);
        let before: String = pairs.chunks(2).map(before).collect();
        let text = format!("{LINES}{before}alike {}\n", NAMES[first..first + count].join(" "));
        let order = order(5, &pairs);
        let mut plans = enumerated(&parse(&text).unwrap());
        plans.sort_by_key(|plan| order.iter().map(|&window| plan[window]).collect::<Vec<_>>());
        let in_block = |window: &&usize| (first..first + count).contains(*window);
        plans.retain(|plan| order.iter().filter(in_block).map(|&window| plan[window]).is_sorted());
        let found: Vec<Vec<usize>> =
            listed(&text).plans.iter().map(|plan| plan.iter().map(|&duty| duty as usize).collect()).collect();
        assert_eq!(found, plans, "{text}");
    }
}

/// Rules that are put together to fit are put together so that the windows stay alike.
#[test]
fn many_rules() {
    let names = |letter: char, range: std::ops::Range<usize>| {
        range.map(|i| format!("{letter}{i}")).collect::<Vec<String>>().join(" ")
    };
    let mut text = format!("windows {}\nduties {}\n", names('w', 0..9), names('d', 0..9));
    for window in 0..9 {
        let duties = if window < 5 { 0..7 } else { 2..9 };
        text += &format!("may w{window} {}\n", names('d', duties));
    }
    text += &format!("all different {}\n", names('w', 0..9));
    for block in [0..5, 0..3, 5..9] {
        assert!(make(&format!("{text}alike {}\n", names('w', block))).is_ok());
    }
}

#[test]
fn a_file_of_a_block() {
    let folder = folder("block");
    let name = |name: &str| folder.join(name).to_str().unwrap().to_string();
    let [text, hall, block] = ["hall.txt", "hall.sheet", "hall.block"].map(name);
    std::fs::write(&text, format!("{LINES}alike b c d e\nbefore e b\n")).unwrap();
    let made = sheet(&["make", &text, "--block", &block]);
    let note = "the sheet doesn't hold the `before` lines; --pairs FILE writes them beside it\n";
    assert_eq!(ended(&made), (Some(0), note));
    assert_eq!(std::fs::read(&block).unwrap(), [1, 4]);
    let without = sheet(&["make", &text]);
    let left_out =
        format!("{note}the sheet doesn't hold the `alike` line; --block FILE writes it beside it\n");
    assert_eq!((ended(&without), &without.stdout), ((Some(0), &left_out[..]), &made.stdout));
    std::fs::write(&hall, made.stdout).unwrap();
    std::fs::write(&text, format!("{LINES}alike b c d e\n")).unwrap();
    let [of_text, of_sheet] =
        [sheet(&["plans", "--rows", &text]), sheet(&["plans", "--rows", &hall, "--block", &block])];
    assert_eq!((ended(&of_text), &of_text.stdout), (ended(&of_sheet), &of_sheet.stdout));
    assert!(of_text.stdout.len() < sheet(&["plans", "--rows", &hall]).stdout.len());
    let output = sheet(&["plans", &text, "--block", &block]);
    assert_eq!(
        ended(&output),
        (Some(1), &format!("{text} has an `alike` line, and so takes no --block\n")[..])
    );
}

/// What is wrong with a file of a block is said with its name.
#[test]
fn files_refused() {
    let folder = folder("no-block");
    let [text, block] =
        ["hall.txt", "hall.block"].map(|name| folder.join(name).to_str().unwrap().to_string());
    std::fs::write(&text, format!("{LINES}never together b x c y\nexchange nothing\n")).unwrap();
    for (bytes, words) in [
        (&[1][..], "refused 36 0: 1 byte, and a block takes two"),
        (&[1, 3, 0], "refused 36 0: 3 bytes, and a block takes two"),
        (&[1, 1], "refused 36 0: a block of 1 window, and 2 to 5 are allowed"),
        (&[0, 6], "refused 36 0: a block of 6 windows, and 2 to 5 are allowed"),
        (&[2, 4], "refused 36 0: a block of the windows 2 to 5, and the last is 4"),
        (&[0, 2], "refused 15 2: `a` and `b` aren't alike: `b` may have `u`, and `a` may not"),
        (
            &[1, 4],
            "refused 16 3: `c` and `d` aren't alike: rule 8 forbids b.x c.y, and no rule forbids b.x d.y",
        ),
    ] {
        std::fs::write(&block, bytes).unwrap();
        for command in ["plans", "why", "page"] {
            let output = sheet(&[command, &text, "--block", &block]);
            assert_eq!(ended(&output), (Some(1), &format!("{block}: {words}\n")[..]));
        }
    }
}
