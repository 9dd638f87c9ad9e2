//! What the lines of a text mean, against plain enumeration; rules that are put together to fit.

use planner::Ending;
use sheet::listing::{list, Limits};
use sheet::make::{make, Made};
use sheet::parse::parse;
use sheet::runner::Manner;
use sheet::watch::Watch;
use sheets::Rng;

use crate::common::enumerated;

const ALL: Limits = Limits { trials: u32::MAX, plans: 1_000_000, first: false };

/// The plans that the proved planner lists; without exchanges these are all solutions.
fn planned(made: &Made) -> Vec<Vec<usize>> {
    let listing = list(made, ALL, &Manner::default(), &Watch::nobody()).expect("an accepted sheet");
    assert_eq!(listing.ending, Ending::Finished);
    listing.plans.iter().map(|plan| plan.iter().map(|&duty| duty as usize).collect()).collect()
}

fn agree(text: &str) -> Made {
    let made = make(text).unwrap_or_else(|faults| panic!("{faults:?}\n{text}"));
    assert_eq!(planned(&made), enumerated(&parse(text).unwrap()), "{text}");
    made
}

#[test]
fn lines() {
    let start = "windows a b c d\nduties x y z\nmay c x y\n";
    for (lines, rules) in [
        ("forbid a x", 1),
        ("forbid a x, a y", 1),
        ("forbid b y a x, a y b x, c x d z", 2),
        ("forbid a x b y c x, a z b z c y", 1),
        ("forbid c z", 1),
        ("never together d x a x", 1),
        ("exactly 1 x a b c", 1),
        ("exactly 0 x d", 1),
        ("at least 2 y d a b", 1),
        ("at most 1 z a b", 1),
        ("at most 5 z a b", 1),
        ("all different d b c", 3),
        ("rule d a\n  rows x y, y x, z z", 1),
        ("rule d a b\n  rows x y z, z z x\n  rows x x x", 1),
        ("rule a\nforbid b x\nmay b x", 2),
    ] {
        let made = agree(&format!("{start}{lines}\n"));
        assert_eq!(made.problem.constraints.len(), rules, "{lines}");
    }
}

/// Windows in any order: the rows' columns go with them.
#[test]
fn orders() {
    let start = "windows a b c\nduties x y\n";
    let one = make(&format!("{start}rule c a\nrows x y, y y")).unwrap();
    let other = make(&format!("{start}rule a c\nrows y x, y y")).unwrap();
    assert_eq!(one.sheet, other.sheet);
}

fn names(letter: char, count: usize) -> String {
    (0..count).map(|i| format!("{letter}{i}")).collect::<Vec<_>>().join(" ")
}

/// A text whose rules don't fit as written: eleven windows with few duties each, all different, and some lines more.
fn crowded(rng: &mut Rng) -> String {
    let mut text = format!("windows {}\nduties {}\n", names('w', 11), names('d', 12));
    for window in 0..11 {
        text += &format!("may w{window} d{window} d{} d{}\n", rng.below(4), 4 + rng.below(3));
    }
    text += &format!("all different {}\n", names('w', 11));
    for _ in 0..6 {
        let (a, b) = (rng.below(10), rng.below(12));
        let far = a + 1 + rng.below(10 - a);
        text += &format!("never together w{far} d{b} w{a} d{}\n", rng.below(12));
    }
    text + &format!("forbid w{} d{}\n", rng.below(11), rng.below(12))
}

#[test]
fn put_together() {
    let mut rng = Rng::new(7);
    let (mut threes, mut plans) = (0, 0);
    for _ in 0..20 {
        let made = agree(&crowded(&mut rng));
        assert!(made.problem.constraints.len() <= 32);
        threes += made.problem.constraints.iter().filter(|rule| rule.scope.len() == 3).count();
        plans += planned(&made).len();
    }
    assert!(threes > 0 && plans > 0, "{threes} threes, {plans} plans");
}

/// The rules that a text needs.
fn rules(text: &str) -> usize {
    make(text).unwrap_or_else(|faults| panic!("{faults:?}")).problem.constraints.len()
}

/// Twelve windows of seven duties: 66 pairs.
fn twelve() -> String {
    format!("windows {}\nduties {}\nall different {}\n", names('w', 12), names('d', 7), names('w', 12))
}

#[test]
fn twelve_windows() {
    assert!(rules(&twelve()) <= 32);
    assert!(rules(&format!("{}exchange duties d0 d1\n", twelve())) <= 32);
    assert!(rules(&format!("{}exchange windows w0 w1\nexchange windows w3 w4 w5\n", twelve())) <= 32);
    assert!(rules(&format!("{}exchange windows {}\n", twelve(), names('w', 12))) <= 32);
    let six: String = (0..6).map(|i| format!("rule w{i}\nrows d0, d{}\n", i + 1)).collect();
    assert_eq!(rules(&(twelve() + &six)), 32);
}

/// Up to twelve windows can differ where each may have at most six duties.
#[test]
fn six_duties_each() {
    let mut rng = Rng::new(6);
    for round in 0..24 {
        let windows = 9 + round % 4;
        let mut text = format!("windows {}\nduties {}\n", names('w', windows), names('d', 16));
        for window in 0..windows {
            let duties: Vec<String> =
                (0..6).map(|i| format!("d{}", (window + i * (1 + rng.below(2))) % 16)).collect();
            text += &format!("may w{window} {}\n", duties.join(" "));
        }
        assert!(rules(&format!("{text}all different {}\n", names('w', windows))) <= 32);
    }
}

/// Lines about the same two windows are one rule where the lines don't fit.
#[test]
fn same_windows() {
    let eight =
        format!("windows {}\nduties {}\nall different {}\n", names('w', 8), names('d', 10), names('w', 8));
    let never: String = (1..8).map(|i| format!("never together w0 d{i} w{i} d0\n")).collect();
    assert_eq!(rules(&eight), 28);
    assert_eq!(rules(&(eight.clone() + "never together w0 d1 w1 d0\n")), 29);
    assert_eq!(rules(&(eight + &never)), 28);
}

#[test]
fn what_does_not_fit() {
    let nine = format!(
        "# wide\nwindows {}\nduties {}\n\nall different {}\n",
        names('w', 9),
        names('d', 10),
        names('w', 9)
    );
    let fault = make(&nine).unwrap_err().remove(0);
    assert_eq!(
        (fault.line, fault.text.as_str()),
        (
            5,
            "the rules don't fit: 36 pairs of windows kept apart need 36 rules, and at most 32 are allowed. A rule on \
             three windows says up to three pairs where at most 256 rows are left, here 0 threes of 84. What fits: at \
             most 6 duties at each of these windows (`may` or `clerk` lines make them fewer); or `all different` of at \
             most 8 windows, with any duties"
        )
    );
    let fault = make(&format!("{}exchange windows {}\n", twelve(), names('w', 11))).unwrap_err().remove(0);
    assert!(fault.text.contains(" need 33 rules, and at most 32 are allowed."), "{}", fault.text);
    assert!(fault.text.contains("and needs those that the exchanges carry it to as well"), "{}", fault.text);
    let alone: String = (0..33).map(|_| "rule w0\nrows d0\n").collect();
    let fault = make(&format!("windows w0 w1\nduties d0\n{alone}different w0 w1\n")).unwrap_err().remove(0);
    assert_eq!((fault.line, fault.text.as_str()), (67, "33 rules, and at most 32 are allowed"));
}

/// An exchange that the rules as written don't bear is explained by them; one that only the rules put together
/// don't bear says so.
#[test]
fn exchanges_of_rules_put_together() {
    let text = twelve() + "never together w0 d1 w1 d2\nexchange windows w0 w1\n";
    let fault = make(&text).unwrap_err().remove(0);
    assert_eq!(
        (fault.line, fault.text.as_str()),
        (
            5,
            "it doesn't respect the sheet: w0.d1 w1.d2 is forbidden, and its image w1.d1 w0.d2 is not (refused 16 0)"
        )
    );
    let text = format!(
        "windows {} a b c d\nduties {}\nmay a d0 d1 d2 d3\nmay b d0 d1 d2 d3\nmay c d0 d1 d2 d3\nmay d d0 d1 d2 d3\n\
         all different {}\nall different a b c d\n\
         exchange pairs a.d1 b.d0, a.d2 c.d0, a.d3 d.d0, b.d2 c.d1, b.d3 d.d1, c.d3 d.d2\n",
        names('w', 8),
        names('d', 10),
        names('w', 8)
    );
    let fault = make(&text).unwrap_err().remove(0);
    assert_eq!(fault.line, 9);
    assert!(fault.text.starts_with("it doesn't respect the sheet: "), "{}", fault.text);
    let end = " is not, once rules are put together on three windows to fit into 32 (refused 16 0)";
    assert!(fault.text.ends_with(end), "{}", fault.text);
    let fewer = text.replace(" w7", "");
    assert_eq!(make(&fewer).map(|made| made.problem.constraints.len()), Ok(27));
}

/// Windows change places while duties change at other windows alone.
#[test]
fn windows_taken_whole() {
    let nine = names('w', 9);
    let pairs: Vec<String> = (0..7).map(|duty| format!("w0.d{duty} w1.d{duty}")).collect();
    let text = format!(
        "windows {nine} x\nduties {}\nmay x d0 d1\nall different {nine}\nexchange pairs {}, x.d0 x.d1\n",
        names('d', 7),
        pairs.join(", ")
    );
    assert!(rules(&text) <= 32);
}
