//! Counts over any number of windows: what can be said by rules on three windows is said, and no more is refused.

use planner::Ending;
use sheet::listing::{list, Limits};
use sheet::make::make;
use sheet::parse::parse;
use sheet::runner::Manner;
use sheet::text::{Statement, Text};
use sheet::watch::Watch;
use sheets::Rng;
use std::collections::BTreeSet;

use crate::common::enumerated;

const ALL: Limits = Limits { trials: u32::MAX, plans: 100_000, first: false };

type Plan = Vec<usize>;

/// Four to six windows with up to three duties, and one count over most of them.
fn hall(rng: &mut Rng) -> String {
    let windows: Vec<String> = (0..4 + rng.below(3)).map(|i| format!("w{i}")).collect();
    let mut text = format!("windows {}\nduties x y z\n", windows.join(" "));
    for window in &windows {
        text += match rng.below(6) {
            0 => "may WINDOW y z\n",
            1 => "may WINDOW x\n",
            2 => "may WINDOW x y\n",
            _ => "",
        }
        .replace("WINDOW", window)
        .as_str();
    }
    let scope = &windows[..4 + rng.below(windows.len() - 3)];
    let word = rng.pick(&["at least", "at most", "exactly"]);
    text + &format!("{word} {} x {}\n", rng.below(scope.len() + 1), scope.join(" "))
}

/// The rows of all plans on three windows, for every three, and whatever has only such rows.
fn joined(text: &Text, plans: &[Plan]) -> Vec<Plan> {
    let n = text.variables.len();
    let threes: Vec<[usize; 3]> =
        (0..n).flat_map(|a| (a + 1..n).flat_map(move |b| (b + 1..n).map(move |c| [a, b, c]))).collect();
    let row = |plan: &Plan, three: &[usize; 3]| three.map(|window| plan[window]);
    let rows: Vec<BTreeSet<[usize; 3]>> =
        threes.iter().map(|three| plans.iter().map(|plan| row(plan, three)).collect()).collect();
    let mut free = text.clone();
    free.statements.retain(|stated| matches!(stated.statement, Statement::May(..)));
    let fits = |plan: &Plan| threes.iter().zip(&rows).all(|(three, rows)| rows.contains(&row(plan, three)));
    enumerated(&free).into_iter().filter(fits).collect()
}

#[test]
fn by_rules_on_three_windows() {
    let mut rng = Rng::new(38);
    let (mut said, mut not) = (0, 0);
    for _ in 0..600 {
        let source = hall(&mut rng);
        let text = parse(&source).unwrap();
        let plans = enumerated(&text);
        match make(&source) {
            Ok(made) => {
                let listing = list(&made, ALL, &Manner::default(), &Watch::nobody()).unwrap();
                assert_eq!(listing.ending, Ending::Finished);
                let listed = listing.plans.iter().map(|plan| plan.iter().map(|&duty| duty.into()).collect());
                assert_eq!(listed.collect::<Vec<Plan>>(), plans, "{source}");
                said += usize::from(!plans.is_empty());
            }
            Err(faults) => {
                assert!(faults[0].text.starts_with("it doesn't fit: a rule has at most three windows"));
                assert_ne!(joined(&text, &plans), plans, "{source}");
                not += 1;
            }
        }
    }
    assert!(said > 100 && not > 50, "{said} said, {not} not");
}

/// Counts that make more than 32 rules of two windows are put together, and mean the same.
#[test]
fn put_together() {
    let mut rng = Rng::new(9);
    let windows: Vec<String> = (0..9).map(|i| format!("w{i}")).collect();
    let mut plans = 0;
    for _ in 0..20 {
        let mut source = format!("windows {}\nduties d0 d1 d2 d3 d4\n", windows.join(" "));
        for window in &windows {
            let duties: Vec<String> = (0..3).map(|i| format!("d{}", (i + rng.below(3)) % 5)).collect();
            source += &format!("may {window} {}\n", duties.join(" "));
        }
        for duty in 0..4 {
            source += &format!("at most 1 d{duty} {}\n", windows[..7 + rng.below(3)].join(" "));
        }
        let made = make(&source).unwrap_or_else(|faults| panic!("{faults:?}\n{source}"));
        let listing = list(&made, ALL, &Manner::default(), &Watch::nobody()).unwrap();
        let listed = listing.plans.iter().map(|plan| plan.iter().map(|&duty| duty.into()).collect());
        assert_eq!(listed.collect::<Vec<Plan>>(), enumerated(&parse(&source).unwrap()), "{source}");
        assert!(made.problem.constraints.len() <= 32);
        plans += listing.plans.len();
    }
    assert!(plans > 0);
}

/// Counts beside `all different` are put together with it, and exchanges find their rules again.
#[test]
fn beside_other_rules() {
    let eight = "windows a b c d e f g h\nduties 0 1 2 3 4 5 6 7 8 9\nall different a b c d e f g h\n";
    let made = make(&format!("{eight}at most 1 9 a b c d e f g h\nexchange windows a b\n")).unwrap();
    assert_eq!(made.problem.constraints.len(), 28);
    let five =
        "windows a b c d e\nduties x y\nat most 2 x a b c d e\nexchange windows a b c d e\nalike a b c\n";
    assert_eq!(make(five).unwrap().problem.constraints.len(), 10);
}

#[test]
fn what_does_not_fit() {
    let fault =
        make("windows a b c d e\nduties x y\nfix e y\nat least 1 x a b c d e\n").unwrap_err().remove(0);
    assert_eq!(
        (fault.line, fault.text.as_str()),
        (
            4,
            "it doesn't fit: a rule has at most three windows, and 4 of these may have `x`, a, b, c and d. Of so many it \
             can be said that at least 2 of them have it; anything of three windows: fewer by `clerk` or `may` lines, or \
             `fix` it at one"
        )
    );
    assert!(make("windows a b c d e\nduties x y\nfix e y\nfix d y\nat least 1 x a b c d e\n").is_ok());
    let seven = "windows a b c d e f g\nduties x y\n";
    let said = |count: &str| make(&format!("{seven}{count} x a b c d e f g\n")).unwrap_err().remove(0).text;
    let fits = |what: &str| {
        format!(
            "it doesn't fit: a rule has at most three windows, there are at most 32 rules, and 7 of these may have `x`, a, \
             b, c, d, e, f and g. Of so many it can be said that {what} of them have it; anything of three windows: fewer \
             by `clerk` or `may` lines, or `fix` it at one"
        )
    };
    assert_eq!(said("at most 2"), fits("at most 0 or 1"));
    assert_eq!(said("at least 5"), fits("at least 6"));
    for count in ["at most 0", "at most 1", "at least 6", "exactly 7"] {
        assert!(make(&format!("{seven}{count} x a b c d e f g\n")).is_ok(), "{count}");
    }
    let six = "windows a b c d e f\nduties x y\nat most 2 x a b c d e f\n";
    assert_eq!(make(six).unwrap().problem.constraints.len(), 20);
}
