//! Fixed duties, preferences and the parts of a hall, beside plain enumeration.

use planner::Ending;
use sheet::best::best;
use sheet::command::Source;
use sheet::fixed::kept;
use sheet::input::Input;
use sheet::listing::{list, Limits};
use sheet::make::{make_all, Made};
use sheet::pairs::order;
use sheet::parse::parse;
use sheet::parts::{Parts, Read};
use sheet::problem::Problem;
use sheet::runner::Manner;
use sheet::score::Score;
use sheet::text::Text;
use sheet::watch::Watch;
use sheets::Rng;
use std::collections::BTreeSet;

use crate::common::enumerated;

const ALL: Limits = Limits { trials: u32::MAX, plans: 10_000, first: false };

type Plan = Vec<usize>;

/// A hall of four windows that look alike by twos, with exchanges that hold without the lines of the day.
fn hall(rng: &mut Rng) -> String {
    let rules = ["", "all different a b c d\n", "different a b\ndifferent c d\n", "at most 1 z a b c d\n"];
    let exchanges = [
        "exchange windows a b\n",
        "exchange windows c d\n",
        "exchange windows a b, c d\n",
        "exchange windows a c, b d\n",
        "exchange duties w x\n",
        "exchange windows a b duties w x\n",
        "exchange pairs a.w b.w, a.x b.x, a.y b.y, a.z b.z\n",
    ];
    let mut text = "windows a b c d\nduties w x y z\n".to_string() + rng.pick(&rules);
    for exchange in exchanges {
        if rng.chance(40) {
            text += exchange;
        }
    }
    match rng.below(4) {
        0 => text + "alike a b\n",
        1 if !text.contains("\ndifferent") => text + "alike b c d\n",
        _ => text,
    }
}

/// Some lines of the day.
fn day(rng: &mut Rng) -> String {
    let mut text = String::new();
    for window in ["a", "b", "c", "d"] {
        if rng.chance(30) {
            text += &format!("fix {window} {}\n", rng.pick(&["w", "x", "y", "z"]));
        }
    }
    if rng.chance(20) {
        text += &format!("away {}\n", rng.pick(&["x", "z"]));
    }
    text
}

fn image(problem: &Problem, table: &[usize], plan: &[usize]) -> Plan {
    let d = problem.values.len();
    let mut image = plan.to_vec();
    for (window, value) in plan.iter().enumerate() {
        let pair = table[window * d + value];
        image[pair / d] = pair % d;
    }
    image
}

/// The tables of the exchanges, and of the trades of any two alike windows.
fn tables(made: &Made) -> Vec<Vec<usize>> {
    let d = made.problem.values.len();
    let mut tables = made.problem.symmetries.clone();
    if let [first, count] = made.block[..] {
        let windows = usize::from(first)..usize::from(first + count);
        for (one, other) in
            windows.clone().flat_map(|one| (one + 1..windows.end).map(move |other| (one, other)))
        {
            let mut table: Vec<usize> = (0..d * made.problem.variables.len()).collect();
            (0..d).for_each(|value| table.swap(one * d + value, other * d + value));
            tables.push(table);
        }
    }
    tables
}

fn listed(made: &Made) -> Vec<Plan> {
    let listing = list(made, ALL, &Manner::default(), &Watch::nobody()).unwrap();
    assert_eq!(listing.ending, Ending::Finished);
    listing.plans.iter().map(|plan| plan.iter().map(|&duty| duty.into()).collect()).collect()
}

/// No plan is lost and none is added: the exchanges that are kept make all solutions of the listed plans.
#[test]
fn fixed_duties() {
    let mut rng = Rng::new(11);
    let (mut left_out, mut stay) = (0, 0);
    for _ in 0..400 {
        let text = parse(&(hall(&mut rng) + &day(&mut rng))).unwrap();
        let Ok(kept) = kept(&text) else { continue };
        let made = make_all(&kept.text).unwrap_or_else(|faults| panic!("{faults:?} {:?}", text.statements));
        let mut made_of: BTreeSet<Plan> = listed(&made).into_iter().collect();
        let mut new: Vec<Plan> = made_of.iter().cloned().collect();
        while let Some(plan) = new.pop() {
            let images = tables(&made).into_iter().map(|table| image(&made.problem, &table, &plan));
            new.extend(images.filter(|image| made_of.insert(image.clone())).collect::<Vec<_>>());
        }
        assert_eq!(made_of.into_iter().collect::<Vec<_>>(), enumerated(&text));
        left_out += kept.broken.len();
        stay += made.problem.symmetries.len();
    }
    assert!(left_out > 200 && stay > 200, "{left_out} left out, {stay} stay");
}

/// Reads a text as a file.
fn input(name: &str, text: &str) -> (Input, Source) {
    let file = std::env::temp_dir().join(format!("sheet-{}-{name}.txt", std::process::id()));
    std::fs::write(&file, text).unwrap();
    let source = Source(file.to_string_lossy().into());
    let input = Input::read(&source);
    std::fs::remove_file(&file).unwrap();
    (input.unwrap_or_else(|stop| panic!("{}", stop.said())), source)
}

fn wishes(rng: &mut Rng) -> String {
    let wish = |rng: &mut Rng| {
        let [window, duty] = [["a", "b", "c", "d"], ["w", "x", "y", "z"]].map(|names| rng.pick(&names));
        format!("{} {window} {duty} {}\n", rng.pick(&["prefer", "avoid"]), 1 + rng.below(3))
    };
    (0..rng.below(10)).map(|_| wish(rng)).collect()
}

/// All solutions but those that an exchange makes of an earlier one, if every pair costs the same as its image; cheapest
/// first, then as read.
fn by_hand(input: &Input, score: &Score) -> Vec<Plan> {
    let (problem, plans) = (&input.made.problem, enumerated(&input.text));
    let d = problem.values.len();
    let cost = |pair: &usize| score.of(pair / d, pair % d);
    let kept: Vec<Vec<usize>> = tables(&input.made)
        .into_iter()
        .filter(|table| problem.pairs().iter().all(|pair| cost(pair) == cost(&table[*pair])))
        .collect();
    let order = order(4, &input.made.pairs);
    let reading = |plan: &Plan| order.iter().map(|&window| plan[window]).collect::<Plan>();
    let is_made = |plan: &Plan| {
        let mut earlier = plans.iter().filter(|other| reading(other) < reading(plan));
        earlier.any(|other| kept.iter().any(|table| image(problem, table, other) == *plan))
    };
    let mut first: Vec<Plan> = plans.iter().filter(|plan| !is_made(plan)).cloned().collect();
    let total =
        |plan: &Plan| plan.iter().enumerate().map(|(window, &value)| score.of(window, value)).sum::<u64>();
    first.sort_by_key(|plan| (total(plan), reading(plan)));
    first
}

fn before(rng: &mut Rng) -> &'static str {
    if rng.chance(40) {
        "before d a\nbefore c b\n"
    } else {
        ""
    }
}

#[test]
fn best_plans() {
    let mut rng = Rng::new(5);
    let (mut told_apart, mut kept) = (0, 0);
    for _ in 0..400 {
        let (input, source) = input("best", &(hall(&mut rng) + &wishes(&mut rng) + before(&mut rng)));
        let score = Score::new(&input.text, &source, &[]).unwrap();
        let count = 1 + rng.below(12);
        let found = best(&input, &score, count, 1_000_000, rng.chance(30), &Watch::nobody()).unwrap();
        let expected: Vec<Plan> = by_hand(&input, &score).into_iter().take(count).collect();
        let plans: Vec<Plan> =
            found.plans.iter().map(|plan| plan.iter().map(|&duty| duty.into()).collect()).collect();
        assert_eq!(plans, expected, "{}", input.source);
        assert_eq!(found.ending, Read::Done);
        kept += found.exchanges[0];
        told_apart += found.exchanges[1];
    }
    assert!(kept > 100 && told_apart > 100, "{kept} kept, {told_apart} not");
}

/// Stopped short, the plans so far are in order, and each that costs less than what is said is among them.
#[test]
fn stopped_short() {
    let mut rng = Rng::new(6);
    let mut short = 0;
    for _ in 0..200 {
        let (input, source) = input("short", &(hall(&mut rng) + &wishes(&mut rng)));
        let score = Score::new(&input.text, &source, &[]).unwrap();
        let found =
            best(&input, &score, 1_000, 1 + rng.below(60) as u32, rng.chance(30), &Watch::nobody()).unwrap();
        if found.ending == Read::Spent {
            short += 1;
            let cost = |plan: &[u8]| score.of_plan(plan);
            assert!(found.plans.is_sorted_by_key(|plan| cost(plan)));
            let as_bytes = |plan: &Plan| plan.iter().map(|&duty| duty as u8).collect::<Vec<u8>>();
            let cheaper: Vec<Vec<u8>> = by_hand(&input, &score).iter().map(as_bytes).collect();
            let cheaper: Vec<&Vec<u8>> = cheaper.iter().filter(|plan| cost(plan) < found.cost).collect();
            assert!(found.plans.iter().take(cheaper.len()).eq(cheaper));
        }
    }
    assert!(short > 50, "{short}");
}

/// However short the list, part by part all solutions are shown, once and as read, with `before` lines too.
#[test]
fn parts() {
    let mut rng = Rng::new(7);
    for round in 0..200 {
        let text = parse(&(hall(&mut rng) + before(&mut rng))).unwrap();
        let Text { statements, .. } = &text;
        let bare = statements.iter().filter(|stated| !stated.statement.exchanges()).cloned().collect();
        let made = make_all(&Text { statements: bare, ..text.clone() }).unwrap();
        let watch = Watch::nobody();
        let mut parts = Parts::new(&made.problem, &made.pairs, u32::MAX, &watch);
        let mut shown = Vec::new();
        let read = parts.each(made.problem.initial.clone(), [u32::MAX, 1 + round % 4], |plan| {
            shown.push(plan.iter().map(|&duty| duty.into()).collect::<Plan>());
            true
        });
        assert_eq!(read, Ok(Read::Done));
        assert_eq!(shown, listed(&made));
    }
}
