//! Where there is no plan: the lines that `why` leaves have none, and each of them is needed.

use sheet::listing::Limits;
use sheet::make::make_stated;
use sheet::parse::parse;
use sheet::text::Text;
use sheet::watch::Watch;
use sheet::why::{narrow, Left};
use sheets::Rng;

use crate::common::enumerated;

const LIMITS: Limits = Limits { trials: 1_000_000, plans: 1, first: true };

/// The lines left have no plan, and with any one of them left out there is one, by plain enumeration.
fn each_is_needed(text: &Text, left: &Left) {
    assert!(left.open.is_empty());
    assert!(!left.lines.is_empty());
    let alone = Text { statements: left.lines.clone(), ..text.clone() };
    assert!(enumerated(&alone).is_empty());
    for out in 0..left.lines.len() {
        let mut fewer = alone.clone();
        fewer.statements.remove(out);
        assert!(!enumerated(&fewer).is_empty(), "line {} isn't needed", left.lines[out].first);
    }
}

/// Four windows, four duties, and lines of each kind.
fn random_text(rng: &mut Rng) -> String {
    let mut text = "windows a b c d\nduties w x y z\n".to_string();
    let windows = ["a", "b", "c", "d"];
    let duties = ["w", "x", "y", "z"];
    for window in windows {
        if rng.chance(60) {
            text += &format!("may {window} {} {}\n", rng.pick(&duties), rng.pick(&duties));
        }
    }
    for _ in 0..6 {
        let first = rng.below(3);
        let (one, other) = (windows[first], windows[first + 1 + rng.below(3 - first)]);
        let (duty, second) = (rng.pick(&duties), rng.pick(&duties));
        text += &match rng.below(6) {
            0 => format!("different {one} {other}\n"),
            1 => "all different a b c d\n".to_string(),
            2 => format!("never together {one} {duty} {other} {second}\n"),
            3 => format!("forbid {one} {duty}, {other} {second}\n"),
            4 => format!("rule {one} {other}\n  rows {duty} {second}\n"),
            _ => format!("at least 1 {duty} {one} {other}\n"),
        };
    }
    text
}

#[test]
fn random_texts() {
    let mut rng = Rng::new(3);
    let mut none = 0;
    for _ in 0..400 {
        let text = parse(&random_text(&mut rng)).expect("a text");
        if make_stated(&text).is_ok() && enumerated(&text).is_empty() {
            none += 1;
            each_is_needed(&text, &narrow(&text, LIMITS, &Watch::nobody()));
        }
    }
    assert!(none > 50, "{none}");
}

/// Exchanges that the lines left no longer bear are left out, and the others help.
#[test]
fn exchanges() {
    let text = "windows a b c d e f g h\nduties t u v w x y z\nmay a t u v w x y z\nmay b t u v w x y z\n\
                all different a b c d e f g h\nnever together a t b u\nnever together b t a u\n\
                exchange windows a b\nexchange windows c d e f g h\nexchange duties v w x y z\n";
    let text = parse(text).unwrap();
    let left = narrow(&text, LIMITS, &Watch::nobody());
    assert_eq!(left.lines.iter().map(|stated| stated.first).collect::<Vec<_>>(), [5]);
    assert!(left.open.is_empty());
}

/// With a small allowance a line may stay of which it isn't known.
#[test]
fn stopped_short() {
    let text =
        "windows a b c d e f g h\nduties t u v w x y z\nall different a b c d e f g h\ndifferent a b\n";
    let text = parse(text).unwrap();
    let left = narrow(&text, Limits { trials: 100, ..LIMITS }, &Watch::nobody());
    assert_eq!(left.lines.iter().map(|stated| stated.first).collect::<Vec<_>>(), [3, 4]);
    assert_eq!(left.open, [4]);
}
