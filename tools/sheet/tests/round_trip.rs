//! Text to sheet to text to the same sheet; refusals of any damaged sheet explained.

use sheet::{explain, make, show, Problem};
use sheets::{damaged, encode, large_problem, problem, Rng};
use std::path::Path;

/// The sheet's text gives the sheet again, and the text again.
fn round_trip(bytes: &[u8]) {
    let text = show(&Problem::decode(bytes));
    let again = make(&text).unwrap_or_else(|faults| panic!("{faults:?}\n{text}"));
    assert_eq!(again.sheet, bytes, "{text}");
    assert_eq!(show(&Problem::decode(&again.sheet)), text);
}

#[test]
fn random_sheets() {
    let mut rng = Rng::new(1);
    for number in 0..1000 {
        let problem = if number % 20 == 0 { large_problem(&mut rng) } else { problem(&mut rng) };
        round_trip(&encode(&problem));
    }
}

#[test]
fn stored_sheets() {
    let root = Path::new(env!("CARGO_MANIFEST_DIR")).join("../..");
    let shared = std::env::var("SHARED_BENCH").map_or(root.join("../shared/bench"), |folder| folder.into());
    for folder in [root.join("examples"), shared] {
        let Ok(entries) = std::fs::read_dir(&folder) else {
            println!("no folder {}, skipped", folder.display());
            continue;
        };
        for entry in entries.flatten() {
            if entry.path().extension().is_some_and(|word| word == "sheet") {
                round_trip(&std::fs::read(entry.path()).unwrap());
            }
        }
    }
}

/// The repository's texts give the sheets beside them.
#[test]
fn examples() {
    let folder = Path::new(env!("CARGO_MANIFEST_DIR")).join("../../examples");
    for entry in std::fs::read_dir(folder).unwrap().flatten() {
        if entry.path().extension().is_some_and(|word| word == "txt") {
            let text = std::fs::read_to_string(entry.path()).unwrap();
            let sheet = std::fs::read(entry.path().with_extension("sheet")).unwrap();
            assert_eq!(make(&text).map(|made| made.sheet), Ok(sheet), "{}", entry.path().display());
        }
    }
}

/// Every refusal from 1 to 16 is explained, and the explanation names it.
#[test]
fn refusals() {
    let mut rng = Rng::new(1);
    let mut seen = [0; 17];
    for _ in 0..4000 {
        let problem = problem(&mut rng);
        let sheet = damaged(&mut rng, &problem);
        match (planner::question(&sheet), explain(&sheet)) {
            (Ok(()), Ok(words)) => assert!(words.starts_with("accepted")),
            (Err(refusal), Err(words)) => {
                assert!(words.starts_with(&refusal.to_string()), "{words}");
                seen[refusal.number as usize] += 1;
            }
            (answer, words) => panic!("{answer:?}: {words:?}"),
        }
    }
    assert!(seen[1..].iter().all(|&count| count > 0), "{seen:?}");
}
