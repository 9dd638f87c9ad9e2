//! `sheets FOLDER COUNT [SEED]` writes random sheets, every second one damaged, as FOLDER/NUMBER.sheet;
//! `sheets typed SHEET PAIRS > TYPED` writes the sheet of the same hall typed in the order of the pairs.

use oracle::lent::question_lent;
use sheets::{damaged, encode, problem, typed_in, Rng};
use std::io::Write;

fn main() -> std::io::Result<()> {
    let words: Vec<String> = std::env::args().skip(1).collect();
    let words: Vec<&str> = words.iter().map(String::as_str).collect();
    match words[..] {
        ["typed", sheet, pairs] => typed(sheet, pairs),
        [folder, count] => random(folder, count, "1"),
        [folder, count, seed] => random(folder, count, seed),
        _ => {
            eprintln!("sheets FOLDER COUNT [SEED]  |  sheets typed SHEET PAIRS > TYPED");
            std::process::exit(2);
        }
    }
}

fn random(folder: &str, count: &str, seed: &str) -> std::io::Result<()> {
    let mut rng = Rng::new(seed.parse().expect("SEED is a number"));
    for number in 0..count.parse().expect("COUNT is a number") {
        let problem = problem(&mut rng);
        let sheet = if number % 2 == 1 { damaged(&mut rng, &problem) } else { encode(&problem) };
        std::fs::write(format!("{folder}/{number}.sheet"), sheet)?;
    }
    Ok(())
}

fn typed(sheet: &str, pairs: &str) -> std::io::Result<()> {
    match question_lent(&std::fs::read(sheet)?, &std::fs::read(pairs)?, &[]) {
        Ok((problem, order)) => std::io::stdout().write_all(&encode(&typed_in(&problem, &order))),
        Err(refusal) => {
            eprintln!("refused {} {}", refusal.number, refusal.item);
            std::process::exit(1)
        }
    }
}
