//! `oracle < SHEET` prints the report; `oracle question SHEET` prints "accepted" or the refusal.

use std::io::{Read, Write};

fn main() -> std::io::Result<()> {
    let words: Vec<String> = std::env::args().skip(1).collect();
    let words: Vec<&str> = words.iter().map(String::as_str).collect();
    match words[..] {
        [] => {
            let mut input = Vec::new();
            std::io::stdin().read_to_end(&mut input)?;
            std::io::stdout().write_all(oracle::report(&input).as_bytes())
        }
        ["question", file] => {
            match oracle::question(&std::fs::read(file)?) {
                Ok(_) => println!("accepted"),
                Err(refusal) => println!("refused {} {}", refusal.number, refusal.item),
            }
            Ok(())
        }
        _ => {
            eprintln!("oracle < SHEET  |  oracle question SHEET");
            std::process::exit(2)
        }
    }
}
