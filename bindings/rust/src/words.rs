//! Refusals in words.

/// A row for each number: the number, what the item is ("-" where it is 0), the words.
const TABLE: &str = include_str!("../../words.txt");

/// What the item is and what is asked, by the number.
fn row(number: u32) -> Option<(&'static str, &'static str)> {
    TABLE.lines().find_map(|line| {
        let (first, rest) = line.split_once(" | ")?;
        (first.parse() == Ok(number)).then(|| rest.split_once(" | "))?
    })
}

/// What the question with a number asks: a refusal with that number says that it isn't so.
pub fn words(number: u32) -> Option<&'static str> {
    row(number).map(|(_, words)| words)
}

/// What the item of a refusal with a number is: a window, a rule, an exchange or an entry; `None` where it is 0.
pub fn item_words(number: u32) -> Option<&'static str> {
    row(number).map(|(item, _)| item).filter(|item| *item != "-")
}
