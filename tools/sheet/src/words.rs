//! Words of a text, numbers and names for people.

use crate::letters::{composed, odd};

/// The most characters of a name.
pub const LONGEST_NAME: usize = 64;

/// The words of a line without its comment; each comma is a word. A name in quotes is one word and keeps its quotation
/// marks, so that it is never taken for a word of the line's own. The error is what is wrong with a word.
pub fn words(line: &str) -> Result<Vec<&str>, String> {
    let mut words = Vec::new();
    let mut rest = line.trim_start_matches(is_gap);
    while !rest.is_empty() && !rest.starts_with('#') {
        let end = if rest.starts_with(',') { 1 } else { word_end(rest)? };
        let word = &rest[..end];
        match odd(word) {
            Some(wrong) => return Err(wrong),
            None if word.contains('#') && !word.contains('"') => {
                return Err(format!("`#` inside the word `{word}`; a comment starts after a space"));
            }
            None => words.push(word),
        }
        rest = rest[end..].trim_start_matches(is_gap);
    }
    Ok(words)
}

/// What parts words: the plain white space.
fn is_gap(letter: char) -> bool {
    letter.is_ascii_whitespace()
}

/// Where the first word of a line ends. Quotation marks open at its start and after a point, and what follows them
/// is a space, a comma or a point.
fn word_end(line: &str) -> Result<usize, String> {
    let (mut end, mut opens) = (0, true);
    while let Some(letter) = line[end..].chars().next() {
        let word = || line[..].split(is_gap).next().unwrap_or(line);
        match letter {
            '"' if opens => {
                let Some(close) = quoted_end(&line[end..]) else {
                    return Err(format!("a quotation mark without its second: {}", shortened(&line[end..])));
                };
                end += close;
                match line[end..].chars().next() {
                    Some(next) if !is_gap(next) && !matches!(next, ',' | '.') => {
                        return Err(format!("`{next}` right after the quotation mark of {}", &line[..end]));
                    }
                    _ => opens = false,
                }
            }
            '"' => {
                return Err(format!(
                    "a lone quotation mark in `{}`; a name in quotes starts and ends with one, and has two for one inside",
                    word()
                ));
            }
            ',' => break,
            _ if is_gap(letter) => break,
            _ => {
                opens = letter == '.';
                end += letter.len_utf8();
            }
        }
    }
    Ok(end)
}

/// Where the quoted part at the start of a line ends; two quotation marks inside stand for one.
fn quoted_end(line: &str) -> Option<usize> {
    let mut at = 1;
    loop {
        at += line[at..].find('"')? + 1;
        match line[at..].starts_with('"') {
            true => at += 1,
            false => return Some(at),
        }
    }
}

/// The first characters of a line that is long.
fn shortened(line: &str) -> &str {
    line.char_indices().nth(30).map_or(line, |(end, _)| &line[..end])
}

/// The name that a word stands for: without its quotation marks, with composed letters.
pub fn name_of(word: &str) -> String {
    match word.starts_with('"') && quoted_end(word) == Some(word.len()) {
        true => composed(&word[1..word.len() - 1].replace("\"\"", "\"")),
        false => composed(word),
    }
}

/// The two words of a pair such as `cash.ann`, parted by the first point outside quotation marks.
pub fn halves(word: &str) -> Option<(&str, &str)> {
    let quoted = if word.starts_with('"') { quoted_end(word)? } else { 0 };
    let point = quoted + word[quoted..].find('.')?;
    Some((&word[..point], &word[point + 1..]))
}

/// A name as a text has it: in quotation marks where it isn't a plain word.
pub fn written(name: &str) -> String {
    let is_plain = |letter: char| !letter.is_whitespace() && !matches!(letter, ',' | '.' | '#' | '"');
    match !name.is_empty() && name.chars().all(is_plain) && !["windows", "duties"].contains(&name) {
        true => name.to_string(),
        false => format!("\"{}\"", name.replace('"', "\"\"")),
    }
}

/// Names as a text has them, in a row.
pub fn written_all<T: AsRef<str>>(names: impl IntoIterator<Item = T>) -> String {
    names.into_iter().map(|name| written(name.as_ref())).collect::<Vec<_>>().join(" ")
}

/// The name nearest to a word, if one is near.
pub fn nearest_name<'a>(word: &str, names: &'a [String]) -> Option<&'a String> {
    let near = |name: &&String| distance(word, name) <= word.chars().count().min(6) / 3;
    match word.chars().count() > 2 * LONGEST_NAME {
        true => None,
        false => names.iter().filter(near).min_by_key(|name| distance(word, name)),
    }
}

/// A hint at the name nearest to a word, if one is near.
pub fn nearest(word: &str, names: &[String]) -> String {
    nearest_name(word, names).map_or(String::new(), |name| format!("; did you mean `{name}`?"))
}

/// How many letters have to be added, taken away or changed to get from one word to the other.
fn distance(a: &str, b: &str) -> usize {
    let b: Vec<char> = b.chars().collect();
    let mut row: Vec<usize> = (0..=b.len()).collect();
    for (i, x) in a.chars().enumerate() {
        let mut corner = row[0];
        row[0] = i + 1;
        for j in 0..b.len() {
            let change = corner + usize::from(x != b[j]);
            corner = row[j + 1];
            row[j + 1] = change.min(row[j] + 1).min(corner + 1);
        }
    }
    row[b.len()]
}

/// A number with commas between its thousands.
pub fn grouped(number: impl Into<u64>) -> String {
    let digits = number.into().to_string();
    let mut text = String::new();
    for (i, digit) in digits.chars().enumerate() {
        if i > 0 && (digits.len() - i) % 3 == 0 {
            text.push(',');
        }
        text.push(digit);
    }
    text
}

/// A number and a word for what it counts, as "13 plans".
pub fn counted(number: impl Into<u64>, word: &str) -> String {
    match number.into() {
        1 => format!("1 {word}"),
        number => format!("{} {word}s", grouped(number)),
    }
}

/// How many families.
pub fn families(count: u32) -> String {
    match count {
        1 => "1 family".to_string(),
        count => format!("{} families", grouped(count)),
    }
}

/// Names in a row: "a", "a and b", "a, b and c".
pub fn listed<T: AsRef<str>>(names: &[T]) -> String {
    match names {
        [] => String::new(),
        [name] => name.as_ref().to_string(),
        [rest @ .., last] => {
            let rest: Vec<&str> = rest.iter().map(AsRef::as_ref).collect();
            format!("{} and {}", rest.join(", "), last.as_ref())
        }
    }
}
