//! Paths of a run in parts as words: `start`, `end`, or the numbers of duties in the order in which windows are settled, as `3.0.12`.

use planner::{END, START};

/// The most values of a path.
const LONGEST: usize = 12;

/// A path as one word that no shell takes apart.
pub fn word(path: &[u8]) -> String {
    match path {
        START => "start".to_string(),
        END => "end".to_string(),
        _ => path.iter().map(u8::to_string).collect::<Vec<_>>().join("."),
    }
}

/// The path that a word stands for, if it stands for one; none comes after `end`.
pub fn path(word: &str) -> Option<Vec<u8>> {
    match word {
        "start" => return Some(START.to_vec()),
        "end" => return Some(END.to_vec()),
        _ => {}
    }
    let value = |digits: &str| match digits.bytes().all(|byte| byte.is_ascii_digit()) {
        true => digits.parse::<u8>().ok(),
        false => None,
    };
    let path = word.split('.').map(value).collect::<Option<Vec<u8>>>()?;
    (path.len() <= LONGEST && path[..] <= *END).then_some(path)
}

#[cfg(test)]
mod tests {
    use super::*;

    #[test]
    fn words_and_paths() {
        let paths: [&[u8]; 5] = [START, END, &[3, 0, 12], &[0], &[7; 12]];
        for one in paths {
            assert_eq!(path(&word(one)).as_deref(), Some(one));
        }
        assert_eq!(word(&[3, 0, 12]), "3.0.12");
        assert_eq!(path("255").as_deref(), Some(END));
        for wrong in
            ["", "-", ".", "3.", ".3", "3..4", "256", "+3", "x", "3,4", "255.0", "0.0.0.0.0.0.0.0.0.0.0.0.0"]
        {
            assert_eq!(path(wrong), None, "{wrong}");
        }
    }
}
