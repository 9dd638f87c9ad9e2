//! Every refusal has words, and the library is of the wrapper's version.

use planner::{item_words, question, version, words, VERSION};

#[test]
fn every_number_has_words() {
    for number in (1..=44).chain([255]) {
        assert!(words(number).is_some_and(|words| words.len() > 10), "{number}");
    }
    assert_eq!([0, 45, 254, 256].map(words), [None; 4]);
    assert_eq!([7, 8, 13, 16].map(item_words), [None, Some("window"), Some("rule"), Some("exchange")]);
    assert_eq!(question(&[]).unwrap_err().words(), "the sheet has at least 16 bytes");
}

#[test]
fn one_version() {
    assert_eq!(version().to_string(), VERSION);
}
