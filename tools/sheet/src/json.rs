//! JSON as it is written: an object with a field a line, and a long list as its last field with a row a line.

use crate::command::Choice;
use std::fmt;
use std::io::{Result, Write};

pub const JSON_OPTION: Choice = Choice {
    name: "--json",
    value: None,
    about: "as one JSON object, faults and refusals too; docs/schema/sheet.json says what is in it",
};

#[derive(Clone, Debug, PartialEq, Eq)]
pub enum Json {
    Null,
    Bool(bool),
    Number(u64),
    Text(String),
    List(Vec<Json>),
    Object(Vec<(String, Json)>),
}

/// The fields of an object, in the order in which they stand.
pub type Fields = Vec<(&'static str, Json)>;

/// An object of fields.
pub fn object(fields: Fields) -> Json {
    Json::Object(fields.into_iter().map(|(name, value)| (name.to_string(), value)).collect())
}

/// A list.
pub fn list<T: Into<Json>>(values: impl IntoIterator<Item = T>) -> Json {
    Json::List(values.into_iter().map(Into::into).collect())
}

/// Writes an object whose last field is a list with a row a line.
pub fn write_rows(
    out: &mut dyn Write,
    fields: &Fields,
    last: &str,
    rows: impl Iterator<Item = Json>,
) -> Result<()> {
    writeln!(out, "{{")?;
    fields.iter().try_for_each(|(name, value)| writeln!(out, "  {}: {value},", quoted(name)))?;
    write!(out, "  {}: [", quoted(last))?;
    let mut gap = "\n";
    for row in rows {
        write!(out, "{gap}    {row}")?;
        gap = ",\n";
    }
    writeln!(out, "{}]\n}}", if gap == "\n" { "" } else { "\n  " })
}

/// The same as a text.
pub fn rows_text(fields: &Fields, last: &str, rows: impl Iterator<Item = Json>) -> String {
    let mut bytes = Vec::new();
    write_rows(&mut bytes, fields, last, rows).expect("a text takes all");
    String::from_utf8(bytes).expect("JSON is a text")
}

/// An object without such a list, as a text.
pub fn fields_text(fields: &Fields) -> String {
    let lines = fields.iter().map(|(name, value)| format!("  {}: {value}", quoted(name)));
    format!("{{\n{}\n}}\n", lines.collect::<Vec<_>>().join(",\n"))
}

/// A text in quotation marks.
fn quoted(text: &str) -> String {
    let letter = |letter: char| match letter {
        '"' => "\\\"".to_string(),
        '\\' => "\\\\".to_string(),
        '\n' => "\\n".to_string(),
        control if control < ' ' => format!("\\u{:04x}", control as u32),
        other => other.to_string(),
    };
    format!("\"{}\"", text.chars().map(letter).collect::<String>())
}

/// On one line.
impl fmt::Display for Json {
    fn fmt(&self, f: &mut fmt::Formatter) -> fmt::Result {
        match self {
            Json::Null => write!(f, "null"),
            Json::Bool(value) => write!(f, "{value}"),
            Json::Number(value) => write!(f, "{value}"),
            Json::Text(value) => write!(f, "{}", quoted(value)),
            Json::List(values) => {
                let values: Vec<String> = values.iter().map(Json::to_string).collect();
                write!(f, "[{}]", values.join(", "))
            }
            Json::Object(fields) => {
                let field = |(name, value): &(String, Json)| format!("{}: {value}", quoted(name));
                write!(f, "{{{}}}", fields.iter().map(field).collect::<Vec<_>>().join(", "))
            }
        }
    }
}

impl From<bool> for Json {
    fn from(value: bool) -> Json {
        Json::Bool(value)
    }
}

impl From<u32> for Json {
    fn from(value: u32) -> Json {
        Json::Number(value.into())
    }
}

impl From<u64> for Json {
    fn from(value: u64) -> Json {
        Json::Number(value)
    }
}

impl From<usize> for Json {
    fn from(value: usize) -> Json {
        Json::Number(value as u64)
    }
}

impl From<&str> for Json {
    fn from(value: &str) -> Json {
        Json::Text(value.to_string())
    }
}

impl From<String> for Json {
    fn from(value: String) -> Json {
        Json::Text(value)
    }
}

impl<T: Into<Json>> From<Option<T>> for Json {
    fn from(value: Option<T>) -> Json {
        value.map_or(Json::Null, Into::into)
    }
}

#[cfg(test)]
mod tests {
    use super::*;

    #[test]
    fn values() {
        let odd = "a\"b\\c\n\u{7}é\u{7f}";
        let value = object(vec![
            ("text", odd.into()),
            ("none", None::<u32>.into()),
            ("list", list([1u32, 2])),
            ("yes", true.into()),
            ("empty", list(Vec::<Json>::new())),
        ]);
        let text =
            "{\"text\": \"a\\\"b\\\\c\\n\\u0007é\u{7f}\", \"none\": null, \"list\": [1, 2], \"yes\": true, \
                    \"empty\": []}";
        assert_eq!(value.to_string(), text);
    }

    #[test]
    fn rows() {
        let fields = vec![("a", Json::from(1u32))];
        let rows = [list([1u32]), list([2u32, 3])];
        assert_eq!(
            rows_text(&fields, "b", rows.into_iter()),
            "{\n  \"a\": 1,\n  \"b\": [\n    [1],\n    [2, 3]\n  ]\n}\n"
        );
        assert_eq!(rows_text(&fields, "b", std::iter::empty()), "{\n  \"a\": 1,\n  \"b\": []\n}\n");
        assert_eq!(fields_text(&[&fields[..], &fields[..]].concat()), "{\n  \"a\": 1,\n  \"a\": 1\n}\n");
    }
}
