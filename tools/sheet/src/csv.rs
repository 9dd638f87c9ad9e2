//! Tables as CSV: read with any of the usual marks between cells, written so that a spreadsheet runs nothing.

/// The byte order mark, by which a spreadsheet knows UTF-8.
pub const BOM: &str = "\u{feff}";

/// What makes a spreadsheet take a cell for a formula.
const FORMULA: [char; 4] = ['=', '+', '-', '@'];

/// The rows of a table, without those that are empty. Cells are parted by the mark that the first line has most of:
/// comma, semicolon or tab.
pub fn read(text: &str) -> Vec<Vec<String>> {
    let text = text.strip_prefix(BOM).unwrap_or(text);
    let first = text.lines().next().unwrap_or("");
    let marks = [',', ';', '\t'].map(|mark| (first.matches(mark).count(), mark));
    let mark = marks.into_iter().rev().max_by_key(|(count, _)| *count).map_or(',', |(_, mark)| mark);
    let (mut rows, mut row, mut cell) = (Vec::new(), Vec::new(), String::new());
    let mut quoted = false;
    let mut letters = text.chars().peekable();
    while let Some(letter) = letters.next() {
        match letter {
            '"' if quoted && letters.peek() == Some(&'"') => cell.extend(letters.next()),
            '"' if quoted || cell.is_empty() => quoted = !quoted,
            '\n' if !quoted => {
                row.push(std::mem::take(&mut cell));
                rows.push(std::mem::take(&mut row));
            }
            _ if letter == mark && !quoted => row.push(std::mem::take(&mut cell)),
            _ => cell.push(letter),
        }
    }
    row.push(cell);
    rows.push(row);
    rows.retain(|row| row.iter().any(|cell| !cell.trim().is_empty()));
    rows
}

/// A cell: in quotation marks where it needs them, and no formula.
pub fn cell(name: &str) -> String {
    let safe = if name.starts_with(FORMULA) { format!("'{name}") } else { name.to_string() };
    match safe.contains(['"', ',', ';']) {
        true => format!("\"{}\"", safe.replace('"', "\"\"")),
        false => safe,
    }
}

/// The name that a cell stands for.
pub fn name(cell: &str) -> &str {
    match cell.strip_prefix('\'') {
        Some(name) if name.starts_with(FORMULA) => name,
        _ => cell,
    }
}

#[cfg(test)]
mod tests {
    use super::*;

    #[test]
    fn tables() {
        let cells = |text: &str| read(text).iter().map(|row| row.join("|")).collect::<Vec<_>>().join("/");
        assert_eq!(cells("\u{feff};a;b\r\n\"x;\"\"y\";1;\r\n\r\n"), "|a|b\r/x;\"y|1|\r");
        assert_eq!(cells("a\tb,c\td\n\"two\nlines\"\te"), "a|b,c|d/two\nlines|e");
        assert_eq!(cells("one"), "one");
        assert!(read("").is_empty());
    }

    #[test]
    fn no_formulas() {
        for name in ["=1+1", "-x", "@a", "+1", "a,b", "say \"a\"", "plain"] {
            let row = read(&cell(name));
            assert!(!row[0][0].starts_with(FORMULA));
            assert_eq!(super::name(&row[0][0]), name);
        }
    }
}
