//! `sheet import`: a text from an office's table of clerks and windows.

use crate::command::{refuse, Arguments, Choice, Command, Outcome, Source, Status, Stop};
use crate::csv;
use crate::letters::cleaned;
use crate::make::make;
use crate::parse::MOST;
use crate::words::{counted, listed, written, written_all};

pub const COMMAND: Command = Command {
    name: "import",
    usage: "TABLE.csv > TEXT",
    about: "makes a text of a table: clerks down, windows across, a mark where a clerk may stand",
    files: 1..=1,
    options: &[&[Choice {
        name: "--by",
        value: Some("windows"),
        about: "the other way round: windows down, clerks across",
    }]],
    asks: false,
    run,
};

/// Marks for "may not", beside an empty cell.
const NO: [&str; 6] = ["-", "0", "no", "n", "false", "–"];

fn run(arguments: &Arguments) -> Result<Outcome, Stop> {
    let source = &arguments.sources[0];
    let by_windows = match arguments.all("--by").last().map(String::as_str) {
        None | Some("clerks") => false,
        Some("windows") => true,
        Some(other) => return refuse(format!("--by takes windows or clerks, not `{other}`")),
    };
    let marks = Marks::read(source)?;
    let table = if by_windows { marks.turned() } else { marks };
    table.check(source, by_windows)?;
    let text = table.text(source);
    let (text, note) = match make(&text) {
        Ok(_) => (text, String::new()),
        Err(faults) if faults.iter().all(|fault| fault.text.starts_with("the rules don't fit")) => (
            text.replace("\nall different ", "\n# all different "),
            table.does_not_fit(source, &faults[0].text),
        ),
        Err(faults) => {
            let words: Vec<&str> = faults.iter().map(|fault| fault.text.as_str()).collect();
            return refuse(format!("{}: {}", source.name(), words.join("\n")));
        }
    };
    Ok(Outcome { output: text.into_bytes(), note: note + &table.notes, status: Status::Finished })
}

/// Who may stand where: names down and across, and a mark for each clerk and window.
struct Marks {
    down: Vec<String>,
    across: Vec<String>,
    marked: Vec<Vec<bool>>,
    notes: String,
}

impl Marks {
    fn read(source: &Source) -> Result<Marks, Stop> {
        let rows = csv::read(&source.text()?);
        let Some((head, body)) = rows.split_first() else {
            return refuse(format!("{}: an empty table", source.name()));
        };
        let mut marks =
            Marks { down: Vec::new(), across: Vec::new(), marked: Vec::new(), notes: String::new() };
        let used = |column: usize| body.iter().any(|row| row.get(column).is_some_and(|cell| is_mark(cell)));
        let columns: Vec<usize> =
            (1..head.len()).filter(|&column| used(column) || !cleaned(&head[column]).is_empty()).collect();
        for &column in &columns {
            let name = marks.name(source, &head[column], format!("column {}", column + 1))?;
            marks.across.push(name);
        }
        for (number, row) in body.iter().enumerate() {
            let name = marks.name(source, &row[0], format!("row {}", number + 2))?;
            marks.down.push(name);
            let cells = columns.iter().map(|&column| row.get(column).is_some_and(|cell| is_mark(cell)));
            marks.marked.push(cells.collect());
        }
        Ok(marks)
    }

    /// The name that a cell holds; it is noted where it isn't taken as it stands.
    fn name(&mut self, source: &Source, cell: &str, place: String) -> Result<String, Stop> {
        let name = cleaned(csv::name(cell.trim()));
        if name.is_empty() {
            return refuse(format!("{}: {place} has marks and no name", source.name()));
        }
        if name != cell.trim() && !cell.trim().starts_with('\'') {
            self.notes += &format!("{}: {place}: the name is taken as {}\n", source.name(), written(&name));
        }
        Ok(name)
    }

    /// The table the other way round.
    fn turned(self) -> Marks {
        let column = |at: usize| self.marked.iter().map(|row| row[at]).collect();
        let marked = (0..self.across.len()).map(column).collect();
        Marks { down: self.across, across: self.down, marked, notes: self.notes }
    }

    /// Are there few enough of each, each name once?
    fn check(&self, source: &Source, by_windows: bool) -> Result<(), Stop> {
        let way = if by_windows { "without --by windows" } else { "with --by windows" };
        for (names, kind, most) in [(&self.across, "window", MOST[0]), (&self.down, "clerk", MOST[1])] {
            let found = counted(names.len() as u64, kind);
            if names.is_empty() || names.len() > most {
                let words = format!(
                    "{found}, and 1 to {most} are allowed; {way} the table is read the other way round"
                );
                return refuse(format!("{}: {words}", source.name()));
            }
            if let Some((_, name)) = names.iter().enumerate().find(|(i, name)| names[..*i].contains(name)) {
                return refuse(format!("{}: the {kind} `{name}` stands twice", source.name()));
            }
        }
        let unmarked = |at: &usize| self.marked.iter().all(|row| !row[*at]);
        let nobody: Vec<String> =
            (0..self.across.len()).filter(unmarked).map(|at| format!("`{}`", self.across[at])).collect();
        match nobody.is_empty() {
            true => Ok(()),
            false => refuse(format!("{}: nobody may stand at {}", source.name(), listed(&nobody))),
        }
    }

    fn text(&self, source: &Source) -> String {
        let [clerks, windows] = [(&self.down, "clerk"), (&self.across, "window")]
            .map(|(names, kind)| counted(names.len() as u64, kind));
        let mut text = format!(
            "# From {}: {windows}, {clerks}.\nwindows {}\nduties {}\n# Where each may stand.\n",
            source.name(),
            written_all(&self.across),
            written_all(&self.down)
        );
        for (name, marks) in self.down.iter().zip(&self.marked) {
            let windows =
                self.across.iter().zip(marks).filter(|(_, marked)| **marked).map(|(window, _)| window);
            text += &match marks.contains(&true) {
                true => format!("clerk {} {}\n", written(name), written_all(windows)),
                false => format!("away {}\n", written(name)),
            };
        }
        if self.across.len() > 1 {
            text +=
                &format!("# Nobody stands at two windows.\nall different {}\n", written_all(&self.across));
        }
        text
    }

    /// What is to be said where `all different` doesn't fit.
    fn does_not_fit(&self, source: &Source, why: &str) -> String {
        format!("{}: the line `all different` is only a comment, as {why}\n", source.name())
    }
}

/// Does a cell say that a clerk may stand at a window?
fn is_mark(cell: &str) -> bool {
    let mark = cleaned(cell).to_lowercase();
    !mark.is_empty() && !NO.contains(&mark.as_str())
}
