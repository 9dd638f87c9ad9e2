//! Reads a text line by line.

use crate::alike;
use crate::letters::{composed, looks};
use crate::problem::Constraint;
use crate::text::{fault, Exchange, Fault, Faults, Parsed, Stated, Statement, Text};
use crate::words::{counted, halves, name_of, nearest, nearest_name, words, LONGEST_NAME};
use std::cell::RefCell;
use std::collections::BTreeSet;

/// The words that start a line.
const STARTS: [&str; 21] = [
    "windows",
    "duties",
    "may",
    "clerk",
    "away",
    "fix",
    "rule",
    "rows",
    "different",
    "all different",
    "forbid",
    "never together",
    "exactly",
    "at least",
    "at most",
    "exchange",
    "before",
    "alike",
    "prefer",
    "avoid",
    "near",
];

/// The most windows and the most duties.
pub const MOST: [usize; 2] = [12, 16];

/// The most that a preference costs.
const MOST_WEIGHT: u32 = 1_000;

/// So many faults are told; with more the reading ends.
const MOST_FAULTS: usize = 100;

/// What a text states, or all its faults. A fault in one line leaves the others to be read, as long as windows and duties
/// are known.
pub fn parse(text: &str) -> Result<Text, Faults> {
    if text.starts_with('\u{feff}') {
        let bom = "the text starts with a byte order mark (BOM); save it as UTF-8 without one";
        return Err(vec![Fault::new(1, bom)]);
    }
    let mut parser = Parser::new();
    for line in text.lines() {
        parser.line += 1;
        parser.read(line);
        if parser.lost || parser.faults.borrow().len() > MOST_FAULTS {
            break;
        }
    }
    let mut faults = parser.faults.into_inner();
    if parser.text.values.is_empty() && faults.is_empty() {
        let text = "the text ends before it has named its windows and duties";
        faults.push(Fault::new(parser.line.max(1), text));
    }
    if faults.is_empty() {
        Ok(parser.text)
    } else {
        Err(faults)
    }
}

/// May `rows` follow?
#[derive(PartialEq)]
enum Open {
    No,
    Yes,
    /// They follow a rule at fault.
    Unknown,
}

struct Parser {
    text: Text,
    line: usize,
    /// The comment right above the line.
    comment: Vec<String>,
    open: Open,
    /// The word, the window or duty and the line of what may be said of it once: `may`, `clerk`, `fix`.
    said: Vec<(&'static str, usize, usize)>,
    faults: RefCell<Faults>,
    /// Is there no way on, as windows or duties aren't known?
    lost: bool,
}

impl Parser {
    fn new() -> Parser {
        let text =
            Text { about: String::new(), variables: Vec::new(), values: Vec::new(), statements: Vec::new() };
        let (comment, said, faults) = (Vec::new(), Vec::new(), RefCell::default());
        Parser { text, line: 0, comment, open: Open::No, said, faults, lost: false }
    }

    fn fault<T>(&self, text: impl Into<String>) -> Parsed<T> {
        fault(self.line, text)
    }

    /// Notes a fault and goes on.
    fn note(&self, fault: Fault) {
        let mut faults = self.faults.borrow_mut();
        match faults.len() {
            count if count < MOST_FAULTS => faults.push(fault),
            MOST_FAULTS => faults.push(Fault::new(fault.line, "the faults from here on aren't told")),
            _ => {}
        }
    }

    /// All of them, or the last fault; the others are noted.
    fn all<T>(&self, parts: impl Iterator<Item = Parsed<T>>) -> Parsed<Vec<T>> {
        let mut right = Vec::new();
        let mut last = None;
        for part in parts {
            match part {
                Ok(part) => right.push(part),
                Err(fault) => last.replace(fault).into_iter().for_each(|fault| self.note(fault)),
            }
        }
        last.map_or(Ok(right), Err)
    }

    /// Both, or the last fault; the other is noted.
    fn both<A, B>(&self, first: Parsed<A>, second: Parsed<B>) -> Parsed<(A, B)> {
        match (first, second) {
            (Err(fault), Err(other)) => {
                self.note(fault);
                Err(other)
            }
            (first, second) => Ok((first?, second?)),
        }
    }

    fn read(&mut self, line: &str) {
        if let Some(comment) = line.trim().strip_prefix('#') {
            self.comment.push(comment.trim_start_matches('#').trim().to_string());
            return;
        }
        let words = words(line).or_else(|text| self.fault(text));
        let read = words.and_then(|words| if words.is_empty() { Ok(()) } else { self.line(&words) });
        if let Err(fault) = read {
            self.note(fault);
            self.lost |= self.text.values.is_empty();
        }
        self.comment.clear();
    }

    fn line(&mut self, words: &[&str]) -> Parsed<()> {
        let named = !self.text.values.is_empty();
        let (start, rest) = (self.start(words[0])?, &words[1..]);
        match start {
            "windows" if self.text.variables.is_empty() => {
                self.text.variables = self.new_names("windows", rest, MOST[0])?;
                self.text.about = self.comment.join(" ");
            }
            "duties" if !named && !self.text.variables.is_empty() => {
                self.text.values = self.new_names("duties", rest, MOST[1])?;
            }
            "windows" | "duties" => {
                return self.fault("`windows` stands first and once, then `duties` once");
            }
            _ if !named => return self.fault("`windows` and `duties` come first"),
            "rows" => return self.rows(rest),
            _ => {
                self.open = if start == "rule" { Open::Unknown } else { Open::No };
                let statement = self.statement(start, rest)?;
                self.open = if start == "rule" { Open::Yes } else { Open::No };
                let comment = self.comment.join(" ");
                self.text.statements.push(Stated { first: self.line, last: self.line, comment, statement });
            }
        }
        Ok(())
    }

    /// The word that a line starts with; one that is only written wrongly is noted.
    fn start(&self, word: &str) -> Parsed<&'static str> {
        let first = |start: &'static str| start.split(' ').next().unwrap_or(start);
        if let Some(start) = STARTS.into_iter().map(first).find(|start| *start == word) {
            return Ok(start);
        }
        let meant = meant(word).and_then(|meant| STARTS.into_iter().find(|start| *start == meant));
        let wrong = Fault::new(self.line, unknown(word));
        match meant {
            Some(start) => {
                self.note(wrong);
                Ok(start)
            }
            None => Err(wrong),
        }
    }

    fn statement(&mut self, start: &'static str, rest: &[&str]) -> Parsed<Statement> {
        match (start, rest) {
            ("may", [window, duties @ ..]) => self.may(window, duties),
            ("may", []) => self.fault("`may` takes a window and its duties"),
            ("clerk", [duty, windows @ ..]) if !windows.is_empty() => self.clerk(duty, windows),
            ("clerk", _) => self.fault("`clerk` takes a duty and its windows; one that has none is `away`"),
            ("away", [duty]) => Ok(Statement::Away(self.duty(duty)?)),
            ("away", _) => self.fault("write `away DUTY`: no window has it"),
            ("fix", [window, duty]) => self.fix(window, duty),
            ("fix", _) => self.fault("write `fix WINDOW DUTY`: the window has that duty"),
            ("rule", windows) => self.rule(windows),
            ("different", [_, _]) => self.different(rest),
            ("different", _) => self.fault("`different` takes two windows; of more say `all different`"),
            ("all", ["different", windows @ ..]) => self.different(windows),
            ("all", _) => self.fault("write `all different WINDOW ..`"),
            ("forbid", rows) => self.forbid(rows),
            ("never", ["together", row @ ..]) => self.never_together(row),
            ("never", _) => self.fault("write `never together WINDOW DUTY WINDOW DUTY`"),
            ("exactly", rest) => self.count(start, rest),
            ("at", [word @ ("least" | "most"), rest @ ..]) => self.count(word, rest),
            ("at", _) => self.fault("write `at least` or `at most`, a number, a duty and windows"),
            ("before", [first, second]) => {
                let (first, second) = self.both(self.window(first), self.window(second))?;
                Ok(Statement::Before(first, second))
            }
            ("before", _) => {
                self.fault("write `before WINDOW WINDOW`: the first is settled before the second")
            }
            ("alike", windows) => self.alike(windows),
            ("prefer" | "avoid", rest) => self.wish(start, rest),
            ("near", [file]) => Ok(Statement::Near(name_of(file), 1)),
            ("near", [file, weight]) => Ok(Statement::Near(name_of(file), self.weight(weight)?)),
            ("near", _) => {
                self.fault("write `near FILE`: a CSV file with a plan, and a weight if it isn't 1")
            }
            (_, what) => self.exchange(what),
        }
    }

    /// New names: at least one, each once, and none that the text uses for itself. Faults are noted, and the names kept.
    fn new_names(&self, kind: &str, words: &[&str], most: usize) -> Parsed<Vec<String>> {
        let mut names: Vec<String> = Vec::new();
        for word in words.iter().take(MOST_FAULTS) {
            let name = name_of(word);
            if let Some(wrong) = wrong_name(kind, word, &name, &names) {
                self.note(Fault::new(self.line, wrong));
            }
            if *word != "," && !names.contains(&name) {
                names.push(name);
            }
        }
        match names.len() {
            0 => self.fault(format!("`{kind}` takes at least one name")),
            count => {
                if count > most {
                    let count = count + words.len().saturating_sub(MOST_FAULTS);
                    let text = format!("{count} {kind}, and at most {most} are allowed");
                    self.note(Fault::new(self.line, text));
                }
                Ok(names)
            }
        }
    }

    fn find(&self, kind: usize, word: &str) -> Parsed<usize> {
        const KINDS: [&str; 2] = ["window", "duty"];
        let all = [&self.text.variables, &self.text.values];
        let (names, name) = (all[kind], name_of(word));
        let (kind, other, is_other) = (KINDS[kind], KINDS[1 - kind], all[1 - kind].contains(&name));
        match names.iter().position(|other| *other == name) {
            Some(number) => Ok(number),
            None if word == "," => self.fault(format!("a comma stands where a {kind} should")),
            None if is_other => {
                self.fault(format!("no {kind} is called `{name}`: it is a {other}, and a {kind} is due here"))
            }
            None => {
                let name: String = name.chars().take(LONGEST_NAME).collect();
                self.fault(format!("no {kind} is called `{name}`{}", nearest(&name, names)))
            }
        }
    }

    fn window(&self, word: &str) -> Parsed<usize> {
        self.find(0, word)
    }

    fn duty(&self, word: &str) -> Parsed<usize> {
        self.find(1, word)
    }

    fn duties(&self, words: &[&str]) -> Parsed<Vec<usize>> {
        self.all(words.iter().map(|word| self.duty(word)))
    }

    /// Windows, each once, as written.
    fn windows(&self, words: &[&str]) -> Parsed<Vec<usize>> {
        let mut seen = BTreeSet::new();
        let once = |word: &&str| match *word == "," || seen.insert(name_of(word)) {
            true => self.window(word),
            false => self.fault(format!("`{}` stands twice", name_of(word))),
        };
        self.all(words.iter().map(once))
    }

    /// Notes that a word is said of a window or duty, which may be said once.
    fn once(&mut self, word: &'static str, of: usize, name: &str) -> Parsed<()> {
        let line = self.said.iter().find(|said| (said.0, said.1) == (word, of)).map(|said| said.2);
        self.said.push((word, of, self.line));
        match line {
            Some(line) => self
                .fault(format!("a second `{word}` for `{}`; the first stands in line {line}", name_of(name))),
            None => Ok(()),
        }
    }

    fn may(&mut self, window: &str, duties: &[&str]) -> Parsed<Statement> {
        let (variable, duties) = self.both(self.window(window), self.duties(duties))?;
        self.once("may", variable, window)?;
        Ok(Statement::May(variable, set_of(&duties)))
    }

    fn clerk(&mut self, duty: &str, windows: &[&str]) -> Parsed<Statement> {
        let (value, windows) = self.both(self.duty(duty), self.windows(windows))?;
        self.once("clerk", value, duty)?;
        Ok(Statement::Clerk(value, set_of(&windows)))
    }

    fn fix(&mut self, window: &str, duty: &str) -> Parsed<Statement> {
        let (variable, value) = self.both(self.window(window), self.duty(duty))?;
        self.once("fix", variable, window)?;
        Ok(Statement::Fix(variable, value))
    }

    /// `prefer`, `avoid`: a window, a duty and a weight.
    fn wish(&self, word: &str, rest: &[&str]) -> Parsed<Statement> {
        let (window, duty, weight) = match rest {
            [window, duty] => (window, duty, Ok(1)),
            [window, duty, weight] => (window, duty, self.weight(weight)),
            _ => return self.fault(format!("write `{word} WINDOW DUTY`, and a weight if it isn't 1")),
        };
        let ((window, value), weight) = self.both(self.both(self.window(window), self.duty(duty)), weight)?;
        Ok(Statement::Wish { window, value, weight, wanted: word == "prefer" })
    }

    fn weight(&self, word: &str) -> Parsed<u32> {
        match word.parse::<u32>() {
            Ok(weight) if (1..=MOST_WEIGHT).contains(&weight) => Ok(weight),
            _ => self.fault(format!("a weight is a number from 1 to {MOST_WEIGHT}, not `{word}`")),
        }
    }

    fn rule(&self, windows: &[&str]) -> Parsed<Statement> {
        match self.windows(windows)? {
            scope if (1..=3).contains(&scope.len()) => {
                Ok(Statement::Rule(Constraint { scope, rows: Vec::new() }))
            }
            scope => self.fault(format!("a rule has 1 to 3 windows, not {}", scope.len())),
        }
    }

    /// Rows of the rule above, parted by commas.
    fn rows(&mut self, words: &[&str]) -> Parsed<()> {
        if self.open == Open::No {
            return self.fault("`rows` follows a `rule`");
        }
        let new = self.all(words.split(|word| *word == ",").map(|row| self.duties(row)))?;
        if self.open == Open::Unknown {
            return Ok(());
        }
        let line = self.line;
        let stated = self.text.statements.last_mut().expect("a rule is open");
        let Statement::Rule(constraint) = &mut stated.statement else { unreachable!("a rule is open") };
        for row in new {
            match (row.len(), constraint.scope.len()) {
                (0, _) => return fault(line, "an empty row: a comma stands at an end, or two together"),
                (had, wanted) if had != wanted => {
                    return fault(line, format!("a row of {had} duties for {wanted} windows"));
                }
                _ if constraint.rows.contains(&row) => return fault(line, "a row stands twice"),
                _ => constraint.rows.push(row),
            }
        }
        stated.last = line;
        Ok(())
    }

    fn different(&self, windows: &[&str]) -> Parsed<Statement> {
        let mut scope = self.windows(windows)?;
        if scope.len() < 2 {
            return self.fault("`all different` takes two or more windows");
        }
        scope.sort();
        Ok(Statement::Different(scope))
    }

    /// A row of windows and duties by turns: ascending by window.
    fn row(&self, words: &[&str]) -> Parsed<Vec<(usize, usize)>> {
        let names: Vec<&str> = words.iter().step_by(2).copied().collect();
        let duties: Vec<&str> = words.iter().skip(1).step_by(2).copied().collect();
        let (windows, duties) = self.both(self.windows(&names), self.duties(&duties))?;
        let mut row: Vec<(usize, usize)> = windows.into_iter().zip(duties).collect();
        row.sort();
        Ok(row)
    }

    fn forbid(&self, words: &[&str]) -> Parsed<Statement> {
        let row = |row: &[&str]| match row.len() {
            2 | 4 | 6 => self.row(row),
            _ => {
                self.fault("`forbid` takes rows parted by commas, each WINDOW DUTY for one to three windows")
            }
        };
        Ok(Statement::Forbid(self.all(words.split(|word| *word == ",").map(row))?))
    }

    fn never_together(&self, row: &[&str]) -> Parsed<Statement> {
        match row.len() {
            4 => Ok(Statement::Forbid(vec![self.row(row)?])),
            _ => self.fault("write `never together WINDOW DUTY WINDOW DUTY`"),
        }
    }

    /// `exactly`, `at least`, `at most`: a number, a duty and windows.
    fn count(&self, word: &str, rest: &[&str]) -> Parsed<Statement> {
        let [number, duty, windows @ ..] = rest else {
            return self.fault("a number, a duty and windows are wanted");
        };
        let Ok(number) = number.parse::<usize>() else {
            return self.fault(format!("`{number}` is no number; write a number, a duty and windows"));
        };
        let (value, mut scope) = self.both(self.duty(duty), self.windows(windows))?;
        if scope.is_empty() {
            return self.fault("a number, a duty and windows are wanted");
        }
        scope.sort();
        let least = if word == "most" { 0 } else { number };
        let most = if word == "least" { scope.len() } else { number };
        if least > scope.len() {
            let word = if word == "least" { "at least" } else { word };
            let windows = counted(scope.len() as u64, "window");
            return self.fault(format!("`{word} {number}` of {windows}: more than there are"));
        }
        Ok(Statement::Count { least, most, value, scope })
    }

    /// Neighbouring windows, in any order.
    fn alike(&self, names: &[&str]) -> Parsed<Statement> {
        let is_alike = |stated: &&Stated| matches!(stated.statement, Statement::Alike(..));
        if let Some(stated) = self.text.statements.iter().find(is_alike) {
            return self.fault(format!("a second `alike`; the first stands in line {}", stated.first));
        }
        let mut windows = self.windows(names)?;
        windows.sort();
        if !(2..=alike::MOST).contains(&windows.len()) {
            return self.fault(format!("`alike` takes 2 to {} windows, not {}", alike::MOST, windows.len()));
        }
        match windows.windows(2).find(|two| two[0] + 1 < two[1]) {
            Some(two) => self.fault(format!(
                "alike windows stand side by side in the line `windows`, and `{}` stands between `{}` and `{}`",
                self.text.variables[two[0] + 1],
                self.text.variables[two[0]],
                self.text.variables[two[1]]
            )),
            None => Ok(Statement::Alike(windows[0], windows.len())),
        }
    }

    fn exchange(&self, what: &[&str]) -> Parsed<Statement> {
        let (n, d) = (self.text.variables.len(), self.text.values.len());
        let exchange = match what {
            ["nothing"] => Exchange::Pairs(Vec::new()),
            ["table", numbers @ ..] => Exchange::Table(self.table(numbers, n * d)?),
            ["pairs", names @ ..] => {
                let map = self.cycles(names, n * d, |name| self.pair(name))?;
                Exchange::Pairs(map.into_iter().enumerate().filter(|(from, to)| from != to).collect())
            }
            ["windows" | "duties", ..] => self.product(what, n, d)?,
            _ => {
                return self.fault("`exchange` takes `windows`, `duties`, `pairs`, `table` or `nothing`");
            }
        };
        Ok(Statement::Exchange(exchange))
    }

    fn table(&self, words: &[&str], size: usize) -> Parsed<Vec<usize>> {
        if words.len() != size {
            return self.fault(format!("a table has {size} numbers here, not {}", words.len()));
        }
        let number = |word: &&str| word.parse::<u16>().map(usize::from);
        let table: Result<Vec<usize>, _> = words.iter().map(number).collect();
        table.or_else(|_| self.fault("a table holds numbers from 0 to 65535"))
    }

    /// The number of a pair such as `cash.ann`.
    fn pair(&self, name: &str) -> Parsed<usize> {
        let Some((window, duty)) = halves(name) else {
            return self.fault(format!("`{name}` is no pair; write WINDOW.DUTY"));
        };
        let (window, duty) = self.both(self.window(window), self.duty(duty))?;
        Ok(window * self.text.values.len() + duty)
    }

    /// A permutation of `size` numbers from circles of names, parted by commas.
    fn cycles(
        &self,
        words: &[&str],
        size: usize,
        find: impl Fn(&str) -> Parsed<usize>,
    ) -> Parsed<Vec<usize>> {
        let mut map: Vec<usize> = (0..size).collect();
        let mut seen = Vec::new();
        for cycle in words.split(|word| *word == ",") {
            let cycle = self.all(cycle.iter().map(|name| find(name)))?;
            if cycle.len() < 2 {
                return self.fault("a circle has two or more members");
            }
            for i in 0..cycle.len() {
                if seen.contains(&cycle[i]) {
                    return self.fault("a name stands twice in an exchange");
                }
                seen.push(cycle[i]);
                map[cycle[i]] = cycle[(i + 1) % cycle.len()];
            }
        }
        Ok(map)
    }

    /// An exchange of windows, of duties, or of both.
    fn product(&self, what: &[&str], n: usize, d: usize) -> Parsed<Exchange> {
        let at = what.iter().position(|word| *word == "duties").unwrap_or(what.len());
        let (windows, duties) = what.split_at(at);
        let to = match windows {
            [] => (0..n).collect(),
            [_, names @ ..] => self.cycles(names, n, |name| self.window(name))?,
        };
        let value = match duties {
            [] => (0..d).collect(),
            [_, names @ ..] => self.cycles(names, d, |name| self.duty(name))?,
        };
        Ok(Exchange::Product(to, value))
    }
}

/// A set of numbers, a bit for each.
fn set_of(numbers: &[usize]) -> u16 {
    numbers.iter().fold(0, |set, &number| set | 1u16.checked_shl(number as u32).unwrap_or(0))
}

/// What is wrong with a new name beside those before it, if anything is.
fn wrong_name(kind: &str, word: &str, name: &str, before: &[String]) -> Option<String> {
    let length = name.chars().count();
    let spaced = name.trim() != name || name.contains("  ");
    match word {
        "," => Some(format!("names of {kind} are parted by spaces, not by commas")),
        "windows" | "duties" => Some(format!("`{word}` can't be a name, but in quotes")),
        _ if length == 0 => Some("a name in quotes has at least one letter".to_string()),
        _ if length > LONGEST_NAME => Some(format!(
            "a name of {}, and at most {LONGEST_NAME} are allowed",
            counted(length as u64, "character")
        )),
        _ if !word.starts_with('"') && word.contains('.') => {
            Some(format!("`{word}` can't be a name but in quotes: a point parts a window from a duty"))
        }
        _ if word.starts_with('"') && name_of(word) == composed(word) => {
            Some(format!("`{word}` is two words: a name in quotes has nothing beside them"))
        }
        _ if spaced => Some(format!("the name `{name}` has a space at an end, or two together")),
        _ if before.iter().any(|other| other == name) => {
            let two =
                if composed(word) == word { "" } else { ", here with letter and accent as two characters" };
            Some(format!("the name `{name}` stands twice{two}"))
        }
        _ if before.iter().any(|other| looks(other) == looks(name)) => {
            Some(format!("the name `{name}` looks like one before it: one has a mark that can't be seen"))
        }
        _ => None,
    }
}

/// The word that starts a line and that a word stands for which is written wrongly.
fn meant(word: &str) -> Option<String> {
    let starts = STARTS.map(String::from);
    let small = word.trim_end_matches(':').to_lowercase();
    match starts.contains(&small) {
        true => Some(small),
        false => nearest_name(word, &starts).cloned(),
    }
}

/// Why a word starts no line.
fn unknown(word: &str) -> String {
    let is_start = |word: &str| STARTS.iter().any(|start| start.split(' ').next() == Some(word));
    let starts = STARTS.map(String::from);
    let small = word.to_lowercase();
    match word.strip_suffix(':') {
        Some(bare) if is_start(bare) => format!("write `{bare}` without the colon"),
        _ if is_start(&small) => format!("write `{small}` in small letters"),
        _ => match nearest(word, &starts) {
            hint if hint.is_empty() => {
                let word: String = word.chars().take(LONGEST_NAME).collect();
                format!("`{word}` starts no line; the words that do are {}", STARTS.join(", "))
            }
            hint => format!("`{word}` starts no line{hint}"),
        },
    }
}
