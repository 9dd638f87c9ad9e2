//! From statements to what the sheet states: sets, rules and exchanges, each with the line that it comes from.

use crate::alike::trades;
use crate::amount::Amount;
use crate::pack::pack;
use crate::problem::{draws, unlike_rows, Constraint, Place, Problem};
use crate::text::{fault, Exchange, Fault, Faults, Parsed, Stated, Statement, Text};

/// The most rules of a sheet.
pub const MOST_RULES: usize = 32;

/// The most exchanges of a sheet.
pub const MOST_EXCHANGES: usize = 16;

/// The longest sheet that can state its length.
const MOST_BYTES: usize = 65_535;

/// A rule with the line that it comes from.
pub type Ruled = (Constraint, usize);

pub struct Composed {
    pub problem: Problem,
    /// Were rules put together, so that they fit?
    pub packed: bool,
    /// The line of each window's set, rule and exchange.
    lines: Vec<(Place, usize)>,
}

impl Composed {
    /// The line of a part of the sheet; 1 for a part that no line states.
    pub fn line_of(&self, place: Place) -> usize {
        self.lines.iter().find(|(other, _)| *other == place).map_or(1, |(_, line)| *line)
    }
}

/// What the sheet states, or the faults of as many lines as can be told at once.
pub fn compose(text: &Text) -> Result<Composed, Faults> {
    let (problem, lines) = sets(text)?;
    let mut composed = Composed { problem, packed: false, lines };
    composed.exchanges(text)?;
    counts(text, &composed.problem)?;
    composed.rules(text).map_err(|fault| vec![fault])?;
    Ok(composed)
}

/// The hall with the duties that each window may have and nothing else, and the line that says so first of a window or,
/// where nothing is left, last.
pub fn sets(text: &Text) -> Result<(Problem, Vec<(Place, usize)>), Faults> {
    let mut sets = Sets {
        problem: Problem {
            variables: text.variables.clone(),
            values: text.values.clone(),
            initial: vec![full_set(text.values.len()); text.variables.len()],
            constraints: Vec::new(),
            symmetries: Vec::new(),
        },
        lines: Vec::new(),
    };
    let lines = text.statements.iter();
    lines.clone().for_each(|stated| sets.narrowed(stated));
    let faults: Faults = lines.filter_map(|stated| sets.of_the_day(stated).err()).collect();
    match faults.is_empty() {
        true => Ok((sets.problem, sets.lines)),
        false => Err(faults),
    }
}

struct Sets {
    problem: Problem,
    lines: Vec<(Place, usize)>,
}

impl Sets {
    /// Leaves a window those of its duties that are in a set.
    fn leave(&mut self, window: usize, set: u16, line: usize) {
        let left = self.problem.initial[window] & set;
        let place = Place::Variable(window);
        if left == 0 && self.problem.initial[window] > 0 {
            self.lines.insert(0, (place, line));
        }
        self.problem.initial[window] = left;
        self.lines.push((place, line));
    }

    fn narrowed(&mut self, stated: &Stated) {
        match stated.statement {
            Statement::May(window, set) => self.leave(window, set, stated.first),
            Statement::Clerk(value, windows) => {
                for window in (0..self.problem.variables.len()).filter(|window| windows >> window & 1 == 0) {
                    self.leave(window, !(1 << value), stated.first);
                }
            }
            _ => {}
        }
    }

    /// `away` and `fix`, after what the windows may have.
    fn of_the_day(&mut self, stated: &Stated) -> Parsed<()> {
        let names = (&self.problem.variables, &self.problem.values);
        match stated.statement {
            Statement::Away(value) => {
                let alone = |&window: &usize| self.problem.initial[window] == 1 << value;
                if let Some(window) = (0..names.0.len()).find(alone) {
                    let text =
                        format!("without `{}` nobody is left for `{}`", names.1[value], names.0[window]);
                    return fault(stated.first, text);
                }
                (0..names.0.len()).for_each(|window| self.leave(window, !(1 << value), stated.first));
            }
            Statement::Fix(window, value) if !self.problem.may(window, value) => {
                let by = self.lines.iter().find(|(place, _)| *place == Place::Variable(window));
                let by = by.map_or(String::new(), |(_, line)| format!(" (line {line})"));
                let text = format!("`{}` may not have `{}`{by}", names.0[window], names.1[value]);
                return fault(stated.first, text);
            }
            Statement::Fix(window, value) => self.leave(window, 1 << value, stated.first),
            _ => {}
        }
        Ok(())
    }
}

/// The set of so many values.
pub fn full_set(values: usize) -> u16 {
    (0..values).fold(0, |set, value| set | 1 << value)
}

/// Can each count be said by rules on three windows?
fn counts(text: &Text, problem: &Problem) -> Result<(), Faults> {
    let unsaid = |stated: &Stated| {
        let text = amount(problem, &stated.statement)?.unsaid(problem)?;
        Some(Fault::new(stated.first, text))
    };
    let faults: Faults = text.statements.iter().filter_map(unsaid).collect();
    match faults.is_empty() {
        true => Ok(()),
        false => Err(faults),
    }
}

/// A count of more than three windows.
pub fn amount(problem: &Problem, statement: &Statement) -> Option<Amount> {
    match statement {
        Statement::Count { least, most, value, scope } if scope.len() > 3 => {
            Some(Amount::new(problem, *least, *most, *value, scope))
        }
        _ => None,
    }
}

impl Composed {
    fn rules(&mut self, text: &Text) -> Parsed<()> {
        let mut rules = as_written(text, &self.problem);
        if rules.len() > MOST_RULES {
            let mut traded = self.problem.clone();
            traded.symmetries.extend(trades(text, &self.problem));
            rules = pack(text, &traded)?;
            self.packed = true;
        }
        for (constraint, line) in rules {
            self.lines.push((Place::Constraint(self.problem.constraints.len()), line));
            self.problem.constraints.push(constraint);
        }
        self.length()
    }

    fn exchanges(&mut self, text: &Text) -> Result<(), Faults> {
        let mut faults = Vec::new();
        for stated in &text.statements {
            let Statement::Exchange(exchange) = &stated.statement else { continue };
            match table(&self.problem, exchange) {
                Ok(table) => {
                    self.lines.push((Place::Symmetry(self.problem.symmetries.len()), stated.first));
                    self.problem.symmetries.push(table);
                }
                Err(text) => faults.push(Fault::new(stated.first, text)),
            }
        }
        match faults.is_empty() {
            true => Ok(()),
            false => Err(faults),
        }
    }

    /// Can the sheet state its length? If not, the rule that takes it too far.
    fn length(&self) -> Parsed<()> {
        let (n, d) = (self.problem.variables.len(), self.problem.values.len());
        let mut bytes = 16 + 2 * n + 2 * n * d * self.problem.symmetries.len().min(MOST_EXCHANGES);
        for (item, constraint) in self.problem.constraints.iter().enumerate() {
            bytes += constraint.bytes();
            if bytes > MOST_BYTES {
                return fault(
                    self.line_of(Place::Constraint(item)),
                    format!(
                        "too long: with this rule of {} rows the sheet passes {MOST_BYTES} bytes; a rule has at most 256 rows",
                        constraint.rows.len()
                    ),
                );
            }
        }
        Ok(())
    }
}

/// The rules of each line in turn.
pub fn as_written(text: &Text, problem: &Problem) -> Vec<Ruled> {
    let mut rules: Vec<Ruled> = Vec::new();
    for stated in &text.statements {
        let new = match &stated.statement {
            Statement::Different(scope) => different(scope, problem.values.len()),
            Statement::Forbid(rows) => forbidden(problem, rows),
            statement => single(problem, statement),
        };
        rules.extend(new.into_iter().map(|rule| (rule, stated.first)));
    }
    rules
}

/// A rule of unlike duties for every two windows.
fn different(scope: &[usize], values: usize) -> Vec<Constraint> {
    let two = (0..scope.len()).flat_map(|i| (i + 1..scope.len()).map(move |j| vec![scope[i], scope[j]]));
    two.map(|scope| Constraint { scope, rows: unlike_rows(values) }).collect()
}

/// A rule for each group of windows that forbidden rows name: every row of duties that these may have but those.
pub fn forbidden(problem: &Problem, rows: &[Vec<(usize, usize)>]) -> Vec<Constraint> {
    let mut scopes: Vec<Vec<usize>> = Vec::new();
    for row in rows {
        let scope: Vec<usize> = row.iter().map(|(variable, _)| *variable).collect();
        if !scopes.contains(&scope) {
            scopes.push(scope);
        }
    }
    let rule = |scope: Vec<usize>| {
        let is_forbidden = |duties: &Vec<usize>| {
            let row: Vec<(usize, usize)> = scope.iter().copied().zip(duties.iter().copied()).collect();
            rows.contains(&row)
        };
        let rows = draws(problem, &scope).into_iter().filter(|row| !is_forbidden(row)).collect();
        Constraint { scope: scope.clone(), rows }
    };
    scopes.into_iter().map(rule).collect()
}

/// The rules of a `rule` with its rows, or of a count; none of other statements.
pub fn single(problem: &Problem, statement: &Statement) -> Vec<Constraint> {
    match statement {
        Statement::Rule(constraint) => vec![ascending(constraint)],
        Statement::Count { least, most, value, scope } if scope.len() <= 3 => {
            let fits = |row: &Vec<usize>| {
                let count = row.iter().filter(|other| *other == value).count();
                (*least..=*most).contains(&count)
            };
            let rows = draws(problem, scope).into_iter().filter(fits).collect();
            vec![Constraint { scope: scope.clone(), rows }]
        }
        _ => amount(problem, statement).map_or(Vec::new(), |amount| amount.rules(problem)),
    }
}

/// The rule with its windows ascending, and its rows too.
fn ascending(constraint: &Constraint) -> Constraint {
    let mut order: Vec<usize> = (0..constraint.scope.len()).collect();
    order.sort_by_key(|&column| constraint.scope[column]);
    let reorder = |row: &Vec<usize>| order.iter().map(|&column| row[column]).collect::<Vec<usize>>();
    let mut rows: Vec<Vec<usize>> = constraint.rows.iter().map(reorder).collect();
    rows.sort();
    Constraint { scope: reorder(&constraint.scope), rows }
}

/// The image of each pair number under an exchange; the error says which pair goes to none.
pub fn table(problem: &Problem, exchange: &Exchange) -> Result<Vec<usize>, String> {
    let d = problem.values.len();
    let mut table: Vec<usize> = (0..problem.variables.len() * d).collect();
    let mut moves: Vec<(usize, usize)> = match exchange {
        Exchange::Table(numbers) => return Ok(numbers.clone()),
        Exchange::Pairs(moves) => moves.clone(),
        Exchange::Product(to, value) => problem
            .pairs()
            .into_iter()
            .map(|number| (number, to[number / d] * d + value[number % d]))
            .collect(),
    };
    moves.retain(|(from, to)| from != to);
    for (from, to) in moves {
        let none = [from, to].into_iter().find(|number| !problem.is_pair(*number));
        if let Some(none) = none {
            let (window, duty) = (&problem.variables[none / d], &problem.values[none % d]);
            let names = [problem.pair_name(from), problem.pair_name(to)];
            return Err(format!(
                "`{}` goes to `{}`, but `{window}` may not have `{duty}`",
                names[0], names[1]
            ));
        }
        table[from] = to;
    }
    Ok(table)
}
