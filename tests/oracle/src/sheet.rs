//! The sheet and the questions put to it, in the paper's order.

use crate::{contains, members};

/// A refusal: the number of the first question answered "no", and its item.
#[derive(Clone, Copy, Debug, PartialEq, Eq)]
pub struct Refusal {
    pub number: u32,
    pub item: u32,
}

/// A rule: its places and its rows.
#[derive(Clone, Debug, PartialEq, Eq)]
pub struct Constraint {
    pub scope: Vec<usize>,
    pub rows: Vec<Vec<usize>>,
}

/// What a sheet states: places, values, initial sets, rules and exchanges.
#[derive(Clone, Debug, PartialEq, Eq)]
pub struct Problem {
    pub variables: usize,
    pub values: usize,
    pub initial: Vec<u16>,
    pub constraints: Vec<Constraint>,
    pub symmetries: Vec<Vec<usize>>,
}

/// A pair as (variable, value).
pub type Pair = (usize, usize);

fn refuse<T>(number: u32, item: usize) -> Result<T, Refusal> {
    Err(Refusal { number, item: item as u32 })
}

fn ask(yes: bool, number: u32, item: usize) -> Result<(), Refusal> {
    if yes {
        Ok(())
    } else {
        refuse(number, item)
    }
}

/// The 16-bit number at an offset, low byte first.
fn word(sheet: &[u8], at: usize) -> usize {
    sheet[at] as usize + 256 * sheet[at + 1] as usize
}

/// `count` numbers from an offset on.
fn words(sheet: &[u8], at: usize, count: usize) -> Vec<usize> {
    (0..count).map(|i| word(sheet, at + 2 * i)).collect()
}

/// All the questions. What an accepted sheet states, or the first refusal.
pub fn question(sheet: &[u8]) -> Result<Problem, Refusal> {
    read(sheet, true)
}

/// All the questions but 16.
pub fn question_without_16(sheet: &[u8]) -> Result<Problem, Refusal> {
    read(sheet, false)
}

fn read(sheet: &[u8], asks_16: bool) -> Result<Problem, Refusal> {
    ask(sheet.len() >= 16, 1, 0)?;
    let header = words(sheet, 0, 8);
    ask_header(&header, sheet.len())?;
    let mut problem = Problem {
        variables: header[0],
        values: header[1],
        initial: words(sheet, 16, header[0]).iter().map(|&set| set as u16).collect(),
        constraints: Vec::new(),
        symmetries: Vec::new(),
    };
    for (variable, &set) in problem.initial.iter().enumerate() {
        let within = members(set).iter().all(|&value| value < problem.values);
        ask(within && set != 0, 8, variable)?;
    }
    read_constraints(sheet, &header, &mut problem)?;
    read_symmetries(sheet, &header, &mut problem, asks_16)?;
    Ok(problem)
}

/// Questions 2 to 7. Every set is inside a sheet that passes them.
fn ask_header(header: &[usize], length: usize) -> Result<(), Refusal> {
    let (n, d, c, g) = (header[0], header[1], header[2], header[3]);
    ask((1..=12).contains(&n), 2, 0)?;
    ask((1..=16).contains(&d), 3, 0)?;
    ask(c <= 32, 4, 0)?;
    ask(g <= 16, 5, 0)?;
    ask(header[7] == length, 6, 0)?;
    let second = 16 + 2 * n;
    let offsets = header[4] == 16 && header[5] == second;
    ask(offsets && second <= header[6] && header[6] <= length, 7, 0)
}

/// Questions 9 to 13, rule by rule, and the last 9.
fn read_constraints(sheet: &[u8], header: &[usize], problem: &mut Problem) -> Result<(), Refusal> {
    let (count, third) = (header[2], header[6]);
    let mut at = header[5];
    for item in 0..count {
        ask(at + 4 <= third, 9, item)?;
        let (arity, rows) = (word(sheet, at), word(sheet, at + 2));
        ask((1..=3).contains(&arity) && rows <= 256, 10, item)?;
        let end = at + 4 + 2 * arity + 2 * arity * rows;
        ask(end <= third, 9, item)?;
        let numbers = words(sheet, at + 4 + 2 * arity, arity * rows);
        let constraint = Constraint {
            scope: words(sheet, at + 4, arity),
            rows: numbers.chunks(arity).map(|row| row.to_vec()).collect(),
        };
        ask_constraint(&constraint, problem, item)?;
        problem.constraints.push(constraint);
        at = end;
    }
    ask(at == third, 9, count)
}

/// Questions 11 to 13 of one rule.
fn ask_constraint(constraint: &Constraint, problem: &Problem, item: usize) -> Result<(), Refusal> {
    let Constraint { scope, rows } = constraint;
    let below = scope.iter().all(|&variable| variable < problem.variables);
    ask(below && scope.windows(2).all(|two| two[0] < two[1]), 11, item)?;
    ask(rows.iter().flatten().all(|&value| value < problem.values), 12, item)?;
    ask(rows.windows(2).all(|two| two[0] < two[1]), 13, item)
}

/// Question 14, then 15 and 16 of each exchange in turn.
fn read_symmetries(
    sheet: &[u8],
    header: &[usize],
    problem: &mut Problem,
    asks_16: bool,
) -> Result<(), Refusal> {
    let (count, third) = (header[3], header[6]);
    let size = problem.variables * problem.values;
    ask(sheet.len() == third + 2 * count * size, 14, 0)?;
    for item in 0..count {
        let table = words(sheet, third + 2 * item * size, size);
        ask(problem.permutes_pairs(&table), 15, item)?;
        ask(!asks_16 || problem.respected_by(&table), 16, item)?;
        problem.symmetries.push(table);
    }
    Ok(())
}

impl Problem {
    /// Is the number that of a pair, a place with a value of its initial set?
    pub fn is_pair(&self, number: usize) -> bool {
        let variable = number / self.values;
        variable < self.variables && contains(self.initial[variable], number % self.values)
    }

    /// Does each non-pair stand for itself, and are the pairs permuted among themselves?
    pub fn permutes_pairs(&self, table: &[usize]) -> bool {
        let (pairs, others): (Vec<usize>, Vec<usize>) =
            (0..table.len()).partition(|&number| self.is_pair(number));
        let mut images: Vec<usize> = pairs.iter().map(|&number| table[number]).collect();
        images.sort();
        images == pairs && others.iter().all(|&number| table[number] == number)
    }

    /// Does the image of every forbidden set contain a forbidden set?
    pub fn respected_by(&self, table: &[usize]) -> bool {
        self.forbidden_sets().iter().all(|set| {
            let image: Vec<Pair> = set.iter().map(|&pair| self.image(table, pair)).collect();
            self.contains_forbidden(&image)
        })
    }

    /// The image of a pair under an exchange.
    pub fn image(&self, table: &[usize], (variable, value): Pair) -> Pair {
        let number = table[variable * self.values + value];
        (number / self.values, number % self.values)
    }

    /// Two pairs of one place; and one pair for each place of a rule, whose values are no row of it.
    fn forbidden_sets(&self) -> Vec<Vec<Pair>> {
        let mut sets = Vec::new();
        for variable in 0..self.variables {
            for first in members(self.initial[variable]) {
                for second in members(self.initial[variable]) {
                    if first < second {
                        sets.push(vec![(variable, first), (variable, second)]);
                    }
                }
            }
        }
        for constraint in &self.constraints {
            for row in self.choices(&constraint.scope) {
                if constraint.rows.binary_search(&row).is_err() {
                    sets.push(constraint.scope.iter().copied().zip(row).collect());
                }
            }
        }
        sets
    }

    /// All choices of a value of its initial set for each place of a list.
    pub fn choices(&self, scope: &[usize]) -> Vec<Vec<usize>> {
        let sets: Vec<u16> = scope.iter().map(|&variable| self.initial[variable]).collect();
        crate::nogood::assignments(&sets)
    }

    fn contains_forbidden(&self, pairs: &[Pair]) -> bool {
        let twice = |i: usize| pairs[..i].iter().any(|pair| pair.0 == pairs[i].0);
        (0..pairs.len()).any(twice)
            || self.constraints.iter().any(|constraint| {
                let value = |place: &usize| pairs.iter().find(|pair| pair.0 == *place).map(|pair| pair.1);
                let row: Option<Vec<usize>> = constraint.scope.iter().map(value).collect();
                row.is_some_and(|row| constraint.rows.binary_search(&row).is_err())
            })
    }
}
