//! What a sheet states, with names for its windows (variables) and duties (values).

use crate::words::written;

/// A rule: its windows and its rows.
#[derive(Clone, Debug, PartialEq, Eq)]
pub struct Constraint {
    pub scope: Vec<usize>,
    pub rows: Vec<Vec<usize>>,
}

impl Constraint {
    /// How many bytes of a sheet it takes.
    pub fn bytes(&self) -> usize {
        4 + 2 * self.scope.len() * (1 + self.rows.len())
    }
}

/// A part of a sheet: the header, a window's set, a rule, an exchange.
#[derive(Clone, Copy, Debug, PartialEq, Eq)]
pub enum Place {
    Header,
    Variable(usize),
    Constraint(usize),
    Symmetry(usize),
}

/// A hall: its windows and duties, the duties that each window may have, the rules and the exchanges.
#[derive(Clone, Debug, PartialEq, Eq)]
pub struct Problem {
    /// The names of the windows.
    pub variables: Vec<String>,
    /// The names of the duties.
    pub values: Vec<String>,
    /// Initial sets, bit v for value v.
    pub initial: Vec<u16>,
    pub constraints: Vec<Constraint>,
    /// Exchanges: the image of each pair number.
    pub symmetries: Vec<Vec<usize>>,
}

/// The 16-bit number at an offset, low byte first.
pub fn word(sheet: &[u8], at: usize) -> usize {
    u16::from_le_bytes([sheet[at], sheet[at + 1]]) as usize
}

pub fn words(sheet: &[u8], at: usize, count: usize) -> Vec<usize> {
    (0..count).map(|i| word(sheet, at + 2 * i)).collect()
}

/// The rows `different` stands for: all with two unlike values.
pub fn unlike_rows(values: usize) -> Vec<Vec<usize>> {
    let all = (0..values).flat_map(|v| (0..values).map(move |w| vec![v, w]));
    all.filter(|row| row[0] != row[1]).collect()
}

/// The rows of values that some variables may have, ascending.
pub fn draws(problem: &Problem, scope: &[usize]) -> Vec<Vec<usize>> {
    let mut rows = vec![Vec::new()];
    for &variable in scope {
        let values: Vec<usize> = problem.values_of(variable).collect();
        rows = rows
            .iter()
            .flat_map(|row: &Vec<usize>| values.iter().map(move |&value| [&row[..], &[value]].concat()))
            .collect();
    }
    rows
}

impl Problem {
    /// Reads a sheet that passed questions 1 to 14. The names are w0, w1, .. and d0, d1, ..
    pub fn decode(sheet: &[u8]) -> Problem {
        let (n, d, c, g) = (word(sheet, 0), word(sheet, 2), word(sheet, 4), word(sheet, 6));
        let mut at = 16 + 2 * n;
        let mut constraints = Vec::new();
        for _ in 0..c {
            let (arity, count) = (word(sheet, at), word(sheet, at + 2));
            let numbers = words(sheet, at + 4 + 2 * arity, arity * count);
            let rows = numbers.chunks(arity).map(|row| row.to_vec()).collect();
            constraints.push(Constraint { scope: words(sheet, at + 4, arity), rows });
            at += 4 + 2 * arity + 2 * arity * count;
        }
        Problem {
            variables: (0..n).map(|i| format!("w{i}")).collect(),
            values: (0..d).map(|v| format!("d{v}")).collect(),
            initial: words(sheet, 16, n).iter().map(|&set| set as u16).collect(),
            constraints,
            symmetries: (0..g).map(|e| words(sheet, at + 2 * e * n * d, n * d)).collect(),
        }
    }

    /// The sheet. Of a length above 65,535 the low half is stated, so that the sheet is refused.
    pub fn encode(&self) -> Vec<u8> {
        let (n, d) = (self.variables.len(), self.values.len());
        let second = 16 + 2 * n;
        let third = second + self.constraints.iter().map(Constraint::bytes).sum::<usize>();
        let length = third + 2 * self.symmetries.len() * n * d;
        let mut words = vec![n, d, self.constraints.len(), self.symmetries.len(), 16, second, third, length];
        words.extend(self.initial.iter().map(|&set| set as usize));
        for Constraint { scope, rows } in &self.constraints {
            words.extend([scope.len(), rows.len()]);
            words.extend(scope);
            words.extend(rows.iter().flatten());
        }
        words.extend(self.symmetries.iter().flatten());
        words.iter().flat_map(|&word| (word as u16).to_le_bytes()).collect()
    }

    /// Is the value in the variable's initial set?
    pub fn may(&self, variable: usize, value: usize) -> bool {
        self.initial.get(variable).is_some_and(|set| set >> value & 1 == 1)
    }

    /// The values of a variable's initial set, ascending.
    pub fn values_of(&self, variable: usize) -> impl Iterator<Item = usize> + '_ {
        (0..self.values.len()).filter(move |&value| self.may(variable, value))
    }

    /// Is the number that of a window with a duty of its initial set?
    pub fn is_pair(&self, number: usize) -> bool {
        self.may(number / self.values.len(), number % self.values.len())
    }

    /// The numbers of all pairs, ascending.
    pub fn pairs(&self) -> Vec<usize> {
        (0..self.variables.len() * self.values.len()).filter(|&number| self.is_pair(number)).collect()
    }

    /// A pair's name, as `cash.ann`.
    pub fn pair_name(&self, number: usize) -> String {
        let d = self.values.len();
        match self.variables.get(number / d) {
            Some(variable) => format!("{}.{}", written(variable), written(&self.values[number % d])),
            None => format!("{number}"),
        }
    }

    /// A plan by name: each window with its duty.
    pub fn named<'a>(&'a self, plan: &'a [u8]) -> impl Iterator<Item = (&'a str, &'a str)> {
        let duties = plan.iter().map(|&value| self.values[usize::from(value)].as_str());
        self.variables.iter().map(String::as_str).zip(duties)
    }

    /// Does each non-pair stand for itself, and are the pairs permuted among themselves?
    pub fn permutes_pairs(&self, table: &[usize]) -> bool {
        let mut images: Vec<usize> = self.pairs().iter().map(|&number| table[number]).collect();
        images.sort();
        let fixed = |number: usize| self.is_pair(number) || table[number] == number;
        images == self.pairs() && (0..table.len()).all(fixed)
    }
}
