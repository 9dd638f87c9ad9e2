//! A problem written as a sheet.

use oracle::Problem;

/// Offsets of the three parts, the length, and the offset of each rule.
pub struct Layout {
    pub second: usize,
    pub third: usize,
    pub length: usize,
    pub constraints: Vec<usize>,
}

pub fn layout(problem: &Problem) -> Layout {
    let second = 16 + 2 * problem.variables;
    let mut at = second;
    let mut constraints = Vec::new();
    for constraint in &problem.constraints {
        constraints.push(at);
        at += 4 + 2 * constraint.scope.len() * (1 + constraint.rows.len());
    }
    let tables = 2 * problem.symmetries.len() * problem.variables * problem.values;
    Layout { second, third: at, length: at + tables, constraints }
}

pub fn encode(problem: &Problem) -> Vec<u8> {
    let place = layout(problem);
    let (c, g) = (problem.constraints.len(), problem.symmetries.len());
    let mut words =
        vec![problem.variables, problem.values, c, g, 16, place.second, place.third, place.length];
    words.extend(problem.initial.iter().map(|&set| set as usize));
    for constraint in &problem.constraints {
        words.extend([constraint.scope.len(), constraint.rows.len()]);
        words.extend(&constraint.scope);
        words.extend(constraint.rows.iter().flatten());
    }
    words.extend(problem.symmetries.iter().flatten());
    words.iter().flat_map(|&word| (word as u16).to_le_bytes()).collect()
}
