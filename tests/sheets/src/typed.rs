//! A hall typed in another order of its places.

use oracle::order::reading;
use oracle::sheet::Constraint;
use oracle::Problem;

/// The problem whose place i is the order's place i.
pub fn typed_in(problem: &Problem, order: &[usize]) -> Problem {
    let d = problem.values;
    let at = |place: usize| order.iter().position(|&other| other == place).expect("each place once");
    let constraint = |Constraint { scope, rows }: &Constraint| {
        let mut columns: Vec<usize> = (0..scope.len()).collect();
        columns.sort_by_key(|&column| at(scope[column]));
        let mut rows: Vec<Vec<usize>> = rows.iter().map(|row| reading(&columns, row)).collect();
        rows.sort();
        Constraint { scope: columns.iter().map(|&column| at(scope[column])).collect(), rows }
    };
    let table = |table: &Vec<usize>| {
        let image = |number: usize| table[order[number / d] * d + number % d];
        (0..table.len()).map(|number| at(image(number) / d) * d + image(number) % d).collect()
    };
    Problem {
        initial: reading(order, &problem.initial),
        constraints: problem.constraints.iter().map(constraint).collect(),
        symmetries: problem.symmetries.iter().map(table).collect(),
        ..*problem
    }
}
