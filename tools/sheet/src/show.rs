//! The text of a sheet.

use crate::command::{refuse_told, text, Arguments, Command, Outcome, Stop};
use crate::explain::question;
use crate::problem::{unlike_rows, Constraint, Problem};

pub const COMMAND: Command = Command {
    name: "show",
    usage: "SHEET > TEXT",
    about: "writes the text of a sheet, with the names w0 w1 .. and d0 d1 ..",
    files: 1..=1,
    options: &[],
    asks: false,
    run,
};

/// Sheets that pass questions 1 to 14 can be shown.
fn run(arguments: &Arguments) -> Result<Outcome, Stop> {
    let sheet = arguments.sources[0].bytes()?;
    match question(&sheet) {
        Err(refused) if refused.refusal.number < 15 => {
            refuse_told(refused.told(Some(arguments.sources[0].name())))
        }
        _ => Ok(text(show(&Problem::decode(&sheet)))),
    }
}

/// The text, from which `make` gets the same sheet. The sheet must have passed questions 1 to 14.
pub fn show(problem: &Problem) -> String {
    let mut text = format!("windows {}\nduties {}\n", problem.variables.join(" "), problem.values.join(" "));
    for variable in 0..problem.variables.len() {
        let duties: Vec<&str> =
            problem.values_of(variable).map(|value| problem.values[value].as_str()).collect();
        if duties.len() < problem.values.len() {
            text += &format!("may {} {}\n", problem.variables[variable], duties.join(" "));
        }
    }
    let mut item = 0;
    while item < problem.constraints.len() {
        let count = all_different(problem, item);
        if count > 0 {
            let scope = all_different_scope(problem, item, count);
            text += &format!("all different {}\n", names(&problem.variables, &scope));
            item += count * (count - 1) / 2;
        } else {
            text += &show_constraint(problem, &problem.constraints[item]);
            item += 1;
        }
    }
    for table in &problem.symmetries {
        text += &show_symmetry(problem, table);
    }
    text
}

fn names(all: &[String], numbers: &[usize]) -> String {
    numbers.iter().map(|&number| all[number].as_str()).collect::<Vec<_>>().join(" ")
}

fn is_different(problem: &Problem, constraint: &Constraint) -> bool {
    constraint.scope.len() == 2 && constraint.rows == unlike_rows(problem.values.len())
}

/// The windows of an `all different` of `count` windows that starts with a rule: its first window, and
/// the second windows of that rule and the next ones.
fn all_different_scope(problem: &Problem, item: usize, count: usize) -> Vec<usize> {
    let mut scope = vec![problem.constraints[item].scope[0]];
    scope.extend(problem.constraints[item..item + count - 1].iter().map(|constraint| constraint.scope[1]));
    scope
}

/// The most windows, three or more, of an `all different` that starts with a rule; 0 if there is none.
fn all_different(problem: &Problem, item: usize) -> usize {
    let rest = &problem.constraints[item..];
    let run = rest.iter().take_while(|constraint| is_different(problem, constraint)).count();
    let fits = |&count: &usize| {
        let scope = all_different_scope(problem, item, count);
        let two = (0..count).flat_map(|i| (i + 1..count).map(move |j| (i, j)));
        two.zip(rest).all(|((i, j), constraint)| constraint.scope == [scope[i], scope[j]])
    };
    (3..=problem.variables.len()).rev().filter(|count| count * (count - 1) / 2 <= run).find(fits).unwrap_or(0)
}

fn show_constraint(problem: &Problem, constraint: &Constraint) -> String {
    let scope = names(&problem.variables, &constraint.scope);
    if is_different(problem, constraint) {
        return format!("different {scope}\n");
    }
    let mut text = format!("rule {scope}\n");
    let rows: Vec<String> = constraint.rows.iter().map(|row| names(&problem.values, row)).collect();
    for line in rows.chunks(8) {
        text += &format!("  rows {}\n", line.join(", "));
    }
    text
}

/// An exchange: of windows and duties, else of pairs, else (no permutation of pairs) as its numbers.
fn show_symmetry(problem: &Problem, table: &[usize]) -> String {
    if !problem.permutes_pairs(table) {
        let numbers: Vec<String> = table.iter().map(|number| number.to_string()).collect();
        return format!("exchange table {}\n", numbers.join(" "));
    }
    if let Some((to, value)) = factors(problem, table) {
        let mut text = "exchange".to_string();
        for (word, names, map) in [("windows", &problem.variables, &to), ("duties", &problem.values, &value)]
        {
            let cycles = cycles(map);
            if !cycles.is_empty() {
                let parts: Vec<String> = cycles.iter().map(|cycle| self::names(names, cycle)).collect();
                text += &format!(" {word} {}", parts.join(", "));
            }
        }
        return if text == "exchange" { "exchange nothing\n".to_string() } else { text + "\n" };
    }
    let part = |cycle: &Vec<usize>| {
        cycle.iter().map(|&number| problem.pair_name(number)).collect::<Vec<_>>().join(" ")
    };
    let parts: Vec<String> = cycles(table).iter().map(part).collect();
    format!("exchange pairs {}\n", parts.join(", "))
}

/// A permutation of windows and one of duties that together move each pair as the table does.
fn factors(problem: &Problem, table: &[usize]) -> Option<(Vec<usize>, Vec<usize>)> {
    let d = problem.values.len();
    let mut to = vec![None; problem.variables.len()];
    let mut value = vec![None; d];
    for number in problem.pairs() {
        let image = table[number];
        if *to[number / d].get_or_insert(image / d) != image / d
            || *value[number % d].get_or_insert(image % d) != image % d
        {
            return None;
        }
    }
    let whole = |map: Vec<Option<usize>>| -> Vec<usize> {
        map.iter().enumerate().map(|(i, image)| image.unwrap_or(i)).collect()
    };
    let (to, value) = (whole(to), whole(value));
    let permutation = |map: &[usize]| (0..map.len()).all(|i| map.contains(&i));
    (permutation(&to) && permutation(&value)).then_some((to, value))
}

/// The cycles of a permutation, without those of one.
fn cycles(map: &[usize]) -> Vec<Vec<usize>> {
    let mut all: Vec<Vec<usize>> = Vec::new();
    for start in 0..map.len() {
        if map[start] != start && !all.iter().flatten().any(|&member| member == start) {
            let mut cycle = vec![start];
            while map[cycle[cycle.len() - 1]] != start {
                cycle.push(map[cycle[cycle.len() - 1]]);
            }
            all.push(cycle);
        }
    }
    all
}
