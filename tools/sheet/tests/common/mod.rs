//! What the lines of a text mean, said plainly.

use sheet::text::{Statement, Text};

/// Does a plan obey a line?
fn obeys(plan: &[usize], statement: &Statement) -> bool {
    match statement {
        Statement::May(window, set) => set >> plan[*window] & 1 == 1,
        Statement::Rule(rule) => {
            let row: Vec<usize> = rule.scope.iter().map(|&window| plan[window]).collect();
            rule.rows.contains(&row)
        }
        Statement::Different(scope) => {
            let mut duties: Vec<usize> = scope.iter().map(|&window| plan[window]).collect();
            duties.sort();
            duties.windows(2).all(|two| two[0] != two[1])
        }
        Statement::Forbid(rows) => {
            rows.iter().all(|row| row.iter().any(|&(window, duty)| plan[window] != duty))
        }
        Statement::Count { least, most, value, scope } => {
            let count = scope.iter().filter(|&&window| plan[window] == *value).count();
            (*least..=*most).contains(&count)
        }
        Statement::Clerk(duty, windows) => {
            plan.iter().enumerate().all(|(window, other)| other != duty || windows >> window & 1 == 1)
        }
        Statement::Away(duty) => !plan.contains(duty),
        Statement::Fix(window, duty) => plan[*window] == *duty,
        _ => true,
    }
}

/// All plans of a text, by trying every assignment; ascending.
pub fn enumerated(text: &Text) -> Vec<Vec<usize>> {
    let mut plans: Vec<Vec<usize>> = vec![Vec::new()];
    for window in 0..text.variables.len() {
        let may = |duty: &usize| {
            text.statements.iter().all(|stated| match stated.statement {
                Statement::May(other, set) if other == window => set >> duty & 1 == 1,
                _ => true,
            })
        };
        let duties: Vec<usize> = (0..text.values.len()).filter(may).collect();
        plans = plans
            .iter()
            .flat_map(|plan| duties.iter().map(move |&duty| [&plan[..], &[duty]].concat()))
            .collect();
    }
    plans.retain(|plan| text.statements.iter().all(|stated| obeys(plan, &stated.statement)));
    plans
}
