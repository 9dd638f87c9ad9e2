//! Plans by name, written row by row: as a table for people and as CSV.

use crate::csv::cell;
use crate::letters::width;
use crate::listing::{Listing, Plans};
use crate::problem::Problem;
use std::io::{Result, Write};

/// The duties of a set that no window of a plan has.
pub fn free(plan: &[u8], present: u16) -> impl Iterator<Item = usize> + '_ {
    (0..16).filter(move |duty| present >> duty & 1 == 1 && !plan.contains(&(*duty as u8)))
}

/// Who is free, in words.
fn free_words(problem: &Problem, plan: &[u8], present: u16) -> String {
    free(plan, present).map(|duty| problem.values[duty].as_str()).collect::<Vec<_>>().join(", ")
}

/// What a table shows of plans beside a column for each window.
#[derive(Clone, Copy, Default)]
pub struct Columns<'a> {
    /// What each plan costs, before the windows.
    pub costs: Option<&'a [u64]>,
    /// Who of a set of duties is free, after the windows.
    pub free: Option<u16>,
}

/// A column for each window; nothing where no plan is listed.
pub fn write_table(out: &mut dyn Write, problem: &Problem, plans: &Plans, columns: Columns) -> Result<()> {
    if plans.is_empty() {
        return Ok(());
    }
    let cost = |row: usize| columns.costs.map(|costs| costs[row].to_string());
    let mut widths: Vec<usize> = problem.variables.iter().map(|name| width(name)).collect();
    let mut used = vec![0u16; widths.len()];
    for plan in plans.iter() {
        used.iter_mut().zip(plan).for_each(|(set, duty)| *set |= 1 << duty);
    }
    for (most, set) in widths.iter_mut().zip(&used) {
        let duties = (0..problem.values.len()).filter(|duty| set >> duty & 1 == 1);
        *most = duties.map(|duty| width(&problem.values[duty])).fold(*most, usize::max);
    }
    let costs = (0..plans.len()).filter_map(cost).map(|cost| cost.len()).max();
    let widths: Vec<usize> = costs.map(|most| most.max(4)).into_iter().chain(widths).chain([0]).collect();
    let mut line = |first: Option<String>, cells: &mut dyn Iterator<Item = &str>, last: Option<String>| {
        let first = first.into_iter();
        let cells = first.chain(cells.map(String::from)).chain(last);
        let padded = cells.zip(&widths).map(|(cell, &most)| {
            let gap = most.saturating_sub(width(&cell));
            cell + &" ".repeat(gap)
        });
        writeln!(out, "{}", padded.collect::<Vec<_>>().join("  ").trim_end())
    };
    let head = |shown: bool, word: &str| shown.then(|| word.to_string());
    let windows = &mut problem.variables.iter().map(String::as_str);
    line(head(columns.costs.is_some(), "cost"), windows, head(columns.free.is_some(), "free"))?;
    for (row, plan) in plans.iter().enumerate() {
        let free = columns.free.map(|present| free_words(problem, plan, present));
        line(cost(row), &mut problem.named(plan).map(|(_, duty)| duty), free)?;
    }
    Ok(())
}

/// The table as a text.
pub fn table(problem: &Problem, listing: &Listing) -> String {
    let mut bytes = Vec::new();
    write_table(&mut bytes, problem, &listing.plans, Columns::default()).expect("a text takes all");
    String::from_utf8(bytes).expect("names are texts")
}

/// A line for each duty: at how many windows of all plans it stands and in how many plans it is free, or that it is away.
pub fn write_counts(out: &mut dyn Write, problem: &Problem, plans: &Plans, present: u16) -> Result<()> {
    let mut counts = vec![[0u64; 2]; problem.values.len()];
    for plan in plans.iter() {
        plan.iter().for_each(|&duty| counts[duty as usize][0] += 1);
        free(plan, present).for_each(|duty| counts[duty][1] += 1);
    }
    let names = problem.values.iter().map(|name| width(name)).max().unwrap_or(0);
    let digits = |of: usize| counts.iter().map(|count| count[of].to_string().len()).max().unwrap_or(0);
    let [stands, free] = [digits(0), digits(1)];
    for (duty, (name, count)) in problem.values.iter().zip(&counts).enumerate() {
        let gap = " ".repeat(names - width(name));
        match present >> duty & 1 {
            1 => writeln!(out, "{name}{gap}  stands {:>stands$}  free {:>free$}", count[0], count[1])?,
            _ => writeln!(out, "{name}{gap}  away")?,
        }
    }
    Ok(())
}

/// A line for the windows and one for each plan.
pub fn write_csv(out: &mut dyn Write, problem: &Problem, plans: &Plans) -> Result<()> {
    let windows: Vec<String> = problem.variables.iter().map(|name| cell(name)).collect();
    let duties: Vec<String> = problem.values.iter().map(|name| cell(name)).collect();
    writeln!(out, "{}", windows.join(","))?;
    for plan in plans.iter() {
        let row: Vec<&str> = plan.iter().map(|&duty| duties[duty as usize].as_str()).collect();
        writeln!(out, "{}", row.join(","))?;
    }
    Ok(())
}
