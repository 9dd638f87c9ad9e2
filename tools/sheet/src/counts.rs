//! Where the trials go (paper 02, #107): a line for each window with its name, its count, its share and a bar.

/// The widest bar.
const WIDTH: usize = 40;

/// A line for each window, in the sheet's order: name, trials, share of all trials in percent, and a bar whose length is that of
/// the largest count's share. `counts` has at least as many numbers as there are names; without trials every share is 0.
pub fn drawn(names: &[String], counts: &[u64]) -> String {
    let counts = &counts[..names.len()];
    let total = counts.iter().sum();
    let most = counts.iter().copied().max().unwrap_or(0);
    let name_width = names.iter().map(|name| name.chars().count()).max().unwrap_or(0);
    let count_width = most.to_string().len();
    let mut text = String::new();
    for (name, &count) in names.iter().zip(counts) {
        let line = format!(
            "{name:<name_width$}  {count:>count_width$}  {:>5}  {}",
            share(count, total),
            "#".repeat(bar(count, most))
        );
        text.push_str(line.trim_end());
        text.push('\n');
    }
    text
}

/// A share in percent with one digit after the point, rounded to the nearest.
pub fn share(count: u64, total: u64) -> String {
    if total == 0 {
        return "0.0%".into();
    }
    let [count, total] = [count, total].map(u128::from);
    let tenths = (count * 2000 + total) / (2 * total);
    format!("{}.{}%", tenths / 10, tenths % 10)
}

/// A bar's length: the largest count has the widest, and a count that is not 0 has at least one mark.
fn bar(count: u64, most: u64) -> usize {
    if count == 0 {
        return 0;
    }
    ((u128::from(count) * WIDTH as u128 / u128::from(most)) as usize).max(1)
}

#[cfg(test)]
mod tests {
    use super::*;

    fn names(names: &[&str]) -> Vec<String> {
        names.iter().map(|name| name.to_string()).collect()
    }

    #[test]
    fn sheet_a_has_3_and_3() {
        let bar = "#".repeat(WIDTH);
        assert_eq!(
            drawn(&names(&["west", "east"]), &[3, 3, 0, 0, 0, 0, 0, 0, 0, 0, 0, 0]),
            format!("west  3  50.0%  {bar}\neast  3  50.0%  {bar}\n")
        );
    }

    #[test]
    fn names_and_counts_stand_in_columns() {
        assert_eq!(
            drawn(&names(&["a", "cash"]), &[1, 40]),
            format!("a      1   2.4%  #\ncash  40  97.6%  {}\n", "#".repeat(WIDTH))
        );
    }

    #[test]
    fn no_trials_draw_no_bar() {
        assert_eq!(drawn(&names(&["a", "b"]), &[0, 0]), "a  0   0.0%\nb  0   0.0%\n");
    }

    #[test]
    fn a_small_count_is_seen_and_large_ones_do_not_wrap() {
        let text = drawn(&names(&["a", "b", "c"]), &[u64::MAX / 2, 1, u64::MAX / 2]);
        let marks: Vec<usize> = text.lines().map(|line| line.matches('#').count()).collect();
        assert_eq!(marks, [WIDTH, 1, WIDTH]);
        assert!(text.lines().all(|line| line.contains('%')));
    }
}
