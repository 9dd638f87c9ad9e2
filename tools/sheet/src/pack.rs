//! Fewer rules that say the same. Where the rules as written are over 32, all that keeps two windows apart
//! (`different`, `all different`, `forbid`, `never together`) is put together: a rule on two windows says
//! everything about them, and a rule on three windows what is said about its two or three pairs, if at most
//! 256 rows of duties that the windows may have are left. An exchange of windows has to find the rules again
//! that it takes rules to, so threes that exchanges carry into one another are taken together.

use crate::compose::{amount, forbidden, single, Ruled, MOST_RULES};
use crate::problem::{draws, Constraint, Problem};
use crate::text::{fault, Parsed, Statement, Text};
use crate::words::counted;
use std::collections::{BTreeMap, BTreeSet};

/// The most rows of a rule.
const MOST_ROWS: usize = 256;

/// So many duties at each of three windows never make more rows.
const FEW: usize = 6;

/// How many changes to a packing are tried.
const TURNS: usize = 20_000;

type Two = [usize; 2];
type Three = [usize; 3];

/// What is said about two windows: duties that they don't have together, and the line that says so first.
struct Apart {
    rows: BTreeSet<(usize, usize)>,
    line: usize,
}

type Pairs = BTreeMap<Two, Apart>;

/// Threes that the exchanges carry into one another, and the pairs in them that are kept apart.
struct Group {
    threes: Vec<Three>,
    pairs: BTreeSet<Two>,
}

pub fn pack(text: &Text, problem: &Problem) -> Parsed<Vec<Ruled>> {
    let mut rules = kept(text, problem);
    if let Some((_, line)) = rules.get(MOST_RULES) {
        return fault(*line, format!("{} rules, and at most {MOST_RULES} are allowed", rules.len()));
    }
    let room = MOST_RULES - rules.len();
    let pairs = pairs(text, problem);
    let threes = threes(problem, &pairs);
    let groups = groups(problem, &pairs, &threes);
    let chosen = choose(&pairs, &groups, room);
    let needed = cost(&pairs, &groups, &chosen);
    if needed > room {
        let words = too_many(problem, rules.len(), pairs.len(), needed, threes.len());
        return fault(widest(text).0, words + &would_fit(problem, &pairs, &widest(text).1, room));
    }
    let covered: BTreeSet<Two> = chosen.iter().flat_map(|&group| groups[group].pairs.clone()).collect();
    let mut packed: Vec<Vec<usize>> =
        pairs.keys().filter(|pair| !covered.contains(*pair)).map(|pair| pair.to_vec()).collect();
    packed.extend(chosen.iter().flat_map(|&group| &groups[group].threes).map(|three| three.to_vec()));
    packed.sort();
    for scope in packed {
        let line =
            inside(&scope).filter_map(|pair| pairs.get(&pair)).map(|apart| apart.line).min().unwrap_or(1);
        rules.push((Constraint { rows: rows(problem, &pairs, &scope), scope }, line));
    }
    Ok(rules)
}

/// Why the rules don't fit.
fn too_many(problem: &Problem, other: usize, pairs: usize, needed: usize, threes: usize) -> String {
    let n = problem.variables.len();
    let all = n * (n - 1) * n.saturating_sub(2) / 6;
    let other_rules = match other {
        0 => String::new(),
        _ => format!("{} and ", counted(other as u64, "other rule")),
    };
    let exchanges = match problem.symmetries.len() {
        0 => "",
        _ => ", and needs those that the exchanges carry it to as well",
    };
    format!(
        "the rules don't fit: {other_rules}{pairs} pairs of windows kept apart need {} rules, and at most {MOST_RULES} are \
         allowed. A rule on three windows says up to three pairs where at most {MOST_ROWS} rows are left, here {threes} \
         threes of {all}{exchanges}",
        other + needed
    )
}

/// What would fit: few duties, as any three windows then have few enough rows; fewer windows, a rule for every two.
fn would_fit(problem: &Problem, pairs: &Pairs, widest: &[usize], room: usize) -> String {
    let groups = groups(problem, pairs, &saving(problem, pairs).collect());
    let few = match cost(pairs, &groups, &choose(pairs, &groups, room)) <= room {
        true => vec![format!(
            "at most {FEW} duties at each of these windows (`may` or `clerk` lines make them fewer)"
        )],
        false => Vec::new(),
    };
    let inside = |pair: &&Two| pair.iter().all(|window| widest.contains(window));
    let left = room.saturating_sub(pairs.len() - pairs.keys().filter(inside).count());
    let most = (2..widest.len()).rev().find(|count| count * (count - 1) / 2 <= left);
    let fewer = most.map(|count| format!("`all different` of at most {count} windows, with any duties"));
    let fits: Vec<String> = few.into_iter().chain(fewer).collect();
    match fits.is_empty() {
        true => String::new(),
        false => format!(". What fits: {}", fits.join("; or ")),
    }
}

/// The rules that stay as they are: those with rows, counts, and what is forbidden on one window or on three.
fn kept(text: &Text, problem: &Problem) -> Vec<Ruled> {
    let mut rules = Vec::new();
    let mut rest: Vec<Vec<(usize, usize)>> = Vec::new();
    let mut line_of = BTreeMap::new();
    for stated in &text.statements {
        match &stated.statement {
            statement @ (Statement::Rule(_) | Statement::Count { .. }) => {
                let wide = amount(problem, statement).is_some();
                let stays =
                    single(problem, statement).into_iter().filter(|rule| !wide || rule.scope.len() != 2);
                rules.extend(stays.map(|rule| (rule, stated.first)));
            }
            Statement::Forbid(rows) => {
                for row in rows.iter().filter(|row| row.len() != 2) {
                    let scope: Vec<usize> = row.iter().map(|(variable, _)| *variable).collect();
                    line_of.entry(scope).or_insert(stated.first);
                    rest.push(row.clone());
                }
            }
            _ => {}
        }
    }
    rules.extend(forbidden(problem, &rest).into_iter().map(|rule| (rule.clone(), line_of[&rule.scope])));
    rules
}

/// What is said about two windows, without what can't happen anyway.
fn pairs(text: &Text, problem: &Problem) -> Pairs {
    let mut pairs = Pairs::new();
    let mut add = |a: (usize, usize), b: (usize, usize), line: usize| {
        if problem.may(a.0, a.1) && problem.may(b.0, b.1) {
            let apart = pairs.entry([a.0, b.0]).or_insert(Apart { rows: BTreeSet::new(), line });
            apart.rows.insert((a.1, b.1));
        }
    };
    for stated in &text.statements {
        match &stated.statement {
            Statement::Different(scope) => {
                for pair in inside(scope) {
                    for value in 0..problem.values.len() {
                        add((pair[0], value), (pair[1], value), stated.first);
                    }
                }
            }
            Statement::Forbid(rows) => {
                for row in rows.iter().filter(|row| row.len() == 2) {
                    add(row[0], row[1], stated.first);
                }
            }
            statement if amount(problem, statement).is_some() => {
                let two = single(problem, statement).into_iter().filter(|rule| rule.scope.len() == 2);
                for Constraint { scope, rows } in two {
                    for row in draws(problem, &scope).iter().filter(|row| !rows.contains(row)) {
                        add((scope[0], row[0]), (scope[1], row[1]), stated.first);
                    }
                }
            }
            _ => {}
        }
    }
    pairs
}

/// The line and the windows of the `all different` of the most windows, or the last statement's line.
fn widest(text: &Text) -> (usize, Vec<usize>) {
    let scope = |statement: &Statement| match statement {
        Statement::Different(scope) => scope.clone(),
        _ => Vec::new(),
    };
    let lines = text.statements.iter().map(|stated| (stated.first, scope(&stated.statement)));
    lines.max_by_key(|(_, scope)| scope.len()).unwrap_or((1, Vec::new()))
}

/// The pairs of windows among some, ascending.
fn inside(scope: &[usize]) -> impl Iterator<Item = Two> + '_ {
    (0..scope.len()).flat_map(move |i| (i + 1..scope.len()).map(move |j| [scope[i], scope[j]]))
}

/// The rows on some windows that all that is said about two of them leaves.
fn rows(problem: &Problem, pairs: &Pairs, scope: &[usize]) -> Vec<Vec<usize>> {
    let said: Vec<(usize, usize, &Apart)> = (0..scope.len())
        .flat_map(|i| (i + 1..scope.len()).map(move |j| (i, j)))
        .filter_map(|(i, j)| Some((i, j, pairs.get(&[scope[i], scope[j]])?)))
        .collect();
    let fits = |row: &Vec<usize>| said.iter().all(|(i, j, apart)| !apart.rows.contains(&(row[*i], row[*j])));
    draws(problem, scope).into_iter().filter(fits).collect()
}

/// The threes of windows whose rule saves one.
fn saving<'a>(problem: &Problem, pairs: &'a Pairs) -> impl Iterator<Item = Three> + 'a {
    let n = problem.variables.len();
    let all = (0..n).flat_map(move |a| (a + 1..n).flat_map(move |b| (b + 1..n).map(move |c| [a, b, c])));
    all.filter(|three| inside(three).filter(|pair| pairs.contains_key(pair)).count() > 1)
}

/// Those of them that one rule can hold.
fn threes(problem: &Problem, pairs: &Pairs) -> BTreeSet<Three> {
    saving(problem, pairs).filter(|three| rows(problem, pairs, three).len() <= MOST_ROWS).collect()
}

/// The threes in groups that the exchanges carry into themselves, those groups that are whole.
fn groups(problem: &Problem, pairs: &Pairs, threes: &BTreeSet<Three>) -> Vec<Group> {
    let moves: Vec<Vec<usize>> =
        problem.symmetries.iter().filter_map(|table| windows_moved(problem, table)).collect();
    let mut left = threes.clone();
    let mut groups = Vec::new();
    while let Some(three) = left.pop_first() {
        let group = carried(three, &moves);
        left.retain(|other| !group.contains(other));
        if group.iter().all(|three| threes.contains(three)) {
            let held = group.iter().flat_map(|three| inside(three).collect::<Vec<Two>>());
            let held = held.filter(|pair| pairs.contains_key(pair)).collect();
            groups.push(Group { threes: group.into_iter().collect(), pairs: held });
        }
    }
    groups
}

/// Where a table takes each window, if it takes windows whole.
fn windows_moved(problem: &Problem, table: &[usize]) -> Option<Vec<usize>> {
    let d = problem.values.len();
    let image = |window: usize| {
        let mut images = problem.values_of(window).map(|value| table[window * d + value] / d);
        let first = images.next()?;
        (first < problem.variables.len() && images.all(|other| other == first)).then_some(first)
    };
    (0..problem.variables.len()).map(image).collect()
}

/// All that moves carry a three to.
fn carried(three: Three, moves: &[Vec<usize>]) -> BTreeSet<Three> {
    let mut group = BTreeSet::from([three]);
    let mut new = vec![three];
    while let Some(three) = new.pop() {
        for to in moves {
            let mut image = three.map(|window| to[window]);
            image.sort();
            if group.insert(image) {
                new.push(image);
            }
        }
    }
    group
}

/// The rules that a choice of groups needs: its threes, and the pairs that it leaves.
fn cost(pairs: &Pairs, groups: &[Group], chosen: &BTreeSet<usize>) -> usize {
    let threes: usize = chosen.iter().map(|&group| groups[group].threes.len()).sum();
    let held: BTreeSet<&Two> = chosen.iter().flat_map(|&group| &groups[group].pairs).collect();
    threes + pairs.len() - held.len()
}

/// A choice of groups that needs few rules: a group is taken in, in turn without those that share a pair with
/// it, whenever that needs no more rules than before.
fn choose(pairs: &Pairs, groups: &[Group], room: usize) -> BTreeSet<usize> {
    let mut chosen = BTreeSet::new();
    let mut best = cost(pairs, groups, &chosen);
    let mut seed: u64 = 1;
    for turn in 0..TURNS {
        if best <= room || groups.is_empty() {
            break;
        }
        seed = seed.wrapping_mul(6364136223846793005).wrapping_add(1442695040888963407);
        let new = (seed >> 33) as usize % groups.len();
        let mut next = chosen.clone();
        if turn % 4 > 0 {
            next.retain(|&group: &usize| groups[group].pairs.is_disjoint(&groups[new].pairs));
        }
        next.insert(new);
        let needed = cost(pairs, groups, &next);
        if needed <= best {
            (chosen, best) = (next, needed);
        }
    }
    chosen
}
