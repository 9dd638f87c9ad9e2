//! Problems whose trees repeat themselves: groups of places with no rule between them, some of them alike, with exchanges that trade groups, places or
//! values of one; and more different sets for the last places than a memo has entries.

use crate::symmetry::Symmetry;
use crate::Rng;
use oracle::nogood::assignments;
use oracle::sheet::Constraint;
use oracle::Problem;

/// A group: the sets of its places, and rules on these, numbered from 0.
#[derive(Clone)]
struct Group {
    sets: Vec<u16>,
    rules: Vec<Constraint>,
}

/// The most places and rules of a problem.
const PLACES: usize = 12;
const RULES: usize = 32;

/// The first so many values.
fn first(values: usize) -> u16 {
    ((1u32 << values) - 1) as u16
}

/// A rule on places of a group: those rows of its sets that are kept.
fn rule(sets: &[u16], scope: &[usize], mut keeps: impl FnMut(&[usize]) -> bool) -> Constraint {
    let sets: Vec<u16> = scope.iter().map(|&place| sets[place]).collect();
    let mut rows = assignments(&sets);
    rows.retain(|row| keeps(row));
    Constraint { scope: scope.to_vec(), rows }
}

/// Every two places from one on are different.
fn different(sets: &[u16], from: usize) -> Vec<Constraint> {
    let pairs = (from..sets.len()).flat_map(|i| (i + 1..sets.len()).map(move |j| [i, j]));
    pairs.map(|pair| rule(sets, &pair, |row| row[0] != row[1])).collect()
}

/// A small group: all different, often with too few values; every second place and the next by random rules; or a rule of three whose first place
/// leaves the sets of the others whole, these two different or not.
fn group(rng: &mut Rng, values: usize) -> Group {
    let shapes = [(1, 2), (1, 3), (2, 2), (2, 3), (3, 2), (3, 2), (3, 3), (4, 3)];
    let (size, few) = rng.pick(&shapes);
    let few = few.min(values);
    let mut sets = vec![first(few) << rng.below(values - few + 1); size];
    if rng.chance(15) {
        sets[size - 1] = first(values);
    }
    let rules = match rng.below(6) {
        0..=2 => different(&sets, 0),
        3 => {
            let percent = rng.pick(&[40, 60, 80]);
            (1..size).map(|place| rule(&sets, &[place - 1, place], |_| rng.chance(percent))).collect()
        }
        kind if size >= 3 => {
            let (parity, percent) = (rng.below(2), rng.pick(&[50, 75]));
            let keeps = |row: &[usize]| match kind {
                4 => row.iter().sum::<usize>() % 2 == parity,
                _ => rng.chance(percent),
            };
            let three = rule(&sets, &[0, 1, 2], keeps);
            let others = if rng.chance(50) { different(&sets, 1) } else { Vec::new() };
            [vec![three], others].concat()
        }
        _ => Vec::new(),
    };
    Group { sets, rules }
}

/// Two to five groups, many alike, the last one often without a plan; one behind the other or mixed; up to 16 exchanges. At most so many choices of a value for
/// each place.
pub fn groups(rng: &mut Rng, most: u64) -> Problem {
    let values = rng.pick(&[2, 3, 3, 4]);
    let mut all = vec![group(rng, values)];
    for _ in 0..rng.pick(&[1, 1, 2, 2, 3]) {
        let next = if rng.chance(40) { rng.pick(&all) } else { group(rng, values) };
        all.push(next);
    }
    let last = rng.pick(&[0, 0, 3, 3, 4]);
    if last > 0 && values >= last - 1 {
        let sets = vec![first(last - 1); last];
        all.push(Group { rules: different(&sets, 0), sets });
    }
    while choices(&all) > most || count(&all) > PLACES || rules(&all) > RULES {
        all.remove(rng.below(all.len()));
    }
    let mut to: Vec<usize> = (0..count(&all)).collect();
    if rng.chance(40) {
        rng.shuffle(&mut to);
    }
    let mut problem = placed(&all, &to, values);
    let mut found = exchanges(&problem, &all, &to);
    found.retain(|table| problem.respected_by(table));
    let products = rng.pick(&[0, 0, 2, 8]);
    for _ in 0..if found.is_empty() { 0 } else { products } {
        let (one, other) = (rng.pick(&found), rng.pick(&found));
        found.push(one.iter().map(|&number| other[number]).collect());
    }
    rng.shuffle(&mut found);
    found.truncate(rng.pick(&[0, 0, 1, 1, 2, 3, 5, 16]));
    problem.symmetries = found;
    problem
}

fn choices(groups: &[Group]) -> u64 {
    groups.iter().flat_map(|group| &group.sets).map(|set| u64::from(set.count_ones())).product()
}

fn count(groups: &[Group]) -> usize {
    groups.iter().map(|group| group.sets.len()).sum()
}

fn rules(groups: &[Group]) -> usize {
    groups.iter().map(|group| group.rules.len()).sum()
}

/// The values as they are at each of so many places.
fn as_they_are(places: usize, values: usize) -> Vec<Vec<usize>> {
    vec![(0..values).collect(); places]
}

/// The groups one behind the other, then each place at its own number.
fn placed(groups: &[Group], to: &[usize], values: usize) -> Problem {
    let (mut initial, mut constraints, mut start) = (vec![0; to.len()], Vec::new(), 0);
    let moved = Symmetry { to: to.to_vec(), value: as_they_are(to.len(), values) };
    for group in groups {
        for (place, &set) in group.sets.iter().enumerate() {
            initial[to[start + place]] = set;
        }
        for rule in &group.rules {
            let scope = rule.scope.iter().map(|place| start + place).collect();
            constraints.push(moved.image(&Constraint { scope, rows: rule.rows.clone() }));
        }
        start += group.sets.len();
    }
    Problem { variables: to.len(), values, initial, constraints, symmetries: Vec::new() }
}

/// Trades of two neighbouring groups of one size, of two neighbouring places of a group, and of two values in one group and in all: tables, of which some
/// don't respect the sheet.
fn exchanges(problem: &Problem, groups: &[Group], to: &[usize]) -> Vec<Vec<usize>> {
    let (n, d) = (problem.variables, problem.values);
    let mut tables = Vec::new();
    let mut trade = |pairs: &[(usize, usize)]| {
        let mut moves: Vec<usize> = (0..n).collect();
        pairs.iter().for_each(|&(one, other)| moves.swap(to[one], to[other]));
        tables.push(Symmetry { to: moves, value: as_they_are(n, d) }.table(problem));
    };
    let mut start = 0;
    for (i, group) in groups.iter().enumerate() {
        let size = group.sets.len();
        if groups.get(i + 1).is_some_and(|next| next.sets == group.sets) {
            trade(&(start..start + size).map(|place| (place, place + size)).collect::<Vec<_>>());
        }
        (start + 1..start + size).for_each(|place| trade(&[(place - 1, place)]));
        start += size;
    }
    let mut start = 0;
    for group in groups {
        let places: Vec<usize> = (start..start + group.sets.len()).map(|place| to[place]).collect();
        tables.extend((1..d).map(|value| values_traded(problem, &places, value)));
        start += group.sets.len();
    }
    let all: Vec<usize> = (0..n).collect();
    tables.extend((1..d).map(|value| values_traded(problem, &all, value)));
    tables.retain(|table| problem.permutes_pairs(table));
    tables
}

/// A value and the one before it traded at some places.
fn values_traded(problem: &Problem, places: &[usize], value: usize) -> Vec<usize> {
    let mut traded = as_they_are(problem.variables, problem.values);
    places.iter().for_each(|&place| traded[place].swap(value - 1, value));
    Symmetry { to: (0..problem.variables).collect(), value: traded }.table(problem)
}

/// A first place that says nothing, two places whose ten values each leave a set of its own to one of the next two, which are different: a hundred
/// different pairs of sets, more than a memo has entries, each met twice. Then three places without a plan, or none. Exchanges trade the first place's values and
/// the last two places.
pub fn crowd(rng: &mut Rng) -> Problem {
    const MANY: usize = 10;
    let mut initial = vec![first(2), first(MANY), first(MANY), first(4), first(4)];
    let mut constraints = different(&initial, 3);
    for chooser in [1, 2] {
        let mut sets: Vec<u16> = (1..16).filter(|set: &u16| set.count_ones() > 1).collect();
        rng.shuffle(&mut sets);
        let leaves = |row: &[usize]| sets[row[0]] >> row[1] & 1 == 1;
        constraints.push(rule(&initial, &[chooser, chooser + 2], leaves));
    }
    if rng.chance(60) {
        initial.extend([first(2); 3]);
        constraints.extend(different(&initial, 5));
    }
    let n = initial.len();
    let mut problem = Problem { variables: n, values: MANY, initial, constraints, symmetries: Vec::new() };
    let mut to: Vec<usize> = (0..n).collect();
    to.swap(n - 2, n - 1);
    let last = Symmetry { to, value: as_they_are(n, MANY) }.table(&problem);
    let mut tables = vec![values_traded(&problem, &[0], 1), last];
    tables.retain(|table| problem.respected_by(table));
    tables.truncate(rng.below(3));
    problem.symmetries = tables;
    problem
}
