//! Permutations of pairs that move whole places: place i goes to place `to[i]`, and value v of it to
//! `value[i][v]`. With them come the images of rules, so that a sheet can be closed under them.

use crate::Rng;
use oracle::sheet::Constraint;
use oracle::{members, Problem};

pub struct Symmetry {
    pub to: Vec<usize>,
    pub value: Vec<Vec<usize>>,
}

impl Symmetry {
    /// The image of each pair number; a number that is no pair stands for itself.
    pub fn table(&self, problem: &Problem) -> Vec<usize> {
        let d = problem.values;
        let image = |number: usize| {
            let (variable, value) = (number / d, number % d);
            self.to[variable] * d + self.value[variable][value]
        };
        (0..problem.variables * d)
            .map(|number| if problem.is_pair(number) { image(number) } else { number })
            .collect()
    }

    /// The rule on the images of a rule's places, whose rows are the images of that rule's. The rows given
    /// lie inside the initial sets.
    pub fn image(&self, constraint: &Constraint) -> Constraint {
        let scope = &constraint.scope;
        let mut order: Vec<usize> = (0..scope.len()).collect();
        order.sort_by_key(|&i| self.to[scope[i]]);
        let image = |row: &Vec<usize>| order.iter().map(|&i| self.value[scope[i]][row[i]]).collect();
        let mut rows: Vec<Vec<usize>> = constraint.rows.iter().map(image).collect();
        rows.sort();
        Constraint { scope: order.iter().map(|&i| self.to[scope[i]]).collect(), rows }
    }
}

/// A random symmetry between places whose initial sets have one size: a cycle of places, often of three,
/// or none, with values kept, permuted alike at every place, or permuted at each place by itself.
pub fn random_symmetry(rng: &mut Rng, initial: &[u16], values: usize) -> Symmetry {
    let n = initial.len();
    let mut to: Vec<usize> = (0..n).collect();
    if rng.chance(75) {
        let first = rng.below(n);
        let mut alike: Vec<usize> =
            (0..n).filter(|&i| initial[i].count_ones() == initial[first].count_ones()).collect();
        rng.shuffle(&mut alike);
        alike.truncate(rng.pick(&[2, 3, 3, 3, 4, 12]));
        for i in 0..alike.len() {
            to[alike[i]] = alike[(i + 1) % alike.len()];
        }
    }
    let style = rng.below(4);
    let shared = value_permutation(rng, values);
    let value = (0..n)
        .map(|i| match style {
            0 | 1 if initial[i] == initial[to[i]] => (0..values).collect(),
            2 if same_set(initial[i], initial[to[i]], &shared) => shared.clone(),
            _ => bijection(rng, initial[i], initial[to[i]], values),
        })
        .collect();
    Symmetry { to, value }
}

/// A permutation of all values: of three in a circle, of all, or of two.
fn value_permutation(rng: &mut Rng, values: usize) -> Vec<usize> {
    let mut moved: Vec<usize> = (0..values).collect();
    rng.shuffle(&mut moved);
    moved.truncate(rng.pick(&[2, 3, 3, 16]));
    let mut permutation: Vec<usize> = (0..values).collect();
    for i in 0..moved.len() {
        permutation[moved[i]] = moved[(i + 1) % moved.len()];
    }
    permutation
}

fn same_set(from: u16, to: u16, permutation: &[usize]) -> bool {
    members(from).iter().all(|&value| oracle::contains(to, permutation[value]))
}

/// A bijection from one set to another of the same size; other values stay.
fn bijection(rng: &mut Rng, from: u16, to: u16, values: usize) -> Vec<usize> {
    let mut map: Vec<usize> = (0..values).collect();
    let mut images = members(to);
    rng.shuffle(&mut images);
    for (value, image) in members(from).into_iter().zip(images) {
        map[value] = image;
    }
    map
}
