//! A sketch of a hall's tree, from which its size below a path is guessed. It only says where a tree is cut: whatever it says, the parts
//! are together the whole.

use crate::make::Made;
use crate::pairs::order;
use crate::problem::Constraint;

/// The sets of the windows at a path.
pub type Sets = [u16; 12];

/// A rule: the rows of three windows as sets of one value each, or for each value of one of two windows those of the other.
enum Rule {
    Two { windows: [usize; 2], with: [[u16; 16]; 2] },
    Three { windows: [usize; 3], rows: Vec<[u16; 3]> },
}

pub struct Sketch {
    initial: Sets,
    order: Vec<usize>,
    rules: Vec<Rule>,
    /// For each exchange and each pair, window by window, the window and the value of its image.
    images: Vec<Vec<(usize, u16)>>,
    values: usize,
    /// The alike windows, in the settling order.
    alike: Vec<usize>,
}

impl Sketch {
    pub fn new(made: &Made) -> Sketch {
        let problem = &made.problem;
        let (windows, values) = (problem.variables.len(), problem.values.len());
        let mut initial = [0; 12];
        initial[..windows].copy_from_slice(&problem.initial);
        for rule in problem.constraints.iter().filter(|rule| rule.scope.len() == 1) {
            initial[rule.scope[0]] &= rule.rows.iter().fold(0, |set, row| set | 1 << row[0]);
        }
        let order = order(windows, &made.pairs);
        let block = match made.block[..] {
            [first, count] => usize::from(first)..usize::from(first) + usize::from(count),
            _ => 0..0,
        };
        let image = |&pair: &usize| (pair / values, 1 << (pair % values));
        Sketch {
            initial,
            alike: order.iter().copied().filter(|window| block.contains(window)).collect(),
            order,
            rules: problem.constraints.iter().filter_map(rule).collect(),
            images: problem.symmetries.iter().map(|table| table.iter().map(image).collect()).collect(),
            values,
        }
    }

    /// The sets before the first trial, if there is one.
    pub fn root(&self) -> Option<Sets> {
        self.narrowed(self.initial)
    }

    /// How many windows there are.
    pub fn depth(&self) -> usize {
        self.order.len()
    }

    /// The values to be tried at a depth, ascending.
    pub fn values(&self, sets: &Sets, depth: usize) -> impl Iterator<Item = u8> {
        let set = sets[self.order[depth]];
        (0..16).filter(move |value| set >> value & 1 == 1)
    }

    /// The sets after a trial, if any plan may be left.
    pub fn tried(&self, sets: &Sets, depth: usize, value: u8) -> Option<Sets> {
        let mut sets = *sets;
        let window = self.order[depth];
        sets[window] = 1 << value;
        if let Some(at) = self.alike.iter().position(|other| *other == window) {
            self.alike[at + 1..].iter().for_each(|&other| sets[other] &= !0 << value);
        }
        self.narrowed(sets)
    }

    /// What rules and exchanges leave of sets, if every window has a value left.
    fn narrowed(&self, mut sets: Sets) -> Option<Sets> {
        loop {
            let before = sets;
            self.rules.iter().for_each(|rule| rule.narrow(&mut sets));
            self.images.iter().for_each(|images| self.exchange(images, &mut sets));
            match self.order.iter().any(|&window| sets[window] == 0) {
                true => return None,
                false if sets == before => return Some(sets),
                false => {}
            }
        }
    }

    /// Takes away what would make the exchange bring an earlier plan here.
    fn exchange(&self, images: &[(usize, u16)], sets: &mut Sets) {
        for &window in &self.order {
            let own = sets[window];
            if own.count_ones() != 1 {
                return;
            }
            let value = own.trailing_zeros() as usize;
            let images = &images[window * self.values..(window + 1) * self.values];
            let settled = |&(other, image): &(usize, u16)| sets[other] == image;
            match images.iter().position(settled) {
                Some(source) if source == value => {}
                Some(source) if source > value => return,
                _ => {
                    images[..value].iter().for_each(|&(other, image)| sets[other] &= !image);
                    return;
                }
            }
        }
    }
}

/// A rule on two or three windows.
fn rule(rule: &Constraint) -> Option<Rule> {
    match rule.scope[..] {
        [one, two] => {
            let mut with = [[0; 16]; 2];
            for row in &rule.rows {
                with[0][row[0]] |= 1 << row[1];
                with[1][row[1]] |= 1 << row[0];
            }
            Some(Rule::Two { windows: [one, two], with })
        }
        [one, two, three] => {
            let rows = rule.rows.iter().map(|row| [1 << row[0], 1 << row[1], 1 << row[2]]).collect();
            Some(Rule::Three { windows: [one, two, three], rows })
        }
        _ => None,
    }
}

impl Rule {
    /// Takes away the values of its windows that stand in no row left.
    fn narrow(&self, sets: &mut Sets) {
        match self {
            Rule::Two { windows: [one, two], with } => {
                let left = |set: u16, with: &[u16; 16]| {
                    let values = (0..16).filter(|value| set >> value & 1 == 1);
                    values.fold(0, |left, value: usize| left | with[value])
                };
                sets[*two] &= left(sets[*one], &with[0]);
                sets[*one] &= left(sets[*two], &with[1]);
            }
            Rule::Three { windows, rows } => {
                let own = windows.map(|window| sets[window]);
                let mut left = [0; 3];
                for row in rows.iter().filter(|row| (0..3).all(|i| row[i] & own[i] != 0)) {
                    (0..3).for_each(|i| left[i] |= row[i]);
                }
                windows.iter().zip(left).for_each(|(&window, left)| sets[window] &= left);
            }
        }
    }
}
