//! Crowds have more different subtrees than a memo has entries.

use oracle::lent::sets_at;
use sheets::{crowd, Rng};
use std::collections::HashSet;

#[test]
fn a_crowd_leaves_a_hundred_different_sets_to_its_last_places() {
    let mut rng = Rng::new(1);
    for _ in 0..8 {
        let hall = crowd(&mut rng);
        let order: Vec<usize> = (0..hall.variables).collect();
        let left =
            |number: usize| sets_at(&hall, &order, &[0, number / 10, number % 10]).unwrap()[3..].to_vec();
        assert_eq!((0..100).map(left).collect::<HashSet<_>>().len(), 100);
    }
}
