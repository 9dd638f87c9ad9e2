//! The oracle's settling order and merged lists beside listings by brute force.

use oracle::merge::merge;
use oracle::nogood::assignments;
use oracle::order::{reading, settling_order};
use oracle::Refusal;
use sheets::{pairs, right_pairs, Rng};

/// All orders of some places, ascending.
fn orders(places: usize) -> Vec<Vec<usize>> {
    let once = |order: &Vec<usize>| (0..places).all(|place| order.contains(&place));
    assignments(&vec![(1 << places) - 1; places]).into_iter().filter(once).collect()
}

/// Has every pair's first place before its second?
fn agrees(order: &[usize], pairs: &[u8]) -> bool {
    let at = |place: u8| order.iter().position(|&other| other == place.into());
    pairs.chunks(2).all(|pair| at(pair[0]) < at(pair[1]))
}

/// Can one go from a place to itself along the pairs?
fn goes_round(places: usize, pairs: &[u8]) -> bool {
    let step = |from: usize| pairs.chunks(2).filter(move |pair| pair[0] == from as u8).map(|pair| pair[1]);
    (0..places).any(|start| {
        let mut reached: Vec<u8> = step(start).collect();
        for _ in 0..places {
            let next: Vec<u8> = reached.iter().flat_map(|&place| step(place.into())).collect();
            reached.extend(next);
            reached.sort();
            reached.dedup();
        }
        reached.contains(&(start as u8))
    })
}

/// The order is the earliest of those that agree with the pairs; none agrees exactly where the pairs go round.
#[test]
fn the_earliest_order_that_agrees() {
    let mut rng = Rng::new(1);
    let mut seen = [0; 31];
    for _ in 0..4000 {
        let places = rng.between(1, 5);
        let pairs = pairs(&mut rng, places);
        let answer = settling_order(places, &pairs);
        let expected = if pairs.len() > 128 || pairs.len() % 2 == 1 {
            Err(28)
        } else if pairs.iter().any(|&place| place as usize >= places) {
            Err(29)
        } else {
            let agreeing = orders(places).into_iter().find(|order| agrees(order, &pairs));
            assert_eq!(agreeing.is_none(), goes_round(places, &pairs), "{pairs:?}");
            agreeing.ok_or(30)
        };
        seen[expected.as_ref().err().map_or(0, |&number| number as usize)] += 1;
        assert_eq!(answer, expected.map_err(|number| Refusal { number, item: 0 }), "{pairs:?}");
    }
    assert!([0, 28, 29, 30].iter().all(|&number| seen[number] > 100), "{seen:?}");
}

/// Up to twelve places: each once, and every pair's first before its second.
#[test]
fn orders_of_many_places() {
    let mut rng = Rng::new(1);
    for _ in 0..2000 {
        let places = rng.between(1, 12);
        let pairs = right_pairs(&mut rng, places);
        let order = settling_order(places, &pairs).unwrap();
        assert!(order.len() == places && (0..places).all(|place| order.contains(&place)));
        assert!(agrees(&order, &pairs));
    }
}

/// All rows of some places with values below `values`, as they read in the order.
fn all_rows(order: &[usize], values: usize) -> Vec<Vec<u8>> {
    let mut rows: Vec<Vec<u8>> = assignments(&vec![(1 << values) - 1; order.len()])
        .into_iter()
        .map(|row| row.into_iter().map(|value| value as u8).collect())
        .collect();
    rows.sort_by_key(|row| reading(order, row));
    rows
}

/// The merged list is every row that is in either list, as all rows read in the order.
#[test]
fn merged_lists() {
    let mut rng = Rng::new(1);
    for _ in 0..1000 {
        let (places, values) = (rng.between(1, 4), rng.between(1, 4));
        let pairs = right_pairs(&mut rng, places);
        let all = all_rows(&settling_order(places, &pairs).unwrap(), values);
        let percent = rng.pick(&[0, 10, 50, 100]);
        let [first, second]: [Vec<bool>; 2] =
            [0, 1].map(|_| all.iter().map(|_| rng.chance(percent)).collect());
        let list = |held: &[bool]| -> Vec<u8> {
            all.iter().zip(held).filter(|(_, held)| **held).flat_map(|(row, _)| row.clone()).collect()
        };
        let either: Vec<bool> = first.iter().zip(&second).map(|(one, other)| *one || *other).collect();
        let (first, second, expected) = (list(&first), list(&second), list(&either));
        let spare = rng.below(3);
        let mut room = vec![77; expected.len() + spare];
        assert_eq!(merge(places as u32, &pairs, &first, &second, &mut room), Ok(expected.len()));
        assert_eq!(room, [&expected[..], &vec![77; spare]].concat());
        if !expected.is_empty() {
            let mut short = vec![77; expected.len() - 1];
            let refusal = merge(places as u32, &pairs, &first, &second, &mut short);
            assert_eq!(refusal, Err(Refusal { number: 27, item: 0 }));
            assert!(short.iter().all(|&byte| byte == 77));
        }
    }
}
