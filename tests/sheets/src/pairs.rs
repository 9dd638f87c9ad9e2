//! Random pairs, "this place before that place": none, in agreement with an order, or with faults. Random blocks.

use crate::Rng;

/// Pairs of places below `places`; most agree with some order, the others have one or two faults.
pub fn pairs(rng: &mut Rng, places: usize) -> Vec<u8> {
    let mut pairs = right_pairs(rng, places);
    if rng.chance(30) {
        for _ in 0..rng.pick(&[1, 1, 2]) {
            damage(rng, places, &mut pairs);
        }
    }
    pairs
}

/// Pairs that agree with a random order: none, a few, a chain through all places, or 64, with repeats.
pub fn right_pairs(rng: &mut Rng, places: usize) -> Vec<u8> {
    let mut order: Vec<u8> = (0..places as u8).collect();
    rng.shuffle(&mut order);
    let mut pairs: Vec<[u8; 2]> = match rng.below(8) {
        _ if places < 2 => Vec::new(),
        0 | 1 => Vec::new(),
        2 => order.windows(2).map(|two| [two[0], two[1]]).collect(),
        kind => {
            let count = if kind == 3 { rng.pick(&[63, 64]) } else { rng.between(1, places) };
            (0..count).map(|_| agreeing(rng, &order)).collect()
        }
    };
    rng.shuffle(&mut pairs);
    if !pairs.is_empty() && pairs.len() < 64 && rng.chance(20) {
        pairs.push(pairs[0]);
    }
    pairs.concat()
}

/// A pair of an order of two places or more.
fn agreeing(rng: &mut Rng, order: &[u8]) -> [u8; 2] {
    let second = rng.between(1, order.len() - 1);
    [order[rng.below(second)], order[second]]
}

/// One fault: half a pair, 65 pairs or more, a place that isn't there, or a circle.
fn damage(rng: &mut Rng, places: usize, pairs: &mut Vec<u8>) {
    match rng.below(5) {
        0 => pairs.push(rng.below(places) as u8),
        1 => {
            let count = rng.pick(&[65, 66, 200]);
            while pairs.len() < 2 * count {
                pairs.extend([rng.below(places) as u8, places as u8 - 1]);
            }
        }
        2 => {
            let at = rng.below(pairs.len() + 1);
            let none = rng.pick(&[places as u8, 12, 255]);
            pairs.splice(at..at, [none, rng.below(places) as u8]);
        }
        _ => circle(rng, places, pairs),
    }
}

/// Pairs that go round through one place or several.
fn circle(rng: &mut Rng, places: usize, pairs: &mut Vec<u8>) {
    let mut round: Vec<u8> = (0..places as u8).collect();
    rng.shuffle(&mut round);
    round.truncate(rng.pick(&[1, 2, 2, 3, 12]));
    for i in 0..round.len() {
        pairs.extend([round[i], round[(i + 1) % round.len()]]);
    }
}

/// A block of some places: mostly none, else neighbouring places, or any bytes.
pub fn block(rng: &mut Rng, places: usize) -> Vec<u8> {
    match rng.below(20) {
        0 => (0..rng.pick(&[1, 2, 2, 2, 3])).map(|_| rng.below(14) as u8).collect(),
        1 | 2 if places > 1 => neighbours(rng, places).to_vec(),
        _ => Vec::new(),
    }
}

/// 2 to 5 neighbouring places of two or more: the first, and how many.
pub fn neighbours(rng: &mut Rng, places: usize) -> [u8; 2] {
    let count = rng.pick(&[2, 2, 3, 3, 4, 5]).min(places);
    [rng.below(places + 1 - count) as u8, count as u8]
}
