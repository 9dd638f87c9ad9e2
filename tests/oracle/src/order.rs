//! The settling order of lent pairs, "this place before that place" (paper 02, #108).

use crate::Refusal;

const MOST_PAIRS: usize = 64;

/// Questions 28 to 30, then the order: always the lowest-numbered place whose forerunners are all settled.
pub fn settling_order(places: usize, pairs: &[u8]) -> Result<Vec<usize>, Refusal> {
    let refuse = |number: u32| Err(Refusal { number, item: 0 });
    if pairs.len() > 2 * MOST_PAIRS || !pairs.len().is_multiple_of(2) {
        return refuse(28);
    }
    if pairs.iter().any(|&place| usize::from(place) >= places) {
        return refuse(29);
    }
    let mut order: Vec<usize> = Vec::new();
    while order.len() < places {
        let settled = |place: u8| order.contains(&place.into());
        let is_next = |&place: &usize| {
            let waits = |pair: &[u8]| usize::from(pair[1]) == place && !settled(pair[0]);
            !order.contains(&place) && !pairs.chunks(2).any(waits)
        };
        match (0..places).find(is_next) {
            Some(place) => order.push(place),
            None => return refuse(30),
        }
    }
    Ok(order)
}

/// A row as it reads in the order: the row that reads smaller reads earlier.
pub fn reading<T: Copy>(order: &[usize], row: &[T]) -> Vec<T> {
    order.iter().map(|&place| row[place]).collect()
}
