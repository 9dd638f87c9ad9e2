//! Nogood lists and the filter.

use crate::{members, Refusal};

/// An entry of a nogood list.
#[derive(Clone, Copy, Debug, PartialEq, Eq)]
pub enum Entry {
    /// Adds "variable = value" to the left side.
    Equal(usize, usize),
    /// If all equalities before it hold, the variable hasn't the value.
    NotEqual(usize, usize),
}

/// How the filter ended (paper 02, #102).
#[derive(Clone, Copy, Debug, PartialEq, Eq)]
pub enum FilterEnding {
    /// No assignment from the lent sets obeys the nogoods.
    Failed,
    /// Some does, and every assignment from the sets left obeys them all.
    Entailed,
    /// Neither.
    Consistent,
}

/// The mark for "absent" in the lists of bytes.
const ABSENT: u8 = 255;

/// All assignments are drawn where they are at most so many.
const DRAWN: u64 = 4096;

/// The filter on three lists of bytes: questions 17 to 19, then the sets that are left and how it ended.
pub fn filter(
    sets: &mut [u16],
    index: &[u8],
    equal: &[u8],
    not_equal: &[u8],
) -> Result<FilterEnding, Refusal> {
    if sets.is_empty() || sets.len() > 12 {
        return Err(Refusal { number: 17, item: 0 });
    }
    if index.len() != equal.len() || index.len() != not_equal.len() || index.len() > 192 {
        return Err(Refusal { number: 18, item: 0 });
    }
    let mut entries = Vec::new();
    for item in 0..index.len() {
        match entry(sets.len(), index[item], equal[item], not_equal[item]) {
            Some(entry) => entries.push(entry),
            None => return Err(Refusal { number: 19, item: item as u32 }),
        }
    }
    let few = sets.iter().map(|set| set.count_ones() as u64).product::<u64>() <= DRAWN;
    let left =
        if few { filtered_by_assignments(sets, &entries) } else { filtered_by_products(sets, &entries) };
    let ending = if few {
        ending_by_assignments(sets, &left, &entries)
    } else {
        ending_by_counts(sets, &left, &entries)
    };
    sets.copy_from_slice(&left);
    Ok(ending)
}

/// One entry: its place is one of the sets', just one of the two is 255, and the other is below 16.
fn entry(count: usize, index: u8, equal: u8, not_equal: u8) -> Option<Entry> {
    let variable = index as usize;
    if variable >= count {
        return None;
    }
    match (equal, not_equal) {
        (value, ABSENT) if value < 16 => Some(Entry::Equal(variable, value as usize)),
        (ABSENT, value) if value < 16 => Some(Entry::NotEqual(variable, value as usize)),
        _ => None,
    }
}

/// A value stays exactly if some assignment from the sets uses it and obeys every nogood.
pub fn filtered_by_assignments(sets: &[u16], entries: &[Entry]) -> Vec<u16> {
    let mut left = vec![0; sets.len()];
    for assignment in assignments(sets) {
        if obeys(&assignment, entries) {
            for (variable, &value) in assignment.iter().enumerate() {
                left[variable] |= 1 << value;
            }
        }
    }
    left
}

/// The same by the paper's hint: each satisfying assignment breaks its first equality at one entry or
/// at none, which gives a union of products of sets.
pub fn filtered_by_products(sets: &[u16], entries: &[Entry]) -> Vec<u16> {
    let mut left = vec![0; sets.len()];
    for product in products(sets, entries) {
        for (all, set) in left.iter_mut().zip(product) {
            *all |= set;
        }
    }
    left
}

/// The products that are not empty. No two have an assignment in common.
fn products(sets: &[u16], entries: &[Entry]) -> Vec<Vec<u16>> {
    let mut all = Vec::new();
    let mut product = sets.to_vec();
    for entry in entries {
        match *entry {
            Entry::NotEqual(variable, value) => product[variable] &= !(1 << value),
            Entry::Equal(variable, value) => {
                let mut breaking = product.clone();
                breaking[variable] &= !(1 << value);
                all.push(breaking);
                product[variable] &= 1 << value;
            }
        }
    }
    all.push(product);
    all.retain(|product| !product.contains(&0));
    all
}

/// The ending in the paper's words, over all assignments from the sets and from those left.
pub fn ending_by_assignments(sets: &[u16], left: &[u16], entries: &[Entry]) -> FilterEnding {
    if !assignments(sets).iter().any(|assignment| obeys(assignment, entries)) {
        FilterEnding::Failed
    } else if assignments(left).iter().all(|assignment| obeys(assignment, entries)) {
        FilterEnding::Entailed
    } else {
        FilterEnding::Consistent
    }
}

/// The same by counting the assignments that obey, product by product.
pub fn ending_by_counts(sets: &[u16], left: &[u16], entries: &[Entry]) -> FilterEnding {
    let size = |sets: &[u16]| sets.iter().map(|set| set.count_ones() as u64).product::<u64>();
    let obeying = |sets: &[u16]| products(sets, entries).iter().map(|product| size(product)).sum::<u64>();
    if obeying(sets) == 0 {
        FilterEnding::Failed
    } else if obeying(left) == size(left) {
        FilterEnding::Entailed
    } else {
        FilterEnding::Consistent
    }
}

/// All assignments from the sets, the earliest first.
pub fn assignments(sets: &[u16]) -> Vec<Vec<usize>> {
    if sets.contains(&0) {
        return Vec::new();
    }
    let mut all = vec![Vec::new()];
    for &set in sets {
        let longer = |start: &Vec<usize>| {
            members(set).into_iter().map(|value| [start.as_slice(), &[value]].concat()).collect::<Vec<_>>()
        };
        all = all.iter().flat_map(longer).collect();
    }
    all
}

/// Does the assignment obey every nogood of the list?
pub fn obeys(assignment: &[usize], entries: &[Entry]) -> bool {
    for entry in entries {
        match *entry {
            Entry::Equal(variable, value) if assignment[variable] != value => return true,
            Entry::NotEqual(variable, value) if assignment[variable] == value => return false,
            _ => {}
        }
    }
    true
}
