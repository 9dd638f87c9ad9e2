//! The store of exchange tables (paper 02, #110) as a map, and what lent bytes mean.

use crate::Refusal;
use std::collections::BTreeMap;

/// Tables under an owner (the paper's course) and a key (its hall).
pub type Store = BTreeMap<(u32, u8), Vec<u8>>;

pub const OWNERS: u32 = 4;
pub const KEYS: usize = 4;
pub const TABLE_BYTES: usize = 2048;
/// Flag, key, two bytes of length, then the table.
pub const SLOT_BYTES: usize = 4 + TABLE_BYTES;
pub const STORE_BYTES: usize = OWNERS as usize * KEYS * SLOT_BYTES;

fn ask(yes: bool, number: u32) -> Result<(), Refusal> {
    if yes {
        Ok(())
    } else {
        Err(Refusal { number, item: 0 })
    }
}

/// Puts a table in place of the one there.
pub fn put(store: &mut Store, owner: u32, key: u8, table: &[u8]) -> Result<(), Refusal> {
    ask(owner < OWNERS, 31)?;
    ask(table.len() <= TABLE_BYTES, 33)?;
    let held = store.keys().filter(|&&(other, _)| other == owner).count();
    ask(store.contains_key(&(owner, key)) || held < KEYS, 32)?;
    store.insert((owner, key), table.to_vec());
    Ok(())
}

/// Copies a table to the front of the room; the answer is its length.
pub fn fetch(store: &Store, owner: u32, key: u8, room: &mut [u8]) -> Result<usize, Refusal> {
    ask(owner < OWNERS, 31)?;
    let table = store.get(&(owner, key)).ok_or(Refusal { number: 34, item: 0 })?;
    ask(table.len() <= room.len(), 35)?;
    room[..table.len()].copy_from_slice(table);
    Ok(table.len())
}

pub fn remove(store: &mut Store, owner: u32, key: u8) -> Result<(), Refusal> {
    ask(owner < OWNERS, 31)?;
    ask(store.remove(&(owner, key)).is_some(), 34)
}

/// The key that a slot holds, if it holds one.
fn key_in(slot: &[u8]) -> Option<u8> {
    (slot[0] != 0).then_some(slot[1])
}

/// The slots of an owner.
fn slots(bytes: &[u8], owner: u32) -> Vec<&[u8]> {
    bytes.chunks(SLOT_BYTES).skip(owner as usize * KEYS).take(KEYS).collect()
}

/// The store that any STORE_BYTES bytes are: the first slot with a key counts, and a length above
/// TABLE_BYTES counts as that.
pub fn meaning(bytes: &[u8]) -> Store {
    let mut store = Store::new();
    for owner in 0..OWNERS {
        for slot in slots(bytes, owner) {
            let length = (slot[2] as usize + 256 * slot[3] as usize).min(TABLE_BYTES);
            if let Some(key) = key_in(slot) {
                store.entry((owner, key)).or_insert(slot[4..4 + length].to_vec());
            }
        }
    }
    store
}

/// The bytes after an accepted put: the slot of the key, else the first that holds nothing or the key of
/// an earlier one, gets head and table; all other bytes stay.
pub fn bytes_after_put(bytes: &[u8], owner: u32, key: u8, table: &[u8]) -> Vec<u8> {
    let keys: Vec<Option<u8>> = slots(bytes, owner).iter().map(|slot| key_in(slot)).collect();
    let own = keys.iter().position(|&other| other == Some(key));
    let free = (0..KEYS).find(|&i| keys[i].is_none() || keys[..i].contains(&keys[i]));
    let slot = own.or(free).expect("an accepted put has a slot");
    let start = (owner as usize * KEYS + slot) * SLOT_BYTES;
    let mut after = bytes.to_vec();
    let text = [&[1, key], &(table.len() as u16).to_le_bytes()[..], table].concat();
    after[start..start + text.len()].copy_from_slice(&text);
    after
}

/// The bytes after an accepted remove: the flag of every slot of the owner with the key is 0.
pub fn bytes_after_remove(bytes: &[u8], owner: u32, key: u8) -> Vec<u8> {
    let mut after = bytes.to_vec();
    let quarter = owner as usize * KEYS * SLOT_BYTES;
    for slot in after[quarter..quarter + KEYS * SLOT_BYTES].chunks_mut(SLOT_BYTES) {
        if key_in(slot) == Some(key) {
            slot[0] = 0;
        }
    }
    after
}
