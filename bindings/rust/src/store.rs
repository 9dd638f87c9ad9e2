//! The store of exchange tables (paper 02, #110).

use crate::{number, Refusal};
use planner_sys::{planner_store_drop, planner_store_fetch, planner_store_put};

/// A store's size in bytes.
pub const STORE_BYTES: usize = 32_832;
/// No table is longer.
pub const TABLE_BYTES: usize = 2_048;

/// Tables of exchanges by course (0 to 3) and hall, four halls a course. What a course gets back depends only on
/// its own calls. A refusal changes nothing.
#[derive(Clone)]
pub struct Store {
    bytes: Box<[u8; STORE_BYTES]>,
}

impl Store {
    /// An empty store.
    pub fn new() -> Store {
        Store::from_bytes([0; STORE_BYTES])
    }

    /// Any bytes are a store.
    pub fn from_bytes(bytes: [u8; STORE_BYTES]) -> Store {
        Store { bytes: Box::new(bytes) }
    }

    pub fn bytes(&self) -> &[u8; STORE_BYTES] {
        &self.bytes
    }

    /// Puts a table in place of the one there.
    pub fn put(&mut self, course: u32, hall: u8, table: &[u8]) -> Result<(), Refusal> {
        let mut answer = [0; 12];
        Refusal::from_code(planner_store_put(&mut self.bytes[..], course, hall, table, &mut answer))
    }

    /// Copies a table to the front of the room and answers its length.
    pub fn fetch(&self, course: u32, hall: u8, room: &mut [u8]) -> Result<usize, Refusal> {
        let mut answer = [0; 12];
        Refusal::from_code(planner_store_fetch(&self.bytes[..], course, hall, room, &mut answer))?;
        Ok(number(&answer, 1) as usize)
    }

    /// Drops a table; its room is used again.
    pub fn drop(&mut self, course: u32, hall: u8) -> Result<(), Refusal> {
        let mut answer = [0; 12];
        Refusal::from_code(planner_store_drop(&mut self.bytes[..], course, hall, &mut answer))
    }
}

impl Default for Store {
    fn default() -> Store {
        Store::new()
    }
}
