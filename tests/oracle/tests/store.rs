//! The store of exchange tables, tried on the oracle.

use oracle::store::{fetch, meaning, put, remove, Store, SLOT_BYTES, STORE_BYTES};
use oracle::Refusal;

fn refused<T>(number: u32) -> Result<T, Refusal> {
    Err(Refusal { number, item: 0 })
}

#[test]
fn four_keys_an_owner() {
    let mut store = Store::new();
    for key in 0..4 {
        assert_eq!(put(&mut store, 3, key, &[key]), Ok(()));
    }
    assert_eq!(put(&mut store, 3, 9, &[]), refused(32));
    assert_eq!(put(&mut store, 3, 9, &[0; 2049]), refused(33));
    assert_eq!(put(&mut store, 3, 2, &[7; 2048]), Ok(()));
    assert_eq!(remove(&mut store, 3, 0), Ok(()));
    assert_eq!(put(&mut store, 3, 9, &[]), Ok(()));
    assert_eq!(put(&mut store, 2, 9, &[]), Ok(()));
    assert_eq!(put(&mut store, 4, 9, &[]), refused(31));
}

#[test]
fn a_copy_of_the_last_put() {
    let mut store = Store::new();
    let mut room = [9; 3];
    assert_eq!(fetch(&store, 0, 3, &mut room), refused(34));
    put(&mut store, 0, 3, &[1]).unwrap();
    put(&mut store, 0, 3, &[2, 2]).unwrap();
    put(&mut store, 1, 3, &[3, 3, 3]).unwrap();
    assert_eq!(fetch(&store, 0, 3, &mut room[..1]), refused(35));
    assert_eq!(fetch(&store, 0, 3, &mut room), Ok(2));
    assert_eq!(room, [2, 2, 9]);
    remove(&mut store, 0, 3).unwrap();
    assert_eq!(fetch(&store, 0, 3, &mut room), refused(34));
    assert_eq!(fetch(&store, 1, 3, &mut room), Ok(3));
}

#[test]
fn any_bytes_are_a_store() {
    assert_eq!(meaning(&[0; STORE_BYTES]), Store::new());
    let mut bytes = vec![5; STORE_BYTES];
    bytes[SLOT_BYTES + 4] = 6;
    bytes[2 * SLOT_BYTES + 1] = 7;
    let store = meaning(&bytes);
    assert_eq!(store.len(), 5);
    assert_eq!(store[&(0, 5)], vec![5; 1285]);
    assert_eq!(store[&(0, 7)], vec![5; 1285]);
    bytes[3] = 8;
    assert_eq!(meaning(&bytes)[&(0, 5)].len(), 2048);
}
