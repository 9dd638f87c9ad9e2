//! Part `store`: sequences of calls on an empty store or on one of random bytes, beside a map; and that what
//! an owner gets depends on no other owner's calls.

use crate::tally::{code, Guarded, Tally, WRONG_SIZE};
use oracle::store::{self, Store, KEYS, OWNERS, SLOT_BYTES, STORE_BYTES, TABLE_BYTES};
use oracle::Refusal;
use planner_sys::{planner_store_drop, planner_store_fetch, planner_store_put};
use sheets::Rng;

/// Calls of one sequence.
const CALLS: usize = 60;

#[derive(Clone, Debug)]
enum Action {
    Put(Vec<u8>),
    /// The length of the room.
    Fetch(usize),
    Remove,
}

#[derive(Clone, Debug)]
struct Call {
    owner: u32,
    key: u8,
    action: Action,
}

/// What a call gave back: the returned number, the answer's bytes and the room's.
type Reply = (u32, Vec<u8>, Vec<u8>);

/// A call to the library. The answer and the room come with a pattern.
fn reply(call: &Call, bytes: &mut [u8], answer_length: usize) -> Reply {
    let Call { owner, key, ref action } = *call;
    let mut answer = Guarded::new(answer_length, key);
    let mut room = Guarded::new(if let Action::Fetch(length) = action { *length } else { 0 }, key);
    let status = match action {
        Action::Put(table) => planner_store_put(bytes, owner, key, table, answer.lent()),
        Action::Fetch(_) => planner_store_fetch(bytes, owner, key, room.lent(), answer.lent()),
        Action::Remove => planner_store_drop(bytes, owner, key, answer.lent()),
    };
    (status, answer.bytes, room.bytes)
}

/// The reply by the map, which is changed; and the bytes of the store afterwards.
fn expected(call: &Call, store: &mut Store, bytes: &[u8], tally: &mut Tally) -> (Reply, Vec<u8>) {
    let Call { owner, key, ref action } = *call;
    let mut room = Guarded::new(if let Action::Fetch(length) = action { *length } else { 0 }, key);
    let (done, after): (Result<usize, Refusal>, Vec<u8>) = match action {
        Action::Put(table) => match store::put(store, owner, key, table) {
            Ok(()) => (Ok(0), store::bytes_after_put(bytes, owner, key, table)),
            Err(refusal) => (Err(refusal), bytes.to_vec()),
        },
        Action::Fetch(_) => (store::fetch(store, owner, key, room.lent()), bytes.to_vec()),
        Action::Remove => match store::remove(store, owner, key) {
            Ok(()) => (Ok(0), store::bytes_after_remove(bytes, owner, key)),
            Err(refusal) => (Err(refusal), bytes.to_vec()),
        },
    };
    tally.answer(&done);
    let mut answer = Guarded::new(12, key);
    if let Ok(count) = done {
        let words = [1, count as u32, 0];
        answer.lent().copy_from_slice(&words.map(u32::to_le_bytes).concat());
    }
    ((code(&done), answer.bytes, room.bytes), after)
}

fn table(rng: &mut Rng) -> Vec<u8> {
    let length = match rng.below(8) {
        0 => 0,
        1 => TABLE_BYTES,
        2 => TABLE_BYTES + 1 + rng.below(3),
        3 => TABLE_BYTES - rng.below(20),
        _ => rng.below(300),
    };
    (0..length).map(|_| rng.word() as u8).collect()
}

fn call(owner: u32, rng: &mut Rng) -> Call {
    let key = if rng.chance(90) { rng.below(6) as u8 } else { rng.word() as u8 };
    let action = match rng.below(10) {
        0..=4 => Action::Put(table(rng)),
        5..=7 => Action::Fetch(rng.pick(&[0, 100, 299, TABLE_BYTES - 1, TABLE_BYTES, TABLE_BYTES + 40])),
        _ => Action::Remove,
    };
    Call { owner, key, action }
}

fn owner(rng: &mut Rng) -> u32 {
    if rng.chance(95) {
        rng.below(OWNERS as usize) as u32
    } else {
        rng.pick(&[4, 5, 255, 256, 65_536, u32::MAX])
    }
}

/// Bytes that no call wrote: few keys, so that slots repeat, and lengths above the table's room.
fn random_bytes(rng: &mut Rng) -> Vec<u8> {
    let mut bytes: Vec<u8> = (0..STORE_BYTES).map(|_| rng.word() as u8).collect();
    for slot in bytes.chunks_mut(SLOT_BYTES) {
        slot[0] = rng.pick(&[0, 1, 1, 2, 255]);
        slot[1] = rng.below(KEYS) as u8;
        slot[3] = rng.pick(&[0, 1, 7, 8, 9, 255]);
    }
    bytes
}

pub fn case(rng: &mut Rng, tally: &mut Tally) {
    let start = if rng.chance(50) { vec![0; STORE_BYTES] } else { random_bytes(rng) };
    sequence(&start, rng, tally);
    isolation(&start, rng, tally);
    wrong_sizes(&start, rng, tally);
}

/// Each call's reply and every byte of the store, beside the map that the bytes meant at first.
fn sequence(start: &[u8], rng: &mut Rng, tally: &mut Tally) {
    let mut bytes = Guarded::new(STORE_BYTES, 0);
    bytes.lent().copy_from_slice(start);
    let mut store = store::meaning(start);
    for _ in 0..CALLS {
        let call = call(owner(rng), rng);
        let lent = [call.owner.to_le_bytes().as_slice(), &[call.key]].concat();
        let (wanted, after) = expected(&call, &mut store, bytes.lent(), tally);
        let mut left = bytes.clone();
        left.lent().copy_from_slice(&after);
        let got = reply(&call, bytes.lent(), 12);
        tally.same("reply", got, wanted, &lent);
        tally.same("store after", &bytes.bytes, &left.bytes, &lent);
        tally.same("map after", store::meaning(bytes.lent()) == store, true, &lent);
    }
}

/// One owner's calls are the same in two sequences, the others' are not: it gets the same replies. The other
/// owners' bytes differ from the start.
fn isolation(start: &[u8], rng: &mut Rng, tally: &mut Tally) {
    let mine = rng.below(OWNERS as usize) as u32;
    let own: Vec<Call> = (0..CALLS / 2).map(|_| call(mine, rng)).collect();
    let replies = |rng: &mut Rng| -> Vec<Reply> {
        let mut bytes = random_bytes(rng);
        let quarter = mine as usize * KEYS * SLOT_BYTES;
        bytes[quarter..quarter + KEYS * SLOT_BYTES]
            .copy_from_slice(&start[quarter..quarter + KEYS * SLOT_BYTES]);
        let mut replies = Vec::new();
        for call in &own {
            for _ in 0..rng.below(4) {
                let other = rng.pick(&[0, 1, 2, 3, 4, u32::MAX]);
                if other != mine {
                    reply(&self::call(other, rng), &mut bytes, 12);
                }
            }
            replies.push(reply(call, &mut bytes, 12));
        }
        replies
    };
    let (first, second) = (replies(rng), replies(rng));
    tally.same("isolation", first == second, true, &mine.to_le_bytes());
}

/// With a store or an answer of another size nothing is written.
fn wrong_sizes(start: &[u8], rng: &mut Rng, tally: &mut Tally) {
    let call = call(owner(rng), rng);
    let size = rng.pick(&[0, 1, STORE_BYTES - 1, STORE_BYTES + 1, 2 * STORE_BYTES]);
    let mut other = start.iter().copied().cycle().take(size).collect::<Vec<u8>>();
    let mut whole = start.to_vec();
    let length = rng.pick(&[0, 1, 11, 13, 24]);
    for (bytes, answer_length) in [(&mut other, 12), (&mut whole, length)] {
        let before = bytes.clone();
        let got = reply(&call, bytes, answer_length);
        let untouched = Guarded::new(answer_length, call.key).bytes;
        let room = if let Action::Fetch(length) = call.action { length } else { 0 };
        tally.same(
            "wrong size",
            got,
            (256 * WRONG_SIZE, untouched, Guarded::new(room, call.key).bytes),
            &[call.key],
        );
        tally.same("store untouched", *bytes == before, true, &[call.key]);
    }
}
