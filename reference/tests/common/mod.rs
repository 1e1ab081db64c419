//! What the tests share: document 01's own pack and schedule, and short ways to write more.
#![allow(dead_code)]

pub mod routes;
pub mod spoiled;

use reference::agents::{Slots, ALL_EMPTY};
use reference::bytes::write_at;
use reference::pack::encode;
use reference::plain::{check_list, Tally};
use reference::random::Random;
use reference::schedule::{Event, Kind, Schedule};
use reference::store::{fresh, Request, Store};
use reference::sums::MOVE;
use reference::{Call, Outcome, Worklist};

pub const RETURN: (u8, u32) = (0xB0, 0);
pub const BEGIN: (u8, u32) = (0x60, 0);
pub const END: (u8, u32) = (0x70, 0);
pub const SET: (u8, u32) = (0x00, 5);
pub const PUT: (u8, u32) = (0x90, 0);

/// MOVE of document 01; `tests/document.rs` holds it to the document's bytes.
pub fn move_workflow() -> Vec<(u8, u32)> {
    MOVE.to_vec()
}

pub fn move_pack() -> Vec<u8> {
    encode(&[move_workflow()])
}

pub fn request(id: u32) -> Request {
    Request {
        id,
        workflow: 0,
        arguments: [100, 200, 30, 0],
    }
}

pub fn event(byte: u8, request: u8) -> Event {
    Event {
        kind: Kind::of_code(byte >> 4).expect("a kind"),
        slot: byte & 15,
        request,
    }
}

/// The schedule of the whole case.
pub fn whole_schedule() -> Schedule {
    let bytes = [0x00, 0x10, 0x10, 0x20, 0x31, 0x11, 0x11, 0x11, 0x11];
    let mut events: Vec<Event> = bytes.iter().map(|byte| event(*byte, 0)).collect();
    events.push(event(0x01, 1));
    Schedule {
        partitions: 2,
        rows: 5,
        requests: vec![request(7), request(8)],
        events,
    }
}

/// Pack, store, slots and worklist that calls are made on.
#[derive(Clone, Debug, PartialEq)]
pub struct State {
    pub pack: Vec<u8>,
    pub store: Vec<u8>,
    pub slots: Slots,
    pub list: Worklist,
}

impl State {
    pub fn new(pack: Vec<u8>, partitions: u32, rows: u32) -> Self {
        Self {
            pack,
            store: fresh(partitions, rows).expect("numbers in range"),
            slots: ALL_EMPTY,
            list: Worklist::default(),
        }
    }

    /// MOVE with two partitions of ten rows, id 7 booked and started in slot 0.
    pub fn with_move() -> Self {
        let mut state = Self::new(move_pack(), 2, 10);
        assert!(state.arrival(0, request(7)).is_ok());
        state
    }

    pub fn call(&mut self, call: Call) -> Outcome {
        call.perform_listed(&self.pack, &mut self.store, &mut self.slots, &mut self.list)
    }

    pub fn arrival(&mut self, slot: u32, request: Request) -> Outcome {
        self.call(Call::Arrival { slot, request })
    }

    pub fn retry(&mut self, slot: u32, id: u32) -> Outcome {
        self.call(Call::Retry { slot, id })
    }

    pub fn turn(&mut self, slot: u32) -> Outcome {
        self.call(Call::Turn { slot })
    }

    pub fn crash(&mut self, slot: u32) -> Outcome {
        self.call(Call::Crash { slot })
    }
}

/// The bytes of a store, written out from its rows: for each partition, the book last, its
/// used rows as they are to stand.
pub fn laid(rows: u16, partitions: &[&[(u64, u32)]]) -> Vec<u8> {
    let mut bytes = vec![partitions.len() as u8 - 1];
    bytes.extend(rows.to_le_bytes());
    for used in partitions {
        bytes.extend((used.len() as u16).to_le_bytes());
    }
    let places = usize::from(rows);
    let row = |used: &[(u64, u32)], place: usize| used.get(place).copied().unwrap_or((0, 0));
    for used in partitions {
        bytes.extend((0..places).flat_map(|place| row(used, place).0.to_le_bytes()));
    }
    for used in partitions {
        bytes.extend((0..places).flat_map(|place| row(used, place).1.to_le_bytes()));
    }
    bytes
}

/// What a call left, had it written its new rows behind the used ones: rows of keys that were
/// there keep their places.
pub fn appended(given: &[u8], left: &[u8]) -> Vec<u8> {
    let mut bytes = left.to_vec();
    let (Ok(given), Ok(left)) = (Store::lay_out(given), Store::lay_out(left)) else {
        return bytes;
    };
    let shape = left.shape();
    for partition in 0..=shape.book() {
        let old: Vec<u64> = given.rows(partition).map(|(key, _)| key).collect();
        let mut rows: Vec<(u64, u32)> = left.rows(partition).collect();
        rows.sort_by_key(|(key, _)| old.iter().position(|k| k == key).unwrap_or(old.len()));
        for (row, (key, value)) in rows.into_iter().enumerate() {
            write_at(&mut bytes, shape.key_at(partition, row), &key.to_le_bytes());
            write_at(
                &mut bytes,
                shape.value_at(partition, row),
                &value.to_le_bytes(),
            );
        }
    }
    bytes
}

/// A data key as it is stored.
pub const fn data(key: u64) -> u64 {
    (1 << 63) + key
}

/// The key of a log row.
pub const fn log(id: u64, step: u64) -> u64 {
    id * 65_536 + step
}

/// The book's rows of a request with the arguments that all have here.
pub const fn booked(id: u64) -> [(u64, u32); 5] {
    let key = id * 8;
    [
        (key, 0),
        (key + 1, 100),
        (key + 2, 200),
        (key + 3, 30),
        (key + 4, 0),
    ]
}

/// The question number of a refusal, 0 if there is none.
pub fn question<T, E: Into<reference::Refusal>>(result: Result<T, E>) -> u8 {
    result.map_or_else(|refusal| refusal.into().question, |_| 0)
}

/// Pack, fresh store and calls.
pub type List = (Vec<u8>, Vec<u8>, Vec<Call>);

/// What generated lists come to, each of them checked from call to call.
pub fn total(seed: u64, lists: u64, make: fn(&mut Random) -> List) -> Tally {
    let mut total = Tally::default();
    for list in 0..lists {
        let (pack, store, calls) = make(&mut Random::of_item(seed, list));
        match check_list(&pack, store, &calls) {
            Ok(tally) => total.add(&tally),
            Err(violation) => panic!("list {list}: {violation}"),
        }
    }
    total
}
