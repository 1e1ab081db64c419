//! The inputs of the benchmark: packs, stores and lists of calls, all made from fixed numbers.

use reference::agents::ALL_EMPTY;
use reference::pack::encode;
use reference::store::{book_key, fresh, Key, Request};
use reference::worklist::{TAKEN, WAITING};
use reference::{Agent, Call, Outcome, Slots, Store, Worklist};

/// What a call is given.
#[derive(Clone)]
pub struct State {
    pub pack: Vec<u8>,
    pub store: Vec<u8>,
    pub slots: Slots,
    pub list: Worklist,
}

impl State {
    /// A call of the reference, on this state.
    pub fn perform(&mut self, call: &Call) -> Outcome {
        call.perform_listed(&self.pack, &mut self.store, &mut self.slots, &mut self.list)
    }
}

/// A small generator of numbers, so that a run can be repeated.
pub struct Numbers(u64);

impl Numbers {
    pub fn new(seed: u64) -> Self {
        Self(seed)
    }

    pub fn below(&mut self, n: u32) -> u32 {
        self.0 = self.0.wrapping_mul(6_364_136_223_846_793_005).wrapping_add(1_442_695_040_888_963_407);
        ((self.0 >> 33) % u64::from(n)) as u32
    }
}

/// A block of 34 instructions: its partition, 16 GETs, 16 PUTs. Register 7 counts the keys up from argument 0, and register 6 is 1.
/// A key's own number is put, so that the rows differ.
fn block(partition: u32) -> Vec<(u8, u32)> {
    let mut code = vec![(0x60, partition)];
    for i in 0..16 {
        code.push((0x80 | i % 4 + 1, 7));
        code.push((0x97, 7));
    }
    code.push((0x71, 0));
    code
}

/// A workflow of `size` instructions: the registers are set, then steps that count up and blocks, as many as fit, then RETURN.
fn workflow(size: usize, partitions: u32) -> Vec<(u8, u32)> {
    let mut code = vec![(0x17, 0), (0x06, 1)];
    let mut partition = 0;
    while code.len() + 40 < size {
        code.extend(block(partition));
        code.extend([(0x27, 6), (0x47, ((code.len() as u32 + 3) << 4) | 6), (0x37, 6)]);
        partition = (partition + 1) % partitions;
    }
    while code.len() + 1 < size {
        code.push((0x27, 6));
    }
    code.push((0xB0, 0));
    code
}

/// A pack of m workflows of `size` instructions each.
pub fn pack(m: usize, size: usize, partitions: u32) -> Vec<u8> {
    encode(&vec![workflow(size, partitions); m])
}

/// A pack of one workflow of 256 instructions: jumps, each of which may go to the RETURN at the end.
pub fn far_jumps() -> Vec<u8> {
    let mut code = vec![(0x40, 255 << 4); 255];
    code.push((0xB0, 0));
    encode(&[code])
}

/// The block of the measured turn: 16 GETs and 16 PUTs to 16 different keys, which needs an ADD behind each PUT.
fn turning(partitions: u32) -> Vec<(u8, u32)> {
    let mut code = vec![(0x17, 0), (0x06, 1), (0x60, partitions - 1)];
    for i in 0..16 {
        code.extend([(0x80 | i % 4 + 1, 7), (0x97, 7), (0x27, 6)]);
    }
    code.extend([(0x71, 0), (0xB0, 0)]);
    code
}

/// A store that has `free` rows left in each partition, and six in the book, of C rows each: as many log rows as data rows, by rising
/// key. Ids 1, 2, .. are booked with workflow 0 and the arguments of the measured turn.
fn full_store(partitions: u32, rows: u32, free: u32, keys_from: u32) -> Vec<u8> {
    let mut numbers = Numbers::new(7);
    let mut store = Store::lay_out(fresh(partitions, rows).expect("numbers in range")).expect("a fresh store");
    for partition in 0..partitions as usize {
        for i in 0..rows - free.min(rows) {
            let key = match i {
                // half of the keys that the measured turn puts are there already
                0..=7 if i + 8 < rows - free.min(rows) => Key::Data(keys_from + 2 * i),
                _ if i % 2 == 0 => Key::Data(1_000_000 + 64 * i + numbers.below(64)),
                _ => Key::Log { id: 1_000 + 64 * i + numbers.below(64), step: (i % 7) as u16 },
            };
            store.put(partition, key.stored(), numbers.below(u32::MAX));
        }
    }
    for id in 1..=(rows - 5) / 5 {
        store.book(&Request { id, workflow: 0, arguments: [keys_from, 0, 0, 0] });
    }
    store.bytes().to_vec()
}

/// A pack of m workflows: that of the measured turn, and others of 256 instructions.
pub fn turning_pack(partitions: u32, m: usize) -> Vec<u8> {
    let mut workflows = vec![workflow(256, partitions); m];
    workflows[0] = turning(partitions);
    encode(&workflows)
}

/// P partitions, C rows, m workflows. Slot 0 stands at the block of the measured turn, the others but the last are in use too.
pub fn nearly_full(partitions: u32, rows: u32, m: usize) -> State {
    let keys_from = 500;
    let booked = (rows - 5) / 5;
    let mut slots = ALL_EMPTY;
    for (i, slot) in (1..).zip(slots.iter_mut().take(7)) {
        *slot = Agent::started(1 + i % booked.max(1), [keys_from, 0, 0, 0]);
        slot.position = 2;
        slot.registers[7] = keys_from;
        slot.registers[6] = 1;
    }
    let (pack, store) = (turning_pack(partitions, m), full_store(partitions, rows, 18, keys_from));
    State { pack, store, slots, list: Worklist::default() }
}

/// The data key of row i, for an even i; the rows put at an odd i are log rows, so this key of an odd i is used by none.
fn data_key(i: u32) -> u32 {
    1_000_000 + 64 * i
}

/// A store of C = 256 rows: `used` rows in each partition, half of them log rows; then it is booked.
fn filled(partitions: u32, used: u32, book: impl Fn(&mut Store<Vec<u8>>)) -> Vec<u8> {
    let mut numbers = Numbers::new(13);
    let mut store = Store::lay_out(fresh(partitions, 256).expect("numbers in range")).expect("a fresh store");
    for partition in 0..partitions as usize {
        for i in 0..used {
            let key = match i % 2 {
                0 => Key::Data(data_key(i)),
                _ => Key::Log { id: 1_000 + 64 * i + numbers.below(64), step: (i % 7) as u16 },
            };
            store.put(partition, key.stored(), numbers.below(u32::MAX));
        }
    }
    book(&mut store);
    store.bytes().to_vec()
}

fn book_all(store: &mut Store<Vec<u8>>, ids: std::ops::RangeInclusive<u32>) {
    ids.for_each(|id| store.book(&Request { id, workflow: 0, arguments: [id, 2, 3, 4] }));
}

/// Where 16 keys stand among a partition's data rows.
#[derive(Clone, Copy)]
pub enum Keys {
    Present,
    /// The first 16 data rows, and the last 16 where 255 rows are used.
    First,
    Last,
    Below,
    Between,
    Behind,
}

impl Keys {
    /// The first of the keys, and how far the next is.
    fn first_and_step(self) -> (u32, u32) {
        match self {
            Self::Present => (data_key(0), 64 * 14),
            Self::First => (data_key(0), 64 * 2),
            Self::Last => (data_key(224), 64 * 2),
            Self::Below => (500, 1),
            Self::Between => (data_key(1), 64 * 14),
            Self::Behind => (2_000_000, 1),
        }
    }
}

/// One partition of C = 256 with `used` rows. The only workflow is a block that does `operation` 16 times, to the keys in turn; `id`
/// stands at it in slot 0.
fn standing_at(id: u32, operation: u8, keys: Keys, used: u32, book: impl Fn(&mut Store<Vec<u8>>)) -> State {
    let mut code = vec![(0x60, 0)];
    (0..16).for_each(|_| code.extend([(operation, 7), (0x27, 6)]));
    code.extend([(0x71, 0), (0xB0, 0)]);
    let mut slots = ALL_EMPTY;
    slots[0] = Agent::started(id, [id, 2, 3, 4]);
    (slots[0].registers[7], slots[0].registers[6]) = keys.first_and_step();
    State { pack: encode(&[code]), store: filled(1, used, book), slots, list: Worklist::default() }
}

/// 239 rows, 17 free, and 50 requests in the book, ids 2 to 51. The log row of id 2, which stands at the block, goes ahead of all rows.
pub fn at_block(operation: u8, keys: Keys) -> State {
    standing_at(2, operation, keys, 239, |store| book_all(store, 2..=51))
}

/// An id above those of all log rows, so that its own log row is sought among all of them.
pub const LATEST: u32 = 20_000;

/// As full as a block may find it: 255 rows, 127 of them log rows, and the last row is for the log row of the block, which goes behind
/// the others of the log; or it is `logged`, and that row is there. The book has 50 requests too.
pub fn at_full(operation: u8, keys: Keys, logged: bool) -> State {
    let book = |store: &mut Store<Vec<u8>>| {
        book_all(store, 2..=50);
        book_all(store, LATEST..=LATEST);
        if logged {
            store.put(0, Key::Log { id: LATEST, step: 0 }.stored(), 1);
        }
    };
    standing_at(LATEST, operation, keys, 255, book)
}

/// The same, logged, with a worklist of 15 other ids that wait, and at its end the id that is logged through, where it is `listed`: then it
/// is taken.
pub fn with_worklist(operation: u8, listed: bool) -> State {
    let mut entries: Vec<_> = (2..=16).map(|id| (id, WAITING)).collect();
    entries.extend(listed.then_some((LATEST, TAKEN)));
    State { list: Worklist::of(&entries), ..at_full(operation, Keys::Present, true) }
}

/// P = 8 and C = 256, as full as it goes: all rows of the partitions are used, and 255 of the book, by 51 requests, ids 1 to 51. The
/// only workflow is RETURN; id 2 stands at it in slot 0.
pub fn full() -> State {
    let mut slots = ALL_EMPTY;
    slots[0] = Agent::started(2, [2, 2, 3, 4]);
    let store = filled(8, 256, |store| book_all(store, 1..=51));
    State { pack: encode(&[vec![(0xB0, 0)]]), store, slots, list: Worklist::default() }
}

/// The same, but the book's first row is the only one of its id, so that 12 is answered with no as soon as it is put.
pub fn first_id_alone() -> State {
    let book = |store: &mut Store<Vec<u8>>| {
        store.put(8, book_key(1, 0), 0);
        book_all(store, 2..=52);
    };
    State { store: filled(8, 256, book), ..full() }
}

/// The same, but no row is used save the five of id 2.
pub fn nearly_empty() -> State {
    State { store: filled(8, 0, |store| book_all(store, 2..=2)), ..full() }
}

/// How far apart the ids are that may be retired; log rows of ids between them are not booked.
pub const APART: u32 = 1_000;
/// How many requests a book of C = 256 has room for.
pub const BOOKED: u32 = 51;

/// P = 8 and C = 256, as full as it goes: 51 requests in the book, each with a block in every partition and logged through; of the
/// other rows of a partition 77 are log rows of ids between them, and 128 data rows. The greatest id stands at its first block in slot
/// 0. The worklist is as long as it goes and has that id and 15 greater ones.
pub fn retirable() -> State {
    let ids = || (1..=BOOKED).map(|number| APART * number);
    let mut code: Vec<(u8, u32)> = (0..8).flat_map(|partition| [(0x60, partition), (0x70, 0)]).collect();
    code.push((0xB0, 0));
    let mut store = Store::lay_out(fresh(8, 256).expect("numbers in range")).expect("a fresh store");
    for partition in 0..8 {
        for id in ids() {
            store.put(partition, Key::Log { id, step: partition as u16 }.stored(), id);
        }
        for other in 0..77 {
            store.put(partition, Key::Log { id: 650 * other + 1, step: 0 }.stored(), other);
        }
        (0..128).for_each(|key| _ = store.put(partition, Key::Data(key).stored(), key));
    }
    ids().for_each(|id| store.book(&Request { id, workflow: 0, arguments: [id, 2, 3, 4] }));
    let last = APART * BOOKED;
    let mut slots = ALL_EMPTY;
    slots[0] = Agent::started(last, [last, 2, 3, 4]);
    let entries: Vec<_> = (last..last + 16).map(|id| (id, WAITING)).collect();
    State { pack: encode(&[code]), store: store.bytes().to_vec(), slots, list: Worklist::of(&entries) }
}

/// How the rows of a store that is put in order stand before.
#[derive(Clone, Copy)]
pub enum Standing {
    Falling,
    Random,
    Rising,
}

impl Standing {
    fn arrange(self, rows: &mut [(u64, u32)], numbers: &mut Numbers) {
        match self {
            Self::Falling => rows.reverse(),
            Self::Random => (1..rows.len()).rev().for_each(|i| rows.swap(i, numbers.below(i as u32 + 1) as usize)),
            Self::Rising => {}
        }
    }
}

/// The full store with the rows of each partition and of the book in another order.
pub fn standing(standing: Standing) -> State {
    let mut state = full();
    let mut numbers = Numbers::new(17);
    let store = Store::lay_out(state.store.clone()).expect("a store");
    let shape = store.shape();
    for partition in 0..=shape.book() {
        let mut rows: Vec<_> = store.rows(partition).collect();
        standing.arrange(&mut rows, &mut numbers);
        for (row, (key, value)) in rows.into_iter().enumerate() {
            state.store[shape.key_at(partition, row)..][..8].copy_from_slice(&key.to_le_bytes());
            state.store[shape.value_at(partition, row)..][..4].copy_from_slice(&value.to_le_bytes());
        }
    }
    state
}

/// A list of calls on an empty store: MOVE requests between 16 keys, turned in eight slots, with crashes, retries and restarts.
pub fn schedule(rows: u32, events: usize) -> (State, Vec<Call>) {
    let codes = [0x14, 0x60, 0x85, 0x35, 0x94, 0x75, 0x60, 0x85, 0x25, 0x91, 0x75, 0xB0];
    let words = [0, 0, 4, 2, 5, 0, 1, 1, 2, 5, 0, 0];
    let pack = encode(&[codes.into_iter().zip(words).collect()]);
    let mut numbers = Numbers::new(11);
    let requests: Vec<Request> = (1..=64)
        .map(|id| Request { id, workflow: 0, arguments: [numbers.below(16), numbers.below(16), numbers.below(1000), 0] })
        .collect();
    let mut calls = Vec::new();
    while calls.len() < events {
        let slot = numbers.below(8);
        let request = requests[numbers.below(64) as usize];
        calls.push(match numbers.below(32) {
            0..=5 => Call::Arrival { slot, request },
            6..=7 => Call::Retry { slot, id: request.id },
            8 => Call::Crash { slot },
            9 if calls.len() % 7 == 0 => Call::Restart,
            _ => Call::Turn { slot },
        });
    }
    let store = fresh(2, rows).expect("numbers in range");
    (State { pack, store, slots: ALL_EMPTY, list: Worklist::default() }, calls)
}
