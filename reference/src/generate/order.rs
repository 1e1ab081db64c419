//! W-203: stores whose rows do not stand by rising key, and the call that puts them in order.

use std::cmp::Reverse;

use super::calls::{any_key, booked_world, case_on};
use super::damage::{damage, set_row};
use super::near_miss::any_near_miss;
use super::world::{right_request, World};
use crate::agents::{Agent, SLOTS};
use crate::calls::Call;
use crate::cases::{CallCase, Case, ListCase, Order};
use crate::random::Random;
use crate::schedule::Kind;
use crate::store::{Key, Store};
use crate::worklist::Worklist;

/// How many ways there are to leave the order.
const WAYS: usize = 8;

/// The calls that question 11 is put to.
const ASKED: [Kind; 4] = [Kind::Turn, Kind::Arrival, Kind::Retry, Kind::Crash];

/// The damages of a store: question and sort. Each is there in order and not in order.
const DAMAGES: [(u8, usize); 16] = [
    (11, 0),
    (12, 0),
    (11, 1),
    (9, 0),
    (11, 2),
    (12, 1),
    (11, 3),
    (10, 0),
    (11, 4),
    (12, 2),
    (11, 5),
    (9, 2),
    (11, 6),
    (11, 7),
    (10, 1),
    (11, 8),
];

/// Moves rows within their partitions so that the store is in order no more; `lane` picks the
/// way. Where the rows do not allow it, two neighbours of the book are exchanged.
pub fn disorder(random: &mut Random, bytes: &mut [u8], lane: usize) {
    let Some(partition) = some_data(random, bytes) else {
        return;
    };
    let book = usize::from(bytes[0]);
    match lane % WAYS {
        0 => rearrange(bytes, partition, |rows| swap_neighbours(random, rows)),
        1 => rearrange(bytes, book, |rows| swap_neighbours(random, rows)),
        2 => rearrange(bytes, partition, swap_ends),
        // The last two, which are easily left out.
        3 => rearrange(bytes, partition, swap_last),
        // What was written behind the used rows: the log row behind its block's data rows.
        4 => (0..book).for_each(|p| rearrange(bytes, p, |rows| rows.sort_by_key(is_log))),
        // Requests by falling id, as they may have arrived, each one's rows rising.
        5 => rearrange(bytes, book, |rows| {
            rows.sort_by_key(|(key, _)| (Reverse(key / 8), *key));
        }),
        6 => (0..=book).for_each(|p| rearrange(bytes, p, |rows| rows.reverse())),
        _ => (0..=book).for_each(|p| rearrange(bytes, p, |rows| random.shuffle(rows))),
    }
    if Store::lay_out(&*bytes).is_ok_and(|store| store.is_in_order()) {
        rearrange(bytes, book, |rows| swap_neighbours(random, rows));
    }
}

type Rows = Vec<(u64, u32)>;

/// A data partition of a store that is laid out, one with two rows if there is one.
fn some_data(random: &mut Random, bytes: &[u8]) -> Option<usize> {
    let store = Store::lay_out(bytes).ok()?;
    let partitions = 0..store.shape().partitions;
    let with_two: Vec<usize> = partitions.filter(|p| store.used(*p) >= 2).collect();
    match with_two.is_empty() {
        true => Some(0),
        false => Some(random.pick(&with_two)),
    }
}

/// Writes the used rows of a partition as `change` leaves them; there are as many as before.
fn rearrange(bytes: &mut [u8], partition: usize, change: impl FnOnce(&mut Rows)) {
    let store = Store::lay_out(&*bytes).expect("laid out");
    let shape = store.shape();
    let mut rows: Rows = store.rows(partition).collect();
    change(&mut rows);
    for (row, content) in rows.into_iter().enumerate() {
        set_row(bytes, shape, partition, row, content);
    }
}

fn swap_neighbours(random: &mut Random, rows: &mut Rows) {
    if rows.len() >= 2 {
        let row = random.below(rows.len() - 1);
        rows.swap(row, row + 1);
    }
}

fn swap_ends(rows: &mut Rows) {
    if let Some(last) = rows.len().checked_sub(1) {
        rows.swap(0, last);
    }
}

fn swap_last(rows: &mut Rows) {
    if let Some(row) = rows.len().checked_sub(2) {
        rows.swap(row, row + 1);
    }
}

fn is_log((key, _): &(u64, u32)) -> bool {
    matches!(Key::of_stored(*key), Some(Key::Log { .. }))
}

/// Two neighbours get one key, at times one value too; the others rise as before.
pub fn equal_neighbours(random: &mut Random, bytes: &mut [u8], partition: usize) {
    rearrange(bytes, partition, |rows| {
        if rows.len() < 2 {
            return;
        }
        let row = random.below(rows.len() - 1);
        let (from, to) = random.pick(&[(row, row + 1), (row + 1, row)]);
        match random.one_in(3) {
            true => rows[to] = rows[from],
            false => rows[to].0 = rows[from].0,
        }
    });
}

/// The last row gets the first one's key: equal, and not side by side.
fn equal_ends(bytes: &mut [u8], partition: usize) {
    rearrange(bytes, partition, |rows| {
        if let [first, .., last] = rows.as_mut_slice() {
            last.0 = first.0;
        }
    });
}

/// A world whose partitions have some rows of both kinds, with an agent in a slot.
fn stocked_world(random: &mut Random, rows: usize) -> World {
    let mut world = booked_world(random, rows);
    let mut store = Store::lay_out(world.store.as_mut_slice()).expect("a store that ran");
    for partition in 0..store.shape().partitions {
        let stock = random.between(3, 5);
        while store.used(partition) < stock {
            store.put(partition, any_key(random), random.word());
        }
    }
    let ids = store.booked_ids();
    let booked = ids.first().and_then(|id| store.request(*id));
    if let (Some(request), None) = (booked, world.some_slot(random, true)) {
        world.slots[random.below(SLOTS)] = Agent::started(request.id, request.arguments);
    }
    world
}

fn small_rows(random: &mut Random) -> usize {
    random.between(5, 12)
}

/// A call that puts 11, on rows that do not rise or that have one key twice side by side.
pub fn not_rising(random: &mut Random, lane: usize) -> Case {
    let sorts = WAYS + 2;
    let rows = small_rows(random);
    let world = stocked_world(random, rows);
    let sort = lane % sorts;
    let kind = ASKED[(lane / 5 + lane / sorts + sort / 3) % ASKED.len()];
    let event = world.event_of(random, kind);
    let order = Order::Call(world.schedule.call(&event));
    let mut case = case_on(world, order);
    let book = usize::from(case.store[0]);
    match sort {
        way if way < WAYS => disorder(random, &mut case.store, way),
        WAYS => {
            let partition = random.below(book);
            equal_neighbours(random, &mut case.store, partition);
        }
        _ => equal_neighbours(random, &mut case.store, book),
    }
    Case::Call(Box::new(case))
}

/// An arrival of a new id whose rows belong below, between or above those in the book.
pub fn new_id(random: &mut Random, lane: usize) -> Case {
    // Room for the three requests that a booked world may have, and one more.
    let rows = random.between(20, 22);
    let mut world = booked_world(random, rows);
    if lane % 4 == 1 {
        book_above(random, &mut world);
    }
    let ids = Store::lay_out(world.store.as_slice()).map_or(Vec::new(), |store| store.booked_ids());
    let first = ids.first().copied().unwrap_or(1);
    let last = ids.last().copied().unwrap_or(1);
    let id = match lane % 4 {
        0 => random.between(1, first as usize) as u32,
        1 => random.between(first as usize, last as usize) as u32,
        2 => last.saturating_add(random.between(1, 9) as u32),
        _ => random.pick(&[1, first.wrapping_sub(1), first.wrapping_add(1), u32::MAX]),
    };
    let is_new = |id: &u32| *id != 0 && !ids.contains(id);
    let id = (0..).map(|more| id.wrapping_add(more)).find(is_new);
    let request = right_request(random, world.workflows, id.unwrap_or(1));
    let slot = u32::from(world.some_slot(random, false).unwrap_or(0));
    let order = Order::Call(Call::Arrival { slot, request });
    Case::Call(Box::new(case_on(world, order)))
}

/// Where one id alone is booked, books another above it, with room for ids between.
fn book_above(random: &mut Random, world: &mut World) {
    let mut store = Store::lay_out(world.store.as_mut_slice()).expect("a store that ran");
    if let [only] = store.booked_ids()[..] {
        let above = only.saturating_add(random.between(3, 99) as u32);
        store.book(&right_request(random, world.workflows, above));
    }
}

/// The call that puts a store in order, on one that is right but for its order, or altogether.
pub fn put_in_order(random: &mut Random, lane: usize) -> Case {
    let rows = small_rows(random);
    let mut world = stocked_world(random, rows);
    match lane % (WAYS + 4) {
        way if way < WAYS => disorder(random, &mut world.store, way),
        8 => {}
        9 => world.store = World::small(random).store,
        10 => {
            fill(random, &mut world.store);
            disorder(random, &mut world.store, lane / WAYS);
        }
        _ => fill(random, &mut world.store),
    }
    Case::Call(Box::new(ordering(random, world)))
}

/// Until no data partition has a free row.
pub fn fill(random: &mut Random, bytes: &mut [u8]) {
    let mut store = Store::lay_out(bytes).expect("a store that ran");
    for partition in 0..store.shape().partitions {
        while store.free(partition) > 0 {
            store.put(partition, any_key(random), random.word());
        }
    }
}

/// The call on what a world has; pack and slots are not read, so that anything may be there.
pub fn ordering(random: &mut Random, world: World) -> CallCase {
    let mut case = case_on(world, Order::Call(Call::PutInOrder));
    match random.below(6) {
        0 => case.pack = any_near_miss(random),
        1 => case.pack.clear(),
        _ => {}
    }
    if random.one_in(4) {
        let lane = random.below(1_000);
        damage(random, 14, lane, &mut case);
    }
    case
}

/// The call that puts a store in order, on one that 9 to 12 refuse for another reason than
/// its order: every damage in a store that is in order otherwise, and in one that is not.
pub fn put_in_order_refused(random: &mut Random, lane: usize) -> Case {
    let rows = small_rows(random);
    let world = stocked_world(random, rows);
    let mut case = ordering(random, world);
    damage_store(random, &mut case, lane);
    Case::Call(Box::new(case))
}

fn damage_store(random: &mut Random, case: &mut CallCase, lane: usize) {
    let sorts = DAMAGES.len() + 2;
    let unordered = lane / sorts % 2 == 1;
    let way = random.below(WAYS);
    let Some((question, sort)) = DAMAGES.get(lane % sorts).copied() else {
        let book = usize::from(case.store[0]);
        let partition = match lane % 2 {
            0 => random.below(book),
            _ => book,
        };
        return equal_ends(&mut case.store, partition);
    };
    // Rows can be moved only while 9 and 10 are a yes.
    if question <= 10 && unordered {
        disorder(random, &mut case.store, way);
    }
    damage(random, question, sort, case);
    if question > 10 && unordered {
        disorder(random, &mut case.store, way);
    }
}

/// Calls on an earlier store that is put in order at first or after some noes, on one that is
/// in order, and on one that cannot be put in order; with the ordering between other calls.
pub fn list(random: &mut Random, lane: usize) -> Case {
    let rows = random.between(8, 18);
    let mut world = stocked_world(random, rows);
    let mut case = case_on(world.clone(), Order::Call(Call::PutInOrder));
    let mut calls = Vec::new();
    let sort = lane % 4;
    match sort {
        0 => disorder(random, &mut case.store, lane / 4),
        1 => {
            disorder(random, &mut case.store, lane / 4);
            for _ in 0..random.between(1, 3) {
                let kind = random.pick(&ASKED);
                let event = world.event_of(random, kind);
                calls.push(world.schedule.call(&event));
            }
        }
        2 => {}
        _ => damage_store(random, &mut case, lane / 4),
    }
    calls.push(Call::PutInOrder);
    if sort == 0 {
        calls.push(Call::PutInOrder);
    }
    for _ in 0..random.between(3, 12) {
        if random.one_in(5) {
            calls.push(Call::PutInOrder);
        }
        let event = world.next_event(random);
        calls.push(world.schedule.call(&event));
        world.apply(event);
    }
    Case::List(Box::new(ListCase {
        pack: case.pack,
        store: case.store,
        slots: case.slots,
        list: Worklist::default(),
        calls,
    }))
}
