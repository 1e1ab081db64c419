//! Single calls: on what a run left, on damaged and odd states, and aimed at one question.

use super::damage::damage;
use super::near_miss::{any_near_miss, near_miss};
use super::order::disorder;
use super::packs::{encoded_pack, Bounds};
use super::world::{changed, new_request, right_request, World};
use crate::agents::{Agent, ALL_EMPTY, SLOTS};
use crate::calls::Call;
use crate::cases::{CallCase, Case, ListCase, Order};
use crate::pack::Pack;
use crate::random::Random;
use crate::schedule::{Event, Kind};
use crate::store::{Key, Request, Shape, Store};
use crate::worklist::Worklist;

/// A call that reads nothing but the pack.
pub fn on_pack(pack: Vec<u8>, order: Order) -> Case {
    Case::Call(Box::new(CallCase {
        pack,
        store: Vec::new(),
        slots: ALL_EMPTY,
        list: None,
        order,
    }))
}

pub fn check(random: &mut Random) -> Case {
    let bounds = Bounds::any(random);
    on_pack(encoded_pack(random, bounds), Order::Check)
}

pub fn open(random: &mut Random) -> Case {
    let bounds = Bounds::any(random);
    let m = bounds.workflows;
    let workflow = match random.below(4) {
        0 => random.pick(&[m, m + 1, 255, 256, 65_536, 1 << 24, u32::MAX as usize]),
        _ => random.below(m),
    };
    let pack = match random.below(6) {
        0 => any_near_miss(random),
        _ => encoded_pack(random, bounds),
    };
    let workflow = workflow as u32;
    on_pack(pack, Order::Open { workflow })
}

pub fn near_miss_check(random: &mut Random, question: u8, lane: usize) -> Case {
    on_pack(near_miss(random, question, lane), Order::Check)
}

/// Any call beside a pack that is nearly right.
pub fn near_miss_call(random: &mut Random) -> Case {
    let mut case = run_left(random);
    case.pack = any_near_miss(random);
    Case::Call(Box::new(case))
}

/// Create on a buffer of the right length, or nearly, with what stands in it.
pub fn create(random: &mut Random) -> Case {
    let partitions = match random.below(5) {
        0 => random.pick(&[0, 9, 255, 256, 257, 65_537, u32::MAX]),
        _ => random.between(1, 8) as u32,
    };
    let rows = match random.below(5) {
        0 => random.pick(&[0, 4, 257, 65_535, 65_536 + 5, 65_536 + 256, u32::MAX]),
        _ => random.between(5, 9) as u32,
    };
    let right = Shape::new(partitions, rows).map_or(207, |shape| shape.length());
    let length = match random.below(12) {
        0 => random.below(3),
        1 => right - 1,
        2 => right + 1,
        3 => random.below(64),
        _ => right,
    };
    let world = run_world(random);
    Case::Call(Box::new(CallCase {
        pack: Vec::new(),
        store: random.bytes(length),
        slots: world.slots,
        list: None,
        order: Order::Create { partitions, rows },
    }))
}

/// A small world after some events, at times on an older store.
fn run_world(random: &mut Random) -> World {
    let mut world = World::small(random);
    if random.one_in(6) {
        world.book_zero(random);
    }
    let events = random.between(2, 40);
    world.run(random, events);
    world
}

pub fn case_on(world: World, order: Order) -> CallCase {
    CallCase {
        pack: world.pack,
        store: world.store,
        slots: world.slots,
        list: None,
        order,
    }
}

/// A call on what a run left.
fn run_left(random: &mut Random) -> CallCase {
    let world = run_world(random);
    let order = any_order(random, &world);
    case_on(world, order)
}

pub fn after_run(random: &mut Random) -> Case {
    Case::Call(Box::new(run_left(random)))
}

/// One of the calls on store or slots, mostly one that will be accepted.
pub fn any_order(random: &mut Random, world: &World) -> Order {
    if random.one_in(24) {
        return Order::Call(Call::PutInOrder);
    }
    let event = match random.below(3) {
        0 => world.next_event(random),
        _ => {
            let kind = match random.one_in(12) {
                true => Kind::Restart,
                false => random.pick(&[Kind::Turn, Kind::Arrival, Kind::Retry, Kind::Crash]),
            };
            world.event_of(random, kind)
        }
    };
    let call = world.schedule.call(&event);
    Order::Call(match (call, random.below(12)) {
        (Call::Turn { .. } | Call::Crash { .. }, 0) => on_wrong_slot(random, world),
        (Call::Arrival { slot, .. }, 0..=3) => arrival(slot, new_request(random, world.workflows)),
        (Call::Arrival { slot, .. }, 4..=7) => arrival(slot, exact_repeat(random, world)),
        _ => call,
    })
}

/// Slots are compared whole: cut to fewer bits some of these would be right.
fn some_wrong_slot(random: &mut Random) -> u32 {
    random.pick(&[8, 9, 15, 16, 255, 256, 65_536, 1 << 31, u32::MAX])
}

/// Right states that no run leaves: rows of ids that are not booked, records anywhere.
pub fn odd(random: &mut Random) -> Case {
    let mut world = run_world(random);
    let mut store = Store::lay_out(world.store.clone()).expect("a store that ran");
    for _ in 0..random.below(8) {
        let partition = random.below(store.shape().partitions);
        let (key, value) = (any_key(random), random.word());
        store.put(partition, key, value);
    }
    let ids = store.booked_ids();
    let crowd = random.pick(&[1, 4, 4]);
    for agent in &mut world.slots {
        if agent.is_in_use() || (!ids.is_empty() && random.one_in(crowd)) {
            *agent = any_sound(random, &world.pack, &store, &ids).unwrap_or(*agent);
        }
    }
    world.store = store.bytes().to_vec();
    let order = any_order(random, &world);
    Case::Call(Box::new(case_on(world, order)))
}

/// A key of a data partition.
pub fn any_key(random: &mut Random) -> u64 {
    let word = random.word();
    match random.one_in(2) {
        true => Key::Data(word),
        false => Key::Log {
            id: word,
            step: random.pick(&[0, 0, 1, 2, 255, 256, 65_535]),
        },
    }
    .stored()
}

/// A sound record of a booked id, anywhere outside a block.
pub fn any_sound(
    random: &mut Random,
    pack: &[u8],
    store: &Store<Vec<u8>>,
    ids: &[u32],
) -> Option<Agent> {
    let pack = Pack::read(pack).ok()?;
    let id = *ids.get(random.below(ids.len()))?;
    let workflow = pack.workflow(store.request(id)?.workflow)?;
    let is_outside = |position: &usize| !workflow.is_inside(*position);
    let outside: Vec<usize> = (0..workflow.size()).filter(is_outside).collect();
    let position = random.pick(&outside);
    Some(Agent {
        in_use: 1,
        id,
        position: position as u32,
        step: random.below(position + 1) as u32,
        registers: std::array::from_fn(|_| random.word()),
    })
}

/// A call on a state damaged in one place.
pub fn damaged(random: &mut Random, question: u8, lane: usize) -> Case {
    let mut case = booked_case(random);
    damage(random, question, lane, &mut case);
    Case::Call(Box::new(case))
}

/// Two damages: the lower number must answer.
pub fn damaged_twice(random: &mut Random) -> Case {
    let mut case = booked_case(random);
    let lower = random.between(9, 13) as u8;
    let higher = random.between(usize::from(lower) + 1, 14) as u8;
    for question in [higher, lower] {
        let lane = random.below(1_000);
        damage(random, question, lane, &mut case);
    }
    if random.one_in(3) {
        case.pack = any_near_miss(random);
    }
    Case::Call(Box::new(case))
}

/// A world with room for a request that is booked, so that there is something to damage.
pub fn booked_world(random: &mut Random, rows: usize) -> World {
    let bounds = Bounds {
        workflows: random.between(1, 3),
        least_size: 3,
        most_size: 16,
        partitions: random.between(1, 3),
        with_blocks: true,
    };
    let mut world = World::new(random, bounds, rows, 3);
    world.schedule.requests[0].workflow = random.below(bounds.workflows) as u32;
    let request = world.schedule.requests[0];
    let first = Call::Arrival { slot: 0, request };
    let _ = first.perform(&world.pack, &mut world.store, &mut world.slots);
    let events = random.below(25);
    world.run(random, events);
    world
}

fn booked_case(random: &mut Random) -> CallCase {
    let rows = random.between(5, 12);
    let world = booked_world(random, rows);
    let order = any_order(random, &world);
    case_on(world, order)
}

/// A call aimed at a question from 15 to 20, or at 24.
pub fn wrong(random: &mut Random, question: u8, lane: usize) -> Case {
    let rows = random.between(5, 12);
    let mut world = booked_world(random, rows);
    if world.slots.iter().all(|agent| agent.is_in_use()) {
        world.slots[random.below(SLOTS)] = Agent::EMPTY;
    }
    let empty = u32::from(world.some_slot(random, false).unwrap_or(0));
    let call = match question {
        15 => on_wrong_slot(random, &world),
        16 => on_wrong_kind_of_slot(random, &world),
        17 => arrival(empty, wrong_workflow(random, &world)),
        18 => arrival(empty, changed_repeat(random, &world, lane)),
        19 => arrival(empty, one_too_many(random, &mut world)),
        24 => zero_arrives(random, &mut world, empty, lane),
        _ => Call::Retry {
            slot: empty,
            id: unbooked_id(random, &booked_ids(&world)),
        },
    };
    Case::Call(Box::new(case_on(world, Order::Call(call))))
}

fn arrival(slot: u32, request: Request) -> Call {
    Call::Arrival { slot, request }
}

fn any_call_on(random: &mut Random, world: &World, slot: u32) -> Call {
    let request = random.pick(&world.schedule.requests);
    match random.below(4) {
        0 => arrival(slot, request),
        1 => Call::Retry {
            slot,
            id: request.id,
        },
        2 => Call::Turn { slot },
        _ => Call::Crash { slot },
    }
}

fn on_wrong_slot(random: &mut Random, world: &World) -> Call {
    let slot = some_wrong_slot(random);
    any_call_on(random, world, slot)
}

/// An arrival or retry where an agent is, or a turn or crash where none is.
fn on_wrong_kind_of_slot(random: &mut Random, world: &World) -> Call {
    let slot = random.below(SLOTS);
    let in_use = world.slots[slot].is_in_use();
    let slot = slot as u32;
    let request = random.pick(&world.schedule.requests);
    match (in_use, random.one_in(2)) {
        (true, true) => arrival(slot, request),
        (true, false) => Call::Retry {
            slot,
            id: request.id,
        },
        (false, true) => Call::Turn { slot },
        (false, false) => Call::Crash { slot },
    }
}

/// A new or a known id with a workflow that is not in the pack.
fn wrong_workflow(random: &mut Random, world: &World) -> Request {
    let m = world.workflows as u32;
    let mut request = random.pick(&world.schedule.requests);
    request.workflow = random.pick(&[m, m + 1, 16, 255, 256, 65_536, 1 << 24, u32::MAX]);
    request
}

fn booked_ids(world: &World) -> Vec<u32> {
    Store::lay_out(world.store.as_slice()).map_or(Vec::new(), |store| store.booked_ids())
}

/// A booked id with one other word; a workflow stays one of the pack, so that 18 is asked.
fn changed_repeat(random: &mut Random, world: &World, lane: usize) -> Request {
    let store = Store::lay_out(world.store.as_slice()).expect("a store that ran");
    let ids = booked_ids(world);
    let booked = ids.first().and_then(|id| store.request(*id));
    let Some(booked) = booked else {
        return random.pick(&world.schedule.requests);
    };
    let mut request = booked;
    match lane % 5 {
        4 if world.workflows > 1 => {
            request.workflow = (booked.workflow + 1) % world.workflows as u32;
        }
        i => {
            let argument = &mut request.arguments[i % 4];
            *argument = random.word_unlike(*argument);
        }
    }
    request
}

/// A booked request as it was booked.
fn exact_repeat(random: &mut Random, world: &World) -> Request {
    let store = Store::lay_out(world.store.as_slice()).expect("a store that ran");
    let ids = store.booked_ids();
    let booked = ids
        .get(random.below(ids.len()))
        .and_then(|id| store.request(*id));
    booked.unwrap_or_else(|| random.pick(&world.schedule.requests))
}

/// An id that is none of these.
pub fn unbooked_id(random: &mut Random, ids: &[u32]) -> u32 {
    // Ids that share their low bits with a booked one are likely to be mistaken for it.
    let near = ids
        .first()
        .map_or(5, |id| id ^ random.pick(&[1 << 16, 1 << 29, 1 << 31, 1]));
    let id = match random.one_in(2) {
        true => near,
        false => random.word(),
    };
    (0..)
        .map(|more| id.wrapping_add(more))
        .find(|id| !ids.contains(id))
        .unwrap_or(id)
}

/// A new request after the book was filled until fewer than five rows are free.
fn one_too_many(random: &mut Random, world: &mut World) -> Request {
    let mut store = Store::lay_out(world.store.clone()).expect("a store that ran");
    while store.free(store.shape().book()) >= 5 {
        let mut request = new_request(random, world.workflows);
        request.workflow = random.below(world.workflows) as u32;
        store.book(&request);
    }
    world.store = store.bytes().to_vec();
    let ids = booked_ids(world);
    let unbooked = (0..).map(|_| unbooked_id(random, &ids));
    let id = unbooked.into_iter().find(|id| *id != 0).unwrap_or(1);
    right_request(random, world.workflows, id)
}

/// An arrival with id 0 where another question might answer: 15 and 16 do, 17 to 19 do not.
fn zero_arrives(random: &mut Random, world: &mut World, empty: u32, lane: usize) -> Call {
    let mut request = right_request(random, world.workflows, 0);
    let mut slot = empty;
    match lane % 8 {
        0 => request.workflow = wrong_workflow(random, world).workflow,
        1 => request = world.book_zero(random),
        2 => request.arguments = world.book_zero(random).arguments.map(|word| word ^ 1),
        3 => drop(one_too_many(random, world)),
        4 => slot = world.some_slot(random, true).map_or(empty, u32::from),
        5 => slot = some_wrong_slot(random),
        _ => {}
    }
    arrival(slot, request)
}

/// Calls on an older store that has 0 in its book: its request is retried, up to its reply
/// or with whatever comes between, and it arrives again, as it was or changed. In half of the
/// lists the store is in another order too, and is put in order first.
pub fn older(random: &mut Random, lane: usize) -> Case {
    let mut world = World::small(random);
    let zero = world.book_zero(random);
    let (mut store, slots) = (world.store.clone(), world.slots);
    let mut calls = Vec::new();
    if lane / 2 % 2 == 1 {
        disorder(random, &mut store, lane / 4);
        calls.push(Call::PutInOrder);
    }
    let slot = random.below(3) as u8;
    let retry = Event {
        kind: Kind::Retry,
        slot,
        request: (world.schedule.requests.len() - 1) as u8,
    };
    let turn = Event {
        kind: Kind::Turn,
        slot,
        request: 0,
    };
    let mut happens = |world: &mut World, event: Event| {
        calls.push(world.schedule.call(&event));
        world.apply(event);
    };
    for _ in 0..random.between(1, 2) {
        happens(&mut world, retry);
        for _ in 0..random.between(1, 16) {
            let event = match lane % 2 {
                0 => turn,
                _ => world.next_event(random),
            };
            happens(&mut world, event);
        }
    }
    calls.push(arrival(random.below(8) as u32, zero));
    calls.push(arrival(random.below(8) as u32, changed(random, zero)));
    Case::List(Box::new(ListCase {
        pack: world.pack,
        store,
        slots,
        list: Worklist::default(),
        calls,
    }))
}

/// Restart, which asks nothing, on a right or damaged state.
pub fn restart(random: &mut Random) -> Case {
    let mut case = booked_case(random);
    case.order = Order::Call(Call::Restart);
    if random.one_in(2) {
        let (question, lane) = (random.between(9, 14) as u8, random.below(1_000));
        damage(random, question, lane, &mut case);
    }
    Case::Call(Box::new(case))
}

/// Bytes without sense, or right bytes with one of them changed.
pub fn noise(random: &mut Random) -> Case {
    let mut case = run_left(random);
    match random.below(4) {
        0 => {
            let length = random.below(40);
            case.pack = random.bytes(length);
        }
        1 => {
            let length = random.below(60);
            case.store = random.bytes(length);
        }
        2 => {
            let place = random.below(case.store.len());
            case.store[place] = random.byte();
        }
        _ => {
            let place = random.below(case.pack.len());
            case.pack[place] ^= 1 << random.below(8);
        }
    }
    Case::Call(Box::new(case))
}
