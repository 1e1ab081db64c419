//! Schedules: lists of events that run, and such as are refused before the first.

use super::near_miss::any_near_miss;
use super::packs::Bounds;
use super::workers::with_worklist;
use super::world::World;
use crate::calls::Call;
use crate::cases::Case;
use crate::random::Random;
use crate::schedule::{Event, Kind};
use crate::store::fresh;

/// A schedule that runs; most are short.
pub fn right(random: &mut Random) -> Case {
    let mut world = match random.one_in(25) {
        true => World::without_requests(random),
        false => World::small(random),
    };
    let events = match random.below(12) {
        0 => random.below(4),
        1 => random.between(60, 150),
        _ => random.between(8, 60),
    };
    world.run(random, events);
    to_case(&world)
}

fn to_case(world: &World) -> Case {
    Case::Schedule {
        pack: world.pack.clone(),
        schedule: world.schedule.encode(),
    }
}

/// A list for demand 3: pack, fresh store and calls, longer than in a file of cases. Its calls
/// are a schedule's, and now and then what no schedule has: what puts a store in order, and
/// calls on the worklist.
pub fn any_list(random: &mut Random) -> (Vec<u8>, Vec<u8>, Vec<Call>) {
    let world = any_world(random);
    let (partitions, rows) = (world.schedule.partitions, world.schedule.rows);
    let store = fresh(u32::from(partitions), u32::from(rows)).expect("numbers in range");
    let mut calls = Vec::new();
    for call in world.schedule.calls() {
        if random.one_in(12) {
            calls.push(Call::PutInOrder);
        }
        calls.push(call);
    }
    let calls = with_worklist(random, &world.pack, &store, &calls);
    (world.pack, store, calls)
}

fn any_world(random: &mut Random) -> World {
    let mut world = match random.below(8) {
        0 => large_world(random),
        1..=5 => roomy_world(random),
        _ => World::small(random),
    };
    let events = match random.below(10) {
        0 => random.below(10),
        1..=6 => random.between(10, 80),
        _ => random.between(80, 250),
    };
    world.run(random, events);
    world
}

/// Room for much of what comes, so that many requests meet on the same keys.
fn roomy_world(random: &mut Random) -> World {
    let bounds = Bounds {
        workflows: random.between(1, 3),
        least_size: 7,
        most_size: 24,
        partitions: random.between(1, 2),
        with_blocks: true,
    };
    let rows = match random.one_in(3) {
        true => random.between(10, 16),
        false => random.between(20, 60),
    };
    let requests = random.between(3, 10);
    World::new(random, bounds, rows, requests)
}

fn large_world(random: &mut Random) -> World {
    let bounds = Bounds {
        workflows: random.between(1, 8),
        least_size: 10,
        most_size: 120,
        partitions: random.between(1, 8),
        with_blocks: false,
    };
    let rows = random.between(24, 120);
    let requests = random.between(5, 30);
    World::new(random, bounds, rows, requests)
}

/// The full 1,024 events and 64 requests.
pub fn full(random: &mut Random) -> Case {
    let bounds = Bounds {
        workflows: 3,
        least_size: 8,
        most_size: 30,
        partitions: 3,
        with_blocks: false,
    };
    let rows = random.pick(&[20, 60, 256]);
    let mut world = World::new(random, bounds, rows, 64);
    world.run(random, 1_024);
    to_case(&world)
}

/// One workflow of 256 instructions that is walked to its reply.
pub fn long_workflow(random: &mut Random) -> Case {
    let bounds = Bounds {
        workflows: 1,
        least_size: 256,
        most_size: 256,
        partitions: 2,
        with_blocks: false,
    };
    let mut world = World::new(random, bounds, 40, 1);
    let event = |kind| Event {
        kind,
        slot: 3,
        request: 0,
    };
    world.apply(event(Kind::Arrival));
    for _ in 0..random.between(20, 60) {
        world.apply(event(Kind::Turn));
    }
    world.apply(event(Kind::Crash));
    world.apply(event(Kind::Retry));
    for _ in 0..260 {
        world.apply(event(Kind::Turn));
    }
    to_case(&world)
}

/// A schedule aimed at question 9, 22 or 23.
pub fn refused(random: &mut Random, question: u8, lane: usize) -> Case {
    let mut world = World::small(random);
    let events = random.between(1, 20);
    world.run(random, events);
    let pack = world.pack.clone();
    let schedule = match question {
        22 => wrong_length(random, &world, lane),
        23 => wrong_event(random, &world, lane),
        _ => wrong_numbers(random, &mut world, lane),
    };
    Case::Schedule { pack, schedule }
}

fn wrong_length(random: &mut Random, world: &World, lane: usize) -> Vec<u8> {
    let mut bytes = world.schedule.encode();
    match lane % 7 {
        0 => bytes.clear(),
        1 => bytes.truncate(random.between(1, 5)),
        2 => bytes.truncate(bytes.len() - 1),
        3 => bytes.push(0),
        4 => bytes[3] = bytes[3].wrapping_add(random.pick(&[1, 255])),
        5 => return over_limits(65, 0),
        _ => return over_limits(0, 1_025),
    }
    bytes
}

/// One request or one event too many; the length fits them.
fn over_limits(g: u8, e: u16) -> Vec<u8> {
    let mut bytes = vec![1, 5, 0, g];
    bytes.extend(e.to_le_bytes());
    bytes.resize(6 + 24 * usize::from(g), 0);
    bytes.resize(bytes.len() + usize::from(e), 0x40);
    bytes.resize(bytes.len() + usize::from(e), 0);
    bytes
}

fn wrong_event(random: &mut Random, world: &World, lane: usize) -> Vec<u8> {
    let mut bytes = world.schedule.encode();
    let g = world.schedule.requests.len();
    let e = world.schedule.events.len();
    let event = random.below(e);
    let kind = 6 + 24 * g + event;
    let index = kind + e;
    match lane % 3 {
        0 => bytes[kind] = random.between(0x50, 0xFF) as u8,
        1 => {
            bytes[kind] = random.pick(&[0x00, 0x30]);
            bytes[index] = random.between(g, 255) as u8;
        }
        _ => {
            bytes[kind] = random.pick(&[0x10, 0x20, 0x40]);
            bytes[index] = random.between(1, 255) as u8;
        }
    }
    bytes
}

fn wrong_numbers(random: &mut Random, world: &mut World, lane: usize) -> Vec<u8> {
    match lane % 2 == 1 {
        true => world.schedule.partitions = random.pick(&[0, 9, 10, 255]),
        false => world.schedule.rows = random.pick(&[0, 1, 4, 257, 261, 65_535]),
    }
    world.schedule.encode()
}

/// A schedule beside a pack that is not right, at times not right itself.
pub fn bad_pack(random: &mut Random) -> Case {
    let pack = any_near_miss(random);
    let schedule = match random.below(3) {
        0 => random.bytes(3),
        _ => {
            let mut world = World::small(random);
            world.run(random, 5);
            world.schedule.encode()
        }
    };
    Case::Schedule { pack, schedule }
}
