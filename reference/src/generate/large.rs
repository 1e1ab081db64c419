//! The few cases that are large.

use super::calls::{any_order, case_on, on_pack};
use super::order::{disorder, fill, ordering};
use super::packs::{right_pack, right_workflow, Bounds};
use super::schedules;
use super::world::World;
use crate::agents::ALL_EMPTY;
use crate::cases::{CallCase, Case, Order};
use crate::pack;
use crate::random::Random;
use crate::store::{Key, Shape, Store};

pub fn any(random: &mut Random, lane: usize) -> Case {
    match lane % 10 {
        0 => on_pack(full_pack(random), Order::Check),
        1 => on_pack(full_pack(random), Order::Open { workflow: 7 }),
        2 => schedules::full(random),
        3 => schedules::long_workflow(random),
        4 => on_full_store(random, 8),
        5 => on_full_store(random, 1),
        6 => on_full_store(random, 2),
        7 => order_full_store(random),
        8 => on_pack(full_pack(random), Order::Figures { workflow: 7 }),
        _ => largest_create(random),
    }
}

/// All 2,048 instructions, at times with a no near the end.
fn full_pack(random: &mut Random) -> Vec<u8> {
    let bounds = Bounds {
        workflows: 8,
        least_size: 256,
        most_size: 256,
        partitions: 8,
        with_blocks: false,
    };
    let mut workflows = right_pack(random, bounds);
    if random.one_in(2) {
        workflows[7] = right_workflow(random, 128, 8);
        workflows.push(right_workflow(random, 128, 8));
    }
    if random.one_in(3) {
        let last = workflows.len() - 1;
        let index = random.between(100, workflows[last].len() - 1);
        workflows[last][index].0 ^= 1 << random.between(3, 7);
    }
    pack::encode(&workflows)
}

/// A call on a store with C = 256 and few free rows.
fn on_full_store(random: &mut Random, partitions: usize) -> Case {
    let bounds = Bounds {
        workflows: 2,
        least_size: 6,
        most_size: 20,
        partitions,
        with_blocks: false,
    };
    let mut world = World::new(random, bounds, 256, 40);
    // No more partitions than asked for, since all of them are filled.
    while usize::from(world.schedule.partitions) > partitions {
        world = World::new(random, bounds, 256, 40);
    }
    world.run(random, 60);
    let mut store = Store::lay_out(world.store.clone()).expect("a store that ran");
    for partition in 0..store.shape().partitions {
        let leave = random.below(6);
        while store.free(partition) > leave {
            let key = Key::Data(random.number() as u32).stored();
            store.put(partition, key, random.word());
        }
    }
    world.store = store.bytes().to_vec();
    let order = any_order(random, &world);
    Case::Call(Box::new(case_on(world, order)))
}

/// A full store with C = 256 and its rows in no order, to be put in order.
fn order_full_store(random: &mut Random) -> Case {
    let bounds = Bounds {
        workflows: 2,
        least_size: 6,
        most_size: 20,
        partitions: 2,
        with_blocks: false,
    };
    let mut world = World::new(random, bounds, 256, 40);
    world.run(random, 60);
    fill(random, &mut world.store);
    // Each partition and the book shuffled.
    disorder(random, &mut world.store, 7);
    Case::Call(Box::new(ordering(random, world)))
}

/// Create on a buffer for P = 8, C = 256 that holds anything.
fn largest_create(random: &mut Random) -> Case {
    let (partitions, rows) = (8, 256);
    let length = Shape::new(partitions, rows).map_or(0, |shape| shape.length());
    Case::Call(Box::new(CallCase {
        pack: Vec::new(),
        store: random.bytes(length),
        slots: ALL_EMPTY,
        list: None,
        order: Order::Create { partitions, rows },
    }))
}
