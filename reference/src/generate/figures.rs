//! Calls for figures (W-202): on packs with many routes, and on packs and numbers that are
//! refused.

use super::calls::on_pack;
use super::near_miss::near_miss;
use super::packs::{encoded_pack, fill_in, right_workflow, Bounds, Rows};
use crate::cases::{Case, Order};
use crate::pack::{self, Operation, MOST_PUTS, MOST_SIZE};
use crate::random::Random;
use crate::store::MOST_PARTITIONS;

/// Jumps are many, so that there are many routes.
const OUTSIDE: [Operation; 7] = [
    Operation::Jlt,
    Operation::Jeq,
    Operation::Jlt,
    Operation::Jeq,
    Operation::Set,
    Operation::Add,
    Operation::Copy,
];

const INSIDE: [Operation; 8] = [
    Operation::Put,
    Operation::Put,
    Operation::Put,
    Operation::Jlt,
    Operation::Jeq,
    Operation::Get,
    Operation::Has,
    Operation::Set,
];

/// Figures of a right pack; `lane` picks the sort.
pub fn right(random: &mut Random, lane: usize) -> Case {
    let size = random.between(4, 40);
    let partitions = random.between(1, MOST_PARTITIONS);
    let workflow = match lane % 11 {
        0 => return of_any_pack(random),
        1 => jumps_only(random, MOST_SIZE),
        2 => most_blocks(random),
        3 => branching(random, MOST_SIZE, partitions),
        4 => behind_return(random),
        5 => one_partition(random, size),
        6 => one_key(random),
        7 => own_routes(random),
        8 => each_partition(random),
        _ => branching(random, size, partitions),
    };
    among_others(random, workflow)
}

/// Figures that 1 to 8 or 17 refuse. A number that is out of range too changes no answer of
/// 1 to 8.
pub fn refused(random: &mut Random, lane: usize) -> Case {
    let bounds = Bounds::any(random);
    let m = bounds.workflows as u32;
    let out_of_range = random.pick(&[m, m, m + 1, 16, 255, 256, 65_536, 1 << 24, u32::MAX]);
    let (pack, workflow) = match lane % 10 {
        0 | 1 => (encoded_pack(random, bounds), out_of_range),
        question => {
            let pack = near_miss(random, question as u8 - 1, lane / 10);
            let workflow = random.pick(&[0, 0, 1, out_of_range]);
            (pack, workflow)
        }
    };
    on_pack(pack, Order::Figures { workflow })
}

/// Any workflow of a pack that other families have too.
fn of_any_pack(random: &mut Random) -> Case {
    let bounds = Bounds::any(random);
    let workflow = random.below(bounds.workflows) as u32;
    on_pack(encoded_pack(random, bounds), Order::Figures { workflow })
}

/// Others stand before and behind, so that the number is not always 0.
fn among_others(random: &mut Random, workflow: Rows) -> Case {
    let before = random.below(3);
    let others = before + random.below(2);
    let mut workflows: Vec<Rows> = (0..others)
        .map(|_| {
            let size = random.between(1, 12);
            right_workflow(random, size, MOST_PARTITIONS)
        })
        .collect();
    workflows.insert(before, workflow);
    let workflow = before as u32;
    on_pack(pack::encode(&workflows), Order::Figures { workflow })
}

/// A right workflow of this size with jumps in and outside blocks and RETURNs between.
pub fn branching(random: &mut Random, size: usize, partitions: usize) -> Rows {
    let mut operations = Vec::with_capacity(size);
    push_branching(random, size, &mut operations);
    fill_in(random, &operations, partitions)
}

/// Appends instructions up to this size, the last of them RETURN.
fn push_branching(random: &mut Random, size: usize, operations: &mut Vec<Operation>) {
    while operations.len() + 1 < size {
        let room = size - 1 - operations.len();
        if room >= 2 && random.one_in(3) {
            push_block(random, room, operations);
        } else if random.one_in(16) {
            operations.push(Operation::Return);
        } else {
            operations.push(random.pick(&OUTSIDE));
        }
    }
    operations.push(Operation::Return);
}

/// Appends a block that takes at most `room` places and has no more PUTs than it may.
fn push_block(random: &mut Random, room: usize, operations: &mut Vec<Operation>) {
    let most = random.pick(&[1, 4, 8, MOST_PUTS]);
    let inside = random.below(room.min(most + 2) - 1);
    operations.push(Operation::Begin);
    operations.extend((0..inside).map(|_| random.pick(&INSIDE)));
    operations.push(Operation::End);
}

/// All but the RETURN are jumps; the route that takes none passes all of them.
fn jumps_only(random: &mut Random, size: usize) -> Rows {
    let mut operations: Vec<Operation> = (1..size)
        .map(|_| random.pick(&[Operation::Jlt, Operation::Jeq]))
        .collect();
    operations.push(Operation::Return);
    let mut rows = fill_in(random, &operations, 1);
    if random.one_in(2) {
        // All may go to the RETURN.
        let last = 16 * (size as u32 - 1);
        rows[..size - 1].iter_mut().for_each(|row| row.1 = last);
    }
    rows
}

/// As many blocks as a workflow has room for.
fn most_blocks(random: &mut Random) -> Rows {
    let partitions = random.pick(&[1, 2, MOST_PARTITIONS]);
    let mut operations = vec![random.pick(&[Operation::Set, Operation::Jlt])];
    operations.extend([Operation::Begin, Operation::End].repeat(MOST_SIZE / 2 - 1));
    operations.push(Operation::Return);
    fill_in(random, &operations, partitions)
}

/// A RETURN that nothing leaps over: no route reaches what stands behind it.
fn behind_return(random: &mut Random) -> Rows {
    let mut operations = vec![Operation::Set; random.below(4)];
    if random.one_in(2) {
        push_block(random, 6, &mut operations);
    }
    operations.push(Operation::Return);
    let size = operations.len() + random.between(4, 24);
    push_branching(random, size, &mut operations);
    fill_in(random, &operations, MOST_PARTITIONS)
}

/// All blocks in one partition, which may be any.
fn one_partition(random: &mut Random, size: usize) -> Rows {
    let partition = random.below(MOST_PARTITIONS) as u32;
    let mut rows = branching(random, size, 1);
    let begins = rows.iter_mut().filter(|(byte, _)| *byte == 0x60);
    begins.for_each(|begin| begin.1 = partition);
    rows
}

/// A block of PUTs that all name one register, and a second such block.
fn one_key(random: &mut Random) -> Rows {
    let mut rows = Rows::new();
    for _ in 0..2 {
        let (d, s) = (random.below(8) as u8, random.below(8) as u32);
        rows.push((0x60, random.below(3) as u32));
        rows.extend(vec![(0x90 | d, s); random.between(2, MOST_PUTS)]);
        rows.push((0x70, 0));
    }
    rows.push((0xB0, 0));
    rows
}

/// Two ways that part at the start: each takes the most in a partition of its own, and one
/// has more turns.
fn own_routes(random: &mut Random) -> Rows {
    let first = random.below(MOST_PARTITIONS) as u32;
    let second = (first + random.between(1, MOST_PARTITIONS - 1) as u32) % MOST_PARTITIONS as u32;
    let mut ways = [(first, second), (second, first)].map(|(own, other)| {
        let mut way = vec![(0x01, 5); random.below(4)];
        way.extend([(0x60, own), (0x91, 2), (0x92, 1), (0x70, 0)]);
        way.extend([(0x60, other), (0x70, 0), (0xB0, 0)]);
        way
    });
    let target = 1 + ways[0].len();
    let mut rows = vec![(0x40, 16 * target as u32 + 1)];
    ways.iter_mut().for_each(|way| rows.append(way));
    rows
}

/// A block in each partition, with another number of PUTs in each.
fn each_partition(random: &mut Random) -> Rows {
    let mut puts: [usize; MOST_PARTITIONS] = std::array::from_fn(|partition| 1 + 2 * partition);
    random.shuffle(&mut puts);
    let mut rows = Rows::new();
    for (partition, puts) in (0..).zip(puts) {
        rows.push((0x60, partition));
        rows.extend((0..puts).map(|_| (0x90 | random.below(8) as u8, random.below(8) as u32)));
        rows.push((0x70, 0));
    }
    rows.push((0xB0, 0));
    rows
}
