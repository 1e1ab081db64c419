//! Packs that pass the check, of every shape.

use crate::pack::{self, is_inside, Operation, MOST_PUTS};
use crate::random::Random;

/// A workflow as operation bytes with their words.
pub type Rows = Vec<(u8, u32)>;

/// How large a pack is made, and which partitions its BEGINs name.
#[derive(Clone, Copy, Debug)]
pub struct Bounds {
    pub workflows: usize,
    pub least_size: usize,
    pub most_size: usize,
    pub partitions: usize,
    /// Each workflow has a block; its size is at least 3 then.
    pub with_blocks: bool,
}

const BEGIN: u8 = 0x60;

/// The jumps stand last.
const OUTSIDE: [Operation; 9] = [
    Operation::Set,
    Operation::Set,
    Operation::Copy,
    Operation::Add,
    Operation::Sub,
    Operation::Jlt,
    Operation::Jeq,
    Operation::Jlt,
    Operation::Jeq,
];

const INSIDE: [Operation; 12] = [
    Operation::Set,
    Operation::Copy,
    Operation::Add,
    Operation::Sub,
    Operation::Jlt,
    Operation::Jeq,
    Operation::Get,
    Operation::Get,
    Operation::Put,
    Operation::Put,
    Operation::Put,
    Operation::Has,
];

/// Reads a value, changes it and writes it back: done twice, it shows.
const CHANGE: [Operation; 3] = [Operation::Get, Operation::Add, Operation::Put];

impl Bounds {
    /// Mostly small, at times many workflows or tiny ones.
    pub fn any(random: &mut Random) -> Self {
        let partitions = match random.below(8) {
            0 => random.between(1, 8),
            _ => random.between(1, 3),
        };
        let (workflows, least_size, most_size) = match random.below(40) {
            0 => (16, 1, 6),
            1 => (random.between(4, 15), 1, 8),
            2..=4 => (1, 40, 70),
            5..=9 => (random.between(1, 3), 1, 3),
            _ => (random.between(1, 3), 3, 22),
        };
        Self {
            workflows,
            least_size,
            most_size,
            partitions,
            with_blocks: false,
        }
    }
}

/// The workflows of a right pack.
pub fn right_pack(random: &mut Random, bounds: Bounds) -> Vec<Rows> {
    (0..bounds.workflows)
        .map(|_| loop {
            let size = random.between(bounds.least_size, bounds.most_size);
            let rows = right_workflow(random, size, bounds.partitions);
            if !bounds.with_blocks || rows.iter().any(|(byte, _)| *byte == BEGIN) {
                return rows;
            }
        })
        .collect()
}

/// The bytes of a right pack.
pub fn encoded_pack(random: &mut Random, bounds: Bounds) -> Vec<u8> {
    pack::encode(&right_pack(random, bounds))
}

/// A right workflow of exactly this size: at times mostly blocks, at times without
/// jumps outside, so that its agents come past all of them.
pub fn right_workflow(random: &mut Random, size: usize, partitions: usize) -> Rows {
    let blocks = random.pick(&[2, 3, 3, 6]);
    let outside = match random.one_in(2) {
        true => &OUTSIDE[..],
        false => &OUTSIDE[..5],
    };
    let mut operations = Vec::with_capacity(size);
    while operations.len() + 1 < size {
        let room = size - 1 - operations.len();
        if room >= 2 && random.one_in(blocks) {
            push_block(random, room, &mut operations);
        } else if random.one_in(25) {
            operations.push(Operation::Return);
        } else {
            operations.push(random.pick(outside));
        }
    }
    operations.push(Operation::Return);
    fill_in(random, &operations, partitions)
}

/// A block that takes at most `room` places.
fn push_block(random: &mut Random, room: usize, operations: &mut Vec<Operation>) {
    let room = room - 2;
    operations.push(Operation::Begin);
    let start = operations.len();
    if room >= CHANGE.len() && !random.one_in(3) {
        operations.extend(CHANGE);
    }
    let left = room - (operations.len() - start);
    let most = left.min(random.pick(&[0, 3, 6, 6, 12, 24]));
    let only_puts = random.one_in(6);
    for _ in 0..random.between(0, most) {
        operations.push(match only_puts {
            true => Operation::Put,
            false => random.pick(&INSIDE),
        });
    }
    let puts = operations[start..].iter_mut();
    let too_many = puts.filter(|op| **op == Operation::Put).skip(MOST_PUTS);
    too_many.for_each(|op| *op = Operation::Get);
    operations.push(Operation::End);
}

/// Registers that were used last: what is written should be read, and what is read told.
struct Habit {
    key: usize,
    written: usize,
}

impl Habit {
    /// Whether the habit is followed this time.
    fn holds(random: &mut Random) -> bool {
        !random.one_in(4)
    }

    fn d(&mut self, random: &mut Random, operation: Operation) -> usize {
        let linked = Self::holds(random);
        let d = match operation {
            Operation::Begin => 0,
            Operation::Put if linked => self.key,
            Operation::Add | Operation::Sub | Operation::End if linked => self.written,
            Operation::Return if linked => 0,
            _ => random.below(8),
        };
        match operation {
            // Keys are mostly arguments.
            Operation::Begin => self.key = random.below(4),
            Operation::Put => self.key = d,
            Operation::End | Operation::Return => {}
            _ => self.written = d,
        }
        d
    }

    fn s(&self, random: &mut Random, operation: Operation) -> usize {
        let linked = Self::holds(random);
        match operation {
            Operation::Get | Operation::Has if linked => self.key,
            Operation::Put if linked => self.written,
            _ => random.below(8),
        }
    }
}

/// Gives each operation a register and a word in range.
pub fn fill_in(random: &mut Random, operations: &[Operation], partitions: usize) -> Rows {
    let codes: Vec<u8> = operations.iter().map(|op| op.code() << 4).collect();
    let mut habit = Habit { key: 0, written: 0 };
    let mut rows = Rows::with_capacity(codes.len());
    for (index, operation) in operations.iter().enumerate() {
        let s = habit.s(random, *operation);
        let d = habit.d(random, *operation);
        let w = match operation {
            Operation::Set => random.word(),
            Operation::Jlt | Operation::Jeq => jump_word(random, &codes, index),
            Operation::Begin => random.below(partitions) as u32,
            Operation::End | Operation::Return => 0,
            _ => s as u32,
        };
        rows.push((codes[index] | d as u8, w));
    }
    rows
}

/// A jump's word: near, or onto a BEGIN or END, or anywhere it may land.
fn jump_word(random: &mut Random, codes: &[u8], index: usize) -> u32 {
    let targets = targets(codes, index);
    let is_edge = |target: &usize| matches!(codes[*target] >> 4, 6 | 7);
    let edges: Vec<usize> = targets.iter().copied().filter(is_edge).collect();
    let target = match random.below(4) {
        0 if !edges.is_empty() => random.pick(&edges),
        1 => random.pick(&targets),
        _ => targets[random.below(targets.len().min(4))],
    };
    (16 * target + random.below(8)) as u32
}

/// Where a jump may land; the RETURN or END ahead is always among them.
fn targets(codes: &[u8], index: usize) -> Vec<usize> {
    if is_inside(codes, index) {
        let ahead = codes[index..].iter().position(|byte| byte >> 4 == 7);
        let end = index + ahead.unwrap_or(0);
        return (index + 1..=end).collect();
    }
    let mut inside = false;
    let mut found = Vec::new();
    for (target, byte) in codes.iter().enumerate().skip(index + 1) {
        if !inside {
            found.push(target);
        }
        match byte >> 4 {
            6 => inside = true,
            7 => inside = false,
            _ => {}
        }
    }
    found
}
