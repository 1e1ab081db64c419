//! Seeded packs and schedules.
#![allow(dead_code)]

use wf::folder::Folder;
use wf::instruction::{Instruction, BEGIN, END, JEQ, JLT, PUT, RETURN};
use wf::pack::{self, Workflow};
use wf::schedule::{self, Event, Kind, Request, Schedule};
use wf::show;

/// A small generator of numbers (xorshift), so that a failing case comes again.
pub struct Random(u64);

impl Random {
    pub fn new(seed: u64) -> Random {
        Random(seed.wrapping_mul(0x9E37_79B9_7F4A_7C15) | 1)
    }

    pub fn below(&mut self, limit: usize) -> usize {
        self.0 ^= self.0 << 13;
        self.0 ^= self.0 >> 7;
        self.0 ^= self.0 << 17;
        ((self.0 >> 11) % limit as u64) as usize
    }

    /// Small numbers, the largest ones, and any.
    pub fn word(&mut self) -> u32 {
        match self.below(4) {
            0 => self.below(300) as u32,
            1 => u32::MAX - self.below(3) as u32,
            _ => self.below(1 << 32) as u32,
        }
    }

    fn register(&mut self) -> u8 {
        self.below(8) as u8
    }
}

pub fn right_pack(random: &mut Random) -> Vec<Workflow> {
    let count = 1 + random.below(4);
    (0..count).map(|_| sized(random)).collect()
}

fn sized(random: &mut Random) -> Workflow {
    let size = 1 + random.below(30);
    right_workflow(random, size)
}

/// A workflow of a size that the pack check accepts.
pub fn right_workflow(random: &mut Random, size: usize) -> Workflow {
    let mut workflow = Vec::new();
    let (mut inside, mut puts) = (false, 0);
    while workflow.len() + 1 < size {
        let left = size - 1 - workflow.len();
        // A block needs its END before the last instruction.
        let operation = match (inside, random.below(8)) {
            (true, 0) => END,
            (true, _) if left == 1 => END,
            (true, 1 | 2) if puts < 16 => PUT,
            (true, 3) => 8,
            (true, 4) => 10,
            (false, 0 | 1) if left > 1 => BEGIN,
            (false, 2) => RETURN,
            _ => random.below(6) as u8,
        };
        inside = (inside || operation == BEGIN) && operation != END;
        puts = if operation == BEGIN {
            0
        } else {
            puts + usize::from(operation == PUT)
        };
        workflow.push(instruction(random, operation));
    }
    workflow.push(Instruction::new(RETURN, random.register(), 0));
    for index in 0..size {
        aim(random, &mut workflow, index);
    }
    workflow
}

fn instruction(random: &mut Random, operation: u8) -> Instruction {
    match operation {
        0 => Instruction::new(0, random.register(), random.word()),
        BEGIN => Instruction::new(BEGIN, 0, random.below(8) as u32),
        END | RETURN => Instruction::new(operation, random.register(), 0),
        _ => Instruction::new(operation, random.register(), random.below(8) as u32),
    }
}

/// Gives a jump a target that the pack check accepts, or makes it a SET where there is none.
fn aim(random: &mut Random, workflow: &mut Workflow, index: usize) {
    if !workflow[index].is_jump() {
        return;
    }
    let right: Vec<usize> = (index + 1..workflow.len())
        .filter(|&target| lands(workflow, index, target))
        .collect();
    if right.is_empty() {
        workflow[index].byte &= 7;
        return;
    }
    workflow[index].word += 16 * right[random.below(right.len())] as u32;
}

fn lands(workflow: &Workflow, jump: usize, target: usize) -> bool {
    let inside = |index: usize| {
        let mut before = workflow[..index].iter().map(|before| before.operation());
        before.rfind(|&operation| operation == BEGIN || operation == END) == Some(BEGIN)
    };
    match inside(jump) {
        true => workflow[jump + 1..target]
            .iter()
            .all(|between| between.operation() != END),
        false => !inside(target),
    }
}

/// The bytes of a pack with up to two changes, most of them small.
pub fn damaged(random: &mut Random, workflows: &[Workflow]) -> Vec<u8> {
    let mut workflows = workflows.to_vec();
    let at = random.below(workflows.len());
    let workflow = &mut workflows[at];
    let index = random.below(workflow.len());
    match random.below(12) {
        0 => workflow[index].byte = random.below(256) as u8,
        1 => workflow[index].byte ^= 1 << random.below(8),
        2 => workflow[index].word ^= 1 << random.below(10),
        3 => workflow[index].word = random.word(),
        4 => drop(workflow.pop()),
        5 => workflow.swap(0, index),
        6 => workflow[index].byte = [JLT, JEQ][random.below(2)] << 4,
        7 => many_puts(random, workflow),
        8 => workflow.resize(257, Instruction::new(RETURN, 0, 0)),
        9 => workflows.resize(15 + random.below(3), vec![Instruction::new(RETURN, 0, 0)]),
        _ => {}
    }
    let mut bytes = pack::to_bytes(&workflows);
    if random.below(12) == 0 {
        damage(random, &mut bytes);
    }
    bytes
}

/// A block with about as many PUTs as it may have, in front.
fn many_puts(random: &mut Random, workflow: &mut Workflow) {
    let puts = 15 + random.below(4);
    let mut block = vec![Instruction::new(BEGIN, 0, 0)];
    block.extend((0..puts).map(|_| Instruction::new(PUT, 1, 2)));
    block.push(Instruction::new(END, 0, 0));
    block.push(Instruction::new(RETURN, 0, 0));
    *workflow = block;
}

/// A byte changed, left out or added.
pub fn damage(random: &mut Random, bytes: &mut Vec<u8>) {
    match random.below(8) {
        0 => drop(bytes.pop()),
        1 => bytes.push(0),
        2 => bytes.truncate(random.below(8)),
        3 => bytes[0] = random.below(256) as u8,
        4 => bytes[1] = random.below(8) as u8,
        5 | 6 => {
            let at = random.below(bytes.len());
            bytes[at] = random.below(256) as u8;
        }
        _ => {}
    }
}

const KINDS: [Kind; 5] = [
    Kind::Arrival,
    Kind::Turn,
    Kind::Crash,
    Kind::Retry,
    Kind::Restart,
];

/// Any right schedule: slots up to 15, restarts with a slot, requests with any numbers.
pub fn any_schedule(random: &mut Random) -> Schedule {
    let requests = [0, 1, 5, 64][random.below(4)];
    let events = [0, 1, 40, 1024][random.below(4)];
    let mut schedule = Schedule {
        partitions: 1 + random.below(8) as u8,
        rows: 5 + random.below(252) as u16,
        requests: (0..requests).map(|_| any_request(random)).collect(),
        events: Vec::new(),
    };
    while schedule.events.len() < events {
        let kind = KINDS[random.below(5)];
        if kind.names_request() && requests == 0 {
            continue;
        }
        let request = if kind.names_request() {
            random.below(requests) as u8
        } else {
            0
        };
        let event = Event {
            kind,
            slot: random.below(16) as u8,
            request,
        };
        let times = 1 + random.below(3);
        schedule.events.extend((0..times).map(|_| event));
    }
    schedule.events.truncate(events);
    schedule
}

fn any_request(random: &mut Random) -> Request {
    let workflow = if random.below(2) == 0 {
        random.below(4) as u32
    } else {
        random.word()
    };
    Request {
        id: random.word(),
        workflow,
        arguments: [random.word(), random.word(), 3, random.word()],
    }
}

/// A schedule whose calls are mostly accepted: few slots, many turns, requests of the pack's workflows.
pub fn lively_schedule(random: &mut Random, workflows: usize) -> Schedule {
    let count = 1 + random.below(200);
    Schedule {
        partitions: 8,
        rows: 20 + random.below(60) as u16,
        requests: (0..12)
            .map(|id| lively_request(random, id % 10, workflows))
            .collect(),
        events: (0..count).map(|_| lively_event(random, 12)).collect(),
    }
}

fn lively_request(random: &mut Random, id: u32, workflows: usize) -> Request {
    let workflow = random.below(workflows) as u32;
    Request {
        id,
        workflow,
        arguments: [1, 2, random.below(5) as u32, random.word()],
    }
}

pub fn lively_event(random: &mut Random, requests: usize) -> Event {
    let kind = match random.below(40) {
        0 => Kind::Restart,
        1 | 2 => Kind::Crash,
        3..=6 => Kind::Arrival,
        7..=9 => Kind::Retry,
        _ => Kind::Turn,
    };
    let request = if kind.names_request() {
        random.below(requests) as u8
    } else {
        0
    };
    let slot = if random.below(60) == 0 {
        random.below(16)
    } else {
        random.below(3)
    };
    Event {
        kind,
        slot: slot as u8,
        request,
    }
}

/// A pack and a lively schedule of it.
pub fn folder(random: &mut Random) -> Folder {
    let workflows = right_pack(random);
    let schedule = lively_schedule(random, workflows.len());
    Folder {
        pack: pack::to_bytes(&workflows),
        workflows: (0..workflows.len())
            .map(|number| format!("w{number}"))
            .collect(),
        requests: show::request_names(&schedule),
        schedule: schedule::to_bytes(&schedule),
        from_text: true,
    }
}
