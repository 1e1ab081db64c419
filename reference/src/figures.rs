//! How much a workflow will take (W-202): the most turns over all routes, and for each
//! partition the most rows over all routes.
//!
//! A route starts at the first instruction and ends at a RETURN. A jump goes either way,
//! whatever the registers hold. Jumps only lead ahead, so the most from an instruction on is
//! known once it is known of all that stand behind it: one walk from the end for each figure.

use crate::pack::{self, Operation, Workflow};
use crate::refusal::Refusal;
use crate::store::MOST_PARTITIONS;

/// Each figure may have its own route.
#[derive(Clone, Copy, Debug, Default, PartialEq, Eq)]
pub struct Figures {
    pub turns: u32,
    /// By partition, whatever the P of a store is.
    pub rows: [u32; MOST_PARTITIONS],
}

/// Questions 1 to 8 and 17, then the figures. A refusal has none.
pub fn figures(pack: &[u8], workflow: u32) -> Result<Figures, Refusal> {
    Ok(Figures::of(&pack::open(pack, workflow)?))
}

impl Figures {
    /// Of a workflow whose pack passed the check.
    pub fn of(workflow: &Workflow) -> Self {
        let stops = stops(workflow);
        let is_row_of = |partition: usize, stop: &Stop| stop.row_in == Some(partition as u32);
        Self {
            turns: most(&stops, |stop| stop.is_turn),
            rows: std::array::from_fn(|partition| most(&stops, |stop| is_row_of(partition, stop))),
        }
    }
}

/// What a route passes: one instruction, in a block or outside.
struct Stop {
    /// It stands outside, so it is a turn; at BEGIN the turn is the whole block.
    is_turn: bool,
    /// The partition in which passing it counts a row: a BEGIN for the log, or a PUT.
    row_in: Option<u32>,
    next: Next,
}

/// Where a route goes on.
enum Next {
    Nowhere,
    Ahead,
    Either(usize),
}

fn stops(workflow: &Workflow) -> Vec<Stop> {
    let mut partition = None;
    let mut stops = Vec::with_capacity(workflow.size());
    for index in 0..workflow.size() {
        let instruction = workflow.instruction(index).expect("a checked pack");
        let is_turn = partition.is_none();
        match instruction.operation {
            Operation::Begin => partition = Some(instruction.w),
            Operation::End => partition = None,
            _ => {}
        }
        let is_row = matches!(instruction.operation, Operation::Begin | Operation::Put);
        let next = match instruction.operation {
            Operation::Return => Next::Nowhere,
            Operation::Jlt | Operation::Jeq => Next::Either(instruction.target()),
            _ => Next::Ahead,
        };
        stops.push(Stop {
            is_turn,
            row_in: partition.filter(|_| is_row),
            next,
        });
    }
    stops
}

/// The most stops that count on a route from the first one.
fn most(stops: &[Stop], counts: impl Fn(&Stop) -> bool) -> u32 {
    let mut from = vec![0; stops.len()];
    for (index, stop) in stops.iter().enumerate().rev() {
        let rest = match stop.next {
            Next::Nowhere => 0,
            Next::Ahead => from[index + 1],
            Next::Either(target) => from[index + 1].max(from[target]),
        };
        from[index] = rest + u32::from(counts(stop));
    }
    from[0]
}
