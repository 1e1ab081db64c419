//! What the operations do, by document 01's table; GET of an absent key as W-206 has it.

use std::collections::BTreeMap;

use crate::pack::{Instruction, Operation, Workflow};

pub type Registers = [u32; 8];

/// Does one of SET, COPY, ADD, SUB, JLT, JEQ and answers with the next position.
/// Any other operation only lets the next instruction come.
pub fn do_one(instruction: Instruction, position: usize, registers: &mut Registers) -> usize {
    let d = instruction.d;
    let own = registers[d];
    let other = || registers[instruction.s()];
    let (value, goes) = match instruction.operation {
        Operation::Set => (instruction.w, false),
        Operation::Copy => (other(), false),
        Operation::Add => (own.wrapping_add(other()), false),
        Operation::Sub => (own.wrapping_sub(other()), false),
        Operation::Jlt => (own, own < other()),
        Operation::Jeq => (own, own == other()),
        _ => (own, false),
    };
    registers[d] = value;
    if goes {
        instruction.target()
    } else {
        position + 1
    }
}

/// What a block did: nothing of it stands in a table yet.
#[derive(Clone, Debug, PartialEq, Eq)]
pub struct BlockRun {
    pub result: u32,
    /// Each key that was PUT, with its last value.
    pub puts: BTreeMap<u32, u32>,
}

/// Runs the block that `begin` opens on a copy of the registers. `table` is the
/// partition as it stood before; GET and HAS see the block's own PUTs first.
pub fn run_block(
    workflow: &Workflow,
    begin: usize,
    mut registers: Registers,
    table: impl Fn(u32) -> Option<u32>,
) -> BlockRun {
    let mut puts = BTreeMap::new();
    let mut position = begin + 1;
    loop {
        let instruction = workflow.instruction(position).expect("a checked pack");
        let Instruction { operation, d, .. } = instruction;
        let s = instruction.s();
        let seen = |key: u32| puts.get(&key).copied().or_else(|| table(key));
        match operation {
            Operation::End => {
                let result = registers[d];
                return BlockRun { result, puts };
            }
            // An absent key leaves register d of the block's own copy as it was.
            Operation::Get => registers[d] = seen(registers[s]).unwrap_or(registers[d]),
            Operation::Has => registers[d] = u32::from(seen(registers[s]).is_some()),
            Operation::Put => {
                puts.insert(registers[d], registers[s]);
            }
            _ => {
                position = do_one(instruction, position, &mut registers);
                continue;
            }
        }
        position += 1;
    }
}
