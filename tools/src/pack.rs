//! A pack: its bytes, and questions 1 to 8 with every no they meet.

use crate::fault::No;
use crate::instruction::{Form, Instruction, Side, BEGIN, END, PUT, RETURN};

/// The instructions of one workflow.
pub type Workflow = Vec<Instruction>;

pub const MOST_WORKFLOWS: usize = 16;
pub const MOST_INSTRUCTIONS: usize = 256;
pub const MOST_TOGETHER: usize = 2048;
const MOST_PUTS: usize = 16;

/// The bytes of a pack whose count and sizes are in range.
pub fn to_bytes(workflows: &[Workflow]) -> Vec<u8> {
    let mut bytes = vec![workflows.len() as u8];
    for workflow in workflows {
        bytes.extend((workflow.len() as u16).to_le_bytes());
    }
    bytes.extend(
        workflows
            .iter()
            .flatten()
            .map(|instruction| instruction.byte),
    );
    bytes.extend(
        workflows
            .iter()
            .flatten()
            .flat_map(|instruction| instruction.word.to_le_bytes()),
    );
    bytes
}

/// The workflows of an accepted pack, or all noes, the pack check's own answer first.
pub fn accepted(bytes: &[u8]) -> Result<Vec<Workflow>, Vec<No>> {
    let workflows = from_bytes(bytes).map_err(|no| vec![no])?;
    let noes = noes(&workflows);
    if noes.is_empty() {
        Ok(workflows)
    } else {
        Err(noes)
    }
}

/// Questions 1 to 3, put to bytes.
fn from_bytes(bytes: &[u8]) -> Result<Vec<Workflow>, No> {
    let Some(&count) = bytes.first() else {
        return Err(No::of(1, "no bytes".to_string(), "a count"));
    };
    let count = count as usize;
    if let Some(no) = count_no(count) {
        return Err(no);
    }
    let Some(sizes) = bytes.get(1..1 + 2 * count) else {
        return Err(No::of(
            2,
            format!("{} bytes", bytes.len()),
            "a size of two bytes for each workflow",
        ));
    };
    let sizes: Vec<usize> = sizes
        .chunks(2)
        .map(|two| u16::from_le_bytes([two[0], two[1]]) as usize)
        .collect();
    if let Some(no) = size_noes(&sizes).into_iter().next() {
        return Err(no);
    }
    let total: usize = sizes.iter().sum();
    let length = 1 + 2 * count + 5 * total;
    if bytes.len() != length {
        return Err(No::of(
            3,
            format!("{} bytes", bytes.len()),
            &format!("{length} bytes"),
        ));
    }
    Ok(split(&bytes[1 + 2 * count..], &sizes, total))
}

fn split(arrays: &[u8], sizes: &[usize], total: usize) -> Vec<Workflow> {
    let (operations, words) = arrays.split_at(total);
    let mut all = operations.iter().zip(words.chunks(4)).map(|(&byte, four)| {
        let word = u32::from_le_bytes([four[0], four[1], four[2], four[3]]);
        Instruction { byte, word }
    });
    sizes
        .iter()
        .map(|&size| all.by_ref().take(size).collect())
        .collect()
}

/// Every no of questions 1, 2 and 4 to 8, in the order of the questions.
pub fn noes(workflows: &[Workflow]) -> Vec<No> {
    let sizes: Vec<usize> = workflows.iter().map(Vec::len).collect();
    let mut found: Vec<No> = count_no(workflows.len()).into_iter().collect();
    found.extend(size_noes(&sizes));
    for (number, workflow) in workflows.iter().enumerate() {
        found.extend(workflow_noes(number, workflow));
    }
    found
}

fn count_no(count: usize) -> Option<No> {
    if (1..=MOST_WORKFLOWS).contains(&count) {
        return None;
    }
    let mut no = No::of(1, format!("{count} workflows"), "1 to 16");
    // The place is the first workflow too many.
    no.workflow = if count == 0 { 0 } else { MOST_WORKFLOWS };
    Some(no)
}

/// Question 2: each size, and the sum where it first passes its bound.
fn size_noes(sizes: &[usize]) -> Vec<No> {
    let mut found = Vec::new();
    let mut sum = 0;
    for (workflow, &size) in sizes.iter().enumerate() {
        if !(1..=MOST_INSTRUCTIONS).contains(&size) {
            let no = No::of(2, format!("a size of {size}"), "1 to 256");
            let instruction = if size == 0 { 0 } else { MOST_INSTRUCTIONS };
            found.push(No {
                workflow,
                instruction,
                ..no
            });
        }
        if sum <= MOST_TOGETHER && sum + size > MOST_TOGETHER {
            let no = No::of(
                2,
                format!("a sum of {} up to here", sum + size),
                "at most 2,048",
            );
            found.push(No {
                workflow,
                instruction: MOST_TOGETHER - sum,
                ..no
            });
        }
        sum += size;
    }
    found
}

/// Questions 4 to 8 of one workflow; an instruction is named with its first no only.
fn workflow_noes(number: usize, workflow: &Workflow) -> Vec<No> {
    let mut found = Vec::new();
    let at = |instruction: usize, no: No| No {
        workflow: number,
        instruction,
        ..no
    };
    for (index, &instruction) in workflow.iter().enumerate() {
        let no = operation_no(instruction)
            .or_else(|| range_no(workflow, index, instruction))
            .or_else(|| side_no(workflow, index, instruction))
            .or_else(|| put_no(workflow, index, instruction));
        found.extend(no.map(|no| at(index, no)));
    }
    if let Some(last) = workflow.last().filter(|last| last.operation() != RETURN) {
        let no = No::of(
            8,
            format!("{} as the last instruction", last.name()),
            "RETURN",
        );
        found.push(at(workflow.len() - 1, no));
    }
    found
}

/// Question 4.
fn operation_no(instruction: Instruction) -> Option<No> {
    match instruction.row() {
        Some(_) => None,
        None => Some(No::of(
            4,
            instruction.name(),
            "operation 0 to B in the high four bits and bit 3 clear",
        )),
    }
}

/// Question 5.
fn range_no(workflow: &Workflow, index: usize, instruction: Instruction) -> Option<No> {
    let word = instruction.word;
    let no = |found: String, expected: &str| Some(No::of(5, found, expected));
    match instruction.row()?.form {
        Form::RegisterNumber => None,
        Form::RegisterRegister if word > 7 => no(format!("s {word}"), "s 0 to 7"),
        Form::RegisterRegisterLabel => jump_no(workflow, index, instruction),
        Form::Number if word > 7 => no(format!("partition {word}"), "partition 0 to 7"),
        Form::Number if instruction.register() != 0 => {
            no(format!("d {}", instruction.register()), "d 0")
        }
        Form::Register if word != 0 => no(format!("w {word}"), "w 0"),
        _ => None,
    }
}

fn jump_no(workflow: &Workflow, index: usize, jump: Instruction) -> Option<No> {
    let target = jump.target();
    if jump.jump_source() > 7 {
        return Some(No::of(5, format!("s {}", jump.jump_source()), "s 0 to 7"));
    }
    if target > index && target < workflow.len() {
        return None;
    }
    let expected = format!("a target greater than {index} and below {}", workflow.len());
    Some(No::of(5, format!("target {target}"), &expected))
}

/// Whether the instruction at an index is inside a block: the last BEGIN or END before it is a BEGIN.
fn inside(workflow: &Workflow, index: usize) -> bool {
    let bounds = workflow[..index]
        .iter()
        .rev()
        .map(|before| before.operation());
    bounds
        .into_iter()
        .find(|&operation| operation == BEGIN || operation == END)
        == Some(BEGIN)
}

/// Question 6.
fn side_no(workflow: &Workflow, index: usize, instruction: Instruction) -> Option<No> {
    let inside_here = inside(workflow, index);
    let name = instruction.name();
    match instruction.row()?.side {
        Side::Inside if !inside_here => {
            return Some(No::of(
                6,
                format!("{name} outside a block"),
                "it inside a block",
            ))
        }
        Side::Outside if inside_here => {
            return Some(No::of(
                6,
                format!("{name} inside a block"),
                "it outside a block",
            ))
        }
        _ => {}
    }
    if !instruction.is_jump() {
        return None;
    }
    let target = instruction.target();
    if !inside_here && inside(workflow, target) {
        let found = format!("a jump from outside to instruction {target} inside a block");
        return Some(No::of(6, found, "a target outside"));
    }
    let passes = |between: &Instruction| between.operation() == END;
    if inside_here && workflow[index + 1..target].iter().any(passes) {
        let found = format!("a jump from inside that passes an END before instruction {target}");
        return Some(No::of(6, found, "a target up to the block's END"));
    }
    None
}

/// Question 7.
fn put_no(workflow: &Workflow, index: usize, instruction: Instruction) -> Option<No> {
    if instruction.operation() != PUT {
        return None;
    }
    let block = workflow[..index]
        .iter()
        .rev()
        .take_while(|before| before.operation() != BEGIN);
    let puts = 1 + block.filter(|before| before.operation() == PUT).count();
    if puts <= MOST_PUTS {
        return None;
    }
    Some(No::of(
        7,
        format!("PUT number {puts} of its block"),
        "at most 16",
    ))
}
