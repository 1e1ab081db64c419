//! The text form of workflows, written.

use crate::instruction::{Form, Instruction};
use crate::pack::Workflow;
use std::collections::BTreeSet;
use std::fmt::Write;

/// Names for workflows that come from bytes: w0, w1 and so on.
pub fn workflow_names(count: usize) -> Vec<String> {
    (0..count).map(|number| format!("w{number}")).collect()
}

/// The text of an accepted pack.
pub fn disassemble(workflows: &[Workflow]) -> String {
    let names = workflow_names(workflows.len());
    let mut text = String::new();
    for (name, workflow) in names.iter().zip(workflows) {
        if !text.is_empty() {
            text.push('\n');
        }
        let _ = writeln!(text, "workflow {name}");
        write_workflow(&mut text, workflow);
    }
    text
}

fn write_workflow(text: &mut String, workflow: &Workflow) {
    let jumps = workflow.iter().filter(|instruction| instruction.is_jump());
    let targets: BTreeSet<usize> = jumps.map(|jump| jump.target()).collect();
    let mut inside = false;
    for (index, instruction) in workflow.iter().enumerate() {
        if targets.contains(&index) {
            let _ = writeln!(text, "L{index}:");
        }
        let line = instruction_text(*instruction);
        inside &= !line.starts_with("END");
        let indent = if inside { "        " } else { "    " };
        let _ = writeln!(text, "{indent}{line}");
        inside |= line.starts_with("BEGIN");
    }
}

fn instruction_text(instruction: Instruction) -> String {
    let name = instruction.name();
    let (register, word) = (instruction.register(), instruction.word);
    match instruction.row().map(|row| row.form) {
        Some(Form::RegisterNumber) => format!("{name} r{register} {word}"),
        Some(Form::RegisterRegister) => format!("{name} r{register} r{word}"),
        Some(Form::RegisterRegisterLabel) => {
            format!(
                "{name} r{register} r{} L{}",
                instruction.jump_source(),
                instruction.target()
            )
        }
        Some(Form::Number) => format!("{name} {word}"),
        Some(Form::Register) => format!("{name} r{register}"),
        None => name,
    }
}
