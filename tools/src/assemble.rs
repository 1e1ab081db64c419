//! The text form of workflows, read.

use crate::fault::{Expected, Fault, No};
use crate::instruction::{operation_named, Form, Instruction, OPERATIONS};
use crate::pack::{self, Workflow};
use crate::scan::{self, Line, Word};
use crate::words::{Missing, Words};

/// A pack text that the pack check accepts.
#[derive(Clone, Debug)]
pub struct Assembled {
    pub names: Vec<String>,
    pub workflows: Vec<Workflow>,
}

impl Assembled {
    pub fn bytes(&self) -> Vec<u8> {
        pack::to_bytes(&self.workflows)
    }
}

/// A workflow while it is read: a jump's target is known only at its end.
struct Draft {
    name: Word,
    places: Vec<Word>,
    instructions: Workflow,
    labels: Vec<(Word, usize)>,
    jumps: Vec<(usize, Word)>,
}

impl Draft {
    /// A label's line, and the index of the instruction behind it.
    fn label(&self, name: &str) -> Option<(usize, usize)> {
        let found = self.labels.iter().find(|(label, _)| label.text == name);
        found.map(|(label, index)| (label.line, *index))
    }
}

/// Reads a whole text; all faults of the form are listed, and if there are none, all noes of the pack check.
pub fn assemble(file: &str, text: &str) -> Result<Assembled, Vec<Fault>> {
    let (lines, _) = scan::lines(text);
    let mut reader = Reader {
        file,
        drafts: Vec::new(),
        faults: Vec::new(),
    };
    for line in &lines {
        if let Err((place, expected)) = reader.line(line) {
            reader.fault(place, expected);
        }
    }
    reader.join_jumps();
    if !reader.faults.is_empty() {
        return Err(reader.faults);
    }
    reader.checked()
}

struct Reader<'a> {
    file: &'a str,
    drafts: Vec<Draft>,
    faults: Vec<Fault>,
}

impl Reader<'_> {
    fn fault(&mut self, place: Word, expected: Expected) {
        self.faults.push(Fault::Text {
            file: self.file.to_string(),
            place,
            expected,
        });
    }

    fn line(&mut self, line: &Line) -> Result<(), Missing> {
        let mut words = Words::of(line);
        if words.peek().text == "workflow" {
            // A faulty heading still opens a workflow, so that the lines below it are not faults too.
            self.open(words.take());
            let name = words.name()?;
            words.end()?;
            return self.heading(name);
        }
        if self.drafts.is_empty() {
            let first = words.take();
            self.open(first.clone());
            return Err((first, Expected::Heading));
        }
        while words.peek().text.ends_with(':') {
            let label = words.take();
            self.label(label)?;
        }
        if words.at_end() {
            return Ok(());
        }
        self.instruction(words)
    }

    /// A workflow whose name is still to come.
    fn open(&mut self, mut name: Word) {
        name.text.clear();
        self.drafts.push(Draft {
            name,
            places: Vec::new(),
            instructions: Vec::new(),
            labels: Vec::new(),
            jumps: Vec::new(),
        });
    }

    /// Names the workflow that was opened last.
    fn heading(&mut self, name: Word) -> Result<(), Missing> {
        let named = |draft: &&Draft| draft.name.text == name.text;
        if let Some(twin) = self.drafts.iter().find(named) {
            let line = twin.name.line;
            return Err((name, Expected::NewWorkflow(line)));
        }
        if let Some(draft) = self.drafts.last_mut() {
            draft.name = name;
        }
        Ok(())
    }

    fn label(&mut self, mut label: Word) -> Result<(), Missing> {
        let name = label.text.trim_end_matches(':').to_string();
        if label.text.len() != name.len() + 1 || !scan::is_name(&name) {
            return Err((label, Expected::Name));
        }
        label.text = name;
        let Some(draft) = self.drafts.last_mut() else {
            return Err((label, Expected::Heading));
        };
        if let Some((line, _)) = draft.label(&label.text) {
            return Err((label, Expected::NewLabel(line)));
        }
        draft.labels.push((label, draft.instructions.len()));
        Ok(())
    }

    fn instruction(&mut self, mut words: Words) -> Result<(), Missing> {
        let place = words.take();
        let Some(draft) = self.drafts.last_mut() else {
            return Err((place, Expected::Heading));
        };
        let Some(operation) = operation_named(&place.text) else {
            return Err((place, Expected::Operation));
        };
        let (register, word, label) = operands(OPERATIONS[operation as usize].form, &mut words)?;
        words.end()?;
        if let Some(label) = label {
            draft.jumps.push((draft.instructions.len(), label));
        }
        draft.places.push(place);
        draft
            .instructions
            .push(Instruction::new(operation, register, word));
        Ok(())
    }

    /// Puts each label's index into the jumps that name it.
    fn join_jumps(&mut self) {
        let mut missing = Vec::new();
        for draft in &mut self.drafts {
            for (index, label) in &draft.jumps {
                match draft.label(&label.text) {
                    Some((_, target)) => draft.instructions[*index].word += 16 * target as u32,
                    None => missing.push(label.clone()),
                }
            }
        }
        for label in missing {
            self.fault(label, Expected::LabelHere);
        }
        let place = |fault: &Fault| match fault {
            Fault::Text { place, .. } => (place.line, place.column),
            _ => (0, 0),
        };
        self.faults.sort_by_key(place);
    }

    fn checked(self) -> Result<Assembled, Vec<Fault>> {
        let workflows: Vec<Workflow> = self
            .drafts
            .iter()
            .map(|draft| draft.instructions.clone())
            .collect();
        let noes = pack::noes(&workflows);
        if noes.is_empty() {
            let names = self
                .drafts
                .into_iter()
                .map(|draft| draft.name.text)
                .collect();
            return Ok(Assembled { names, workflows });
        }
        Err(noes.into_iter().map(|no| self.refused(no)).collect())
    }

    /// A no with the line it stands on: its instruction, else its heading, else the top.
    fn refused(&self, no: No) -> Fault {
        let top = Word {
            text: String::new(),
            line: 1,
            column: 1,
        };
        let draft = self.drafts.get(no.workflow);
        let place = match draft {
            Some(draft) if no.number > 1 => draft
                .places
                .get(no.instruction)
                .unwrap_or(&draft.name)
                .clone(),
            Some(draft) => draft.name.clone(),
            None => top,
        };
        let whose = match draft {
            Some(draft) if no.number > 3 => format!(
                " (workflow {}, instruction {})",
                draft.name.text, no.instruction
            ),
            Some(draft) => format!(" (workflow {})", draft.name.text),
            None => String::new(),
        };
        Fault::Refused {
            file: self.file.to_string(),
            place,
            no,
            whose,
        }
    }
}

type Operands = (u8, u32, Option<Word>);

fn operands(form: Form, words: &mut Words) -> Result<Operands, Missing> {
    Ok(match form {
        Form::RegisterNumber => (words.register()?, words.number()?, None),
        Form::RegisterRegister => (words.register()?, words.register()? as u32, None),
        Form::RegisterRegisterLabel => (
            words.register()?,
            words.register()? as u32,
            Some(words.label()?),
        ),
        Form::Number => (0, words.number()?, None),
        Form::Register => (words.register()?, 0, None),
    })
}
