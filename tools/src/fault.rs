//! What can be wrong with a text or a file, and how it is said.

use crate::questions::question;
use crate::scan::Word;
use std::fmt;

/// What a text could have had at a place where it has something else.
#[derive(Clone, Debug, PartialEq, Eq, Hash, PartialOrd, Ord)]
pub enum Expected {
    Heading,
    Name,
    NewWorkflow(usize),
    Operation,
    Register,
    Number,
    Label,
    LabelHere,
    NewLabel(usize),
    EndOfLine,
    Statement,
    Once(usize),
    Setting(&'static str),
    Keyword(&'static str),
    NewRequest(usize),
    KnownRequest,
    WorkflowNumber,
    WorkflowOfPack,
    Slot,
    Repeat,
    FileName,
}

impl fmt::Display for Expected {
    fn fmt(&self, out: &mut fmt::Formatter) -> fmt::Result {
        match self {
            Expected::NewWorkflow(line) => write!(
                out,
                "a name that no workflow above has (line {line} has it)"
            ),
            Expected::NewLabel(line) => write!(
                out,
                "a label that this workflow has once (line {line} has it)"
            ),
            Expected::NewRequest(line) => {
                write!(out, "a name that no request above has (line {line} has it)")
            }
            Expected::Once(line) => write!(out, "this line once (line {line} has it)"),
            Expected::Setting(word) => write!(out, "a line `{word} NUMBER`"),
            Expected::Keyword(word) => write!(out, "the word `{word}`"),
            plain => out.write_str(plain.words()),
        }
    }
}

impl Expected {
    fn words(&self) -> &'static str {
        match self {
            Expected::Heading => "a heading `workflow NAME`",
            Expected::Name => "a name (a letter, then letters, digits, _ or -)",
            Expected::Operation => {
                "an operation (SET COPY ADD SUB JLT JEQ BEGIN END GET PUT HAS RETURN), a label `NAME:` or a heading `workflow NAME`"
            }
            Expected::Register => "a register r0 to r7",
            Expected::Number => "a number 0 to 4294967295, decimal or 0x hexadecimal",
            Expected::Label => "the name of a label",
            Expected::LabelHere => "a label of this workflow",
            Expected::EndOfLine => "end of line",
            Expected::Statement => "partitions, rows, pack, request, arrival, turn, crash, retry or restart",
            Expected::KnownRequest => "the name of a request above",
            Expected::WorkflowNumber => "a workflow number (a name needs a line `pack FILE` above, or --pack FILE)",
            Expected::WorkflowOfPack => "a workflow number, or a workflow name of the pack text",
            Expected::Slot => "a slot 0 to 15",
            Expected::Repeat => "a repeat count 1 to 1024",
            Expected::FileName => "the name of a file",
            _ => "",
        }
    }
}

/// One no of the documents' questions, with what was found and expected.
#[derive(Clone, Debug, PartialEq, Eq)]
pub struct No {
    pub number: u32,
    pub workflow: usize,
    pub instruction: usize,
    pub found: String,
    pub expected: String,
}

impl No {
    /// A no that names no instruction.
    pub fn of(number: u32, found: String, expected: &str) -> No {
        No {
            number,
            workflow: 0,
            instruction: 0,
            found,
            expected: expected.to_string(),
        }
    }
}

impl fmt::Display for No {
    fn fmt(&self, out: &mut fmt::Formatter) -> fmt::Result {
        let words = question(self.number);
        write!(
            out,
            "refused {}: {words} Found {}, expected {}",
            self.number, self.found, self.expected
        )
    }
}

/// An error as it is printed.
#[derive(Clone, Debug, PartialEq, Eq)]
pub enum Fault {
    /// A text that is not of the form: file, place, what stands there.
    Text {
        file: String,
        place: Word,
        expected: Expected,
    },
    /// A text that the runtime would refuse: file, place, the no, and whose instruction it is.
    Refused {
        file: String,
        place: Word,
        no: No,
        whose: String,
    },
    /// Bytes that the runtime would refuse.
    Bytes { file: String, no: No },
    /// Anything about a file or a command as a whole.
    Whole { file: String, problem: String },
}

impl fmt::Display for Fault {
    fn fmt(&self, out: &mut fmt::Formatter) -> fmt::Result {
        match self {
            Fault::Text {
                file,
                place,
                expected,
            } => {
                write!(
                    out,
                    "{file}:{}:{}: found {}, expected {expected}",
                    place.line, place.column, place.text
                )
            }
            Fault::Refused {
                file,
                place,
                no,
                whose,
            } => {
                write!(out, "{file}:{}:{}: {no}{whose}", place.line, place.column)
            }
            Fault::Bytes { file, no } if (4..=8).contains(&no.number) => {
                write!(
                    out,
                    "{file}: workflow {} instruction {}: {no}",
                    no.workflow, no.instruction
                )
            }
            Fault::Bytes { file, no } => write!(out, "{file}: {no}"),
            Fault::Whole { file, problem } => write!(out, "{file}: {problem}"),
        }
    }
}

/// What a right text asks for and the runtime will refuse when it runs: no fault, since a schedule may have refusals.
#[derive(Clone, Debug, PartialEq, Eq)]
pub struct Warning {
    pub file: String,
    pub place: Word,
    pub no: No,
    pub whose: String,
}

impl fmt::Display for Warning {
    fn fmt(&self, out: &mut fmt::Formatter) -> fmt::Result {
        let Warning {
            file,
            place,
            no,
            whose,
        } = self;
        write!(
            out,
            "{file}:{}:{}: warning: {no}{whose}",
            place.line, place.column
        )
    }
}

/// A fault about a file as a whole.
pub fn whole(file: &str, problem: &str) -> Fault {
    Fault::Whole {
        file: file.to_string(),
        problem: problem.to_string(),
    }
}
