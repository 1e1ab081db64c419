//! The pack of workflows: layout, check (questions 1 to 8) and opening (17).

use crate::bytes::{u16_at, u32_at};
use crate::refusal::{ask, Refusal};

pub const MOST_WORKFLOWS: usize = 16;
pub const MOST_SIZE: usize = 256;
pub const MOST_INSTRUCTIONS: usize = 2_048;
pub const MOST_PUTS: usize = 16;

const BEGIN: u8 = 6;
const END: u8 = 7;

#[derive(Clone, Copy, Debug, PartialEq, Eq, Hash)]
pub enum Operation {
    Set,
    Copy,
    Add,
    Sub,
    Jlt,
    Jeq,
    Begin,
    End,
    Get,
    Put,
    Has,
    Return,
}

impl Operation {
    /// In the order of their codes.
    pub const ALL: [Self; 12] = [
        Self::Set,
        Self::Copy,
        Self::Add,
        Self::Sub,
        Self::Jlt,
        Self::Jeq,
        Self::Begin,
        Self::End,
        Self::Get,
        Self::Put,
        Self::Has,
        Self::Return,
    ];

    pub fn of_code(code: u8) -> Option<Self> {
        Self::ALL.get(usize::from(code)).copied()
    }

    pub fn code(self) -> u8 {
        self as u8
    }

    pub fn name(self) -> &'static str {
        match self {
            Self::Set => "SET",
            Self::Copy => "COPY",
            Self::Add => "ADD",
            Self::Sub => "SUB",
            Self::Jlt => "JLT",
            Self::Jeq => "JEQ",
            Self::Begin => "BEGIN",
            Self::End => "END",
            Self::Get => "GET",
            Self::Put => "PUT",
            Self::Has => "HAS",
            Self::Return => "RETURN",
        }
    }

    pub fn is_jump(self) -> bool {
        matches!(self, Self::Jlt | Self::Jeq)
    }

    /// Whether it may stand inside a block (`true`) or outside (`false`).
    fn may_stand(self, inside: bool) -> bool {
        match self {
            Self::Get | Self::Put | Self::Has | Self::End => inside,
            Self::Begin | Self::Return => !inside,
            _ => true,
        }
    }
}

#[derive(Clone, Copy, Debug, PartialEq, Eq)]
pub struct Instruction {
    pub operation: Operation,
    pub d: usize,
    pub w: u32,
}

impl Instruction {
    /// Splits an operation byte; `None` is the no to question 4.
    pub fn read(byte: u8, w: u32) -> Option<Self> {
        if byte & 8 != 0 {
            return None;
        }
        let operation = Operation::of_code(byte >> 4)?;
        let d = usize::from(byte & 7);
        Some(Self { operation, d, w })
    }

    pub fn byte(&self) -> u8 {
        self.operation.code() << 4 | self.d as u8
    }

    /// The register s: a jump packs it below the target, the others have nothing else.
    pub fn s(&self) -> usize {
        if self.operation.is_jump() {
            (self.w & 15) as usize
        } else {
            self.w as usize
        }
    }

    pub fn target(&self) -> usize {
        (self.w >> 4) as usize
    }

    /// Question 5.
    fn is_in_range(&self, index: usize, size: usize) -> bool {
        match self.operation {
            Operation::Set => true,
            Operation::Jlt | Operation::Jeq => {
                self.s() <= 7 && self.target() > index && self.target() < size
            }
            Operation::Begin => self.w <= 7 && self.d == 0,
            Operation::End | Operation::Return => self.w == 0,
            _ => self.w <= 7,
        }
    }
}

/// Whether `position` is inside a block. Only the high four bits of the bytes before
/// it are looked at: whether those bytes are right is asked when their turn comes.
pub fn is_inside(operations: &[u8], position: usize) -> bool {
    let mut before = operations[..position].iter().rev().map(|byte| byte >> 4);
    before.find(|code| matches!(*code, BEGIN | END)) == Some(BEGIN)
}

/// One workflow's own parts of the lent pack.
#[derive(Clone, Copy, Debug, PartialEq, Eq)]
pub struct Workflow<'a> {
    pub operations: &'a [u8],
    pub operands: &'a [u8],
}

impl<'a> Workflow<'a> {
    pub fn size(&self) -> usize {
        self.operations.len()
    }

    /// `None` is the no to question 4.
    pub fn instruction(&self, index: usize) -> Option<Instruction> {
        Instruction::read(self.operations[index], u32_at(self.operands, 4 * index))
    }

    pub fn is_inside(&self, position: usize) -> bool {
        is_inside(self.operations, position)
    }

    /// The position behind the END of the block that `begin` opens.
    pub fn behind_block(&self, begin: usize) -> usize {
        let ahead = &self.operations[begin..];
        let end = ahead.iter().position(|byte| byte >> 4 == END);
        begin + end.expect("a checked block has an END") + 1
    }

    /// Questions 4 to 8; a no comes with the instruction's index.
    fn check(&self) -> Result<(), (u8, usize)> {
        let mut walk = Walk {
            workflow: *self,
            inside: false,
            puts: 0,
        };
        for index in 0..self.size() {
            walk.visit(index).map_err(|question| (question, index))?;
        }
        let last = self.size() - 1;
        match self.operations[last] >> 4 == Operation::Return.code() {
            true => Ok(()),
            false => Err((8, last)),
        }
    }
}

/// What the check knows when it comes to an instruction.
struct Walk<'a> {
    workflow: Workflow<'a>,
    inside: bool,
    puts: usize,
}

impl Walk<'_> {
    /// Questions 4 to 7.
    fn visit(&mut self, index: usize) -> Result<(), u8> {
        let instruction = self.workflow.instruction(index).ok_or(4)?;
        if !instruction.is_in_range(index, self.workflow.size()) {
            return Err(5);
        }
        if !instruction.operation.may_stand(self.inside) || !self.lands_right(instruction, index) {
            return Err(6);
        }
        self.pass(instruction.operation);
        match self.puts <= MOST_PUTS {
            true => Ok(()),
            false => Err(7),
        }
    }

    fn lands_right(&self, instruction: Instruction, index: usize) -> bool {
        if !instruction.operation.is_jump() {
            return true;
        }
        let target = instruction.target();
        if self.inside {
            let mut passed = self.workflow.operations[index + 1..target].iter();
            !passed.any(|byte| byte >> 4 == END)
        } else {
            !self.workflow.is_inside(target)
        }
    }

    fn pass(&mut self, operation: Operation) {
        match operation {
            Operation::Begin => {
                self.inside = true;
                self.puts = 0;
            }
            Operation::End => self.inside = false,
            Operation::Put => self.puts += 1,
            _ => {}
        }
    }
}

/// A pack that passed questions 1 to 8, cut into its workflows.
#[derive(Clone, Debug, PartialEq, Eq)]
pub struct Pack<'a> {
    workflows: Vec<Workflow<'a>>,
}

impl<'a> Pack<'a> {
    /// Questions 1 to 8. Workflow by workflow: 8 of one comes before 4 of the next.
    pub fn read(bytes: &'a [u8]) -> Result<Self, Refusal> {
        let pack = Self::cut(bytes, &sizes(bytes)?);
        for (number, workflow) in pack.workflows.iter().enumerate() {
            workflow
                .check()
                .map_err(|(question, index)| Refusal::at(question, number, index))?;
        }
        Ok(pack)
    }

    /// The parts of each workflow, from bytes whose length is known to be right.
    fn cut(bytes: &'a [u8], sizes: &[usize]) -> Self {
        let total: usize = sizes.iter().sum();
        let (operations, operands) = bytes[1 + 2 * sizes.len()..].split_at(total);
        let mut start = 0;
        let mut workflows = Vec::with_capacity(sizes.len());
        for size in sizes {
            let end = start + size;
            workflows.push(Workflow {
                operations: &operations[start..end],
                operands: &operands[4 * start..4 * end],
            });
            start = end;
        }
        Self { workflows }
    }

    pub fn workflows(&self) -> &[Workflow<'a>] {
        &self.workflows
    }

    /// The workflow of that number, compared whole.
    pub fn workflow(&self, number: u32) -> Option<Workflow<'a>> {
        self.workflows.get(number as usize).copied()
    }

    /// Every instruction of every workflow.
    pub fn instructions(&self) -> impl Iterator<Item = Instruction> + '_ {
        self.workflows
            .iter()
            .flat_map(|workflow| (0..workflow.size()).filter_map(|i| workflow.instruction(i)))
    }
}

/// Questions 1 to 3: the sizes of a pack whose length is right.
fn sizes(bytes: &[u8]) -> Result<Vec<usize>, Refusal> {
    let count = bytes.first().map_or(0, |count| usize::from(*count));
    ask(1, (1..=MOST_WORKFLOWS).contains(&count))?;
    let pairs = bytes[1..].chunks_exact(2).take(count);
    let sizes: Vec<usize> = pairs.map(|pair| usize::from(u16_at(pair, 0))).collect();
    let total: usize = sizes.iter().sum();
    let each_in_range = sizes.iter().all(|size| (1..=MOST_SIZE).contains(size));
    ask(
        2,
        sizes.len() == count && each_in_range && total <= MOST_INSTRUCTIONS,
    )?;
    ask(3, bytes.len() == 1 + 2 * count + 5 * total)?;
    Ok(sizes)
}

/// The pack check: questions 1 to 8.
pub fn check(pack: &[u8]) -> Result<(), Refusal> {
    Pack::read(pack).map(|_| ())
}

/// Opening: questions 1 to 8 and 17. A refusal has no parts, so they count as empty.
pub fn open(pack: &[u8], workflow: u32) -> Result<Workflow<'_>, Refusal> {
    Pack::read(pack)?.workflow(workflow).ok_or(Refusal::of(17))
}

/// The bytes of a pack; each workflow is a row of operation bytes with their words.
/// Nothing is asked, so that packs which are not right can be written too.
pub fn encode(workflows: &[Vec<(u8, u32)>]) -> Vec<u8> {
    let mut bytes = vec![workflows.len() as u8];
    for workflow in workflows {
        bytes.extend((workflow.len() as u16).to_le_bytes());
    }
    bytes.extend(workflows.iter().flatten().map(|(byte, _)| byte));
    for (_, word) in workflows.iter().flatten() {
        bytes.extend(word.to_le_bytes());
    }
    bytes
}
