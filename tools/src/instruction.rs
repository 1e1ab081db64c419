//! Instructions and the table of operations.

/// What stands behind an operation's name in the text.
#[derive(Clone, Copy, Debug, PartialEq, Eq)]
pub enum Form {
    /// `SET r5 30`
    RegisterNumber,
    /// `COPY r4 r0`
    RegisterRegister,
    /// `JLT r1 r2 done`
    RegisterRegisterLabel,
    /// `BEGIN 0`
    Number,
    /// `END r5`
    Register,
}

/// Where an operation may stand.
#[derive(Clone, Copy, Debug, PartialEq, Eq)]
pub enum Side {
    Inside,
    Outside,
    Anywhere,
}

/// A row of the table of operations.
#[derive(Clone, Copy, Debug)]
pub struct Operation {
    pub name: &'static str,
    pub form: Form,
    pub side: Side,
    /// What it does, in the words of the documents: d and s are what these registers hold.
    pub does: &'static str,
}

pub const JLT: u8 = 4;
pub const JEQ: u8 = 5;
pub const BEGIN: u8 = 6;
pub const END: u8 = 7;
pub const PUT: u8 = 9;
pub const RETURN: u8 = 11;

const fn row(name: &'static str, form: Form, side: Side, does: &'static str) -> Operation {
    Operation {
        name,
        form,
        side,
        does,
    }
}

/// The operations 0 to B in their order: document 01's table, GET as W-206 has it.
pub const OPERATIONS: [Operation; 12] = [
    row("SET", Form::RegisterNumber, Side::Anywhere, "d becomes w"),
    row(
        "COPY",
        Form::RegisterRegister,
        Side::Anywhere,
        "d becomes s",
    ),
    row(
        "ADD",
        Form::RegisterRegister,
        Side::Anywhere,
        "d becomes d + s, its remainder by 2^32",
    ),
    row(
        "SUB",
        Form::RegisterRegister,
        Side::Anywhere,
        "d becomes d − s, its remainder by 2^32",
    ),
    row(
        "JLT",
        Form::RegisterRegisterLabel,
        Side::Anywhere,
        "if d < s, goes to the target",
    ),
    row(
        "JEQ",
        Form::RegisterRegisterLabel,
        Side::Anywhere,
        "if d = s, goes to the target",
    ),
    row(
        "BEGIN",
        Form::Number,
        Side::Outside,
        "opens a block in partition w",
    ),
    row("END", Form::Register, Side::Inside, "closes it, result d"),
    row(
        "GET",
        Form::RegisterRegister,
        Side::Inside,
        "d becomes the value at key s; if the key is absent, d stays as it was",
    ),
    row(
        "PUT",
        Form::RegisterRegister,
        Side::Inside,
        "the value at key d becomes s",
    ),
    row(
        "HAS",
        Form::RegisterRegister,
        Side::Inside,
        "d becomes 1 if key s is present, else 0",
    ),
    row("RETURN", Form::Register, Side::Outside, "the reply is d"),
];

/// The number of an operation by its name.
pub fn operation_named(name: &str) -> Option<u8> {
    OPERATIONS
        .iter()
        .position(|operation| operation.name == name)
        .map(|at| at as u8)
}

/// An operation byte and its operand word.
#[derive(Clone, Copy, Debug, PartialEq, Eq)]
pub struct Instruction {
    pub byte: u8,
    pub word: u32,
}

impl Instruction {
    pub fn new(operation: u8, register: u8, word: u32) -> Instruction {
        Instruction {
            byte: operation << 4 | register,
            word,
        }
    }

    /// The high four bits.
    pub fn operation(self) -> u8 {
        self.byte >> 4
    }

    /// The register d.
    pub fn register(self) -> u8 {
        self.byte & 7
    }

    pub fn is_jump(self) -> bool {
        matches!(self.operation(), JLT | JEQ)
    }

    /// The target of a jump.
    pub fn target(self) -> usize {
        (self.word >> 4) as usize
    }

    /// The register s of a jump.
    pub fn jump_source(self) -> u32 {
        self.word & 15
    }

    /// Its row in the table of operations, if the byte is a right one.
    pub fn row(self) -> Option<&'static Operation> {
        let row = OPERATIONS.get(self.operation() as usize);
        row.filter(|_| self.byte & 8 == 0)
    }

    /// The operation's name, or its byte where it has none.
    pub fn name(self) -> String {
        match self.row() {
            Some(row) => row.name.to_string(),
            None => format!("operation byte {:02X}", self.byte),
        }
    }
}
