//! The questions of documents 01 and 02 and the first one that is answered with no.

/// The first no: its number and, with questions 4 to 8, where it was put.
#[derive(Clone, Copy, Debug, PartialEq, Eq, PartialOrd, Ord, Hash)]
pub struct Refusal {
    pub question: u8,
    pub workflow: usize,
    pub instruction: usize,
}

/// The questions in the documents' words, by number and not in the order in which they are
/// put: 24 and then 30 are asked between 16 and 17, and 25 to 29 come after 14. Question n stands at
/// n − 1.
pub const QUESTIONS: [&str; 30] = [
    "Is there a count, 1 to 16?",
    "Are all sizes there, each 1 to 256, sum at most 2,048?",
    "Is the length 1 + 2m + 5T?",
    "Is the operation 0 to B and bit 3 clear?",
    "Are w (a jump's target included), and d where fixed, in range?",
    "Does it stand, and its jump land, on the right side?",
    "Is it at most the 16th PUT of its block?",
    "Is the last instruction RETURN?",
    "Are there three bytes, P 1 to 8, C 5 to 256?",
    "Is the store's length right?",
    "Is each used count at most C, each used key of a form of its partition and unlike the others there, \
     each unused row zero, and are the used keys rising?",
    "Has each booked id all five rows, and is none below the floor?",
    "Is each booked workflow below m, each BEGIN's partition below P?",
    "Is each slot empty or sound?",
    "Is the slot 0 to 7?",
    "Is it empty (arrival, retry) or in use (turn, crash)?",
    "Is the workflow below m (arrival, opening, figures)?",
    "If the id is known, are workflow and arguments those booked (arrival)?",
    "If it is new, are five book rows free (arrival)?",
    "Is the id booked (retry, add, reply)?",
    "Has a block that isn't logged enough free rows: one, plus one per different new key it PUTs (turn)?",
    "Is the length 6 + 24g + 2e, within limits?",
    "Is each kind at most 4, each index below g for kinds 0 and 3 and 0 otherwise?",
    "Is the id other than 0 (arrival)?",
    "Has the list at most 16 ids, none twice, each waiting or taken (add, take, done, retire)?",
    "If the id isn't listed, are fewer than 16 listed (add)?",
    "Is an id waiting (take), or the id taken and logged through (done)?",
    "Is each smaller booked id logged through, in no slot and not on the worklist (retire)?",
    "Is a smaller id booked (retire)?",
    "Is the id not below the floor (arrival)?",
];

impl Refusal {
    /// A no that has no place in the pack.
    pub const fn of(question: u8) -> Self {
        Self::at(question, 0, 0)
    }

    /// A no to a question about one instruction.
    pub const fn at(question: u8, workflow: usize, instruction: usize) -> Self {
        Self {
            question,
            workflow,
            instruction,
        }
    }

    /// The question in the documents' words.
    pub fn words(&self) -> &'static str {
        QUESTIONS[usize::from(self.question) - 1]
    }
}

/// Puts a question: a no is a refusal with its number.
pub fn ask(question: u8, yes: bool) -> Result<(), Refusal> {
    if yes {
        Ok(())
    } else {
        Err(Refusal::of(question))
    }
}
