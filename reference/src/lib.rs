//! A second supplier of the workflow runtime: written from documents 01 and 02 alone,
//! in plain Rust, so that another implementation can be held against it.
//!
//! * [`pack`]: the pack of workflows, its check and opening (questions 1 to 8, 17)
//! * [`store`]: the store in bytes (questions 9 to 12)
//! * [`agents`]: the eight slots (questions 13 and 14)
//! * [`operations`]: what each operation does
//! * [`calls`]: arrival, retry, turn, crash and restart (questions 15 to 21, 24 and 30), and what
//!   puts an earlier store in order
//! * [`worklist`]: ids that are finished later (questions 25 to 27), and the reply that is
//!   worked out from the log (W-208)
//! * [`retire`]: the floor below which no id is kept (questions 28 and 29, W-209)
//! * [`figures`]: the most turns and rows that a workflow takes (W-202)
//! * [`schedule`]: the schedule program (questions 22 and 23)
//! * [`sums`]: what is added up while moves are under way (W-207)
//! * [`plain`]: the plain machine, and the check of demand 3 and of W-207 on what was run
//! * [`kept`]: what W-208 promises of the worklist, on what was run
//! * [`retired`]: what W-209 promises of ids below the floor, on what was run
//! * [`cases`]: the file `cases.bin` and what is printed for each of its cases
//! * [`coverage`]: which questions and answers a file of cases reaches
//! * [`generate`]: seeded cases and lists of calls

pub mod agents;
pub mod bytes;
pub mod calls;
pub mod cases;
pub mod coverage;
pub mod figures;
pub mod generate;
pub mod kept;
pub mod operations;
pub mod pack;
pub mod plain;
pub mod random;
pub mod refusal;
pub mod retire;
pub mod retired;
pub mod schedule;
pub mod store;
pub mod sums;
pub mod worklist;

pub use agents::{Agent, Slots};
pub use calls::{Answer, Call, Outcome};
pub use figures::Figures;
pub use pack::{Instruction, Operation, Pack, Workflow};
pub use refusal::Refusal;
pub use store::Store;
pub use sums::Sums;
pub use worklist::Worklist;
