//! The worklist (W-208): booked ids whose terminals were told that they are accepted, to be
//! finished by a worker; and the reply that is worked out from the log.

use crate::agents::Agent;
use crate::operations::do_one;
use crate::pack::{Operation, Pack, Workflow};
use crate::refusal::{ask, Refusal};
use crate::store::{Key, Request, Store};

/// How many ids a list may have.
pub const MOST_LISTED: usize = 16;

/// The two marks. A lent list may have others, which 25 refuses.
pub const WAITING: u8 = 0;
pub const TAKEN: u8 = 1;

#[derive(Clone, Copy, Debug, PartialEq, Eq)]
pub struct Entry {
    pub id: u32,
    pub mark: u8,
}

/// Ids in order of entry; a lent one may have any.
#[derive(Clone, Debug, Default, PartialEq, Eq)]
pub struct Worklist {
    pub entries: Vec<Entry>,
}

impl Worklist {
    /// From ids with their marks.
    pub fn of(entries: &[(u32, u8)]) -> Self {
        let entry = |(id, mark): &(u32, u8)| Entry {
            id: *id,
            mark: *mark,
        };
        Self {
            entries: entries.iter().map(entry).collect(),
        }
    }

    pub fn ids(&self) -> Vec<u32> {
        self.entries.iter().map(|entry| entry.id).collect()
    }

    /// The ids with this mark, in order.
    pub fn marked(&self, mark: u8) -> Vec<u32> {
        let marked = self.entries.iter().filter(|entry| entry.mark == mark);
        marked.map(|entry| entry.id).collect()
    }

    /// Where an id stands first.
    fn place(&self, id: u32) -> Option<usize> {
        self.entries.iter().position(|entry| entry.id == id)
    }

    pub fn is_listed(&self, id: u32) -> bool {
        self.place(id).is_some()
    }

    /// Question 25: at most 16 ids, none twice, and no other mark than the two.
    pub fn is_right(&self) -> bool {
        let mut ids = self.ids();
        ids.sort_unstable();
        ids.len() <= MOST_LISTED
            && ids.windows(2).all(|pair| pair[0] != pair[1])
            && self.entries.iter().all(|entry| entry.mark <= TAKEN)
    }

    /// Questions 25, 26 and 20, of which the last is put to any id; then a new id goes to the
    /// end. A listed one keeps its place and its mark.
    pub fn add(&mut self, id: u32, is_booked: bool) -> Result<(), Refusal> {
        ask(25, self.is_right())?;
        let is_new = !self.is_listed(id);
        ask(26, !is_new || self.entries.len() < MOST_LISTED)?;
        ask(20, is_booked)?;
        if is_new {
            let mark = WAITING;
            self.entries.push(Entry { id, mark });
        }
        Ok(())
    }

    /// Questions 25 and 27; then the first waiting id is marked and given.
    pub fn take(&mut self) -> Result<u32, Refusal> {
        ask(25, self.is_right())?;
        let mut entries = self.entries.iter_mut();
        let waiting = entries.find(|entry| entry.mark == WAITING);
        let entry = waiting.ok_or(Refusal::of(27))?;
        entry.mark = TAKEN;
        Ok(entry.id)
    }

    /// Questions 25 and 27; then the id is removed, and later ones move up.
    pub fn done(&mut self, id: u32, is_logged_through: bool) -> Result<(), Refusal> {
        ask(25, self.is_right())?;
        let taken = Entry { id, mark: TAKEN };
        let place = self.entries.iter().position(|entry| *entry == taken);
        let place = place.ok_or(Refusal::of(27))?;
        ask(27, is_logged_through)?;
        self.entries.remove(place);
        Ok(())
    }

    /// All wait again, in a list that passes 25; another is not touched.
    pub fn restart(&mut self) {
        if self.is_right() {
            for entry in &mut self.entries {
                entry.mark = WAITING;
            }
        }
    }
}

/// The reply of a booked request, worked out from the log; `None` where it is not logged
/// through, and so of an id that is not booked. Pack and store passed question 13.
pub fn reply_from_log<B: AsRef<[u8]>>(pack: &Pack, store: &Store<B>, id: u32) -> Option<u32> {
    let request = store.request(id)?;
    let workflow = pack.workflow(request.workflow)?;
    let mut reading = Reading::of(&request);
    // A move leads ahead, so that as many as there are instructions come to a RETURN.
    for _ in 0..workflow.size() {
        if let Some(reply) = reading.move_on(&workflow, store)? {
            return Some(reply);
        }
    }
    None
}

/// An agent that no slot has: it runs no block and has each result from its log row.
struct Reading {
    agent: Agent,
    position: usize,
    step: u16,
}

impl Reading {
    fn of(request: &Request) -> Self {
        Self {
            agent: Agent::started(request.id, request.arguments),
            position: 0,
            step: 0,
        }
    }

    /// Where it is at a RETURN, the reply. `None` if its block has no log row.
    fn move_on<B: AsRef<[u8]>>(
        &mut self,
        workflow: &Workflow,
        store: &Store<B>,
    ) -> Option<Option<u32>> {
        let instruction = workflow.instruction(self.position)?;
        let registers = &mut self.agent.registers;
        match instruction.operation {
            Operation::Return => return Some(Some(registers[instruction.d])),
            Operation::Begin => {
                let (id, step) = (self.agent.id, self.step);
                let log_key = Key::Log { id, step }.stored();
                registers[0] = store.find(instruction.w as usize, log_key)?;
                self.step += 1;
                self.position = workflow.behind_block(self.position);
            }
            _ => self.position = do_one(instruction, self.position, registers),
        }
        Some(None)
    }
}
