//! One call, done by the library and done by the reference, on the same state.

use crate::inputs::State;
use reference::figures::figures;
use reference::{Answer, Call, Refusal, Slots, Worklist};

/// The slots' bytes, as the library has them.
pub fn bytes(slots: &Slots) -> sarthule::Slots {
    let mut out = sarthule::EMPTY;
    for (record, agent) in out.chunks_mut(48).zip(slots) {
        let head = [agent.in_use, agent.id, agent.position, agent.step];
        for (word, n) in record.chunks_mut(4).zip(head.into_iter().chain(agent.registers)) {
            word.copy_from_slice(&n.to_le_bytes());
        }
    }
    out
}

/// The worklist's bytes, as the library has them: the number of entries, and the first 16 of them.
pub fn list_bytes(list: &Worklist) -> sarthule::List {
    let mut out = sarthule::NONE_LISTED;
    let entries = list.entries.iter().flat_map(|entry| [entry.id, u32::from(entry.mark)]);
    let words = std::iter::once(list.entries.len() as u32).chain(entries);
    for (word, n) in out.chunks_mut(4).zip(words) {
        word.copy_from_slice(&n.to_le_bytes());
    }
    out
}

/// Whether the library's bytes are this list; what stands behind its last entry may be left over.
pub fn is_list(found: &sarthule::List, list: &Worklist) -> bool {
    let bytes = 4 + 8 * list.entries.len().min(sarthule::LISTED);
    found[..bytes] == list_bytes(list)[..bytes]
}

/// The library's state: the same but for the slots and the worklist.
#[derive(Clone)]
pub struct Lent {
    pub pack: Vec<u8>,
    pub store: Vec<u8>,
    pub slots: sarthule::Slots,
    pub list: sarthule::List,
}

impl Lent {
    pub fn of(state: &State) -> Self {
        let (pack, store) = (state.pack.clone(), state.store.clone());
        Self { pack, store, slots: bytes(&state.slots), list: list_bytes(&state.list) }
    }

    pub fn reset(&mut self, from: &Self) {
        self.store.copy_from_slice(&from.store);
        self.slots = from.slots;
        self.list = from.list;
    }

    pub fn perform(&mut self, call: &Call) -> sarthule::Answer {
        let (pack, store, slots, list) = (&self.pack, &mut self.store, &mut self.slots, &mut self.list);
        match *call {
            Call::Arrival { slot, request } => {
                let request =
                    sarthule::Request { id: request.id, workflow: request.workflow, arguments: request.arguments };
                sarthule::arrival(pack, store, slots, slot as usize, request)
            }
            Call::Retry { slot, id } => sarthule::retry(pack, store, slots, slot as usize, id),
            Call::Turn { slot } => sarthule::turn(pack, store, slots, slot as usize),
            Call::Crash { slot } => sarthule::crash(pack, store, slots, slot as usize),
            Call::Restart => sarthule::restart(slots, list),
            Call::PutInOrder => sarthule::order(store),
            Call::Add { id } => sarthule::add(pack, store, slots, list, id),
            Call::Take => sarthule::take(pack, store, slots, list),
            Call::Done { id } => sarthule::done(pack, store, slots, list, id),
            Call::Retire { floor } => sarthule::retire(pack, store, slots, list, floor),
        }
    }
}

/// A call that is given the pack only.
#[derive(Clone, Copy)]
pub enum OnPack {
    Check,
    Figures { workflow: u32 },
}

/// All 0 where there are none: of a refusal, and of a check.
pub const NO_FIGURES: sarthule::Figures = sarthule::Figures { turns: 0, rows: [0; 8] };

impl OnPack {
    pub fn perform(self, pack: &[u8]) -> (sarthule::Answer, sarthule::Figures) {
        match self {
            Self::Check => (sarthule::check(pack), NO_FIGURES),
            Self::Figures { workflow } => sarthule::figures(pack, workflow),
        }
    }

    /// The same by the reference.
    pub fn perform_reference(self, pack: &[u8]) -> (sarthule::Answer, sarthule::Figures) {
        let found = match self {
            Self::Check => reference::pack::check(pack).map(|()| None),
            Self::Figures { workflow } => figures(pack, workflow).map(Some),
        };
        (answer(found.map(|_| Answer::Done)), library_figures(found.ok().flatten()))
    }
}

/// The reference's figures, in the library's form.
pub fn library_figures(figures: Option<reference::Figures>) -> sarthule::Figures {
    figures.map_or(NO_FIGURES, |found| sarthule::Figures { turns: found.turns, rows: found.rows })
}

/// The reference's answer, in the library's form.
pub fn answer(outcome: Result<Answer, Refusal>) -> sarthule::Answer {
    match outcome {
        Ok(Answer::Done) => sarthule::Answer::Done,
        Ok(Answer::Moved) => sarthule::Answer::Moved,
        Ok(Answer::Reply { id, value }) => sarthule::Answer::Reply { id, value },
        Ok(Answer::Taken { id }) => sarthule::Answer::Taken { id },
        Ok(Answer::NotYet) => sarthule::Answer::NotYet,
        Err(no) => sarthule::Answer::Refused {
            question: u32::from(no.question),
            workflow: no.workflow as u32,
            instruction: no.instruction as u32,
        },
    }
}
