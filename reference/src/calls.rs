//! The five calls of document 01, the one of W-203 that puts an earlier store in order, those of
//! W-208 on the worklist, and the one of W-209 that retires old requests. Each puts all its
//! questions before it changes anything.

use crate::agents::{pack_fits, slots_are_right, Agent, Slots, ALL_EMPTY, SLOTS};
use crate::operations::{do_one, run_block};
use crate::pack::{Operation, Pack, Workflow};
use crate::refusal::{ask, Refusal};
use crate::retire::ask_retire;
use crate::store::{Key, Request, Store, BOOK_ROWS};
use crate::worklist::{reply_from_log, Worklist};

/// A yes to all questions. Only a turn moves; it replies, and so does the reading call.
#[derive(Clone, Copy, Debug, PartialEq, Eq)]
pub enum Answer {
    Done,
    Moved,
    Reply {
        id: u32,
        value: u32,
    },
    /// Of take only: the id that waited first.
    Taken {
        id: u32,
    },
    /// Of the reading call only: the id is not logged through.
    NotYet,
}

pub type Outcome = Result<Answer, Refusal>;

#[derive(Clone, Copy, Debug, PartialEq, Eq)]
pub enum Call {
    Arrival {
        slot: u32,
        request: Request,
    },
    Retry {
        slot: u32,
        id: u32,
    },
    Turn {
        slot: u32,
    },
    Crash {
        slot: u32,
    },
    Restart,
    /// It is given the store only, neither pack nor slots.
    PutInOrder,
    /// These three, restart and retire are given the worklist too.
    Add {
        id: u32,
    },
    Take,
    Done {
        id: u32,
    },
    /// It only reads slots and worklist.
    Retire {
        floor: u32,
    },
}

impl Call {
    /// The call with an empty worklist, which nobody sees afterwards: for lists of calls that
    /// put nothing on it, as a schedule's.
    pub fn perform(&self, pack: &[u8], store: &mut [u8], slots: &mut Slots) -> Outcome {
        self.perform_listed(pack, store, slots, &mut Worklist::default())
    }

    pub fn perform_listed(
        &self,
        pack: &[u8],
        store: &mut [u8],
        slots: &mut Slots,
        list: &mut Worklist,
    ) -> Outcome {
        match *self {
            Self::Arrival { slot, request } => arrival(pack, store, slots, slot, request),
            Self::Retry { slot, id } => retry(pack, store, slots, slot, id),
            Self::Turn { slot } => turn(pack, store, slots, slot),
            Self::Crash { slot } => crash(pack, store, slots, slot),
            Self::Restart => Ok(restart(slots, list)),
            Self::PutInOrder => put_in_order(store),
            Self::Add { id } => add(pack, store, slots, list, id),
            Self::Take => take(pack, store, slots, list),
            Self::Done { id } => done(pack, store, slots, list, id),
            Self::Retire { floor } => retire(pack, store, slots, list, floor),
        }
    }
}

/// Pack and store of a call that came past question 13. What only reads has `&[u8]` for `B`.
struct Lent<'a, B> {
    pack: Pack<'a>,
    store: Store<B>,
}

/// Questions 1 to 13.
fn ask_pack_and_store<B: AsRef<[u8]>>(pack: &[u8], store: B) -> Result<Lent<'_, B>, Refusal> {
    let pack = Pack::read(pack)?;
    let store = Store::read(store)?;
    ask(13, pack_fits(&pack, &store))?;
    Ok(Lent { pack, store })
}

/// Questions 1 to 14.
fn ask_all_state<'a, B: AsRef<[u8]>>(
    pack: &'a [u8],
    store: B,
    slots: &Slots,
) -> Result<Lent<'a, B>, Refusal> {
    let lent = ask_pack_and_store(pack, store)?;
    ask(14, slots_are_right(slots, &lent.pack, &lent.store))?;
    Ok(lent)
}

/// Questions 15 and 16.
fn ask_slot(slots: &Slots, slot: u32, in_use: bool) -> Result<usize, Refusal> {
    let slot = slot as usize;
    ask(15, slot < SLOTS)?;
    ask(16, slots[slot].is_in_use() == in_use)?;
    Ok(slot)
}

pub fn arrival(
    pack: &[u8],
    store: &mut [u8],
    slots: &mut Slots,
    slot: u32,
    request: Request,
) -> Outcome {
    let mut lent = ask_all_state(pack, store, slots)?;
    let slot = ask_slot(slots, slot, false)?;
    ask(24, request.id != 0)?;
    ask(30, request.id >= lent.store.floor())?;
    ask(17, lent.pack.workflow(request.workflow).is_some())?;
    match lent.store.request(request.id) {
        Some(booked) => ask(18, booked == request)?,
        None => {
            ask(19, lent.store.free(lent.store.shape().book()) >= BOOK_ROWS)?;
            lent.store.book(&request);
        }
    }
    slots[slot] = Agent::started(request.id, request.arguments);
    Ok(Answer::Done)
}

pub fn retry(pack: &[u8], store: &mut [u8], slots: &mut Slots, slot: u32, id: u32) -> Outcome {
    let lent = ask_all_state(pack, store, slots)?;
    let slot = ask_slot(slots, slot, false)?;
    let request = lent.store.request(id).ok_or(Refusal::of(20))?;
    slots[slot] = Agent::started(id, request.arguments);
    Ok(Answer::Done)
}

pub fn turn(pack: &[u8], store: &mut [u8], slots: &mut Slots, slot: u32) -> Outcome {
    let mut lent = ask_all_state(pack, store, slots)?;
    let slot = ask_slot(slots, slot, true)?;
    let agent = &mut slots[slot];
    let workflow = workflow_of(agent, &lent);
    let position = agent.position as usize;
    let instruction = workflow.instruction(position).expect("a checked pack");
    match instruction.operation {
        Operation::Return => {
            let (id, value) = (agent.id, agent.registers[instruction.d]);
            *agent = Agent::EMPTY;
            return Ok(Answer::Reply { id, value });
        }
        Operation::Begin => {
            let partition = instruction.w as usize;
            do_block(&workflow, &mut lent.store, partition, agent)?;
        }
        _ => agent.position = do_one(instruction, position, &mut agent.registers) as u32,
    }
    Ok(Answer::Moved)
}

pub fn crash(pack: &[u8], store: &mut [u8], slots: &mut Slots, slot: u32) -> Outcome {
    ask_all_state(pack, store, slots)?;
    let slot = ask_slot(slots, slot, true)?;
    slots[slot] = Agent::EMPTY;
    Ok(Answer::Done)
}

/// Asks nothing and never refuses.
pub fn restart(slots: &mut Slots, list: &mut Worklist) -> Answer {
    *slots = ALL_EMPTY;
    list.restart();
    Answer::Done
}

/// Puts an earlier store in order: exactly the same rows, by rising key.
pub fn put_in_order(store: &mut [u8]) -> Outcome {
    Store::read_earlier(store)?.put_in_order();
    Ok(Answer::Done)
}

/// Questions 1 to 14, 25, 26 and 20; puts a booked id on the worklist.
pub fn add(pack: &[u8], store: &[u8], slots: &Slots, list: &mut Worklist, id: u32) -> Outcome {
    let lent = ask_all_state(pack, store, slots)?;
    list.add(id, lent.store.request(id).is_some())?;
    Ok(Answer::Done)
}

/// Questions 1 to 14, 25 and 27; gives the first waiting id.
pub fn take(pack: &[u8], store: &[u8], slots: &Slots, list: &mut Worklist) -> Outcome {
    ask_all_state(pack, store, slots)?;
    let id = list.take()?;
    Ok(Answer::Taken { id })
}

/// Questions 1 to 14, 25 and 27; removes a taken id whose log leads through to RETURN. Its
/// agents, if it has any, stay in their slots.
pub fn done(pack: &[u8], store: &[u8], slots: &Slots, list: &mut Worklist, id: u32) -> Outcome {
    let lent = ask_all_state(pack, store, slots)?;
    let reply = reply_from_log(&lent.pack, &lent.store, id);
    list.done(id, reply.is_some())?;
    Ok(Answer::Done)
}

/// Questions 1 to 14, 25, 28 and 29; removes the book and log rows of every id below the floor.
pub fn retire(
    pack: &[u8],
    store: &mut [u8],
    slots: &Slots,
    list: &Worklist,
    floor: u32,
) -> Outcome {
    let mut lent = ask_all_state(pack, store, slots)?;
    ask(25, list.is_right())?;
    ask_retire(&lent.pack, &lent.store, slots, list, floor)?;
    crate::retire::retire(&mut lent.store, floor);
    Ok(Answer::Done)
}

/// The reading call: questions 1 to 13 and 20, then the reply worked out from the log.
pub fn reply(pack: &[u8], store: &[u8], id: u32) -> Outcome {
    let lent = ask_pack_and_store(pack, store)?;
    ask(20, lent.store.request(id).is_some())?;
    let reply = reply_from_log(&lent.pack, &lent.store, id);
    Ok(reply.map_or(Answer::NotYet, |value| Answer::Reply { id, value }))
}

/// The workflow of an agent that question 14 found sound.
fn workflow_of<'a, B: AsRef<[u8]>>(agent: &Agent, lent: &Lent<'a, B>) -> Workflow<'a> {
    let request = lent.store.request(agent.id);
    let workflow = request.and_then(|request| lent.pack.workflow(request.workflow));
    workflow.expect("a sound agent is booked with a workflow of the pack")
}

/// The whole block at the agent's position: from its log row if there is one, else run
/// and written together with its log row. Question 21 is the last that can say no.
fn do_block(
    workflow: &Workflow,
    store: &mut Store<&mut [u8]>,
    partition: usize,
    agent: &mut Agent,
) -> Result<(), Refusal> {
    let begin = agent.position as usize;
    // A sound agent's step is at most its position, which is below 256.
    let step = agent.step as u16;
    let log_key = Key::Log { id: agent.id, step }.stored();
    let result = match store.find(partition, log_key) {
        Some(logged) => logged,
        None => run_and_log(workflow, store, partition, agent, log_key)?,
    };
    agent.registers[0] = result;
    agent.step += 1;
    agent.position = workflow.behind_block(begin) as u32;
    Ok(())
}

fn run_and_log(
    workflow: &Workflow,
    store: &mut Store<&mut [u8]>,
    partition: usize,
    agent: &Agent,
    log_key: u64,
) -> Result<u32, Refusal> {
    let find = |key: u32| store.find(partition, Key::Data(key).stored());
    let run = run_block(workflow, agent.position as usize, agent.registers, find);
    let new_keys = run.puts.keys().filter(|key| find(**key).is_none()).count();
    ask(21, store.free(partition) > new_keys)?;
    for (key, value) in &run.puts {
        store.put(partition, Key::Data(*key).stored(), *value);
    }
    store.put(partition, log_key, run.result);
    Ok(run.result)
}
