//! What happened at each event of a run, or at each call of a list, told by the independent runtime in `reference`.

use crate::fault::No;
use crate::figures;
use crate::folder::Folder;
use crate::schedule::{self, Event, Kind, Request, Schedule};
use crate::show::event_words;
use reference::agents::{Slots, ALL_EMPTY};
use reference::pack::Pack;
use reference::store::{self, Key, Store};
use reference::worklist::{Entry, Worklist};
use reference::{Answer, Call, Operation};

#[derive(Clone, Copy, Debug, PartialEq, Eq)]
pub enum Happened {
    /// A call other than turn was accepted.
    Done,
    /// One instruction was done.
    Moved,
    /// A block ran on this partition and was logged.
    Ran(u32),
    /// A block's result was taken from this partition's log.
    Logged(u32),
    Replied {
        id: u32,
        value: u32,
    },
    /// This id was the first one waiting on the worklist.
    Taken(u32),
    Refused(u32),
}

/// An event or call, what happened, and what there is behind it.
#[derive(Clone, Debug)]
pub struct Step {
    pub call: Call,
    /// The request that an arrival or retry names.
    pub request: Option<usize>,
    /// The event or call in words.
    pub words: String,
    pub happened: Happened,
    /// The used rows of each partition and of the book.
    pub used: Vec<usize>,
    pub listed: Vec<Entry>,
}

impl Step {
    pub fn slot(&self) -> Option<usize> {
        match self.call {
            Call::Arrival { slot, .. }
            | Call::Retry { slot, .. }
            | Call::Turn { slot }
            | Call::Crash { slot } => Some(slot as usize),
            _ => None,
        }
    }

    pub fn is_refused(&self) -> bool {
        matches!(self.happened, Happened::Refused(_))
    }

    /// The listed id that an accepted add, take or done was about.
    pub fn listed_id(&self) -> Option<u32> {
        match (self.call, self.happened) {
            (_, Happened::Taken(id)) => Some(id),
            (Call::Add { id } | Call::Done { id }, Happened::Done) => Some(id),
            _ => None,
        }
    }
}

/// What a run is made of.
#[derive(Clone, Copy, Debug, PartialEq, Eq)]
pub enum Source {
    /// The events of a schedule, from a fresh store.
    Schedule,
    /// A list of calls, from any store, slots and worklist.
    Calls,
}

impl Source {
    /// What a step is called.
    pub fn noun(self) -> &'static str {
        ["event", "call"][self as usize]
    }
}

/// A whole run with the names of its requests.
#[derive(Clone, Debug)]
pub struct Run {
    pub source: Source,
    pub partitions: usize,
    pub rows: usize,
    pub requests: Vec<Named>,
    /// Before the first step: the slots that have an agent, each with its request, and the worklist.
    pub agents_before: Vec<(usize, usize)>,
    pub listed_before: Vec<Entry>,
    pub steps: Vec<Step>,
    /// The most rows that all requests of a schedule together take, by partition, the book last.
    pub most: Option<Vec<usize>>,
}

/// A request and what it is called.
#[derive(Clone, Debug)]
pub struct Named {
    pub name: String,
    pub workflow: String,
    pub request: Request,
}

/// Runs a folder's schedule; the noes are those for which the program would print only `refused`.
pub fn trace(folder: &Folder) -> Result<Run, Vec<No>> {
    let workflows = figures::of_workflows(&folder.pack)?;
    let schedule = schedule::accepted(&folder.schedule).map_err(|no| vec![no])?;
    let (partitions, rows) = (schedule.partitions as u32, schedule.rows as u32);
    let store = store::fresh(partitions, rows);
    let store = store.map_err(|_| Vec::from_iter(schedule::size_no(partitions, rows)))?;
    let mut machine = Machine {
        pack: &folder.pack,
        store,
        slots: ALL_EMPTY,
        list: Worklist::default(),
    };
    let step = |event: &Event| {
        let request = event.kind.names_request().then_some(event.request as usize);
        let words = event_words(event, &folder.requests);
        machine.step(call(*event, &schedule.requests), request, words)
    };
    let steps = schedule.events.iter().map(step).collect();
    let requests = 0..schedule.requests.len();
    Ok(Run {
        source: Source::Schedule,
        partitions: partitions as usize,
        rows: rows as usize,
        agents_before: Vec::new(),
        listed_before: Vec::new(),
        steps,
        most: Some(figures::together(&workflows, &schedule).rows),
        requests: requests
            .map(|index| named(folder, &schedule, index))
            .collect(),
    })
}

fn named(folder: &Folder, schedule: &Schedule, index: usize) -> Named {
    let request = schedule.requests[index].clone();
    let workflow = folder.workflows.get(request.workflow as usize).cloned();
    let workflow = workflow.unwrap_or(format!("workflow {}", request.workflow));
    Named {
        name: folder.requests[index].clone(),
        workflow,
        request,
    }
}

/// What the calls of a run are given, each what the one before left.
pub struct Machine<'a> {
    pub pack: &'a [u8],
    pub store: Vec<u8>,
    pub slots: Slots,
    pub list: Worklist,
}

impl Machine<'_> {
    pub fn step(&mut self, call: Call, request: Option<usize>, words: String) -> Step {
        // The answer to a turn does not tell a block from an instruction, so it is looked up before.
        let block = match call {
            Call::Turn { slot } => self.block_at(slot as usize),
            _ => None,
        };
        let (store, slots) = (&mut self.store, &mut self.slots);
        let answer = call.perform_listed(self.pack, store, slots, &mut self.list);
        let happened = match (answer, block) {
            (Err(refusal), _) => Happened::Refused(refusal.question as u32),
            (Ok(Answer::Reply { id, value }), _) => Happened::Replied { id, value },
            (Ok(Answer::Moved), Some((partition, true))) => Happened::Logged(partition),
            (Ok(Answer::Moved), Some((partition, false))) => Happened::Ran(partition),
            (Ok(Answer::Moved), None) => Happened::Moved,
            (Ok(Answer::Taken { id }), _) => Happened::Taken(id),
            // Not yet is what the reading call answers, which stands in no run.
            (Ok(Answer::Done | Answer::NotYet), _) => Happened::Done,
        };
        Step {
            call,
            request,
            words,
            happened,
            used: self.used(),
            listed: self.list.entries.clone(),
        }
    }

    /// The partition of the block that a slot's agent stands at, and whether it is logged.
    fn block_at(&self, slot: usize) -> Option<(u32, bool)> {
        let agent = self.slots.get(slot).filter(|agent| agent.is_in_use())?;
        let store = Store::lay_out(self.store.as_slice()).ok()?;
        let pack = Pack::read(self.pack).ok()?;
        let workflow = pack.workflow(store.request(agent.id)?.workflow)?;
        let begin = workflow.instruction(agent.position as usize)?;
        if begin.operation != Operation::Begin {
            return None;
        }
        let key = Key::Log {
            id: agent.id,
            step: agent.step as u16,
        };
        Some((
            begin.w,
            store.find(begin.w as usize, key.stored()).is_some(),
        ))
    }

    fn used(&self) -> Vec<usize> {
        let Ok(store) = Store::lay_out(self.store.as_slice()) else {
            return Vec::new();
        };
        // A wrong store may have a count above C.
        let used = |partition| store.used(partition).min(store.shape().rows);
        (0..=store.shape().partitions).map(used).collect()
    }
}

fn call(event: Event, requests: &[Request]) -> Call {
    let slot = event.slot as u32;
    match event.kind {
        Kind::Arrival => {
            let Request {
                id,
                workflow,
                arguments,
            } = requests[event.request as usize];
            Call::Arrival {
                slot,
                request: store::Request {
                    id,
                    workflow,
                    arguments,
                },
            }
        }
        Kind::Turn => Call::Turn { slot },
        Kind::Crash => Call::Crash { slot },
        Kind::Retry => Call::Retry {
            slot,
            id: requests[event.request as usize].id,
        },
        Kind::Restart => Call::Restart,
    }
}
