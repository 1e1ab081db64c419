//! The schedule program: questions 22 and 23, the run of a schedule's events, its print.

use std::fmt::Write;

use crate::agents::{Slots, ALL_EMPTY};
use crate::bytes::{u16_at, u32_at};
use crate::calls::{Answer, Call, Outcome};
use crate::pack;
use crate::refusal::{ask, Refusal};
use crate::store::{fresh, Key, Request, Store};

pub const MOST_REQUESTS: usize = 64;
pub const MOST_EVENTS: usize = 1_024;

#[derive(Clone, Copy, Debug, PartialEq, Eq, Hash)]
pub enum Kind {
    Arrival,
    Turn,
    Crash,
    Retry,
    Restart,
}

impl Kind {
    /// In the order of their codes.
    pub const ALL: [Self; 5] = [
        Self::Arrival,
        Self::Turn,
        Self::Crash,
        Self::Retry,
        Self::Restart,
    ];

    pub fn of_code(code: u8) -> Option<Self> {
        Self::ALL.get(usize::from(code)).copied()
    }

    pub fn code(self) -> u8 {
        self as u8
    }

    pub fn names_request(self) -> bool {
        matches!(self, Self::Arrival | Self::Retry)
    }
}

#[derive(Clone, Copy, Debug, PartialEq, Eq)]
pub struct Event {
    pub kind: Kind,
    /// The low four bits, so up to 15; not read for a restart.
    pub slot: u8,
    /// The request's index.
    pub request: u8,
}

impl Event {
    /// Question 23 for one event.
    fn read(byte: u8, index: u8, requests: usize) -> Result<Self, Refusal> {
        let kind = Kind::of_code(byte >> 4).ok_or(Refusal::of(23))?;
        let in_range = match kind.names_request() {
            true => usize::from(index) < requests,
            false => index == 0,
        };
        ask(23, in_range)?;
        Ok(Self {
            kind,
            slot: byte & 15,
            request: index,
        })
    }

    pub fn byte(&self) -> u8 {
        self.kind.code() << 4 | self.slot & 15
    }
}

/// A schedule that passed questions 22 and 23; P and C are as they stand.
#[derive(Clone, Debug, PartialEq, Eq)]
pub struct Schedule {
    pub partitions: u8,
    pub rows: u16,
    pub requests: Vec<Request>,
    pub events: Vec<Event>,
}

impl Schedule {
    /// Questions 22 and 23.
    pub fn read(bytes: &[u8]) -> Result<Self, Refusal> {
        ask(22, bytes.len() >= 6)?;
        let (head, rest) = bytes.split_at(6);
        let g = usize::from(head[3]);
        let e = usize::from(u16_at(head, 4));
        let within_limits = g <= MOST_REQUESTS && e <= MOST_EVENTS;
        ask(22, within_limits && rest.len() == 24 * g + 2 * e)?;
        let (requests, events) = rest.split_at(24 * g);
        let (kinds, indexes) = events.split_at(e);
        let events: Result<Vec<Event>, Refusal> = kinds
            .iter()
            .zip(indexes)
            .map(|(byte, index)| Event::read(*byte, *index, g))
            .collect();
        Ok(Self {
            partitions: head[0],
            rows: u16_at(head, 1),
            requests: requests.chunks_exact(24).map(read_request).collect(),
            events: events?,
        })
    }

    pub fn encode(&self) -> Vec<u8> {
        let mut bytes = vec![self.partitions];
        bytes.extend(self.rows.to_le_bytes());
        bytes.push(self.requests.len() as u8);
        bytes.extend((self.events.len() as u16).to_le_bytes());
        for request in &self.requests {
            bytes.extend(request.id.to_le_bytes());
            bytes.extend(request.workflow.to_le_bytes());
            bytes.extend(request.arguments.iter().flat_map(|word| word.to_le_bytes()));
        }
        bytes.extend(self.events.iter().map(Event::byte));
        bytes.extend(self.events.iter().map(|event| event.request));
        bytes
    }

    /// The calls of all its events, in order.
    pub fn calls(&self) -> Vec<Call> {
        self.events.iter().map(|event| self.call(event)).collect()
    }

    /// The call that an event of this schedule makes.
    pub fn call(&self, event: &Event) -> Call {
        let slot = u32::from(event.slot);
        let request = || self.requests[usize::from(event.request)];
        match event.kind {
            Kind::Arrival => Call::Arrival {
                slot,
                request: request(),
            },
            Kind::Turn => Call::Turn { slot },
            Kind::Crash => Call::Crash { slot },
            Kind::Retry => Call::Retry {
                slot,
                id: request().id,
            },
            Kind::Restart => Call::Restart,
        }
    }
}

fn read_request(words: &[u8]) -> Request {
    Request {
        id: u32_at(words, 0),
        workflow: u32_at(words, 4),
        arguments: std::array::from_fn(|i| u32_at(words, 8 + 4 * i)),
    }
}

/// What the program does before the first event: questions 1 to 8, 22, 23 and 9.
/// Answers with the schedule and a fresh store.
pub fn begin(pack: &[u8], schedule: &[u8]) -> Result<(Schedule, Vec<u8>), Refusal> {
    pack::check(pack)?;
    let schedule = Schedule::read(schedule)?;
    let store = fresh(u32::from(schedule.partitions), u32::from(schedule.rows))?;
    Ok((schedule, store))
}

/// A schedule that was run: each call with its outcome, and what was left.
#[derive(Clone, Debug)]
pub struct Run {
    pub calls: Vec<(Call, Outcome)>,
    pub store: Vec<u8>,
    pub slots: Slots,
}

pub fn run(pack: &[u8], schedule: &[u8]) -> Result<Run, Refusal> {
    let (schedule, mut store) = begin(pack, schedule)?;
    let mut slots = ALL_EMPTY;
    let mut calls = Vec::with_capacity(schedule.events.len());
    for event in &schedule.events {
        let call = schedule.call(event);
        // No event puts an id on the worklist, so that a restart always gets an empty one.
        let outcome = call.perform(pack, &mut store, &mut slots);
        calls.push((call, outcome));
    }
    Ok(Run {
        calls,
        store,
        slots,
    })
}

/// An outcome in the program's words.
pub fn words(outcome: &Outcome) -> String {
    match outcome {
        Ok(Answer::Done) => "done".to_string(),
        Ok(Answer::Moved) => "moved".to_string(),
        Ok(Answer::Reply { id, value }) => format!("reply {id} {value}"),
        // No event of a schedule is answered so; a case's calls are.
        Ok(Answer::Taken { id }) => format!("taken {id}"),
        Ok(Answer::NotYet) => "not yet".to_string(),
        Err(refusal) => format!("refused {}", refusal.question),
    }
}

/// All that the program prints for its two files.
pub fn program(pack: &[u8], schedule: &[u8]) -> String {
    match run(pack, schedule) {
        Ok(run) => print(&run),
        Err(refusal) => format!("refused {}\n", refusal.question),
    }
}

fn print(run: &Run) -> String {
    let mut text = format!("events {}\n", run.calls.len());
    for (number, (_, outcome)) in run.calls.iter().enumerate() {
        // Writing to a String cannot fail.
        let _ = writeln!(text, "{number} {}", words(outcome));
    }
    if let Ok(store) = Store::lay_out(run.store.as_slice()) {
        for partition in 0..store.shape().partitions {
            print_partition(&store, partition, &mut text);
        }
    }
    text
}

/// The data rows by rising key, then the log rows by rising id and step.
fn print_partition(store: &Store<&[u8]>, partition: usize, text: &mut String) {
    let mut rows = String::new();
    let mut logs = String::new();
    for (key, value) in store.sorted_rows(partition) {
        let _ = match Key::of_stored(key) {
            Some(Key::Data(key)) => writeln!(rows, "row {partition} {key} {value}"),
            Some(Key::Log { id, step }) => writeln!(logs, "log {partition} {id} {step} {value}"),
            None => Ok(()),
        };
    }
    text.push_str(&rows);
    text.push_str(&logs);
}
