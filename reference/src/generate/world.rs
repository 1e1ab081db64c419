//! A runtime that is driven by chance: schedules are its events, states what it leaves.

use super::packs::{encoded_pack, Bounds};
use crate::agents::{Slots, ALL_EMPTY, SLOTS};
use crate::random::Random;
use crate::schedule::{Event, Kind, Schedule};
use crate::store::{fresh, Request, Store, BOOK_ROWS};

/// Pack, store and slots, with the requests that may come.
#[derive(Clone, Debug)]
pub struct World {
    pub pack: Vec<u8>,
    pub workflows: usize,
    pub store: Vec<u8>,
    pub slots: Slots,
    /// Fewer starts and crashes, so that agents come to their replies.
    calm: bool,
    /// P, C, the requests, and the events so far.
    pub schedule: Schedule,
}

impl World {
    /// A fresh store beside a right pack of the given bounds.
    pub fn new(random: &mut Random, bounds: Bounds, rows: usize, requests: usize) -> Self {
        let pack = encoded_pack(random, bounds);
        let partitions = match random.below(30) {
            // Now and then a BEGIN may name a partition that is not there.
            0 => random.between(1, bounds.partitions),
            1 => random.between(bounds.partitions, 8),
            _ => bounds.partitions,
        };
        let store = fresh(partitions as u32, rows as u32).expect("numbers in range");
        Self {
            pack,
            workflows: bounds.workflows,
            store,
            slots: ALL_EMPTY,
            calm: random.one_in(2),
            schedule: Schedule {
                partitions: partitions as u8,
                rows: rows as u16,
                requests: some_requests(random, bounds.workflows, requests),
                events: Vec::new(),
            },
        }
    }

    /// A small one, as most are.
    pub fn small(random: &mut Random) -> Self {
        let bounds = Bounds::any(random);
        let rows = match random.below(4) {
            0 => 5,
            1 => random.between(5, 12),
            _ => random.between(10, 20),
        };
        let requests = random.between(1, 5);
        Self::new(random, bounds, rows, requests)
    }

    /// One to which nothing can arrive.
    pub fn without_requests(random: &mut Random) -> Self {
        let bounds = Bounds::any(random);
        Self::new(random, bounds, 5, 0)
    }

    /// Books id 0 in the store itself, as a runtime before W-201 did, and has it among the
    /// requests, so that it is retried and repeated. No schedule leads to such a store.
    pub fn book_zero(&mut self, random: &mut Random) -> Request {
        let zero = right_request(random, self.workflows, 0);
        let mut store = Store::lay_out(self.store.as_mut_slice()).expect("a store that ran");
        if store.request(0).is_none() && store.free(store.shape().book()) >= BOOK_ROWS {
            store.book(&zero);
        }
        self.schedule.requests.push(zero);
        zero
    }

    /// Lets a number of events happen.
    pub fn run(&mut self, random: &mut Random, events: usize) {
        for _ in 0..events {
            let event = self.next_event(random);
            self.apply(event);
        }
    }

    pub fn apply(&mut self, event: Event) {
        let call = self.schedule.call(&event);
        // Refusals are part of a schedule.
        let _ = call.perform(&self.pack, &mut self.store, &mut self.slots);
        self.schedule.events.push(event);
    }

    /// The next event: mostly one that will be accepted.
    pub fn next_event(&self, random: &mut Random) -> Event {
        let chance = match self.calm && random.one_in(2) {
            true => 0,
            false => random.below(100),
        };
        let kind = match chance {
            0..=59 => Kind::Turn,
            60..=75 => Kind::Arrival,
            76..=87 => Kind::Retry,
            88..=95 => Kind::Crash,
            96..=97 => Kind::Restart,
            _ => return self.any_event(random),
        };
        self.event_of(random, kind)
    }

    /// An event of this kind on a slot that suits it, or of another kind if none does.
    pub fn event_of(&self, random: &mut Random, kind: Kind) -> Event {
        let in_use = matches!(kind, Kind::Turn | Kind::Crash);
        match self.some_slot(random, in_use) {
            Some(slot) => self.event(random, kind, slot),
            None if in_use => self.event(random, Kind::Arrival, 0),
            None => self.event(random, Kind::Turn, 0),
        }
    }

    /// Any kind on any slot, those from 8 to 15 too.
    fn any_event(&self, random: &mut Random) -> Event {
        let kind = random.pick(&Kind::ALL);
        let slot = random.below(16) as u8;
        self.event(random, kind, slot)
    }

    fn event(&self, random: &mut Random, kind: Kind, slot: u8) -> Event {
        let requests = self.schedule.requests.len();
        let kind = match kind.names_request() && requests == 0 {
            true => Kind::Turn,
            false => kind,
        };
        let request = match kind.names_request() {
            true => random.below(requests) as u8,
            false => 0,
        };
        Event {
            kind,
            slot,
            request,
        }
    }

    /// A slot in use or an empty one, if there is such a one.
    pub fn some_slot(&self, random: &mut Random, in_use: bool) -> Option<u8> {
        let fits = |slot: &u8| self.slots[usize::from(*slot)].is_in_use() == in_use;
        let slots: Vec<u8> = (0..SLOTS as u8).filter(fits).collect();
        if slots.is_empty() {
            return None;
        }
        // Few slots at a time, so that agents come far.
        let first = slots.len().min(3);
        Some(match random.one_in(8) {
            true => random.pick(&slots),
            false => random.pick(&slots[..first]),
        })
    }
}

/// Requests with repeats and changed repeats of ids.
fn some_requests(random: &mut Random, workflows: usize, count: usize) -> Vec<Request> {
    let mut requests: Vec<Request> = Vec::with_capacity(count);
    for number in 0..count {
        let mut request = match requests.is_empty() || !random.one_in(3) {
            true => new_request(random, workflows),
            false => repeat(random, &requests),
        };
        if number == 0 {
            // One that may be booked.
            request.id = request.id.max(1);
        }
        requests.push(request);
    }
    requests
}

/// A request of this id for a workflow of the pack.
pub fn right_request(random: &mut Random, workflows: usize, id: u32) -> Request {
    Request {
        id,
        workflow: random.below(workflows) as u32,
        arguments: std::array::from_fn(|_| random.word()),
    }
}

pub fn new_request(random: &mut Random, workflows: usize) -> Request {
    let id = match random.below(12) {
        // What a handheld with a flat backup cell sends.
        0 => 0,
        1..=4 => random.word(),
        _ => random.below(40) as u32,
    };
    let workflow = match random.below(40) {
        0 => random.pick(&[workflows, workflows + 1, 65_536, u32::MAX as usize]),
        _ => random.below(workflows),
    };
    Request {
        id,
        workflow: workflow as u32,
        arguments: std::array::from_fn(|_| random.word()),
    }
}

fn repeat(random: &mut Random, requests: &[Request]) -> Request {
    let request = random.pick(requests);
    match random.one_in(2) {
        true => request,
        false => changed(random, request),
    }
}

/// The same id with one other word.
pub fn changed(random: &mut Random, mut request: Request) -> Request {
    match random.below(5) {
        4 => request.workflow = random.word_unlike(request.workflow),
        i => request.arguments[i] = random.word_unlike(request.arguments[i]),
    }
    request
}
