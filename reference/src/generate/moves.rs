//! Lists of calls on a pack whose only workflow is MOVE (W-207): few ids and few keys, so that
//! requests meet in the same data rows, and refused calls of every kind among the others.
//!
//! Question 21 never says no in such a list: a book of C rows has at most C / 5 requests, and
//! each takes at most two rows of a partition, a log row and a data row. Those that are retired
//! (W-209) leave data rows, but of few keys.

use super::workers::with_worklist;
use crate::agents::{Slots, ALL_EMPTY, SLOTS};
use crate::calls::Call;
use crate::pack::encode;
use crate::random::Random;
use crate::store::{fresh, Request, Store, BOOK_ROWS, MOST_ROWS};
use crate::sums::{under_way, MOVE};

/// Where a sum of 32-bit amounts wraps, and where it is easily taken for divisible.
const AMOUNTS: [u32; 8] = [
    0,
    1,
    30,
    0x7FFF_FFFF,
    0x8000_0000,
    0x8000_0001,
    0xFFFF_FFE2,
    0xFFFF_FFFF,
];
const IDS: [u32; 6] = [1, 7, 8, 65_535, 65_536, u32::MAX];
/// 256 and 65,536 are slot 0 where a number is cut to 8 or 16 bits.
const NO_SLOTS: [u32; 8] = [8, 9, 15, 16, 255, 256, 65_536, u32::MAX];
const NO_WORKFLOWS: [u32; 5] = [1, 2, 16, 65_536, u32::MAX];

/// A list for W-207: the pack of MOVE, a fresh store and calls.
pub fn move_list(random: &mut Random) -> (Vec<u8>, Vec<u8>, Vec<Call>) {
    let mut moves = Moves::new(random);
    let store = moves.store.clone();
    let count = match random.below(10) {
        0 => random.below(10),
        1..=6 => random.between(10, 80),
        _ => random.between(80, 250),
    };
    let calls: Vec<Call> = (0..count).map(|_| moves.next(random)).collect();
    let calls = with_worklist(random, &moves.pack, &store, &calls);
    (moves.pack, store, calls)
}

/// A runtime that is driven by chance, with the requests that may come.
struct Moves {
    pack: Vec<u8>,
    store: Vec<u8>,
    slots: Slots,
    /// Fewer starts and crashes, so that agents come to their replies.
    calm: bool,
    requests: Vec<Request>,
}

impl Moves {
    fn new(random: &mut Random) -> Self {
        let partitions = match random.below(12) {
            // MOVE names partition 1, which is not there: 13.
            0 => 1,
            1..=7 => 2,
            _ => random.between(3, 8),
        };
        let rows = match random.below(12) {
            0 => random.between(5, 9),
            1..=7 => random.between(10, 30),
            8..=9 => random.between(30, 60),
            10 => random.between(60, MOST_ROWS),
            _ => MOST_ROWS,
        };
        // At times more than the book has room for: 19.
        let count = random.between(1, rows / BOOK_ROWS + 3);
        Self {
            pack: encode(&[MOVE.to_vec()]),
            store: fresh(partitions as u32, rows as u32).expect("numbers in range"),
            slots: ALL_EMPTY,
            calm: random.one_in(2),
            requests: some_requests(random, count),
        }
    }

    /// The next call, which is made too. Refusals are part of a list.
    fn next(&mut self, random: &mut Random) -> Call {
        let call = self.next_call(random);
        let _ = call.perform(&self.pack, &mut self.store, &mut self.slots);
        call
    }

    fn next_call(&self, random: &mut Random) -> Call {
        let chance = match self.calm && random.one_in(2) {
            true => 0,
            false => random.below(100),
        };
        match chance {
            0..=52 => self.on_agent(random, |slot| Call::Turn { slot }),
            53..=64 => self.arrival(random),
            65..=73 => self.retry(random),
            74..=84 => self.crash(random),
            85..=87 => Call::Restart,
            88..=91 => Call::PutInOrder,
            _ => self.refused(random),
        }
    }

    /// Most of them end an agent of a request under way, so that amounts stay so without one.
    fn crash(&self, random: &mut Random) -> Call {
        let between = self.slots_under_way();
        match between.is_empty() || random.one_in(4) {
            true => self.on_agent(random, |slot| Call::Crash { slot }),
            false => Call::Crash {
                slot: random.pick(&between),
            },
        }
    }

    /// The slots with agents whose requests are under way.
    fn slots_under_way(&self) -> Vec<u32> {
        let store = Store::lay_out(self.store.as_slice()).expect("a store that ran");
        let ids: Vec<u32> = under_way(&store).iter().map(|(id, _)| *id).collect();
        let stands = |slot: &u32| ids.contains(&self.slots[*slot as usize].id);
        (0..SLOTS as u32).filter(stands).collect()
    }

    /// A turn or a crash; an arrival where no agent stands.
    fn on_agent(&self, random: &mut Random, call: impl Fn(u32) -> Call) -> Call {
        match self.some_slot(random, true) {
            Some(slot) => call(slot),
            None => self.arrival(random),
        }
    }

    fn arrival(&self, random: &mut Random) -> Call {
        let slot = self.empty_slot(random);
        let request = random.pick(&self.requests);
        Call::Arrival { slot, request }
    }

    /// A third of them start a second agent of a request that has one in a slot.
    fn retry(&self, random: &mut Random) -> Call {
        let slot = self.empty_slot(random);
        let id = match self.some_slot(random, true) {
            Some(other) if random.one_in(3) => self.slots[other as usize].id,
            _ => random.pick(&self.requests).id,
        };
        Call::Retry { slot, id }
    }

    /// A call that is refused: 15, 16, 24, 17, 18 (if the id is booked) or 20.
    fn refused(&self, random: &mut Random) -> Call {
        let slot = self.empty_slot(random);
        let mut request = random.pick(&self.requests);
        match random.below(6) {
            0 => {
                let on_agent = random.one_in(2);
                let slot = random.pick(&NO_SLOTS);
                return self.any_call(random, slot, on_agent);
            }
            1 => {
                let on_agent = random.one_in(2);
                let slot = self.some_slot(random, !on_agent).unwrap_or(0);
                return self.any_call(random, slot, on_agent);
            }
            2 => request.id = 0,
            3 => request.workflow = random.pick(&NO_WORKFLOWS),
            4 => request = self.changed(random, request),
            _ => {
                let any = random.number() as u32;
                let id = random.pick(&[0, request.id ^ 0x10000, any]);
                return Call::Retry { slot, id };
            }
        }
        Call::Arrival { slot, request }
    }

    /// A request under way, or else this one, with one other argument, often the amount.
    fn changed(&self, random: &mut Random, request: Request) -> Request {
        let store = Store::lay_out(self.store.as_slice()).expect("a store that ran");
        let first = under_way(&store).first().copied();
        let booked = first.and_then(|(id, _)| store.request(id));
        let mut request = booked.unwrap_or(request);
        let argument = &mut request.arguments[random.pick(&[0, 1, 2, 2, 2, 3])];
        *argument = random.word_unlike(*argument);
        request
    }

    /// A turn or a crash, or else an arrival or a retry, in this slot.
    fn any_call(&self, random: &mut Random, slot: u32, on_agent: bool) -> Call {
        let request = random.pick(&self.requests);
        match (on_agent, random.one_in(2)) {
            (true, true) => Call::Turn { slot },
            (true, false) => Call::Crash { slot },
            (false, true) => Call::Arrival { slot, request },
            (false, false) => Call::Retry {
                slot,
                id: request.id,
            },
        }
    }

    fn empty_slot(&self, random: &mut Random) -> u32 {
        self.some_slot(random, false).unwrap_or(0)
    }

    /// A slot in use or an empty one, if there is such a one; few at a time, so that agents
    /// come far.
    fn some_slot(&self, random: &mut Random, in_use: bool) -> Option<u32> {
        let fits = |slot: &u32| self.slots[*slot as usize].is_in_use() == in_use;
        let slots: Vec<u32> = (0..SLOTS as u32).filter(fits).collect();
        let few = match random.one_in(8) {
            true => slots.len(),
            false => slots.len().min(3),
        };
        (few > 0).then(|| slots[random.below(few)])
    }
}

/// Requests with few ids, of which some come twice with other arguments, and few keys.
fn some_requests(random: &mut Random, count: usize) -> Vec<Request> {
    let keys: Vec<u32> = (0..random.between(1, 4)).map(|_| random.word()).collect();
    let ids = 2 * count;
    (0..count)
        .map(|_| some_request(random, &keys, ids))
        .collect()
}

fn some_request(random: &mut Random, keys: &[u32], ids: usize) -> Request {
    let id = match random.one_in(6) {
        true => random.pick(&IDS),
        false => random.between(1, ids) as u32,
    };
    let from = random.pick(keys);
    let to = match random.one_in(4) {
        true => from,
        false => random.pick(keys),
    };
    let amount = match random.one_in(4) {
        true => random.number() as u32,
        false => random.pick(&AMOUNTS),
    };
    Request {
        id,
        workflow: 0,
        arguments: [from, to, amount, random.word()],
    }
}
