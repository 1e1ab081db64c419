//! Lists of calls of a host that retires as it goes (W-209): ids rise, the book is small, and
//! repeats of retired requests come late.

use super::packs::{encoded_pack, Bounds};
use super::workers::{is_through, on_list};
use super::world::right_request;
use crate::agents::{Slots, ALL_EMPTY, SLOTS};
use crate::calls::Call;
use crate::cases::{Case, ListCase};
use crate::pack::encode;
use crate::plain::State;
use crate::random::Random;
use crate::store::{fresh, Request, Store, BOOK_ROWS};
use crate::sums::MOVE;
use crate::worklist::{Worklist, TAKEN, WAITING};

/// A list of calls on a small store: the book has room for one request to three beside the floor.
pub fn list(random: &mut Random, lane: usize) -> Case {
    let rows = match lane % 4 {
        // The first retire shuts it.
        0 => random.between(5, 9),
        1 => 10,
        _ => random.between(11, 16),
    };
    let mut keeper = Keeper::new(random, rows, lane % 2 == 1);
    let store = keeper.state.store.clone();
    let count = random.between(20, 48);
    (0..count).for_each(|_| keeper.next(random));
    Case::List(Box::new(ListCase {
        pack: keeper.pack,
        store,
        slots: ALL_EMPTY,
        list: Worklist::default(),
        calls: keeper.calls,
    }))
}

/// A list for demand 3, W-208 and W-209, and with MOVE for W-207: the pack, a fresh store and
/// calls.
pub fn retiring_list(random: &mut Random) -> (Vec<u8>, Vec<u8>, Vec<Call>) {
    let rows = match random.below(8) {
        0 => random.between(5, 10),
        1..=5 => random.between(11, 20),
        _ => random.between(20, 40),
    };
    let is_move = random.one_in(2);
    let mut keeper = Keeper::new(random, rows, is_move);
    let store = keeper.state.store.clone();
    let count = match random.below(10) {
        0 => random.below(20),
        1..=6 => random.between(40, 150),
        _ => random.between(150, 400),
    };
    (0..count).for_each(|_| keeper.next(random));
    (keeper.pack, store, keeper.calls)
}

/// What a host has, and what came so far.
struct Keeper {
    pack: Vec<u8>,
    workflows: usize,
    state: State,
    calls: Vec<Call>,
    /// All that arrived or may have, by rising id.
    requests: Vec<Request>,
    next_id: u32,
    /// The data keys that MOVE goes between.
    keys: Vec<u32>,
}

impl Keeper {
    fn new(random: &mut Random, rows: usize, is_move: bool) -> Self {
        let bounds = Bounds {
            workflows: random.between(1, 2),
            least_size: 3,
            most_size: 8,
            partitions: random.between(1, 2),
            with_blocks: true,
        };
        let (pack, partitions) = match is_move {
            true => (encode(&[MOVE.to_vec()]), random.between(2, 3)),
            false => (encoded_pack(random, bounds), bounds.partitions),
        };
        let store = fresh(partitions as u32, rows as u32).expect("numbers in range");
        Self {
            pack,
            workflows: if is_move { 1 } else { bounds.workflows },
            state: State::new(store),
            calls: Vec::new(),
            requests: Vec::new(),
            next_id: random.pick(&[1, 1, 7, 250, 65_530, u32::MAX - 40]),
            keys: (0..3).map(|_| random.word()).collect(),
        }
    }

    /// The next call, which is made too. Refusals are part of a list.
    fn next(&mut self, random: &mut Random) {
        let call = self.next_call(random);
        let _ = self.state.perform(&self.pack, &call);
        self.calls.push(call);
    }

    fn next_call(&mut self, random: &mut Random) -> Call {
        let State { store, slots, list } = &self.state;
        match random.below(26) {
            0..=12 => self.go_on(random),
            13 | 14 => self.arrival(random),
            15 | 16 => self.late(random),
            17 => match self.some_slot(random, true) {
                Some(slot) => Call::Crash { slot },
                None => Call::Restart,
            },
            18 if random.one_in(3) => Call::Restart,
            18 if random.one_in(3) => Call::PutInOrder,
            18 | 19 => on_list(random, &self.pack, store, list),
            20 => some_retire(random, &self.pack, store, slots, list),
            _ => self.go_on(random),
        }
    }

    /// A turn of an agent; else a retry of a request that is not logged through; else a new one
    /// arrives, where the book has room, or old ones are retired. A book that the floor shuts has
    /// only late repeats to come.
    fn go_on(&mut self, random: &mut Random) -> Call {
        if let Some(slot) = self.some_slot(random, true) {
            return Call::Turn { slot };
        }
        let store = Store::lay_out(self.state.store.as_slice()).expect("a store that ran");
        let is_open = |id: &u32| !is_through(&self.pack, &self.state.store, *id);
        if let Some(id) = store.booked_ids().into_iter().find(is_open) {
            return Call::Retry { slot: 0, id };
        }
        if store.free(store.shape().book()) >= BOOK_ROWS {
            return self.arrival(random);
        }
        if store.booked_ids().is_empty() && !random.one_in(6) {
            return self.late(random);
        }
        self.make_room(random)
    }

    /// A retire; or what takes an id off the list, where one is on it.
    fn make_room(&self, random: &mut Random) -> Call {
        let State { store, slots, list } = &self.state;
        let taken = list.marked(TAKEN).first().copied();
        match taken {
            Some(id) if is_through(&self.pack, store, id) => Call::Done { id },
            _ if !list.marked(WAITING).is_empty() => Call::Take,
            _ => some_retire(random, &self.pack, store, slots, list),
        }
    }

    /// A new request; its id is the next, or leaves one out.
    fn arrival(&mut self, random: &mut Random) -> Call {
        let slot = self.some_slot(random, false).unwrap_or(0);
        let id = self.next_id;
        let mut request = right_request(random, self.workflows, id);
        if self.workflows == 1 {
            request.arguments[0] = random.pick(&self.keys);
            request.arguments[1] = random.pick(&self.keys);
        }
        self.next_id = id.saturating_add(random.pick(&[1, 1, 1, 2]));
        self.requests.push(request);
        Call::Arrival { slot, request }
    }

    /// A repeat or a retry of a request that may be retired, or an add of one.
    fn late(&mut self, random: &mut Random) -> Call {
        let count = self.requests.len();
        if count == 0 {
            return self.arrival(random);
        }
        let slot = self.some_slot(random, false).unwrap_or(0);
        let early = random.below(count.min(6));
        let mut request = self.requests[random.pick(&[early, count - 1])];
        match random.below(8) {
            0 => Call::Add { id: request.id },
            1 | 2 => {
                let id = request.id;
                Call::Retry { slot, id }
            }
            3 => {
                request.workflow = self.workflows as u32;
                Call::Arrival { slot, request }
            }
            4 => {
                request.id = random.pick(&[0, request.id.saturating_sub(1)]);
                Call::Arrival { slot, request }
            }
            _ => Call::Arrival { slot, request },
        }
    }

    /// The first slot in use or empty, at times another.
    fn some_slot(&self, random: &mut Random, in_use: bool) -> Option<u32> {
        let fits = |slot: &u32| self.state.slots[*slot as usize].is_in_use() == in_use;
        let slots: Vec<u32> = (0..SLOTS as u32).filter(fits).collect();
        let few = match random.one_in(6) {
            true => slots.len().min(3),
            false => slots.len().min(1),
        };
        (few > 0).then(|| slots[random.below(few)])
    }
}

/// A retire of all that may go, of some of it, or of too much or nothing.
pub fn some_retire(
    random: &mut Random,
    pack: &[u8],
    store: &[u8],
    slots: &Slots,
    list: &Worklist,
) -> Call {
    let read = Store::lay_out(store).expect("a store that ran");
    let ids = read.booked_ids();
    let stays = |id: &&u32| {
        let has_agent = slots
            .iter()
            .any(|agent| agent.is_in_use() && agent.id == **id);
        has_agent || list.is_listed(**id) || !is_through(pack, store, **id)
    };
    let behind_last = ids.last().map_or(1, |id| id.saturating_add(1));
    let most = ids.iter().find(stays).copied().unwrap_or(behind_last);
    let floor = match random.below(8) {
        0 => behind_last,
        1 => random.pick(&[0, read.floor(), read.floor().saturating_add(1)]),
        2 => ids.get(random.below(ids.len())).copied().unwrap_or(0),
        3 => most.saturating_add(1),
        _ => most,
    };
    Call::Retire { floor }
}
