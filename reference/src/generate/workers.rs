//! Lists of calls with a worklist (W-208): a host that accepts requests and puts them on the
//! list, and workers that take, finish and remove them, with crashes and restarts between. Now and
//! then the host retires old requests (W-209).

use super::keepers::some_retire;
use super::packs::Bounds;
use super::worklists::spoil_list;
use super::world::World;
use crate::agents::SLOTS;
use crate::calls::Call;
use crate::cases::{Case, ListCase};
use crate::pack::Pack;
use crate::plain::State;
use crate::random::Random;
use crate::store::{Request, Store};
use crate::worklist::{reply_from_log, Entry, Worklist, MOST_LISTED, TAKEN, WAITING};

/// A list of calls on a small store; mostly the worklist is empty at first.
pub fn list(random: &mut Random, lane: usize) -> Case {
    let most_size = random.pick(&[6, 10, 10, 14]);
    let mut host = Host::new(random, most_size, 16, false);
    match lane % 6 {
        // Ids that are not booked leave little room, or a list that 25 refuses.
        4 => host.list = others(random),
        5 => {
            host.list = others(random);
            spoil_list(random, &mut host.list, lane / 6);
        }
        _ => {}
    }
    let (store, list) = (host.world.store.clone(), host.list.clone());
    let count = random.between(12, 44);
    (0..count).for_each(|_| host.next(random));
    Case::List(Box::new(ListCase {
        pack: host.world.pack,
        store,
        slots: crate::agents::ALL_EMPTY,
        list,
        calls: host.calls,
    }))
}

fn others(random: &mut Random) -> Worklist {
    let count = random.between(MOST_LISTED - 3, MOST_LISTED - 1) as u32;
    let entry = |number: u32| Entry {
        id: 1_000 + number,
        mark: WAITING,
    };
    Worklist {
        entries: (0..count).map(entry).collect(),
    }
}

/// A list for demand 3 and W-208: the pack, a fresh store and calls.
pub fn worked_list(random: &mut Random) -> (Vec<u8>, Vec<u8>, Vec<Call>) {
    let is_eager = random.one_in(6);
    let rows = match is_eager {
        true => 120,
        false => random.pick(&[16, 30, 60]),
    };
    let mut host = Host::new(random, 16, rows, is_eager);
    let store = host.world.store.clone();
    let count = match random.below(10) {
        0 => random.below(10),
        1..=6 => random.between(20, 90),
        _ => random.between(90, 250),
    };
    (0..count).for_each(|_| host.next(random));
    (host.world.pack, store, host.calls)
}

/// Store and slots are the world's.
struct Host {
    world: World,
    list: Worklist,
    calls: Vec<Call>,
    /// It accepts more than its workers finish, so that 26 says no.
    is_eager: bool,
}

impl Host {
    /// On a fresh store.
    fn new(random: &mut Random, most_size: usize, rows: usize, is_eager: bool) -> Self {
        let bounds = Bounds {
            workflows: random.between(1, 2),
            least_size: 3,
            most_size,
            partitions: random.between(1, 2),
            with_blocks: !random.one_in(5),
        };
        let requests = match is_eager {
            true => 60,
            false => random.between(2, rows / 5 + 2),
        };
        Self {
            world: World::new(random, bounds, rows, requests),
            list: Worklist::default(),
            calls: Vec::new(),
            is_eager,
        }
    }

    /// The next call, which is made too. Refusals are part of a list.
    fn next(&mut self, random: &mut Random) {
        let call = self.next_call(random);
        let World {
            pack, store, slots, ..
        } = &mut self.world;
        let _ = call.perform_listed(pack, store, slots, &mut self.list);
        self.calls.push(call);
    }

    fn next_call(&self, random: &mut Random) -> Call {
        match random.below(20) {
            0..=11 if self.is_eager && !random.one_in(8) => self.accept(random),
            0..=11 => self.work(random),
            12..=15 => on_list(random, &self.world.pack, &self.world.store, &self.list),
            16 => self.crash(random),
            17 if random.one_in(2) => Call::Restart,
            17 => {
                let World {
                    pack, store, slots, ..
                } = &self.world;
                some_retire(random, pack, store, slots, &self.list)
            }
            _ => {
                let event = self.world.next_event(random);
                self.world.schedule.call(&event)
            }
        }
    }

    /// What brings a listed request on: done where it is logged through, a turn of its agent,
    /// a retry that gives it one, take where none is taken; else a request is accepted.
    fn work(&self, random: &mut Random) -> Call {
        let taken = self.list.marked(TAKEN);
        let Some(id) = taken.get(random.below(taken.len())).copied() else {
            let waits = !self.list.marked(WAITING).is_empty();
            return match waits && !random.one_in(3) {
                true => Call::Take,
                false => self.accept(random),
            };
        };
        if is_through(&self.world.pack, &self.world.store, id) && !random.one_in(3) {
            return Call::Done { id };
        }
        match (0..SLOTS).find(|slot| self.world.slots[*slot].id == id) {
            Some(slot) => Call::Turn { slot: slot as u32 },
            None => {
                let slot = self.world.some_slot(random, false);
                let slot = slot.map_or(0, u32::from);
                Call::Retry { slot, id }
            }
        }
    }

    /// Add of a booked id that is to be finished; else an arrival, mostly of a new id, for
    /// which a slot may have to be emptied.
    fn accept(&self, random: &mut Random) -> Call {
        let World { pack, store, .. } = &self.world;
        let booked = booked_ids(store);
        let mut unlisted = booked.clone();
        unlisted.retain(|id| !self.list.is_listed(*id) && !is_through(pack, store, *id));
        if !unlisted.is_empty() && !random.one_in(4) {
            let id = random.pick(&unlisted);
            return Call::Add { id };
        }
        let Some(slot) = self.world.some_slot(random, false) else {
            return self.crash(random);
        };
        let requests = &self.world.schedule.requests;
        let is_new = |request: &&Request| request.id != 0 && !booked.contains(&request.id);
        let new = requests.iter().find(is_new).copied();
        let any = random.pick(requests);
        Call::Arrival {
            slot: u32::from(slot),
            request: new.filter(|_| !random.one_in(4)).unwrap_or(any),
        }
    }

    fn crash(&self, random: &mut Random) -> Call {
        let slot = self.world.some_slot(random, true);
        let slot = slot.map_or(0, u32::from);
        Call::Crash { slot }
    }
}

fn booked_ids(store: &[u8]) -> Vec<u32> {
    Store::lay_out(store).map_or(Vec::new(), |store| store.booked_ids())
}

/// Nothing is booked where 13 says no, since lists start from a fresh store.
pub fn is_through(pack: &[u8], store: &[u8], id: u32) -> bool {
    let (Ok(pack), Ok(store)) = (Pack::read(pack), Store::lay_out(store)) else {
        return false;
    };
    reply_from_log(&pack, &store, id).is_some()
}

/// A call on the list that mostly is accepted, by what stands in store and list.
pub fn on_list(random: &mut Random, pack: &[u8], store: &[u8], list: &Worklist) -> Call {
    let taken = list.marked(TAKEN).into_iter();
    let through: Vec<u32> = taken.filter(|id| is_through(pack, store, *id)).collect();
    let booked = booked_ids(store);
    match random.below(12) {
        0..=3 if !through.is_empty() => Call::Done {
            id: random.pick(&through),
        },
        4..=6 if !list.marked(WAITING).is_empty() => Call::Take,
        7..=10 if !booked.is_empty() => Call::Add {
            id: random.pick(&booked),
        },
        _ => near_miss(random, &booked, list),
    }
}

/// A call on the list that may be refused by 20 or 27.
fn near_miss(random: &mut Random, booked: &[u32], list: &Worklist) -> Call {
    let of = |random: &mut Random, ids: &[u32]| match ids.is_empty() {
        true => random.word(),
        false => random.pick(ids),
    };
    match random.below(5) {
        0 => Call::Add {
            id: of(random, booked) ^ random.pick(&[1, 1 << 16, 1 << 29]),
        },
        1 => Call::Done {
            id: of(random, &list.marked(WAITING)),
        },
        2 => Call::Done {
            id: of(random, booked),
        },
        3 => Call::Done {
            id: of(random, &list.marked(TAKEN)),
        },
        _ => Call::Take,
    }
}

/// Puts calls on the worklist between calls on a fresh store, and now and then a retire.
pub fn with_worklist(random: &mut Random, pack: &[u8], store: &[u8], calls: &[Call]) -> Vec<Call> {
    let mut state = State::new(store.to_vec());
    let mut all = Vec::with_capacity(calls.len());
    for call in calls {
        if random.one_in(4) {
            let more = on_list(random, pack, &state.store, &state.list);
            let _ = state.perform(pack, &more);
            all.push(more);
        }
        if random.one_in(16) {
            let State { store, slots, list } = &state;
            let retire = some_retire(random, pack, store, slots, list);
            let _ = state.perform(pack, &retire);
            all.push(retire);
        }
        let _ = state.perform(pack, call);
        all.push(*call);
    }
    all
}
