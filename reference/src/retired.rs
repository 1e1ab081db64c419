//! What W-209 promises of a list of calls: the floor only rises, an id below it is gone for good,
//! and what it did in the plain run stays as it is.

use std::collections::BTreeMap;

use crate::agents::Agent;
use crate::calls::Call;
use crate::plain::{Machine, State};
use crate::store::{of_book_key, Key, Store, FLOOR_KEY};
use crate::worklist::reply_from_log;

/// Watches the floor from call to call. A fresh store has floor 0.
#[derive(Clone, Debug, Default)]
pub struct Retired {
    /// The ids that were retired, with the moves that the plain machine had made for them.
    moves: BTreeMap<u32, usize>,
    floor: u32,
    /// The first thing that was wrong.
    pub violation: Option<String>,
}

impl Retired {
    /// How many requests were retired.
    pub fn requests(&self) -> usize {
        self.moves.len()
    }

    /// A call, what it was given and what it left, and the plain machine behind it.
    pub fn see(&mut self, machine: &Machine, call: &Call, (given, left): (&State, &State)) {
        // A call that left bytes which are no store was blamed for them by demand 3.
        let (Ok(before), Ok(after)) = (
            Store::lay_out(given.store.as_slice()),
            Store::lay_out(left.store.as_slice()),
        ) else {
            return;
        };
        self.see_floor(call, &before, &after);
        for id in before.booked_ids() {
            if after.request(id).is_none() {
                self.see_gone(machine, id, given, &before);
            }
        }
        if matches!(call, Call::Retire { .. }) {
            if given.slots != left.slots || given.list != left.list {
                self.blame(format!("{call:?} changed slots or worklist"));
            }
            self.see_rows(call, &before, &after);
        }
        self.see_below(left, &after);
        self.see_machine(machine);
    }

    /// Only a retire changes the floor, to the number that it names, and only upwards.
    fn see_floor(&mut self, call: &Call, before: &Store<&[u8]>, after: &Store<&[u8]>) {
        let (old, new) = (before.floor(), after.floor());
        if new < old {
            self.blame(format!("{call:?} lowered the floor from {old} to {new}"));
        }
        if new != old && *call != (Call::Retire { floor: new }) {
            self.blame(format!("{call:?} changed the floor to {new}"));
        }
        self.floor = new;
    }

    /// An id left the book: it is below the floor now, and its reply could be worked out from the
    /// log, with no agent and no place on the worklist.
    fn see_gone(&mut self, machine: &Machine, id: u32, given: &State, before: &Store<&[u8]>) {
        if id >= self.floor {
            self.blame(format!(
                "id {id} left the book, the floor is {}",
                self.floor
            ));
        }
        if reply_from_log(machine.pack(), before, id).is_none() {
            self.blame(format!("id {id} left the book and was not logged through"));
        }
        let is_its = |agent: &Agent| agent.is_in_use() && agent.id == id;
        if given.slots.iter().any(is_its) || given.list.is_listed(id) {
            self.blame(format!("id {id} left the book from a slot or the worklist"));
        }
        if !machine.has_booked(id) {
            self.blame(format!("the plain run does not count id {id}"));
        }
        self.moves.insert(id, machine.moves(id));
    }

    /// A retire: the rows of smaller ids go, and the floor comes. One that left the floor was
    /// refused, and left all rows.
    fn see_rows(&mut self, call: &Call, before: &Store<&[u8]>, after: &Store<&[u8]>) {
        let book = before.shape().book();
        for partition in 0..=book {
            let of_book = partition == book;
            let (old, new) = (rows(before, partition), rows(after, partition));
            let is_floor = |key: &u64| of_book && *key == FLOOR_KEY;
            let stays = |key: &u64| id_of(*key, of_book).is_none_or(|id| id >= self.floor);
            let mut gone = old.keys().filter(|key| !new.contains_key(key));
            let mut other = new
                .iter()
                .filter(|(key, value)| old.get(key) != Some(value));
            let gone = gone.find(|key| stays(key));
            let other = other.find(|(key, _)| !is_floor(key)).map(|(key, _)| key);
            if let Some(key) = gone.or(other) {
                self.blame(format!(
                    "{call:?} changed row {key} of partition {partition}"
                ));
            }
        }
        if before.floor() == after.floor() && before.bytes() != after.bytes() {
            self.blame(format!("{call:?} left the floor and changed rows"));
        }
    }

    /// An id below the floor has no row in book and log, no agent and no place on the worklist.
    fn see_below(&mut self, left: &State, store: &Store<&[u8]>) {
        let floor = self.floor;
        let book = store.shape().book();
        for partition in 0..=book {
            let of_book = partition == book;
            let mut ids = store
                .rows(partition)
                .filter_map(|(key, _)| id_of(key, of_book));
            if let Some(id) = ids.find(|id| *id < floor) {
                self.blame(format!("id {id} has a row, the floor is {floor}"));
            }
        }
        let mut agents = left.slots.iter().filter(|agent| agent.is_in_use());
        if let Some(agent) = agents.find(|agent| agent.id < floor) {
            let id = agent.id;
            self.blame(format!("id {id} is in a slot, the floor is {floor}"));
        }
        if let Some(id) = left.list.ids().into_iter().find(|id| *id < floor) {
            self.blame(format!("id {id} is listed, the floor is {floor}"));
        }
    }

    /// The plain run still counts retired requests, and none of them acts again.
    fn see_machine(&mut self, machine: &Machine) {
        let again = self
            .moves
            .iter()
            .find(|(id, moves)| machine.moves(**id) != **moves);
        if let Some((id, _)) = again {
            self.blame(format!("id {id} was retired and acts again"));
        }
    }

    /// A turn replied.
    pub fn see_reply(&mut self, id: u32) {
        if id < self.floor {
            self.blame(format!("id {id} replied, the floor is {}", self.floor));
        }
    }

    fn blame(&mut self, what: String) {
        self.violation.get_or_insert(what);
    }
}

fn rows(store: &Store<&[u8]>, partition: usize) -> BTreeMap<u64, u32> {
    store.rows(partition).collect()
}

/// The id of a book or log row; a data row and the floor's have none.
fn id_of(key: u64, of_book: bool) -> Option<u32> {
    match (of_book, Key::of_stored(key)) {
        (true, _) => of_book_key(key).map(|(id, _)| id),
        (false, Some(Key::Log { id, .. })) => Some(id),
        (false, _) => None,
    }
}
