//! What W-208 promises of a list of calls: no listed request vanishes before its reply can be
//! worked out from the log, also across restarts. It still can be worked out later, unless the
//! request is retired (W-209).

use std::collections::BTreeMap;

use crate::calls::Call;
use crate::pack::Pack;
use crate::plain::State;
use crate::store::Store;
use crate::worklist::{reply_from_log, Worklist, TAKEN};

/// Watches the worklist from call to call. It starts empty, as the slots do.
#[derive(Clone, Debug, Default)]
pub struct Kept {
    /// The ids that left the list, with the reply that the log had for them.
    done: BTreeMap<u32, u32>,
    /// How often a restart found an id taken.
    pub waiting_again: usize,
    /// The first thing that was wrong.
    pub violation: Option<String>,
}

impl Kept {
    /// A call, what it was given and what it left, and the first replies so far.
    pub fn see(
        &mut self,
        pack: &Pack,
        call: &Call,
        (given, left): (&State, &State),
        replied: &BTreeMap<u32, u32>,
    ) {
        self.see_rest(call, given, left);
        // A call that left bytes which are no store was blamed for them by demand 3.
        let (Ok(before), Ok(after)) = (
            Store::lay_out(given.store.as_slice()),
            Store::lay_out(left.store.as_slice()),
        ) else {
            return;
        };
        self.see_list(call, &given.list, &left.list, &after);
        for id in gone(&given.list, &left.list) {
            let reply = reply_from_log(pack, &before, id);
            self.see_gone(call, id, reply, replied.get(&id));
        }
        if given.store != left.store {
            self.see_log(pack, &after);
        }
    }

    /// Add, take and done change neither store nor slots; other calls do not see the list,
    /// save restart.
    fn see_rest(&mut self, call: &Call, given: &State, left: &State) {
        let same_rest = given.store == left.store && given.slots == left.slots;
        match call {
            Call::Add { .. } | Call::Take | Call::Done { .. } if !same_rest => {
                self.blame(format!("{call:?} changed store or slots"));
            }
            Call::Add { .. } | Call::Take | Call::Done { .. } | Call::Restart => {}
            _ if given.list != left.list => self.blame(format!("{call:?} changed the list")),
            _ => {}
        }
    }

    /// The list passes 25, has booked ids only and keeps its order; after a restart all wait.
    fn see_list(&mut self, call: &Call, given: &Worklist, left: &Worklist, store: &Store<&[u8]>) {
        let ids = left.ids();
        if !left.is_right() {
            self.blame(format!("{call:?} left a list that 25 refuses"));
        }
        if let Some(id) = ids.iter().find(|id| store.request(**id).is_none()) {
            self.blame(format!("id {id} is listed and is not booked"));
        }
        let stayed = given.ids().into_iter().filter(|id| left.is_listed(*id));
        if !stayed.eq(ids.into_iter().filter(|id| given.is_listed(*id))) {
            self.blame(format!("{call:?} changed the order of entry"));
        }
        if *call == Call::Restart {
            self.waiting_again += given.marked(TAKEN).len();
            if !left.marked(TAKEN).is_empty() {
                self.blame("an id is taken after a restart".to_string());
            }
        }
    }

    /// An id left the list: a done of it, with a reply that the log has and that is every
    /// reply given.
    fn see_gone(&mut self, call: &Call, id: u32, reply: Option<u32>, replied: Option<&u32>) {
        if *call != (Call::Done { id }) {
            self.blame(format!("id {id} vanished by {call:?}"));
        }
        match (reply, replied) {
            (None, _) => self.blame(format!("id {id} vanished before its reply")),
            (Some(reply), Some(given)) if reply != *given => {
                self.blame(format!("id {id} replied {given}, the log says {reply}"));
            }
            (Some(reply), _) => _ = self.done.insert(id, reply),
        }
    }

    /// The reply of each id that was done can still be worked out, and is the same, unless the id
    /// is below the floor.
    fn see_log(&mut self, pack: &Pack, store: &Store<&[u8]>) {
        let floor = store.floor();
        let lost = self
            .done
            .iter()
            .filter(|(id, _)| **id >= floor)
            .find(|(id, reply)| reply_from_log(pack, store, **id) != Some(**reply));
        if let Some((id, reply)) = lost {
            self.blame(format!("the log has the reply {reply} of {id} no more"));
        }
    }

    /// A turn replied.
    pub fn see_reply(&mut self, id: u32, value: u32) {
        if self.done.get(&id).is_some_and(|reply| *reply != value) {
            self.blame(format!("id {id} was done and then replied {value}"));
        }
    }

    fn blame(&mut self, what: String) {
        self.violation.get_or_insert(what);
    }
}

/// The ids of a list that another one has not.
fn gone(given: &Worklist, left: &Worklist) -> Vec<u32> {
    let ids = given.ids().into_iter();
    ids.filter(|id| !left.is_listed(*id)).collect()
}
