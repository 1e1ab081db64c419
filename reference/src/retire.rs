//! Retiring old requests (W-209): what questions 28 and 29 ask of the ids below a floor, and which
//! rows go. The freed rows may be used again; the floor stays in the book, in a row of its own.

use crate::agents::Slots;
use crate::pack::Pack;
use crate::refusal::{ask, Refusal};
use crate::store::{of_book_key, Key, Store, FLOOR_KEY};
use crate::worklist::{reply_from_log, Worklist};

/// Question 28 of every booked id below the floor, and then 29. Pack, store, slots and list passed
/// 13, 14 and 25.
pub fn ask_retire<B: AsRef<[u8]>>(
    pack: &Pack,
    store: &Store<B>,
    slots: &Slots,
    list: &Worklist,
    floor: u32,
) -> Result<(), Refusal> {
    let mut smaller = store.booked_ids();
    smaller.retain(|id| *id < floor);
    let may_go = |id: &u32| {
        // An empty record has id 0 and is no agent of it.
        let in_slot = slots
            .iter()
            .any(|agent| agent.is_in_use() && agent.id == *id);
        reply_from_log(pack, store, *id).is_some() && !in_slot && !list.is_listed(*id)
    };
    ask(28, smaller.iter().all(may_go))?;
    ask(29, !smaller.is_empty())
}

/// Removes the book and log rows of every id below the floor, booked or not, and keeps the floor.
/// Data rows stay. The five rows of a request came free, so that the floor's row has room.
pub fn retire<B: AsRef<[u8]> + AsMut<[u8]>>(store: &mut Store<B>, floor: u32) {
    let book = store.shape().book();
    store.remove(book, |key| {
        of_book_key(key).is_some_and(|(id, _)| id < floor)
    });
    store.put(book, FLOOR_KEY, floor);
    for partition in 0..book {
        store.remove(
            partition,
            |key| matches!(Key::of_stored(key), Some(Key::Log { id, .. }) if id < floor),
        );
    }
}
