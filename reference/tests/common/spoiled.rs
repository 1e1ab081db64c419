//! Runtimes that someone spoiled, and a witness that watches them.

use reference::plain::{State, Tally, Witness};
use reference::store::{fresh, Key, Store};
use reference::{Call, Outcome, Pack, Slots};

/// A runtime that someone spoiled: may meddle with the state before a call and with the
/// outcome after it.
pub trait Spoiled {
    /// Does the call itself, in its own way.
    fn instead(&mut self, _pack: &[u8], _call: &Call, _state: &mut State) -> Option<Outcome> {
        None
    }
    fn before(&mut self, _call: &Call, _store: &mut Vec<u8>, _slots: &mut Slots) {}
    fn after(&mut self, _outcome: &mut Outcome, _slots: &mut Slots) {}
    fn leave(&mut self, _call: &Call, _given: &[u8], _left: &mut State) {}
    fn at_end(&mut self, _store: &mut Vec<u8>) {}
}

/// One call, as the spoiled runtime makes it.
pub fn perform(pack: &[u8], call: &Call, state: &mut State, spoiled: &mut dyn Spoiled) -> Outcome {
    let given = state.store.clone();
    spoiled.before(call, &mut state.store, &mut state.slots);
    let own = spoiled.instead(pack, call, state);
    let mut outcome = own.unwrap_or_else(|| state.perform(pack, call));
    spoiled.after(&mut outcome, &mut state.slots);
    spoiled.leave(call, &given, state);
    outcome
}

pub fn watch(
    pack: &[u8],
    store: Vec<u8>,
    calls: &[Call],
    spoiled: &mut dyn Spoiled,
) -> Result<Tally, String> {
    let mut state = State::new(store);
    let mut witness = Witness::new(Pack::read(pack).expect("a right pack"));
    for call in calls {
        let given = state.clone();
        let outcome = perform(pack, call, &mut state, spoiled);
        witness.see(call, &outcome);
        witness.see_left(call, &given, &state);
    }
    spoiled.at_end(&mut state.store);
    witness.close(&state.store)
}

/// Keeps only the rows that `keep` says.
pub fn keep_rows(bytes: &mut Vec<u8>, keep: impl Fn(usize, Key) -> bool) {
    let store = Store::lay_out(bytes.as_slice()).expect("laid out");
    let shape = store.shape();
    let empty = fresh(shape.partitions as u32, shape.rows as u32).expect("in range");
    let mut kept = Store::lay_out(empty).expect("fresh");
    for partition in 0..=shape.book() {
        for (key, value) in store.rows(partition) {
            let of_book = partition == shape.book();
            if of_book || Key::of_stored(key).is_some_and(|key| keep(partition, key)) {
                assert!(kept.put(partition, key, value));
            }
        }
    }
    *bytes = kept.bytes().to_vec();
}

pub struct Honest;
impl Spoiled for Honest {}

/// Right without crashes, never reads its log.
pub struct NoLog;
impl Spoiled for NoLog {
    fn before(&mut self, _: &Call, store: &mut Vec<u8>, _: &mut Slots) {
        keep_rows(store, |_, key| matches!(key, Key::Data(_)));
    }
}
