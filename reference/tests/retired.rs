//! W-209 on generated lists of calls: the floor only rises, retired requests are gone for good and
//! still count in the plain run, W-207 and W-208 hold beside it; and runtimes that let a retired
//! request act again, or that remove too much or too little, are seen.

mod common;

use common::spoiled::*;
use common::*;
use reference::calls::retire;
use reference::generate::{any_list, move_list, retiring_list, worked_list};
use reference::plain::{check_list, State};
use reference::random::Random;
use reference::store::{Key, Store, FLOOR_KEY};
use reference::worklist::{Entry, WAITING};
use reference::{Agent, Answer, Call, Outcome, Pack, Worklist};

#[test]
fn retired_requests_are_gone_and_still_count_in_generated_lists() {
    let total = total(209, 1_500, retiring_list);
    assert!(total.retires > 6_000 && total.retired > 12_000, "{total:?}");
    let reached = [total.bookings, total.retries, total.crashes, total.restarts];
    assert!(reached.iter().all(|times| *times > 3_000), "{total:?}");
    assert!(total.times_under_way > 10_000, "{total:?}");
    for question in [19, 20, 21, 28, 29, 30] {
        assert!(total.refused[question] > 1_000, "{question}: {total:?}");
    }
}

/// The lists for demand 3, W-207 and W-208 have retires too.
#[test]
fn retires_stand_in_the_other_lists() {
    for make in [any_list, move_list, worked_list] {
        let total = total(210, 500, make);
        assert!(total.retires > 60 && total.retired > 100, "{total:?}");
        let late = [28, 29, 30].map(|question| total.refused[question]);
        assert!(late.iter().all(|times| *times > 20), "{late:?}");
    }
}

/// As many moves as a book of C = 256 has no room for, on one of C = 16.
#[test]
fn many_moves_go_through_a_small_book() {
    let mut state = State::new(reference::store::fresh(2, 16).expect("in range"));
    let pack = move_pack();
    let mut calls = Vec::new();
    for id in 1..=500 {
        let slot = id % 8;
        let request = request(id);
        calls.push(Call::Arrival { slot, request });
        calls.extend([Call::Turn { slot }; 4]);
        if id % 2 == 0 {
            calls.push(Call::Retire { floor: id + 1 });
        }
    }
    let tally = check_list(&pack, state.store.clone(), &calls).expect("W-209");
    assert_eq!((tally.bookings, tally.first_replies), (500, 500));
    assert_eq!((tally.retires, tally.retired), (250, 500));
    let outcomes: Vec<Outcome> = calls
        .iter()
        .map(|call| state.perform(&pack, call))
        .collect();
    assert!(outcomes.iter().all(Result::is_ok));
    // What they did stays, and all of them may come late.
    let given = state.clone();
    for id in 1..=500 {
        let request = request(id);
        let late = state.perform(&pack, &Call::Arrival { slot: 0, request });
        assert_eq!(question(late), 30);
    }
    assert_eq!(state, given);
    let store = Store::read(state.store.as_slice()).expect("right");
    assert_eq!(store.find(1, data(200)), Some(500 * 30));
}

/// On how many of 200 lists the witness sees a violation, and in these words.
fn seen(words: &str, mut make: impl FnMut() -> Box<dyn Spoiled>) -> usize {
    let caught = |list: &u64| {
        let (pack, store, calls) = retiring_list(&mut Random::of_item(9, *list));
        let result = watch(&pack, store, &calls, make().as_mut());
        result.is_err_and(|violation| violation.contains(words))
    };
    (0..200).filter(caught).count()
}

fn laid_out(bytes: &mut [u8]) -> Store<&mut [u8]> {
    Store::lay_out(bytes).expect("laid out")
}

fn set_floor(state: &mut State, floor: u32) {
    let mut store = laid_out(&mut state.store);
    let book = store.shape().book();
    store.put(book, FLOOR_KEY, floor);
}

/// A runtime whose accepted retires leave something else: from what was given and what is right.
struct Leaves(fn(floor: u32, given: &State, left: &mut State));
impl Spoiled for Leaves {
    fn instead(&mut self, pack: &[u8], call: &Call, state: &mut State) -> Option<Outcome> {
        let Call::Retire { floor } = *call else {
            return None;
        };
        let given = state.clone();
        let outcome = state.perform(pack, call);
        if outcome.is_ok() {
            self.0(floor, &given, state);
        }
        Some(outcome)
    }
}

/// The rows of a partition, or of the book, that `back` says come back as they were given.
fn put_back(given: &State, left: &mut State, back: impl Fn(usize, u64) -> bool) {
    let before = Store::lay_out(given.store.as_slice()).expect("laid out");
    let mut after = laid_out(&mut left.store);
    for partition in 0..=before.shape().book() {
        for (key, value) in before.rows(partition) {
            if back(partition, key) {
                after.put(partition, key, value);
            }
        }
    }
}

#[test]
fn the_witness_sees_other_rows() {
    assert_eq!(seen("", || Box::new(Honest)), 0);
    let leaves = |words: &str, how: fn(u32, &State, &mut State)| {
        let times = seen(words, || Box::new(Leaves(how)));
        assert!(times > 40, "{words}: {times}");
    };
    leaves("has a row, the floor is", |_, given, left| {
        put_back(given, left, |partition, key| {
            partition == 0 && key < 1 << 63
        });
    });
    leaves("changed the floor to", |floor, _, left| {
        set_floor(left, floor.saturating_add(1));
    });
    leaves("changed the floor to", |floor, _, left| {
        set_floor(left, floor - 1);
    });
    leaves("left the book, the floor is", |_, given, left| {
        // The floor stays as it was.
        let old = Store::lay_out(given.store.as_slice())
            .expect("laid out")
            .floor();
        set_floor(left, old);
    });
    leaves("changed row", |_, _, left| {
        keep_rows(&mut left.store, |_, key| matches!(key, Key::Log { .. }));
    });
    leaves("changed row", |_, _, left| {
        keep_rows(&mut left.store, |_, key| matches!(key, Key::Data(_)));
    });
    leaves("changed slots or worklist", |floor, _, left| {
        let mark = WAITING;
        left.list.entries.push(Entry { id: floor, mark });
    });
}

/// Retires without a look at log, slots or list.
struct AsksNothing(fn(&mut State, floor: u32) -> bool);
impl Spoiled for AsksNothing {
    fn instead(&mut self, _: &[u8], call: &Call, state: &mut State) -> Option<Outcome> {
        let Call::Retire { floor } = *call else {
            return None;
        };
        if !self.0(state, floor) {
            return None;
        }
        let mut store = laid_out(&mut state.store);
        if store.booked_ids().iter().any(|id| *id < floor) {
            reference::retire::retire(&mut store, floor);
            return Some(Ok(Answer::Done));
        }
        None
    }
}

/// Asks 28 of the log only: slots and list are shown empty.
struct LogOnly;
impl Spoiled for LogOnly {
    fn instead(&mut self, pack: &[u8], call: &Call, state: &mut State) -> Option<Outcome> {
        let Call::Retire { floor } = *call else {
            return None;
        };
        let slots = [Agent::EMPTY; 8];
        let list = Worklist::default();
        Some(retire(pack, &mut state.store, &slots, &list, floor))
    }
}

/// An arrival below the floor is booked again, as if it were new.
struct LateRepeat;
impl Spoiled for LateRepeat {
    fn instead(&mut self, pack: &[u8], call: &Call, state: &mut State) -> Option<Outcome> {
        let Call::Arrival { slot, request } = *call else {
            return None;
        };
        let mut store = laid_out(&mut state.store);
        let (floor, book) = (store.floor(), store.shape().book());
        let is_right = Pack::read(pack).is_ok_and(|p| p.workflow(request.workflow).is_some());
        let empty = state.slots.get(slot as usize).is_some_and(Agent::is_empty);
        if request.id == 0 || request.id >= floor || store.free(book) < 5 || !is_right || !empty {
            return None;
        }
        store.book(&request);
        state.slots[slot as usize] = Agent::started(request.id, request.arguments);
        Some(Ok(Answer::Done))
    }
}

/// A retry finds a retired request in some memory of its own.
#[derive(Default)]
struct Remembers(Vec<reference::store::Request>);
impl Spoiled for Remembers {
    fn instead(&mut self, pack: &[u8], call: &Call, state: &mut State) -> Option<Outcome> {
        match *call {
            Call::Arrival { request, .. } => {
                let outcome = state.perform(pack, call);
                if outcome.is_ok() {
                    self.0.push(request);
                }
                Some(outcome)
            }
            Call::Retry { slot, id } => {
                let known = self.0.iter().find(|request| request.id == id)?;
                let slot = state.slots.get_mut(slot as usize)?;
                if !slot.is_empty() {
                    return None;
                }
                *slot = Agent::started(id, known.arguments);
                Some(Ok(Answer::Done))
            }
            _ => None,
        }
    }
}

/// A call beside retire lowers the floor, drops its row, or retires on its own.
struct Meddles(fn(&Call, &mut State));
impl Spoiled for Meddles {
    fn leave(&mut self, call: &Call, _: &[u8], left: &mut State) {
        self.0(call, left);
    }
}

/// A turn replies for a request that was retired.
#[derive(Default)]
struct RepliesLate;
impl Spoiled for RepliesLate {
    fn instead(&mut self, pack: &[u8], call: &Call, state: &mut State) -> Option<Outcome> {
        let floor = laid_out(&mut state.store).floor();
        let outcome = state.perform(pack, call);
        match outcome {
            Ok(Answer::Reply { value, .. }) if floor > 1 => {
                let id = floor - 1;
                Some(Ok(Answer::Reply { id, value }))
            }
            _ => Some(outcome),
        }
    }
}

#[test]
fn the_witness_sees_what_acts_again_or_goes_too_early() {
    let early = |how| move || -> Box<dyn Spoiled> { Box::new(AsksNothing(how)) };
    assert!(seen("was not logged through", early(|_, _| true)) > 30);
    assert!(seen("from a slot or the worklist", || Box::new(LogOnly)) > 30);
    assert!(seen("has a row, the floor is", || Box::new(LateRepeat)) > 30);
    assert!(seen("the store is refused: 12", || Box::new(LateRepeat)) > 30);
    assert!(seen("is in a slot, the floor is", || Box::<Remembers>::default()) > 30);
    assert!(seen("replied, the floor is", || Box::new(RepliesLate)) > 30);
}

#[test]
fn the_witness_sees_a_floor_that_others_change() {
    let meddles = |words: &str, how: fn(&Call, &mut State)| {
        let times = seen(words, || Box::new(Meddles(how)));
        assert!(times > 30, "{words}: {times}");
    };
    meddles("lowered the floor", |call, state| {
        let floor = laid_out(&mut state.store).floor();
        if *call == Call::Restart && floor > 0 {
            set_floor(state, floor - 1);
        }
    });
    // The row goes with a restart.
    meddles("lowered the floor", |call, state| {
        if *call == Call::Restart {
            let mut store = laid_out(&mut state.store);
            let book = store.shape().book();
            store.remove(book, |key| key == FLOOR_KEY);
        }
    });
    meddles("changed the floor to", |call, state| {
        let mut store = laid_out(&mut state.store);
        let none = store.booked_ids().is_empty();
        if matches!(call, Call::Arrival { .. }) && none && store.floor() > 0 {
            let floor = store.floor().saturating_add(1);
            let book = store.shape().book();
            store.put(book, FLOOR_KEY, floor);
        }
    });
    meddles("is listed, the floor is", |call, state| {
        let floor = laid_out(&mut state.store).floor();
        if let Call::Add { id } = *call {
            if id < floor && !state.list.is_listed(id) {
                let mark = WAITING;
                state.list.entries.push(Entry { id, mark });
            }
        }
    });
}
