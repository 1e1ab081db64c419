//! W-208 on generated lists of calls: no listed request vanishes before its reply can be worked
//! out from the log, also across restarts; the calls feed nothing; and runtimes that lose a
//! request, or that do something beside, are seen. Retired requests are gone on purpose
//! (`tests/retired.rs`).

mod common;

use common::spoiled::*;
use common::*;
use reference::agents::{ALL_EMPTY, SLOTS};
use reference::generate::{any_list, move_list, worked_list};
use reference::plain::{check_list, State, Tally};
use reference::random::Random;
use reference::store::{Key, Store};
use reference::worklist::{reply_from_log, Entry, TAKEN, WAITING};
use reference::{Agent, Answer, Call, Outcome, Pack, Refusal};

fn is_on_list(call: &Call) -> bool {
    matches!(call, Call::Add { .. } | Call::Take | Call::Done { .. })
}

#[test]
fn nothing_listed_vanishes_in_generated_lists() {
    let total = total(208, 3_000, worked_list);
    let reached = [total.adds, total.takes, total.dones];
    assert!(reached.iter().all(|times| *times > 10_000), "{total:?}");
    assert!(total.waiting_again > 2_000, "{total:?}");
    assert!(total.crashes > 2_000 && total.restarts > 2_000, "{total:?}");
    assert!(total.first_replies > 1_500, "{total:?}");
    for question in [20, 26, 27] {
        assert!(total.refused[question] > 100, "{question}: {total:?}");
    }
    // A list that starts empty is always right.
    assert_eq!(total.refused[25], 0);
}

/// The same of the lists for demand 3 and for W-207, which have the calls between others.
#[test]
fn the_calls_stand_in_the_lists_of_demand_3_too() {
    for make in [any_list, move_list] {
        let total = total(209, 500, make);
        let reached = [total.adds, total.takes, total.dones, total.waiting_again];
        assert!(reached.iter().all(|times| *times > 200), "{total:?}");
    }
}

/// What a list comes to: answers of the calls that are not on the list, store and slots.
fn comes_to(pack: &[u8], store: &[u8], calls: &[Call]) -> (Vec<Outcome>, State) {
    let mut state = State::new(store.to_vec());
    let mut outcomes = Vec::new();
    for call in calls {
        let outcome = state.perform(pack, call);
        if !is_on_list(call) {
            outcomes.push(outcome);
        }
    }
    (outcomes, state)
}

/// The calls feed the plain machine nothing, and without them all others come to the same, save
/// retires, which read the list.
#[test]
fn the_calls_feed_nothing() {
    for list in 0..1_000 {
        let (pack, store, mut calls) = worked_list(&mut Random::of_item(210, list));
        calls.retain(|call| !matches!(call, Call::Retire { .. }));
        let (outcomes, left) = comes_to(&pack, &store, &calls);
        let others: Vec<Call> = calls.iter().copied().filter(|c| !is_on_list(c)).collect();
        let (plain, plain_left) = comes_to(&pack, &store, &others);
        assert_eq!(outcomes, plain, "list {list}");
        assert_eq!(
            (left.store, left.slots),
            (plain_left.store, plain_left.slots)
        );
        let fed = |calls: &[Call]| {
            let tally = check_list(&pack, store.clone(), calls).expect("demand 3");
            let Tally {
                bookings,
                moves,
                first_replies,
                later_replies,
                ..
            } = tally;
            (bookings, moves, first_replies, later_replies)
        };
        assert_eq!(fed(&calls), fed(&others), "list {list}");
    }
}

/// The reply of an agent that is started anew on a copy of the store, where no block runs.
fn reply_by_retry(pack: &[u8], store: &[u8], id: u32) -> Option<u32> {
    let mut state = State::new(store.to_vec());
    state.perform(pack, &Call::Retry { slot: 0, id }).ok()?;
    loop {
        let outcome = state.perform(pack, &Call::Turn { slot: 0 }).ok()?;
        if state.store != store {
            return None;
        }
        if let Answer::Reply { value, .. } = outcome {
            return Some(value);
        }
    }
}

/// Another way to work the reply out, which has nothing of the walk under test: an agent that
/// is retried replies without a change to the store where, and only where, the log leads
/// through, and with the same value.
#[test]
fn the_reply_from_the_log_is_what_a_retried_agent_replies() {
    let (mut through, mut not_yet) = (0, 0);
    for list in 0..300 {
        let (pack, store, calls) = worked_list(&mut Random::of_item(211, list));
        let mut state = State::new(store);
        let read = Pack::read(&pack).expect("a right pack");
        for call in &calls {
            let given = state.store.clone();
            let _ = state.perform(&pack, call);
            if state.store == given {
                continue;
            }
            let store = Store::read(state.store.as_slice()).expect("right");
            for id in store.booked_ids() {
                let reply = reply_from_log(&read, &store, id);
                assert_eq!(
                    reply,
                    reply_by_retry(&pack, &state.store, id),
                    "list {list}"
                );
                through += usize::from(reply.is_some());
                not_yet += usize::from(reply.is_none());
            }
        }
    }
    assert!(through > 2_000 && not_yet > 2_000, "{through} {not_yet}");
}

/// A request that has replied is logged through, with that reply, from then on, unless it is
/// retired.
#[test]
fn each_reply_ever_given_is_the_reply_from_the_log() {
    let (mut replies, mut retired) = (0, 0);
    for list in 0..500 {
        let (pack, store, calls) = any_list(&mut Random::of_item(212, list));
        let mut state = State::new(store);
        let read = Pack::read(&pack).expect("a right pack");
        let mut given = Vec::new();
        for call in &calls {
            if let Ok(Answer::Reply { id, value }) = state.perform(&pack, call) {
                given.push((id, value));
            }
        }
        let store = Store::read(state.store.as_slice()).expect("right");
        for (id, value) in given {
            if id < store.floor() {
                retired += 1;
                continue;
            }
            assert_eq!(
                reply_from_log(&read, &store, id),
                Some(value),
                "list {list}"
            );
            replies += 1;
        }
    }
    assert!(replies > 1_000 && retired > 100, "{replies} {retired}");
}

/// On how many of 300 lists the witness sees a violation, and in these words.
fn seen(words: &str, mut make: impl FnMut() -> Box<dyn Spoiled>) -> usize {
    let caught = |list: &u64| {
        let (pack, store, calls) = worked_list(&mut Random::of_item(5, *list));
        let result = watch(&pack, store, &calls, make().as_mut());
        result.is_err_and(|violation| violation.contains(words))
    };
    (0..300).filter(caught).count()
}

/// Accepts done of a taken id without a look at its log.
struct DoneUnlogged;
impl Spoiled for DoneUnlogged {
    fn instead(&mut self, _: &[u8], call: &Call, state: &mut State) -> Option<Outcome> {
        let Call::Done { id } = *call else {
            return None;
        };
        Some(state.list.done(id, true).map(|()| Answer::Done))
    }
}

/// Takes the first log row of an id for all of them.
struct DoneHalfLogged;
impl Spoiled for DoneHalfLogged {
    fn instead(&mut self, _: &[u8], call: &Call, state: &mut State) -> Option<Outcome> {
        let Call::Done { id } = *call else {
            return None;
        };
        let store = Store::lay_out(state.store.as_slice()).expect("laid out");
        let key = Key::Log { id, step: 0 }.stored();
        let is_logged = (0..store.shape().partitions).any(|p| store.find(p, key).is_some());
        Some(state.list.done(id, is_logged).map(|()| Answer::Done))
    }
}

/// Accepts done of an id that only waits.
struct DoneWaiting;
impl Spoiled for DoneWaiting {
    fn instead(&mut self, _: &[u8], call: &Call, state: &mut State) -> Option<Outcome> {
        let Call::Done { id } = *call else {
            return None;
        };
        state.list.entries.retain(|entry| entry.id != id);
        Some(Ok(Answer::Done))
    }
}

/// Take removes the id, which is lost where the worker is killed.
struct TakeRemoves;
impl Spoiled for TakeRemoves {
    fn leave(&mut self, call: &Call, _: &[u8], left: &mut State) {
        if *call == Call::Take {
            left.list.entries.retain(|entry| entry.mark == WAITING);
        }
    }
}

/// A restart empties the list as it does the slots.
struct RestartForgets;
impl Spoiled for RestartForgets {
    fn leave(&mut self, call: &Call, _: &[u8], left: &mut State) {
        if *call == Call::Restart {
            left.list.entries.clear();
        }
    }
}

/// A restart leaves ids taken whose workers are gone.
struct RestartLeavesTaken;
impl Spoiled for RestartLeavesTaken {
    fn instead(&mut self, _: &[u8], call: &Call, state: &mut State) -> Option<Outcome> {
        (*call == Call::Restart).then(|| {
            state.slots = ALL_EMPTY;
            Ok(Answer::Done)
        })
    }
}

/// Add asks nothing of the book.
struct AddUnbooked;
impl Spoiled for AddUnbooked {
    fn instead(&mut self, _: &[u8], call: &Call, state: &mut State) -> Option<Outcome> {
        let Call::Add { id } = *call else {
            return None;
        };
        Some(state.list.add(id, true).map(|()| Answer::Done))
    }
}

/// Add puts a listed id on the list once more.
struct AddTwice;
impl Spoiled for AddTwice {
    fn leave(&mut self, call: &Call, given: &[u8], left: &mut State) {
        let Call::Add { id } = *call else { return };
        let store = Store::lay_out(given).expect("laid out");
        let full = left.list.entries.len() > 15;
        if left.list.marked(TAKEN).contains(&id) && store.request(id).is_some() && !full {
            let mark = WAITING;
            left.list.entries.push(Entry { id, mark });
        }
    }
}

/// Done of one moves the last one to its place.
struct DoneSwaps;
impl Spoiled for DoneSwaps {
    fn instead(&mut self, pack: &[u8], call: &Call, state: &mut State) -> Option<Outcome> {
        let Call::Done { id } = *call else {
            return None;
        };
        let place = state.list.entries.iter().position(|entry| entry.id == id);
        let mut entries = state.list.entries.clone();
        let outcome = state.perform(pack, call);
        if let (Ok(_), Some(place)) = (outcome, place) {
            entries.swap_remove(place);
            state.list.entries = entries;
        }
        Some(outcome)
    }
}

/// Done cleans the log of the request, which is not to be worked out any more.
struct DoneCleans;
impl Spoiled for DoneCleans {
    fn instead(&mut self, pack: &[u8], call: &Call, state: &mut State) -> Option<Outcome> {
        let Call::Done { id: gone } = *call else {
            return None;
        };
        let outcome = state.perform(pack, call);
        if outcome.is_ok() {
            keep_rows(
                &mut state.store,
                |_, key| !matches!(key, Key::Log { id, .. } if id == gone),
            );
        }
        Some(outcome)
    }
}

/// An arrival forgets the log of the requests that are not on the list.
struct ArrivalCleans;
impl Spoiled for ArrivalCleans {
    fn leave(&mut self, call: &Call, _: &[u8], left: &mut State) {
        if matches!(call, Call::Arrival { .. }) {
            let list = left.list.clone();
            keep_rows(
                &mut left.store,
                |_, key| !matches!(key, Key::Log { id, .. } if !list.is_listed(id)),
            );
        }
    }
}

/// A crash takes the agent's id off the list.
struct CrashUnlists;
impl Spoiled for CrashUnlists {
    fn instead(&mut self, pack: &[u8], call: &Call, state: &mut State) -> Option<Outcome> {
        let Call::Crash { slot } = *call else {
            return None;
        };
        let id = state.slots.get(slot as usize).map_or(0, |agent| agent.id);
        let outcome = state.perform(pack, call);
        state.list.entries.retain(|entry| entry.id != id);
        Some(outcome)
    }
}

/// Take starts an agent of the id at once.
struct TakeStarts;
impl Spoiled for TakeStarts {
    fn instead(&mut self, pack: &[u8], call: &Call, state: &mut State) -> Option<Outcome> {
        if *call != Call::Take {
            return None;
        }
        let outcome = state.perform(pack, call);
        let empty = (0..SLOTS).find(|slot| state.slots[*slot].is_empty());
        if let (Ok(Answer::Taken { id }), Some(slot)) = (outcome, empty) {
            let store = Store::lay_out(state.store.as_slice()).expect("laid out");
            let request = store.request(id).expect("booked");
            state.slots[slot] = Agent::started(id, request.arguments);
        }
        Some(outcome)
    }
}

/// An agent whose request left the list replies something else.
#[derive(Default)]
struct LateReply(Vec<u32>);
impl Spoiled for LateReply {
    fn instead(&mut self, pack: &[u8], call: &Call, state: &mut State) -> Option<Outcome> {
        let mut outcome: Result<Answer, Refusal> = state.perform(pack, call);
        match (call, &mut outcome) {
            (Call::Done { id }, Ok(_)) => self.0.push(*id),
            (_, Ok(Answer::Reply { id, value })) if self.0.contains(id) => {
                *value = value.wrapping_add(1);
            }
            _ => {}
        }
        Some(outcome)
    }
}

#[test]
fn the_witness_sees_what_is_lost() {
    assert_eq!(seen("", || Box::new(Honest)), 0);
    assert!(seen("vanished before its reply", || Box::new(DoneUnlogged)) > 60);
    assert!(seen("vanished before its reply", || Box::new(DoneHalfLogged)) > 15);
    assert!(seen("vanished before its reply", || Box::new(DoneWaiting)) > 60);
    assert!(seen("vanished by Take", || Box::new(TakeRemoves)) > 200);
    assert!(seen("vanished by Restart", || Box::new(RestartForgets)) > 100);
    assert!(seen("changed the list", || Box::new(CrashUnlists)) > 60);
    assert!(seen("taken after a restart", || Box::new(RestartLeavesTaken)) > 60);
    assert!(seen("is not booked", || Box::new(AddUnbooked)) > 60);
    assert!(seen("a list that 25 refuses", || Box::new(AddTwice)) > 60);
    assert!(seen("changed the order of entry", || Box::new(DoneSwaps)) > 20);
    assert!(seen("changed store or slots", || Box::new(DoneCleans)) > 60);
    assert!(seen("has the reply", || Box::new(ArrivalCleans)) > 60);
    assert!(seen("changed store or slots", || Box::new(TakeStarts)) > 200);
    assert!(seen("was done and then replied", || Box::<LateReply>::default()) > 30);
}

/// In MOVE's own list: a done behind the first block is noticed by name.
#[test]
fn a_violation_says_which_id_vanished() {
    let arrival = Call::Arrival {
        slot: 0,
        request: request(7),
    };
    let turn = Call::Turn { slot: 0 };
    let (add, done) = (Call::Add { id: 7 }, Call::Done { id: 7 });
    let calls = [arrival, add, Call::Take, turn, turn, done];
    let store = reference::store::fresh(2, 10).expect("in range");
    let tally = check_list(&move_pack(), store.clone(), &calls).expect("W-208");
    assert_eq!((tally.adds, tally.takes, tally.dones), (1, 1, 0));
    assert_eq!(tally.refused[27], 1);
    let result = watch(&move_pack(), store, &calls, &mut DoneUnlogged);
    let words = result.expect_err("step 1 is not logged");
    assert!(words.contains("id 7 vanished before its reply"), "{words}");
}
