//! Retiring old requests (W-209) by hand: each reading, with its neighbours.

mod common;

use common::*;
use reference::calls::reply;
use reference::store::{fresh, of_book_key, Key, Store, FLOOR_KEY};
use reference::worklist::{TAKEN, WAITING};
use reference::{Agent, Answer, Call, Worklist};

type Rows = Vec<(u64, u32)>;

fn retire(floor: u32) -> Call {
    Call::Retire { floor }
}

/// The two log rows of an id that MOVE leads through with, one for each partition.
fn through(id: u64) -> [(u64, u32); 2] {
    [(log(id, 0), 55), (log(id, 1), 66)]
}

/// MOVE on two partitions: these ids booked and logged through, a floor row where there is one, a
/// data row in each partition.
fn of_ids(rows: u16, ids: &[u64], floor: Option<u32>) -> State {
    let [mut zero, mut one, mut book] = [Rows::new(), Rows::new(), Rows::new()];
    for id in ids {
        let [first, second] = through(*id);
        zero.push(first);
        one.push(second);
        book.extend(booked(*id));
    }
    zero.push((data(3), 30));
    one.push((data(4), 40));
    book.extend(floor.map(|floor| (FLOOR_KEY, floor)));
    with(laid(rows, &[&zero, &one, &book]))
}

fn with(store: Vec<u8>) -> State {
    let mut state = State::new(move_pack(), 2, 10);
    state.store = store;
    state
}

/// The call's question, and that a refused one changed nothing.
fn refused(state: &State, call: Call) -> u8 {
    let mut left = state.clone();
    let answer = question(left.call(call));
    if answer != 0 {
        assert_eq!(left, *state, "{call:?}");
    }
    answer
}

fn rows_of(state: &State, partition: usize) -> Rows {
    let store = Store::read(state.store.as_slice()).expect("right");
    store.rows(partition).collect()
}

#[test]
fn the_floor_is_a_row_of_the_book_that_no_request_has() {
    assert_eq!(FLOOR_KEY, 1_099_511_627_776);
    assert_eq!(of_book_key(FLOOR_KEY), None);
    assert!(of_book_key(u64::from(u32::MAX) * 8 + 4).is_some_and(|(id, _)| id == u32::MAX));
    // In a partition this is a log row as any other.
    let id = 1 << 24;
    assert_eq!(Key::of_stored(FLOOR_KEY), Some(Key::Log { id, step: 0 }));
}

#[test]
fn a_retire_leaves_the_rows_of_greater_ids_the_data_rows_and_the_floor() {
    let mut state = of_ids(16, &[5, 7, 9], None);
    assert_eq!(state.call(retire(8)), Ok(Answer::Done));
    let nine = through(9);
    let zero = [nine[0], (data(3), 30)];
    let one = [nine[1], (data(4), 40)];
    let book = [&booked(9)[..], &[(FLOOR_KEY, 8)]].concat();
    assert_eq!(state.store, laid(16, &[&zero, &one, &book]));
    assert_eq!(
        Store::read(state.store.as_slice()).map(|s| s.floor()),
        Ok(8)
    );
    assert_eq!(state.slots, of_ids(16, &[], None).slots);
}

#[test]
fn the_floor_itself_stays_and_the_floor_rises() {
    let mut state = of_ids(16, &[5, 7, 9], None);
    assert_eq!(state.call(retire(7)), Ok(Answer::Done));
    assert_eq!(
        rows_of(&state, 2),
        [&booked(7)[..], &booked(9), &[(FLOOR_KEY, 7)]].concat()
    );
    // The same one, a lower one, and one that no smaller id is booked for.
    for floor in [7, 6, 0] {
        assert_eq!(refused(&state, retire(floor)), 29, "{floor}");
    }
    assert_eq!(state.call(retire(9)), Ok(Answer::Done));
    assert_eq!(
        rows_of(&state, 2),
        [&booked(9)[..], &[(FLOOR_KEY, 9)]].concat()
    );
    assert_eq!(state.call(retire(u32::MAX)), Ok(Answer::Done));
    assert_eq!(rows_of(&state, 2), [(FLOOR_KEY, u32::MAX)]);
    assert_eq!(rows_of(&state, 0), [(data(3), 30)]);
    assert_eq!(refused(&state, retire(u32::MAX)), 29);
}

#[test]
fn the_greatest_id_is_never_retired() {
    let top = u64::from(u32::MAX);
    let mut state = of_ids(16, &[top - 1, top], None);
    assert_eq!(refused(&of_ids(16, &[top], None), retire(u32::MAX)), 29);
    assert_eq!(state.call(retire(u32::MAX)), Ok(Answer::Done));
    let left = [&booked(top)[..], &[(FLOOR_KEY, u32::MAX)]].concat();
    assert_eq!(rows_of(&state, 2), left);
    assert_eq!(state.retry(0, u32::MAX), Ok(Answer::Done));
}

#[test]
fn log_rows_of_ids_that_are_not_booked_go_too() {
    let mut state = of_ids(16, &[7], None);
    let mut store = Store::read(state.store.as_mut_slice()).expect("right");
    let strange = [log(0, 3), log(4, 65_535), log(7, 200), log(8, 0), log(9, 0)];
    for key in strange {
        assert!(store.put(0, key, 1) && store.put(1, key, 2));
    }
    // Only with an accepted call.
    assert_eq!(refused(&state, retire(7)), 29);
    assert_eq!(state.call(retire(8)), Ok(Answer::Done));
    for (partition, key, value) in [(0, data(3), 30), (1, data(4), 40)] {
        let mark = partition as u32 + 1;
        let left = [(log(8, 0), mark), (log(9, 0), mark), (key, value)];
        assert_eq!(rows_of(&state, partition), left);
    }
}

/// A data key is no id, however small; the key 2^40 of a partition is the log row of id 2^24.
#[test]
fn data_rows_stay_and_the_floors_key_is_a_log_row_elsewhere() {
    let mut state = of_ids(16, &[7], None);
    let mut store = Store::read(state.store.as_mut_slice()).expect("right");
    assert!(store.put(0, data(0), 9) && store.put(1, FLOOR_KEY, 5));
    let mut below = state.clone();
    assert_eq!(below.call(retire(1 << 24)), Ok(Answer::Done));
    assert_eq!(rows_of(&below, 0), [(data(0), 9), (data(3), 30)]);
    assert_eq!(rows_of(&below, 1), [(FLOOR_KEY, 5), (data(4), 40)]);
    assert_eq!(state.call(retire((1 << 24) + 1)), Ok(Answer::Done));
    assert_eq!(rows_of(&state, 1), [(data(4), 40)]);
}

#[test]
fn a_floor_row_is_overwritten_and_one_of_value_0_is_floor_0() {
    for value in [0, 1, 5] {
        let mut state = of_ids(16, &[5, 7], Some(value));
        assert_eq!(refused(&state, retire(5)), 29, "{value}");
        assert_eq!(state.call(retire(6)), Ok(Answer::Done));
        assert_eq!(
            rows_of(&state, 2),
            [&booked(7)[..], &[(FLOOR_KEY, 6)]].concat()
        );
    }
    let mut state = of_ids(16, &[], Some(0));
    assert_eq!(state.arrival(0, request(1)), Ok(Answer::Done));
}

#[test]
fn question_28_logged_through() {
    // Of id 7 only the first step, only the second, or both in one partition.
    for (zero, one) in [
        (vec![(log(7, 0), 1)], vec![]),
        (vec![], vec![(log(7, 1), 1)]),
        (vec![(log(7, 0), 1), (log(7, 1), 1)], vec![]),
        (vec![(log(6, 0), 1)], vec![(log(7, 1), 1)]),
        (vec![], vec![]),
    ] {
        let state = with(laid(10, &[&zero, &one, &booked(7)]));
        assert_eq!(refused(&state, retire(8)), 28, "{zero:?} {one:?}");
        assert_eq!(refused(&state, retire(7)), 29, "it is not smaller");
    }
    // One of several, first or last.
    for (broken, floor, answer) in [(5, 6, 28), (5, 10, 28), (9, 8, 0), (9, 9, 0), (9, 10, 28)] {
        let mut state = of_ids(16, &[5, 7, 9], None);
        spoiled::keep_rows(
            &mut state.store,
            |_, key| !matches!(key, Key::Log { id, .. } if id == broken),
        );
        assert_eq!(refused(&state, retire(floor)), answer, "{broken} {floor}");
    }
}

#[test]
fn question_28_slots() {
    let mut state = of_ids(16, &[5, 7], None);
    for slot in [0, 7] {
        let mut state = state.clone();
        state.slots[slot] = Agent::started(5, [100, 200, 30, 0]);
        assert_eq!(refused(&state, retire(6)), 28);
        // At its RETURN too, and however it ends there.
        (state.slots[slot].position, state.slots[slot].step) = (11, 2);
        assert_eq!(refused(&state, retire(6)), 28);
        assert_eq!(state.crash(slot as u32), Ok(Answer::Done));
        assert_eq!(refused(&state, retire(6)), 0);
    }
    // An agent of one that stays.
    state.slots[3] = Agent::started(7, [100, 200, 30, 0]);
    assert_eq!(refused(&state, retire(6)), 0);
    assert_eq!(refused(&state, retire(7)), 0);
    assert_eq!(refused(&state, retire(8)), 28);
}

/// An empty record has id 0 and is no agent of an older store's id 0.
#[test]
fn question_28_empty_records() {
    let mut state = of_ids(16, &[0, 5], None);
    assert_eq!(refused(&state, retire(1)), 0);
    assert_eq!(refused(&state, retire(6)), 0);
    state.slots[2] = Agent::started(0, [100, 200, 30, 0]);
    assert_eq!(refused(&state, retire(1)), 28);
    assert_eq!(refused(&state, retire(0)), 29);
}

#[test]
fn question_28_worklist() {
    let mut state = of_ids(16, &[5, 7], None);
    for mark in [WAITING, TAKEN] {
        state.list = Worklist::of(&[(1, TAKEN), (5, mark)]);
        assert_eq!(refused(&state, retire(6)), 28);
        // Not one that stays, and not one that is not booked.
        state.list = Worklist::of(&[(1, WAITING), (4, TAKEN), (7, mark)]);
        assert_eq!(refused(&state, retire(6)), 0);
        assert_eq!(refused(&state, retire(7)), 0);
        assert_eq!(refused(&state, retire(8)), 28);
    }
    let given = state.clone();
    assert_eq!(state.call(retire(6)), Ok(Answer::Done));
    assert_eq!((state.list, state.slots), (given.list, given.slots));
}

#[test]
fn question_29() {
    let state = of_ids(16, &[5, 7], None);
    for floor in [0, 1, 4, 5] {
        assert_eq!(refused(&state, retire(floor)), 29, "{floor}");
    }
    assert_eq!(refused(&state, retire(6)), 0);
    // Nothing is booked, with or without a floor.
    for floor in [None, Some(0), Some(9)] {
        let state = of_ids(16, &[], floor);
        for to in [0, 1, 9, 10, u32::MAX] {
            assert_eq!(refused(&state, retire(to)), 29, "{floor:?} {to}");
        }
    }
}

#[test]
fn questions_1_to_14_and_25_come_first() {
    let state = of_ids(16, &[5, 7], None);
    let mut no = state.clone();
    no.list = Worklist::of(&[(1, 2)]);
    for floor in [0, 6] {
        assert_eq!(refused(&no, retire(floor)), 25);
    }
    no.slots[0].step = 1;
    assert_eq!(refused(&no, retire(6)), 14);
    let key = Store::lay_out(no.store.as_slice())
        .expect("laid out")
        .shape();
    no.store[key.value_at(2, 0)] = 9;
    assert_eq!(refused(&no, retire(6)), 13);
    no.store[key.key_at(2, 0)] = 8 * 4;
    assert_eq!(refused(&no, retire(6)), 12);
    no.store[key.key_at(2, 0)] = 8 * 4 + 5;
    assert_eq!(refused(&no, retire(6)), 11);
    no.store.pop();
    assert_eq!(refused(&no, retire(6)), 10);
    no.pack.clear();
    assert_eq!(refused(&no, retire(6)), 1);
}

/// 11 takes the row as a book form by its key alone; it stands behind all others.
#[test]
fn question_11_and_the_floor() {
    let take = Call::Take;
    assert_eq!(refused(&of_ids(16, &[5], Some(3)), take), 27);
    for key in [FLOOR_KEY - 1, FLOOR_KEY + 1, FLOOR_KEY + 8, 2 * FLOOR_KEY] {
        let book = [&booked(5)[..], &[(key, 3)]].concat();
        assert_eq!(
            refused(&with(laid(16, &[&[], &[], &book])), take),
            11,
            "{key}"
        );
    }
    let first = [&[(FLOOR_KEY, 3)], &booked(5)[..]].concat();
    let state = with(laid(16, &[&[], &[], &first]));
    assert_eq!(refused(&state, take), 11);
    let mut state = state;
    assert_eq!(state.call(Call::PutInOrder), Ok(Answer::Done));
    assert_eq!(
        rows_of(&state, 2),
        [&booked(5)[..], &[(FLOOR_KEY, 3)]].concat()
    );
    let twice = [&booked(5)[..], &[(FLOOR_KEY, 3), (FLOOR_KEY, 3)]].concat();
    let state = with(laid(16, &[&[], &[], &twice]));
    assert_eq!(refused(&state, take), 11);
    assert_eq!(refused(&state, Call::PutInOrder), 11);
}

#[test]
fn question_12_and_the_floor() {
    for (floor, answer) in [(0, 27), (4, 27), (5, 27), (6, 12), (7, 12), (u32::MAX, 12)] {
        let state = of_ids(16, &[5, 7], Some(floor));
        assert_eq!(refused(&state, Call::Take), answer, "{floor}");
        let order = [0, 12][usize::from(answer == 12)];
        assert_eq!(refused(&state, Call::PutInOrder), order, "{floor}");
        assert_eq!(question(reply(&state.pack, &state.store, 7)), order);
    }
    // The row is none of a request: neither five nor one of five.
    let state = of_ids(16, &[], Some(9));
    assert_eq!(refused(&state, Call::Take), 27);
    let four = [&booked(10)[..4], &[(FLOOR_KEY, 9)]].concat();
    assert_eq!(refused(&with(laid(16, &[&[], &[], &four])), Call::Take), 12);
}

/// Its value is no workflow number.
#[test]
fn question_13_passes_over_the_floor() {
    for floor in [0, 1, 2, 5] {
        assert_eq!(refused(&of_ids(16, &[5], Some(floor)), Call::Take), 27);
    }
}

#[test]
fn question_19_counts_the_floor() {
    for (rows, answer) in [(10, 19), (11, 0)] {
        let state = of_ids(rows, &[7], Some(3));
        let arrival = Call::Arrival {
            slot: 0,
            request: request(8),
        };
        assert_eq!(refused(&state, arrival), answer);
        assert_eq!(refused(&of_ids(10, &[7], None), arrival), 0);
    }
}

#[test]
fn question_30_stands_between_24_and_17() {
    let state = of_ids(20, &[7], Some(6));
    let arrives = |slot: u32, id: u32, workflow: u32| {
        let mut request = request(id);
        request.workflow = workflow;
        refused(&state, Call::Arrival { slot, request })
    };
    for id in [1, 4, 5] {
        assert_eq!(arrives(0, id, 0), 30);
        assert_eq!(arrives(0, id, 1), 30, "before 17");
        assert_eq!(arrives(8, id, 0), 15);
    }
    assert_eq!([0, 1].map(|workflow| arrives(0, 0, workflow)), [24, 24]);
    assert_eq!([6, 7, 8, u32::MAX].map(|id| arrives(0, id, 0)), [0; 4]);
    assert_eq!(arrives(0, 6, 1), 17);
    // Before 18 and 19, and behind 16.
    let mut full = of_ids(6, &[7], Some(6));
    let arrival = |id| Call::Arrival {
        slot: 0,
        request: request(id),
    };
    assert_eq!([5, 6].map(|id| refused(&full, arrival(id))), [30, 19]);
    full.slots[0] = Agent::started(7, [100, 200, 30, 0]);
    assert_eq!(refused(&full, arrival(5)), 16);
}

#[test]
fn the_other_calls_that_name_a_retired_id_find_it_not_booked() {
    let mut state = of_ids(16, &[5, 7], None);
    assert_eq!(state.call(retire(6)), Ok(Answer::Done));
    assert_eq!(refused(&state, Call::Retry { slot: 0, id: 5 }), 20);
    assert_eq!(refused(&state, Call::Add { id: 5 }), 20);
    assert_eq!(question(reply(&state.pack, &state.store, 5)), 20);
    state.list = Worklist::of(&(100..116).map(|id| (id, WAITING)).collect::<Vec<_>>());
    assert_eq!(refused(&state, Call::Add { id: 5 }), 26);
    state.list = Worklist::of(&[(5, TAKEN)]);
    assert_eq!(refused(&state, Call::Done { id: 5 }), 27);
    assert_eq!(
        reply(&state.pack, &state.store, 7),
        Ok(Answer::Reply { id: 7, value: 66 })
    );
}

/// One request fills the book of C = 5; the floor then leaves four rows.
#[test]
fn the_least_book_is_shut_by_its_first_floor() {
    let mut state = State::new(move_pack(), 2, 5);
    assert_eq!(state.arrival(0, request(7)), Ok(Answer::Done));
    assert_eq!(refused(&state, retire(8)), 28);
    for _ in 0..3 {
        assert_eq!(state.turn(0), Ok(Answer::Moved));
    }
    assert_eq!(refused(&state, retire(8)), 28, "it stands at RETURN");
    assert!(matches!(state.turn(0), Ok(Answer::Reply { id: 7, .. })));
    assert_eq!(state.call(retire(8)), Ok(Answer::Done));
    assert_eq!(rows_of(&state, 2), [(FLOOR_KEY, 8)]);
    for (id, answer) in [(7, 30), (8, 19), (u32::MAX, 19)] {
        let request = request(id);
        assert_eq!(refused(&state, Call::Arrival { slot: 0, request }), answer);
    }
}

/// With C = 6 one request after the other goes through the book for ever.
#[test]
fn freed_rows_are_used_again() {
    let mut state = State::new(move_pack(), 2, 6);
    for id in 1..200 {
        assert_eq!(state.arrival(0, request(id)), Ok(Answer::Done), "{id}");
        for _ in 0..4 {
            assert!(state.turn(0).is_ok());
        }
        assert_eq!(state.call(retire(id + 1)), Ok(Answer::Done));
        assert_eq!(question(state.arrival(0, request(id))), 30);
    }
    let moved = 199 * 30;
    assert_eq!(rows_of(&state, 0), [(data(100), 0_u32.wrapping_sub(moved))]);
    assert_eq!(rows_of(&state, 1), [(data(200), moved)]);
    assert_eq!(rows_of(&state, 2), [(FLOOR_KEY, 200)]);
}

/// A partition without smaller rows, and a store that is full, keep to the layout.
#[test]
fn every_byte_that_comes_free_is_zero() {
    let full: Rows = (0..4)
        .map(|n| (log(7, n), 9))
        .chain([(data(1), 1)])
        .collect();
    let mut state = with(laid(5, &[&full, &[(log(7, 1), 9)], &booked(7)]));
    assert_eq!(state.call(retire(8)), Ok(Answer::Done));
    assert_eq!(
        state.store,
        laid(5, &[&[(data(1), 1)], &[], &[(FLOOR_KEY, 8)]])
    );
    let empty = fresh(2, 5).expect("in range");
    assert_eq!(state.store.len(), empty.len());
}
