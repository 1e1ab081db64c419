//! The worklist and the reading call of W-208 by hand: each reading, with its neighbours.

mod common;

use common::*;
use reference::agents::ALL_EMPTY;
use reference::calls::reply;
use reference::pack::encode;
use reference::store::{book_key, Key, Request, Store};
use reference::worklist::{reply_from_log, MOST_LISTED, TAKEN, WAITING};
use reference::{Agent, Answer, Call, Outcome, Pack, Worklist};

const ADD: Call = Call::Add { id: 7 };
const TAKE: Call = Call::Take;
const DONE: Call = Call::Done { id: 7 };

/// MOVE with ids 7 and 8 booked, no agents, and this list.
fn with_list(entries: &[(u32, u8)]) -> State {
    let mut state = State::new(move_pack(), 2, 10);
    for id in [7, 8] {
        book(&mut state, request(id));
    }
    state.list = Worklist::of(entries);
    state
}

fn book(state: &mut State, request: Request) {
    let mut store = Store::read(state.store.as_mut_slice()).expect("right");
    store.book(&request);
}

/// Puts a log row of this id.
fn log_row(state: &mut State, partition: usize, id: u32, step: u16, value: u32) {
    let mut store = Store::read(state.store.as_mut_slice()).expect("right");
    assert!(store.put(partition, Key::Log { id, step }.stored(), value));
}

/// Both blocks of MOVE logged for id 7, with results that no run gives.
fn logged_through(entries: &[(u32, u8)]) -> State {
    let mut state = with_list(entries);
    log_row(&mut state, 0, 7, 0, 55);
    log_row(&mut state, 1, 7, 1, 66);
    state
}

/// The call's question, and that nothing but the list of an accepted one has changed.
fn asked(state: &State, call: Call) -> (u8, Worklist) {
    let mut left = state.clone();
    let answer = question(left.call(call));
    let list = left.list.clone();
    if answer == 0 {
        left.list = state.list.clone();
    }
    assert_eq!(left, *state, "{call:?}");
    (answer, list)
}

fn refused(state: &State, call: Call) -> u8 {
    asked(state, call).0
}

/// So many entries, ids from 100 on, all with this mark.
fn many(count: usize, mark: u8) -> Vec<(u32, u8)> {
    (100..).take(count).map(|id| (id, mark)).collect()
}

#[test]
fn add_puts_a_new_id_at_the_end_and_lets_it_wait() {
    let (answer, list) = asked(&with_list(&[]), ADD);
    assert_eq!((answer, list), (0, Worklist::of(&[(7, WAITING)])));
    let (answer, list) = asked(&with_list(&[(8, TAKEN), (3, WAITING)]), ADD);
    let expected = Worklist::of(&[(8, TAKEN), (3, WAITING), (7, WAITING)]);
    assert_eq!((answer, list), (0, expected));
    assert_eq!(with_list(&[]).call(ADD), Ok(Answer::Done));
}

#[test]
fn adding_a_listed_id_changes_nothing() {
    for entries in [
        [(7, WAITING), (8, TAKEN)],
        [(8, WAITING), (7, TAKEN)],
        [(7, TAKEN), (8, WAITING)],
    ] {
        let (answer, list) = asked(&with_list(&entries), ADD);
        assert_eq!((answer, list), (0, Worklist::of(&entries)));
    }
}

#[test]
fn take_gives_and_marks_the_first_waiting_id() {
    let mut state = with_list(&[(3, TAKEN), (8, WAITING), (7, WAITING)]);
    assert_eq!(state.call(TAKE), Ok(Answer::Taken { id: 8 }));
    let list = [(3, TAKEN), (8, TAKEN), (7, WAITING)];
    assert_eq!(state.list, Worklist::of(&list));
    assert_eq!(state.call(TAKE), Ok(Answer::Taken { id: 7 }));
    assert_eq!(question(state.call(TAKE)), 27);
    assert_eq!(state.list.marked(TAKEN), [3, 8, 7]);
    // 25 does not ask whether an id is booked, and take does not either.
    let mut state = with_list(&[(99, WAITING)]);
    assert_eq!(state.call(TAKE), Ok(Answer::Taken { id: 99 }));
}

#[test]
fn done_removes_a_taken_id_and_later_ones_move_up() {
    let list = [(3, TAKEN), (7, TAKEN), (8, WAITING), (4, TAKEN)];
    let mut state = logged_through(&list);
    assert_eq!(state.call(DONE), Ok(Answer::Done));
    let left = [(3, TAKEN), (8, WAITING), (4, TAKEN)];
    assert_eq!(state.list, Worklist::of(&left));
    assert_eq!(question(state.call(DONE)), 27, "it is not listed now");
    // The last one, and the only one.
    let (answer, list) = asked(&logged_through(&[(8, TAKEN), (7, TAKEN)]), DONE);
    assert_eq!((answer, list), (0, Worklist::of(&[(8, TAKEN)])));
    let (answer, list) = asked(&logged_through(&[(7, TAKEN)]), DONE);
    assert_eq!((answer, list), (0, Worklist::default()));
}

#[test]
fn question_25_number() {
    for call in [ADD, TAKE, DONE] {
        let with = |count, mark| {
            let mut entries = many(count - 1, mark);
            entries.push((7, TAKEN));
            logged_through(&entries)
        };
        let none_waits = [0, 27][usize::from(call == TAKE)];
        assert_eq!(refused(&with(MOST_LISTED, WAITING), call), 0);
        assert_eq!(refused(&with(MOST_LISTED, TAKEN), call), none_waits);
        for count in [17, 18, 32, 33, 255, 256, 300] {
            assert_eq!(refused(&with(count, WAITING), call), 25, "{count}");
            assert_eq!(refused(&with(count, TAKEN), call), 25, "before 27");
        }
    }
}

#[test]
fn question_25_one_id_twice() {
    for call in [ADD, TAKE, DONE] {
        for twice in [
            [(8, 0), (8, 0), (7, 1)],
            [(8, 0), (7, 1), (8, 0)],
            [(8, 1), (7, 1), (8, 0)],
            [(7, 1), (8, 0), (7, 0)],
            [(7, 0), (8, 0), (7, 1)],
            [(0, 0), (7, 1), (0, 0)],
        ] {
            assert_eq!(refused(&logged_through(&twice), call), 25, "{twice:?}");
        }
        let near = [(7, 1), (7 + 65_536, 0), (7 + (1 << 31), 0)];
        assert_eq!(refused(&logged_through(&near), call), 0, "other ids");
    }
}

#[test]
fn question_25_marks() {
    for call in [ADD, TAKE, DONE] {
        for mark in [2, 3, 128, 255] {
            for wrong in [
                [(7, TAKEN), (8, WAITING), (9, mark)],
                [(9, mark), (8, WAITING), (7, TAKEN)],
                [(8, WAITING), (7, mark), (9, TAKEN)],
            ] {
                assert_eq!(refused(&logged_through(&wrong), call), 25, "{wrong:?}");
            }
        }
    }
}

#[test]
fn question_26_a_new_id_finds_16() {
    let full = with_list(&many(16, WAITING));
    assert_eq!(refused(&full, ADD), 26);
    assert_eq!(refused(&with_list(&many(16, TAKEN)), ADD), 26);
    assert_eq!(refused(&full, Call::Add { id: 99 }), 26, "before 20");
    assert_eq!(refused(&full, Call::Add { id: 100 }), 20, "a listed one");
    assert_eq!(refused(&with_list(&many(17, WAITING)), ADD), 25, "first");
    let mut listed = many(15, TAKEN);
    assert_eq!(refused(&with_list(&listed), ADD), 0);
    assert_eq!(refused(&with_list(&listed), Call::Add { id: 99 }), 20);
    listed.insert(4, (7, TAKEN));
    let (answer, list) = asked(&with_list(&listed), ADD);
    assert_eq!((answer, list), (0, Worklist::of(&listed)), "listed already");
}

#[test]
fn question_20_of_add() {
    let state = with_list(&[(9, WAITING), (11, TAKEN)]);
    for id in [0, 6, 9, 11, 7 + 65_536, 7 + (1 << 29)] {
        assert_eq!(refused(&state, Call::Add { id }), 20, "{id}");
    }
    assert_eq!(refused(&state, Call::Add { id: 8 }), 0);
    // An older store's request 0 may be listed.
    let mut state = with_list(&[]);
    state.store = State::new(move_pack(), 2, 10).store;
    book(&mut state, request(0));
    assert_eq!(refused(&state, Call::Add { id: 0 }), 0);
}

#[test]
fn question_27_none_waits() {
    assert_eq!(refused(&with_list(&[]), TAKE), 27);
    assert_eq!(refused(&with_list(&[(7, TAKEN), (8, TAKEN)]), TAKE), 27);
    assert_eq!(refused(&with_list(&many(16, TAKEN)), TAKE), 27);
}

#[test]
fn question_27_not_taken() {
    assert_eq!(refused(&logged_through(&[]), DONE), 27);
    assert_eq!(refused(&logged_through(&[(8, TAKEN)]), DONE), 27);
    assert_eq!(refused(&logged_through(&[(7, WAITING)]), DONE), 27);
    let state = logged_through(&[(8, TAKEN), (7, WAITING)]);
    assert_eq!(refused(&state, DONE), 27);
    assert_eq!(refused(&logged_through(&[(7, TAKEN)]), DONE), 0);
}

#[test]
fn question_27_not_logged_through() {
    let taken = [(8, WAITING), (7, TAKEN)];
    let after = |rows: &[(usize, u32, u16)]| {
        let mut state = with_list(&taken);
        for (partition, id, step) in rows {
            log_row(&mut state, *partition, *id, *step, 3);
        }
        refused(&state, DONE)
    };
    assert_eq!(after(&[]), 27, "no step");
    assert_eq!(after(&[(0, 7, 0)]), 27, "the first only");
    assert_eq!(after(&[(1, 7, 1)]), 27, "the second only");
    assert_eq!(after(&[(0, 7, 0), (0, 7, 1)]), 27, "another partition");
    assert_eq!(after(&[(1, 7, 0), (1, 7, 1)]), 27, "another partition");
    assert_eq!(after(&[(0, 7, 0), (1, 7, 0)]), 27, "per partition");
    assert_eq!(after(&[(0, 7, 1), (1, 7, 2)]), 27, "one too high");
    assert_eq!(after(&[(0, 7, 0), (1, 8, 1)]), 27, "another id");
    assert_eq!(after(&[(0, 7, 0), (1, 7, 1)]), 0);
    assert_eq!(after(&[(0, 7, 0), (1, 7, 1), (0, 7, 2)]), 0, "and more");
}

#[test]
fn an_id_that_is_not_booked_is_not_logged_through() {
    let mut state = with_list(&[(9, TAKEN)]);
    log_row(&mut state, 0, 9, 0, 1);
    log_row(&mut state, 1, 9, 1, 1);
    assert_eq!(refused(&state, Call::Done { id: 9 }), 27);
}

/// Done does not look at slots: it is the log that leads through, wherever agents stand.
#[test]
fn done_leaves_the_agents_of_the_id() {
    let mut state = logged_through(&[(7, TAKEN)]);
    for slot in [2, 5] {
        state.slots[slot] = Agent::started(7, [100, 200, 30, 0]);
    }
    assert_eq!(refused(&state, DONE), 0);
    let mut state = with_list(&[(7, TAKEN)]);
    state.slots[3] = Agent::started(7, [100, 200, 30, 0]);
    state.slots[3].position = 11;
    state.slots[3].step = 2;
    assert_eq!(
        refused(&state, DONE),
        27,
        "at RETURN, but nothing is logged"
    );
}

/// A workflow without blocks, and one whose first result decides whether there is a second.
fn two_workflows() -> State {
    let plain = vec![(0x20, 1), RETURN];
    let decides = vec![
        BEGIN,
        (0x75, 0),
        (0x50, 16 * 5 + 3),
        (0x60, 1),
        (0x76, 0),
        (0xB0, 0),
    ];
    let mut state = State::new(encode(&[plain, decides]), 2, 10);
    for workflow in [0, 1] {
        book(
            &mut state,
            Request {
                id: 7 + workflow,
                workflow,
                arguments: [3, u32::MAX, 1, 44],
            },
        );
    }
    state.list = Worklist::of(&[(7, TAKEN), (8, TAKEN)]);
    state
}

#[test]
fn a_request_without_blocks_is_logged_through_from_its_booking() {
    let state = two_workflows();
    assert_eq!(refused(&state, DONE), 0);
    let answer = reply(&state.pack, &state.store, 7);
    assert_eq!(answer, Ok(Answer::Reply { id: 7, value: 2 }));
    assert_eq!(refused(&state, Call::Done { id: 8 }), 27);
}

/// The logged value decides the way, also one that no run would have logged.
#[test]
fn results_from_the_log_decide_the_way() {
    let mut state = two_workflows();
    log_row(&mut state, 0, 8, 0, 44);
    let read = |state: &State| reply(&state.pack, &state.store, 8);
    assert_eq!(read(&state), Ok(Answer::Reply { id: 8, value: 44 }));
    assert_eq!(refused(&state, Call::Done { id: 8 }), 0);
    let mut state = two_workflows();
    log_row(&mut state, 0, 8, 0, 45);
    assert_eq!(read(&state), Ok(Answer::NotYet));
    assert_eq!(refused(&state, Call::Done { id: 8 }), 27);
    log_row(&mut state, 1, 8, 1, 12);
    assert_eq!(read(&state), Ok(Answer::Reply { id: 8, value: 12 }));
}

/// Every call on the list puts 1 to 14 first; the list is wrong too, so 25 would say no.
#[test]
fn questions_1_to_14_come_before_25() {
    let wrong = [(7, TAKEN), (8, 2)];
    let with = |change: &dyn Fn(&mut State)| {
        let mut state = logged_through(&wrong);
        change(&mut state);
        [ADD, TAKE, DONE].map(|call| refused(&state, call))
    };
    assert_eq!(with(&|_| {}), [25; 3]);
    assert_eq!(with(&|state| state.pack.clear()), [1; 3]);
    assert_eq!(with(&|state| state.pack[3] = 0x18), [4; 3]);
    assert_eq!(with(&|state| state.store.clear()), [9; 3]);
    assert_eq!(with(&|state| state.store.push(0)), [10; 3]);
    assert_eq!(with(&|state| state.store[3] = 3), [11; 3]);
    let lone = |state: &mut State| {
        state.store = laid(10, &[&[], &[], &[(book_key(7, 0), 0)]]);
    };
    assert_eq!(with(&lone), [12; 3]);
    let workflow_1 = |state: &mut State| {
        let mut store = Store::read(state.store.as_mut_slice()).expect("right");
        assert!(store.put(2, book_key(8, 0), 1));
    };
    assert_eq!(with(&workflow_1), [13; 3]);
    assert_eq!(with(&|state| state.slots[6].step = 1), [14; 3]);
}

/// Arrival, retry, turn, crash and putting in order neither get nor ask about the list.
#[test]
fn other_calls_do_not_see_the_list() {
    let mut state = State::with_move();
    let wrong = [(7, 2), (7, 0)];
    state.list = Worklist::of(&wrong);
    let calls = [
        Call::Arrival {
            slot: 1,
            request: request(8),
        },
        Call::Retry { slot: 2, id: 8 },
        Call::Turn { slot: 0 },
        Call::Crash { slot: 1 },
        Call::PutInOrder,
    ];
    for call in calls {
        assert_eq!(question(state.call(call)), 0, "{call:?}");
        assert_eq!(state.list, Worklist::of(&wrong));
    }
}

#[test]
fn restart_lets_all_wait_in_a_right_list_and_touches_no_other() {
    let after = |entries: &[(u32, u8)]| {
        let mut state = with_list(entries);
        // It asks nothing.
        state.pack.clear();
        state.store.truncate(7);
        state.slots[4].step = 9;
        let given = state.store.clone();
        assert_eq!(state.call(Call::Restart), Ok(Answer::Done));
        assert_eq!((state.slots, state.store), (ALL_EMPTY, given));
        state.list
    };
    assert_eq!(after(&[]), Worklist::default());
    let right = [(7, TAKEN), (8, WAITING), (99, TAKEN)];
    let waiting = [(7, WAITING), (8, WAITING), (99, WAITING)];
    assert_eq!(after(&right), Worklist::of(&waiting));
    let full = after(&many(16, TAKEN));
    assert_eq!(full, Worklist::of(&many(16, WAITING)));
    for wrong in [
        many(17, TAKEN),
        vec![(7, TAKEN), (8, TAKEN), (7, TAKEN)],
        vec![(7, TAKEN), (8, 2)],
    ] {
        assert_eq!(after(&wrong), Worklist::of(&wrong));
    }
}

fn read(state: &State, id: u32) -> Outcome {
    reply(&state.pack, &state.store, id)
}

#[test]
fn the_reading_call() {
    let mut state = logged_through(&[]);
    let answer = Ok(Answer::Reply { id: 7, value: 66 });
    assert_eq!(read(&state, 7), answer);
    assert_eq!(read(&state, 8), Ok(Answer::NotYet));
    assert_eq!(question(read(&state, 9)), 20);
    log_row(&mut state, 0, 8, 0, 55);
    assert_eq!(read(&state, 8), Ok(Answer::NotYet), "half of it");
}

#[test]
fn the_reading_call_puts_1_to_13_and_20() {
    let with = |change: &dyn Fn(&mut State)| {
        let mut state = with_list(&[]);
        change(&mut state);
        question(read(&state, 9))
    };
    assert_eq!(with(&|_| {}), 20);
    assert_eq!(with(&|state| state.pack.clear()), 1);
    assert_eq!(with(&|state| state.pack.push(0)), 3);
    assert_eq!(with(&|state| state.store.clear()), 9);
    assert_eq!(with(&|state| state.store.push(0)), 10);
    assert_eq!(with(&|state| state.store[3] = 3), 11);
    let lone = laid(10, &[&[], &[], &[(book_key(7, 0), 0)]]);
    assert_eq!(with(&|state| state.store = lone.clone()), 12);
    let one = laid(10, &[&[], &booked(7)]);
    assert_eq!(with(&|state| state.store = one.clone()), 13);
}

/// The whole story: accepted, killed between take and done, finished by another worker.
#[test]
fn a_worker_is_killed_and_another_finishes() {
    let mut state = State::new(move_pack(), 2, 10);
    let turn = Call::Turn { slot: 0 };
    let retry = Call::Retry { slot: 0, id: 7 };
    let arrival = Call::Arrival {
        slot: 0,
        request: request(7),
    };
    let mut answers =
        |calls: &[Call]| -> Vec<Outcome> { calls.iter().map(|call| state.call(*call)).collect() };
    let (done, moved) = (Ok(Answer::Done), Ok(Answer::Moved));
    let taken = Ok(Answer::Taken { id: 7 });
    let first = answers(&[arrival, ADD, TAKE, turn, turn, ADD, Call::Restart]);
    assert_eq!(first, [done, done, taken, moved, moved, done, done]);
    let second = answers(&[TAKE, retry, turn, turn]);
    assert_eq!(second, [taken, done, moved, moved]);
    assert_eq!(question(answers(&[DONE])[0]), 27, "step 1 is not logged");
    let replied = Ok(Answer::Reply { id: 7, value: 30 });
    assert_eq!(answers(&[turn, DONE, turn]), [moved, done, replied]);
    assert_eq!(state.list, Worklist::default());
    assert_eq!(read(&state, 7), replied);
}

/// Jumps lead ahead, so a walk of as many moves as there are instructions is long enough.
#[test]
fn the_longest_workflow_is_read_to_its_end() {
    let mut rows = vec![(0x20, 1); 255];
    rows.push(RETURN);
    let mut state = State::new(encode(&[rows]), 1, 5);
    let arguments = [0, 1, 0, 0];
    book(
        &mut state,
        Request {
            id: 1,
            workflow: 0,
            arguments,
        },
    );
    let pack = Pack::read(&state.pack).expect("right");
    let store = Store::read(state.store.as_slice()).expect("right");
    assert_eq!(reply_from_log(&pack, &store, 1), Some(255));
    assert_eq!(reply_from_log(&pack, &store, 2), None);
}
