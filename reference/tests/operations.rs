//! What blocks and operations do, beyond the document's own examples.

mod common;

use common::*;
use reference::pack::encode;
use reference::store::{Key, Request, Store};
use reference::Answer;

/// Runs one block on arguments 100, 200, 30, 0; answers with its result.
fn result_of(body: &[(u8, u32)]) -> u32 {
    let mut workflow = vec![BEGIN];
    workflow.extend(body);
    workflow.extend([(0x77, 0), RETURN]);
    let mut state = State::new(encode(&[workflow]), 1, 12);
    state.arrival(0, request(7)).expect("an arrival");
    assert_eq!(state.turn(0), Ok(Answer::Moved));
    let agent = state.slots[0];
    assert_eq!(
        agent.registers[1..],
        [200, 30, 0, 0, 0, 0, 0],
        "only register 0 changes"
    );
    assert_eq!(agent.position as usize, 2 + body.len());
    assert_eq!(agent.step, 1);
    agent.registers[0]
}

#[test]
fn get_and_has_see_earlier_puts() {
    assert_eq!(result_of(&[(0x87, 0)]), 0, "absent, and register 7 is 0");
    assert_eq!(result_of(&[(0xA7, 0)]), 0);
    assert_eq!(result_of(&[(0x90, 2), (0x87, 0)]), 30);
    assert_eq!(result_of(&[(0x90, 2), (0x90, 1), (0x87, 0)]), 200);
    assert_eq!(
        result_of(&[(0x90, 3), (0xA7, 0)]),
        1,
        "a PUT of 0 is present"
    );
    assert_eq!(result_of(&[(0x90, 2), (0xA7, 1)]), 0);
}

#[test]
fn get_of_an_absent_key_leaves_its_register_as_it_was() {
    // SET r7 9 ahead: the block's own register, since the record's is 0.
    let nine = (0x07, 9);
    assert_eq!(result_of(&[nine, (0x87, 0)]), 9);
    assert_eq!(result_of(&[nine, (0x91, 2), (0x87, 0)]), 9, "another key");
    assert_eq!(result_of(&[nine, (0x90, 2), (0x87, 0)]), 30, "behind a PUT");
    assert_eq!(result_of(&[nine, (0x90, 3), (0x87, 0)]), 0, "a PUT of 0");
    assert_eq!(
        result_of(&[nine, (0x87, 0), (0x90, 2)]),
        9,
        "ahead of a PUT"
    );
    assert_eq!(result_of(&[(0x17, 1), (0x87, 7)]), 200, "d is s");
    assert_eq!(result_of(&[nine, (0xA7, 0)]), 0, "HAS is as it was");
}

#[test]
fn get_of_a_key_that_holds_0_is_0() {
    let block = vec![BEGIN, (0x91, 3), (0x70, 0), BEGIN, (0x82, 1), (0x72, 0)];
    let mut state = State::new(encode(&[[block, vec![RETURN]].concat()]), 1, 12);
    state.arrival(0, request(7)).expect("an arrival");
    for _ in 0..2 {
        assert_eq!(state.turn(0), Ok(Answer::Moved));
    }
    let agent = state.slots[0];
    assert_eq!(agent.registers, [0, 200, 30, 0, 0, 0, 0, 0]);
}

#[test]
fn a_logged_block_does_not_read_again() {
    let workflow = vec![BEGIN, (0x82, 0), (0x72, 0), RETURN];
    let count = vec![BEGIN, (0x90, 1), (0x70, 0), RETURN];
    let mut state = State::new(encode(&[workflow, count]), 1, 12);
    state.arrival(0, request(7)).expect("an arrival");
    assert_eq!(state.turn(0), Ok(Answer::Moved));
    state.crash(0).expect("a crash");
    let counted = Request {
        workflow: 1,
        ..request(8)
    };
    state.arrival(1, counted).expect("an arrival");
    assert_eq!(state.turn(1), Ok(Answer::Moved));
    state.retry(0, 7).expect("a retry");
    assert_eq!(state.turn(0), Ok(Answer::Moved));
    assert_eq!(state.turn(0), Ok(Answer::Reply { id: 7, value: 30 }));
}

#[test]
fn jumps_compare_unsigned_numbers() {
    // r5 = 2^32 − 1, r6 = 1; the jump passes the SET of r7.
    let with =
        |byte: u8, s: u32| result_of(&[(0x05, u32::MAX), (0x06, 1), (byte, 16 * 5 + s), (0x07, 9)]);
    assert_eq!(with(0x45, 6), 9);
    assert_eq!(with(0x46, 5), 0);
    assert_eq!(with(0x46, 6), 9, "not below itself");
    assert_eq!(with(0x56, 6), 0);
    assert_eq!(with(0x55, 6), 9);
}

#[test]
fn get_and_copy_into_their_own_register() {
    assert_eq!(result_of(&[(0x17, 0), (0x97, 2), (0x87, 7)]), 30);
    assert_eq!(result_of(&[(0x07, 3), (0x27, 7)]), 6);
    assert_eq!(result_of(&[(0x07, 3), (0x37, 7)]), 0);
}

/// The block of request 7 in a partition that has rows: what the turn leaves there.
#[test]
fn new_rows_go_to_their_places() {
    // Keys 100 and 30 get 200, key 200 gets 30; the result is 0.
    let block = vec![BEGIN, (0x90, 1), (0x91, 2), (0x92, 1), (0x73, 0), RETURN];
    let mut state = State::new(encode(&[block]), 1, 10);
    state.arrival(0, request(7)).expect("an arrival");
    let rows = [
        (log(6, 9), 1),
        (log(7, 1), 2),
        (data(29), 3),
        (data(100), 4),
        (data(150), 5),
    ];
    state.store = laid(10, &[&rows, &booked(7)]);
    assert_eq!(state.turn(0), Ok(Answer::Moved));
    let [before, behind, first, _, between] = rows;
    let left = [
        before,
        (log(7, 0), 0),
        behind,
        first,
        (data(30), 200),
        (data(100), 200),
        between,
        (data(200), 30),
    ];
    assert_eq!(state.store, laid(10, &[&left, &booked(7)]));
}

#[test]
fn a_booking_goes_to_its_place() {
    let mut state = State::new(move_pack(), 2, 20);
    for (slot, id) in [(0, 7), (1, 3), (2, 9), (3, 5)] {
        assert_eq!(state.arrival(slot, request(id)), Ok(Answer::Done));
    }
    let book = [3, 5, 7, 9].map(booked).concat();
    assert_eq!(state.store, laid(20, &[&[], &[], &book]));
}

#[test]
fn equal_contents_are_equal_bytes() {
    let left = |ids: [u32; 3]| {
        let mut state = State::new(encode(&[vec![BEGIN, (0x90, 1), END, RETURN]]), 1, 20);
        for id in ids {
            state.arrival(0, request(id)).expect("an arrival");
            state.turn(0).expect("the block");
            state.crash(0).expect("a crash");
        }
        state.store
    };
    assert_eq!(left([1, 2, 3]), left([3, 1, 2]));
}

#[test]
fn steps_count_by_request_and_not_by_partition() {
    let mut state = State::with_move();
    for _ in 0..3 {
        assert_eq!(state.turn(0), Ok(Answer::Moved));
    }
    let store = Store::read(state.store.as_slice()).expect("right");
    assert_eq!(
        store.find(0, Key::Log { id: 7, step: 0 }.stored()),
        Some(0xFFFF_FFE2)
    );
    assert_eq!(
        store.find(1, Key::Log { id: 7, step: 1 }.stored()),
        Some(30)
    );
    assert_eq!(store.find(1, Key::Log { id: 7, step: 0 }.stored()), None);
}

#[test]
fn a_log_row_is_sought_in_its_own_partition_by_id_and_step() {
    let mut state = State::with_move();
    state.turn(0).expect("COPY");
    let mut store = Store::read(state.store.as_mut_slice()).expect("right");
    for (partition, id, step) in [(1, 7, 0), (0, 7, 1), (0, 8, 0)] {
        assert!(store.put(partition, Key::Log { id, step }.stored(), 5));
    }
    assert_eq!(state.turn(0), Ok(Answer::Moved));
    assert_eq!(state.slots[0].registers[0], 0xFFFF_FFE2, "the block ran");
    assert_eq!(state.turn(0), Ok(Answer::Moved));
    assert_eq!(state.slots[0].registers[0], 30, "so did the second");
}

#[test]
fn two_agents_of_one_id_do_a_block_once() {
    let mut state = State::with_move();
    state.retry(4, 7).expect("a second agent");
    for slot in [0, 4] {
        state.turn(slot).expect("COPY");
        state.turn(slot).expect("the block");
    }
    assert_eq!(state.slots[0], state.slots[4]);
    let store = Store::read(state.store.as_slice()).expect("right");
    assert_eq!(store.find(0, Key::Data(100).stored()), Some(0xFFFF_FFE2));
}

#[test]
fn a_reply_empties_the_slot() {
    let mut state = State::new(encode(&[vec![(0xB2, 0)]]), 1, 5);
    state.arrival(6, request(7)).expect("an arrival");
    assert_eq!(state.turn(6), Ok(Answer::Reply { id: 7, value: 30 }));
    assert!(state.slots[6].is_empty());
    assert_eq!(question(state.turn(6)), 16);
}
