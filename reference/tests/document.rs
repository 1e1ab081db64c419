//! Document 01 itself: its whole case and every one of its edges.

mod common;

use common::*;
use reference::pack::{check, encode};
use reference::schedule::program;
use reference::store::{book_key, Key, Store};
use reference::{Answer, Refusal};

const WHOLE_CASE: &str = "\
events 10
0 done
1 moved
2 moved
3 done
4 done
5 moved
6 moved
7 moved
8 reply 7 30
9 refused 19
row 0 100 4294967266
log 0 7 0 4294967266
row 1 200 30
log 1 7 1 30
";

#[test]
fn whole_case_is_printed_as_in_the_document() {
    assert_eq!(
        program(&move_pack(), &whole_schedule().encode()),
        WHOLE_CASE
    );
}

#[test]
fn whole_case_has_the_documents_bytes() {
    let pack = move_pack();
    assert_eq!(pack.len(), 1 + 2 + 5 * 12);
    assert_eq!(&pack[..3], [1, 12, 0]);
    let operations = "14 60 85 35 94 75 60 85 25 91 75 B0";
    let bytes: Vec<String> = pack[3..15].iter().map(|b| format!("{b:02X}")).collect();
    assert_eq!(bytes.join(" "), operations);
    let words = [0, 0, 4, 2, 5, 0, 1, 1, 2, 5, 0, 0];
    assert_eq!(pack[15..], words.map(u32::to_le_bytes).concat());
    let schedule = whole_schedule().encode();
    assert_eq!(&schedule[..6], [2, 5, 0, 2, 10, 0]);
    let events = &schedule[6 + 48..];
    assert_eq!(
        events[..10],
        [0x00, 0x10, 0x10, 0x20, 0x31, 0x11, 0x11, 0x11, 0x11, 0x01]
    );
    assert_eq!(events[10..], [0, 0, 0, 0, 0, 0, 0, 0, 0, 1]);
}

#[test]
fn empty_pack_and_seventeen_workflows_are_1() {
    assert_eq!(check(&[]), Err(Refusal::of(1)));
    assert_eq!(check(&encode(&vec![vec![RETURN]; 17])), Err(Refusal::of(1)));
    assert_eq!(check(&encode(&vec![vec![RETURN]; 16])), Ok(()));
}

#[test]
fn the_smallest_pack_and_its_neighbours() {
    let with = |byte| check(&[1, 1, 0, byte, 0, 0, 0, 0]);
    assert_eq!(with(0xB0), Ok(()));
    assert_eq!(question(with(0x00)), 8);
    assert_eq!(question(with(0xB8)), 4);
    assert_eq!(question(with(0x50)), 5);
}

/// The reply of a workflow that puts `first` in r0 and `second` in r1 and then does
/// one operation on them.
fn reply_of(byte: u8, first: u32, second: u32) -> u32 {
    let workflow = vec![(0x00, first), (0x01, second), (byte, 1), RETURN];
    let mut state = State::new(encode(&[workflow]), 1, 5);
    assert!(state.arrival(0, request(7)).is_ok());
    for _ in 0..3 {
        assert_eq!(state.turn(0), Ok(Answer::Moved));
    }
    match state.turn(0) {
        Ok(Answer::Reply { id: 7, value }) => value,
        other => panic!("{other:?}"),
    }
}

#[test]
fn arithmetic_keeps_the_remainder() {
    assert_eq!(reply_of(0x30, 0, 30), 4_294_967_266);
    assert_eq!(reply_of(0x20, 4_294_967_295, 1), 0);
}

#[test]
fn keys_of_the_document() {
    assert_eq!(Key::Log { id: 7, step: 1 }.stored(), 458_753);
    assert_eq!(Key::Data(100).stored(), 9_223_372_036_854_775_908);
    assert_eq!(book_key(7, 0), 56);
}

#[test]
fn size_256_passes_and_257_is_2() {
    let of_size = |size: usize| {
        let mut workflow = vec![SET; size - 1];
        workflow.push(RETURN);
        check(&encode(&[workflow]))
    };
    assert_eq!(of_size(256), Ok(()));
    assert_eq!(of_size(257), Err(Refusal::of(2)));
}

#[test]
fn the_seventeenth_put_is_7() {
    let with_puts = |puts| {
        let mut workflow = vec![BEGIN];
        workflow.extend(vec![PUT; puts]);
        workflow.extend([END, RETURN]);
        check(&encode(&[workflow]))
    };
    assert_eq!(with_puts(16), Ok(()));
    assert_eq!(with_puts(17), Err(Refusal::at(7, 0, 17)));
}

#[test]
fn id_7_again_with_amount_31_is_18() {
    let mut state = State::with_move();
    let mut again = request(7);
    again.arguments[2] = 31;
    assert_eq!(state.arrival(1, again), Err(Refusal::of(18)));
    assert_eq!(state.arrival(1, request(7)), Ok(Answer::Done));
}

/// A block with two PUTs to one new key, with `free` rows left in its partition.
fn two_puts_to_one_key(free: usize) -> State {
    let workflow = vec![BEGIN, (0x90, 1), (0x90, 2), END, RETURN];
    let mut state = State::new(encode(&[workflow]), 1, 5);
    assert!(state.arrival(0, request(7)).is_ok());
    let mut store = Store::read(state.store.as_mut_slice()).expect("a right store");
    for step in 0..5 - free {
        let other = Key::Log {
            id: 9,
            step: step as u16,
        };
        assert!(store.put(0, other.stored(), 1));
    }
    state
}

#[test]
fn two_puts_to_one_new_key_need_two_rows() {
    assert_eq!(two_puts_to_one_key(1).turn(0), Err(Refusal::of(21)));
    let mut state = two_puts_to_one_key(2);
    assert_eq!(state.turn(0), Ok(Answer::Moved));
    let store = Store::read(state.store.as_slice()).expect("a right store");
    assert_eq!(store.find(0, Key::Data(100).stored()), Some(30));
    assert_eq!(
        store.find(0, Key::Log { id: 7, step: 0 }.stored()),
        Some(100)
    );
}
