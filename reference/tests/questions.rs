//! Each of the questions 1 to 24 by hand, with its place and its neighbours.

mod common;

use common::*;
use reference::bytes::write_at;
use reference::pack::{check, encode, open};
use reference::schedule::{program, Schedule};
use reference::store::{book_key, create, Key, Shape, Store};
use reference::{Agent, Answer, Call, Refusal};

fn checked(workflow: &[(u8, u32)]) -> Result<(), Refusal> {
    check(&encode(&[workflow.to_vec()]))
}

fn refused(question: u8, instruction: usize) -> Result<(), Refusal> {
    Err(Refusal::at(question, 0, instruction))
}

#[test]
fn question_1_count() {
    assert_eq!(check(&[0]), Err(Refusal::of(1)));
    assert_eq!(check(&[255, 1, 0]), Err(Refusal::of(1)));
}

#[test]
fn question_2_sizes() {
    assert_eq!(check(&[1]), Err(Refusal::of(2)));
    assert_eq!(check(&[1, 1]), Err(Refusal::of(2)));
    assert_eq!(check(&[1, 0, 0]), Err(Refusal::of(2)));
    assert_eq!(check(&[2, 1, 0, 0xB0]), Err(Refusal::of(2)));
    let sizes = |count: u8, size: u16| {
        let mut bytes = vec![count];
        bytes.extend(size.to_le_bytes().repeat(usize::from(count)));
        check(&bytes)
    };
    assert_eq!(sizes(16, 129), Err(Refusal::of(2)));
    assert_eq!(sizes(16, 128), Err(Refusal::of(3)));
}

#[test]
fn question_3_length() {
    let mut pack = move_pack();
    pack.push(0);
    assert_eq!(check(&pack), Err(Refusal::of(3)));
    pack.truncate(pack.len() - 2);
    assert_eq!(check(&pack), Err(Refusal::of(3)));
    let full = vec![[vec![SET; 255], vec![RETURN]].concat(); 8];
    assert_eq!(check(&encode(&full)), Ok(()));
}

#[test]
fn question_4_operation() {
    assert_eq!(checked(&[SET, (0xC0, 0), RETURN]), refused(4, 1));
    assert_eq!(checked(&[SET, SET, (0xB8, 0)]), refused(4, 2));
    // 4 is put before 5 and 6 of the same instruction.
    assert_eq!(checked(&[(0x9F, 99), RETURN]), refused(4, 0));
}

#[test]
fn question_5_operand() {
    for code in [1, 2, 3] {
        assert_eq!(checked(&[(code << 4, 7), RETURN]), Ok(()));
        assert_eq!(checked(&[(code << 4, 8), RETURN]), refused(5, 0));
    }
    for code in [8, 9, 10] {
        assert_eq!(
            checked(&[BEGIN, (code << 4, 8), END, RETURN]),
            refused(5, 1)
        );
    }
    assert_eq!(checked(&[(0x60, 8), END, RETURN]), refused(5, 0));
    assert_eq!(checked(&[(0x61, 0), END, RETURN]), refused(5, 0));
    assert_eq!(checked(&[BEGIN, (0x77, 0), (0xB7, 0)]), Ok(()));
    assert_eq!(checked(&[BEGIN, (0x70, 1), RETURN]), refused(5, 1));
    assert_eq!(checked(&[(0xB0, 1)]), refused(5, 0));
    assert_eq!(checked(&[(0x07, u32::MAX), RETURN]), Ok(()));
}

#[test]
fn question_5_jump() {
    let jump = |word| checked(&[SET, (0x40, word), SET, RETURN]);
    assert_eq!(jump(16 * 2 + 7), Ok(()));
    assert_eq!(jump(16 * 3), Ok(()));
    assert_eq!(jump(16 * 2 + 8), refused(5, 1));
    assert_eq!(jump(16), refused(5, 1));
    assert_eq!(jump(0), refused(5, 1));
    assert_eq!(jump(16 * 4), refused(5, 1));
    assert_eq!(jump(u32::MAX - 8), refused(5, 1));
}

#[test]
fn question_6_standing() {
    assert_eq!(checked(&[(0x80, 0), RETURN]), refused(6, 0));
    assert_eq!(checked(&[PUT, RETURN]), refused(6, 0));
    assert_eq!(checked(&[(0xA0, 0), RETURN]), refused(6, 0));
    assert_eq!(checked(&[END, RETURN]), refused(6, 0));
    assert_eq!(checked(&[BEGIN, BEGIN, END, RETURN]), refused(6, 1));
    assert_eq!(checked(&[BEGIN, RETURN]), refused(6, 1));
    assert_eq!(checked(&[BEGIN, END, END, RETURN]), refused(6, 2));
}

#[test]
fn question_6_landing_from_outside() {
    let land = |target: u32| checked(&[(0x50, 16 * target), BEGIN, SET, END, RETURN]);
    assert_eq!(land(1), Ok(()), "on the BEGIN");
    assert_eq!(land(2), refused(6, 0));
    assert_eq!(land(3), refused(6, 0), "on the END");
    assert_eq!(land(4), Ok(()));
}

#[test]
fn question_6_landing_from_inside() {
    let land = |target: u32| checked(&[BEGIN, (0x50, 16 * target), SET, END, SET, RETURN]);
    assert_eq!(land(2), Ok(()));
    assert_eq!(land(3), Ok(()), "on the END");
    assert_eq!(land(4), refused(6, 1));
    assert_eq!(land(5), refused(6, 1));
}

#[test]
fn question_6_counts_what_only_looks_like_begin_or_end() {
    let over = |byte, w| checked(&[(0x50, 32), (byte, w), SET, RETURN]);
    assert_eq!(over(0x68, 0), refused(6, 0));
    assert_eq!(over(0x61, 0), refused(6, 0));
    assert_eq!(over(0x60, 8), refused(6, 0));
    assert_eq!(over(0xC0, 0), refused(4, 1));
    let inside = |byte| checked(&[BEGIN, (0x50, 48), (byte, 0), SET, END, RETURN]);
    assert_eq!(inside(0x78), refused(6, 1));
    assert_eq!(
        inside(0x60),
        refused(6, 2),
        "a jump over a BEGIN passes no END"
    );
    let both = [(0x50, 48), BEGIN, (0x7F, 0), SET, RETURN];
    assert_eq!(checked(&both), refused(4, 2));
}

#[test]
fn question_7_counts_by_block() {
    let block = [vec![BEGIN], vec![PUT; 16], vec![END]].concat();
    let two = [block.clone(), block, vec![RETURN]].concat();
    assert_eq!(checked(&two), Ok(()));
}

#[test]
fn question_8_and_the_order_of_workflows() {
    assert_eq!(checked(&[RETURN, SET]), refused(8, 1));
    assert_eq!(checked(&[BEGIN, END]), refused(8, 1));
    assert_eq!(checked(&[BEGIN, SET]), refused(8, 1));
    let pack = encode(&[vec![RETURN], vec![RETURN, SET], vec![(0xFF, 0)]]);
    assert_eq!(check(&pack), Err(Refusal::at(8, 1, 1)));
    let pack = encode(&[vec![RETURN], vec![SET, (0x10, 8)], vec![SET]]);
    assert_eq!(check(&pack), Err(Refusal::at(5, 1, 1)));
}

#[test]
fn question_9_store_and_create() {
    let mut state = State::with_move();
    state.store.truncate(2);
    assert_eq!(question(state.turn(0)), 9);
    let mut state = State::with_move();
    state.store[0] = 9;
    assert_eq!(question(state.turn(0)), 9);
    for (partitions, rows) in [(0, 5), (9, 5), (1, 4), (1, 257), (257, 5), (1, 65_541)] {
        let mut buffer = vec![7; 129];
        assert_eq!(create(&mut buffer, partitions, rows), Err(Refusal::of(9)));
        assert_eq!(buffer, vec![7; 129]);
    }
}

#[test]
fn question_10_store_and_create() {
    let mut state = State::with_move();
    state.store.push(0);
    assert_eq!(question(state.turn(0)), 10);
    for length in [0, 2, 126, 128] {
        assert_eq!(create(&mut vec![7; length], 1, 5), Err(Refusal::of(10)));
    }
    let mut buffer = vec![7; 127];
    assert_eq!(create(&mut buffer, 1, 5), Ok(()));
    assert_eq!(buffer[..3], [1, 5, 0]);
    assert!(buffer[3..].iter().all(|byte| *byte == 0));
    let largest = Shape::new(8, 256).expect("in range").length();
    assert_eq!(largest, 3 + 2 * 9 + 12 * 256 * 9);
}

/// The answer of a turn after one change to the store of the MOVE state.
fn turn_after(change: impl Fn(&mut [u8], Shape)) -> u8 {
    let mut state = State::with_move();
    let shape = Store::read(state.store.as_slice()).expect("right").shape();
    change(&mut state.store, shape);
    let before = (state.store.clone(), state.slots);
    let answer = question(state.turn(0));
    if answer != 0 {
        assert_eq!(before, (state.store, state.slots));
    }
    answer
}

fn set_key(store: &mut [u8], shape: Shape, partition: usize, row: usize, key: u64) {
    write_at(store, shape.key_at(partition, row), &key.to_le_bytes());
}

#[test]
fn question_11_counts_and_unused_rows() {
    let used = |partition, count: u16| {
        turn_after(|store, shape| {
            write_at(store, shape.used_at(partition), &count.to_le_bytes());
        })
    };
    assert_eq!(used(0, 11), 11);
    assert_eq!(used(0, 65_535), 11);
    assert_eq!(used(2, 4), 11);
    assert_eq!(used(0, 1), 0, "key 0 is a right key");
    assert_eq!(used(0, 2), 11, "twice key 0");
    let unused_key = turn_after(|store, shape| set_key(store, shape, 1, 9, 1));
    assert_eq!(unused_key, 11);
    let unused_value = turn_after(|store, shape| store[shape.value_at(1, 9)] = 1);
    assert_eq!(unused_value, 11);
}

#[test]
fn question_11_forms_of_keys() {
    let data = |key: u64| {
        turn_after(|store, shape| {
            write_at(store, shape.used_at(1), &[1, 0]);
            set_key(store, shape, 1, 0, key);
        })
    };
    assert_eq!(data(1 << 63), 0);
    assert_eq!(data((1 << 63) + (1 << 32) - 1), 0);
    assert_eq!(data((1 << 63) + (1 << 32)), 11);
    assert_eq!(data((1 << 48) - 1), 0, "any id and step, booked or not");
    assert_eq!(data(1 << 48), 11);
    let book = |row, key| turn_after(|store, shape| set_key(store, shape, 2, row, key));
    assert_eq!(book(0, 56), 0);
    assert_eq!(book(0, 57), 11, "it is there already");
    assert_eq!(book(4, 61), 11);
    assert_eq!(book(4, 1 << 35), 11);
    assert_eq!(book(4, (1 << 35) - 8), 12);
}

/// The answers of arrival, retry, turn and crash on this store, each of which would be
/// accepted on the same rows in order, and of putting it in order.
fn answers_on(store: &[u8]) -> [u8; 5] {
    let mut state = State::with_move();
    let calls = [
        Call::Arrival {
            slot: 1,
            request: request(7),
        },
        Call::Retry { slot: 2, id: 7 },
        Call::Turn { slot: 0 },
        Call::Crash { slot: 0 },
        Call::PutInOrder,
    ];
    calls.map(|call| {
        state.store = store.to_vec();
        let answer = question(state.call(call));
        if answer != 0 {
            assert_eq!(state.store, store);
        }
        state = State::with_move();
        answer
    })
}

#[test]
fn question_11_rising_keys() {
    let rows = [(log(7, 5), 9), (log(8, 0), 8), (data(1), 7), (data(2), 6)];
    let book = booked(7);
    assert_eq!(answers_on(&laid(5, &[&rows, &[], &book])), [0; 5]);
    let not_rising = [11, 11, 11, 11, 0];
    for row in 0..3 {
        let mut swapped = rows;
        swapped.swap(row, row + 1);
        let store = laid(5, &[&swapped, &[], &book]);
        assert_eq!(answers_on(&store), not_rising, "rows from {row} on");
        let store = laid(5, &[&[], &swapped, &book]);
        assert_eq!(answers_on(&store), not_rising, "in partition 1");
    }
    for row in 0..4 {
        let mut swapped = book;
        swapped.swap(row, row + 1);
        let store = laid(5, &[&rows, &[], &swapped]);
        assert_eq!(answers_on(&store), not_rising, "in the book");
    }
    let equal = [(data(1), 7), (data(1), 7), (data(2), 6)];
    assert_eq!(answers_on(&laid(5, &[&equal, &[], &book])), [11; 5]);
}

/// The answer of putting this store in order, and what it leaves.
fn put_in_order(store: &[u8]) -> (u8, Vec<u8>) {
    let mut left = store.to_vec();
    let answer = question(reference::calls::put_in_order(&mut left));
    (answer, left)
}

#[test]
fn a_store_is_put_in_order_with_the_same_rows() {
    let rows = [(log(8, 0), 1), (log(8, 1), 2), (data(0), 3), (data(9), 4)];
    let book = [booked(3), booked(7)].concat();
    let ordered = laid(10, &[&rows, &rows[1..], &book]);
    let mut backwards = book.clone();
    backwards.reverse();
    let [a, b, c, d] = rows;
    let earlier = laid(10, &[&[c, a, d, b], &[d, c, b], &backwards]);
    assert_eq!(put_in_order(&earlier), (0, ordered.clone()));
    assert_eq!(put_in_order(&ordered), (0, ordered.clone()), "again");
    let one_left = laid(10, &[&rows, &rows[1..], &backwards]);
    assert_eq!(put_in_order(&one_left), (0, ordered), "the book only");
    let fresh = laid(5, &[&[], &[]]);
    assert_eq!(put_in_order(&fresh), (0, fresh));
}

#[test]
fn putting_in_order_reads_neither_pack_nor_slots_and_leaves_them() {
    let mut state = State::with_move();
    state.store = laid(5, &[&[(data(1), 1), (log(7, 0), 1)], &[], &booked(7)]);
    state.pack.clear();
    state.slots[3].step = 77;
    let slots = state.slots;
    assert_eq!(state.call(Call::PutInOrder), Ok(Answer::Done));
    assert_eq!(state.slots, slots);
    let ordered = laid(5, &[&[(log(7, 0), 1), (data(1), 1)], &[], &booked(7)]);
    assert_eq!(state.store, ordered);
}

#[test]
fn putting_in_order_puts_9_to_12() {
    let refused = |store: &[u8]| {
        let (answer, left) = put_in_order(store);
        assert_eq!(left, store, "nothing is changed");
        answer
    };
    let [one, two, three, four, five] = booked(7);
    let book = [one, two, three, four, five];
    let shuffled = [five, two, one, three, four];
    assert_eq!(refused(&[1, 5]), 9);
    assert_eq!(refused(&laid(4, &[&[], &[]])), 9);
    let short = laid(5, &[&[], &book]);
    assert_eq!(refused(&short[..short.len() - 1]), 10);
    // In order but for what is asked, and not.
    for book in [book, shuffled] {
        let on = |rows: &[(u64, u32)]| refused(&laid(5, &[rows, &book]));
        assert_eq!(on(&[(log(1, 0), 1), (1 << 48, 2)]), 11, "a form");
        assert_eq!(on(&[(data(1), 1), (data(1 << 32), 2)]), 11, "a form");
        assert_eq!(on(&[(data(1), 1), (data(1), 2)]), 11, "side by side");
        assert_eq!(on(&[(data(1), 1), (data(2), 2), (data(1), 3)]), 11, "apart");
        let mut store = laid(5, &[&[], &book]);
        store[3] = 6;
        assert_eq!(refused(&store), 11, "a count");
        let mut store = laid(5, &[&[(data(1), 1), (data(2), 2)], &book]);
        store[3] = 1;
        assert_eq!(refused(&store), 11, "an unused row");
    }
    assert_eq!(refused(&laid(5, &[&[], &[one, two, three, four]])), 12);
    assert_eq!(refused(&laid(5, &[&[], &[four, two, three, one]])), 12);
    let twice = [one, two, three, four, one];
    assert_eq!(refused(&laid(5, &[&[], &twice])), 11, "before 12");
}

#[test]
fn question_12_five_rows() {
    let lone = turn_after(|store, _| {
        let mut store = Store::read(store).expect("right");
        assert!(store.put(2, book_key(9, 4), 0));
    });
    assert_eq!(lone, 12);
}

#[test]
fn question_13_workflows_and_partitions() {
    let booked = |workflow| {
        turn_after(|store, _| {
            let mut store = Store::read(store).expect("right");
            assert!(store.put(2, book_key(7, 0), workflow));
        })
    };
    assert_eq!(booked(0), 0);
    assert_eq!(booked(1), 13);
    assert_eq!(booked(65_536), 13);
    let mut state = State::new(move_pack(), 1, 5);
    assert_eq!(question(state.arrival(0, request(7))), 13);
    // Any workflow's BEGIN counts, also one that nobody asks for.
    let pack = encode(&[vec![RETURN], vec![RETURN, (0x60, 7), END, RETURN]]);
    assert_eq!(
        question(State::new(pack.clone(), 7, 5).arrival(0, request(7))),
        13
    );
    assert_eq!(question(State::new(pack, 8, 5).arrival(0, request(7))), 0);
}

/// The answer of a crash of slot 0 after one change to another slot's record.
fn crash_beside(change: impl Fn(&mut Agent)) -> u8 {
    let mut state = State::with_move();
    state.slots[5] = state.slots[0];
    change(&mut state.slots[5]);
    question(state.crash(0))
}

#[test]
fn question_14_records() {
    assert_eq!(crash_beside(|_| {}), 0);
    assert_eq!(crash_beside(|agent| *agent = Agent::EMPTY), 0);
    assert_eq!(crash_beside(|agent| agent.in_use = 0), 14);
    assert_eq!(crash_beside(|agent| agent.in_use = 2), 14);
    assert_eq!(crash_beside(|agent| agent.position += 65_536), 14);
    assert_eq!(crash_beside(|agent| agent.step += 65_536), 14);
    let in_use_2 = |agent: &mut Agent| {
        *agent = Agent::EMPTY;
        agent.in_use = 2;
    };
    assert_eq!(crash_beside(in_use_2), 14);
    let dirty = |agent: &mut Agent| {
        *agent = Agent::EMPTY;
        agent.registers[7] = 1;
    };
    assert_eq!(crash_beside(dirty), 14);
    assert_eq!(crash_beside(|agent| agent.id = 8), 14);
    assert_eq!(crash_beside(|agent| agent.step = 1), 14);
    let at = |position, step| {
        crash_beside(|agent| {
            agent.position = position;
            agent.step = step;
        })
    };
    assert_eq!(at(1, 1), 0, "a BEGIN is outside");
    assert_eq!(at(2, 0), 14);
    assert_eq!(at(5, 0), 14, "an END is inside");
    assert_eq!(at(6, 6), 0);
    assert_eq!(at(6, 7), 14);
    assert_eq!(at(11, 11), 0);
    assert_eq!(at(12, 0), 14);
    assert_eq!(at(65_536, 0), 14);
}

#[test]
fn question_15_slot() {
    let mut state = State::with_move();
    for slot in [8, 15, 256, u32::MAX] {
        assert_eq!(question(state.arrival(slot, request(7))), 15);
        assert_eq!(question(state.retry(slot, 7)), 15);
        assert_eq!(question(state.turn(slot)), 15);
        assert_eq!(question(state.crash(slot)), 15);
    }
}

#[test]
fn question_16_use() {
    let mut state = State::with_move();
    assert_eq!(question(state.arrival(0, request(7))), 16);
    assert_eq!(question(state.retry(0, 7)), 16);
    assert_eq!(question(state.turn(7)), 16);
    assert_eq!(question(state.crash(7)), 16);
    assert_eq!(question(state.retry(7, 7)), 0);
}

#[test]
fn question_17_workflow() {
    let mut state = State::with_move();
    for workflow in [1, 65_536, u32::MAX] {
        let mut asked = request(7);
        asked.workflow = workflow;
        assert_eq!(question(state.arrival(1, asked)), 17, "before 18");
        assert_eq!(open(&state.pack, workflow), Err(Refusal::of(17)));
    }
    let parts = open(&state.pack, 0).expect("workflow 0");
    assert_eq!(parts.operations, &state.pack[3..15]);
    assert_eq!(parts.operands, &state.pack[15..]);
}

#[test]
fn question_18_repeat() {
    let two = encode(&[move_workflow(), vec![RETURN]]);
    let mut state = State::new(two, 2, 5);
    assert_eq!(state.arrival(0, request(7)), Ok(Answer::Done));
    let mut other = request(7);
    other.workflow = 1;
    assert_eq!(question(state.arrival(1, other)), 18);
    for i in 0..4 {
        let mut other = request(7);
        other.arguments[i] += 1;
        assert_eq!(question(state.arrival(1, other)), 18);
    }
    assert_eq!(
        question(state.arrival(1, request(7))),
        0,
        "a full book, but known"
    );
}

#[test]
fn question_19_room_in_the_book() {
    let answers = |rows| {
        let mut state = State::new(move_pack(), 2, rows);
        let first = question(state.arrival(0, request(7)));
        (first, question(state.arrival(1, request(8))))
    };
    assert_eq!(answers(5), (0, 19));
    assert_eq!(answers(9), (0, 19));
    assert_eq!(answers(10), (0, 0));
}

#[test]
fn question_20_retry() {
    let mut state = State::with_move();
    assert_eq!(question(state.retry(1, 8)), 20);
    assert_eq!(question(state.retry(1, 7 + 65_536)), 20);
    assert_eq!(state.retry(1, 7), Ok(Answer::Done));
    assert_eq!(state.slots[1], Agent::started(7, [100, 200, 30, 0]));
}

/// MOVE with two partitions of ten rows and id 0 in the book, as an older runtime left it.
fn older() -> State {
    let mut state = State::new(move_pack(), 2, 10);
    let mut store = Store::read(state.store.as_mut_slice()).expect("right");
    store.book(&request(0));
    state
}

#[test]
fn question_24_request_number_zero() {
    let asked = |state: &mut State, slot, workflow, amount| {
        let mut zero = request(0);
        zero.workflow = workflow;
        zero.arguments[2] = amount;
        let before = (state.store.clone(), state.slots);
        let answer = question(state.arrival(slot, zero));
        assert_eq!(before, (state.store.clone(), state.slots));
        answer
    };
    let state = &mut State::with_move();
    assert_eq!(asked(state, 1, 0, 30), 24);
    assert_eq!(asked(state, 1, 9, 30), 24, "before 17");
    assert_eq!(asked(state, 0, 0, 30), 16, "behind 16");
    assert_eq!(asked(state, 8, 0, 30), 15, "behind 15");
    let state = &mut older();
    assert_eq!(asked(state, 0, 0, 30), 24, "a repeat too");
    assert_eq!(asked(state, 0, 0, 31), 24, "before 18");
    let state = &mut State::new(move_pack(), 2, 5);
    assert_eq!(question(state.arrival(0, request(7))), 0);
    assert_eq!(asked(state, 1, 0, 30), 24, "before 19");
    assert_eq!(question(state.retry(1, 0)), 20, "not put to a retry");
    let state = &mut State::new(move_pack(), 1, 5);
    assert_eq!(asked(state, 0, 0, 30), 13, "behind 13");
    assert_eq!(question(older().arrival(0, request(1))), 0, "0 only");
}

#[test]
fn an_older_request_of_id_0_is_retried_up_to_its_reply() {
    let mut state = older();
    assert_eq!(state.retry(3, 0), Ok(Answer::Done));
    assert_eq!(state.slots[3], Agent::started(0, [100, 200, 30, 0]));
    for _ in 0..3 {
        assert_eq!(state.turn(3), Ok(Answer::Moved));
    }
    assert_eq!(state.turn(3), Ok(Answer::Reply { id: 0, value: 30 }));
    let rows = state.store.clone();
    assert_eq!(state.retry(0, 0), Ok(Answer::Done));
    let again: Vec<_> = (0..4).map(|_| state.turn(0)).collect();
    assert_eq!(again[3], Ok(Answer::Reply { id: 0, value: 30 }));
    assert_eq!(rows, state.store, "nothing counts twice");
}

/// Fills partition 0 with log rows of another id.
fn fill(state: &mut State, free: usize) {
    let mut store = Store::read(state.store.as_mut_slice()).expect("right");
    for step in 0.. {
        if store.free(0) <= free {
            break;
        }
        assert!(store.put(0, Key::Log { id: 9, step }.stored(), 1));
    }
}

#[test]
fn question_21_room_for_a_block() {
    for (free, answer) in [(0, 21), (1, 21), (2, 0)] {
        let mut state = State::with_move();
        fill(&mut state, free);
        assert_eq!(state.turn(0), Ok(Answer::Moved));
        let before = (state.store.clone(), state.slots);
        assert_eq!(question(state.turn(0)), answer);
        assert_eq!(before == (state.store, state.slots), answer == 21);
    }
}

#[test]
fn a_logged_block_needs_no_room_and_changes_no_row() {
    let mut state = State::with_move();
    state.turn(0).expect("COPY");
    state.turn(0).expect("the first block");
    fill(&mut state, 0);
    state.crash(0).expect("a crash");
    state.retry(3, 7).expect("a retry");
    state.turn(3).expect("COPY");
    let rows = state.store.clone();
    assert_eq!(state.turn(3), Ok(Answer::Moved));
    assert_eq!(rows, state.store);
    let agent = state.slots[3];
    assert_eq!((agent.position, agent.step), (6, 1));
    assert_eq!(agent.registers, [0xFFFF_FFE2, 200, 30, 0, 100, 0, 0, 0]);
}

#[test]
fn restart_asks_nothing() {
    let mut state = State::with_move();
    state.pack.clear();
    state.store.clear();
    state.slots[1].step = 77;
    assert_eq!(state.call(Call::Restart), Ok(Answer::Done));
    assert_eq!(state.slots, reference::agents::ALL_EMPTY);
    state.store = laid(5, &[&[(data(1), 1), (data(0), 1)], &[]]);
    let rows = state.store.clone();
    assert_eq!(state.call(Call::Restart), Ok(Answer::Done));
    assert_eq!(state.store, rows, "whatever the order of the rows");
}

fn run(change: impl Fn(&mut Vec<u8>)) -> String {
    let mut schedule = whole_schedule().encode();
    change(&mut schedule);
    program(&move_pack(), &schedule)
}

#[test]
fn question_22_length_and_limits() {
    assert_eq!(run(|bytes| bytes.clear()), "refused 22\n");
    assert_eq!(run(|bytes| bytes.truncate(5)), "refused 22\n");
    assert_eq!(run(|bytes| bytes.push(0)), "refused 22\n");
    let limits = |g: usize, e: usize| {
        program(&move_pack(), &{
            let mut schedule = whole_schedule();
            schedule.requests = vec![request(7); g];
            schedule.events = vec![event(0x40, 0); e];
            schedule.encode()
        })
    };
    assert!(limits(64, 1_024).starts_with("events 1024\n0 done\n"));
    assert_eq!(limits(65, 1), "refused 22\n");
    assert_eq!(limits(1, 1_025), "refused 22\n");
    assert_eq!(limits(0, 0), "events 0\n");
    // 22 comes before 23 and 9, but behind 1 to 8.
    assert_eq!(run(|bytes| *bytes = vec![0, 0, 0, 0, 1, 0]), "refused 22\n");
    assert_eq!(program(&[], &[]), "refused 1\n");
    assert_eq!(program(&encode(&[vec![SET]]), &[]), "refused 8\n");
}

#[test]
fn question_23_kinds_and_indexes() {
    let first = 6 + 48;
    assert_eq!(run(|bytes| bytes[first] = 0x50), "refused 23\n");
    assert_eq!(run(|bytes| bytes[first + 10] = 2), "refused 23\n");
    assert_eq!(run(|bytes| bytes[first + 11] = 1), "refused 23\n");
    assert_eq!(run(|bytes| bytes[first + 14] = 2), "refused 23\n");
    let both = run(|bytes| {
        bytes[0] = 0;
        bytes[first] = 0x50;
    });
    assert_eq!(both, "refused 23\n", "before 9");
}

#[test]
fn question_9_of_a_schedule_comes_last() {
    assert_eq!(run(|bytes| bytes[0] = 0), "refused 9\n");
    assert_eq!(run(|bytes| bytes[0] = 9), "refused 9\n");
    assert_eq!(run(|bytes| bytes[1] = 4), "refused 9\n");
    assert_eq!(run(|bytes| bytes[2] = 1), "refused 9\n");
}

#[test]
fn slots_above_7_and_missing_partitions_are_answers_of_events() {
    let mut schedule = whole_schedule();
    schedule.events = vec![event(0x08, 0), event(0x1F, 0), event(0x4F, 0)];
    let text = program(&move_pack(), &schedule.encode());
    assert_eq!(text, "events 3\n0 refused 15\n1 refused 15\n2 done\n");
    schedule.partitions = 1;
    let text = program(&move_pack(), &schedule.encode());
    assert_eq!(text, "events 3\n0 refused 13\n1 refused 13\n2 done\n");
    assert_eq!(Schedule::read(&schedule.encode()), Ok(schedule));
}
