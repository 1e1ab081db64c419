//! Demand 3 on generated lists of calls, and that the witness sees runtimes that break it.

mod common;

use common::spoiled::*;
use common::*;
use reference::generate::any_list;
use reference::plain::{self, check_list, check_run, Tally, Witness};
use reference::random::Random;
use reference::schedule::begin;
use reference::store::{fresh, Key, Store};
use reference::{Answer, Call, Outcome, Pack, Slots};

#[test]
fn demand_3_holds_of_generated_lists() {
    let mut total = Tally::default();
    for list in 0..4_000 {
        let (pack, store, calls) = any_list(&mut Random::of_item(77, list));
        match check_list(&pack, store, &calls) {
            Ok(tally) => total.add(&tally),
            Err(violation) => panic!("list {list}: {violation}"),
        }
    }
    let reached = [
        total.bookings,
        total.retries,
        total.moves,
        total.crashes,
        total.restarts,
        total.orders,
        total.first_replies,
        total.later_replies,
        total.full_lives,
        total.data_rows,
    ];
    assert!(reached.iter().all(|times| *times > 1_000), "{total:?}");
    for question in [13, 15, 16, 17, 18, 19, 20, 21, 24] {
        assert!(total.refused[question] > 100, "question {question}");
    }
}

#[test]
fn the_empty_list_and_the_whole_case() {
    let mut empty = whole_schedule();
    empty.events.clear();
    assert_eq!(
        check_run(&move_pack(), &empty.encode()),
        Ok(Tally::default())
    );
    let tally = check_run(&move_pack(), &whole_schedule().encode()).expect("demand 3");
    assert_eq!((tally.calls, tally.turns, tally.moves), (10, 6, 4));
    assert_eq!((tally.bookings, tally.crashes, tally.retries), (1, 1, 1));
    assert_eq!((tally.first_replies, tally.data_rows), (1, 2));
}

fn violations(mut make: impl FnMut() -> Box<dyn Spoiled>) -> usize {
    let caught = |list: &u64| {
        let (pack, store, calls) = any_list(&mut Random::of_item(5, *list));
        watch(&pack, store, &calls, make().as_mut()).is_err()
    };
    (0..300).filter(caught).count()
}

/// Replies always 0.
struct ReplyZero;
impl Spoiled for ReplyZero {
    fn after(&mut self, outcome: &mut Outcome, _: &mut Slots) {
        if let Ok(Answer::Reply { value, .. }) = outcome {
            *value = 0;
        }
    }
}

/// A later reply differs.
#[derive(Default)]
struct LaterReply(Vec<u32>);
impl Spoiled for LaterReply {
    fn after(&mut self, outcome: &mut Outcome, _: &mut Slots) {
        if let Ok(Answer::Reply { id, value }) = outcome {
            if self.0.contains(id) {
                *value = value.wrapping_add(1);
            }
            self.0.push(*id);
        }
    }
}

/// Forgets its data rows, but not its log.
struct NoRows;
impl Spoiled for NoRows {
    fn at_end(&mut self, store: &mut Vec<u8>) {
        keep_rows(store, |_, key| matches!(key, Key::Log { .. }));
    }
}

/// Never comes to a reply: position 0 again and again.
struct NoReply;
impl Spoiled for NoReply {
    fn after(&mut self, outcome: &mut Outcome, slots: &mut Slots) {
        if *outcome == Ok(Answer::Moved) {
            for agent in slots {
                agent.position = 0;
                agent.step = 0;
            }
        }
    }
}

/// Writes new rows behind the used ones, as was right before W-203.
struct Behind;
impl Spoiled for Behind {
    fn leave(&mut self, _: &Call, given: &[u8], left: &mut plain::State) {
        left.store = appended(given, &left.store);
    }
}

/// Leaves something in a row that it does not use.
struct DirtyRow;
impl Spoiled for DirtyRow {
    fn leave(&mut self, call: &Call, _: &[u8], left: &mut plain::State) {
        let store = Store::lay_out(left.store.as_slice()).expect("laid out");
        let (shape, free) = (store.shape(), store.free(0));
        if free > 0 && matches!(call, Call::Turn { .. }) {
            left.store[shape.value_at(0, shape.rows - 1)] = 1;
        }
    }
}

/// Empties the slots when it puts the store in order.
struct OrderRestarts;
impl Spoiled for OrderRestarts {
    fn leave(&mut self, call: &Call, _: &[u8], left: &mut plain::State) {
        if *call == Call::PutInOrder {
            left.slots = reference::agents::ALL_EMPTY;
        }
    }
}

/// Loses a row when it puts the store in order.
struct OrderLoses;
impl Spoiled for OrderLoses {
    fn leave(&mut self, call: &Call, _: &[u8], left: &mut plain::State) {
        if *call == Call::PutInOrder {
            keep_rows(&mut left.store, |partition, _| partition != 0);
        }
    }
}

#[test]
fn the_witness_sees_spoiled_runtimes() {
    assert_eq!(violations(|| Box::new(Honest)), 0);
    assert!(violations(|| Box::new(NoLog)) > 30);
    assert!(violations(|| Box::new(ReplyZero)) > 20);
    assert!(violations(|| Box::<LaterReply>::default()) > 20);
    assert!(violations(|| Box::new(NoRows)) > 20);
    assert!(violations(|| Box::new(NoReply)) > 20);
    assert!(violations(|| Box::new(Behind)) > 100);
    assert!(violations(|| Box::new(DirtyRow)) > 100);
    assert!(violations(|| Box::new(OrderRestarts)) > 100);
    assert!(violations(|| Box::new(OrderLoses)) > 50);
}

/// Putting in order between any two calls feeds the machine nothing and changes nothing.
#[test]
fn putting_in_order_may_stand_anywhere_in_a_list() {
    let (schedule, store) = begin(&move_pack(), &whole_schedule().encode()).expect("it runs");
    let calls = schedule.calls();
    let order = Call::PutInOrder;
    let more: Vec<Call> = calls
        .iter()
        .flat_map(|call| [order, *call, order])
        .collect();
    let tally = check_list(&move_pack(), store.clone(), &more).expect("demand 3");
    assert_eq!((tally.calls, tally.orders), (30, 20));
    let plain = check_list(&move_pack(), store, &calls).expect("demand 3");
    let without = Tally {
        calls: 10,
        orders: 0,
        times_added_up: 10,
        times_under_way: 5,
        ..tally
    };
    assert_eq!(without, plain);
}

#[test]
fn the_witness_sees_an_accepted_arrival_with_id_0() {
    let pack = move_pack();
    let mut witness = Witness::new(Pack::read(&pack).expect("a right pack"));
    let zero = Call::Arrival {
        slot: 0,
        request: request(0),
    };
    witness.see(&zero, &Ok(Answer::Done));
    let result = witness.close(&fresh(2, 5).expect("in range"));
    assert!(result.is_err_and(|violation| violation.contains("id 0")));
}

#[test]
fn the_whole_case_shuts_out_a_runtime_without_log() {
    let (schedule, store) = begin(&move_pack(), &whole_schedule().encode()).expect("it runs");
    let result = watch(&move_pack(), store, &schedule.calls(), &mut NoLog);
    assert!(result.is_err_and(|violation| violation.contains("partition 0")));
}
