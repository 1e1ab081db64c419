//! W-207: whatever is called on a pack whose only workflow is MOVE, what stands in the bytes
//! adds up; other ways to add up do not, and runtimes that lose or double something are seen.

mod common;

use std::collections::BTreeMap;

use common::spoiled::*;
use common::*;
use reference::agents::SLOTS;
use reference::bytes::write_at;
use reference::generate::{any_list, move_list};
use reference::pack::encode;
use reference::plain::{check_list, check_run, State, Tally};
use reference::random::Random;
use reference::schedule::begin;
use reference::store::{book_key, Key, Request, Store};
use reference::sums::{is_logged, is_only_move, under_way};
use reference::{Call, Outcome, Pack, Slots, Sums};

fn laid_out(bytes: &[u8]) -> Store<&[u8]> {
    Store::lay_out(bytes).expect("laid out")
}

#[test]
fn nothing_is_lost_in_generated_lists() {
    let mut total = Tally::default();
    for list in 0..4_000 {
        let (pack, store, calls) = move_list(&mut Random::of_item(207, list));
        match check_list(&pack, store, &calls) {
            Ok(tally) => total.add(&tally),
            Err(violation) => panic!("list {list}: {violation}"),
        }
    }
    assert_eq!(total.times_added_up, total.calls);
    assert!(total.calls > 250_000, "{total:?}");
    assert!(total.times_under_way > 40_000, "{total:?}");
    let reached = [
        total.bookings,
        total.retries,
        total.moves,
        total.crashes,
        total.restarts,
        total.orders,
        total.first_replies,
        total.later_replies,
        total.data_rows,
    ];
    assert!(reached.iter().all(|times| *times > 4_000), "{total:?}");
    for question in [13, 15, 16, 17, 18, 19, 20, 24] {
        assert!(total.refused[question] > 2_000, "{question}: {total:?}");
    }
    // C / 5 requests, each with at most two rows in a partition, never fill one; what retired ones
    // leave are data rows of few keys.
    assert!(total.retired > 1_000, "{total:?}");
    assert_eq!(total.refused[21], 0);
}

/// What a schedule's store adds up to after each of its events.
fn sums_of_run(pack: &[u8], schedule: &[u8]) -> Vec<(Sums, Vec<(u32, u32)>)> {
    let (schedule, store) = begin(pack, schedule).expect("it runs");
    let mut state = State::new(store);
    let mut after = |call: &Call| {
        let _ = call.perform(pack, &mut state.store, &mut state.slots);
        let store = laid_out(&state.store);
        (Sums::of(&store), under_way(&store))
    };
    schedule.calls().iter().map(&mut after).collect()
}

#[test]
fn the_whole_case_adds_up_after_each_event() {
    let all = sums_of_run(&move_pack(), &whole_schedule().encode());
    let sums: Vec<(u64, u64)> = all.iter().map(|(s, _)| (s.data, s.under_way)).collect();
    let (nothing, between) = ((0, 0), (4_294_967_266, 30));
    let moved = (4_294_967_266 + 30, 0);
    let expected = [vec![nothing; 2], vec![between; 5], vec![moved; 3]];
    assert_eq!(sums, expected.concat());
    assert!(all.iter().all(|(sums, _)| sums.is_divisible()));
    let tally = check_run(&move_pack(), &whole_schedule().encode()).expect("W-207");
    assert_eq!((tally.times_added_up, tally.times_under_way), (10, 5));
}

/// The first three events: request 7 is between its two blocks.
#[test]
fn the_whole_case_cut_behind_its_first_block() {
    let mut cut = whole_schedule();
    cut.events.truncate(3);
    let all = sums_of_run(&move_pack(), &cut.encode());
    let (sums, amounts) = all.last().expect("three events");
    assert_eq!((sums.data, sums.under_way), (4_294_967_266, 30));
    assert_eq!(*amounts, [(7, 30)]);
    assert_eq!(sums.together(), 4_294_967_296);
    assert!(check_run(&move_pack(), &cut.encode()).is_ok());
}

/// Rows that no run leaves: a step is logged by its row in any partition, wherever its block
/// ran; ids that are not booked, values of log rows and the book's own rows add nothing.
#[test]
fn what_is_added_up_is_what_stands_in_the_bytes() {
    let top = u32::MAX;
    let zero = [(log(1, 1), 5), (log(4, 0), 5), (data(1), top), (data(2), 7)];
    let one = [(log(2, 0), 5), (log(6, 0), 5), (data(1), top)];
    let logged = [log(1, 0), log(3, 1), log(5, 0), log(6, 1), log(9, 0)];
    let two = [logged.map(|key| (key, 5)).as_slice(), &[(data(0), 2)]].concat();
    let book: Vec<(u64, u32)> = (1..=6).flat_map(booked).collect();
    let bytes = laid(30, &[&zero, &one, &two, &book]);
    let store = Store::read(bytes.as_slice()).expect("a right store");
    assert_eq!(under_way(&store), [(2, 30), (4, 30), (5, 30)]);
    let sums = Sums::of(&store);
    assert_eq!((sums.data, sums.under_way), (2 * u64::from(top) + 9, 90));
    assert_eq!(sums.together(), 2 * u64::from(top) + 99);
    assert!(!sums.is_divisible());
}

#[test]
fn only_both_together_and_only_multiples_of_2_to_the_32_are_divisible() {
    let whole = 1 << 32;
    for (data, under_way, yes) in [
        (0, 0, true),
        (whole - 30, 30, true),
        (whole, 0, true),
        (3 * whole - 1, whole + 1, true),
        (whole, 30, false),
        (whole / 2, 0, false),
        (whole / 2, whole / 2, true),
        (whole + 1, whole, false),
    ] {
        let sums = Sums { data, under_way };
        assert_eq!(sums.is_divisible(), yes, "{sums:?}");
    }
}

#[test]
fn only_move_is_known_by_its_bytes() {
    let is_move = |pack: &[u8]| Pack::read(pack).is_ok_and(|pack| is_only_move(&pack));
    let bytes = move_pack();
    assert!(is_move(&bytes));
    let mut right = 0;
    for bit in 0..8 * bytes.len() {
        let mut other = bytes.clone();
        other[bit / 8] ^= 1 << (bit % 8);
        right += usize::from(Pack::read(&other).is_ok());
        assert!(!is_move(&other), "bit {bit}");
    }
    assert!(right > 30, "{right} other right packs");
    assert!(!is_move(&encode(&[move_workflow(), move_workflow()])));
    assert!(!is_move(&encode(&[vec![RETURN]])));
}

/// Another pack is not held to W-207: one that books two workflows, and generated ones.
#[test]
fn other_packs_are_not_added_up() {
    let two = encode(&[move_workflow(), vec![RETURN]]);
    let tally = check_run(&two, &whole_schedule().encode()).expect("demand 3");
    assert_eq!((tally.calls, tally.times_added_up), (10, 0));
    for list in 0..50 {
        let (pack, store, calls) = any_list(&mut Random::of_item(207, list));
        let tally = check_list(&pack, store, &calls).expect("demand 3");
        assert_eq!(tally.times_added_up, 0);
    }
}

/// Which requests are under way by the calls that were accepted, and not by any byte: those
/// of which the agent that came furthest has made two turns, and so its first block only.
#[derive(Default)]
struct Furthest {
    lives: [Option<(u32, usize)>; SLOTS],
    turns: BTreeMap<u32, usize>,
    amounts: BTreeMap<u32, u32>,
}

impl Furthest {
    fn see(&mut self, call: &Call, outcome: &Outcome) {
        if outcome.is_err() {
            return;
        }
        match *call {
            Call::Arrival { slot, request } => {
                let amount = request.arguments[2];
                self.amounts.entry(request.id).or_insert(amount);
                self.lives[slot as usize] = Some((request.id, 0));
            }
            Call::Retry { slot, id } => self.lives[slot as usize] = Some((id, 0)),
            Call::Turn { slot } => {
                let life = self.lives[slot as usize].as_mut().expect("an agent");
                life.1 += 1;
                let most = self.turns.entry(life.0).or_default();
                *most = life.1.max(*most);
            }
            _ => {}
        }
    }

    fn under_way(&self) -> Vec<(u32, u32)> {
        let amounts = self.amounts.iter();
        amounts
            .filter(|(id, _)| self.turns.get(id) == Some(&2))
            .map(|(id, amount)| (*id, *amount))
            .collect()
    }
}

#[test]
fn the_ids_under_way_are_those_between_their_blocks() {
    let (mut one, mut more) = (0, 0);
    for list in 0..500 {
        let (pack, store, calls) = move_list(&mut Random::of_item(3, list));
        let mut state = State::new(store);
        let mut furthest = Furthest::default();
        for call in &calls {
            let outcome = perform(&pack, call, &mut state, &mut Honest);
            furthest.see(call, &outcome);
            let found = under_way(&laid_out(&state.store));
            assert_eq!(found, furthest.under_way(), "list {list}");
            one += usize::from(found.len() == 1);
            more += usize::from(found.len() > 1);
        }
    }
    assert!(one > 3_000 && more > 1_000, "{one} {more}");
}

/// Another way to add up.
type Reading = fn(&Store<&[u8]>, &Slots) -> u64;

/// One argument of each booked request that counts.
fn arguments(store: &Store<&[u8]>, place: usize, counts: impl Fn(&Request) -> bool) -> u64 {
    let requests = store
        .booked_ids()
        .into_iter()
        .filter_map(|id| store.request(id));
    requests
        .filter(counts)
        .map(|request| u64::from(request.arguments[place]))
        .sum()
}

fn is_under_way(store: &Store<&[u8]>, id: u32) -> bool {
    is_logged(store, id, 0) && !is_logged(store, id, 1)
}

/// The values of a partition's rows whose keys count.
fn values(store: &Store<&[u8]>, partition: usize, counts: impl Fn(u64) -> bool) -> u64 {
    let rows = store.rows(partition).filter(|(key, _)| counts(*key));
    rows.map(|(_, value)| u64::from(value)).sum()
}

fn right(store: &Store<&[u8]>, _: &Slots) -> u64 {
    Sums::of(store).together()
}

fn step_1_left_out(store: &Store<&[u8]>, _: &Slots) -> u64 {
    let amounts = arguments(store, 2, |request| is_logged(store, request.id, 0));
    Sums::of(store).data + amounts
}

fn argument_1(store: &Store<&[u8]>, _: &Slots) -> u64 {
    Sums::of(store).data + arguments(store, 1, |request| is_under_way(store, request.id))
}

fn not_started_too(store: &Store<&[u8]>, _: &Slots) -> u64 {
    let amounts = arguments(store, 2, |request| !is_logged(store, request.id, 1));
    Sums::of(store).data + amounts
}

fn in_a_slot_only(store: &Store<&[u8]>, slots: &Slots) -> u64 {
    let has_agent = |id| {
        slots
            .iter()
            .any(|agent| agent.is_in_use() && agent.id == id)
    };
    let counts = |request: &Request| is_under_way(store, request.id) && has_agent(request.id);
    Sums::of(store).data + arguments(store, 2, counts)
}

/// The amount as often as agents of the request stand in slots, once if none does.
fn once_per_agent(store: &Store<&[u8]>, slots: &Slots) -> u64 {
    let agents = |id| {
        slots
            .iter()
            .filter(|agent| agent.is_in_use() && agent.id == id)
            .count()
    };
    let ids = under_way(store).into_iter();
    let amounts = ids.map(|(id, amount)| u64::from(amount) * agents(id).max(1) as u64);
    Sums::of(store).data + amounts.sum::<u64>()
}

fn log_values(store: &Store<&[u8]>, _: &Slots) -> u64 {
    let ids = under_way(store).into_iter().map(|(id, _)| id);
    let logged = ids.filter_map(|id| store.find(0, Key::Log { id, step: 0 }.stored()));
    Sums::of(store).data + logged.map(u64::from).sum::<u64>()
}

fn amounts_left_out(store: &Store<&[u8]>, _: &Slots) -> u64 {
    Sums::of(store).data
}

fn book_added(store: &Store<&[u8]>, _: &Slots) -> u64 {
    Sums::of(store).together() + values(store, store.shape().book(), |_| true)
}

fn only_partition_0(store: &Store<&[u8]>, _: &Slots) -> u64 {
    values(store, 0, |key| key >= data(0)) + Sums::of(store).under_way
}

fn log_rows_added(store: &Store<&[u8]>, _: &Slots) -> u64 {
    let partitions = 0..store.shape().partitions;
    let all = partitions.map(|partition| values(store, partition, |_| true));
    all.sum::<u64>() + Sums::of(store).under_way
}

/// On how many of 500 lists a reading is not divisible by 2^32 after some event.
fn noticed(reading: Reading) -> usize {
    let differs = |list: &u64| {
        let (pack, store, calls) = move_list(&mut Random::of_item(11, *list));
        let mut state = State::new(store);
        calls.iter().any(|call| {
            let _ = perform(&pack, call, &mut state, &mut Honest);
            reading(&laid_out(&state.store), &state.slots) % (1 << 32) != 0
        })
    };
    (0..500).filter(differs).count()
}

#[test]
fn each_wrong_reading_is_noticed() {
    assert_eq!(noticed(right), 0);
    let wrong: [(&str, Reading, usize); 10] = [
        ("step 1 left out", step_1_left_out, 300),
        ("argument 1", argument_1, 300),
        ("not started too", not_started_too, 300),
        ("in a slot only", in_a_slot_only, 100),
        ("once per agent", once_per_agent, 150),
        ("log values", log_values, 300),
        ("amounts left out", amounts_left_out, 300),
        ("book added", book_added, 300),
        ("only partition 0", only_partition_0, 300),
        ("log rows added", log_rows_added, 300),
    ];
    for (name, reading, least) in wrong {
        let lists = noticed(reading);
        assert!(lists > least, "{name}: {lists}");
    }
}

/// Adds 2^31 to a data value once, after a turn.
#[derive(Default)]
struct LosesHalf {
    done: bool,
}
impl Spoiled for LosesHalf {
    fn leave(&mut self, call: &Call, _: &[u8], left: &mut State) {
        let store = laid_out(&left.store);
        let first = store.rows(0).position(|(key, _)| key >= data(0));
        let Some(row) = first.filter(|_| !self.done && matches!(call, Call::Turn { .. })) else {
            return;
        };
        let place = store.shape().value_at(0, row);
        let value = store.value(0, row) ^ 0x8000_0000;
        write_at(&mut left.store, place, &value.to_le_bytes());
        self.done = true;
    }
}

fn is_not_divisible(result: Result<Tally, String>) -> bool {
    result.is_err_and(|violation| violation.contains("not divisible by 4294967296"))
}

/// A check by 2^31 would let 2^31 pieces go.
#[test]
fn half_of_2_to_the_32_is_seen() {
    let mut lost = 0;
    for list in 0..300 {
        let (pack, store, calls) = move_list(&mut Random::of_item(31, list));
        let mut state = State::new(store.clone());
        let mut spoiled = LosesHalf::default();
        for call in &calls {
            let _ = perform(&pack, call, &mut state, &mut spoiled);
            let sums = Sums::of(&laid_out(&state.store));
            assert_eq!(sums.together() % (1 << 31), 0, "list {list}");
            assert_eq!(sums.is_divisible(), !spoiled.done, "list {list}");
        }
        let seen = is_not_divisible(watch(&pack, store, &calls, &mut LosesHalf::default()));
        assert_eq!(seen, spoiled.done, "list {list}");
        lost += usize::from(spoiled.done);
    }
    assert!(lost > 200, "{lost}");
}

/// The rows of all data partitions whose keys are of log rows.
fn log_rows(store: &Store<&[u8]>) -> Vec<(usize, u64, u32)> {
    let of = |partition| {
        store
            .rows(partition)
            .map(move |(key, value)| (partition, key, value))
    };
    let rows = (0..store.shape().partitions).flat_map(of);
    rows.filter(|(_, key, _)| *key < data(0)).collect()
}

fn put_rows(bytes: &mut [u8], rows: &[(usize, u64, u32)]) {
    let mut store = Store::lay_out(bytes).expect("laid out");
    for (partition, key, value) in rows {
        assert!(store.put(*partition, *key, *value));
    }
}

/// Does a block again that is logged: keeps its log, but does not read it.
#[derive(Default)]
struct RunsAgain {
    logged: Vec<(usize, u64, u32)>,
}
impl Spoiled for RunsAgain {
    fn before(&mut self, call: &Call, store: &mut Vec<u8>, slots: &mut Slots) {
        self.logged = log_rows(&laid_out(store));
        NoLog.before(call, store, slots);
    }
    fn leave(&mut self, _: &Call, _: &[u8], left: &mut State) {
        put_rows(&mut left.store, &self.logged);
    }
}

/// Forgets at a crash what the agent's request has logged, so that its retry does it again.
struct CrashForgets;
impl Spoiled for CrashForgets {
    fn before(&mut self, call: &Call, store: &mut Vec<u8>, slots: &mut Slots) {
        if let Call::Crash { slot } = call {
            let crashed = slots.get(*slot as usize).map_or(0, |agent| agent.id);
            keep_rows(
                store,
                |_, key| !matches!(key, Key::Log { id, .. } if id == crashed),
            );
        }
    }
}

/// Writes a log row without its data row.
struct LogOnly;
impl Spoiled for LogOnly {
    fn leave(&mut self, call: &Call, given: &[u8], left: &mut State) {
        if matches!(call, Call::Turn { .. }) {
            let logged = log_rows(&laid_out(&left.store));
            left.store = given.to_vec();
            put_rows(&mut left.store, &logged);
        }
    }
}

/// Writes a data row without its log row.
struct DataOnly;
impl Spoiled for DataOnly {
    fn leave(&mut self, _: &Call, given: &[u8], left: &mut State) {
        let given = laid_out(given);
        keep_rows(&mut left.store, |partition, key| {
            matches!(key, Key::Data(_)) || given.find(partition, key.stored()).is_some()
        });
    }
}

/// Books the amount anew when a request comes again: another amount is under way.
struct Rebooks;
impl Spoiled for Rebooks {
    fn leave(&mut self, call: &Call, given: &[u8], left: &mut State) {
        let Call::Arrival { request, .. } = call else {
            return;
        };
        let (given, key) = (laid_out(given), book_key(request.id, 3));
        let book = given.shape().book();
        if given.find(book, key).is_some() {
            put_rows(&mut left.store, &[(book, key, request.arguments[2])]);
        }
    }
}

/// On how many of 300 lists the witness says that the sum is not divisible.
fn seen(mut make: impl FnMut() -> Box<dyn Spoiled>) -> usize {
    let caught = |list: &u64| {
        let (pack, store, calls) = move_list(&mut Random::of_item(5, *list));
        is_not_divisible(watch(&pack, store, &calls, make().as_mut()))
    };
    (0..300).filter(caught).count()
}

#[test]
fn spoiled_runtimes_are_seen() {
    assert_eq!(seen(|| Box::new(Honest)), 0);
    assert!(seen(|| Box::new(NoLog)) > 150);
    assert!(seen(|| Box::<RunsAgain>::default()) > 150);
    assert!(seen(|| Box::new(CrashForgets)) > 80);
    assert!(seen(|| Box::new(LogOnly)) > 150);
    assert!(seen(|| Box::new(DataOnly)) > 150);
    assert!(seen(|| Box::new(Rebooks)) > 25);
}

/// The words of a violation have the numbers: both sums, whose amounts, and both together.
#[test]
fn a_violation_says_what_does_not_add_up() {
    let (schedule, store) = begin(&move_pack(), &whole_schedule().encode()).expect("it runs");
    let calls = &schedule.calls()[..3];
    let result = watch(&move_pack(), store, calls, &mut LogOnly);
    let words = result.expect_err("a data row is not there");
    let expected = "after 3 calls data 0 and under way 30 [(7, 30)] come to 30, not divisible by";
    assert!(words.contains(expected), "{words}");
}
