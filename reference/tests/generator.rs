//! The generator: the same seed the same bytes, small files, and nothing left out.

mod common;

use common::appended;
use reference::cases::{CallCase, Case, Order};
use reference::coverage::Coverage;
use reference::generate::{self, encoded_pack, near_miss, Bounds};
use reference::operations::{run_block, Registers};
use reference::pack::{check, encode, open, MOST_INSTRUCTIONS};
use reference::random::Random;
use reference::refusal::QUESTIONS;
use reference::store::{book_key, of_book_key, Key, Store};
use reference::{Answer, Call, Operation, Outcome, Pack};

#[test]
fn a_seed_names_its_cases() {
    assert_eq!(generate::file(3, 200), generate::file(3, 200));
    assert_ne!(generate::file(3, 20), generate::file(4, 20));
}

#[test]
fn a_longer_file_starts_with_the_shorter() {
    assert!(generate::file(6, 90).starts_with(&generate::file(6, 60)));
}

#[test]
fn a_small_file_covers_every_question_answer_and_call() {
    for seed in 0..20 {
        let file = generate::file(seed, 300);
        assert!(file.len() < 300 * 1_024, "seed {seed}: {}", file.len());
        let coverage = Coverage::of_file(&file);
        for number in 1..=QUESTIONS.len() {
            assert!(
                coverage.question(number) > 0,
                "seed {seed}, question {number}"
            );
        }
        assert!(coverage.done > 0 && coverage.moved > 0 && coverage.replied > 0);
        assert!(coverage.figures > 0 && coverage.taken > 0 && coverage.not_yet > 0);
        for number in (1..=21).chain(24..=30) {
            assert!(
                coverage.call_refusals[number] > 0,
                "seed {seed}, call {number}"
            );
        }
        let called = |(accepted, refused): &(usize, usize)| accepted + refused > 0;
        assert!(coverage.orders.iter().all(called), "seed {seed}");
    }
}

/// Id 0 as handhelds send it, and as older stores have it.
#[test]
fn id_0_is_often_among_the_ids() {
    let (mut arrivals, mut retried, mut replied) = (0, 0, 0);
    let mut turned_down = [0; QUESTIONS.len() + 1];
    let mut see = |call: &Call, outcome: &Outcome| match (call, outcome) {
        (Call::Arrival { request, .. }, outcome) if request.id == 0 => {
            let refusal = outcome.expect_err("an arrival with id 0");
            turned_down[usize::from(refusal.question)] += 1;
            arrivals += 1;
        }
        (Call::Retry { id: 0, .. }, Ok(_)) => retried += 1,
        (_, Ok(Answer::Reply { id: 0, .. })) => replied += 1,
        _ => {}
    };
    // As many cases without a worklist or a floor as 1,000 had before there were others.
    for case in generate::cases(14, 1_600) {
        match case {
            Case::Schedule { .. } => {}
            Case::Call(case) => {
                if let Order::Call(call) = &case.order {
                    see(call, &case.perform().outcome);
                }
            }
            Case::List(list) => {
                for (call, outcome) in list.calls.iter().zip(list.perform().outcomes) {
                    see(call, &outcome);
                }
            }
        }
    }
    assert!(
        arrivals > 100 && retried > 30 && replied > 15,
        "{arrivals} {retried} {replied}"
    );
    assert!(turned_down[24] > 80 && turned_down[15] > 0 && turned_down[16] > 0);
    assert_eq!([17, 18, 19].map(|number| turned_down[number]), [0; 3]);
}

/// An instruction that, put ahead of a GET, gives it another meaning where its key is absent.
type Ahead = fn(d: u8, s: u32, record: &Registers) -> (u8, u32);

/// The result of the block ahead of an agent whose turn it is, as it is and with an
/// instruction ahead of each GET; `None` where no block runs, or one with jumps or GETs of
/// their own key's register.
fn results(case: &CallCase, ahead: Ahead) -> Option<(u32, u32)> {
    let Order::Call(Call::Turn { slot }) = case.order else {
        return None;
    };
    if case.perform().outcome != Ok(Answer::Moved) {
        return None;
    }
    let agent = case.slots[slot as usize];
    let store = Store::read(case.store.as_slice()).expect("an accepted turn");
    let pack = Pack::read(&case.pack).expect("an accepted turn");
    let workflow = pack.workflow(store.request(agent.id)?.workflow)?;
    let begin = workflow.instruction(agent.position as usize)?;
    let step = agent.step as u16;
    let log_key = Key::Log { id: agent.id, step }.stored();
    let partition = begin.w as usize;
    if begin.operation != Operation::Begin || store.find(partition, log_key).is_some() {
        return None;
    }
    let (mut as_it_is, mut changed) = (Vec::new(), Vec::new());
    for index in agent.position as usize..workflow.behind_block(agent.position as usize) {
        let instruction = workflow.instruction(index)?;
        let (byte, d) = (instruction.byte(), instruction.d);
        let reads = instruction.operation == Operation::Get;
        if instruction.operation.is_jump() || reads && instruction.s() == d {
            return None;
        }
        if reads {
            changed.push(ahead(d as u8, instruction.w, &agent.registers));
        }
        as_it_is.push((byte, instruction.w));
        changed.push((byte, instruction.w));
    }
    let result = |rows: Vec<(u8, u32)>| {
        let bytes = encode(&[[rows, vec![(0xB0, 0)]].concat()]);
        let find = |key: u32| store.find(partition, Key::Data(key).stored());
        run_block(&open(&bytes, 0).expect("right"), 0, agent.registers, find).result
    };
    Some((result(as_it_is), result(changed)))
}

/// 0, what register s holds, or what the record holds, each for what the block's own
/// register d holds.
#[test]
fn a_wrong_reading_of_an_absent_key_shows() {
    let wrong: [Ahead; 3] = [
        |d, _, _| (d, 0),
        |d, s, _| (0x10 | d, s),
        |d, _, record| (d, record[usize::from(d)]),
    ];
    let mut shown = [0; 3];
    for case in generate::cases(11, 1_000) {
        let Case::Call(case) = case else { continue };
        for (ahead, shown) in wrong.iter().zip(&mut shown) {
            let shows = results(&case, *ahead).is_some_and(|(right, wrong)| right != wrong);
            *shown += usize::from(shows);
        }
    }
    assert!(shown.iter().all(|times| *times > 5), "{shown:?}");
}

/// A single call of the stored cases (seed 11): what it was given, and what is printed of it.
struct Seen {
    case: CallCase,
    call: Call,
    question: u8,
    left: Vec<u8>,
}

fn seen() -> Vec<Seen> {
    let mut all = Vec::new();
    for case in generate::cases(11, 1_000) {
        let Case::Call(case) = case else { continue };
        let Order::Call(call) = case.order else {
            continue;
        };
        let result = case.perform();
        let question = result
            .outcome
            .map_or_else(|refusal| refusal.question, |_| 0);
        let left = result.store;
        all.push(Seen {
            case: *case,
            call,
            question,
            left,
        });
    }
    all
}

impl Seen {
    fn given(&self) -> &[u8] {
        &self.case.store
    }

    /// An earlier store was put in order.
    fn is_ordered(&self) -> bool {
        self.call == Call::PutInOrder && self.question == 0
    }

    /// 11 said no, and without the rising keys it would have said yes.
    fn is_not_rising(&self) -> bool {
        let yes = Store::read_earlier(self.given()).map_or_else(|no| no.question != 11, |_| true);
        self.call != Call::PutInOrder && self.question == 11 && yes
    }

    /// 11 said no, and would have said yes if the next key might be an equal one.
    fn is_equal_only(&self) -> bool {
        self.call != Call::PutInOrder && self.question == 11 && rises_or_stays(self.given())
    }

    /// Whether another hand at putting in order shows: `change` gives the rows of a partition
    /// (or of the book) that it would have left, from those given and those left.
    fn shows(&self, change: impl Fn(bool, &Rows, &Rows) -> Rows) -> bool {
        if !self.is_ordered() {
            return false;
        }
        let given = Store::lay_out(self.given()).expect("put in order");
        let left = Store::lay_out(self.left.as_slice()).expect("put in order");
        let book = left.shape().book();
        (0..=book).any(|partition| {
            let rows = |store: &Store<&[u8]>| store.rows(partition).collect::<Rows>();
            change(partition == book, &rows(&given), &rows(&left)) != rows(&left)
        })
    }
}

type Rows = Vec<(u64, u32)>;

/// All that 11 asks, but equal keys pass.
fn rises_or_stays(bytes: &[u8]) -> bool {
    let Ok(store) = Store::lay_out(bytes) else {
        return false;
    };
    let shape = store.shape();
    (0..=shape.book()).all(|partition| {
        let used = store.used(partition);
        let keys: Vec<u64> = store.rows(partition).map(|(key, _)| key).collect();
        let has_form = |key: &u64| match partition == shape.book() {
            true => of_book_key(*key).is_some(),
            false => Key::of_stored(*key).is_some(),
        };
        let is_zero = |row| (store.key(partition, row), store.value(partition, row)) == (0, 0);
        used <= shape.rows
            && keys.iter().all(has_form)
            && keys.windows(2).all(|pair| pair[0] <= pair[1])
            && (used..shape.rows).all(is_zero)
    })
}

/// Each wrong reading of W-203 gives another answer or other bytes in some stored cases.
#[test]
fn a_wrong_reading_of_rising_keys_shows() {
    let loses_last = |_: bool, _: &Rows, left: &Rows| {
        let mut rows = left.clone();
        // Its place is zero then, or is not counted: both differ from the row.
        rows.pop();
        rows
    };
    let keys_only = |_: bool, given: &Rows, left: &Rows| {
        let values = given.iter().map(|(_, value)| *value);
        left.iter().map(|(key, _)| *key).zip(values).collect()
    };
    let data_first = |_: bool, _: &Rows, left: &Rows| {
        let mut rows = left.clone();
        // As signed numbers data keys are the lower ones.
        rows.sort_by_key(|(key, _)| *key as i64);
        rows
    };
    let either = |as_given: bool, given: &Rows, left: &Rows| match as_given {
        true => given.clone(),
        false => left.clone(),
    };
    type Shows<'a> = &'a dyn Fn(&Seen) -> bool;
    let wrong: [(&str, Shows); 12] = [
        ("new rows stand behind the used ones", &|seen| {
            seen.question == 0 && seen.call != Call::PutInOrder && {
                appended(seen.given(), &seen.left) != seen.left
            }
        }),
        ("11 does not ask for rising keys", &Seen::is_not_rising),
        ("equal keys are rising", &Seen::is_equal_only),
        ("the book stays as it is", &|seen| {
            seen.shows(|is_book, given, left| either(is_book, given, left))
        }),
        ("only the book is put in order", &|seen| {
            seen.shows(|is_book, given, left| either(!is_book, given, left))
        }),
        ("the call asks for rising keys itself", &|seen| {
            seen.is_ordered() && seen.given() != seen.left
        }),
        ("it loses the last row", &|seen| seen.shows(loses_last)),
        ("it moves keys without their values", &|seen| {
            seen.shows(keys_only)
        }),
        ("data rows come before log rows", &|seen| {
            seen.shows(data_first)
        }),
        ("it asks for the pack", &|seen| {
            seen.is_ordered() && check(&seen.case.pack).is_err()
        }),
        ("it restarts", &|seen| {
            seen.is_ordered() && seen.case.slots.iter().any(|agent| !agent.is_empty())
        }),
        ("it takes equal keys", &|seen| {
            let mut sorted = seen.given().to_vec();
            if let Ok(mut store) = Store::lay_out(sorted.as_mut_slice()) {
                store.put_in_order();
            }
            let equal_only = rises_or_stays(&sorted);
            seen.call == Call::PutInOrder && seen.question == 11 && equal_only
        }),
    ];
    let all = seen();
    for (reading, shows) in wrong {
        let times = all.iter().filter(|seen| shows(seen)).count();
        assert!(times >= 5, "{reading}: {times}");
    }
}

/// Rows that do not rise, in a partition alone and in the book alone, for each call that is
/// asked 11.
#[test]
fn each_call_meets_rows_that_do_not_rise() {
    let name = |call: &Call| match call {
        Call::Arrival { .. } => 0,
        Call::Retry { .. } => 1,
        Call::Turn { .. } => 2,
        _ => 3,
    };
    let mut times = [[0; 2]; 4];
    for seen in seen().iter().filter(|seen| seen.is_not_rising()) {
        let store = Store::lay_out(seen.given()).expect("laid out");
        let book_rises = store.rises(store.shape().book());
        let data_rises = (0..store.shape().partitions).all(|p| store.rises(p));
        times[name(&seen.call)][0] += usize::from(book_rises);
        times[name(&seen.call)][1] += usize::from(data_rises);
    }
    assert!(times.iter().flatten().all(|times| *times > 0), "{times:?}");
}

/// New book rows below, between and above those that are there, and so log and data rows.
#[test]
fn new_rows_belong_everywhere() {
    let mut book = [0; 3];
    let mut logs = [0; 3];
    let mut data = [0; 3];
    for seen in seen().iter().filter(|seen| seen.question == 0) {
        let (Ok(given), Ok(left)) = (Store::read(seen.given()), Store::read(seen.left.as_slice()))
        else {
            continue;
        };
        if given.shape() != left.shape() || seen.call == Call::PutInOrder {
            continue;
        }
        let place = |partition: usize, key: u64, is_kin: &dyn Fn(u64) -> bool| {
            let keys = given.rows(partition).map(|(key, _)| key);
            let kin: Vec<u64> = keys.filter(|other| is_kin(*other)).collect();
            match (kin.first(), kin.last()) {
                (Some(first), _) if key < *first => Some(0),
                (_, Some(last)) if key > *last => Some(2),
                (Some(_), Some(_)) => Some(1),
                _ => None,
            }
        };
        for partition in 0..=left.shape().book() {
            for (key, _) in left.rows(partition) {
                if given.find(partition, key).is_some() {
                    continue;
                }
                let is_data = |key: u64| matches!(Key::of_stored(key), Some(Key::Data(_)));
                let (times, place) = if partition == left.shape().book() {
                    let first = of_book_key(key).map_or(key, |(id, _)| book_key(id, 0));
                    (&mut book, place(partition, first, &|_| true))
                } else if is_data(key) {
                    (&mut data, place(partition, key, &is_data))
                } else {
                    (&mut logs, place(partition, key, &|key| !is_data(key)))
                };
                if let Some(place) = place {
                    times[place] += 1;
                }
            }
        }
    }
    let all = [book, logs, data];
    assert!(all.iter().flatten().all(|times| *times >= 5), "{all:?}");
}

#[test]
fn right_packs_pass_the_check_and_have_every_operation() {
    let mut random = Random::new(11);
    let mut seen = [false; 16];
    for _ in 0..3_000 {
        let bounds = Bounds::any(&mut random);
        let pack = encoded_pack(&mut random, bounds);
        assert_eq!(check(&pack), Ok(()));
        for instruction in Pack::read(&pack).expect("right").instructions() {
            seen[usize::from(instruction.operation.code())] = true;
        }
    }
    assert!(Operation::ALL.iter().all(|op| seen[usize::from(op.code())]));
}

#[test]
fn near_misses_mostly_hit_their_question() {
    let mut random = Random::new(12);
    for question in 1..=8 {
        let hits = (0..400)
            .filter(|lane| {
                let refusal = check(&near_miss(&mut random, question, *lane));
                refusal.is_err_and(|refusal| refusal.question == question)
            })
            .count();
        assert!(hits > 250, "question {question}: {hits} of 400");
    }
}

#[test]
fn words_that_make_no_record_are_among_the_records() {
    let [mut in_use, mut position, mut step] = [0; 3];
    for case in generate::cases(13, 3_000) {
        let Case::Call(call) = case else { continue };
        for agent in &call.slots {
            in_use += u32::from(agent.in_use > 1);
            position += u32::from(agent.position > 65_535);
            step += u32::from(agent.step > 65_535);
        }
        if let Order::Open { .. } = call.order {
            assert!(call.pack.len() <= 1 + 32 + 5 * MOST_INSTRUCTIONS + 5);
        }
    }
    assert!(
        in_use > 0 && position > 0 && step > 0,
        "{in_use} {position} {step}"
    );
}
