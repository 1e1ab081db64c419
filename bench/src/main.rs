//! The proved library beside the reference, in one run on the same inputs.
//!
//!     bench                   times all cases: nanoseconds for each side, and the ratio
//!     bench list              the cases' names
//!     bench once CASE SIDE    does one case once, inside `bench_measured`: for counts of instructions
//!     bench calls [FILES]     compares the calls of generated files (25), single and in lists: no times
//!
//! SIDE is `ours`, `reference`, or `pass`: one pass over all bytes that each call is lent, which adds their words up and is the limit
//! that no check of them can go below. Each case is first done by both sides, and their answers, slots and stores are compared, byte for
//! byte. Times are the best of many runs, since another program on the machine can only add to them.

mod calls;
mod inputs;
mod sides;

use inputs::{at_block, at_full, far_jumps, first_id_alone, full, nearly_empty, nearly_full, pack, schedule, standing};
use inputs::{retirable, turning_pack, with_worklist, Keys, Standing, State, APART, BOOKED, LATEST};
use reference::store::Request;
use reference::Call;
use sides::{answer, bytes, is_list, Lent, OnPack};
use std::hint::black_box;
use std::time::{Duration, Instant};

/// A call on a pack alone, or calls from a state on.
enum Work {
    Pack(OnPack, Vec<u8>),
    Calls(State, Vec<Call>),
}

/// A name, and what makes the work: only that of the case which is done is made.
struct Case {
    name: String,
    make: Box<dyn Fn() -> Work>,
}

fn case(name: &str, make: impl Fn() -> Work + 'static) -> Case {
    Case { name: name.into(), make: Box::new(make) }
}

fn one(name: &str, state: impl Fn() -> State + 'static, call: Call) -> Case {
    case(name, move || Work::Calls(state(), vec![call]))
}

const TURN: Call = Call::Turn { slot: 0 };
const CRASH: Call = Call::Crash { slot: 0 };

const fn arrival(id: u32, workflow: u32) -> Call {
    Call::Arrival { slot: 7, request: Request { id, workflow, arguments: [1, 2, 3, 4] } }
}

const ARRIVAL: Call = arrival(90_000, 1);

/// An arrival of an id that is booked, with what it is booked with.
const fn known(id: u32) -> Call {
    Call::Arrival { slot: 7, request: Request { id, workflow: 0, arguments: [id, 2, 3, 4] } }
}

/// The operations of a block that puts or reads 16 keys: PUT of the key itself, GET into register 1.
const PUT: u8 = 0x97;
const GET: u8 = 0x81;

/// The one case that is refused: 12 says no at the book's first id, so that what it takes is 1 to 11.
const NO_TO_12: &str = "no to 12 full P=8 C=256";

/// Where a key's place matters, each beside a crash on the same state, which puts the same questions and does nothing with rows: keys
/// that a block puts or reads, ids that arrive. Then what the questions take on a full store, and putting one in order.
fn cases_of_order() -> Vec<Case> {
    let at = |what: &str, operation, keys, call| {
        one(&format!("{what} P=1 C=256"), move || at_block(operation, keys), call)
    };
    let order =
        |what: &str, rows| one(&format!("order {what} P=8 C=256"), move || standing(rows), Call::PutInOrder);
    vec![
        at("crash at puts", PUT, Keys::Below, CRASH),
        at("puts 16 below", PUT, Keys::Below, TURN),
        at("puts 16 between", PUT, Keys::Between, TURN),
        at("puts 16 behind", PUT, Keys::Behind, TURN),
        at("gets 16 present", GET, Keys::Present, TURN),
        at("gets 16 below", GET, Keys::Below, TURN),
        at("gets 16 between", GET, Keys::Between, TURN),
        at("gets 16 behind", GET, Keys::Behind, TURN),
        at("arrival least", PUT, Keys::Below, arrival(1, 0)),
        at("arrival greatest", PUT, Keys::Below, arrival(u32::MAX, 0)),
        one("crash nearly empty P=8", nearly_empty, CRASH),
        one("crash full P=8 C=256", full, CRASH),
        one(NO_TO_12, first_id_alone, CRASH),
        order("falling", Standing::Falling),
        order("random", Standing::Random),
        order("rising", Standing::Rising),
    ]
}

/// Where a search ends: in a partition as full as a block may find it, 16 keys present in its first or last data rows, or absent below or
/// behind them; 16 keys written over, where question 21 must know that none is new; a log row found behind all others of the log. Then a
/// known id at the book's first and last place.
fn cases_of_search() -> Vec<Case> {
    let at = |what: &str, operation, keys, logged| {
        one(&format!("{what} full P=1 C=256"), move || at_full(operation, keys, logged), TURN)
    };
    let arrives = |what: &str, id| one(&format!("known {what} P=1 C=256"), || at_block(PUT, Keys::Below), known(id));
    vec![
        at("gets first", GET, Keys::First, false),
        at("gets last", GET, Keys::Last, false),
        at("gets below", GET, Keys::Below, false),
        at("gets behind", GET, Keys::Behind, false),
        at("puts over", PUT, Keys::Present, false),
        at("logged", PUT, Keys::Present, true),
        arrives("least", 2),
        arrives("greatest", 51),
    ]
}

/// The figures of a workflow of 256 instructions, blocks and short jumps in it or nothing but jumps to the end, each beside the check of
/// the same pack, which figures do too.
fn cases_of_figures() -> Vec<Case> {
    let figures = OnPack::Figures { workflow: 0 };
    let on_pack = |what: &str, call, pack: fn() -> Vec<u8>| case(what, move || Work::Pack(call, pack()));
    let blocks = || pack(1, 256, 8);
    vec![
        on_pack("figures 1 x 256", figures, blocks),
        on_pack("check 1 x 256", OnPack::Check, blocks),
        on_pack("figures 256 far jumps", figures, far_jumps),
        on_pack("check 256 far jumps", OnPack::Check, far_jumps),
    ]
}

/// The calls on a worklist as long as it goes, each beside a crash on the same state, which puts the same questions 1 to 14. Done walks
/// the log of a request with one block, whose row stands behind all others of the log.
fn cases_of_worklist() -> Vec<Case> {
    let at = |what: &str, listed, call| {
        one(&format!("{what} P=1 C=256"), move || with_worklist(PUT, listed), call)
    };
    vec![
        at("crash beside a list", true, CRASH),
        at("add", false, Call::Add { id: LATEST }),
        at("take", true, Call::Take),
        at("done", true, Call::Done { id: LATEST }),
    ]
}

/// Retires on a full store, of one request, of half of them and of all but the last, each with the log rows of the ids between them,
/// beside a crash on the same state, which puts the same questions 1 to 14.
fn cases_of_retire() -> Vec<Case> {
    let at = |what: &str, call| one(&format!("{what} P=8 C=256"), retirable, call);
    let retire = |requests: u32| {
        let floor = APART * requests + 1;
        at(&format!("retire {requests}"), Call::Retire { floor })
    };
    let mut all = vec![at("crash at retires", CRASH)];
    all.extend([1, BOOKED / 2, BOOKED - 1].map(retire));
    all
}

/// The main cases, then how each grows, then those of rows by rising key, of where a search ends, of figures, of the worklist and of
/// retires.
fn cases() -> Vec<Case> {
    let at = |what: &str, call, p, c, m| {
        let total = total(&turning_pack(p, m));
        one(&format!("{what} P={p} C={c} T={total}"), move || nearly_full(p, c, m), call)
    };
    let events = |c| {
        case(&format!("schedule 1024 C={c}"), move || {
            let (state, calls) = schedule(c, 1024);
            Work::Calls(state, calls)
        })
    };
    let check = |size| case(&format!("check 8 x {size}"), move || Work::Pack(OnPack::Check, pack(8, size, 8)));
    let mut all = vec![check(256), at("turn", TURN, 8, 256, 8), at("arrival", ARRIVAL, 8, 256, 8), events(256)];
    all.extend([64, 128].map(check));
    for c in [32, 64, 128, 256] {
        all.extend([at("turn", TURN, 8, c, 2), at("arrival", ARRIVAL, 8, c, 2)]);
    }
    all.extend([2, 4, 8].map(|m| at("turn", TURN, 1, 32, m)));
    all.extend([32, 64, 128].map(events));
    all.extend(cases_of_order());
    all.extend(cases_of_search());
    all.extend(cases_of_figures());
    all.extend(cases_of_worklist());
    all.extend(cases_of_retire());
    all
}

/// The instructions of a pack.
fn total(pack: &[u8]) -> usize {
    (pack.len() - 1 - 2 * usize::from(pack[0])) / 5
}

/// What is counted: nothing else is done in here.
#[inline(never)]
#[no_mangle]
fn bench_measured(work: &mut dyn FnMut()) {
    work()
}

/// The best time of many runs of `work`, each behind a `reset`.
fn best<S>(state: &mut S, reset: impl Fn(&mut S), work: impl Fn(&mut S)) -> f64 {
    let started = Instant::now();
    let mut best = Duration::MAX;
    let mut runs = 0;
    while runs < 20 || (started.elapsed() < Duration::from_millis(400) && runs < 20_000) {
        reset(state);
        let before = Instant::now();
        work(state);
        best = best.min(before.elapsed());
        runs += 1;
    }
    best.as_nanos() as f64
}

fn perform_all(state: &mut State, calls: &[Call]) -> Vec<sarthule::Answer> {
    calls.iter().map(|call| answer(state.perform(call))).collect()
}

/// The number of a refusal, 0 for any other answer.
fn question(answer: &sarthule::Answer) -> u32 {
    match answer {
        sarthule::Answer::Refused { question, .. } => *question,
        _ => 0,
    }
}

/// Both sides once: answers, slots and stores are the same.
fn compare(name: &str, work: &Work) {
    let (state, calls) = match work {
        Work::Calls(state, calls) => (state, calls),
        Work::Pack(call, pack) => {
            assert_eq!(call.perform(pack), call.perform_reference(pack), "{name}");
            assert_eq!(call.perform(pack).0, sarthule::Answer::Done, "{name}");
            return;
        }
    };
    let mut lent = Lent::of(state);
    let ours: Vec<_> = calls.iter().map(|call| lent.perform(call)).collect();
    let mut theirs = state.clone();
    assert_eq!(ours, perform_all(&mut theirs, calls), "{name}");
    assert_eq!(lent.slots, bytes(&theirs.slots), "{name}");
    assert!(lent.store == theirs.store, "{name}: the stores differ");
    assert!(is_list(&lent.list, &theirs.list), "{name}: the worklists differ");
    if calls.len() == 1 {
        assert_eq!(question(&ours[0]), if name == NO_TO_12 { 12 } else { 0 }, "{name}");
    }
}

/// One pass over the bytes.
fn pass(bytes: &[u8]) -> u64 {
    bytes.chunks_exact(8).fold(0, |sum, word| sum.wrapping_add(u64::from_le_bytes(word.try_into().expect("8 bytes"))))
}

/// One pass for each call, over all that it is lent.
fn passes(work: &Work) {
    match work {
        Work::Pack(_, pack) => {
            black_box(pass(black_box(pack)));
        }
        Work::Calls(state, calls) => {
            for call in calls {
                black_box(pass(black_box(&state.store)));
                // the store is all that this call is lent
                if *call != Call::PutInOrder {
                    black_box((pass(black_box(&state.pack)), black_box(&state.slots)));
                }
            }
        }
    }
}

fn time_ours(work: &Work) -> f64 {
    match work {
        Work::Pack(call, pack) => best(&mut (), |_| (), |_| {
            black_box(call.perform(black_box(pack)));
        }),
        Work::Calls(state, calls) => {
            let from = Lent::of(state);
            best(&mut from.clone(), |lent| lent.reset(&from), |lent| {
                for call in calls {
                    black_box(lent.perform(call));
                }
            })
        }
    }
}

fn time_reference(work: &Work) -> f64 {
    match work {
        Work::Pack(call, pack) => best(&mut (), |_| (), |_| {
            black_box(call.perform_reference(black_box(pack)));
        }),
        Work::Calls(from, calls) => {
            let reset = |state: &mut State| {
                state.store.copy_from_slice(&from.store);
                state.slots = from.slots;
                state.list = from.list.clone();
            };
            best(&mut from.clone(), reset, |state| {
                for call in calls {
                    let _ = black_box(state.perform(call));
                }
            })
        }
    }
}

/// One case once, for a tool that counts instructions within `bench_measured`.
fn once(work: &Work, side: &str) {
    match (work, side) {
        (work, "pass") => bench_measured(&mut || passes(work)),
        (Work::Pack(call, pack), "ours") => bench_measured(&mut || {
            black_box(call.perform(pack));
        }),
        (Work::Pack(call, pack), _) => bench_measured(&mut || {
            black_box(call.perform_reference(pack));
        }),
        (Work::Calls(state, calls), "ours") => {
            let mut lent = Lent::of(state);
            bench_measured(&mut || {
                for call in calls {
                    black_box(lent.perform(call));
                }
            })
        }
        (Work::Calls(state, calls), _) => {
            let mut state = state.clone();
            bench_measured(&mut || {
                for call in calls {
                    let _ = black_box(state.perform(call));
                }
            })
        }
    }
}

fn compare_calls(files: &str) {
    match calls::compare(files.parse().expect("a number of files")) {
        Ok(compared) => println!("compared {compared} calls: no difference"),
        Err(difference) => {
            println!("{difference}");
            std::process::exit(1);
        }
    }
}

fn main() {
    let words: Vec<String> = std::env::args().skip(1).collect();
    let words: Vec<&str> = words.iter().map(String::as_str).collect();
    let cases = cases();
    match words[..] {
        ["list"] => cases.iter().for_each(|case| println!("{}", case.name)),
        ["once", name, side] => {
            let case = cases.iter().find(|case| case.name == name).expect("a case of the list");
            once(&(case.make)(), side);
        }
        [] => {
            println!("{:<26} {:>11} {:>14} {:>6} {:>13}", "case", "ours, ns", "reference, ns", "ratio", "one pass, ns");
            for case in &cases {
                let work = (case.make)();
                compare(&case.name, &work);
                let (ours, theirs) = (time_ours(&work), time_reference(&work));
                let limit = best(&mut (), |_| (), |_| passes(&work));
                println!("{:<26} {ours:>11.0} {theirs:>14.0} {:>6.2} {limit:>13.0}", case.name, ours / theirs);
            }
        }
        ["calls"] => compare_calls("25"),
        ["calls", files] => compare_calls(files),
        _ => eprintln!("bench | bench list | bench once CASE SIDE | bench calls [FILES]"),
    }
}
