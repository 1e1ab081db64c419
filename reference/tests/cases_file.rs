//! The file of cases: its bytes, what is printed, and files that are cut short.

mod common;

use common::*;
use reference::agents::ALL_EMPTY;
use reference::bytes::hex;
use reference::cases::{print_all, read_all, write_all, CallCase, Case, ListCase, Order};
use reference::coverage::Coverage;
use reference::generate;
use reference::store::{Key, Request, Store};
use reference::{Call, Worklist};

fn on_state(state: &State, order: Order) -> Case {
    Case::Call(Box::new(CallCase {
        pack: state.pack.clone(),
        store: state.store.clone(),
        slots: state.slots,
        list: None,
        order,
    }))
}

/// The line that shows a store's bytes.
fn bytes_line(store: &[u8]) -> String {
    format!("bytes {}\n", hex(store))
}

fn print(case: Case) -> String {
    print_all(&write_all(&[case]))
}

#[test]
fn a_schedule_prints_what_the_program_prints() {
    let (pack, schedule) = (move_pack(), whole_schedule().encode());
    let expected = reference::schedule::program(&pack, &schedule);
    let text = print(Case::Schedule { pack, schedule });
    assert_eq!(text, format!("case 0\n{expected}"));
}

#[test]
fn a_check_prints_its_answer_only() {
    let mut state = State::with_move();
    assert_eq!(
        print(on_state(&state, Order::Check)),
        "case 0\nanswer done\n"
    );
    state.pack[3] = 0x18;
    let text = print(on_state(&state, Order::Check));
    assert_eq!(text, "case 0\nanswer refused 4 0 0\n");
}

#[test]
fn an_opening_prints_its_parts() {
    let pack = reference::pack::encode(&[vec![RETURN], vec![(0x01, 0x0102_03FF), (0xB1, 0)]]);
    let state = State::new(pack, 1, 5);
    let open = |workflow| print(on_state(&state, Order::Open { workflow }));
    assert_eq!(
        open(1),
        "case 0\nanswer done\nops 01b1\noperands ff03020100000000\n"
    );
    assert_eq!(
        open(2),
        "case 0\nanswer refused 17 0 0\nops -\noperands -\n"
    );
}

#[test]
fn figures_print_their_numbers_and_no_state() {
    let block = vec![(0x60, 7), (0x91, 2), END, RETURN];
    let pack = reference::pack::encode(&[vec![RETURN], block]);
    let mut state = State::with_move();
    state.pack = pack;
    let figures = |state: &State, workflow| print(on_state(state, Order::Figures { workflow }));
    assert_eq!(
        figures(&state, 0),
        "case 0\nanswer figures 1 0 0 0 0 0 0 0 0\n"
    );
    assert_eq!(
        figures(&state, 1),
        "case 0\nanswer figures 2 0 0 0 0 0 0 0 2\n"
    );
    assert_eq!(figures(&state, 2), "case 0\nanswer refused 17 0 0\n");
    state.pack[5] = 0x18;
    assert_eq!(figures(&state, 2), "case 0\nanswer refused 4 0 0\n");
}

#[test]
fn a_turn_prints_the_state_afterwards() {
    let mut state = State::with_move();
    state.turn(0).expect("COPY");
    let text = print(on_state(&state, Order::Call(Call::Turn { slot: 0 })));
    let expected = "\
case 0
answer moved
used 0 2
used 1 0
used 2 5
row 0 458752 4294967266
row 0 9223372036854775908 4294967266
row 2 56 0
row 2 57 100
row 2 58 200
row 2 59 30
row 2 60 0
";
    let value = 4_294_967_266;
    let rows = [(log(7, 0), value), (data(100), value)];
    let bytes = bytes_line(&laid(10, &[&rows, &[], &booked(7)]));
    let agent = "agent 0 1 7 6 1 4294967266 200 30 0 100 0 0 0\n";
    assert_eq!(text, format!("{expected}{bytes}{agent}"));
}

#[test]
fn putting_in_order_prints_the_state_afterwards() {
    let mut state = State::with_move();
    let [one, two, three, four, five] = booked(7);
    let book = [five, two, three, one, four];
    state.store = laid(5, &[&[(data(1), 2), (log(9, 0), 3)], &[], &book]);
    let order = on_state(&state, Order::Call(Call::PutInOrder));
    let rows = "\
used 0 2
used 1 0
used 2 5
row 0 589824 3
row 0 9223372036854775809 2
row 2 56 0
row 2 57 100
row 2 58 200
row 2 59 30
row 2 60 0
";
    let agent = "agent 0 1 7 0 0 100 200 30 0 0 0 0 0\n";
    let left = laid(5, &[&[(log(9, 0), 3), (data(1), 2)], &[], &booked(7)]);
    let bytes = bytes_line(&left);
    assert_eq!(
        print(order),
        format!("case 0\nanswer done\n{rows}{bytes}{agent}")
    );
    // A call that 11 refuses prints the rows the same; the bytes show where they stand.
    let turn = on_state(&state, Order::Call(Call::Turn { slot: 0 }));
    let bytes = bytes_line(&state.store);
    assert_eq!(
        print(turn),
        format!("case 0\nanswer refused 11 0 0\n{rows}{bytes}{agent}")
    );
}

#[test]
fn a_store_that_is_not_laid_out_is_printed_in_hexadecimal() {
    let mut state = State::with_move();
    state.store = vec![1, 5, 0, 0xAB];
    let turn = Order::Call(Call::Turn { slot: 8 });
    let agent = "agent 0 1 7 0 0 100 200 30 0 0 0 0 0\n";
    let text = print(on_state(&state, turn));
    assert_eq!(
        text,
        format!("case 0\nanswer refused 10 0 0\nstore 010500ab\nbytes 010500ab\n{agent}")
    );
    state.store.clear();
    let text = print(on_state(&state, turn));
    assert_eq!(
        text,
        format!("case 0\nanswer refused 9 0 0\nstore -\nbytes -\n{agent}")
    );
    let text = print(on_state(&state, Order::Call(Call::Restart)));
    assert_eq!(text, "case 0\nanswer done\nstore -\nbytes -\n");
}

#[test]
fn used_counts_are_printed_as_they_stand() {
    let mut state = State::new(move_pack(), 1, 5);
    state.store[3] = 6;
    let text = print(on_state(&state, Order::Call(Call::Crash { slot: 0 })));
    let rows = "row 0 0 0\n".repeat(5);
    let bytes = format!("bytes 0105000600{}\n", "00".repeat(122));
    assert_eq!(
        text,
        format!("case 0\nanswer refused 11 0 0\nused 0 6\nused 1 0\n{rows}{bytes}")
    );
}

#[test]
fn create_prints_the_store_and_the_slots() {
    let mut state = State::with_move();
    let create = Order::Create {
        partitions: 1,
        rows: 5,
    };
    state.store = vec![9; 127];
    let agent = "agent 0 1 7 0 0 100 200 30 0 0 0 0 0\n";
    let text = print(on_state(&state, create));
    let bytes = bytes_line(&laid(5, &[&[], &[]]));
    assert_eq!(
        text,
        format!("case 0\nanswer done\nused 0 0\nused 1 0\n{bytes}{agent}")
    );
}

/// Every order, so that each has been through bytes and back.
fn all_orders() -> Vec<Case> {
    let request = Request {
        id: 1,
        workflow: 2,
        arguments: [3, 4, 5, u32::MAX],
    };
    let state = State::with_move();
    let orders = [
        Order::Check,
        Order::Open { workflow: 9 },
        Order::Create {
            partitions: 1,
            rows: 70_000,
        },
        Order::Call(Call::Arrival { slot: 3, request }),
        Order::Call(Call::Retry { slot: 4, id: 5 }),
        Order::Call(Call::Turn { slot: 6 }),
        Order::Call(Call::Crash { slot: 7 }),
        Order::Call(Call::Restart),
        Order::Figures { workflow: 0 },
        Order::Call(Call::PutInOrder),
        Order::Reply { id: 8 },
    ];
    orders.map(|order| on_state(&state, order)).to_vec()
}

#[test]
fn cases_come_back_from_their_bytes() {
    let cases = all_orders();
    let read: Option<Vec<Case>> = read_all(&write_all(&cases)).into_iter().collect();
    assert_eq!(read, Some(cases));
}

/// Id 0 in an older store: retried up to its reply, and turned down when it arrives.
fn older_list() -> ListCase {
    let mut state = State::new(move_pack(), 2, 5);
    let mut store = Store::read(state.store.as_mut_slice()).expect("right");
    store.book(&request(0));
    let mut calls = vec![Call::Retry { slot: 2, id: 0 }];
    calls.extend([Call::Turn { slot: 2 }; 4]);
    calls.push(Call::Arrival {
        slot: 2,
        request: request(0),
    });
    ListCase {
        pack: state.pack,
        store: state.store,
        slots: state.slots,
        list: state.list,
        calls,
    }
}

#[test]
fn a_list_prints_its_answers_and_what_it_left() {
    let text = print(Case::List(Box::new(older_list())));
    let expected = "\
case 0
answer done
answer moved
answer moved
answer moved
answer reply 0 30
answer refused 24 0 0
used 0 2
used 1 2
used 2 5
row 0 0 4294967266
row 0 9223372036854775908 4294967266
row 1 1 30
row 1 9223372036854776008 30
row 2 0 0
row 2 1 100
row 2 2 200
row 2 3 30
row 2 4 0
";
    let value = 4_294_967_266;
    let debit = [(log(0, 0), value), (data(100), value)];
    let credit = [(log(0, 1), 30), (data(200), 30)];
    let bytes = bytes_line(&laid(5, &[&debit, &credit, &booked(0)]));
    assert_eq!(text, format!("{expected}{bytes}"));
}

#[test]
fn the_bytes_of_a_list_come_back_and_hold_calls_on_store_and_slots_only() {
    let list = older_list();
    let mut file = write_all(&[Case::List(Box::new(list.clone()))]);
    let records = 10 + list.pack.len() + list.store.len();
    assert_eq!(file.len(), records + 384 + 1 + 6 * 29);
    assert_eq!((file[0], file[9], file[records + 384]), (3, 0, 6));
    assert_eq!(read_all(&file), [Some(Case::List(Box::new(list)))]);
    let coverage = Coverage::of_file(&file);
    assert_eq!((coverage.lists, coverage.calls), (1, 0));
    assert_eq!((coverage.replied, coverage.question(24)), (1, 1));
    for code in [0, 1, 2, 8, 14, 15, 16, 255] {
        file[records + 385 + 29] = code;
        assert_eq!(print_all(&file), "malformed case 0\n", "call {code}");
    }
    for (code, answer) in [
        (9, "done"),
        (10, "refused 20 0 0"),
        (11, "refused 27 0 0"),
        (12, "refused 27 0 0"),
        // Its first word is the slot of the turn that stood there.
        (13, "refused 28 0 0"),
    ] {
        file[records + 385 + 29] = code;
        let expected = format!("case 0\nanswer done\nanswer {answer}\nanswer moved\n");
        assert!(print_all(&file).starts_with(&expected), "call {code}");
    }
}

#[test]
fn the_bytes_of_a_call_case() {
    let mut slots = ALL_EMPTY;
    slots[1].id = 0x0403_0201;
    let case = Case::Call(Box::new(CallCase {
        pack: vec![0xAA],
        store: vec![0xBB, 0xCC],
        slots,
        list: None,
        order: Order::Call(Call::Retry { slot: 4, id: 5 }),
    }));
    let bytes = write_all(&[case]);
    assert_eq!(bytes.len(), 9 + 3 + 8 * 48 + 1 + 28);
    assert_eq!(bytes[..12], [1, 1, 0, 0, 0, 2, 0, 0, 0, 0xAA, 0xBB, 0xCC]);
    assert_eq!(bytes[12 + 48 + 4..][..4], [1, 2, 3, 4]);
    assert_eq!(bytes[12 + 384..][..9], [4, 4, 0, 0, 0, 5, 0, 0, 0]);
}

/// Id 7 booked and started, one entry of the list taken and one of any mark.
fn listed(order: Order) -> CallCase {
    let state = State::with_move();
    CallCase {
        pack: state.pack,
        store: state.store,
        slots: state.slots,
        list: Some(Worklist::of(&[(0x0403_0201, 5), (7, 0)])),
        order,
    }
}

#[test]
fn the_bytes_of_a_case_with_a_worklist() {
    let case = listed(Order::Call(Call::Done { id: 0x0A09_0807 }));
    let (pack, store) = (case.pack.len(), case.store.len());
    let mut bytes = write_all(&[Case::Call(Box::new(case))]);
    assert_eq!((bytes[0], bytes[9]), (2, 2));
    assert_eq!(bytes[10..][..pack], move_pack());
    let list = 10 + pack + store;
    assert_eq!(bytes[list..][..10], [1, 2, 3, 4, 5, 7, 0, 0, 0, 0]);
    assert_eq!(bytes[list + 10..][..8], [1, 0, 0, 0, 7, 0, 0, 0]);
    let call = list + 10 + 384;
    assert_eq!(bytes[call..][..6], [12, 7, 8, 9, 10, 0]);
    assert_eq!(bytes.len(), call + 29);
    for code in (0..=13).chain([15]) {
        bytes[call] = code;
        assert!(print_all(&bytes).starts_with("case 0\nanswer "), "{code}");
    }
    for code in [14, 16, 255] {
        bytes[call] = code;
        assert_eq!(print_all(&bytes), "malformed case 0\n");
    }
    for length in 1..bytes.len() {
        assert_eq!(print_all(&bytes[..length]), "malformed case 0\n");
    }
}

#[test]
fn the_list_is_printed_behind_the_agents() {
    let print_of = |case: CallCase| print(Case::Call(Box::new(case)));
    let call = |call| listed(Order::Call(call));
    let agent = "agent 0 1 7 0 0 100 200 30 0 0 0 0 0\n";
    let wrong = "list 67305985 5\nlist 7 0\n";
    // A call that does not ask, and one that 25 refuses: all entries, as they were.
    let text = print_of(call(Call::Turn { slot: 0 }));
    assert!(text.starts_with("case 0\nanswer moved\n") && text.ends_with(wrong));
    let text = print_of(call(Call::Take));
    assert!(text.starts_with("case 0\nanswer refused 25 0 0\nused 0 0\n"));
    assert!(text.ends_with(&format!("\n{agent}{wrong}")));
    let mut case = call(Call::Take);
    case.list = Some(Worklist::of(&[(9, 1), (8, 0), (7, 0)]));
    let text = print_of(case);
    assert!(text.starts_with("case 0\nanswer taken 8\nused 0 0\n"));
    assert!(text.ends_with(&format!("\n{agent}list 9 1\nlist 8 1\nlist 7 0\n")));
    let many: Vec<(u32, u8)> = (0..40).map(|id| (id, 1)).collect();
    let mut case = call(Call::Restart);
    case.list = Some(Worklist::of(&many));
    let lines: String = (0..40).map(|id| format!("list {id} 1\n")).collect();
    assert!(
        print_of(case).ends_with(&format!("\n{lines}")),
        "more than 16"
    );
    // What prints no state prints no list.
    for order in [Order::Check, Order::Figures { workflow: 0 }] {
        assert!(!print_of(listed(order)).contains("list"), "{order:?}");
    }
}

#[test]
fn the_reading_call_prints_its_answer_only() {
    let with = |list: Option<Worklist>, id: u32, steps: u16| {
        let mut case = listed(Order::Reply { id });
        case.list = list;
        let mut store = Store::read(case.store.as_mut_slice()).expect("right");
        for step in 0..steps {
            let key = Key::Log { id: 7, step }.stored();
            assert!(store.put(usize::from(step), key, 40 + u32::from(step)));
        }
        print(Case::Call(Box::new(case)))
    };
    for list in [None, Some(Worklist::of(&[(7, 9)]))] {
        let answer = |id, steps| with(list.clone(), id, steps);
        assert_eq!(answer(7, 2), "case 0\nanswer reply 7 41\n");
        assert_eq!(answer(7, 1), "case 0\nanswer not yet\n");
        assert_eq!(answer(8, 2), "case 0\nanswer refused 20 0 0\n");
    }
}

#[test]
fn a_restart_of_kind_1_prints_no_list() {
    let mut case = listed(Order::Call(Call::Restart));
    let bytes = bytes_line(&case.store);
    let text = print(Case::Call(Box::new(case.clone())));
    let list = "list 67305985 5\nlist 7 0\n";
    assert!(
        text.ends_with(&format!("{bytes}{list}")),
        "not right: as it was"
    );
    case.list = None;
    assert!(print(Case::Call(Box::new(case))).ends_with(&bytes));
}

#[test]
fn a_list_of_calls_with_a_worklist() {
    let mut list = older_list();
    list.list = Worklist::of(&[(0, 1), (5, 1)]);
    list.calls.truncate(4);
    list.calls
        .extend([Call::Done { id: 0 }, Call::Add { id: 0 }, Call::Take]);
    list.calls.push(Call::Restart);
    let mut file = write_all(&[Case::List(Box::new(list.clone()))]);
    let text = print_all(&file);
    let answers = "\
case 0
answer done
answer moved
answer moved
answer moved
answer done
answer done
answer taken 0
answer done
used 0 2
";
    assert!(text.starts_with(answers), "{text}");
    assert!(text.ends_with("\nlist 5 0\nlist 0 0\n"), "{text}");
    let entries = 10 + list.pack.len() + list.store.len();
    assert_eq!((file[0], file[9]), (3, 2));
    assert_eq!(file[entries..][..10], [0, 0, 0, 0, 1, 5, 0, 0, 0, 1]);
    assert_eq!(read_all(&file), [Some(Case::List(Box::new(list)))]);
    let coverage = Coverage::of_file(&file);
    assert_eq!((coverage.taken, coverage.orders[12]), (1, (1, 0)));
    file.truncate(file.len() - 1);
    assert_eq!(print_all(&file), "malformed case 0\n");
}

#[test]
fn an_empty_file_prints_nothing() {
    assert_eq!(print_all(&[]), "");
}

#[test]
fn a_file_cut_anywhere_ends_with_malformed() {
    let first = write_all(&all_orders()[..1]);
    let file = write_all(&all_orders()[..2]);
    let whole = print_all(&first);
    assert_eq!(print_all(&file[..first.len()]), whole);
    for length in first.len() + 1..file.len() {
        let text = print_all(&file[..length]);
        assert_eq!(
            text,
            format!("{whole}malformed case 1\n"),
            "length {length}"
        );
    }
    for length in 1..first.len() {
        assert_eq!(print_all(&file[..length]), "malformed case 0\n");
    }
}

#[test]
fn numbers_out_of_range_are_malformed() {
    let file = write_all(&all_orders()[..1]);
    let with = |place: usize, byte: u8| {
        let mut file = file.clone();
        file[place] = byte;
        print_all(&file)
    };
    assert_eq!(with(0, 4), "malformed case 0\n", "no such kind");
    // Calls on a worklist, which kind 1 has not, and no calls.
    for code in [10, 11, 12, 13, 14, 16, 255] {
        assert_eq!(
            with(file.len() - 29, code),
            "malformed case 0\n",
            "no such call"
        );
    }
    assert_eq!(
        with(4, 0xFF),
        "malformed case 0\n",
        "a length beyond the file"
    );
    assert_eq!(Coverage::of_file(&file[..9]).malformed, 1);
}

#[test]
fn coverage_counts_answers_and_questions() {
    let mut file = write_all(&all_orders());
    let (pack, schedule) = (move_pack(), whole_schedule().encode());
    Case::Schedule { pack, schedule }.write(&mut file);
    let coverage = Coverage::of_file(&file);
    assert_eq!(
        (coverage.schedules, coverage.calls, coverage.events),
        (1, 11, 10)
    );
    assert_eq!((coverage.done, coverage.moved, coverage.replied), (6, 5, 1));
    assert_eq!(coverage.figures, 1);
    assert_eq!(
        [9, 16, 17, 19, 20].map(|number| coverage.question(number)),
        [1, 2, 2, 1, 2]
    );
    assert!(coverage
        .print()
        .contains("question 19 1 schedules 1 calls 0\n"));
    assert!(coverage
        .print()
        .contains("call order accepted 1 refused 0\ncall add accepted 0 refused 0\n"));
    assert!(coverage
        .print()
        .contains("call reply accepted 0 refused 1\nrows not rising, refused 11 0\n"));
    assert!(coverage
        .print()
        .contains("call figures accepted 1 refused 0\n"));
}

#[test]
fn generated_cases_come_back_from_their_bytes() {
    let cases = generate::cases(5, 400);
    let read: Option<Vec<Case>> = read_all(&write_all(&cases)).into_iter().collect();
    assert_eq!(read, Some(cases));
}
