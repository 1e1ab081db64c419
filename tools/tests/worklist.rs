//! Pictures of lists of calls: the worklist beside the slots (W-208), and retired requests (W-209).

mod generated;

use generated::Random;
use reference::agents::{Agent, ALL_EMPTY};
use reference::cases::{self, Case, ListCase};
use reference::store::{self, Request};
use reference::worklist::{Worklist, TAKEN, WAITING};
use reference::{generate, Call};
use std::collections::BTreeMap;
use std::fs;
use std::path::Path;
use wf::stays::{stays, Stay};
use wf::trace::{Happened, Run};
use wf::{calls, folder, picture};

/// MOVE, the pack of the first example.
fn pack() -> Vec<u8> {
    let example = Path::new(env!("CARGO_MANIFEST_DIR")).join("../examples/move");
    folder::load(&example)
        .expect("an example without faults")
        .pack
}

fn arrival(slot: u32, id: u32) -> Call {
    let request = Request {
        id,
        workflow: 0,
        arguments: [100, 200, 30, 0],
    };
    Call::Arrival { slot, request }
}

fn list(entries: &[(u32, u8)], calls: Vec<Call>) -> ListCase {
    ListCase {
        pack: pack(),
        store: store::fresh(2, 20).expect("a store"),
        slots: ALL_EMPTY,
        list: Worklist::of(entries),
        calls,
    }
}

/// Two requests are accepted; a worker takes the first and is cut by a restart, the next one finishes both. Then the one with the
/// smaller id is retired, and a late repeat of it is refused.
fn accepted_and_worked() -> ListCase {
    let turns = |slot: u32, count: usize| vec![Call::Turn { slot }; count];
    let mut calls = vec![arrival(0, 7), Call::Crash { slot: 0 }, Call::Add { id: 7 }];
    calls.extend([arrival(0, 3), Call::Crash { slot: 0 }, Call::Add { id: 3 }]);
    calls.extend([Call::Take, Call::Retry { slot: 0, id: 7 }]);
    calls.extend(turns(0, 2));
    calls.extend([Call::Done { id: 7 }, Call::Restart]);
    calls.extend([Call::Take, Call::Retry { slot: 1, id: 7 }]);
    calls.extend(turns(1, 4));
    calls.extend([Call::Done { id: 7 }, Call::Take]);
    calls.push(Call::Retry { slot: 1, id: 3 });
    calls.extend(turns(1, 4));
    calls.extend([Call::Done { id: 3 }, Call::Take]);
    calls.extend([Call::Retire { floor: 7 }, arrival(0, 3)]);
    list(&[], calls)
}

fn stay(id: u32, mark: u8, first: Option<usize>, last: Option<usize>) -> Stay {
    Stay {
        id,
        mark,
        first,
        last,
    }
}

#[test]
fn a_listed_id_waits_and_is_taken_from_add_to_done() {
    let run = calls::run(&accepted_and_worked()).expect("a run");
    let expected = [
        stay(7, WAITING, Some(2), Some(6)),
        stay(3, WAITING, Some(5), Some(19)),
        stay(7, TAKEN, Some(6), Some(11)),
        stay(7, WAITING, Some(11), Some(12)),
        stay(7, TAKEN, Some(12), Some(18)),
        stay(3, TAKEN, Some(19), Some(25)),
    ];
    assert_eq!(stays(&run), expected);
    let refused = |number: usize| run.steps[number].happened;
    assert_eq!(
        (refused(10), refused(26)),
        (Happened::Refused(27), Happened::Refused(27))
    );
}

/// The held picture. `WF_WRITE=1` writes it anew, and the file of cases that it is made from.
#[test]
fn the_picture_has_lanes_bars_and_marks_of_the_list() {
    let folder = Path::new(env!("CARGO_MANIFEST_DIR")).join("../examples/worklist");
    let case = Case::List(Box::new(accepted_and_worked()));
    let run = calls::run(&accepted_and_worked()).expect("a run");
    let drawn = picture::picture("calls.bin, case 0", &run);
    if std::env::var("WF_WRITE").is_ok() {
        fs::create_dir_all(&folder).expect("a folder that can be made");
        fs::write(
            folder.join("calls.bin"),
            cases::write_all(std::slice::from_ref(&case)),
        )
        .expect("a file");
        fs::write(folder.join("calls.svg"), &drawn).expect("a file");
    }
    assert_eq!(
        fs::read(folder.join("calls.bin")).expect("a held file"),
        cases::write_all(&[case])
    );
    assert_eq!(
        fs::read_to_string(folder.join("calls.svg")).expect("a held file"),
        drawn
    );
    for words in [
        ">id 7<",
        ">id 3<",
        ">no slot<",
        ">q1: w0, id 7<",
        "<title>id 7: waiting from call 2 until call 6</title>",
        "<title>id 7: taken from call 6 until call 11</title>",
        "<title>id 3: taken from call 19 until call 25</title>",
        "<title>call 2: add id 7: done</title>",
        "<title>call 6: take: taken 7</title>",
        "<title>call 7: retry id 7 in slot 0: done</title>",
        "<title>call 10: done id 7: refused 27: Is an id waiting (take), or the id taken and logged through (done)?</title>",
        "<title>call 11: restart</title>",
        "<title>call 18: done id 7: done</title>",
        "<title>call 26: take: refused 27: ",
        "<title>call 27: retire below 7: done</title>",
        "<title>call 28: arrival id 3 in slot 0: refused 30: Is the id not below the floor (arrival)?</title>",
    ] {
        assert!(drawn.contains(words), "{words}");
    }
}

/// What is there before the first call has an open end, a wrong list too, which no call changes.
#[test]
fn a_list_may_begin_with_agents_and_listed_ids() {
    let booking = list(&[], vec![arrival(0, 7), Call::Turn { slot: 0 }]).perform();
    let calls = vec![Call::Turn { slot: 0 }, Call::Take, Call::Restart];
    let mut begun = ListCase {
        store: booking.store,
        slots: booking.slots,
        ..list(&[(7, TAKEN), (8, WAITING)], calls)
    };
    let run = calls::run(&begun).expect("a run");
    let expected = [
        stay(7, TAKEN, None, Some(2)),
        stay(8, WAITING, None, Some(1)),
        stay(8, TAKEN, Some(1), Some(2)),
        stay(7, WAITING, Some(2), None),
        stay(8, WAITING, Some(2), None),
    ];
    assert_eq!(stays(&run), expected);
    let drawn = picture::picture("begun", &run);
    assert!(drawn.contains("<title>q0: w0, id 7, calls 0 to 2, restart</title>"));
    assert!(drawn.contains("<title>id 7: taken from before the list until call 2</title>"));
    begun.list = Worklist::of(&[(7, 2), (7, TAKEN)]);
    let run = calls::run(&begun).expect("a run");
    assert_eq!(stays(&run), [stay(7, 2, None, None)]);
    let words = "<title>id 7: marked 2 from before the list until the end of the list</title>";
    assert!(picture::picture("wrong", &run).contains(words));
}

/// A request that is retired in the list has its name and its bars, and the row counts fall.
#[test]
fn a_retired_request_is_drawn_with_its_life() {
    let mut calls = vec![arrival(0, 7)];
    calls.extend(vec![Call::Turn { slot: 0 }; 4]);
    calls.extend([Call::Retire { floor: 7 }, Call::Retire { floor: u32::MAX }]);
    let run = calls::run(&list(&[], calls)).expect("a run");
    assert_eq!(run.requests.len(), 1);
    let used = |number: usize| run.steps[number].used.clone();
    assert_eq!((used(5), used(6)), (vec![2, 2, 5], vec![1, 1, 1]));
    assert_eq!(run.steps[5].happened, Happened::Refused(29));
    let drawn = picture::picture("retired", &run);
    for words in [
        "<title>q0: w0, id 7, calls 0 to 4, reply 7 30</title>",
        "<title>call 5: retire below 7: refused 29: Is a smaller id booked (retire)?</title>",
        "<title>call 6: retire below 4294967295: done</title>",
        ">retire, its floor below<",
        ">4294967295</text>",
    ] {
        assert!(drawn.contains(words), "{words}");
    }
}

/// Agents that are in a slot without being booked have no request to be drawn with; each call is refused with 14 then.
#[test]
fn an_agent_that_is_not_booked_is_left_out() {
    let mut wrong = list(&[], vec![Call::Turn { slot: 0 }, Call::Restart]);
    wrong.slots[0] = Agent::started(9, [0; 4]);
    let run = calls::run(&wrong).expect("a run");
    assert_eq!(run.steps[0].happened, Happened::Refused(14));
    assert!(run.agents_before.is_empty());
}

/// Any calls of a few ids and slots, so that much is accepted.
fn any_calls(random: &mut Random) -> Vec<Call> {
    let call = |_| {
        let (slot, id) = (random.below(3) as u32, 1 + random.below(4) as u32);
        match random.below(17) {
            0 | 1 => arrival(slot, id),
            2 => Call::Retry { slot, id },
            3 | 4 => Call::Add { id },
            5 | 6 => Call::Take,
            7 | 8 => Call::Done { id },
            9 => Call::Crash { slot },
            10 => Call::Restart,
            11 => Call::PutInOrder,
            12 => Call::Retire { floor: id + 1 },
            _ => Call::Turn { slot },
        }
    };
    (0..200).map(call).collect()
}

/// Lists that the second implementation generates, and lists with much on the worklist.
fn any_lists() -> Vec<ListCase> {
    let mut random = Random::new(11);
    let mut lists: Vec<ListCase> = (0..40).map(|_| list(&[], any_calls(&mut random))).collect();
    for case in cases::read_all(&generate::file(1, 1000)) {
        if let Some(Case::List(list)) = case {
            lists.push(*list);
        }
    }
    lists
}

/// A mark or line for each call, the answers of the second implementation, and in the end what it leaves on the list.
#[test]
fn any_list_of_calls_has_a_whole_picture() {
    let (mut drawn, mut removed) = (0, 0);
    for list in any_lists() {
        let Ok(run) = calls::run(&list) else {
            continue;
        };
        drawn += 1;
        let dones = run.steps.iter().filter(|step| step.listed_id().is_some());
        removed += dones
            .filter(|step| matches!(step.call, Call::Done { .. }))
            .count();
        check_picture(&run);
        check_answers(&list, &run);
    }
    assert!(drawn > 60 && removed > 50, "{drawn} {removed}");
}

fn check_picture(run: &Run) {
    let picture = picture::picture("any", run);
    assert_eq!(
        picture.matches("<g>").count(),
        picture.matches("</g>").count()
    );
    assert!(!picture.contains("NaN") && !picture.contains("inf"));
    for (number, step) in run.steps.iter().enumerate() {
        let words = format!("<title>call {number}: {}", step.words);
        assert!(picture.contains(&words), "{words}");
    }
}

fn check_answers(list: &ListCase, run: &Run) {
    let performed = list.perform();
    let outcomes = performed.outcomes.iter();
    let refusals = outcomes.map(|outcome| outcome.err().map(|no| u32::from(no.question)));
    let drawn = run.steps.iter().map(|step| match step.happened {
        Happened::Refused(number) => Some(number),
        _ => None,
    });
    assert!(drawn.eq(refusals));
    let open = stays(run).into_iter().filter(|stay| stay.last.is_none());
    let left: BTreeMap<u32, u8> = open.map(|stay| (stay.id, stay.mark)).collect();
    // Of an id that a wrong list has twice the first entry counts.
    let entries = performed.list.entries.iter().rev();
    assert_eq!(left, entries.map(|entry| (entry.id, entry.mark)).collect());
}

#[test]
fn a_list_of_calls_is_found_in_a_file_of_cases() {
    let schedule = Case::Schedule {
        pack: Vec::new(),
        schedule: Vec::new(),
    };
    let (first, second) = (list(&[], vec![Call::Take]), accepted_and_worked());
    let listed = |list: &ListCase| Case::List(Box::new(list.clone()));
    let file = cases::write_all(&[schedule.clone(), listed(&first), listed(&second)]);
    assert_eq!(calls::find(&file, None), Ok((1, first)));
    assert_eq!(calls::find(&file, Some(2)), Ok((2, second)));
    let said = |file: &[u8], asked| calls::find(file, asked).expect_err("a fault");
    assert_eq!(said(&file, Some(0)), "case 0 is no list of calls (kind 3)");
    assert_eq!(said(&file, Some(3)), "case 3 is no list of calls (kind 3)");
    let none = cases::write_all(&[schedule]);
    assert_eq!(said(&none, None), "found no list of calls (kind 3)");
    assert_eq!(said(&file[..file.len() - 1], None), "case 2 is malformed");
}

#[test]
fn a_pack_or_store_that_cannot_be_drawn_is_said() {
    let right = list(&[], Vec::new());
    let said = |list: ListCase| calls::run(&list).expect_err("a no")[0].to_string();
    let no_pack = ListCase {
        pack: Vec::new(),
        ..right.clone()
    };
    assert!(said(no_pack).starts_with("refused 1: "));
    let short = ListCase {
        store: vec![2, 20],
        ..right.clone()
    };
    let found = "Found a store of 2 bytes, expected the length that P 1 to 8 and C 5 to 256 give";
    let short = said(short);
    assert!(
        short.starts_with("refused 9: ") && short.ends_with(found),
        "{short}"
    );
    let mut longer = right;
    longer.store.push(0);
    assert!(said(longer).starts_with("refused 10: "));
}
