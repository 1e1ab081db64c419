//! Figures of workflows and schedules: what certainly suffices does, in every run.

mod generated;

use generated::{folder, Random};
use wf::figures::{of_workflows, report, together, Together};
use wf::folder::Folder;
use wf::schedule::{self, Request, Schedule};
use wf::trace::{self, Happened, Run};
use wf::{assemble, picture};

/// Two workflows: one takes 3 rows in partition 0, the other 1 there and 2 in partition 1.
const PACK: &str = "workflow A\nBEGIN 0\nPUT r0 r1\nPUT r0 r1\nEND r0\nRETURN r0\n\
    workflow B\nJEQ r0 r1 out\nBEGIN 0\nEND r0\nBEGIN 1\nPUT r0 r1\nEND r0\nout: RETURN r0\n";

fn with_requests(partitions: u8, rows: u16, requests: &[(u32, u32)]) -> Folder {
    let assembled = assemble::assemble("f.wf", PACK).expect("a right text");
    let requests = requests.iter().map(|(id, workflow)| Request {
        id: *id,
        workflow: *workflow,
        arguments: [0; 4],
    });
    let schedule = Schedule {
        partitions,
        rows,
        requests: requests.collect(),
        events: Vec::new(),
    };
    Folder {
        pack: assembled.bytes(),
        requests: wf::show::request_names(&schedule),
        schedule: schedule::to_bytes(&schedule),
        workflows: assembled.names,
        from_text: true,
    }
}

fn together_of(folder: &Folder) -> Together {
    let workflows = of_workflows(&folder.pack).expect("a right pack");
    let schedule = schedule::accepted(&folder.schedule).expect("a right schedule");
    together(&workflows, &schedule)
}

fn rows_of(requests: &[(u32, u32)]) -> Vec<usize> {
    together_of(&with_requests(3, 256, requests)).rows
}

#[test]
fn each_id_counts_once_with_the_greatest_of_its_figures() {
    assert_eq!(rows_of(&[(7, 0)]), [3, 0, 0, 5]);
    assert_eq!(rows_of(&[(7, 0), (8, 0), (9, 1)]), [7, 2, 0, 15]);
    assert_eq!(rows_of(&[(7, 0), (7, 0)]), [3, 0, 0, 5]);
    assert_eq!(rows_of(&[(7, 0), (7, 1)]), [3, 2, 0, 5]);
}

#[test]
fn a_request_that_is_never_accepted_takes_nothing() {
    assert_eq!(rows_of(&[]), [0, 0, 0, 0]);
    assert_eq!(rows_of(&[(0, 0), (7, 2), (8, u32::MAX)]), [0, 0, 0, 0]);
    assert_eq!(rows_of(&[(7, 2), (7, 1)]), [1, 2, 0, 5]);
}

fn warnings(folder: &Folder) -> Vec<String> {
    report(folder).expect("no fault").warnings
}

#[test]
fn partitions_and_the_book_that_may_be_short_are_warned_of() {
    let requests: Vec<(u32, u32)> = (1..=3).map(|id| (id, 0)).collect();
    let short = |rows| warnings(&with_requests(2, rows, &requests));
    let book = |c| format!("C {c} may not suffice: the book may need 15 rows");
    let partition = |c| format!("C {c} may not suffice: partition 0 may need 9 rows");
    assert_eq!(short(8), [partition(8), book(8)]);
    assert_eq!(short(9), [book(9)]);
    assert_eq!(short(14), [book(14)]);
    assert_eq!(short(15), [""; 0]);
}

#[test]
fn a_partition_that_the_store_has_not_is_warned_of() {
    let folder = with_requests(1, 256, &[(7, 0)]);
    let expected = "refused 13: Is each booked workflow below m, each BEGIN's partition below P? \
        Found partition 1, expected a partition below 1 (workflow B, instruction 3)";
    assert_eq!(warnings(&folder), [expected]);
}

#[test]
fn the_least_c_is_5_and_above_256_there_is_none() {
    let last_line = |folder: &Folder| {
        let text = report(folder).expect("no fault").text;
        text.lines().last().map(str::to_string)
    };
    let few = last_line(&with_requests(2, 9, &[]));
    assert_eq!(
        few.as_deref(),
        Some("C 5 certainly suffices, the schedule has C 9")
    );
    let many: Vec<(u32, u32)> = (1..=64).map(|id| (id, 0)).collect();
    let none = last_line(&with_requests(2, 256, &many));
    let expected = "no C certainly suffices: 320 rows are needed, and C is at most 256";
    assert_eq!(none.as_deref(), Some(expected));
}

/// How often a run was refused with 19 or 21, for want of rows.
fn short_of_rows(run: &Run) -> usize {
    let refused = |happened: Happened| matches!(happened, Happened::Refused(19 | 21));
    run.steps
        .iter()
        .filter(|step| refused(step.happened))
        .count()
}

/// With the C that certainly suffices no generated run wants rows; with the least C many do. No run takes more than the most.
#[test]
fn what_certainly_suffices_does() {
    let mut random = Random::new(12);
    let (mut ran, mut wanting, mut reached) = (0, 0, 0);
    for _ in 0..400 {
        let mut folder = folder(&mut random);
        let together = together_of(&folder);
        let mut with_rows = |rows: usize| {
            let mut schedule = schedule::accepted(&folder.schedule).expect("right");
            schedule.rows = rows as u16;
            folder.schedule = schedule::to_bytes(&schedule);
            trace::trace(&folder).expect("a run")
        };
        wanting += usize::from(short_of_rows(&with_rows(5)) > 0);
        if together.enough() > 256 {
            continue;
        }
        ran += 1;
        let run = with_rows(together.enough());
        assert_eq!(short_of_rows(&run), 0);
        assert_eq!(run.most.as_ref(), Some(&together.rows));
        let last = &run.steps.last().expect("an event").used;
        assert!(last
            .iter()
            .zip(&together.rows)
            .all(|(used, most)| used <= most));
        reached += usize::from(
            last.iter()
                .zip(&together.rows)
                .any(|(used, most)| used == most && *most > 1),
        );
    }
    assert!(
        ran > 300 && wanting > 100 && reached > 5,
        "{ran} {wanting} {reached}"
    );
}

#[test]
fn the_pictures_foot_has_the_rows_used_beside_the_most() {
    let folder = with_requests(2, 20, &[(7, 0), (8, 1)]);
    let run = trace::trace(&folder).expect("a run");
    let picture = picture::picture("any", &run);
    for line in [
        "partition 0: 0, at most 4",
        "partition 1: 0, at most 2",
        "book: 0, at most 10",
    ] {
        assert!(picture.contains(&format!(">{line}<")), "{line}");
    }
    let held = include_str!("../../examples/move/run.svg");
    for line in [
        "partition 0: 2, at most 4",
        "partition 1: 2, at most 4",
        "book: 5, at most 10",
    ] {
        assert!(held.contains(&format!(">{line}<")), "{line}");
    }
}
