//! Round trips on generated packs and schedules, and agreement with the second implementation.

mod generated;

use generated::{any_schedule, damaged, folder, right_pack, Random};
use wf::trace::Happened;
use wf::{assemble, disassemble, names, pack, picture, plan, schedule, show, trace};

#[test]
fn disasm_of_any_accepted_pack_assembles_to_the_same_bytes() {
    let mut random = Random::new(1);
    for _ in 0..1000 {
        let bytes = pack::to_bytes(&right_pack(&mut random));
        let workflows = pack::accepted(&bytes).expect("an accepted pack");
        let text = disassemble::disassemble(&workflows);
        let assembled = assemble::assemble("f.wf", &text).expect("a text without faults");
        assert_eq!(assembled.bytes(), bytes, "{text}");
    }
}

#[test]
fn the_largest_packs_come_back() {
    let mut random = Random::new(2);
    for (count, size) in [(16, 128), (8, 256), (1, 1), (16, 1)] {
        let workflows: Vec<pack::Workflow> = (0..count)
            .map(|_| generated::right_workflow(&mut random, size))
            .collect();
        let bytes = pack::to_bytes(&workflows);
        assert_eq!(reference::pack::check(&bytes), Ok(()));
        let text = disassemble::disassemble(&workflows);
        assert_eq!(
            assemble::assemble("f.wf", &text)
                .expect("no faults")
                .bytes(),
            bytes
        );
    }
}

/// The first no that is listed is the pack check's answer, with its place.
#[test]
fn the_pack_check_agrees_with_the_second_implementation() {
    let mut random = Random::new(3);
    let mut seen = [0; 9];
    for _ in 0..20_000 {
        let workflows = right_pack(&mut random);
        let bytes = damaged(&mut random, &workflows);
        let ours = pack::accepted(&bytes).err().map(|noes| noes[0].clone());
        let theirs = reference::pack::check(&bytes).err();
        let number = ours.as_ref().map_or(0, |no| no.number);
        seen[number as usize] += 1;
        assert_eq!(
            number,
            theirs.map_or(0, |refusal| refusal.question as u32),
            "{bytes:?}"
        );
        if let (Some(no), Some(refusal), 4..) = (ours, theirs, number) {
            assert_eq!(
                (no.workflow, no.instruction),
                (refusal.workflow, refusal.instruction)
            );
        }
    }
    assert!(
        seen.iter().all(|&count| count > 0),
        "each question said no at least once: {seen:?}"
    );
}

#[test]
fn show_of_any_right_schedule_plans_to_the_same_bytes() {
    let mut random = Random::new(4);
    let names = [Vec::new(), vec!["FIRST".to_string(), "SECOND".to_string()]];
    for round in 0..1000 {
        let bytes = schedule::to_bytes(&any_schedule(&mut random));
        let accepted = schedule::accepted(&bytes).expect("a right schedule");
        let workflows = &names[round % 2];
        let text = show::show(&accepted, workflows);
        let no_pack = |_: &str| Ok(Vec::new());
        let planned = plan::plan("f.plan", &text, Some(workflows.clone()), &no_pack)
            .expect("a text without faults");
        assert_eq!(schedule::to_bytes(&planned.schedule), bytes, "{text}");
    }
}

#[test]
fn questions_22_23_and_9_agree_with_the_second_implementation() {
    let mut random = Random::new(5);
    let accepted_pack = [1, 1, 0, 0xB0, 0, 0, 0, 0];
    let mut seen = [0; 24];
    for _ in 0..3000 {
        let mut bytes = schedule::to_bytes(&any_schedule(&mut random));
        generated::damage(&mut random, &mut bytes);
        let ours = schedule::accepted(&bytes).err().map_or(0, |no| no.number);
        let theirs = reference::schedule::begin(&accepted_pack, &bytes).err();
        assert_eq!(
            ours,
            theirs.map_or(0, |refusal| refusal.question as u32),
            "{bytes:?}"
        );
        seen[ours as usize] += 1;
    }
    assert!(
        [0, 9, 22, 23]
            .iter()
            .all(|&number: &usize| seen[number] > 0),
        "{seen:?}"
    );
}

/// A text with some letters exchanged for others that mean something in it.
fn garbled(random: &mut Random, text: &str) -> String {
    let mut letters: Vec<char> = text.chars().collect();
    for _ in 0..1 + random.below(4) {
        let (from, to) = (random.below(letters.len()), random.below(letters.len()));
        match random.below(3) {
            0 => letters[to] = letters[from],
            1 => letters.insert(to, letters[from]),
            _ => drop(letters.remove(to)),
        }
    }
    letters.into_iter().collect()
}

/// Any text is either faulted or comes to bytes that the second implementation accepts.
#[test]
fn garbled_texts_are_faulted_or_right() {
    let mut random = Random::new(11);
    let pack_text = include_str!("../../examples/transfer/pack.wf");
    let plan_text = include_str!("../../examples/transfer/schedule.plan");
    let (mut right, mut faulted) = (0, 0);
    for _ in 0..5000 {
        match assemble::assemble("f.wf", &garbled(&mut random, pack_text)) {
            Ok(assembled) => assert_eq!(reference::pack::check(&assembled.bytes()), Ok(())),
            Err(faults) => assert!(!faults.is_empty()),
        }
        let pack = |_: &str| Ok(vec!["RECEIVE".to_string(), "TRANSFER".to_string()]);
        match plan::plan("f.plan", &garbled(&mut random, plan_text), None, &pack) {
            Ok(planned) => {
                let bytes = schedule::to_bytes(&planned.schedule);
                assert_eq!(schedule::accepted(&bytes).as_ref(), Ok(&planned.schedule));
                right += 1;
            }
            Err(faults) => faulted += usize::from(!faults.is_empty()),
        }
    }
    assert!(
        right > 500 && faulted > 500 && right + faulted == 5000,
        "{right} {faulted}"
    );
}

fn answer(happened: Happened) -> String {
    match happened {
        Happened::Done => "done".to_string(),
        Happened::Moved | Happened::Ran(_) | Happened::Logged(_) => "moved".to_string(),
        Happened::Replied { id, value } => format!("reply {id} {value}"),
        Happened::Taken(id) => format!("taken {id}"),
        Happened::Refused(number) => format!("refused {number}"),
    }
}

/// The picture's events have the answers that the program prints, and its last counts are the rows printed.
#[test]
fn a_trace_has_the_answers_and_rows_of_the_output() {
    let mut random = Random::new(6);
    for _ in 0..200 {
        let folder = folder(&mut random);
        let output = reference::schedule::program(&folder.pack, &folder.schedule);
        let run = trace::trace(&folder).expect("a run");
        let mut lines = output.lines().skip(1);
        for (number, step) in run.steps.iter().enumerate() {
            let line = format!("{number} {}", answer(step.happened));
            assert_eq!(lines.next(), Some(line.as_str()));
        }
        let last = run.steps.last().expect("an event");
        let rows: usize = last.used[..run.partitions].iter().sum();
        assert_eq!(lines.count(), rows);
    }
}

/// A block that ran adds its log row at least, in its partition only; one taken from the log adds nothing.
#[test]
fn a_trace_tells_blocks_that_ran_from_those_taken_from_the_log() {
    let mut random = Random::new(10);
    let (mut ran, mut logged) = (0, 0);
    for _ in 0..200 {
        let run = trace::trace(&folder(&mut random)).expect("a run");
        for pair in run.steps.windows(2) {
            let (before, after) = (&pair[0].used, &pair[1].used);
            let grown: Vec<usize> = (0..after.len())
                .filter(|&at| after[at] > before[at])
                .collect();
            match (pair[1].happened, pair[1].call) {
                (Happened::Ran(partition), _) => assert_eq!(grown, [partition as usize]),
                (Happened::Done, reference::Call::Arrival { .. }) => {
                    assert!(grown.is_empty() || grown == [run.partitions])
                }
                _ => assert_eq!(before, after),
            }
            ran += usize::from(matches!(pair[1].happened, Happened::Ran(_)));
            logged += usize::from(matches!(pair[1].happened, Happened::Logged(_)));
        }
    }
    assert!(ran > 100 && logged > 100, "{ran} {logged}");
}

#[test]
fn names_leave_the_output_as_it_is() {
    let mut random = Random::new(7);
    for _ in 0..200 {
        let folder = folder(&mut random);
        let output = reference::schedule::program(&folder.pack, &folder.schedule);
        let named = names::with_names(&output, &folder);
        let plain: String = named
            .lines()
            .map(|line| format!("{}\n", line.split(';').next().unwrap_or("").trim_end()))
            .collect();
        assert_eq!(plain, output);
    }
}

/// Every element that is opened is closed, and every event has its mark.
#[test]
fn a_picture_is_whole_for_any_run() {
    let mut random = Random::new(8);
    for _ in 0..100 {
        let run = trace::trace(&folder(&mut random)).expect("a run");
        let picture = picture::picture("any", &run);
        assert_eq!(
            picture.matches("<g>").count(),
            picture.matches("</g>").count()
        );
        for number in 0..run.steps.len() {
            assert!(
                picture.contains(&format!("<title>event {number}: ")),
                "event {number}"
            );
        }
        assert!(!picture.contains("NaN") && !picture.contains("inf"));
    }
}

/// A run of the most events keeps letters that can be read and a width that a screen has.
#[test]
fn a_picture_of_1024_events_is_legible() {
    let mut random = Random::new(9);
    let mut folder = folder(&mut random);
    let mut schedule = schedule::accepted(&folder.schedule).expect("a right schedule");
    schedule.events = (0..1024)
        .map(|_| generated::lively_event(&mut random, 12))
        .collect();
    folder.schedule = schedule::to_bytes(&schedule);
    let picture = picture::picture("long", &trace::trace(&folder).expect("a run"));
    let numbers = |mark: &str| -> Vec<f64> {
        let parts = picture.split(mark).skip(1);
        parts
            .filter_map(|part| part.split('"').next()?.parse().ok())
            .collect()
    };
    assert!(numbers(" font-size=\"").iter().all(|&size| size >= 6.5));
    assert!(numbers("<svg xmlns=\"http://www.w3.org/2000/svg\" width=\"")[0] <= 1800.0);
    assert_eq!(picture.matches(">rows used, of ").count(), 16);
}
