//! The shipped examples: their output, their output with names and their pictures are held to files.
//! `WF_WRITE=1 cargo test --test examples` writes the files anew; read the difference before it is kept.

use std::fs;
use std::path::{Path, PathBuf};
use wf::folder::{self, Folder};
use wf::{names, picture, program, schedule, trace};

const EXAMPLES: [&str; 3] = ["move", "transfer", "count"];

fn example(name: &str) -> PathBuf {
    Path::new(env!("CARGO_MANIFEST_DIR"))
        .join("../examples")
        .join(name)
}

fn loaded(name: &str) -> Folder {
    folder::load(&example(name)).expect("an example without faults")
}

/// The second implementation's output, as the schedule program prints it.
fn output(folder: &Folder) -> String {
    reference::schedule::program(&folder.pack, &folder.schedule)
}

fn held(name: &str, file: &str, text: &str) {
    let path = example(name).join(file);
    if std::env::var("WF_WRITE").is_ok() {
        fs::write(&path, text).expect("a file that can be written");
    }
    let stored = fs::read_to_string(&path).expect("a held file");
    assert_eq!(stored, text, "{name}/{file}");
}

#[test]
fn outputs_are_those_of_the_second_implementation() {
    for name in EXAMPLES {
        held(name, "expected.txt", &output(&loaded(name)));
    }
}

#[test]
fn outputs_are_those_of_the_proved_program_where_it_is_found() {
    let Some(command) = program::find() else {
        eprintln!("the proved program was not found: not compared");
        return;
    };
    for name in EXAMPLES {
        let output = program::output(&command, &example(name), &loaded(name)).expect("a run");
        let stored = fs::read_to_string(example(name).join("expected.txt")).expect("a held file");
        assert_eq!(stored, output, "{name}");
    }
}

#[test]
fn names_stand_beside_the_numbers() {
    for name in EXAMPLES {
        let folder = loaded(name);
        held(
            name,
            "named.txt",
            &names::with_names(&output(&folder), &folder),
        );
    }
}

#[test]
fn pictures_are_held() {
    for name in EXAMPLES {
        let run = trace::trace(&loaded(name)).expect("a run");
        held(name, "run.svg", &picture::picture(name, &run));
    }
}

#[test]
fn the_whole_case_prints_what_document_01_says() {
    let whole = "events 10\n0 done\n1 moved\n2 moved\n3 done\n4 done\n5 moved\n6 moved\n7 moved\n8 reply 7 30\n\
                 9 refused 19\nrow 0 100 4294967266\nlog 0 7 0 4294967266\nrow 1 200 30\nlog 1 7 1 30\n";
    assert_eq!(output(&loaded("move")), whole);
}

#[test]
fn the_whole_case_has_the_bytes_of_document_01() {
    let folder = loaded("move");
    let operations = [
        0x14, 0x60, 0x85, 0x35, 0x94, 0x75, 0x60, 0x85, 0x25, 0x91, 0x75, 0xB0,
    ];
    let words: [u32; 12] = [0, 0, 4, 2, 5, 0, 1, 1, 2, 5, 0, 0];
    let mut pack = vec![1, 12, 0];
    pack.extend(operations);
    pack.extend(words.iter().flat_map(|word| word.to_le_bytes()));
    assert_eq!(folder.pack, pack);
    let mut bytes = vec![2, 5, 0, 2, 10, 0];
    for request in [[7, 0, 100, 200, 30, 0], [8, 0, 100, 200, 30, 0]] {
        bytes.extend(request.iter().flat_map(|word: &u32| word.to_le_bytes()));
    }
    bytes.extend([0x00, 0x10, 0x10, 0x20, 0x31, 0x11, 0x11, 0x11, 0x11, 0x01]);
    bytes.extend([0, 0, 0, 0, 0, 0, 0, 0, 0, 1]);
    assert_eq!(folder.schedule, bytes);
}

#[test]
fn each_example_has_a_crash_and_a_retry() {
    for name in EXAMPLES {
        let schedule = schedule::accepted(&loaded(name).schedule).expect("a right schedule");
        for kind in [schedule::Kind::Crash, schedule::Kind::Retry] {
            assert!(
                schedule.events.iter().any(|event| event.kind == kind),
                "{name}"
            );
        }
    }
}
