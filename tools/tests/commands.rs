//! The command itself: what it writes, what it says, and its exit status.

use std::fs;
use std::path::{Path, PathBuf};
use std::process::{Command, Output};
use wf::{command, program};

/// A folder of its own for each test, empty at first.
fn fresh(name: &str) -> PathBuf {
    let folder = Path::new(env!("CARGO_TARGET_TMPDIR")).join(name);
    let _ = fs::remove_dir_all(&folder);
    fs::create_dir_all(&folder).expect("a folder");
    folder
}

fn example(name: &str) -> PathBuf {
    Path::new(env!("CARGO_MANIFEST_DIR"))
        .join("../examples")
        .join(name)
}

fn wf(folder: &Path, arguments: &[&str]) -> Output {
    let mut wf = Command::new(env!("CARGO_BIN_EXE_wf"));
    wf.current_dir(folder)
        .args(arguments)
        .output()
        .expect("wf starts")
}

/// Exit status, then what was printed, then what was said about faults.
fn told(output: Output) -> (i32, String, String) {
    let text = |bytes: Vec<u8>| String::from_utf8(bytes).expect("text");
    (
        output.status.code().unwrap_or(-1),
        text(output.stdout),
        text(output.stderr),
    )
}

fn copy(from: &Path, to: &Path, files: &[&str]) {
    for file in files {
        fs::copy(from.join(file), to.join(file)).expect("a copy");
    }
}

/// A program that stands in for the proved one: it prints a file of its folder.
#[cfg(unix)]
fn stand_in(folder: &Path, script: &str) -> String {
    use std::os::unix::fs::PermissionsExt;
    let path = folder.join("workflow");
    fs::write(&path, format!("#!/bin/sh\n{script}\n")).expect("a script");
    fs::set_permissions(&path, fs::Permissions::from_mode(0o755)).expect("an executable script");
    path.display().to_string()
}

#[test]
fn asm_and_disasm_make_the_same_bytes() {
    let folder = fresh("asm");
    copy(&example("transfer"), &folder, &["pack.wf"]);
    assert_eq!(
        told(wf(&folder, &["asm", "pack.wf", "-o", "a.bin"])),
        (0, String::new(), String::new())
    );
    assert_eq!(told(wf(&folder, &["disasm", "a.bin", "-o", "b.wf"])).0, 0);
    assert_eq!(told(wf(&folder, &["asm", "b.wf", "-o", "b.bin"])).0, 0);
    assert_eq!(
        fs::read(folder.join("a.bin")).unwrap(),
        fs::read(folder.join("b.bin")).unwrap()
    );
    let (status, printed, _) = told(wf(&folder, &["disasm", "a.bin"]));
    assert_eq!(
        (status, printed),
        (0, fs::read_to_string(folder.join("b.wf")).unwrap())
    );
}

#[test]
fn plan_and_show_make_the_same_bytes() {
    let folder = fresh("plan");
    copy(&example("count"), &folder, &["pack.wf", "schedule.plan"]);
    assert_eq!(
        told(wf(&folder, &["plan", "schedule.plan", "-o", "a.bin"])),
        (0, String::new(), String::new())
    );
    for options in [
        &["show", "a.bin", "-o", "b.plan"][..],
        &["show", "a.bin", "-o", "b.plan", "--pack", "pack.wf"],
    ] {
        assert_eq!(told(wf(&folder, options)).0, 0);
        assert_eq!(
            told(wf(
                &folder,
                &["plan", "b.plan", "-o", "b.bin", "--pack", "pack.wf"]
            ))
            .0,
            0
        );
        assert_eq!(
            fs::read(folder.join("a.bin")).unwrap(),
            fs::read(folder.join("b.bin")).unwrap()
        );
    }
    assert!(fs::read_to_string(folder.join("b.plan"))
        .unwrap()
        .contains("workflow COUNT"));
}

#[test]
fn an_arrival_with_id_0_is_warned_of_and_the_schedule_is_written() {
    let folder = fresh("zero");
    let text = "partitions 1\nrows 5\nrequest lost id 0 workflow 0 arguments 1 2 3 4\n\
        request good id 1 workflow 0 arguments 1 2 3 4\narrival good in slot 0\narrival lost in slot 1\n\
        retry lost in slot 1\nturn slot 0 x 2\n  arrival lost in slot 2 x 3\narrival lost in slot 9\n";
    fs::write(folder.join("zero.plan"), text).expect("a plan");
    let (status, printed, said) = told(wf(&folder, &["plan", "zero.plan", "-o", "zero.bin"]));
    let words =
        "refused 24: Is the id other than 0 (arrival)? Found id 0, expected 1 to 4294967295";
    let expected = format!(
        "zero.plan:6:9: warning: {words} (request lost, event 1)\n\
         zero.plan:9:11: warning: {words} (request lost, events 5 to 7)\n"
    );
    assert_eq!((status, printed, said), (0, String::new(), expected));
    let bytes = fs::read(folder.join("zero.bin")).expect("a schedule");
    assert_eq!(bytes.len(), 6 + 2 * 24 + 2 * 9);
}

#[test]
fn faults_are_listed_and_nothing_is_written() {
    let folder = fresh("faults");
    fs::write(folder.join("p.wf"), "workflow A\nSET r8 1\nRETURN r0 r0\n").unwrap();
    let (status, printed, said) = told(wf(&folder, &["asm", "p.wf", "-o", "p.bin"]));
    let messages = "p.wf:2:5: found r8, expected a register r0 to r7\np.wf:3:11: found r0, expected end of line\n";
    assert_eq!((status, printed.as_str(), said.as_str()), (1, "", messages));
    assert!(!folder.join("p.bin").exists());
}

#[test]
fn faults_of_a_pack_that_a_plan_names_are_said() {
    let folder = fresh("named-pack");
    fs::write(folder.join("p.wf"), "workflow A\nSET r8 1\n").unwrap();
    let plan = "pack p.wf\npartitions 1\nrows 5\nrequest q id 1 workflow A arguments 1 2 3 4\n";
    fs::write(folder.join("s.plan"), plan).unwrap();
    let (status, _, said) = told(wf(&folder, &["plan", "s.plan", "-o", "s.bin"]));
    assert_eq!(
        (status, said.as_str()),
        (1, "p.wf:2:5: found r8, expected a register r0 to r7\n")
    );
}

#[test]
fn refused_bytes_are_said_with_their_place() {
    let folder = fresh("bytes");
    fs::write(folder.join("p.bin"), [1, 1, 0, 0x50, 0, 0, 0, 0]).unwrap();
    fs::write(folder.join("s.bin"), [9, 5, 0, 0, 0, 0]).unwrap();
    let (status, _, said) = told(wf(&folder, &["disasm", "p.bin"]));
    assert_eq!(status, 1);
    assert!(
        said.starts_with(
            "p.bin: workflow 0 instruction 0: refused 5: Are w (a jump's target included)"
        ),
        "{said}"
    );
    let (status, _, said) = told(wf(&folder, &["show", "s.bin"]));
    assert_eq!(status, 1);
    assert_eq!(said, "s.bin: refused 9: Are there three bytes, P 1 to 8, C 5 to 256? Found P 9, expected P 1 to 8\n");
}

#[test]
fn files_that_cannot_be_used_are_said() {
    let folder = fresh("files");
    fs::write(folder.join("bad.wf"), [0xFF, 0xFE]).unwrap();
    fs::write(
        folder.join("good.wf"),
        "\u{feff}workflow A\r\nRETURN r0\r\n",
    )
    .unwrap();
    assert_eq!(
        told(wf(&folder, &["asm", "good.wf", "-o", "good.bin"])).0,
        0
    );
    let cases: [(&[&str], &str); 6] = [
        (
            &["asm", "none.wf", "-o", "p.bin"],
            "none.wf: cannot be read: ",
        ),
        (&["disasm", "none.bin"], "none.bin: cannot be read: "),
        (
            &["asm", "bad.wf", "-o", "p.bin"],
            "bad.wf: found bytes that are not UTF-8, expected text\n",
        ),
        (
            &["asm", "good.wf", "-o", "none/p.bin"],
            "none/p.bin: cannot be written: ",
        ),
        (
            &["trace", "none", "-o", "run.svg"],
            "none: is not a folder\n",
        ),
        (&["figures", "none"], "none: is not a folder\n"),
    ];
    for (arguments, start) in cases {
        let (status, printed, said) = told(wf(&folder, arguments));
        assert_eq!((status, printed.as_str()), (1, ""), "{arguments:?}");
        assert!(said.starts_with(start), "{said}");
    }
}

#[test]
fn a_wrong_command_line_is_said_with_the_right_ones() {
    let folder = fresh("usage");
    let cases: [(&[&str], &str); 11] = [
        (&[], "wf: found no command, expected one of\n"),
        (
            &["calls", "c.bin", "-o", "c.svg", "--case"],
            "wf: found nothing behind --case, expected the number of a case\n",
        ),
        (
            &["trace", ".", "--case", "1"],
            "wf: found --case, which trace does not take\n",
        ),
        (&["assemble"], "wf: found assemble, expected one of\n"),
        (
            &["asm"],
            "wf: found nothing behind asm, expected a file or folder\n",
        ),
        (
            &["asm", "p.wf"],
            "wf: found no -o, expected where asm writes\n",
        ),
        (
            &["asm", "p.wf", "-o"],
            "wf: found nothing behind -o, expected a file\n",
        ),
        (
            &["run", ".", "-o", "x"],
            "wf: found -o, which run does not take\n",
        ),
        (&["run", ".", "x"], "wf: found x, expected no more\n"),
        (
            &["figures"],
            "wf: found nothing behind figures, expected a file or folder\n",
        ),
        (
            &["figures", ".", "-o", "x"],
            "wf: found -o, which figures does not take\n",
        ),
    ];
    for (arguments, start) in cases {
        let (status, printed, said) = told(wf(&folder, arguments));
        assert_eq!((status, printed.as_str()), (2, ""), "{arguments:?}");
        assert!(
            said.starts_with(start) && said.contains("\nwf figures FOLDER  "),
            "{said}"
        );
    }
    assert_eq!(told(wf(&folder, &["help"])).0, 0);
}

#[cfg(unix)]
#[test]
fn run_gives_the_program_the_assembled_texts() {
    let folder = fresh("run");
    let texts = fresh("run-texts");
    copy(&example("move"), &texts, &["pack.wf", "schedule.plan"]);
    // It prints its answers only if both files are there and the folder is not the one with the texts.
    let held = example("move").join("expected.txt").canonicalize().unwrap();
    let script = format!("test -s \"$1/pack.bin\" && test -s \"$1/schedule.bin\" && test ! -e \"$1/pack.wf\" && cat '{}'", held.display());
    let program = stand_in(&folder, &script);
    let named = fs::read_to_string(example("move").join("named.txt")).unwrap();
    assert_eq!(command::run(&texts, Some(vec![program])), Ok(named));
    assert!(!texts.join("pack.bin").exists());
}

#[cfg(unix)]
#[test]
fn run_gives_the_program_a_folder_of_bytes_as_it_is() {
    let folder = fresh("run-bytes");
    let program = stand_in(&folder, "cd \"$1\" && test -e here && echo 'refused 1'");
    fs::write(folder.join("here"), "").unwrap();
    let output = command::run(&folder, Some(vec![program]));
    assert_eq!(
        output,
        Ok("refused 1  ; Is there a count, 1 to 16?\n".to_string())
    );
}

#[cfg(unix)]
#[test]
fn run_says_what_is_wrong_with_the_program() {
    let folder = fresh("run-wrong");
    let said = |program: Option<Vec<String>>| {
        let faults = command::run(&folder, program).expect_err("a fault");
        faults
            .iter()
            .map(|fault| fault.to_string())
            .collect::<Vec<String>>()
            .join("\n")
    };
    let none = "wf run: found no proved program, expected WF_PROGRAM or an executable file `workflow` in a folder above";
    assert_eq!(said(None), none);
    assert!(said(Some(vec!["./none".to_string()])).starts_with("./none: cannot be started: "));
    let fails = stand_in(&folder, "exit 3");
    assert_eq!(
        said(Some(vec![fails.clone()])),
        format!("{fails}: ended with exit status: 3")
    );
    let garbled = stand_in(&folder, "printf '\\377'");
    assert_eq!(
        said(Some(vec![garbled.clone()])),
        format!("{garbled}: printed bytes that are not UTF-8")
    );
}

#[cfg(unix)]
#[test]
fn run_says_where_it_cannot_assemble() {
    let folder = fresh("run-nowhere");
    let texts = example("move").canonicalize().unwrap();
    fs::write(folder.join("file"), "").unwrap();
    let mut wf = Command::new(env!("CARGO_BIN_EXE_wf"));
    wf.current_dir(&folder).arg("run").arg(texts);
    wf.env("TMPDIR", "file")
        .env("WF_PROGRAM", stand_in(&folder, "exit 0"));
    let (status, _, said) = told(wf.output().unwrap());
    assert!(
        status == 1 && said.starts_with("file/wf-") && said.contains(": cannot be made: "),
        "{said}"
    );
}

#[cfg(unix)]
#[test]
fn the_program_is_found_by_its_variable_or_above() {
    let folder = fresh("found");
    let below = folder.join("a/b");
    fs::create_dir_all(&below).unwrap();
    let above: Vec<PathBuf> = below.ancestors().take(3).map(Path::to_path_buf).collect();
    assert_eq!(program::find_in(None, &above), None);
    let path = stand_in(&folder, "exit 0");
    assert_eq!(program::find_in(None, &above), Some(vec![path.clone()]));
    assert_eq!(program::find_in(Some(path.clone()), &[]), Some(vec![path]));
    let words = vec!["other".to_string(), "run".to_string()];
    assert_eq!(
        program::find_in(Some("other run".to_string()), &above),
        Some(words)
    );
}

#[test]
fn figures_are_printed_and_what_may_not_suffice_is_warned_of() {
    let folder = fresh("figures");
    copy(&example("move"), &folder, &["pack.wf", "schedule.plan"]);
    let table = "           most  most rows in partition
workflow  turns    0    1    2    3    4    5    6    7
MOVE          4    2    2    0    0    0    0    0    0
";
    let together = "
the schedule's requests together, different ids: 2
             most rows    C
partition 0          4    5
partition 1          4    5
book                10    5
C 10 certainly suffices, the schedule has C 5
";
    let warning = ".: warning: C 5 may not suffice: the book may need 10 rows\n";
    assert_eq!(
        told(wf(&folder, &["figures", "."])),
        (0, format!("{table}{together}"), warning.to_string())
    );
    fs::remove_file(folder.join("schedule.plan")).expect("a file");
    assert_eq!(
        told(wf(&folder, &["figures", "."])),
        (0, table.to_string(), String::new())
    );
}

#[test]
fn figures_of_a_refused_pack_or_schedule_are_a_fault() {
    let folder = fresh("figures-refused");
    let said = |folder: &Path| {
        let (status, printed, said) = told(wf(folder, &["figures", "."]));
        assert_eq!((status, printed.as_str()), (1, ""));
        said
    };
    let no_pack = ".: refused 1: Is there a count, 1 to 16? Found no bytes, expected a count\n";
    assert_eq!(said(&folder), no_pack);
    fs::write(folder.join("pack.bin"), [1, 1, 0, 0x50, 0, 0, 0, 0]).expect("a pack");
    assert!(said(&folder).starts_with(".: workflow 0 instruction 0: refused 5: "));
    fs::write(folder.join("pack.bin"), [1, 1, 0, 0xB0, 0, 0, 0, 0]).expect("a pack");
    fs::write(folder.join("schedule.bin"), [1, 4, 0, 0, 0, 0]).expect("a schedule");
    assert!(said(&folder).starts_with(".: refused 9: "));
    fs::write(folder.join("schedule.plan"), "partitions 1\n").expect("a plan");
    assert!(said(&folder).starts_with("./schedule.plan:2:1: found end of file, "));
}

#[test]
fn calls_writes_a_picture_or_says_what_is_wrong_with_the_file() {
    let folder = fresh("calls");
    copy(&example("worklist"), &folder, &["calls.bin"]);
    let nothing = (0, String::new(), String::new());
    for arguments in [
        &["calls", "calls.bin", "-o", "calls.svg"][..],
        &["calls", "calls.bin", "--case", "0", "-o", "calls.svg"],
    ] {
        assert_eq!(told(wf(&folder, arguments)), nothing);
        let picture = fs::read(folder.join("calls.svg")).unwrap();
        assert_eq!(
            picture,
            fs::read(example("worklist").join("calls.svg")).unwrap()
        );
        fs::remove_file(folder.join("calls.svg")).unwrap();
    }
    fs::write(folder.join("short.bin"), [3, 0]).unwrap();
    fs::write(folder.join("no.bin"), no_pack()).unwrap();
    let cases: [(&[&str], &str); 5] = [
        (&["none.bin"], "none.bin: cannot be read: "),
        (&["short.bin"], "short.bin: case 0 is malformed\n"),
        (
            &["calls.bin", "--case", "1"],
            "calls.bin: case 1 is no list of calls (kind 3)\n",
        ),
        (
            &["calls.bin", "--case", "x"],
            "calls.bin: found --case x, expected the number of a case\n",
        ),
        (
            &["no.bin"],
            "no.bin: refused 1: Is there a count, 1 to 16? Found no bytes, expected a count\n",
        ),
    ];
    for (arguments, start) in cases {
        let arguments = [&["calls"], arguments, &["-o", "calls.svg"]].concat();
        let (status, printed, said) = told(wf(&folder, &arguments));
        assert_eq!((status, printed.as_str()), (1, ""), "{arguments:?}");
        assert!(said.starts_with(start), "{said}");
    }
    assert!(!folder.join("calls.svg").exists());
}

/// A list of no calls, with an empty pack, store and worklist: its kind, two lengths, entries, records and number of calls.
fn no_pack() -> Vec<u8> {
    let mut file = vec![3];
    file.resize(1 + 4 + 4 + 1 + 384 + 1, 0);
    file
}

#[test]
fn trace_writes_a_picture_or_says_the_refusal() {
    let folder = fresh("trace");
    copy(&example("move"), &folder, &["pack.wf", "schedule.plan"]);
    assert_eq!(
        told(wf(&folder, &["trace", ".", "-o", "run.svg"])),
        (0, String::new(), String::new())
    );
    let picture = fs::read_to_string(folder.join("run.svg")).unwrap();
    assert!(picture.starts_with("<svg ") && picture.contains("trace: a run of 10 events"));
    let empty = fresh("trace-empty");
    let (status, _, said) = told(wf(&empty, &["trace", ".", "-o", "run.svg"]));
    assert_eq!(
        (status, said.as_str()),
        (
            1,
            ".: refused 1: Is there a count, 1 to 16? Found no bytes, expected a count\n"
        )
    );
}
