//! Every error message has a case here: what is found, what is expected, and where.

use std::collections::BTreeSet;
use wf::fault::{Expected, Fault};
use wf::instruction::Instruction;
use wf::{assemble, pack, plan, schedule};

const HEAD: &str = "workflow A\n";
const SIZES: &str = "partitions 1\nrows 5\n";

fn asm_faults(text: &str) -> Vec<Fault> {
    assemble::assemble("f.wf", text).err().unwrap_or_default()
}

fn plan_faults(text: &str) -> Vec<Fault> {
    let pack = |_: &str| Ok(vec!["MOVE".to_string()]);
    plan::plan("f.plan", text, None, &pack)
        .err()
        .unwrap_or_default()
}

fn said(faults: &[Fault]) -> Vec<String> {
    faults.iter().map(Fault::to_string).collect()
}

/// Texts of the pack form that are not right, and the one message for each.
fn asm_cases() -> Vec<(String, &'static str)> {
    let a = |text: &str| format!("{HEAD}{text}");
    vec![
        ("SET r0 1\nRETURN r0\n".into(), "f.wf:1:1: found SET, expected a heading `workflow NAME`"),
        ("; first\nhere:\n".into(), "f.wf:2:1: found here:, expected a heading `workflow NAME`"),
        ("workflow\n".into(), "f.wf:1:9: found end of line, expected a name (a letter, then letters, digits, _ or -)"),
        ("workflow 9x ; no\nRETURN r0\n".into(), "f.wf:1:10: found 9x, expected a name (a letter, then letters, digits, _ or -)"),
        (a("9x: RETURN r0\n"), "f.wf:2:1: found 9x:, expected a name (a letter, then letters, digits, _ or -)"),
        (a("RETURN r0\nworkflow A\nRETURN r0\n"), "f.wf:3:10: found A, expected a name that no workflow above has (line 1 has it)"),
        (
            a("  set r0 1\nRETURN r0\n"),
            "f.wf:2:3: found set, expected an operation (SET COPY ADD SUB JLT JEQ BEGIN END GET PUT HAS RETURN), \
             a label `NAME:` or a heading `workflow NAME`",
        ),
        (a("COPY r8 r0\nRETURN r0\n"), "f.wf:2:6: found r8, expected a register r0 to r7"),
        (a("COPY r1 ; s is missing\nRETURN r0\n"), "f.wf:2:9: found end of line, expected a register r0 to r7"),
        (
            a("SET r0 4294967296\nRETURN r0\n"),
            "f.wf:2:8: found 4294967296, expected a number 0 to 4294967295, decimal or 0x hexadecimal",
        ),
        (a("SET r0 -1\nRETURN r0\n"), "f.wf:2:8: found -1, expected a number 0 to 4294967295, decimal or 0x hexadecimal"),
        (a("SET r0 0x\nRETURN r0\n"), "f.wf:2:8: found 0x, expected a number 0 to 4294967295, decimal or 0x hexadecimal"),
        (
            a("BEGIN\nEND r0\nRETURN r0\n"),
            "f.wf:2:6: found end of line, expected a number 0 to 4294967295, decimal or 0x hexadecimal",
        ),
        (a("JLT r0 r1 7\nRETURN r0\n"), "f.wf:2:11: found 7, expected the name of a label"),
        (a("JLT r0 r1 done\nRETURN r0\n"), "f.wf:2:11: found done, expected a label of this workflow"),
        (a("on:\nSET r1 1\non: RETURN r0\n"), "f.wf:4:1: found on, expected a label that this workflow has once (line 2 has it)"),
        (a("RETURN r0 r1\n"), "f.wf:2:11: found r1, expected end of line"),
    ]
}

/// Texts of the schedule form that are not right, and the one message for each.
fn plan_cases() -> Vec<(String, &'static str)> {
    let mut cases = plan_setting_cases();
    cases.extend(plan_request_cases());
    cases.extend(plan_event_cases());
    cases
}

fn plan_setting_cases() -> Vec<(String, &'static str)> {
    let a = |text: &str| format!("{SIZES}{text}\n");
    vec![
        (
            a("trun slot 0"),
            "f.plan:3:1: found trun, expected partitions, rows, pack, request, arrival, turn, crash, retry or restart",
        ),
        (a("rows 6"), "f.plan:3:1: found rows, expected this line once (line 2 has it)"),
        (a("partitions 1"), "f.plan:3:1: found partitions, expected this line once (line 1 has it)"),
        (a("pack a\npack b"), "f.plan:4:1: found pack, expected this line once (line 3 has it)"),
        ("partitions 1\nrows C\n".into(), "f.plan:2:6: found C, expected a number 0 to 4294967295, decimal or 0x hexadecimal"),
        (a("pack"), "f.plan:3:5: found end of line, expected the name of a file"),
        ("rows 5\n".into(), "f.plan:2:1: found end of file, expected a line `partitions NUMBER`"),
        ("partitions 1\n".into(), "f.plan:2:1: found end of file, expected a line `rows NUMBER`"),
    ]
}

fn plan_request_cases() -> Vec<(String, &'static str)> {
    let a = |text: &str| format!("{SIZES}{text}\n");
    let q = |text: &str| format!("{SIZES}request q id 7 workflow 0 arguments 1 2 3 4\n{text}\n");
    vec![
        (a("request 7"), "f.plan:3:9: found 7, expected a name (a letter, then letters, digits, _ or -)"),
        (q("request q id 8 workflow 0 arguments 1 2 3 4"), "f.plan:4:9: found q, expected a name that no request above has (line 3 has it)"),
        (a("request q 7"), "f.plan:3:11: found 7, expected the word `id`"),
        (a("request q id 7 MOVE"), "f.plan:3:16: found MOVE, expected the word `workflow`"),
        (
            a("request q id 7 workflow MOVE arguments 1 2 3 4"),
            "f.plan:3:25: found MOVE, expected a workflow number (a name needs a line `pack FILE` above, or --pack FILE)",
        ),
        (
            a("pack p.wf\nrequest q id 7 workflow MOVES arguments 1 2 3 4"),
            "f.plan:4:25: found MOVES, expected a workflow number, or a workflow name of the pack text",
        ),
        (a("request q id 7 workflow 0 1 2 3 4"), "f.plan:3:27: found 1, expected the word `arguments`"),
        (
            a("request q id 7 workflow 0 arguments 1 2 3"),
            "f.plan:3:42: found end of line, expected a number 0 to 4294967295, decimal or 0x hexadecimal",
        ),
        (a("request q id 7 workflow 0 arguments 1 2 3 4 5"), "f.plan:3:45: found 5, expected end of line"),
    ]
}

fn plan_event_cases() -> Vec<(String, &'static str)> {
    let a = |text: &str| format!("{SIZES}{text}\n");
    let q = |text: &str| format!("{SIZES}request q id 7 workflow 0 arguments 1 2 3 4\n{text}\n");
    vec![
        (
            q("retry p in slot 0"),
            "f.plan:4:7: found p, expected the name of a request above",
        ),
        (
            q("arrival q slot 0"),
            "f.plan:4:11: found slot, expected the word `in`",
        ),
        (a("turn 0"), "f.plan:3:6: found 0, expected the word `slot`"),
        (
            a("crash slot 16"),
            "f.plan:3:12: found 16, expected a slot 0 to 15",
        ),
        (
            a("turn slot 0 5"),
            "f.plan:3:13: found 5, expected the word `x`",
        ),
        (
            a("turn slot 0 x 0"),
            "f.plan:3:15: found 0, expected a repeat count 1 to 1024",
        ),
        (
            a("restart x 1025"),
            "f.plan:3:11: found 1025, expected a repeat count 1 to 1024",
        ),
    ]
}

#[test]
fn each_fault_of_a_pack_text_is_said_with_its_place() {
    for (text, message) in asm_cases() {
        assert_eq!(said(&asm_faults(&text)), [message], "{text}");
    }
}

#[test]
fn each_fault_of_a_schedule_text_is_said_with_its_place() {
    for (text, message) in plan_cases() {
        assert_eq!(said(&plan_faults(&text)), [message], "{text}");
    }
}

/// The variants as the source has them, so that a new one without a case is noticed.
#[test]
fn each_expectation_has_a_case() {
    let source = include_str!("../src/fault.rs");
    let list = source
        .split("pub enum Expected {")
        .nth(1)
        .and_then(|rest| rest.split('}').next())
        .expect("the list");
    let known: BTreeSet<String> = list
        .split(',')
        .map(|name| first_word(name.trim()))
        .filter(|name| !name.is_empty())
        .collect();
    let asm = asm_cases()
        .into_iter()
        .flat_map(|(text, _)| asm_faults(&text));
    let plan = plan_cases()
        .into_iter()
        .flat_map(|(text, _)| plan_faults(&text));
    let seen = asm.chain(plan).filter_map(|fault| match fault {
        Fault::Text { expected, .. } => Some(name_of(&expected)),
        _ => None,
    });
    assert_eq!(seen.collect::<BTreeSet<String>>(), known);
}

fn first_word(text: &str) -> String {
    text.chars()
        .take_while(|letter| letter.is_alphanumeric())
        .collect()
}

fn name_of(expected: &Expected) -> String {
    first_word(&format!("{expected:?}"))
}

#[test]
fn all_faults_of_a_text_are_listed_in_its_order() {
    let text = "workflow A\nSET r9 1\nJEQ r0 r1 on\nRETURN 0\n";
    let places: Vec<String> = said(&asm_faults(text))
        .iter()
        .map(|fault| fault[..9].to_string())
        .collect();
    assert_eq!(places, ["f.wf:2:5:", "f.wf:3:11", "f.wf:4:8:"]);
}

fn many(line: &str, count: usize) -> String {
    format!("{line}\n").repeat(count)
}

/// A text, the start of its message, and the end with what was found and expected.
type Refused = (String, &'static str, &'static str);

/// Pack texts that the pack check refuses by their count and sizes.
fn refused_by_size() -> Vec<Refused> {
    let a = |text: &str| format!("{HEAD}{text}\n");
    let seventeen: String = (0..17)
        .map(|number| format!("workflow A{number}\nRETURN r0\n"))
        .collect();
    let nine: String = (0..9)
        .map(|number| format!("workflow A{number}\n{}", many("RETURN r0", 256)))
        .collect();
    vec![
        (
            "; nothing\n".into(),
            "f.wf:1:1: refused 1: ",
            "Found 0 workflows, expected 1 to 16",
        ),
        (
            seventeen,
            "f.wf:33:10: refused 1: ",
            "Found 17 workflows, expected 1 to 16 (workflow A16)",
        ),
        (
            HEAD.into(),
            "f.wf:1:10: refused 2: ",
            "Found a size of 0, expected 1 to 256 (workflow A)",
        ),
        (
            a(&many("RETURN r0", 257)),
            "f.wf:258:1: refused 2: ",
            "Found a size of 257, expected 1 to 256 (workflow A)",
        ),
        (
            nine,
            "f.wf:2058:1: refused 2: ",
            "Found a sum of 2304 up to here, expected at most 2,048 (workflow A8)",
        ),
    ]
}

/// Pack texts that the pack check refuses at an instruction.
fn refused_by_instruction() -> Vec<Refused> {
    let a = |text: &str| format!("{HEAD}{text}\n");
    let block = |text: &str| format!("{HEAD}BEGIN 0\n{text}\nEND r0\nRETURN r0\n");
    vec![
        (block("END r0\nBEGIN 8"), "f.wf:4:1: refused 5: ", "Found partition 8, expected partition 0 to 7 (workflow A, instruction 2)"),
        (
            a("on: SET r1 1\nJEQ r0 r1 on\nRETURN r0"),
            "f.wf:3:1: refused 5: ",
            "Found target 0, expected a target greater than 1 and below 3 (workflow A, instruction 1)",
        ),
        (
            a("JEQ r0 r1 on\nRETURN r0\non:"),
            "f.wf:2:1: refused 5: ",
            "Found target 2, expected a target greater than 0 and below 2 (workflow A, instruction 0)",
        ),
        (a("GET r0 r1\nRETURN r0"), "f.wf:2:1: refused 6: ", "Found GET outside a block, expected it inside a block (workflow A, instruction 0)"),
        (block("RETURN r1"), "f.wf:3:1: refused 6: ", "Found RETURN inside a block, expected it outside a block (workflow A, instruction 1)"),
        (
            a("JLT r0 r1 on\nBEGIN 0\non: END r0\nRETURN r0"),
            "f.wf:2:1: refused 6: ",
            "Found a jump from outside to instruction 2 inside a block, expected a target outside (workflow A, instruction 0)",
        ),
        (
            a("BEGIN 0\nJLT r0 r1 on\nEND r0\non: RETURN r0"),
            "f.wf:3:1: refused 6: ",
            "Found a jump from inside that passes an END before instruction 3, expected a target up to the block's END (workflow A, instruction 1)",
        ),
        (block(&many("PUT r0 r1", 17)), "f.wf:19:1: refused 7: ", "Found PUT number 17 of its block, expected at most 16 (workflow A, instruction 17)"),
        (a("SET r0 1"), "f.wf:2:1: refused 8: ", "Found SET as the last instruction, expected RETURN (workflow A, instruction 0)"),
    ]
}

#[test]
fn each_no_of_the_pack_check_is_said_with_its_line() {
    let cases = refused_by_size()
        .into_iter()
        .chain(refused_by_instruction());
    for (text, start, end) in cases {
        let said = said(&asm_faults(&text));
        let number: u32 = start
            .split("refused ")
            .nth(1)
            .and_then(|rest| rest[..1].parse().ok())
            .expect("a number");
        assert_eq!(
            said,
            [format!("{start}{} {end}", wf::questions::question(number))],
            "{text}"
        );
    }
}

#[test]
fn all_noes_are_listed_the_pack_checks_own_first() {
    let text = "workflow A\nGET r0 r1\nEND r0\nworkflow B\nBEGIN 9\n";
    let numbers: Vec<String> = said(&asm_faults(text))
        .iter()
        .map(|no| no[..17].to_string())
        .collect();
    assert_eq!(
        numbers,
        [
            "f.wf:2:1: refused",
            "f.wf:3:1: refused",
            "f.wf:3:1: refused",
            "f.wf:5:1: refused",
            "f.wf:5:1: refused"
        ]
    );
}

/// Bytes of one workflow with these instructions.
fn bytes(instructions: &[(u8, u32)]) -> Vec<u8> {
    let workflow = instructions
        .iter()
        .map(|&(byte, word)| Instruction { byte, word })
        .collect();
    pack::to_bytes(&[workflow])
}

fn pack_byte_cases() -> Vec<(Vec<u8>, u32, &'static str)> {
    let last = (0xB0, 0);
    vec![
        (vec![], 1, "Found no bytes, expected a count"),
        (vec![17], 1, "Found 17 workflows, expected 1 to 16"),
        (vec![2, 1, 0], 2, "Found 3 bytes, expected a size of two bytes for each workflow"),
        (vec![1, 1, 1], 2, "Found a size of 257, expected 1 to 256"),
        (vec![1, 1, 0, 0xB0], 3, "Found 4 bytes, expected 8 bytes"),
        (bytes(&[(0xB8, 0)]), 4, "Found operation byte B8, expected operation 0 to B in the high four bits and bit 3 clear"),
        (bytes(&[(0x10, 8), last]), 5, "Found s 8, expected s 0 to 7"),
        (bytes(&[(0x40, 16 + 9), last]), 5, "Found s 9, expected s 0 to 7"),
        (bytes(&[(0x61, 0), (0x70, 0), last]), 5, "Found d 1, expected d 0"),
        (bytes(&[(0xB0, 3)]), 5, "Found w 3, expected w 0"),
    ]
}

#[test]
fn each_no_to_pack_bytes_is_said() {
    for (bytes, number, end) in pack_byte_cases() {
        let no = &pack::accepted(&bytes).expect_err("a refused pack")[0];
        assert_eq!(
            (no.number, no.to_string().ends_with(end)),
            (number, true),
            "{no}"
        );
        let fault = Fault::Bytes {
            file: "p.bin".to_string(),
            no: no.clone(),
        }
        .to_string();
        let place = if number > 3 {
            "p.bin: workflow 0 instruction 0: "
        } else {
            "p.bin: "
        };
        assert!(
            fault.starts_with(&format!("{place}refused {number}: ")),
            "{fault}"
        );
    }
}

fn schedule_byte_cases() -> Vec<(Vec<u8>, &'static str)> {
    let event = |byte: u8, index: u8| vec![1, 5, 0, 0, 1, 0, byte, index];
    let head = |bytes: [u8; 6]| bytes.to_vec();
    vec![
        (vec![1; 5], "refused 22: Found 5 bytes, expected at least 6"),
        (
            head([1, 5, 0, 65, 0, 0]),
            "refused 22: Found 65 requests, expected at most 64",
        ),
        (
            head([1, 5, 0, 0, 1, 4]),
            "refused 22: Found 1025 events, expected at most 1,024",
        ),
        (
            head([1, 5, 0, 0, 1, 0]),
            "refused 22: Found 6 bytes, expected 8 bytes",
        ),
        (
            event(0x50, 0),
            "refused 23: Found kind 5 at event 0, expected at most 4",
        ),
        (
            event(0x00, 0),
            "refused 23: Found index 0 at event 0, an arrival, expected an index below 0",
        ),
        (
            event(0x10, 1),
            "refused 23: Found index 1 at event 0, a turn, expected index 0",
        ),
        (
            head([0, 5, 0, 0, 0, 0]),
            "refused 9: Found P 0, expected P 1 to 8",
        ),
        (
            head([1, 4, 0, 0, 0, 0]),
            "refused 9: Found C 4, expected C 5 to 256",
        ),
    ]
}

#[test]
fn each_no_to_schedule_bytes_is_said() {
    for (bytes, message) in schedule_byte_cases() {
        let no = schedule::accepted(&bytes).expect_err("a refused schedule");
        let said = no
            .to_string()
            .replace(&format!("{} ", wf::questions::question(no.number)), "");
        assert_eq!(said, message);
    }
}

#[test]
fn each_no_to_a_schedule_text_is_said_with_its_line() {
    let requests: String = (0..65)
        .map(|number| format!("request q{number} id 7 workflow 0 arguments 1 2 3 4\n"))
        .collect();
    let cases = [
        (
            "partitions 9\nrows 5\n".to_string(),
            "f.plan:1:12: refused 9: ",
            "Found P 9, expected P 1 to 8",
        ),
        (
            "partitions 1\nrows 257\n".to_string(),
            "f.plan:2:6: refused 9: ",
            "Found C 257, expected C 5 to 256",
        ),
        (
            format!("{SIZES}{requests}"),
            "f.plan:67:1: refused 22: ",
            "Found request number 65, expected at most 64",
        ),
        (
            format!("{SIZES}turn slot 0 x 1024\nrestart\n"),
            "f.plan:4:1: refused 22: ",
            "Found event number 1,025, expected at most 1,024",
        ),
    ];
    for (text, start, end) in cases {
        let said = said(&plan_faults(&text));
        assert!(
            said.len() == 1 && said[0].starts_with(start) && said[0].ends_with(end),
            "{said:?}"
        );
    }
}
