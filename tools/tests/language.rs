//! The language page has the tools' own table of operations, and its words on GET are what a run does.

use reference::agents::ALL_EMPTY;
use reference::store::{fresh, Request};
use reference::{Answer, Call};
use std::fs;
use std::path::Path;
use wf::assemble;
use wf::instruction::{Form, Side, OPERATIONS};

fn shown(form: Form) -> &'static str {
    match form {
        Form::RegisterNumber => "d w",
        Form::RegisterRegister => "d s",
        Form::RegisterRegisterLabel => "d s target",
        Form::Number => "w",
        Form::Register => "d",
    }
}

fn stands(side: Side) -> &'static str {
    match side {
        Side::Inside => "inside",
        Side::Outside => "outside",
        Side::Anywhere => "anywhere",
    }
}

#[test]
fn the_language_page_has_the_table_of_operations() {
    let page = Path::new(env!("CARGO_MANIFEST_DIR")).join("README.md");
    let page = fs::read_to_string(page).expect("the page");
    for (code, row) in OPERATIONS.iter().enumerate() {
        let (form, side) = (shown(row.form), stands(row.side));
        let line = format!(
            "\n| {code:X} | `{} {form}` | {side} | {} |\n",
            row.name, row.does
        );
        assert!(page.contains(&line), "{line}");
    }
}

/// The reply of a workflow that does this in a block, with 9 in r5 before it, on arguments 100, 200, 30, 0.
fn reply(block: &str) -> u32 {
    let text = format!("workflow A\nSET r5 9\nBEGIN 0\n{block}\nEND r5\nRETURN r0\n");
    let pack = assemble::assemble("f.wf", &text)
        .expect("a right text")
        .bytes();
    let mut store = fresh(1, 12).expect("numbers in range");
    let mut slots = ALL_EMPTY;
    let request = Request {
        id: 7,
        workflow: 0,
        arguments: [100, 200, 30, 0],
    };
    let mut call = Call::Arrival { slot: 0, request };
    loop {
        let outcome = call.perform(&pack, &mut store, &mut slots);
        if let Answer::Reply { value, .. } = outcome.expect("an accepted call") {
            return value;
        }
        call = Call::Turn { slot: 0 };
    }
}

#[test]
fn get_of_a_key_never_written_leaves_the_register() {
    assert_eq!(reply("GET r5 r0"), 9);
    assert_eq!(reply("SET r5 4\nGET r5 r0"), 4);
    assert_eq!(reply("SET r5 0\nGET r5 r0"), 0);
    assert_eq!(reply("PUT r0 r2\nGET r5 r0"), 30);
    assert_eq!(reply("PUT r0 r3\nGET r5 r0"), 0);
    assert_eq!(reply("HAS r5 r0"), 0);
}
