//! Generated single calls and lists of calls on any bytes, done by the library through its C interface and by the reference.

use crate::sides::{answer, bytes, is_list, library_figures, list_bytes, Lent, NO_FIGURES};
use reference::cases::{self, CallCase, Case, ListCase, Order, Performed};
use reference::generate;
use reference::refusal::QUESTIONS;

/// How many cases a file has: as many as the gate's own file.
const CASES: usize = 1000;

/// The bytes of an opened workflow's two parts; empty on a refusal.
type Parts = (Vec<u8>, Vec<u8>);

/// What a call gives beside its answer: the parts of an opening, the figures of a workflow.
type Beside = (Parts, sarthule::Figures);

fn ours(case: &CallCase, lent: &mut Lent) -> (sarthule::Answer, Beside) {
    let none = (Parts::default(), NO_FIGURES);
    match case.order {
        Order::Check => (sarthule::check(&lent.pack), none),
        Order::Open { workflow } => {
            let (answer, parts) = sarthule::open(&lent.pack, workflow);
            let part = |(from, length): (usize, usize)| lent.pack[from..from + length].to_vec();
            (answer, ((part(parts.operations), part(parts.operands)), NO_FIGURES))
        }
        Order::Figures { workflow } => {
            let (answer, figures) = sarthule::figures(&lent.pack, workflow);
            (answer, (Parts::default(), figures))
        }
        Order::Create { partitions, rows } => {
            (sarthule::create(&mut lent.store, partitions as usize, rows as usize), none)
        }
        Order::Reply { id } => (sarthule::reply(&lent.pack, &lent.store, id), none),
        Order::Call(call) => (lent.perform(&call), none),
    }
}

/// What differs between the two, if anything does: the store byte for byte, since rows stand by rising key. Where a call is refused,
/// nothing lent may have changed.
fn difference(case: &CallCase) -> Option<&'static str> {
    let given = list_bytes(&case.list.clone().unwrap_or_default());
    let (pack, store) = (case.pack.clone(), case.store.clone());
    let mut lent = Lent { pack, store, slots: bytes(&case.slots), list: given };
    let (found, (parts, figures)) = ours(case, &mut lent);
    let Performed { outcome, opened, figures: counted, store, slots, list } = case.perform();
    let list = list.unwrap_or_default();
    let behind = 4 + 8 * list.entries.len().min(sarthule::LISTED);
    let expected = opened.map_or(Parts::default(), |part| (part.operations.to_vec(), part.operands.to_vec()));
    let refused = matches!(found, sarthule::Answer::Refused { .. });
    let tests = [
        ("the answer", found == answer(outcome)),
        ("the parts", parts == expected),
        ("the figures", figures == library_figures(counted)),
        ("the store", lent.store == store),
        ("the slots", lent.slots == bytes(&slots)),
        ("the list", is_list(&lent.list, &list)),
        ("what stands behind the list", lent.list[behind..] == given[behind..]),
        ("what a refusal leaves", !refused || (lent.store == case.store && lent.slots == bytes(&case.slots))),
        ("the list that a refusal leaves", !refused || lent.list == given),
        ("the pack", lent.pack == case.pack),
    ];
    tests.iter().find(|(_, same)| !same).map(|(what, _)| *what)
}

/// The same of a list of calls: the answer of each, and what the last one left.
fn list_difference(list: &ListCase) -> Option<&'static str> {
    let (pack, store) = (list.pack.clone(), list.store.clone());
    let mut lent = Lent { pack, store, slots: bytes(&list.slots), list: list_bytes(&list.list) };
    let found: Vec<_> = list.calls.iter().map(|call| lent.perform(call)).collect();
    let expected = list.perform();
    let tests = [
        ("an answer", found == expected.outcomes.into_iter().map(answer).collect::<Vec<_>>()),
        ("the store", lent.store == expected.store),
        ("the slots", lent.slots == bytes(&expected.slots)),
        ("the list", is_list(&lent.list, &expected.list)),
        ("the pack", lent.pack == list.pack),
    ];
    tests.iter().find(|(_, same)| !same).map(|(what, _)| *what)
}

/// The header that a C program includes.
const HEADER: &str = include_str!("../../include/sarthule.h");

/// A text without blanks and quotes, which stand where a long text is broken in C.
fn bare(text: &str) -> String {
    text.chars().filter(|letter| !letter.is_whitespace() && *letter != '"').collect()
}

/// A question whose words differ between the reference, the Rust crate and the header, if there is one. No call here puts 22 or 23.
fn other_words() -> Option<u32> {
    let header = bare(HEADER);
    let same = |number: u32, words: &str| {
        sarthule::question(number) == words && header.contains(&format!("case{number}:return{};", bare(words)))
    };
    let mut numbers = (1..).zip(QUESTIONS).filter(|(number, _)| ![22, 23].contains(number));
    numbers.find(|(number, words)| !same(*number, words)).map(|(number, _)| number)
}

/// Compares the calls of so many generated files, single ones and lists, and says how many they were or which is the first that differs.
pub fn compare(files: u64) -> Result<usize, String> {
    if let Some(number) = other_words() {
        return Err(format!("question {number} has other words"));
    }
    let mut compared = 0;
    for seed in 1..=files {
        let cases = cases::read_all(&generate::file(seed, CASES));
        for (number, case) in cases.iter().enumerate() {
            let (what, calls) = match case {
                Some(Case::Call(case)) => (difference(case), 1),
                Some(Case::List(list)) => (list_difference(list), list.calls.len()),
                _ => continue,
            };
            if let Some(what) = what {
                return Err(format!("seed {seed}, case {number}: {what} differs ({case:?})"));
            }
            compared += calls;
        }
    }
    Ok(compared)
}
