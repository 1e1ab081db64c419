//! Any bytes are answered: nothing panics, and a refusal changes nothing.

mod common;

use common::*;
use reference::cases::{print_all, read_all, write_all, Case, Order};
use reference::coverage::Coverage;
use reference::figures::figures;
use reference::generate;
use reference::pack::check;
use reference::random::Random;
use reference::schedule::program;
use reference::{Call, Store};

#[test]
fn random_bytes_never_panic() {
    let mut random = Random::new(21);
    for _ in 0..20_000 {
        let (first, second) = (random.below(80), random.below(120));
        let (pack, schedule) = (random.bytes(first), random.bytes(second));
        program(&pack, &schedule);
        print_all(&schedule);
        assert_eq!(figures(&pack, 0).err(), check(&pack).err());
    }
}

/// A byte or a length changed in a right file.
fn spoil(random: &mut Random, bytes: &mut Vec<u8>) {
    if bytes.is_empty() {
        return;
    }
    let place = random.below(bytes.len());
    match random.below(4) {
        0 => bytes.truncate(place),
        1 => bytes.insert(place, random.byte()),
        _ => bytes[place] ^= 1 << random.below(8),
    }
}

#[test]
fn spoiled_packs_and_schedules_never_panic() {
    let mut random = Random::new(22);
    for _ in 0..3_000 {
        let (mut pack, mut schedule) = (move_pack(), whole_schedule().encode());
        match random.one_in(2) {
            true => spoil(&mut random, &mut pack),
            false => spoil(&mut random, &mut schedule),
        }
        assert!(program(&pack, &schedule).ends_with('\n'));
    }
}

#[test]
fn spoiled_files_of_cases_never_panic() {
    let mut random = Random::new(23);
    for seed in 0..400 {
        let mut file = generate::file(seed, 6);
        spoil(&mut random, &mut file);
        print_all(&file);
        Coverage::of_file(&file);
    }
}

#[test]
fn calls_on_spoiled_states_change_nothing_when_refused() {
    let mut random = Random::new(24);
    for case in generate::cases(25, 6_000) {
        let Case::Call(mut call) = case else { continue };
        if random.one_in(2) {
            spoil(&mut random, &mut call.store);
        }
        let result = call.perform();
        if result.outcome.is_err() {
            assert_eq!(result.store, call.store);
            assert_eq!(result.slots, call.slots);
            assert_eq!(result.list, call.list);
            assert!(result.opened.is_none() && result.figures.is_none());
        }
    }
}

#[test]
fn an_accepted_call_leaves_a_state_that_passes_again() {
    for case in generate::cases(26, 6_000) {
        let Case::Call(mut call) = case else { continue };
        let asks_little = [Call::Restart, Call::PutInOrder];
        let asked = matches!(call.order, Order::Call(order) if !asks_little.contains(&order));
        let result = call.perform();
        if call.order == Order::Call(Call::PutInOrder) && result.outcome.is_ok() {
            assert!(Store::read(result.store.as_slice()).is_ok());
            assert_eq!(result.slots, call.slots);
        }
        if asked && result.outcome.is_ok() {
            (call.store, call.slots) = (result.store.clone(), result.slots);
            // A slot that is not there: everything up to 14 is a yes.
            call.order = Order::Call(Call::Turn { slot: 9 });
            assert_eq!(question(call.perform().outcome), 15);
        }
    }
}

#[test]
fn a_file_prints_one_heading_for_each_case() {
    let cases = generate::cases(27, 150);
    let text = print_all(&write_all(&cases));
    let headings = text
        .lines()
        .filter(|line| line.starts_with("case "))
        .count();
    assert_eq!(headings, cases.len());
    assert_eq!(read_all(&write_all(&cases)).len(), cases.len());
}
