//! Figures (W-202) held to runs: those rows suffice, and values can be chosen that take them.

mod common;

use common::routes::{all_routes, Route, Rows};
use common::*;
use reference::figures::figures;
use reference::generate::branching;
use reference::pack::encode;
use reference::random::Random;
use reference::store::{Key, Request, Store};
use reference::{Answer, Call, Figures, Operation, Outcome, Pack, Refusal};

const OURS: u32 = 7;

/// P and C of most stores here: no figure of these workflows is greater.
const P: usize = 4;
const C: u32 = 40;

fn of(workflow: &[(u8, u32)]) -> Figures {
    figures(&encode(&[workflow.to_vec()]), 0).expect("a right pack")
}

/// Fills each partition with log rows of an id that nobody booked, until so many rows are
/// free; `false` where there are fewer already.
fn leave_free(state: &mut State, free: [u32; 8]) -> bool {
    let mut store = Store::read(state.store.as_mut_slice()).expect("a right store");
    let enough = (0..store.shape().partitions).all(|p| store.free(p) >= free[p] as usize);
    for partition in 0..store.shape().partitions {
        let more = store
            .free(partition)
            .saturating_sub(free[partition] as usize);
        for step in 0..more {
            let step = step as u16;
            assert!(store.put(partition, Key::Log { id: 999, step }.stored(), 1));
        }
    }
    enough
}

/// Our request booked and started on a store that has so many rows free in each partition.
fn with_free(workflow: &[(u8, u32)], free: [u32; 8]) -> State {
    let mut state = State::new(encode(&[workflow.to_vec()]), P as u32, C);
    assert!(leave_free(&mut state, free));
    assert_eq!(state.arrival(0, request(OURS)), Ok(Answer::Done));
    state
}

/// Turns up to the reply, or the first refusal; and how many turns it took.
fn run(state: &mut State) -> (Outcome, u32) {
    for turns in 1..=256 {
        match state.turn(0) {
            Ok(Answer::Moved) => {}
            end => return (end, turns),
        }
    }
    panic!("no reply");
}

fn free_rows(state: &State) -> [u32; P] {
    let store = Store::read(state.store.as_slice()).expect("a right store");
    std::array::from_fn(|partition| store.free(partition) as u32)
}

/// With exactly the figure free the run replies and none is left in the partition; with one
/// row fewer it meets 21.
fn reaches(workflow: &[(u8, u32)], partition: usize) {
    let free = of(workflow).rows;
    let mut state = with_free(workflow, free);
    let (end, _) = run(&mut state);
    assert!(matches!(end, Ok(Answer::Reply { id: OURS, .. })));
    assert_eq!(free_rows(&state)[partition], 0, "{workflow:x?}");
    let mut fewer = free;
    fewer[partition] -= 1;
    let (end, _) = run(&mut with_free(workflow, fewer));
    assert_eq!(end, Err(Refusal::of(21)), "{workflow:x?}");
}

#[test]
fn move_and_a_block_of_two_keys_take_the_figure() {
    reaches(&move_workflow(), 0);
    reaches(&move_workflow(), 1);
    let two_keys = [BEGIN, (0x90, 2), (0x91, 2), END, RETURN];
    assert_eq!(of(&two_keys).rows[0], 3);
    reaches(&two_keys, 0);
}

/// One block with so many PUTs of different keys, on a store with C = 5: how its run ends.
fn with_c_5(puts: usize) -> Outcome {
    let keys = (0..puts as u32).flat_map(|key| [(0x01, key), (0x91, 0)]);
    let mut workflow = vec![BEGIN];
    workflow.extend(keys);
    workflow.extend([END, RETURN]);
    assert_eq!(of(&workflow).rows[0] as usize, 1 + puts);
    let mut state = State::new(encode(&[workflow]), 1, 5);
    assert!(state.arrival(0, request(OURS)).is_ok());
    run(&mut state).0
}

#[test]
fn c_itself_is_the_figure_or_one_less() {
    assert!(matches!(with_c_5(4), Ok(Answer::Reply { id: OURS, .. })));
    assert_eq!(with_c_5(5), Err(Refusal::of(21)));
}

/// Two PUTs of one key count two rows and take one: the figure is enough, and one row fewer is
/// enough too.
#[test]
fn a_figure_may_be_more_than_a_run_takes() {
    let one_key = [BEGIN, (0x90, 1), (0x90, 1), END, RETURN];
    assert_eq!(of(&one_key).rows[0], 3);
    for (rows, expected) in [(3, true), (2, true), (1, false)] {
        let (end, _) = run(&mut with_free(&one_key, [rows, 0, 0, 0, 0, 0, 0, 0]));
        assert_eq!(end.is_ok(), expected, "{rows} rows");
    }
}

/// Instructions that belong together, so that a jump lands on the first of them: no PUT goes
/// without its key, which no other PUT has.
fn any_unit(random: &mut Random, keys: &mut u32, inside: bool) -> Rows {
    match random.below(4) {
        0 => vec![(0x02, 5)],
        1 => vec![(0x40, 0)],
        _ if inside => {
            *keys += 1;
            vec![(0x01, *keys), (0x91, 0)]
        }
        2 => vec![(0x50, 0)],
        _ => vec![(0xB2, 0)],
    }
}

/// Appends a block of units; its jumps may land on units of the block or on END.
fn push_block(random: &mut Random, keys: &mut u32, rows: &mut Rows) {
    rows.push((0x60, random.below(3) as u32));
    let mut starts = Vec::new();
    for _ in 0..random.below(5) {
        starts.push(rows.len());
        rows.extend(any_unit(random, keys, true));
    }
    starts.push(rows.len());
    rows.push((0x72, 0));
    aim(random, rows, &starts);
}

/// A workflow of units and blocks of units.
fn of_units(random: &mut Random) -> Rows {
    let (mut rows, mut keys) = (Rows::new(), 0);
    let mut starts = Vec::new();
    for _ in 0..random.between(1, 7) {
        starts.push(rows.len());
        match random.one_in(2) {
            true => rows.extend(any_unit(random, &mut keys, false)),
            false => push_block(random, &mut keys, &mut rows),
        }
    }
    starts.push(rows.len());
    rows.push((0xB2, 0));
    aim(random, &mut rows, &starts);
    rows
}

/// Gives each jump among these units a later one of them as its target.
fn aim(random: &mut Random, rows: &mut Rows, starts: &[usize]) {
    for (place, start) in starts.iter().enumerate() {
        if matches!(rows[*start].0 >> 4, 4 | 5) {
            rows[*start].1 = 16 * random.pick(&starts[place + 1..]) as u32;
        }
    }
}

/// The same workflow, but values let each jump go only as this route does: r0 = r0 always
/// goes, r0 < r0 never.
fn along(workflow: &[(u8, u32)], route: &Route) -> Rows {
    let mut rows = workflow.to_vec();
    for (jump, goes) in &route.jumps {
        rows[*jump].0 = if *goes { 0x50 } else { 0x40 };
    }
    rows
}

#[test]
fn a_route_that_reaches_a_figure_is_run_when_values_let_it() {
    let mut random = Random::new(33);
    let (mut run_through, mut jumped) = (0, 0);
    for round in 0..4_500 {
        let workflow = of_units(&mut random);
        let (figures, partition) = (of(&workflow), round % 3);
        let is_most = |route: &&Route| route.rows(partition) == figures.rows[partition];
        let routes = all_routes(&workflow);
        let route = routes.iter().find(is_most).expect("a route reaches it");
        let workflow = along(&workflow, route);
        // No figure depends on what values let a jump do.
        assert_eq!(of(&workflow), figures);
        if figures.rows[partition] > 0 {
            reaches(&workflow, partition);
            run_through += 1;
            // Had no jump gone, the route would have ended or taken fewer rows.
            let falls = |route: &&Route| route.jumps.iter().all(|(_, goes)| !goes);
            let fallen = routes.iter().find(falls).expect("one goes straight on");
            jumped += usize::from(fallen.rows(partition) < figures.rows[partition]);
        }
    }
    assert!(run_through > 1_000 && jumped > 30, "{run_through} {jumped}");
}

#[test]
fn a_route_that_reaches_the_turns_is_run_when_values_let_it() {
    let mut random = Random::new(36);
    for _ in 0..1_500 {
        let workflow = of_units(&mut random);
        let figures = of(&workflow);
        let routes = all_routes(&workflow);
        let longest = routes.iter().find(|route| route.turns() == figures.turns);
        let workflow = along(&workflow, longest.expect("a route reaches it"));
        let (end, turns) = run(&mut with_free(&workflow, figures.rows));
        assert!(end.is_ok());
        assert_eq!(turns, figures.turns);
    }
}

/// A request with arguments of its own, so that others have other keys.
fn asked(id: u32) -> Request {
    Request {
        id,
        workflow: 0,
        arguments: [100 * id, 100 * id + 1, id, 0],
    }
}

/// Ids that others come with: 8 and 9 have run before, 10 to 12 are new.
fn other_id(random: &mut Random) -> u32 {
    random.between(8, 12) as u32
}

/// Other requests have run; then so many rows are free, and ours is booked and started. `None`
/// where the others took too many.
fn after_others(workflow: &[(u8, u32)], free: [u32; 8]) -> Option<State> {
    let mut state = State::new(encode(&[workflow.to_vec()]), P as u32, 2 * C);
    for id in [8, 9] {
        assert_eq!(state.arrival(0, asked(id)), Ok(Answer::Done));
        run(&mut state).0.ok()?;
    }
    leave_free(&mut state, free).then_some(())?;
    assert_eq!(state.arrival(0, asked(OURS)), Ok(Answer::Done));
    Some(state)
}

/// A call that may come: starts, crashes and turns of ours and of others.
fn any_call(random: &mut Random) -> Call {
    let slot = random.below(5) as u32;
    let id = match random.one_in(3) {
        true => other_id(random),
        false => OURS,
    };
    match random.below(24) {
        0 => Call::Crash { slot },
        1 => Call::Restart,
        2 => Call::PutInOrder,
        3..=5 => Call::Arrival {
            slot,
            request: asked(id),
        },
        6..=8 => Call::Retry { slot, id },
        _ => Call::Turn { slot },
    }
}

/// Whether a turn would run a block of another request: one that is not logged.
fn runs_another_block(state: &State, call: &Call) -> bool {
    let Call::Turn { slot } = call else {
        return false;
    };
    let agent = state.slots[*slot as usize];
    if agent.id == OURS || agent.is_empty() {
        return false;
    }
    let pack = Pack::read(&state.pack).expect("a right pack");
    let instruction = pack.workflows()[0].instruction(agent.position as usize);
    let begin = instruction.expect("a right pack");
    let store = Store::read(state.store.as_slice()).expect("a right store");
    let (id, step) = (agent.id, agent.step as u16);
    let log = Key::Log { id, step }.stored();
    begin.operation == Operation::Begin && store.find(begin.w as usize, log).is_none()
}

/// What was seen in runs with the figure's rows free.
#[derive(Debug, Default)]
struct Seen {
    turns: usize,
    turns_of_others: usize,
    replies: usize,
    all_taken: usize,
}

impl Seen {
    /// Any calls, but for turns that run another's block: none is refused with 21.
    fn watch(&mut self, random: &mut Random, state: &mut State) {
        for _ in 0..random.between(40, 160) {
            let call = any_call(random);
            if runs_another_block(state, &call) {
                continue;
            }
            let before = state.slots;
            let outcome = state.call(call);
            assert_ne!(outcome, Err(Refusal::of(21)), "{:x?}", state.pack);
            let Call::Turn { slot } = call else { continue };
            let is_ours = before[slot as usize].id == OURS;
            let moved = usize::from(outcome.is_ok());
            match is_ours {
                true => self.turns += moved,
                false => self.turns_of_others += moved,
            }
            self.replies += usize::from(matches!(outcome, Ok(Answer::Reply { id: OURS, .. })));
        }
    }
}

/// Whatever the pack and the values are, with at least the figure's rows free in each partition
/// when it is booked and no block of another request run, no turn of ours meets 21.
#[test]
fn with_the_figure_free_no_turn_meets_21() {
    let mut random = Random::new(34);
    let mut seen = Seen::default();
    for _ in 0..3_000 {
        let size = random.between(3, 40);
        let workflow = branching(&mut random, size, P);
        let figures = of(&workflow);
        let Some(mut state) = after_others(&workflow, figures.rows) else {
            continue;
        };
        seen.watch(&mut random, &mut state);
        let mut left = free_rows(&state).into_iter().zip(figures.rows);
        seen.all_taken += usize::from(left.any(|(free, rows)| free == 0 && rows > 1));
    }
    assert!(
        seen.turns > 40_000 && seen.turns_of_others > 10_000,
        "{seen:?}"
    );
    assert!(seen.replies > 3_000 && seen.all_taken > 200, "{seen:?}");
}

/// Started with any arguments, an agent that is not cut off replies within the figure.
#[test]
fn an_agent_replies_within_the_turns() {
    let mut random = Random::new(35);
    for _ in 0..2_000 {
        let size = random.between(1, C as usize);
        let workflow = branching(&mut random, size, 8);
        let figures = of(&workflow);
        assert!(figures.turns as usize <= size);
        let mut state = State::new(encode(&[workflow]), 8, C);
        let arguments = std::array::from_fn(|_| random.word());
        let request = Request {
            id: OURS,
            workflow: 0,
            arguments,
        };
        assert_eq!(state.arrival(0, request), Ok(Answer::Done));
        let (end, turns) = run(&mut state);
        assert!(end.is_ok() && turns <= figures.turns);
    }
}
