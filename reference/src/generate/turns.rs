//! Turns of an agent at one instruction, at a block that reads or whose rows belong among
//! others, or at a BEGIN with the room in its partition counted out.

use crate::agents::{Agent, ALL_EMPTY, SLOTS};
use crate::calls::Call;
use crate::cases::{CallCase, Case, Order};
use crate::operations::run_block;
use crate::pack;
use crate::random::Random;
use crate::store::{fresh, Key, Request, Store};

/// A turn at each operation that may stand outside, save BEGIN. Where two registers are
/// compared they are often equal, or on both sides of half the range.
pub fn one_instruction(random: &mut Random, lane: usize) -> Case {
    let code: u8 = [4, 0, 5, 1, 4, 2, 5, 3, 11][lane % 9];
    let (d, s) = (random.below(8), random.below(8));
    let word = match code {
        0 => random.word(),
        4 | 5 => (16 * random.between(1, 3) + s) as u32,
        11 => 0,
        _ => s as u32,
    };
    let byte = code << 4 | d as u8;
    let rows = vec![(byte, word), (0x00, 1), (0x10, 2), (0xB0, 0)];
    let mut registers: [u32; 8] = std::array::from_fn(|_| random.word());
    match random.below(4) {
        0 => registers[d] = registers[s],
        1 => registers[d] = registers[s] ^ 1 << 31,
        _ => {}
    }
    let request = any_request(random);
    let mut agent = Agent::started(request.id, request.arguments);
    agent.registers = registers;
    let mut store = Store::lay_out(fresh(1, 5).expect("in range")).expect("fresh");
    store.book(&request);
    turn_case(random, pack::encode(&[rows]), store.bytes().to_vec(), agent)
}

fn any_request(random: &mut Random) -> Request {
    Request {
        id: random.word(),
        workflow: 0,
        arguments: std::array::from_fn(|_| random.word()),
    }
}

/// An agent of it at its first instruction, with anything in its registers.
fn any_agent(random: &mut Random, request: &Request) -> Agent {
    let mut agent = Agent::started(request.id, request.arguments);
    agent.registers = std::array::from_fn(|_| random.word());
    agent
}

/// The turn of one agent in any slot.
fn turn_case(random: &mut Random, pack: Vec<u8>, store: Vec<u8>, agent: Agent) -> Case {
    let slot = random.below(SLOTS);
    let mut slots = ALL_EMPTY;
    slots[slot] = agent;
    Case::Call(Box::new(CallCase {
        pack,
        store,
        slots,
        list: None,
        order: Order::Call(Call::Turn { slot: slot as u32 }),
    }))
}

/// A turn at a block that reads one key into a register that mostly holds something: a key
/// that is absent, one that is here (with 0 at times), one that the block has PUT.
pub fn reading(random: &mut Random, lane: usize) -> Case {
    let request = any_request(random);
    let agent = any_agent(random, &request);
    let rows = random.between(5, 12) as u32;
    let mut store = Store::lay_out(fresh(2, rows).expect("in range")).expect("fresh");
    store.book(&request);
    let mut registers: [usize; 8] = std::array::from_fn(|number| number);
    random.shuffle(&mut registers);
    let [s, d, other, ..] = registers;
    let partition = random.below(2);
    let key = agent.registers[s];
    let data_key = Key::Data(key).stored();
    match lane % 6 {
        1 => seem_present(random, &mut store, partition, key, request.id),
        2 => _ = store.put(partition, data_key, 0),
        3 => _ = store.put(partition, data_key, random.word()),
        _ => {}
    }
    let ahead = match lane % 6 {
        4 => Some((0x90 | s as u8, other as u32)),
        5 => Some((0x90 | other as u8, s as u32)),
        _ => None,
    };
    let pack = reads_first(random, partition, ahead, d, s);
    turn_case(random, pack, store.bytes().to_vec(), agent)
}

/// A workflow whose block does `ahead` and then reads key s into d, or at times into s itself.
/// Mostly d is SET first, so that the block's copy of it is not the record's.
fn reads_first(
    random: &mut Random,
    partition: usize,
    ahead: Option<(u8, u32)>,
    d: usize,
    s: usize,
) -> Vec<u8> {
    let set = (!random.one_in(3)).then(|| (d as u8, random.word()));
    let read = match random.one_in(8) {
        true => s as u8,
        false => d as u8,
    };
    let operation: u8 = random.pick(&[0x80, 0x80, 0x80, 0x80, 0x80, 0xA0]);
    let mut code = vec![(0x60, partition as u32)];
    code.extend(set);
    code.extend(ahead);
    code.push((operation | read, s as u32));
    code.extend([(0x70 | read, 0), (0xB0, 0)]);
    pack::encode(&[code])
}

/// Rows that are not the data row of this key here: its data row in the other partition, and
/// a log row here whose stored key is the same number (never step 0 of the request itself).
fn seem_present(
    random: &mut Random,
    store: &mut Store<Vec<u8>>,
    partition: usize,
    key: u32,
    id: u32,
) {
    store.put(1 - partition, Key::Data(key).stored(), random.word());
    let (of, step) = (key / 65_536, (key % 65_536) as u16);
    if (of, step) != (id, 0) {
        store.put(partition, Key::Log { id: of, step }.stored(), random.word());
    }
}

/// A turn at a block whose rows belong below, between and above those of its partition; some
/// of its keys are there already.
pub fn merging(random: &mut Random) -> Case {
    let id = random.between(2, 9) as u32;
    let request = Request {
        id,
        ..any_request(random)
    };
    let least = random.pick(&[0, 1_000, u32::MAX - 39]);
    let mut agent = any_agent(random, &request);
    agent.registers = std::array::from_fn(|_| least + random.below(40) as u32);
    let rows = random.between(9, 18) as u32;
    let mut store = Store::lay_out(fresh(2, rows).expect("in range")).expect("fresh");
    store.book(&request);
    let partition = random.below(2);
    for _ in 0..random.between(1, 6) {
        let near = [least + random.below(40) as u32, agent.registers[0]];
        let key = Key::Data(random.pick(&near)).stored();
        store.put(partition, key, random.word());
    }
    for _ in 0..random.below(5) {
        let (of, step) = (random.between(1, 10) as u32, random.below(3) as u16);
        if (of, step) != (id, 0) {
            let key = Key::Log { id: of, step }.stored();
            store.put(partition, key, random.word());
        }
    }
    let mut registers: [u8; 8] = std::array::from_fn(|number| number as u8);
    random.shuffle(&mut registers);
    let puts = &registers[..random.between(1, 6)];
    let mut code = vec![(0x60, partition as u32)];
    code.extend(puts.iter().map(|d| (0x90 | d, random.below(8) as u32)));
    code.extend([(0x70 | registers[0], 0), (0xB0, 0)]);
    let pack = pack::encode(&[code]);
    turn_case(random, pack, store.bytes().to_vec(), agent)
}

/// How much room a block that is about to run finds.
#[derive(Clone, Copy, Debug, PartialEq, Eq)]
pub enum Room {
    Exact,
    OneShort,
    /// None, but its log row is there.
    Logged,
}

/// A turn of an agent that stands at a BEGIN.
pub fn at_block(random: &mut Random, room: Room) -> Case {
    let request = any_request(random);
    let partitions = random.between(1, 2) as u32;
    let pack = block_first(random, partitions);
    let rows = random.between(5, 12) as u32;
    let mut store = Store::lay_out(fresh(partitions, rows).expect("in range")).expect("fresh");
    store.book(&request);
    let agent = any_agent(random, &request);
    fill_to(random, &mut store, &pack, &agent, room);
    turn_case(random, pack, store.bytes().to_vec(), agent)
}

/// A pack whose workflow 0 starts with a block that PUTs, at times behind a jump, and
/// reads what it PUT.
fn block_first(random: &mut Random, partitions: u32) -> Vec<u8> {
    let length = random.between(1, 8);
    let end = length + 1;
    let (key, read) = (random.below(8) as u8, random.below(8) as u8);
    let mut rows = vec![(0x60, random.below(partitions as usize) as u32)];
    for index in 1..=length {
        let any = (random.below(8) as u8, random.below(8));
        rows.push(match random.below(9) {
            0 | 1 => (0x90 | key, any.1 as u32),
            2 => (0x90 | any.0, any.1 as u32),
            3 => (0x80 | read, u32::from(key)),
            4 => (0xA0 | read, u32::from(key)),
            5 => (random.pick(&[0x80, 0xA0]) | any.0, any.1 as u32),
            6 => (random.pick(&[0x10, 0x20, 0x30]) | any.0, any.1 as u32),
            _ => {
                let target = random.between(index + 1, end);
                (
                    random.pick(&[0x40, 0x50]) | any.0,
                    (16 * target + any.1) as u32,
                )
            }
        });
    }
    rows.push((0x70 | read, 0));
    rows.push((0xB0 | random.below(8) as u8, 0));
    pack::encode(&[rows])
}

/// Fills the block's partition until as many rows are free as `room` says.
fn fill_to(
    random: &mut Random,
    store: &mut Store<Vec<u8>>,
    pack: &[u8],
    agent: &Agent,
    room: Room,
) {
    let workflow = pack::open(pack, 0).expect("a right pack");
    let partition = workflow.instruction(0).expect("BEGIN").w as usize;
    // Keys that the block may PUT and keys next to them, so that new rows belong between.
    for _ in 0..random.below(4) {
        let near = random.pick(&[0, 0, 1, u32::MAX]);
        let key = random.pick(&agent.registers).wrapping_add(near);
        store.put(partition, Key::Data(key).stored(), random.word());
    }
    let find = |key: u32| store.find(partition, Key::Data(key).stored());
    let run = run_block(&workflow, 0, agent.registers, find);
    let need = 1 + run.puts.keys().filter(|key| find(**key).is_none()).count();
    let leave = match room {
        Room::Exact => need,
        Room::OneShort => need - 1,
        Room::Logged => 0,
    };
    let log_key = |step| Key::Log { id: agent.id, step }.stored();
    if room == Room::Logged {
        store.put(partition, log_key(0), random.word());
    }
    // Other steps of the same id and steps of the ids next to it, to be told apart from the
    // one that is sought, which belongs between them.
    let mut step = 1;
    while store.free(partition) > leave {
        let near = random.pick(&[0, 0, 1, u32::MAX]);
        let id = agent.id.wrapping_add(near);
        store.put(partition, Key::Log { id, step }.stored(), random.word());
        step += 1;
    }
    if room != Room::Logged && partition == 0 && store.shape().partitions > 1 {
        // The right key in another partition is not the block's log row.
        store.put(1, log_key(0), random.word());
    }
}
