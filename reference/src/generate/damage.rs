//! A right state damaged in one place: each damage is aimed at a question from 9 to 14.

use super::order::{disorder, equal_neighbours};
use crate::agents::{Agent, SLOTS};
use crate::bytes::write_at;
use crate::cases::CallCase;
use crate::pack::Pack;
use crate::random::Random;
use crate::store::{book_key, Key, Shape, Store};

/// Damages the case so that the question of this number is likely to say no; `lane`
/// picks the sort of damage.
pub fn damage(random: &mut Random, question: u8, lane: usize, case: &mut CallCase) {
    match question {
        9 => wrong_numbers(random, &mut case.store, lane),
        10 => wrong_length(random, &mut case.store, lane),
        11 => wrong_rows(random, &mut case.store, lane),
        12 => wrong_book(random, &mut case.store, lane),
        13 => wrong_workflow(random, case, lane),
        _ => wrong_record(random, case, lane),
    }
}

fn wrong_numbers(random: &mut Random, store: &mut Vec<u8>, lane: usize) {
    match lane % 3 {
        0 => store.truncate(random.below(3)),
        1 if !store.is_empty() => store[0] = random.pick(&[0, 9, 10, 128, 255]),
        _ if store.len() >= 3 => {
            let rows: u16 = random.pick(&[0, 1, 4, 257, 258, 512, 65_535]);
            write_at(store, 1, &rows.to_le_bytes());
        }
        _ => {}
    }
}

fn wrong_length(random: &mut Random, store: &mut Vec<u8>, lane: usize) {
    if store.len() <= 3 {
        return;
    }
    match lane % 6 {
        0 => store.truncate(store.len() - 1),
        1 => store.push(0),
        2 => store.truncate(random.between(3, store.len() - 1)),
        3 => store[0] = store[0] % 8 + 1,
        4 => {
            let rows: u16 = random.pick(&[13, 25, 200, 256]);
            write_at(store, 1, &rows.to_le_bytes());
        }
        _ => store.extend([0; 12]),
    }
}

/// The store's shape; the damages that need it are done while the layout is right.
fn shape_of(store: &[u8]) -> Option<Shape> {
    Store::lay_out(store).ok().map(|store| store.shape())
}

/// A partition that holds a row, the book if no other does.
fn partition_in_use(random: &mut Random, bytes: &[u8]) -> Option<(Shape, usize, usize)> {
    let store = Store::lay_out(bytes).ok()?;
    let shape = store.shape();
    let in_use: Vec<usize> = (0..=shape.book()).filter(|p| store.used(*p) > 0).collect();
    let partition = *in_use.get(random.below(in_use.len()))?;
    Some((shape, partition, store.used(partition).min(shape.rows)))
}

/// Question 11.
fn wrong_rows(random: &mut Random, bytes: &mut [u8], lane: usize) {
    let Some((shape, partition, used)) = partition_in_use(random, bytes) else {
        return;
    };
    match lane % 10 {
        0 => used_above_rows(random, bytes, shape),
        1 => set_used(bytes, shape, partition, used - 1),
        2 if used >= 2 => equal_neighbours(random, bytes, partition),
        3 if used < shape.rows => {
            let unused = random.between(used, shape.rows - 1);
            dirty_unused(random, bytes, shape, partition, unused);
        }
        // Two unused rows become two used ones with key 0.
        4 if used + 2 <= shape.rows => set_used(bytes, shape, partition, used + 2),
        sort @ 5..=7 => formless_in_book(random, bytes, shape, sort),
        8 => formless_in_data(random, bytes, shape),
        _ => {
            let way = random.below(1_000);
            disorder(random, bytes, way);
        }
    }
}

/// A full partition whose used count is above C; nothing else is wrong with it.
fn used_above_rows(random: &mut Random, bytes: &mut [u8], shape: Shape) {
    let partition = random.below(shape.partitions);
    if let Ok(mut store) = Store::lay_out(&mut *bytes) {
        let log_key = |step| {
            Key::Log {
                id: 0xFFFF_0000,
                step,
            }
            .stored()
        };
        // Until there is no room.
        (0..).all(|step| store.put(partition, log_key(step), 1));
    }
    let above = random.pick(&[shape.rows + 1, shape.rows + 1, 300, 65_535]);
    set_used(bytes, shape, partition, above);
}

fn dirty_unused(random: &mut Random, bytes: &mut [u8], shape: Shape, partition: usize, row: usize) {
    match random.one_in(2) {
        true => set_key(bytes, shape, partition, row, Key::Data(1).stored()),
        false => write_at(bytes, shape.value_at(partition, row), &[0, 0, 0, 1]),
    }
}

/// The book's last row gets a key that is none of a book; the keys still rise.
fn formless_in_book(random: &mut Random, bytes: &mut [u8], shape: Shape, sort: usize) {
    let used = Store::lay_out(&*bytes).map_or(0, |store| store.used(shape.book()));
    let last = used.clamp(1, shape.rows) - 1;
    let key = key_at(bytes, shape, shape.book(), last);
    let wrong = match sort {
        5 => key / 8 * 8 + random.between(5, 7) as u64,
        6 => key | 1 << random.between(35, 62),
        _ => Key::Data(key as u32).stored(),
    };
    set_key(bytes, shape, shape.book(), last, wrong);
}

/// A data partition gets a row that is neither data nor log; the keys still rise.
fn formless_in_data(random: &mut Random, bytes: &mut [u8], shape: Shape) {
    let partition = random.below(shape.partitions);
    let (id, step) = (random.word(), random.below(4) as u16);
    let wrong = match random.one_in(2) {
        true => Key::Data(id).stored() | 1 << random.between(32, 62),
        false => Key::Log { id, step }.stored() | 1 << random.between(48, 62),
    };
    let put = Store::lay_out(&mut *bytes).map(|mut store| store.put(partition, wrong, 1));
    if put != Ok(true) {
        set_key(bytes, shape, partition, 0, wrong);
        sort_rows(bytes);
    }
}

/// By rising key, whatever else is wrong with them.
fn sort_rows(bytes: &mut [u8]) {
    if let Ok(mut store) = Store::lay_out(bytes) {
        store.put_in_order();
    }
}

fn key_at(bytes: &[u8], shape: Shape, partition: usize, row: usize) -> u64 {
    crate::bytes::u64_at(bytes, shape.key_at(partition, row))
}

fn set_key(bytes: &mut [u8], shape: Shape, partition: usize, row: usize, key: u64) {
    write_at(bytes, shape.key_at(partition, row), &key.to_le_bytes());
}

/// Writes key and value of a row.
pub fn set_row(
    bytes: &mut [u8],
    shape: Shape,
    partition: usize,
    row: usize,
    (key, value): (u64, u32),
) {
    set_key(bytes, shape, partition, row, key);
    write_at(bytes, shape.value_at(partition, row), &value.to_le_bytes());
}

fn set_used(bytes: &mut [u8], shape: Shape, partition: usize, used: usize) {
    write_at(
        bytes,
        shape.used_at(partition),
        &(used as u16).to_le_bytes(),
    );
}

/// Question 12: a request in the book lacks a row.
fn wrong_book(random: &mut Random, bytes: &mut [u8], lane: usize) {
    let Some(shape) = shape_of(bytes) else {
        return;
    };
    let Ok(mut store) = Store::lay_out(&mut *bytes) else {
        return;
    };
    let book = shape.book();
    let used = store.used(book);
    let row = random.below(used.max(1));
    let key = store.key(book, row);
    match lane % 3 {
        0 if used < shape.rows => {
            let lone = book_key(random.number() as u32, random.below(5) as u8);
            store.put(book, lone, 0);
        }
        1 if used > 0 => remove_row(bytes, shape, book, row),
        // The row is another id's now.
        _ => {
            let other = (key ^ 1 << random.between(20, 34)) % (1 << 35);
            set_key(bytes, shape, book, row, other);
            sort_rows(bytes);
        }
    }
}

/// The rows behind the removed one move up.
fn remove_row(bytes: &mut [u8], shape: Shape, partition: usize, row: usize) {
    let store = Store::lay_out(&*bytes).expect("laid out");
    let mut rows: Vec<_> = store.rows(partition).collect();
    rows.remove(row);
    let used = rows.len();
    set_used(bytes, shape, partition, used);
    rows.push((0, 0));
    for (row, content) in rows.into_iter().enumerate() {
        set_row(bytes, shape, partition, row, content);
    }
}

/// Question 13: a booked workflow that the pack has not, or a BEGIN beyond P.
fn wrong_workflow(random: &mut Random, case: &mut CallCase, lane: usize) {
    let m = u32::from(case.pack.first().copied().unwrap_or(0));
    let Ok(mut store) = Store::lay_out(case.store.as_mut_slice()) else {
        return;
    };
    let (book, partitions) = (store.shape().book(), store.shape().partitions as u32);
    let ids = store.booked_ids();
    if partitions < 8 && lane % 2 == 1 {
        let partition = random.pick(&[partitions, partitions, 7]);
        case.pack = crate::pack::encode(&vec![
            vec![
                (0xB0, 0),
                (0x60, partition),
                (0x70, 0),
                (0xB0, 0)
            ];
            m as usize
        ]);
        return;
    }
    if let Some(id) = ids.get(random.below(ids.len())) {
        let wrong = random.pick(&[m, m + 1, 16, 256, 65_536, u32::MAX]);
        store.put(book, book_key(*id, 0), wrong);
    }
}

/// Question 14: one record is neither empty nor sound.
fn wrong_record(random: &mut Random, case: &mut CallCase, lane: usize) {
    let slot = random.below(SLOTS);
    let Some(sound) = a_sound_record(random, case) else {
        case.slots[slot].step = 1;
        return;
    };
    let mut agent = sound;
    let (size, inside) = size_and_inside(&agent, case);
    match lane % 10 {
        0 => agent = dirty_empty(random),
        1 => agent.in_use = 0,
        2 => agent.id ^= 1 << random.between(16, 31),
        3 => agent.position = random.pick(&[size, size + 1, 256, 65_535]),
        4 => agent.step = agent.position + 1,
        5 => agent.step = random.pick(&[256, 65_535]),
        6 => agent.in_use = random.pick(&[2, 3, 256, 1 << 31, u32::MAX]),
        7 => agent.position += 65_536 << random.below(16),
        8 => agent.step += 65_536 << random.below(16),
        _ => match inside.is_empty() {
            true => agent.position = size,
            false => agent.position = random.pick(&inside),
        },
    }
    case.slots[slot] = agent;
}

/// A record that is there, or a started one of a booked id.
fn a_sound_record(random: &mut Random, case: &CallCase) -> Option<Agent> {
    let in_use: Vec<Agent> = case.slots.iter().copied().filter(|a| a.is_in_use()).collect();
    if !in_use.is_empty() && random.one_in(2) {
        return Some(random.pick(&in_use));
    }
    let store = Store::lay_out(case.store.as_slice()).ok()?;
    let ids = store.booked_ids();
    let request = store.request(*ids.get(random.below(ids.len()))?)?;
    Some(Agent::started(request.id, request.arguments))
}

/// The size of a record's workflow and its positions inside a block.
fn size_and_inside(agent: &Agent, case: &CallCase) -> (u32, Vec<u32>) {
    let workflow = || {
        let pack = Pack::read(&case.pack).ok()?;
        let store = Store::lay_out(case.store.as_slice()).ok()?;
        pack.workflow(store.request(agent.id)?.workflow)
    };
    workflow().map_or((256, Vec::new()), |workflow| {
        let size = workflow.size() as u32;
        let is_inside = |position: &u32| workflow.is_inside(*position as usize);
        (size, (0..size).filter(is_inside).collect())
    })
}

/// Not in use, but not all zero.
fn dirty_empty(random: &mut Random) -> Agent {
    let mut agent = Agent::EMPTY;
    match random.below(4) {
        0 => agent.id = 1,
        1 => agent.position = 1,
        2 => agent.step = 1,
        _ => agent.registers[random.below(8)] = 1 << random.below(32),
    }
    agent
}
