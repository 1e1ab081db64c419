//! W-209: single calls that retire old requests, calls on a store that has a floor, and stores
//! whose floor 11 or 12 refuses. Store, slots and list are made by hand, so that ids below the
//! floor may be gone, may go, or may not.

use super::calls::any_sound;
use super::damage::{damage, set_row};
use super::near_miss::any_near_miss;
use super::worklists::{random_mark, spoil_list, Logged, Scene, NO_BLOCKS, STAGES, WORKFLOWS};
use super::world::right_request;
use crate::agents::{Agent, SLOTS};
use crate::calls::Call;
use crate::cases::{Case, Order};
use crate::random::Random;
use crate::store::{book_key, Key, Request, Store, BOOK_ROWS, FLOOR_KEY, LEAST_ROWS};
use crate::worklist::{MOST_LISTED, TAKEN, WAITING};

/// What a single call is after.
#[derive(Clone, Copy, Debug, PartialEq, Eq)]
pub enum Aim {
    /// A retire that is accepted.
    Accepted,
    /// A retire that 28 or 29 refuse; a call that names an id below the floor, which 30 may refuse.
    Refused(u8),
    /// A call on a book whose floor row 11 or 12 refuse, or nearly.
    Floor,
    /// A retire that 1 to 14 or 25 refuse.
    Damaged,
}

pub fn any(random: &mut Random, aim: Aim, lane: usize) -> Case {
    match aim {
        Aim::Accepted => accepted(random, lane),
        Aim::Refused(28) => may_not_go(random, lane),
        Aim::Refused(29) => none_smaller(random, lane),
        Aim::Refused(_) => below_the_floor(random, lane),
        Aim::Floor => wrong_floor(random, lane),
        Aim::Damaged => damaged(random, lane),
    }
}

/// Which requests a store has, and how much room is left.
#[derive(Clone, Copy, Debug)]
struct Plan {
    requests: usize,
    /// How many of them, from the least id on, are below the floor to come.
    smaller: usize,
    /// What the log has of one of the smaller ones; it leads through of the others.
    spoiled: Option<(usize, Logged)>,
    partitions: usize,
    has_floor: bool,
    /// No id is smaller.
    least: u32,
    /// Free rows in the book.
    free: usize,
}

impl Plan {
    fn any(random: &mut Random) -> Self {
        let requests = random.pick(&[1, 2, 2, 3]);
        Self {
            requests,
            smaller: random.between(1, requests),
            spoiled: None,
            partitions: random.pick(&[1, 2, 2, 3]),
            has_floor: random.one_in(2),
            least: 0,
            free: random.pick(&[0, 0, 1, 2, 5]),
        }
    }

    fn rows(&self) -> usize {
        let rows = BOOK_ROWS * self.requests + usize::from(self.has_floor) + self.free;
        rows.max(LEAST_ROWS)
    }
}

/// Requests of rising ids, and a floor that some of them are below.
struct Old {
    scene: Scene,
    ids: Vec<u32>,
    smaller: usize,
    floor: u32,
}

impl Old {
    fn new(random: &mut Random, plan: Plan) -> Self {
        let mut scene = Scene::empty(random, plan.partitions, plan.rows());
        let ids = rising_ids(random, plan.requests, plan.least);
        for (place, id) in ids.iter().enumerate() {
            let logged = match plan.spoiled {
                Some((spoiled, logged)) if spoiled == place => logged,
                _ if place < plan.smaller => Logged::Through,
                _ => Logged::any(random),
            };
            let workflow = match logged {
                Logged::Through => random.pick(&[STAGES, STAGES, NO_BLOCKS, 2]),
                _ => STAGES,
            };
            scene.book_id(random, *id, workflow, logged);
        }
        let least = ids.first().copied().unwrap_or(u32::MAX);
        if plan.has_floor {
            let value = random.pick(&[0, least, least / 2, least.saturating_sub(1)]);
            scene.set_floor(value);
        }
        let floor = floor_above(random, &ids, plan.smaller);
        let smaller = plan.smaller;
        let mut old = Self {
            scene,
            ids,
            smaller,
            floor,
        };
        old.add_rows(random);
        old.add_agents(random);
        old.add_list(random);
        old
    }

    /// Log rows of ids on both sides of the floor that are not booked, steps that no way of a
    /// smaller booked id takes, and data rows.
    fn add_rows(&mut self, random: &mut Random) {
        let Self { ids, floor, .. } = self;
        let store = &mut self.scene.store;
        for _ in 0..random.between(2, 6) {
            let near = [
                floor.wrapping_sub(1),
                *floor,
                floor.wrapping_add(1),
                *floor / 2,
                0,
            ];
            let id = match random.one_in(6) {
                true => random.word(),
                false => random.pick(&near),
            };
            let step = match ids.contains(&id) {
                true => random.pick(&[200, 255, 65_535]),
                false => random.pick(&[0, 0, 1, 255, 65_535]),
            };
            let partition = random.below(store.shape().partitions);
            store.put(partition, Key::Log { id, step }.stored(), random.word());
        }
        for _ in 0..random.between(1, 3) {
            let partition = random.below(store.shape().partitions);
            store.put(partition, Key::Data(random.word()).stored(), random.word());
        }
        if random.one_in(6) {
            // In a partition this is the key of a log row, of id 2^24.
            store.put(0, FLOOR_KEY, random.word());
        }
    }

    /// Agents of the ids that are not below the floor.
    fn add_agents(&mut self, random: &mut Random) {
        let Scene {
            pack, store, slots, ..
        } = &mut self.scene;
        for slot in slots.iter_mut().take(SLOTS - 1) {
            if random.one_in(5) {
                let agent = any_sound(random, pack, store, &self.ids[self.smaller..]);
                *slot = agent.unwrap_or(Agent::EMPTY);
            }
        }
    }

    /// A list of ids that are not below the floor, and of such as are not booked, smaller too.
    fn add_list(&mut self, random: &mut Random) {
        for _ in 0..random.pick(&[0, 1, 2, 4, 15]) {
            let other = match random.one_in(2) {
                true => self.floor.wrapping_sub(random.between(1, 9) as u32),
                false => random.number() as u32,
            };
            let id = match self.ids[self.smaller..].first() {
                Some(id) if random.one_in(3) => *id,
                _ => other,
            };
            if !self.ids[..self.smaller].contains(&id) {
                let mark = random_mark(random);
                self.scene.mark(random, id, mark);
            }
        }
    }

    fn retire(self) -> Case {
        let floor = self.floor;
        self.scene.call(Call::Retire { floor })
    }

    /// An empty slot; the last one always is.
    fn empty_slot(&self) -> u32 {
        let empty = self.scene.slots.iter().position(Agent::is_empty);
        empty.unwrap_or(SLOTS - 1) as u32
    }
}

impl Scene {
    /// The floor's row, if there is room for it.
    fn set_floor(&mut self, floor: u32) {
        let book = self.store.shape().book();
        self.store.put(book, FLOOR_KEY, floor);
    }
}

/// So many ids, mostly side by side: small ones, 0 among them, or at the edge of a width.
fn rising_ids(random: &mut Random, count: usize, least: u32) -> Vec<u32> {
    let gaps: Vec<u32> = (0..count)
        .map(|_| random.pick(&[1, 1, 1, 2, 3, 9]))
        .collect();
    let width: u32 = gaps.iter().skip(1).sum();
    let first = match random.below(8) {
        0 => 0,
        1..=3 => random.between(1, 30) as u32,
        4 => random.pick(&[254, 255, 65_534, 65_535]),
        5 => random.pick(&[(1 << 24) - 1, 1 << 24, (1 << 29) - 1, (1 << 31) - 1]),
        6 => u32::MAX - width,
        _ => (random.number() as u32).min(u32::MAX - width),
    };
    let first = first.max(least);
    let mut id = first;
    let rest = gaps.into_iter().skip(1).map(|gap| {
        id += gap;
        id
    });
    let rest: Vec<u32> = rest.collect();
    std::iter::once(first).chain(rest).take(count).collect()
}

/// A floor with so many of the ids below it: the least such, the greatest, or one between.
fn floor_above(random: &mut Random, ids: &[u32], smaller: usize) -> u32 {
    let least = match smaller {
        0 => 0,
        _ => ids[smaller - 1].saturating_add(1),
    };
    let most = ids.get(smaller).copied().unwrap_or(u32::MAX);
    let between = random.between(least as usize, most as usize) as u32;
    random.pick(&[least, least, most, between])
}

/// The book may be full, also that of C = 5, and may have a floor already.
fn accepted(random: &mut Random, lane: usize) -> Case {
    let mut plan = Plan::any(random);
    match lane % 8 {
        0 => (plan.requests, plan.smaller, plan.has_floor, plan.free) = (1, 1, false, 0),
        1 | 2 => plan.smaller = plan.requests,
        3 => plan.has_floor = true,
        4 | 5 => plan.partitions = random.between(2, 3),
        _ => {}
    }
    let mut old = Old::new(random, plan);
    if lane % 8 == 6 {
        // An older store has id 0, and an empty record is none of it.
        let scene = Scene::empty(random, plan.partitions, plan.rows());
        old = of_ids(random, scene, &[0]);
    }
    old.retire()
}

/// These ids, all of them below the floor and logged through.
fn of_ids(random: &mut Random, mut scene: Scene, ids: &[u32]) -> Old {
    for id in ids {
        let workflow = random.pick(&[STAGES, NO_BLOCKS]);
        scene.book_id(random, *id, workflow, Logged::Through);
    }
    let floor = floor_above(random, ids, ids.len());
    let mut old = Old {
        scene,
        ids: ids.to_vec(),
        smaller: ids.len(),
        floor,
    };
    old.add_rows(random);
    old.add_list(random);
    old
}

/// 28: one of the smaller ids isn't logged through, has an agent, waits or is taken.
fn may_not_go(random: &mut Random, lane: usize) -> Case {
    let mut plan = Plan::any(random);
    plan.partitions = 2;
    let place = match lane / 6 % 3 {
        0 => 0,
        1 => plan.smaller - 1,
        _ => random.below(plan.smaller),
    };
    let sort = lane % 6;
    if sort < 2 {
        let nearly = Logged::NEARLY[lane / 6 % Logged::NEARLY.len()];
        plan.spoiled = Some((place, [nearly, Logged::NoLastStep][sort]));
    }
    let mut old = Old::new(random, plan);
    let id = old.ids[place];
    let scene = &mut old.scene;
    match sort {
        2 => {
            let agent = any_sound(random, &scene.pack, &scene.store, &[id]);
            scene.slots[random.below(SLOTS)] = agent.unwrap_or(Agent::EMPTY);
        }
        3 => {
            // At its very start, in the last slot.
            let arguments = scene
                .store
                .request(id)
                .map_or([0; 4], |request| request.arguments);
            scene.slots[SLOTS - 1] = Agent::started(id, arguments);
        }
        4 => scene.mark(random, id, WAITING),
        5 => scene.mark(random, id, TAKEN),
        _ => {}
    }
    old.retire()
}

/// 29: the floor is 0, that of the store, or at most the least booked id, or none is booked.
fn none_smaller(random: &mut Random, lane: usize) -> Case {
    let mut plan = Plan::any(random);
    plan.smaller = 0;
    if lane % 6 >= 4 {
        (plan.requests, plan.has_floor) = (0, lane % 6 == 4);
    }
    let mut old = Old::new(random, plan);
    let least = old.ids.first().copied().unwrap_or(0);
    match lane % 6 {
        0 => old.floor = least,
        1 => old.floor = 0,
        2 => old.floor = least.saturating_sub(1),
        3 => old.floor = old.scene.store.floor(),
        _ => {}
    }
    old.retire()
}

/// A store whose floor is at most the least booked id, and calls that name an id below it, the
/// floor itself or 0: an arrival of one meets 30 before 17 and 19, and behind 15, 16 and 24.
fn below_the_floor(random: &mut Random, lane: usize) -> Case {
    let mut plan = Plan::any(random);
    (plan.smaller, plan.has_floor, plan.least) = (0, true, 3);
    plan.free = [5, 0, 5, 5, 5, 0, 4, 5, 5, 4][lane % 10];
    let mut old = Old::new(random, plan);
    let least = old.ids[0];
    let floor = match random.one_in(2) {
        true => least,
        false => random.between(2, least as usize) as u32,
    };
    old.scene.set_floor(floor);
    let below = match random.one_in(2) {
        true => floor - 1,
        false => random.between(1, floor as usize - 1) as u32,
    };
    let order = match lane % 10 {
        7 => named_late(random, &mut old, below, lane / 10),
        sort => Order::Call(arrives(random, &old, sort, (floor, below))),
    };
    Case::Call(Box::new(old.scene.case(order)))
}

/// The other calls that name an id: 20, or 26 where the list is full.
fn named_late(random: &mut Random, old: &mut Old, id: u32, sort: usize) -> Order {
    let slot = old.empty_slot();
    match sort % 4 {
        0 => Order::Call(Call::Retry { slot, id }),
        1 => Order::Reply { id },
        sort => {
            if sort == 2 {
                spread(random, old, MOST_LISTED);
            }
            Order::Call(Call::Add { id })
        }
    }
}

/// So many entries, of ids that are not booked.
fn spread(random: &mut Random, old: &mut Old, count: usize) {
    let mut id = old.floor;
    while old.scene.list.entries.len() < count {
        id = id.wrapping_add(1);
        let mark = random_mark(random);
        old.scene.mark(random, id, mark);
    }
}

fn arrives(random: &mut Random, old: &Old, sort: usize, (floor, below): (u32, u32)) -> Call {
    let mut slot = old.empty_slot();
    let mut request = right_request(random, WORKFLOWS, below);
    match sort {
        // 17 too.
        1 | 8 => request.workflow = random.pick(&[3, 4, 65_536, u32::MAX]),
        2 => request.id = 0,
        3 => request.id = floor,
        4 => {
            let used = old.scene.slots.iter().position(|agent| agent.is_in_use());
            slot = random.pick(&[8, 255, u32::MAX]);
            slot = used
                .filter(|_| random.one_in(2))
                .map_or(slot, |used| used as u32);
        }
        6 => request.id = new_above(random, old),
        // As it is booked.
        9 => request = old.scene.store.request(old.ids[0]).unwrap_or(request),
        _ => {}
    }
    Call::Arrival { slot, request }
}

/// An id above the floor that is not booked.
fn new_above(random: &mut Random, old: &Old) -> u32 {
    let last = old.ids.last().copied().unwrap_or(0);
    let behind = last.checked_add(random.between(1, 9) as u32);
    let between = || (old.ids[0]..=last).find(|id| !old.ids.contains(id));
    behind.or_else(between).unwrap_or(last)
}

/// Floors above a booked id (12), at it, or 0; keys that are nearly the floor's, or stand twice or
/// not at the end (11); an id without all its rows beside it (12).
fn wrong_floor(random: &mut Random, lane: usize) -> Case {
    let mut plan = Plan::any(random);
    (plan.smaller, plan.has_floor) = (0, true);
    plan.requests = plan.requests.max(2);
    plan.free = plan.free.max(1);
    let mut old = Old::new(random, plan);
    let (least, next) = (old.ids[0], old.ids[1]);
    match lane % 10 {
        0 => old.scene.set_floor(least + 1),
        1 => old.scene.set_floor(u32::MAX),
        2 | 9 => old.scene.set_floor(least),
        3 => old.scene.set_floor(0),
        7 => old.scene.set_floor(next),
        8 => {
            let lone = book_key(next.wrapping_add(20), random.below(5) as u8);
            let book = old.scene.store.shape().book();
            old.scene.store.put(book, lone, 0);
        }
        _ => {}
    }
    let order = any_on_floor(random, &old, lane);
    let mut case = old.scene.case(order);
    misplace_floor(random, &mut case.store, lane % 10);
    Case::Call(Box::new(case))
}

/// Of some sorts: another key for the floor's row, or another place.
fn misplace_floor(random: &mut Random, bytes: &mut [u8], sort: usize) {
    let store = Store::lay_out(&*bytes).expect("made by hand");
    let shape = store.shape();
    let (book, last) = (shape.book(), store.used(shape.book()) - 1);
    let before = (store.key(book, last - 1), store.value(book, last - 1));
    let floor = (FLOOR_KEY, store.floor());
    let wrong = [FLOOR_KEY + 1, FLOOR_KEY - 1, FLOOR_KEY + 8, 2 * FLOOR_KEY];
    match sort {
        4 => set_row(bytes, shape, book, last, (random.pick(&wrong), floor.1)),
        // The floor's row ahead of the last one.
        5 => {
            set_row(bytes, shape, book, last, before);
            set_row(bytes, shape, book, last - 1, floor);
        }
        // It takes the place of another row.
        6 => set_row(bytes, shape, book, last - 1, floor),
        _ => {}
    }
}

/// One of the calls that put 11 and 12, most of them accepted where the floor is right.
fn any_on_floor(random: &mut Random, old: &Old, lane: usize) -> Order {
    let slot = old.empty_slot();
    let id = random.pick(&old.ids);
    let used = old.scene.slots.iter().position(|agent| agent.is_in_use());
    let in_use = used.unwrap_or(0) as u32;
    let request: Option<Request> = old.scene.store.request(id);
    Order::Call(match (lane / 10 + lane) % 11 {
        0 => Call::PutInOrder,
        1 => match request {
            Some(request) => Call::Arrival { slot, request },
            None => Call::Retry { slot, id },
        },
        2 => Call::Retry { slot, id },
        3 => Call::Turn { slot: in_use },
        4 => Call::Crash { slot: in_use },
        5 => Call::Add { id },
        6 => Call::Take,
        7 => Call::Done { id },
        8 => return Order::Reply { id },
        _ => Call::Retire {
            floor: id.saturating_add(1),
        },
    })
}

/// A retire that would be accepted, or refused by 28 or 29, where 1 to 14 or 25 say no first.
fn damaged(random: &mut Random, lane: usize) -> Case {
    let mut plan = Plan::any(random);
    plan.smaller = random.between(0, plan.requests);
    let mut old = Old::new(random, plan);
    if lane % 8 == 7 || random.one_in(3) {
        spoil_list(random, &mut old.scene.list, lane / 8);
    }
    let floor = old.floor;
    let mut case = old.scene.case(Order::Call(Call::Retire { floor }));
    let sort = random.below(1_000);
    match lane % 8 {
        6 => case.pack = any_near_miss(random),
        7 => {}
        question => damage(random, question as u8 + 9, sort, &mut case),
    }
    Case::Call(Box::new(case))
}
