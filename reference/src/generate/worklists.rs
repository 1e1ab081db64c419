//! W-208: single calls on a worklist, other calls beside one, and the reading call. Store and
//! list are made by hand here, so that a log may lead through, nearly, or not at all.

use super::calls::{any_key, any_order, any_sound, booked_world, case_on, unbooked_id};
use super::damage::damage;
use super::near_miss::any_near_miss;
use super::packs::{right_workflow, Rows};
use super::world::right_request;
use crate::agents::{Agent, Slots, ALL_EMPTY, SLOTS};
use crate::calls::Call;
use crate::cases::{CallCase, Case, Order};
use crate::operations::do_one;
use crate::pack::{self, Operation, Pack, Workflow};
use crate::random::Random;
use crate::store::{fresh, Key, Request, Store};
use crate::worklist::{Entry, Worklist, MOST_LISTED, TAKEN, WAITING};

/// The workflows that a scene's pack has.
pub const STAGES: u32 = 0;
pub const NO_BLOCKS: u32 = 1;
pub const WORKFLOWS: usize = 3;

/// Marks that are neither waiting nor taken.
const NO_MARKS: [u8; 7] = [2, 2, 3, 16, 128, 254, 255];

/// What a log has of a request's way to RETURN.
#[derive(Clone, Copy, Debug, PartialEq, Eq)]
pub enum Logged {
    Through,
    NotStarted,
    NoLastStep,
    NoFirstStep,
    /// A step's row stands in another partition.
    OtherPartition,
    /// Steps are counted per partition instead of per request.
    CountedApart,
    /// A step's row has another id.
    OtherId,
    /// Each step is counted one too high.
    LaterSteps,
}

impl Logged {
    pub const NEARLY: [Self; 7] = [
        Self::NoLastStep,
        Self::CountedApart,
        Self::OtherPartition,
        Self::NotStarted,
        Self::NoFirstStep,
        Self::OtherId,
        Self::LaterSteps,
    ];

    pub fn any(random: &mut Random) -> Self {
        match random.one_in(2) {
            true => Self::Through,
            false => random.pick(&Self::NEARLY),
        }
    }

    /// Changes the rows of a way that leads through.
    fn spoil(self, random: &mut Random, rows: &mut Vec<LogRow>, partitions: usize) {
        let some = random.below(rows.len());
        match self {
            Self::Through => {}
            Self::NotStarted => rows.clear(),
            Self::NoLastStep => _ = rows.pop(),
            Self::NoFirstStep => _ = rows.drain(..rows.len().min(1)),
            Self::OtherPartition => {
                let row = &mut rows[some];
                row.partition = (row.partition + 1) % partitions;
            }
            Self::CountedApart => {
                let all: Vec<usize> = rows.iter().map(|row| row.partition).collect();
                for (row, partition) in rows.iter_mut().zip(&all) {
                    let before = all[..usize::from(row.step)].iter();
                    row.step = before.filter(|other| *other == partition).count() as u16;
                }
            }
            Self::OtherId => rows[some].id ^= random.pick(&[1, 1 << 16, 1 << 31]),
            Self::LaterSteps => rows.iter_mut().for_each(|row| row.step += 1),
        }
    }
}

#[derive(Clone, Copy, Debug)]
struct LogRow {
    partition: usize,
    id: u32,
    step: u16,
    value: u32,
}

/// The log rows of a way to RETURN, with any results: what a jump does with them counts.
fn way_through(random: &mut Random, workflow: &Workflow, request: &Request) -> Vec<LogRow> {
    let mut registers = Agent::started(request.id, request.arguments).registers;
    let mut position = 0;
    let mut rows: Vec<LogRow> = Vec::new();
    loop {
        let instruction = workflow.instruction(position).expect("a right pack");
        match instruction.operation {
            Operation::Return => return rows,
            Operation::Begin => {
                registers[0] = random.word();
                rows.push(LogRow {
                    partition: instruction.w as usize,
                    id: request.id,
                    step: rows.len() as u16,
                    value: registers[0],
                });
                position = workflow.behind_block(position);
            }
            _ => position = do_one(instruction, position, &mut registers),
        }
    }
}

/// A workflow of two or three blocks. Behind one of them a jump may pass the next, as its
/// result decides; what is replied is the last result or a sum of some.
fn stages(random: &mut Random, partitions: usize) -> Rows {
    let blocks = random.between(2, 3);
    let mut rows = Rows::new();
    let mut jump = None;
    for block in 0..blocks {
        if random.one_in(2) {
            rows.push((0x24, 0));
        }
        let partition = match random.one_in(4) {
            true => random.below(partitions),
            false => block % partitions,
        };
        let partition = partition as u32;
        rows.extend([
            (0x60, partition),
            (0x85, 1),
            (0x25, 2),
            (0x91, 5),
            (0x75, 0),
        ]);
        if let Some((place, byte, s)) = jump.take() {
            rows[place] = (byte, (16 * rows.len() + s) as u32);
        }
        if block + 1 < blocks && random.one_in(2) {
            let byte = random.pick(&[0x40, 0x50]);
            jump = Some((rows.len(), byte, random.pick(&[2, 3, 5])));
            rows.push((byte, 0));
        }
    }
    rows.push((random.pick(&[0xB0, 0xB4]), 0));
    rows
}

/// A few instructions outside, and RETURN.
fn no_blocks(random: &mut Random) -> Rows {
    let mut rows = Rows::new();
    for _ in 0..random.below(4) {
        let byte = random.pick(&[0x00, 0x10, 0x20, 0x30]) | random.below(8) as u8;
        rows.push((byte, random.below(8) as u32));
    }
    rows.push((0xB0 | random.below(8) as u8, 0));
    rows
}

/// A right pack, store and slots with a right list, which no run left.
pub struct Scene {
    pub pack: Vec<u8>,
    pub store: Store<Vec<u8>>,
    pub slots: Slots,
    pub list: Worklist,
    /// A booked id of workflow 0, the one that a call is after; its log is as was asked for.
    pub id: u32,
}

impl Scene {
    fn new(random: &mut Random, logged: Logged) -> Self {
        let least = match logged {
            Logged::OtherPartition | Logged::CountedApart => 2,
            _ => 1,
        };
        let partitions = random.between(least, 3);
        let requests = random.between(1, 4);
        let rows = random.between(5 * requests, 5 * requests + 4).max(8);
        let mut scene = Self::empty(random, partitions, rows);
        scene.id = scene.book(random, STAGES, logged);
        for _ in 1..requests {
            let workflow = random.below(WORKFLOWS) as u32;
            let logged = Logged::any(random);
            scene.book(random, workflow, logged);
        }
        scene.fill_in(random);
        scene
    }

    /// A right pack beside a fresh store.
    pub fn empty(random: &mut Random, partitions: usize, rows: usize) -> Self {
        let size = random.between(3, 10);
        let pack = pack::encode(&[
            stages(random, partitions),
            no_blocks(random),
            right_workflow(random, size, partitions),
        ]);
        let store = fresh(partitions as u32, rows as u32).expect("numbers in range");
        Self {
            pack,
            store: Store::lay_out(store).expect("fresh"),
            slots: ALL_EMPTY,
            list: Worklist::default(),
            id: 0,
        }
    }

    /// Books a new id, if there is room, with these rows in the log.
    fn book(&mut self, random: &mut Random, workflow: u32, logged: Logged) -> u32 {
        let id = self.new_id(random);
        self.book_id(random, id, workflow, logged);
        id
    }

    /// Books this id.
    pub fn book_id(&mut self, random: &mut Random, id: u32, workflow: u32, logged: Logged) {
        let mut request = right_request(random, WORKFLOWS, id);
        request.workflow = workflow;
        let pack = Pack::read(&self.pack).expect("a right pack");
        let parts = pack.workflow(workflow).expect("one of three");
        let mut rows = way_through(random, &parts, &request);
        if !rows.is_empty() {
            logged.spoil(random, &mut rows, self.store.shape().partitions);
        }
        self.store.book(&request);
        for row in rows {
            let key = Key::Log {
                id: row.id,
                step: row.step,
            };
            self.store.put(row.partition, key.stored(), row.value);
        }
    }

    /// Other rows, agents of the booked ids, and a list.
    fn fill_in(&mut self, random: &mut Random) {
        for _ in 0..random.below(4) {
            let partition = random.below(self.store.shape().partitions);
            let key = any_key(random);
            // No log row of step 0 or 1, which might be the one that isn't to be there.
            if !matches!(Key::of_stored(key), Some(Key::Log { step: 0..=2, .. })) {
                self.store.put(partition, key, random.word());
            }
        }
        let ids = self.store.booked_ids();
        for slot in 0..SLOTS {
            if random.one_in(6) {
                let agent = any_sound(random, &self.pack, &self.store, &ids);
                self.slots[slot] = agent.unwrap_or(Agent::EMPTY);
            }
        }
        self.list = some_list(random, &ids);
    }

    /// An id that is neither booked nor listed.
    fn new_id(&self, random: &mut Random) -> u32 {
        let id = match random.one_in(2) {
            true => random.word(),
            false => random.below(40) as u32,
        };
        let is_new = |id: &u32| self.store.request(*id).is_none() && !self.list.is_listed(*id);
        let mut ids = (0..).map(|more| id.wrapping_add(more));
        ids.find(is_new).unwrap_or(id)
    }

    /// Has an id in the list with this mark, in its place or in a new one.
    pub fn mark(&mut self, random: &mut Random, id: u32, mark: u8) {
        let entries = &mut self.list.entries;
        match entries.iter_mut().find(|entry| entry.id == id) {
            Some(entry) => entry.mark = mark,
            None => {
                entries.truncate(MOST_LISTED - 1);
                let place = random.below(entries.len() + 1);
                entries.insert(place, Entry { id, mark });
            }
        }
    }

    fn unlist(&mut self, id: u32) {
        self.list.entries.retain(|entry| entry.id != id);
    }

    /// Exactly so many entries; `id` is one of them if it was.
    fn resize(&mut self, random: &mut Random, count: usize, id: u32) {
        while self.list.entries.len() > count {
            let place = random.below(self.list.entries.len());
            if self.list.entries[place].id != id {
                self.list.entries.remove(place);
            }
        }
        while self.list.entries.len() < count {
            let other = self.new_id(random);
            if other != id {
                let mark = random_mark(random);
                self.mark(random, other, mark);
            }
        }
    }

    /// Takes all ahead of this id, and lets this one wait.
    fn first_waiting(&mut self, id: u32) {
        let mut ahead = true;
        for entry in &mut self.list.entries {
            ahead &= entry.id != id;
            if ahead {
                entry.mark = TAKEN;
            } else if entry.id == id {
                entry.mark = WAITING;
            }
        }
    }

    pub fn case(self, order: Order) -> CallCase {
        CallCase {
            pack: self.pack,
            store: self.store.bytes().to_vec(),
            slots: self.slots,
            list: Some(self.list),
            order,
        }
    }

    pub fn call(self, call: Call) -> Case {
        Case::Call(Box::new(self.case(Order::Call(call))))
    }
}

pub fn random_mark(random: &mut Random) -> u8 {
    random.pick(&[WAITING, TAKEN])
}

/// A right list of 0 to 16 ids, booked ones and others.
fn some_list(random: &mut Random, booked: &[u32]) -> Worklist {
    let count = match random.below(6) {
        0 => 0,
        1..=3 => random.between(1, 4),
        4 => random.between(5, 15),
        _ => MOST_LISTED,
    };
    let mut ids: Vec<u32> = Vec::new();
    for id in booked {
        if !random.one_in(3) {
            ids.push(*id);
        }
    }
    while ids.len() < count {
        let id = random.number() as u32 >> random.pick(&[0, 0, 16, 24]);
        if !ids.contains(&id) {
            ids.push(id);
        }
    }
    ids.truncate(count);
    random.shuffle(&mut ids);
    let entry = |id| Entry {
        id,
        mark: random_mark(random),
    };
    Worklist {
        entries: ids.into_iter().map(entry).collect(),
    }
}

/// How many ways there are for a list not to pass 25.
const WRONG_LISTS: usize = 7;

/// Makes a right list one that 25 refuses; it has at least one entry then.
pub fn spoil_list(random: &mut Random, list: &mut Worklist, sort: usize) {
    if list.entries.is_empty() {
        *list = Worklist::of(&[(random.word(), random_mark(random))]);
    }
    let entries = &mut list.entries;
    let some = random.below(entries.len());
    let last = entries.len() - 1;
    match sort % WRONG_LISTS {
        0 => grow(random, entries, MOST_LISTED + 1),
        1 => {
            let count = random.pick(&[18, 20, 32, 33, 255]);
            grow(random, entries, count);
        }
        // One id twice: side by side, or at the end, with the same mark or the other.
        2 => entries.insert(some, entries[some]),
        3 => {
            entries.truncate(MOST_LISTED - 1);
            grow(random, entries, 2);
            let Entry { id, mark } = entries[0];
            let mark = random.pick(&[mark, 1 - mark]);
            entries.push(Entry { id, mark });
        }
        4 => entries[0].mark = random.pick(&NO_MARKS),
        5 => entries[last].mark = random.pick(&NO_MARKS),
        _ => entries[some].mark = random.pick(&NO_MARKS),
    }
}

/// More ids, none twice, up to so many.
fn grow(random: &mut Random, entries: &mut Vec<Entry>, count: usize) {
    while entries.len() < count {
        let id = random.number() as u32;
        let mark = random_mark(random);
        if entries.iter().all(|entry| entry.id != id) {
            entries.push(Entry { id, mark });
        }
    }
}

/// What a single call with a worklist is after.
#[derive(Clone, Copy, Debug, PartialEq, Eq)]
pub enum Aim {
    /// A call on the list that is accepted.
    Accepted,
    /// One that 25, 26 or 27 refuse, or nearly.
    Refused(u8),
    /// One that 1 to 14 refuse.
    Damaged,
    /// A call that asks nothing of the list.
    Beside,
    /// The reading call.
    Reply,
}

pub fn any(random: &mut Random, aim: Aim, lane: usize) -> Case {
    match aim {
        Aim::Accepted => accepted(random, lane),
        Aim::Refused(25) => wrong_list(random, lane),
        Aim::Refused(26) => many_listed(random, lane),
        Aim::Refused(_) => nothing_to_give(random, lane),
        Aim::Damaged => damaged(random, lane),
        Aim::Beside => beside(random, lane),
        Aim::Reply => reading(random, lane),
    }
}

fn accepted(random: &mut Random, lane: usize) -> Case {
    let mut scene = Scene::new(random, Logged::Through);
    let id = scene.id;
    let call = accepted_call(random, &mut scene, lane);
    if lane % 8 == 6 {
        // Done does not look at slots.
        let agent = any_sound(random, &scene.pack, &scene.store, &[id]);
        scene.slots[random.below(SLOTS)] = agent.unwrap_or(Agent::EMPTY);
    }
    scene.call(call)
}

fn accepted_call(random: &mut Random, scene: &mut Scene, lane: usize) -> Call {
    let id = scene.id;
    match lane % 8 {
        0 => {
            scene.unlist(id);
            scene.list.entries.truncate(MOST_LISTED - 1);
            Call::Add { id }
        }
        // A listed id changes nothing, whichever its mark.
        sort @ (1 | 2) => {
            scene.mark(random, id, sort as u8 - 1);
            Call::Add { id }
        }
        3 => {
            scene.mark(random, id, WAITING);
            scene.first_waiting(id);
            Call::Take
        }
        4 => {
            scene.mark(random, id, WAITING);
            Call::Take
        }
        7 => {
            let id = with_no_blocks(random, scene);
            scene.mark(random, id, TAKEN);
            Call::Done { id }
        }
        _ => {
            scene.mark(random, id, TAKEN);
            Call::Done { id }
        }
    }
}

/// A booked id whose workflow has no blocks: it is logged through from its booking.
fn with_no_blocks(random: &mut Random, scene: &mut Scene) -> u32 {
    if scene.store.free(scene.store.shape().book()) >= 5 {
        return scene.book(random, NO_BLOCKS, Logged::Through);
    }
    let (book, key) = (scene.store.shape().book(), u64::from(scene.id) * 8);
    scene.store.put(book, key, NO_BLOCKS);
    // A record of it may stand where this workflow has no instruction.
    scene.slots = ALL_EMPTY;
    scene.id
}

/// 25, where the call would be accepted otherwise, or refused by 26, 20 or 27.
fn wrong_list(random: &mut Random, lane: usize) -> Case {
    let logged = Logged::any(random);
    let mut scene = Scene::new(random, logged);
    let id = scene.id;
    let call = match lane / WRONG_LISTS % 5 {
        0 => Call::Take,
        1 => {
            scene.mark(random, id, TAKEN);
            Call::Done { id }
        }
        2 => Call::Add { id },
        3 => {
            let id = scene.new_id(random);
            Call::Add { id }
        }
        _ => {
            scene.list.entries.clear();
            scene.mark(random, id, TAKEN);
            Call::Take
        }
    };
    spoil_list(random, &mut scene.list, lane);
    scene.call(call)
}

/// 16 listed, or one fewer: a new id or a listed one, booked or not.
fn many_listed(random: &mut Random, lane: usize) -> Case {
    let logged = Logged::any(random);
    let mut scene = Scene::new(random, logged);
    let id = match lane % 2 {
        0 => scene.id,
        _ => scene.new_id(random),
    };
    let (count, is_listed) = [
        (MOST_LISTED, false),
        (MOST_LISTED, true),
        (MOST_LISTED, false),
        (MOST_LISTED - 1, false),
    ][lane / 2 % 4];
    match is_listed {
        true => {
            let mark = random_mark(random);
            scene.mark(random, id, mark);
        }
        false => scene.unlist(id),
    }
    scene.resize(random, count, id);
    scene.call(Call::Add { id })
}

/// 27: none waits, or an id that is not taken or not logged through.
fn nothing_to_give(random: &mut Random, lane: usize) -> Case {
    let nearly = Logged::NEARLY;
    let sort = lane % (6 + nearly.len());
    let logged = sort
        .checked_sub(6)
        .map_or(Logged::Through, |way| nearly[way]);
    let mut scene = Scene::new(random, logged);
    let id = scene.id;
    let call = match sort {
        0 => {
            scene.list.entries.clear();
            Call::Take
        }
        1 => {
            scene.mark(random, id, TAKEN);
            let entries = scene.list.entries.iter_mut();
            entries.for_each(|entry| entry.mark = TAKEN);
            Call::Take
        }
        _ => Call::Done {
            id: not_to_be_done(random, &mut scene, sort),
        },
    };
    scene.call(call)
}

/// An id that waits, is not listed, is not booked, or has the log that was asked for.
fn not_to_be_done(random: &mut Random, scene: &mut Scene, sort: usize) -> u32 {
    let id = scene.id;
    match sort {
        2 | 3 => scene.mark(random, id, WAITING),
        4 => scene.unlist(id),
        5 => {
            let other = scene.new_id(random);
            scene.mark(random, other, TAKEN);
            return other;
        }
        _ => scene.mark(random, id, TAKEN),
    }
    id
}

/// A call on the list, which may be wrong too, where 1 to 14 say no first.
fn damaged(random: &mut Random, lane: usize) -> Case {
    let mut scene = Scene::new(random, Logged::Through);
    let call = accepted_call(random, &mut scene, lane);
    if random.one_in(2) {
        let sort = random.below(1_000);
        spoil_list(random, &mut scene.list, sort);
    }
    let mut case = scene.case(Order::Call(call));
    let sort = random.below(1_000);
    match lane % 7 {
        6 => case.pack = any_near_miss(random),
        question => damage(random, question as u8 + 9, sort, &mut case),
    }
    Case::Call(Box::new(case))
}

/// A call that asks nothing of the list, beside a right one or a wrong one. Only a restart
/// changes it, and only a right one.
fn beside(random: &mut Random, lane: usize) -> Case {
    let rows = random.between(5, 10);
    let world = booked_world(random, rows);
    let ids = Store::lay_out(world.store.as_slice()).map_or(Vec::new(), |store| store.booked_ids());
    let mut list = some_list(random, &ids);
    if lane / 2 % 2 == 1 {
        spoil_list(random, &mut list, lane / 4);
    }
    let workflow = random.below(3) as u32;
    let order = match (lane % 2, random.below(8)) {
        (0, _) => Order::Call(Call::Restart),
        (_, 0) => Order::Check,
        (_, 1) => Order::Open { workflow },
        (_, 2) => Order::Figures { workflow },
        (_, 3) => Order::Create {
            partitions: u32::from(world.schedule.partitions),
            rows: u32::from(world.schedule.rows),
        },
        _ => any_order(random, &world),
    };
    let mut case = case_on(world, order);
    case.list = Some(list);
    Case::Call(Box::new(case))
}

/// The reading call: of an id whose log leads through, nearly, or not at all, of one without
/// blocks, of one that is not booked, and where 1 to 13 say no. A record that 14 would refuse
/// is not asked about.
fn reading(random: &mut Random, lane: usize) -> Case {
    let logged = match lane % 8 {
        2 | 3 => Logged::NEARLY[lane / 8 % Logged::NEARLY.len()],
        4 => random.pick(&Logged::NEARLY),
        _ => Logged::Through,
    };
    let mut scene = Scene::new(random, logged);
    let id = match lane % 8 {
        5 => unbooked_id(random, &scene.store.booked_ids()),
        6 => with_no_blocks(random, &mut scene),
        _ => scene.id,
    };
    let mut case = scene.case(Order::Reply { id });
    let sort = random.below(1_000);
    match lane % 8 {
        7 if random.one_in(4) => case.pack = any_near_miss(random),
        7 => {
            let question = random.between(9, 13) as u8;
            damage(random, question, sort, &mut case);
        }
        _ if random.one_in(4) => damage(random, 14, sort, &mut case),
        _ => {}
    }
    if !random.one_in(4) {
        case.list = None;
    }
    Case::Call(Box::new(case))
}
