//! W-208 written once more, so that each wrong reading of it can be tried: it gives another
//! answer or another list in some stored cases (seed 11). The right one agrees with all.

mod common;

use common::question;
use reference::agents::{Slots, ALL_EMPTY};
use reference::cases::{CallCase, Case, Order};
use reference::operations::do_one;
use reference::store::{Key, Store};
use reference::{generate, Agent, Answer, Call, Operation, Outcome, Pack, Refusal, Worklist};

/// Ids with their marks.
type List = Vec<(u32, u8)>;

/// What a call is given.
#[derive(Clone)]
struct Given {
    pack: Vec<u8>,
    store: Vec<u8>,
    slots: Slots,
    list: List,
}

/// The log row of a step: of the store, the block's partition, the id, the step, and how many
/// steps were in this partition before.
type Find = fn(&Store<&[u8]>, usize, u32, u16, u16) -> Option<u32>;

/// Question 25.
type Right = fn(&[(u32, u8)]) -> bool;
/// From the id and whether it is booked: 26, 20 or 0 for a yes.
type Add = fn(&mut List, u32, bool) -> u8;
type Take = fn(&mut List) -> Option<u32>;
/// From the id, whether it is logged through, and whether it has an agent.
type Done = fn(&mut List, u32, bool, bool) -> bool;
/// From whether the list passes 25.
type Restart = fn(&mut List, bool);
/// The reply of an agent at a RETURN with this d.
type Value = fn(&Agent, usize) -> u32;

#[derive(Clone, Copy)]
struct Reading {
    right: Right,
    add: Add,
    take: Take,
    done: Done,
    find: Find,
    /// Whether a way without any block counts as logged.
    without_blocks: bool,
    restart: Restart,
    /// Whether 25 comes before 1 to 14.
    early: bool,
    /// Whether arrival, retry, turn and crash put 25 too.
    all_ask: bool,
    /// Whether the reading call puts 14.
    reply_asks_14: bool,
    value: Value,
}

fn find(store: &Store<&[u8]>, partition: usize, id: u32, step: u16, _: u16) -> Option<u32> {
    store.find(partition, Key::Log { id, step }.stored())
}

fn right(list: &[(u32, u8)]) -> bool {
    let twice = (0..list.len()).any(|i| list[..i].iter().any(|(id, _)| *id == list[i].0));
    list.len() <= 16 && !twice && list.iter().all(|(_, mark)| *mark < 2)
}

fn add(list: &mut List, id: u32, booked: bool) -> u8 {
    let listed = list.iter().any(|(other, _)| *other == id);
    match (listed, booked) {
        (false, _) if list.len() == 16 => return 26,
        (_, false) => return 20,
        (false, true) => list.push((id, 0)),
        (true, true) => {}
    }
    0
}

fn take(list: &mut List) -> Option<u32> {
    let place = list.iter().position(|(_, mark)| *mark == 0)?;
    list[place].1 = 1;
    Some(list[place].0)
}

fn done(list: &mut List, id: u32, through: bool, _: bool) -> bool {
    let yes = through && list.contains(&(id, 1));
    if yes {
        list.retain(|(other, _)| *other != id);
    }
    yes
}

const RIGHT: Reading = Reading {
    right,
    add,
    take,
    done,
    find,
    without_blocks: true,
    restart: |list, right| {
        if right {
            list.iter_mut().for_each(|(_, mark)| *mark = 0);
        }
    },
    early: false,
    all_ask: false,
    reply_asks_14: false,
    value: |agent, d| agent.registers[d],
};

impl Given {
    /// The first no of 1 to 14: a crash of slot 8 meets 15 where there is none.
    fn first_no(&self, slots: Slots) -> Option<Refusal> {
        let mut given = (self.store.clone(), slots);
        let crash = Call::Crash { slot: 8 };
        let no = crash.perform(&self.pack, &mut given.0, &mut given.1);
        no.err().filter(|no| no.question != 15)
    }

    fn is_booked(&self, id: u32) -> bool {
        Store::read(self.store.as_slice()).is_ok_and(|store| store.request(id).is_some())
    }

    fn has_agent(&self, id: u32) -> bool {
        self.slots
            .iter()
            .any(|agent| agent.is_in_use() && agent.id == id)
    }

    /// The reply that the log leads to.
    fn reply(&self, reading: &Reading, id: u32) -> Option<u32> {
        let pack = Pack::read(&self.pack).ok()?;
        let store = Store::read(self.store.as_slice()).ok()?;
        let request = store.request(id)?;
        let workflow = pack.workflow(request.workflow)?;
        let mut agent = Agent::started(id, request.arguments);
        let mut partitions: Vec<usize> = Vec::new();
        loop {
            let position = agent.position as usize;
            let at = workflow.instruction(position)?;
            match at.operation {
                Operation::Return if !reading.without_blocks && partitions.is_empty() => {
                    return None;
                }
                Operation::Return => return Some((reading.value)(&agent, at.d)),
                Operation::Begin => {
                    let partition = at.w as usize;
                    let before = partitions.iter().filter(|p| **p == partition).count();
                    let step = partitions.len() as u16;
                    let find = reading.find;
                    agent.registers[0] = find(&store, partition, id, step, before as u16)?;
                    partitions.push(partition);
                    agent.position = workflow.behind_block(position) as u32;
                }
                _ => agent.position = do_one(at, position, &mut agent.registers) as u32,
            }
        }
    }

    fn perform(&mut self, reading: &Reading, call: &Call) -> Outcome {
        let no_25 = || Err(Refusal::of(25));
        let is_right = (reading.right)(&self.list);
        match *call {
            Call::Restart => {
                self.slots = ALL_EMPTY;
                (reading.restart)(&mut self.list, is_right);
                return Ok(Answer::Done);
            }
            Call::Add { .. } | Call::Take | Call::Done { .. } => {}
            Call::PutInOrder => return call.perform(&[], &mut self.store, &mut self.slots),
            // What it does is W-209, and `tests/wrong_retire.rs`.
            Call::Retire { .. } => return self.retire(call),
            _ if reading.all_ask && !is_right => return no_25(),
            _ => return call.perform(&self.pack, &mut self.store, &mut self.slots),
        }
        if reading.early && !is_right {
            return no_25();
        }
        if let Some(no) = self.first_no(self.slots) {
            return Err(no);
        }
        match is_right {
            true => self.on_list(reading, call),
            false => no_25(),
        }
    }

    /// By the reference.
    fn retire(&mut self, call: &Call) -> Outcome {
        let mut list = Worklist::of(&self.list);
        call.perform_listed(&self.pack, &mut self.store, &mut self.slots, &mut list)
    }

    /// Behind 25.
    fn on_list(&mut self, reading: &Reading, call: &Call) -> Outcome {
        let yes = |yes: bool| match yes {
            true => Ok(Answer::Done),
            false => Err(Refusal::of(27)),
        };
        match *call {
            Call::Add { id } => {
                let booked = self.is_booked(id);
                match (reading.add)(&mut self.list, id, booked) {
                    0 => Ok(Answer::Done),
                    number => Err(Refusal::of(number)),
                }
            }
            Call::Done { id } => {
                let through = self.reply(reading, id).is_some();
                let has_agent = self.has_agent(id);
                yes((reading.done)(&mut self.list, id, through, has_agent))
            }
            _ => {
                let taken = (reading.take)(&mut self.list);
                taken.map_or(yes(false), |id| Ok(Answer::Taken { id }))
            }
        }
    }

    fn read(&self, reading: &Reading, id: u32) -> Outcome {
        let slots = match reading.reply_asks_14 {
            true => self.slots,
            false => ALL_EMPTY,
        };
        if let Some(no) = self.first_no(slots) {
            return Err(no);
        }
        if !self.is_booked(id) {
            return Err(Refusal::of(20));
        }
        let reply = self.reply(reading, id);
        Ok(reply.map_or(Answer::NotYet, |value| Answer::Reply { id, value }))
    }
}

fn entries(list: &Worklist) -> List {
    let entries = list.entries.iter();
    entries.map(|entry| (entry.id, entry.mark)).collect()
}

fn single(case: &CallCase) -> Given {
    Given {
        pack: case.pack.clone(),
        store: case.store.clone(),
        slots: case.slots,
        list: case.list.as_ref().map_or(List::new(), entries),
    }
}

/// The answers of a case's calls and the list at its end; `None` of a case without either.
fn by_reading(case: &Case, reading: &Reading) -> Option<(Vec<Outcome>, List)> {
    match case {
        Case::Schedule { .. } => None,
        Case::Call(case) => {
            let mut given = single(case);
            let outcome = match case.order {
                Order::Call(call) => given.perform(reading, &call),
                Order::Reply { id } => given.read(reading, id),
                _ => return None,
            };
            Some((vec![outcome], given.list))
        }
        Case::List(case) => {
            let mut given = Given {
                pack: case.pack.clone(),
                store: case.store.clone(),
                slots: case.slots,
                list: entries(&case.list),
            };
            let calls = case.calls.iter();
            let outcomes = calls.map(|call| given.perform(reading, call)).collect();
            Some((outcomes, given.list))
        }
    }
}

/// The same by the reference.
fn by_reference(case: &Case) -> Option<(Vec<Outcome>, List)> {
    match case {
        Case::Schedule { .. } => None,
        Case::Call(case) => {
            let result = case.perform();
            let list = result.list.as_ref().map_or(List::new(), entries);
            let is_call = matches!(case.order, Order::Call(_) | Order::Reply { .. });
            is_call.then(|| (vec![result.outcome], list))
        }
        Case::List(case) => {
            let listed = case.perform();
            Some((listed.outcomes, entries(&listed.list)))
        }
    }
}

/// Stored cases of more than one seed.
#[test]
fn the_right_reading_is_the_reference() {
    let mut asked = [0; 4];
    for seed in [11, 12, 13] {
        for (number, case) in generate::cases(seed, 1_000).iter().enumerate() {
            let found = by_reading(case, &RIGHT);
            assert_eq!(found, by_reference(case), "seed {seed}, case {number}");
            for outcome in found.map_or(Vec::new(), |(outcomes, _)| outcomes) {
                match question(outcome) {
                    number @ 25..=27 => asked[usize::from(number) - 25] += 1,
                    _ => asked[3] += usize::from(matches!(outcome, Ok(Answer::Taken { .. }))),
                }
            }
        }
    }
    assert!(asked.iter().all(|times| *times > 10), "{asked:?}");
}

/// Wrong readings of question 25.
const LISTS: [(&str, Right); 8] = [
    ("17 ids pass", |list| list.len() == 17 || right(list)),
    ("any number passes", |list| list.len() > 16 || right(list)),
    ("16 are too many", |list| list.len() < 16 && right(list)),
    ("an id may stand twice", |list| {
        list.len() <= 16 && list.iter().all(|(_, mark)| *mark < 2)
    }),
    ("twice is side by side only", |list| {
        let apart = list.windows(2).all(|pair| pair[0].0 != pair[1].0);
        list.len() <= 16 && apart && list.iter().all(|(_, mark)| *mark < 2)
    }),
    ("twice is with one mark only", |list| {
        let twice = (0..list.len()).any(|i| list[..i].contains(&list[i]));
        list.len() <= 16 && !twice && list.iter().all(|(_, mark)| *mark < 2)
    }),
    ("mark 2 passes", |list| {
        let marks: List = list.iter().map(|(id, mark)| (*id, mark % 2)).collect();
        right(&marks)
    }),
    ("the last mark isn't asked about", |list| {
        let mut marks = list.to_vec();
        if let Some(last) = marks.last_mut() {
            last.1 = 0;
        }
        right(&marks)
    }),
];

const ADDS: [(&str, Add); 7] = [
    ("26 is put to a listed id", |list, id, booked| {
        match list.len() {
            16 => 26,
            _ => add(list, id, booked),
        }
    }),
    ("20 comes before 26", |list, id, booked| match booked {
        true => add(list, id, booked),
        false => 20,
    }),
    ("20 isn't put to a listed id", |list, id, booked| {
        let listed = list.iter().any(|(other, _)| *other == id);
        add(list, id, booked || listed)
    }),
    ("20 isn't put", |list, id, _| add(list, id, true)),
    ("add lets a taken id wait", |list, id, booked| {
        let answer = add(list, id, booked);
        let own = list.iter_mut().filter(|(other, _)| *other == id);
        own.filter(|_| answer == 0).for_each(|(_, mark)| *mark = 0);
        answer
    }),
    ("add moves a listed id to the end", |list, id, booked| {
        let answer = add(list, id, booked);
        let place = list.iter().position(|(other, _)| *other == id);
        if let (0, Some(place)) = (answer, place) {
            list[place..].rotate_left(1);
        }
        answer
    }),
    ("add puts an id at the front", |list, id, booked| {
        let count = list.len();
        let answer = add(list, id, booked);
        if list.len() > count {
            list.rotate_right(1);
        }
        answer
    }),
];

const TAKES: [(&str, Take); 4] = [
    ("take gives the last waiting", |list| {
        list.reverse();
        let taken = take(list);
        list.reverse();
        taken
    }),
    ("take gives the first of all", |list| {
        let first = list.first_mut()?;
        first.1 = 1;
        Some(first.0)
    }),
    ("take does not mark", |list| take(&mut list.clone())),
    ("take moves the id to the end", |list| {
        let id = take(list)?;
        list.retain(|(other, _)| *other != id);
        list.push((id, 1));
        Some(id)
    }),
];

const DONES: [(&str, Done); 5] = [
    ("done of a waiting id", |list, id, through, agent| {
        let own = list.iter_mut().filter(|(other, _)| *other == id);
        own.filter(|_| through).for_each(|(_, mark)| *mark = 1);
        done(list, id, through, agent)
    }),
    ("done doesn't look at the log", |list, id, _, agent| {
        done(list, id, true, agent)
    }),
    ("done looks at the slots", |list, id, through, agent| {
        done(list, id, through && !agent, agent)
    }),
    ("done of an unlisted id", |list, id, through, agent| {
        let listed = list.iter().any(|(other, _)| *other == id);
        done(list, id, through, agent) || !listed
    }),
    (
        "the last one takes its place",
        |list, id, through, agent| {
            let place = list.iter().position(|(other, _)| *other == id);
            let mut swapped = list.clone();
            let yes = done(list, id, through, agent);
            if let (true, Some(place)) = (yes, place) {
                swapped.swap_remove(place);
                *list = swapped;
            }
            yes
        },
    ),
];

/// Wrong readings of which log row is a step's.
const FINDS: [(&str, Find); 6] = [
    ("a log row of any partition", |store, _, id, step, _| {
        (0..store.shape().partitions).find_map(|p| find(store, p, id, step, 0))
    }),
    ("steps per partition", |store, partition, id, _, before| {
        find(store, partition, id, before, 0)
    }),
    ("a log row by id alone", |store, partition, id, _, _| {
        (0..9).find_map(|step| find(store, partition, id, step, 0))
    }),
    ("steps from 1 on", |store, partition, id, step, _| {
        find(store, partition, id, step + 1, 0)
    }),
    (
        "a missing row counts as 0",
        |store, partition, id, step, _| Some(find(store, partition, id, step, 0).unwrap_or(0)),
    ),
    (
        "the row is there, its value isn't read",
        |store, partition, id, step, _| find(store, partition, id, step, 0).map(|_| 0),
    ),
];

const RESTARTS: [(&str, Restart); 3] = [
    ("a restart touches each list", |list, _| {
        list.iter_mut().for_each(|(_, mark)| *mark = 0);
    }),
    ("a restart touches no list", |_, _| {}),
    ("a restart empties the list", |list, _| list.clear()),
];

const VALUES: [(&str, Value); 2] = [
    ("the reply is register 0", |agent, _| agent.registers[0]),
    ("the reply is always 0", |_, _| 0),
];

/// Who asks what, and what counts without a row.
fn wrong_askers() -> [(&'static str, Reading); 4] {
    let mut all = [RIGHT; 4];
    all[0].early = true;
    all[1].all_ask = true;
    all[2].without_blocks = false;
    all[3].reply_asks_14 = true;
    let [early, all_ask, without_blocks, reply_asks_14] = all;
    [
        ("25 before 1 to 14", early),
        ("every call puts 25", all_ask),
        ("a request without blocks isn't logged", without_blocks),
        ("the reading call puts 14", reply_asks_14),
    ]
}

/// The right reading with one thing changed, for each of these.
fn with<T: Copy>(wrong: &[(&'static str, T)], change: fn(&mut Reading, T)) -> Vec<Named> {
    let changed = |(name, way): &(&'static str, T)| {
        let mut reading = RIGHT;
        change(&mut reading, *way);
        (*name, reading)
    };
    wrong.iter().map(changed).collect()
}

type Named = (&'static str, Reading);

#[test]
fn each_wrong_reading_shows_in_the_stored_cases() {
    let cases = generate::cases(11, 1_000);
    let all = [
        with(&LISTS, |reading, way| reading.right = way),
        with(&ADDS, |reading, way| reading.add = way),
        with(&TAKES, |reading, way| reading.take = way),
        with(&DONES, |reading, way| reading.done = way),
        with(&FINDS, |reading, way| reading.find = way),
        with(&RESTARTS, |reading, way| reading.restart = way),
        with(&VALUES, |reading, way| reading.value = way),
        wrong_askers().to_vec(),
    ];
    for (name, reading) in all.concat() {
        let differs = |case: &&Case| by_reading(case, &reading) != by_reading(case, &RIGHT);
        let times = cases.iter().filter(differs).count();
        assert!(times >= 3, "{name}: {times}");
    }
}
