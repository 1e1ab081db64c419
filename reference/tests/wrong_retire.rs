//! W-209 written once more, so that each wrong reading of it can be tried: it gives another answer
//! or another store in some stored cases (seed 11). The right one agrees with all. What the
//! reference does here is done on a store whose floor row was taken out, so that it knows no floor.

mod common;

use common::question;
use reference::agents::{Slots, ALL_EMPTY};
use reference::cases::{Case, Order};
use reference::store::{Key, Request, Store};
use reference::worklist::reply_from_log;
use reference::{calls, generate, Answer, Call, Outcome, Pack, Refusal, Worklist};

type Rows = Vec<(u64, u32)>;

const FLOOR: u64 = 1_099_511_627_776;

/// What a call is given.
#[derive(Clone)]
struct Given {
    pack: Vec<u8>,
    store: Vec<u8>,
    slots: Slots,
    list: Worklist,
}

/// What 28 may look at of a smaller booked id.
struct Facts {
    through: bool,
    /// In a slot in use, and in any record.
    in_slot: bool,
    in_record: bool,
    waiting: bool,
    taken: bool,
}

/// What an arrival is asked behind 16 and about which floor; 0 is a yes so far.
struct Arrives {
    id: u32,
    floor: u32,
    /// Whether 17 says yes, and 18 and 19.
    has_workflow: bool,
    rest: u8,
}

/// A row of a partition that a retire may remove.
struct Row {
    partition: usize,
    last: bool,
    key: u64,
    floor: u32,
    booked: bool,
}

#[derive(Clone, Copy)]
struct Reading {
    /// Question 11: whether the floor's row is a book form.
    form: bool,
    /// Question 12: whether a booked id is refused for the floor, and whether a floor row is.
    below: fn(u32, u32) -> bool,
    lone: bool,
    /// Question 13: whether the value is a workflow number.
    numbers: bool,
    /// Whether 19 counts the floor's row.
    counted: bool,
    arrives: fn(&Arrives) -> u8,
    smaller: fn(u32, u32) -> bool,
    may_go: fn(&Facts) -> bool,
    /// Whether 28 asks about listed ids that are not booked too.
    unbooked: bool,
    /// Question 29, from how many smaller ids are booked and whether smaller ids are logged.
    any: fn(usize, bool) -> bool,
    /// Whether 25 is put, and whether behind 28 and 29.
    list: bool,
    list_late: bool,
    goes: fn(&Row) -> bool,
    /// The floor that is kept, from the one named, the one before and the greatest retired id.
    kept: fn(u32, Option<u32>, u32) -> Option<u32>,
    /// Whether rows that come free are zero.
    zero: bool,
}

fn arrives(arrival: &Arrives) -> u8 {
    match arrival {
        Arrives { id: 0, .. } => 24,
        Arrives { id, floor, .. } if id < floor => 30,
        Arrives {
            has_workflow: false,
            ..
        } => 17,
        Arrives { rest, .. } => *rest,
    }
}

fn may_go(facts: &Facts) -> bool {
    facts.through && !facts.in_slot && !facts.waiting && !facts.taken
}

fn goes(row: &Row) -> bool {
    row.key < 1 << 63 && row.key / 65_536 < u64::from(row.floor)
}

const RIGHT: Reading = Reading {
    form: true,
    below: |id, floor| id < floor,
    lone: true,
    numbers: false,
    counted: true,
    arrives,
    smaller: |id, floor| id < floor,
    may_go,
    unbooked: false,
    any: |booked, _| booked > 0,
    list: true,
    list_late: false,
    goes,
    kept: |floor, _, _| Some(floor),
    zero: true,
};

/// The rows of every partition and of the book, written over what stood there.
fn write(store: &mut [u8], all: &[Rows], zero: bool) {
    let shape = Store::lay_out(&*store).expect("laid out").shape();
    for (partition, rows) in all.iter().enumerate() {
        let used = (rows.len() as u16).to_le_bytes();
        store[shape.used_at(partition)..][..2].copy_from_slice(&used);
        for place in 0..shape.rows {
            let row = rows.get(place).copied();
            if !zero && row.is_none() {
                continue;
            }
            let (key, value) = row.unwrap_or((0, 0));
            store[shape.key_at(partition, place)..][..8].copy_from_slice(&key.to_le_bytes());
            store[shape.value_at(partition, place)..][..4].copy_from_slice(&value.to_le_bytes());
        }
    }
}

fn read(store: &[u8]) -> Vec<Rows> {
    let store = Store::lay_out(store).expect("laid out");
    let partitions = 0..=store.shape().book();
    partitions.map(|p| store.rows(p).collect()).collect()
}

/// A store without its floor row, and that row: whether it is there twice, or not at the end.
struct Split {
    rest: Vec<u8>,
    floor: Option<u32>,
    twice: bool,
    last: bool,
}

impl Split {
    /// Of a store that is not laid out, or whose book uses more rows than it has, nothing is taken.
    fn of(bytes: &[u8]) -> Self {
        let mut split = Self {
            rest: bytes.to_vec(),
            floor: None,
            twice: false,
            last: true,
        };
        let Ok(store) = Store::lay_out(bytes) else {
            return split;
        };
        let (book, rows) = (store.shape().book(), store.shape().rows);
        let used = store.used(book);
        let Some(place) = store.rows(book).position(|(key, _)| key == FLOOR) else {
            return split;
        };
        if (0..=book).any(|partition| store.used(partition) > rows) {
            return split;
        }
        // A place that is not used must be zero for the rest too.
        let mut all: Vec<(u64, u32)> = (0..rows)
            .map(|r| (store.key(book, r), store.value(book, r)))
            .collect();
        let (_, value) = all.remove(place);
        all.push((0, 0));
        split.floor = Some(value);
        split.twice = all[..used - 1].iter().any(|(key, _)| *key == FLOOR);
        split.last = place + 1 == used;
        let shape = store.shape();
        for (row, (key, value)) in all.into_iter().enumerate() {
            split.rest[shape.key_at(book, row)..][..8].copy_from_slice(&key.to_le_bytes());
            split.rest[shape.value_at(book, row)..][..4].copy_from_slice(&value.to_le_bytes());
        }
        let used = (used as u16 - 1).to_le_bytes();
        split.rest[shape.used_at(book)..][..2].copy_from_slice(&used);
        split
    }

    fn booked(&self) -> Vec<u32> {
        Store::lay_out(self.rest.as_slice()).map_or(Vec::new(), |store| store.booked_ids())
    }

    /// The first of 11, 12 and 13 that the floor's row is refused by, 0 if none.
    fn no(&self, reading: &Reading, earlier: bool, workflows: u32) -> u8 {
        let Some(floor) = self.floor else {
            return 0;
        };
        match () {
            () if !reading.form || self.twice || !(self.last || earlier) => 11,
            () if !reading.lone => 12,
            () if self.booked().iter().any(|id| (reading.below)(*id, floor)) => 12,
            () if reading.numbers && !earlier && floor >= workflows => 13,
            () => 0,
        }
    }

    /// The rest with the floor's row at its end again.
    fn join(&self, mut rest: Vec<u8>) -> Vec<u8> {
        let Some(floor) = self.floor else {
            return rest;
        };
        let mut all = read(&rest);
        all.last_mut().expect("the book").push((FLOOR, floor));
        write(&mut rest, &all, true);
        rest
    }
}

impl Given {
    /// The first no of 1 to 14, or of 1 to 13: a crash of slot 8 meets 15 where there is none.
    fn first_no(&self, reading: &Reading, split: &Split, slots: Slots) -> Option<Refusal> {
        let mut given = (split.rest.clone(), slots);
        let crash = Call::Crash { slot: 8 };
        let no = crash.perform(&self.pack, &mut given.0, &mut given.1);
        let no = no.err().filter(|no| no.question != 15);
        let workflows = u32::from(self.pack.first().copied().unwrap_or(0));
        let own = split.no(reading, false, workflows);
        match no {
            Some(no) if own == 0 || no.question < own => Some(no),
            _ => (own > 0).then(|| Refusal::of(own)),
        }
    }

    fn perform(&mut self, reading: &Reading, call: &Call) -> Outcome {
        let split = Split::of(&self.store);
        match *call {
            Call::Restart => {}
            Call::PutInOrder => return self.put_in_order(reading, &split),
            _ => {
                if let Some(no) = self.first_no(reading, &split, self.slots) {
                    return Err(no);
                }
            }
        }
        match *call {
            Call::Restart => {
                let mut store = self.store.clone();
                self.by_reference(call, &mut store)
            }
            Call::Retire { floor } => self.retire(reading, &split, floor),
            Call::Arrival { slot, request } => self.arrival(reading, &split, slot, request),
            _ => {
                let mut rest = split.rest.clone();
                let outcome = self.by_reference(call, &mut rest)?;
                self.store = split.join(rest);
                Ok(outcome)
            }
        }
    }

    fn by_reference(&mut self, call: &Call, store: &mut [u8]) -> Outcome {
        call.perform_listed(&self.pack, store, &mut self.slots, &mut self.list)
    }

    fn put_in_order(&mut self, reading: &Reading, split: &Split) -> Outcome {
        let own = split.no(reading, true, 0);
        let mut rest = split.rest.clone();
        let outcome = self.by_reference(&Call::PutInOrder, &mut rest);
        match outcome {
            Err(no) if own == 0 || no.question < own => return Err(no),
            _ if own > 0 => return Err(Refusal::of(own)),
            _ => self.store = split.join(rest),
        }
        outcome
    }

    /// 15 and 16 are the reference's, and so are 18 and 19 where a row more is used.
    fn arrival(&mut self, reading: &Reading, split: &Split, slot: u32, asked: Request) -> Outcome {
        let floor = split.floor.unwrap_or(0);
        let mut rest = split.rest.clone();
        let mut slots = self.slots;
        let any = Request { id: 1, ..asked };
        let first = calls::arrival(&self.pack, &mut rest.clone(), &mut slots.clone(), slot, any);
        if let Err(
            no @ Refusal {
                question: 15 | 16, ..
            },
        ) = first
        {
            return Err(no);
        }
        let store = Store::lay_out(split.rest.as_slice()).expect("laid out");
        let (free, known) = (
            store.free(store.shape().book()),
            store.request(asked.id).is_some(),
        );
        let outcome = calls::arrival(&self.pack, &mut rest, &mut slots, slot, asked);
        let pack = Pack::read(&self.pack).expect("it passed 8");
        let shut = reading.counted && split.floor.is_some() && !known && free == 5;
        let facts = Arrives {
            id: asked.id,
            floor,
            has_workflow: pack.workflow(asked.workflow).is_some(),
            rest: if shut { 19 } else { question(outcome) },
        };
        match (reading.arrives)(&facts) {
            // A reading that lets a late id 0 or workflow through is not followed further.
            0 if outcome.is_err() => outcome,
            0 => {
                (self.store, self.slots) = (split.join_if_room(rest), slots);
                outcome
            }
            number => Err(Refusal::of(number)),
        }
    }

    fn retire(&mut self, reading: &Reading, split: &Split, floor: u32) -> Outcome {
        if reading.list && !reading.list_late && !self.list.is_right() {
            return Err(Refusal::of(25));
        }
        let mut smaller = split.booked();
        smaller.retain(|id| (reading.smaller)(*id, floor));
        let unbooked = |id: &u32| !split.booked().contains(id) && (reading.smaller)(*id, floor);
        let none_listed = !reading.unbooked || !self.list.ids().iter().any(unbooked);
        let all = smaller
            .iter()
            .all(|id| (reading.may_go)(&self.facts(split, *id)));
        if !all || !none_listed {
            return Err(Refusal::of(28));
        }
        if !(reading.any)(smaller.len(), self.is_logged(floor)) {
            return Err(Refusal::of(29));
        }
        if reading.list && !self.list.is_right() {
            return Err(Refusal::of(25));
        }
        self.remove(reading, split, floor, &smaller);
        Ok(Answer::Done)
    }

    fn facts(&self, split: &Split, id: u32) -> Facts {
        let pack = Pack::read(&self.pack).expect("it passed 8");
        let store = Store::lay_out(split.rest.as_slice()).expect("laid out");
        Facts {
            through: reply_from_log(&pack, &store, id).is_some(),
            in_slot: self
                .slots
                .iter()
                .any(|agent| agent.in_use == 1 && agent.id == id),
            in_record: self.slots.iter().any(|agent| agent.id == id),
            waiting: self.list.marked(0).contains(&id),
            taken: self.list.marked(1).contains(&id),
        }
    }

    /// Whether a smaller id has a log row.
    fn is_logged(&self, floor: u32) -> bool {
        let all = read(&self.store);
        let mut keys = all[..all.len() - 1].iter().flatten().map(|(key, _)| *key);
        keys.any(|key| key < u64::from(floor) * 65_536)
    }

    fn remove(&mut self, reading: &Reading, split: &Split, floor: u32, smaller: &[u32]) {
        let mut all = read(&self.store);
        let book = all.len() - 1;
        for (partition, rows) in all[..book].iter_mut().enumerate() {
            rows.retain(|(key, _)| {
                let id = (key / 65_536) as u32;
                !(reading.goes)(&Row {
                    partition,
                    last: partition + 1 == book,
                    key: *key,
                    floor,
                    booked: smaller.contains(&id),
                })
            });
        }
        let kept = |key: &u64| *key != FLOOR && !smaller.contains(&((key / 8) as u32));
        all[book].retain(|(key, _)| kept(key));
        let greatest = smaller.iter().max().copied().unwrap_or(0);
        let floor = (reading.kept)(floor, split.floor, greatest);
        all[book].extend(floor.map(|floor| (FLOOR, floor)));
        write(&mut self.store, &all, reading.zero);
    }

    fn read(&self, reading: &Reading, id: u32) -> Outcome {
        let split = Split::of(&self.store);
        match self.first_no(reading, &split, ALL_EMPTY) {
            Some(no) => Err(no),
            None => calls::reply(&self.pack, &split.rest, id),
        }
    }
}

impl Split {
    /// Where an arrival filled the book to its last row, as a wrong reading lets it, no row is left.
    fn join_if_room(&self, rest: Vec<u8>) -> Vec<u8> {
        let store = Store::lay_out(rest.as_slice()).expect("laid out");
        match store.free(store.shape().book()) {
            0 => rest,
            _ => self.join(rest),
        }
    }
}

/// The answers of a case's calls and what the last one left; `None` of a case without calls.
type Came = Option<(Vec<Outcome>, Vec<u8>)>;

fn by_reading(case: &Case, reading: &Reading) -> Came {
    match case {
        Case::Schedule { .. } => None,
        Case::Call(case) => {
            let mut given = Given {
                pack: case.pack.clone(),
                store: case.store.clone(),
                slots: case.slots,
                list: case.list.clone().unwrap_or_default(),
            };
            let outcome = match case.order {
                Order::Call(call) => given.perform(reading, &call),
                Order::Reply { id } => given.read(reading, id),
                _ => return None,
            };
            Some((vec![outcome], given.store))
        }
        Case::List(case) => {
            let mut given = Given {
                pack: case.pack.clone(),
                store: case.store.clone(),
                slots: case.slots,
                list: case.list.clone(),
            };
            let calls = case.calls.iter();
            let outcomes = calls.map(|call| given.perform(reading, call)).collect();
            Some((outcomes, given.store))
        }
    }
}

fn by_reference(case: &Case) -> Came {
    match case {
        Case::Schedule { .. } => None,
        Case::Call(case) => {
            let result = case.perform();
            let is_call = matches!(case.order, Order::Call(_) | Order::Reply { .. });
            is_call.then(|| (vec![result.outcome], result.store))
        }
        Case::List(case) => {
            let listed = case.perform();
            Some((listed.outcomes, listed.store))
        }
    }
}

/// Stored cases of more than one seed.
#[test]
fn the_right_reading_is_the_reference() {
    let mut asked = [0; 4];
    for seed in [11, 12, 13] {
        for (number, case) in generate::cases(seed, 1_000).iter().enumerate() {
            let found = by_reading(case, &RIGHT);
            assert_eq!(found, by_reference(case), "seed {seed}, case {number}");
            let is_retire = matches!(case, Case::Call(case)
                if matches!(case.order, Order::Call(Call::Retire { .. })));
            for outcome in found.map_or(Vec::new(), |(outcomes, _)| outcomes) {
                match question(outcome) {
                    number @ 28..=30 => asked[usize::from(number) - 28] += 1,
                    number => asked[3] += usize::from(is_retire && number == 0),
                }
            }
        }
    }
    assert!(asked.iter().all(|times| *times > 50), "{asked:?}");
}

type Named = (&'static str, fn(&mut Reading));

/// What 11 to 13 and 19 make of the floor's row.
const ROWS: [Named; 6] = [
    ("11 refuses the floor's row", |r| r.form = false),
    ("12 without the floor", |r| r.below = |_, _| false),
    ("12 refuses the floor's own id", |r| {
        r.below = |id, floor| id <= floor
    }),
    ("the floor's row lacks four", |r| r.lone = false),
    ("the floor is a workflow number", |r| r.numbers = true),
    ("19 does not count the floor's row", |r| r.counted = false),
];

/// Where 30 stands, and what it asks.
const ARRIVALS: [Named; 6] = [
    ("30 before 24", |r| {
        r.arrives = |a| if a.id < a.floor { 30 } else { arrives(a) };
    }),
    ("30 behind 17", |r| {
        r.arrives = |a| match arrives(a) {
            30 if !a.has_workflow => 17,
            number => number,
        };
    }),
    ("30 behind 19", |r| {
        r.arrives = |a| match arrives(a) {
            30 if !a.has_workflow => 17,
            30 if a.rest != 0 => a.rest,
            number => number,
        };
    }),
    ("no 30", |r| {
        r.arrives = |a| match arrives(a) {
            30 if !a.has_workflow => 17,
            30 => a.rest,
            number => number,
        };
    }),
    ("30 for the floor's own id", |r| {
        r.arrives = |a| match a.id {
            0 => 24,
            id if id <= a.floor => 30,
            _ => arrives(a),
        };
    }),
    ("a floor answers 20", |r| {
        r.arrives = |a| match arrives(a) {
            30 => 20,
            number => number,
        };
    }),
];

/// Who may go, and what is asked first.
const ASKED: [Named; 13] = [
    ("not logged through may go", |r| {
        r.may_go = |f| !f.in_slot && !f.waiting && !f.taken;
    }),
    ("slots are not asked about", |r| {
        r.may_go = |f| f.through && !f.waiting && !f.taken;
    }),
    ("an empty record is one of id 0", |r| {
        r.may_go = |f| may_go(f) && !f.in_record;
    }),
    ("the worklist is not asked about", |r| {
        r.may_go = |f| f.through && !f.in_slot;
    }),
    ("a taken id may go", |r| {
        r.may_go = |f| f.through && !f.in_slot && !f.waiting;
    }),
    ("a waiting id may go", |r| {
        r.may_go = |f| f.through && !f.in_slot && !f.taken;
    }),
    ("28 of ids that are not booked", |r| r.unbooked = true),
    ("the floor's own id goes too", |r| {
        r.smaller = |id, floor| id <= floor
    }),
    ("no 29", |r| r.any = |_, _| true),
    ("29 takes a log row for a booking", |r| {
        r.any = |booked, logged| booked > 0 || logged;
    }),
    ("no 25", |r| r.list = false),
    ("25 behind 28 and 29", |r| r.list_late = true),
    ("two at least", |r| r.any = |booked, _| booked > 1),
];

/// What is left.
const LEFT: [Named; 13] = [
    ("log rows stay", |r| r.goes = |_| false),
    ("log rows of ids that are not booked stay", |r| {
        r.goes = |row| goes(row) && row.booked;
    }),
    ("log rows of partition 0 only", |r| {
        r.goes = |row| goes(row) && row.partition == 0;
    }),
    ("log rows of the last partition stay", |r| {
        r.goes = |row| goes(row) && !row.last;
    }),
    ("log rows of step 0 only", |r| {
        r.goes = |row| goes(row) && row.key % 65_536 == 0;
    }),
    ("log rows of the floor's own id go", |r| {
        r.goes = |row| row.key < 1 << 63 && row.key / 65_536 <= u64::from(row.floor);
    }),
    ("data rows below the floor go", |r| {
        r.goes = |row| match Key::of_stored(row.key) {
            Some(Key::Data(key)) => key < row.floor,
            _ => goes(row),
        };
    }),
    ("all log rows go", |r| r.goes = |row| row.key < 1 << 63),
    ("no floor is kept", |r| r.kept = |_, _, _| None),
    ("the floor's old row stays", |r| {
        r.kept = |floor, before, _| before.or(Some(floor));
    }),
    ("the floor is one more", |r| {
        r.kept = |floor, _, _| Some(floor.saturating_add(1));
    }),
    ("the floor is behind the greatest that went", |r| {
        r.kept = |_, _, greatest| Some(greatest + 1);
    }),
    ("rows that come free are not zero", |r| r.zero = false),
];

#[test]
fn each_wrong_reading_shows_in_the_stored_cases() {
    let cases = generate::cases(11, 1_000);
    let right: Vec<Came> = cases.iter().map(|case| by_reading(case, &RIGHT)).collect();
    let mut few = Vec::new();
    for (name, change) in [&ROWS[..], &ARRIVALS, &ASKED, &LEFT].concat() {
        let mut reading = RIGHT;
        change(&mut reading);
        let pairs = cases.iter().zip(&right);
        let differs = |(case, right): &(&Case, &Came)| by_reading(case, &reading) != **right;
        let times = pairs.filter(differs).count();
        if times < 3 {
            few.push((name, times));
        }
    }
    assert!(few.is_empty(), "{few:?}");
}
