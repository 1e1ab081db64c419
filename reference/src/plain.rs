//! The plain machine, and a witness that holds a list of calls to demand 3, to W-207, to what W-208
//! promises of the worklist and to what W-209 promises of retired requests.

use std::collections::BTreeMap;

use crate::agents::{Agent, Slots, ALL_EMPTY, SLOTS};
use crate::calls::{Answer, Call, Outcome};
use crate::kept::Kept;
use crate::operations::{do_one, run_block, Registers};
use crate::pack::{Operation, Pack};
use crate::refusal::QUESTIONS;
use crate::retired::Retired;
use crate::schedule;
use crate::store::{self, Key, Request, Store, MOST_PARTITIONS};
use crate::sums::{is_only_move, under_way, Sums, DIVISOR};
use crate::worklist::Worklist;

/// A booked request's agent in the plain machine.
#[derive(Clone, Debug)]
struct PlainAgent {
    workflow: u32,
    position: usize,
    registers: Registers,
    moves: usize,
}

/// Tables, one agent for each booked request, and a list of replies. No log, no slots.
pub struct Machine<'a> {
    pack: Pack<'a>,
    tables: [BTreeMap<u32, u32>; MOST_PARTITIONS],
    agents: BTreeMap<u32, PlainAgent>,
    replies: Vec<(u32, u32)>,
}

impl<'a> Machine<'a> {
    pub fn new(pack: Pack<'a>) -> Self {
        Self {
            pack,
            tables: Default::default(),
            agents: BTreeMap::new(),
            replies: Vec::new(),
        }
    }

    pub fn pack(&self) -> &Pack<'a> {
        &self.pack
    }

    pub fn has_booked(&self, id: u32) -> bool {
        self.agents.contains_key(&id)
    }

    pub fn moves(&self, id: u32) -> usize {
        self.agents.get(&id).map_or(0, |agent| agent.moves)
    }

    pub fn replies(&self) -> &[(u32, u32)] {
        &self.replies
    }

    pub fn table(&self, partition: usize) -> &BTreeMap<u32, u32> {
        &self.tables[partition]
    }

    /// The size of the workflow that an id is booked with.
    pub fn size(&self, id: u32) -> Option<usize> {
        let agent = self.agents.get(&id)?;
        let workflow = self.pack.workflow(agent.workflow)?;
        Some(workflow.size())
    }

    /// Booking: adds the request with a started agent and no moves.
    pub fn book(&mut self, request: &Request) {
        let agent = PlainAgent {
            workflow: request.workflow,
            position: 0,
            registers: Agent::started(request.id, request.arguments).registers,
            moves: 0,
        };
        self.agents.insert(request.id, agent);
    }

    /// Move: the id's agent does what a turn does. `None` if there is no such agent.
    pub fn move_on(&mut self, id: u32) -> Option<()> {
        let agent = self.agents.get_mut(&id)?;
        let workflow = self.pack.workflow(agent.workflow)?;
        let instruction = workflow.instruction(agent.position)?;
        match instruction.operation {
            Operation::Return => self.replies.push((id, agent.registers[instruction.d])),
            Operation::Begin => {
                let table = &mut self.tables[instruction.w as usize];
                let find = |key: u32| table.get(&key).copied();
                let run = run_block(&workflow, agent.position, agent.registers, find);
                table.extend(run.puts);
                agent.registers[0] = run.result;
                agent.position = workflow.behind_block(agent.position);
            }
            _ => agent.position = do_one(instruction, agent.position, &mut agent.registers),
        }
        agent.moves += 1;
        Some(())
    }
}

/// What was counted while a list of calls was watched.
#[derive(Clone, Debug, Default, PartialEq, Eq)]
pub struct Tally {
    pub calls: usize,
    pub arrivals: usize,
    pub bookings: usize,
    pub retries: usize,
    pub turns: usize,
    pub moves: usize,
    pub crashes: usize,
    pub restarts: usize,
    pub orders: usize,
    /// Accepted calls on the worklist, and how often a restart found an id taken.
    pub adds: usize,
    pub takes: usize,
    pub dones: usize,
    pub waiting_again: usize,
    /// Accepted calls that retire, and the requests that they retired.
    pub retires: usize,
    pub retired: usize,
    pub first_replies: usize,
    pub later_replies: usize,
    pub full_lives: usize,
    pub data_rows: usize,
    /// How many times the data values and the amounts under way were added up, and how many of
    /// these times an amount other than 0 was under way.
    pub times_added_up: usize,
    pub times_under_way: usize,
    /// Refused calls by question number.
    pub refused: [usize; QUESTIONS.len() + 1],
}

impl Tally {
    pub fn add(&mut self, other: &Tally) {
        self.calls += other.calls;
        self.arrivals += other.arrivals;
        self.bookings += other.bookings;
        self.retries += other.retries;
        self.turns += other.turns;
        self.moves += other.moves;
        self.crashes += other.crashes;
        self.restarts += other.restarts;
        self.orders += other.orders;
        self.adds += other.adds;
        self.takes += other.takes;
        self.dones += other.dones;
        self.waiting_again += other.waiting_again;
        self.retires += other.retires;
        self.retired += other.retired;
        self.first_replies += other.first_replies;
        self.later_replies += other.later_replies;
        self.full_lives += other.full_lives;
        self.data_rows += other.data_rows;
        self.times_added_up += other.times_added_up;
        self.times_under_way += other.times_under_way;
        for (own, more) in self.refused.iter_mut().zip(other.refused) {
            *own += more;
        }
    }
}

/// The last accepted arrival or retry on a slot, and the accepted turns since.
#[derive(Clone, Copy, Debug)]
struct Life {
    id: u32,
    turns: usize,
}

/// Watches a list of calls from its start, a fresh store with all slots and the worklist empty,
/// feeds the plain machine, and says at the end whether demand 3 holds of the list, and W-207,
/// W-208 and W-209 after each call.
pub struct Witness<'a> {
    machine: Machine<'a>,
    /// Whether MOVE is the only workflow, of which alone W-207 speaks.
    only_move: bool,
    lives: [Option<Life>; SLOTS],
    replied: BTreeMap<u32, u32>,
    first_replies: Vec<(u32, u32)>,
    kept: Kept,
    retired: Retired,
    /// The first violation of demand 3, and the first of W-207: neither hides the other, nor
    /// that of W-208 or of W-209.
    violation: Option<String>,
    not_divisible: Option<String>,
    tally: Tally,
}

impl<'a> Witness<'a> {
    pub fn new(pack: Pack<'a>) -> Self {
        Self {
            only_move: is_only_move(&pack),
            machine: Machine::new(pack),
            lives: [None; SLOTS],
            replied: BTreeMap::new(),
            first_replies: Vec::new(),
            kept: Kept::default(),
            retired: Retired::default(),
            violation: None,
            not_divisible: None,
            tally: Tally::default(),
        }
    }

    /// The next call of the list, and what came of it.
    pub fn see(&mut self, call: &Call, outcome: &Outcome) {
        self.tally.calls += 1;
        let answer = match outcome {
            Ok(answer) => *answer,
            Err(refusal) => {
                self.tally.refused[usize::from(refusal.question)] += 1;
                return;
            }
        };
        match *call {
            Call::Arrival { slot, request } => self.see_arrival(slot, &request),
            Call::Retry { slot, id } => {
                self.tally.retries += 1;
                self.start_life(slot, id);
            }
            Call::Turn { slot } => self.see_turn(slot, answer),
            Call::Crash { .. } => self.tally.crashes += 1,
            Call::Restart => self.tally.restarts += 1,
            Call::PutInOrder => self.tally.orders += 1,
            // These feed the machine nothing; it still counts what a retire removes.
            Call::Add { .. } => self.tally.adds += 1,
            Call::Take => self.tally.takes += 1,
            Call::Done { .. } => self.tally.dones += 1,
            Call::Retire { .. } => self.tally.retires += 1,
        }
    }

    /// What the call was given and what it left. The store it leaves is right and its rows
    /// alone say its bytes; a store that is in order already has nothing to be put in order.
    pub fn see_left(&mut self, call: &Call, given: &State, left: &State) {
        if *call == Call::PutInOrder && given != left {
            self.blame("a store in order, a slot or the worklist was changed".to_string());
        }
        if given.store != left.store {
            self.see_store(&left.store);
        }
        if self.only_move {
            self.add_up(&left.store);
        }
        let pack = &self.machine.pack;
        self.kept.see(pack, call, (given, left), &self.replied);
        self.retired.see(&self.machine, call, (given, left));
    }

    /// W-207 of what a call left, whether or not it was accepted and changed anything.
    fn add_up(&mut self, bytes: &[u8]) {
        // A call that left bytes which are no store was blamed for them.
        let Ok(store) = Store::lay_out(bytes) else {
            return;
        };
        let sums = Sums::of(&store);
        self.tally.times_added_up += 1;
        self.tally.times_under_way += usize::from(sums.under_way > 0);
        if !sums.is_divisible() {
            let what = format!(
                "after {} calls data {} and under way {} {:?} come to {}, not divisible by {DIVISOR}",
                self.tally.calls,
                sums.data,
                sums.under_way,
                under_way(&store),
                sums.together()
            );
            self.not_divisible.get_or_insert(what);
        }
    }

    fn see_store(&mut self, bytes: &[u8]) {
        match Store::read(bytes) {
            Ok(store) if bytes != store::encode(store.shape(), &contents(&store)) => {
                self.blame("equal contents have other bytes".to_string());
            }
            Ok(_) => {}
            Err(refusal) => self.blame(format!("the store is refused: {}", refusal.question)),
        }
    }

    fn see_arrival(&mut self, slot: u32, request: &Request) {
        self.tally.arrivals += 1;
        if request.id == 0 {
            self.blame("an arrival with id 0 was accepted".to_string());
        }
        if !self.machine.has_booked(request.id) {
            self.tally.bookings += 1;
            self.machine.book(request);
        }
        self.start_life(slot, request.id);
    }

    fn start_life(&mut self, slot: u32, id: u32) {
        match self.lives.get_mut(slot as usize) {
            Some(life) => *life = Some(Life { id, turns: 0 }),
            None => self.blame(format!("an agent was started in slot {slot}")),
        }
    }

    fn see_turn(&mut self, slot: u32, answer: Answer) {
        self.tally.turns += 1;
        let life = self.lives.get_mut(slot as usize).and_then(Option::as_mut);
        let Some(life) = life else {
            return self.blame(format!("a turn in slot {slot} had no agent"));
        };
        life.turns += 1;
        let Life { id, turns } = *life;
        if self.machine.moves(id) < turns {
            self.tally.moves += 1;
            if self.machine.move_on(id).is_none() {
                self.blame(format!("id {id} turned and is not booked"));
            }
        }
        let full = self.machine.size(id) == Some(turns);
        self.tally.full_lives += usize::from(full);
        match answer {
            Answer::Reply { id, value } => self.see_reply(id, value),
            _ if full => self.blame(format!("id {id} had {turns} turns and no reply")),
            _ => {}
        }
    }

    fn see_reply(&mut self, id: u32, value: u32) {
        self.kept.see_reply(id, value);
        self.retired.see_reply(id);
        match self.replied.get(&id) {
            None => {
                self.tally.first_replies += 1;
                self.replied.insert(id, value);
                self.first_replies.push((id, value));
            }
            Some(first) => {
                let first = *first;
                self.tally.later_replies += 1;
                if first != value {
                    self.blame(format!("id {id} replied {first}, later {value}"));
                }
            }
        }
    }

    /// Keeps the first thing that was wrong with demand 3.
    fn blame(&mut self, what: String) {
        self.violation.get_or_insert(what);
    }

    /// The end of the list: what it left must be what the machine has.
    pub fn close(mut self, store: &[u8]) -> Result<Tally, String> {
        if self.first_replies != self.machine.replies() {
            let (ours, theirs) = (&self.first_replies, self.machine.replies());
            self.blame(format!("first replies {ours:?}, machine {theirs:?}"));
        }
        match Store::lay_out(store) {
            Ok(store) => self.compare_tables(&store),
            Err(refusal) => self.blame(format!("the store is refused: {}", refusal.question)),
        }
        self.tally.waiting_again = self.kept.waiting_again;
        self.tally.retired = self.retired.requests();
        let found = [
            self.violation,
            self.not_divisible,
            self.kept.violation,
            self.retired.violation,
        ];
        let found: Vec<String> = found.into_iter().flatten().collect();
        match found.is_empty() {
            true => Ok(self.tally),
            false => Err(found.join("; ")),
        }
    }

    fn compare_tables(&mut self, store: &Store<&[u8]>) {
        for partition in 0..MOST_PARTITIONS {
            let rows = match partition < store.shape().partitions {
                true => data_rows(store, partition),
                false => Vec::new(),
            };
            self.tally.data_rows += rows.len();
            let table = self.machine.table(partition);
            if !rows.iter().copied().eq(table.iter().map(|(k, v)| (*k, *v))) {
                let what = format!("partition {partition} has {rows:?}, machine {table:?}");
                self.blame(what);
            }
        }
    }
}

/// What is in each partition and in the book, whatever the order of the rows.
fn contents(store: &Store<&[u8]>) -> Vec<BTreeMap<u64, u32>> {
    let partitions = 0..=store.shape().book();
    partitions.map(|p| store.rows(p).collect()).collect()
}

/// The data rows of a partition by rising key; a key that stands twice is there twice.
fn data_rows(store: &Store<&[u8]>, partition: usize) -> Vec<(u32, u32)> {
    let rows = store.sorted_rows(partition).into_iter();
    rows.filter_map(|(key, value)| match Key::of_stored(key) {
        Some(Key::Data(key)) => Some((key, value)),
        _ => None,
    })
    .collect()
}

/// Store, slots and worklist, as one call leaves them to the next.
#[derive(Clone, Debug, PartialEq, Eq)]
pub struct State {
    pub store: Vec<u8>,
    pub slots: Slots,
    pub list: Worklist,
}

impl State {
    /// All slots and the worklist empty, as a list of calls starts.
    pub fn new(store: Vec<u8>) -> Self {
        Self {
            store,
            slots: ALL_EMPTY,
            list: Worklist::default(),
        }
    }

    /// Makes a call on it.
    pub fn perform(&mut self, pack: &[u8], call: &Call) -> Outcome {
        call.perform_listed(pack, &mut self.store, &mut self.slots, &mut self.list)
    }
}

/// Demand 3, and W-207, W-208 and W-209 after each call, of a list of calls on a fresh store.
pub fn check_list(pack: &[u8], store: Vec<u8>, calls: &[Call]) -> Result<Tally, String> {
    let read = Pack::read(pack).map_err(|_| "a refused pack ran".to_string())?;
    let mut witness = Witness::new(read);
    let mut state = State::new(store);
    for call in calls {
        let given = state.clone();
        let outcome = state.perform(pack, call);
        witness.see(call, &outcome);
        witness.see_left(call, &given, &state);
    }
    witness.close(&state.store)
}

/// The same of a schedule's run. A schedule that is refused has no list to speak of.
pub fn check_run(pack: &[u8], schedule: &[u8]) -> Result<Tally, String> {
    match schedule::begin(pack, schedule) {
        Ok((schedule, store)) => check_list(pack, store, &schedule.calls()),
        Err(_) => Ok(Tally::default()),
    }
}
