//! The file `cases.bin`: schedules, single calls and lists of calls on any bytes, and their
//! print.

use std::fmt::Write;

use crate::agents::{Agent, Slots, ALL_EMPTY};
use crate::bytes::{hex, Reader};
use crate::calls::{self, Answer, Call, Outcome};
use crate::figures::{figures, Figures};
use crate::pack::{self, Workflow};
use crate::refusal::Refusal;
use crate::schedule;
use crate::store::{self, Request, Store};
use crate::worklist::{Entry, Worklist};

/// What a case of kind 1 or 2 calls.
#[derive(Clone, Copy, Debug, PartialEq, Eq)]
pub enum Order {
    Check,
    Open {
        workflow: u32,
    },
    Figures {
        workflow: u32,
    },
    Create {
        partitions: u32,
        rows: u32,
    },
    /// The reading call.
    Reply {
        id: u32,
    },
    Call(Call),
}

#[derive(Clone, Debug, PartialEq, Eq)]
pub struct CallCase {
    pub pack: Vec<u8>,
    pub store: Vec<u8>,
    pub slots: Slots,
    /// Of kind 2 only. A case of kind 1 has none: a restart there is lent an empty one.
    pub list: Option<Worklist>,
    pub order: Order,
}

/// Calls on a state that no schedule leads to, each given what the one before left.
#[derive(Clone, Debug, PartialEq, Eq)]
pub struct ListCase {
    pub pack: Vec<u8>,
    pub store: Vec<u8>,
    pub slots: Slots,
    /// At most 255 entries, and as many calls.
    pub list: Worklist,
    pub calls: Vec<Call>,
}

#[derive(Clone, Debug, PartialEq, Eq)]
pub enum Case {
    Schedule { pack: Vec<u8>, schedule: Vec<u8> },
    Call(Box<CallCase>),
    List(Box<ListCase>),
}

impl Order {
    /// From the call byte and its seven words; words that it has no use for are not read. Byte 14
    /// is no call.
    fn read(code: u8, words: [u32; 7]) -> Option<Self> {
        let [first, second, third, a, b, c, d] = words;
        Some(match code {
            0 => Self::Check,
            1 => Self::Open { workflow: first },
            2 => Self::Create {
                partitions: first,
                rows: second,
            },
            3 => Self::Call(Call::Arrival {
                slot: first,
                request: Request {
                    id: second,
                    workflow: third,
                    arguments: [a, b, c, d],
                },
            }),
            4 => Self::Call(Call::Retry {
                slot: first,
                id: second,
            }),
            5 => Self::Call(Call::Turn { slot: first }),
            6 => Self::Call(Call::Crash { slot: first }),
            7 => Self::Call(Call::Restart),
            8 => Self::Figures { workflow: first },
            9 => Self::Call(Call::PutInOrder),
            10 => Self::Call(Call::Add { id: first }),
            11 => Self::Call(Call::Take),
            12 => Self::Call(Call::Done { id: first }),
            13 => Self::Call(Call::Retire { floor: first }),
            15 => Self::Reply { id: first },
            _ => return None,
        })
    }

    /// The call byte and its seven words.
    fn encode(&self) -> (u8, [u32; 7]) {
        match *self {
            Self::Check => (0, [0; 7]),
            Self::Open { workflow } => (1, [workflow, 0, 0, 0, 0, 0, 0]),
            Self::Create { partitions, rows } => (2, [partitions, rows, 0, 0, 0, 0, 0]),
            Self::Call(Call::Arrival { slot, request }) => {
                let [a, b, c, d] = request.arguments;
                (3, [slot, request.id, request.workflow, a, b, c, d])
            }
            Self::Call(Call::Retry { slot, id }) => (4, [slot, id, 0, 0, 0, 0, 0]),
            Self::Call(Call::Turn { slot }) => (5, [slot, 0, 0, 0, 0, 0, 0]),
            Self::Call(Call::Crash { slot }) => (6, [slot, 0, 0, 0, 0, 0, 0]),
            Self::Call(Call::Restart) => (7, [0; 7]),
            Self::Figures { workflow } => (8, [workflow, 0, 0, 0, 0, 0, 0]),
            Self::Call(Call::PutInOrder) => (9, [0; 7]),
            Self::Call(Call::Add { id }) => (10, [id, 0, 0, 0, 0, 0, 0]),
            Self::Call(Call::Take) => (11, [0; 7]),
            Self::Call(Call::Done { id }) => (12, [id, 0, 0, 0, 0, 0, 0]),
            Self::Call(Call::Retire { floor }) => (13, [floor, 0, 0, 0, 0, 0, 0]),
            Self::Reply { id } => (15, [id, 0, 0, 0, 0, 0, 0]),
        }
    }

    /// Whether it may stand in a case of kind 1, which has no worklist.
    fn goes_without_list(&self) -> bool {
        use Call::{Add, Done, Retire, Take};
        !matches!(
            self,
            Self::Call(Add { .. } | Take | Done { .. } | Retire { .. })
        )
    }
}

fn read_order(reader: &mut Reader) -> Option<Order> {
    let code = reader.byte()?;
    Order::read(code, reader.words()?)
}

/// A call that may stand in a list: one that is given what the one before left.
fn read_call(reader: &mut Reader) -> Option<Call> {
    match read_order(reader)? {
        Order::Call(call) => Some(call),
        _ => None,
    }
}

fn write_order(order: Order, file: &mut Vec<u8>) {
    let (code, words) = order.encode();
    file.push(code);
    file.extend(words.iter().flat_map(|word| word.to_le_bytes()));
}

fn read_list(reader: &mut Reader, count: u8) -> Option<Worklist> {
    let entry = |_| {
        let id = reader.word()?;
        let mark = reader.byte()?;
        Some(Entry { id, mark })
    };
    let entries: Option<Vec<Entry>> = (0..count).map(entry).collect();
    Some(Worklist { entries: entries? })
}

fn write_list(list: &Worklist, file: &mut Vec<u8>) {
    for entry in &list.entries {
        file.extend(entry.id.to_le_bytes());
        file.push(entry.mark);
    }
}

fn read_slots(reader: &mut Reader) -> Option<Slots> {
    let mut slots = ALL_EMPTY;
    for slot in &mut slots {
        *slot = read_agent(reader)?;
    }
    Some(slots)
}

fn write_slots(slots: &Slots, file: &mut Vec<u8>) {
    let records = slots.iter().flat_map(agent_words);
    file.extend(records.flat_map(u32::to_le_bytes));
}

fn read_agent(reader: &mut Reader) -> Option<Agent> {
    let [in_use, id, position, step] = reader.words()?;
    let registers = reader.words()?;
    Some(Agent {
        in_use,
        id,
        position,
        step,
        registers,
    })
}

fn agent_words(agent: &Agent) -> impl Iterator<Item = u32> {
    let head = [agent.in_use, agent.id, agent.position, agent.step];
    head.into_iter().chain(agent.registers)
}

/// What is left of a case of kind 1 or 2.
fn read_single(
    reader: &mut Reader,
    pack: Vec<u8>,
    store: Vec<u8>,
    list: Option<Worklist>,
) -> Option<Case> {
    let slots = read_slots(reader)?;
    let order = read_order(reader)?;
    let fits = list.is_some() || order.goes_without_list();
    let case = CallCase {
        pack,
        store,
        slots,
        list,
        order,
    };
    fits.then(|| Case::Call(Box::new(case)))
}

/// What is left of a case of kind 3.
fn read_calls(reader: &mut Reader, pack: Vec<u8>, store: Vec<u8>, list: Worklist) -> Option<Case> {
    let slots = read_slots(reader)?;
    let count = reader.byte()?;
    let calls: Option<Vec<Call>> = (0..count).map(|_| read_call(reader)).collect();
    Some(Case::List(Box::new(ListCase {
        pack,
        store,
        slots,
        list,
        calls: calls?,
    })))
}

impl Case {
    /// The next case of a file; `None` if it is cut short or has a number out of range.
    pub fn read(reader: &mut Reader) -> Option<Self> {
        let kind = reader.byte()?;
        let pack_length = reader.word()? as usize;
        let second_length = reader.word()? as usize;
        let listed = match kind {
            2 | 3 => reader.byte()?,
            _ => 0,
        };
        let pack = reader.take(pack_length)?.to_vec();
        let second = reader.take(second_length)?.to_vec();
        let list = read_list(reader, listed)?;
        match kind {
            0 => Some(Self::Schedule {
                pack,
                schedule: second,
            }),
            1 => read_single(reader, pack, second, None),
            2 => read_single(reader, pack, second, Some(list)),
            3 => read_calls(reader, pack, second, list),
            _ => None,
        }
    }

    /// The kind, pack, store or schedule, and worklist; none of it for kinds 0 and 1.
    fn parts(&self) -> (u8, &[u8], &[u8], Option<&Worklist>) {
        match self {
            Self::Schedule { pack, schedule } => (0, pack, schedule, None),
            Self::Call(call) => {
                let kind = 1 + u8::from(call.list.is_some());
                (kind, &call.pack, &call.store, call.list.as_ref())
            }
            Self::List(list) => (3, &list.pack, &list.store, Some(&list.list)),
        }
    }

    /// Appends the case to a file.
    pub fn write(&self, file: &mut Vec<u8>) {
        let (kind, pack, second, list) = self.parts();
        file.push(kind);
        file.extend((pack.len() as u32).to_le_bytes());
        file.extend((second.len() as u32).to_le_bytes());
        file.extend(list.map(|list| list.entries.len() as u8));
        file.extend(pack);
        file.extend(second);
        if let Some(list) = list {
            write_list(list, file);
        }
        match self {
            Self::Schedule { .. } => {}
            Self::Call(call) => {
                write_slots(&call.slots, file);
                write_order(call.order, file);
            }
            Self::List(list) => {
                write_slots(&list.slots, file);
                file.push(list.calls.len() as u8);
                for call in &list.calls {
                    write_order(Order::Call(*call), file);
                }
            }
        }
    }

    /// All that is printed for the case, below its `case N`.
    pub fn print(&self) -> String {
        match self {
            Self::Schedule { pack, schedule } => schedule::program(pack, schedule),
            Self::Call(call) => call.print(),
            Self::List(list) => list.print(),
        }
    }
}

/// What a list of calls came to.
#[derive(Clone, Debug)]
pub struct Listed {
    pub outcomes: Vec<Outcome>,
    pub store: Vec<u8>,
    pub slots: Slots,
    pub list: Worklist,
}

impl ListCase {
    /// Does the calls; the case itself stays as it is.
    pub fn perform(&self) -> Listed {
        self.perform_each(|_, _, _| {})
    }

    /// Does the calls and shows each with the store that it was given and its outcome.
    pub fn perform_each(&self, mut show: impl FnMut(&Call, &[u8], &Outcome)) -> Listed {
        let mut store = self.store.clone();
        let mut slots = self.slots;
        let mut list = self.list.clone();
        let mut outcomes = Vec::with_capacity(self.calls.len());
        for call in &self.calls {
            let given = store.clone();
            let outcome = call.perform_listed(&self.pack, &mut store, &mut slots, &mut list);
            show(call, &given, &outcome);
            outcomes.push(outcome);
        }
        Listed {
            outcomes,
            store,
            slots,
            list,
        }
    }

    fn print(&self) -> String {
        let listed = self.perform();
        let answer = |outcome: &Outcome| format!("answer {}\n", answer_words(outcome));
        let mut text: String = listed.outcomes.iter().map(answer).collect();
        print_store(&listed.store, &mut text);
        print_slots(&listed.slots, &mut text);
        print_list(&listed.list, &mut text);
        text
    }
}

/// What a single call came to.
#[derive(Clone, Debug)]
pub struct Performed<'a> {
    pub outcome: Outcome,
    /// The parts that an opening answered with.
    pub opened: Option<Workflow<'a>>,
    /// What a call for figures answered with.
    pub figures: Option<Figures>,
    pub store: Vec<u8>,
    pub slots: Slots,
    /// Of a case of kind 2 only.
    pub list: Option<Worklist>,
}

impl CallCase {
    /// Does the call; the case itself stays as it is.
    pub fn perform(&self) -> Performed<'_> {
        let mut store = self.store.clone();
        let mut slots = self.slots;
        let mut list = self.list.clone().unwrap_or_default();
        let done = |result: Result<(), Refusal>| result.map(|()| Answer::Done);
        let (mut opened, mut counted) = (None, None);
        let outcome = match self.order {
            Order::Check => done(pack::check(&self.pack)),
            Order::Open { workflow } => {
                done(pack::open(&self.pack, workflow).map(|parts| opened = Some(parts)))
            }
            Order::Figures { workflow } => {
                done(figures(&self.pack, workflow).map(|figures| counted = Some(figures)))
            }
            Order::Create { partitions, rows } => done(store::create(&mut store, partitions, rows)),
            Order::Reply { id } => calls::reply(&self.pack, &store, id),
            Order::Call(call) => call.perform_listed(&self.pack, &mut store, &mut slots, &mut list),
        };
        Performed {
            outcome,
            opened,
            figures: counted,
            store,
            slots,
            list: self.list.is_some().then_some(list),
        }
    }

    fn print(&self) -> String {
        let result = self.perform();
        let words = match result.figures {
            Some(figures) => figures_words(&figures),
            None => answer_words(&result.outcome),
        };
        let mut text = format!("answer {words}\n");
        match self.order {
            Order::Check | Order::Figures { .. } | Order::Reply { .. } => {}
            Order::Open { .. } => print_parts(result.opened, &mut text),
            _ => {
                print_store(&result.store, &mut text);
                print_slots(&result.slots, &mut text);
                print_list(&result.list.unwrap_or_default(), &mut text);
            }
        }
        text
    }
}

/// A single call's answer: a refusal has its place here.
fn answer_words(outcome: &Outcome) -> String {
    match outcome {
        Ok(_) => schedule::words(outcome),
        Err(refusal) => format!(
            "refused {} {} {}",
            refusal.question, refusal.workflow, refusal.instruction
        ),
    }
}

/// The turns, then the rows of partitions 0 to 7.
fn figures_words(figures: &Figures) -> String {
    let rows: String = figures.rows.iter().map(|rows| format!(" {rows}")).collect();
    format!("figures {}{rows}", figures.turns)
}

/// The opened parts; a refusal comes with empty ones.
fn print_parts(opened: Option<Workflow>, text: &mut String) {
    let (operations, operands) = opened.map_or((&[][..], &[][..]), |parts| {
        (parts.operations, parts.operands)
    });
    // Writing to a String cannot fail, here and below.
    let _ = writeln!(text, "ops {}", hex(operations));
    let _ = writeln!(text, "operands {}", hex(operands));
}

/// Its rows by rising key, or its bytes where it is not laid out; then its bytes as they are,
/// so that the order of the rows shows too.
fn print_store(bytes: &[u8], text: &mut String) {
    match Store::lay_out(bytes) {
        Ok(store) => print_rows(&store, text),
        Err(_) => {
            let _ = writeln!(text, "store {}", hex(bytes));
        }
    }
    let _ = writeln!(text, "bytes {}", hex(bytes));
}

fn print_rows(store: &Store<&[u8]>, text: &mut String) {
    let partitions = 0..=store.shape().book();
    for partition in partitions.clone() {
        let _ = writeln!(text, "used {partition} {}", store.used(partition));
    }
    for partition in partitions {
        for (key, value) in store.sorted_rows(partition) {
            let _ = writeln!(text, "row {partition} {key} {value}");
        }
    }
}

fn print_slots(slots: &Slots, text: &mut String) {
    for (slot, agent) in slots.iter().enumerate() {
        if !agent.is_empty() {
            let words: Vec<String> = agent_words(agent).map(|word| word.to_string()).collect();
            let _ = writeln!(text, "agent {slot} {}", words.join(" "));
        }
    }
}

fn print_list(list: &Worklist, text: &mut String) {
    for Entry { id, mark } in &list.entries {
        let _ = writeln!(text, "list {id} {mark}");
    }
}

/// The cases of a file in order; the last item is `None` if the file is malformed there.
pub fn read_all(file: &[u8]) -> Vec<Option<Case>> {
    let mut reader = Reader::new(file);
    let mut cases = Vec::new();
    while !reader.is_at_end() {
        let case = Case::read(&mut reader);
        let malformed = case.is_none();
        cases.push(case);
        if malformed {
            break;
        }
    }
    cases
}

/// The bytes of a file of cases.
pub fn write_all(cases: &[Case]) -> Vec<u8> {
    let mut file = Vec::new();
    for case in cases {
        case.write(&mut file);
    }
    file
}

/// All that is printed for a file of cases.
pub fn print_all(file: &[u8]) -> String {
    let mut text = String::new();
    for (number, case) in read_all(file).iter().enumerate() {
        match case {
            Some(case) => {
                let _ = write!(text, "case {number}\n{}", case.print());
            }
            None => {
                let _ = writeln!(text, "malformed case {number}");
            }
        }
    }
    text
}
