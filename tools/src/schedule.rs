//! A schedule: its bytes, and questions 22, 23 and 9.

use crate::fault::No;

pub const MOST_REQUESTS: usize = 64;
pub const MOST_EVENTS: usize = 1024;

#[derive(Clone, Debug, PartialEq, Eq)]
pub struct Request {
    pub id: u32,
    pub workflow: u32,
    pub arguments: [u32; 4],
}

/// The kinds of events, in the order of their numbers.
#[derive(Clone, Copy, Debug, PartialEq, Eq)]
pub enum Kind {
    Arrival,
    Turn,
    Crash,
    Retry,
    Restart,
}

const KINDS: [Kind; 5] = [
    Kind::Arrival,
    Kind::Turn,
    Kind::Crash,
    Kind::Retry,
    Kind::Restart,
];

impl Kind {
    pub fn word(self) -> &'static str {
        ["arrival", "turn", "crash", "retry", "restart"][self as usize]
    }

    /// Whether the event names a request.
    pub fn names_request(self) -> bool {
        matches!(self, Kind::Arrival | Kind::Retry)
    }
}

/// An event; the request is 0 where its kind names none.
#[derive(Clone, Copy, Debug, PartialEq, Eq)]
pub struct Event {
    pub kind: Kind,
    pub slot: u8,
    pub request: u8,
}

#[derive(Clone, Debug, PartialEq, Eq)]
pub struct Schedule {
    pub partitions: u8,
    pub rows: u16,
    pub requests: Vec<Request>,
    pub events: Vec<Event>,
}

/// The bytes of a schedule within limits.
pub fn to_bytes(schedule: &Schedule) -> Vec<u8> {
    let mut bytes = vec![schedule.partitions];
    bytes.extend(schedule.rows.to_le_bytes());
    bytes.push(schedule.requests.len() as u8);
    bytes.extend((schedule.events.len() as u16).to_le_bytes());
    for request in &schedule.requests {
        let head = [request.id, request.workflow];
        bytes.extend(
            head.iter()
                .chain(&request.arguments)
                .flat_map(|word| word.to_le_bytes()),
        );
    }
    bytes.extend(
        schedule
            .events
            .iter()
            .map(|event| (event.kind as u8) << 4 | event.slot),
    );
    bytes.extend(schedule.events.iter().map(|event| event.request));
    bytes
}

/// The schedule in the bytes, or the first no of 22, 23 and 9.
pub fn accepted(bytes: &[u8]) -> Result<Schedule, No> {
    let (request_count, event_count) = counts(bytes)?;
    let (requests, events) = bytes[6..].split_at(24 * request_count);
    let (kinds, indexes) = events.split_at(event_count);
    let requests: Vec<Request> = requests.chunks(24).map(request).collect();
    let events = kinds.iter().zip(indexes).enumerate();
    let events: Result<Vec<Event>, No> = events
        .map(|(number, (&byte, &index))| event(number, byte, index, request_count))
        .collect();
    let schedule = Schedule {
        partitions: bytes[0],
        rows: u16::from_le_bytes([bytes[1], bytes[2]]),
        requests,
        events: events?,
    };
    match size_no(schedule.partitions as u32, schedule.rows as u32) {
        Some(no) => Err(no),
        None => Ok(schedule),
    }
}

/// Question 22.
fn counts(bytes: &[u8]) -> Result<(usize, usize), No> {
    if bytes.len() < 6 {
        return Err(No::of(22, format!("{} bytes", bytes.len()), "at least 6"));
    }
    let requests = bytes[3] as usize;
    let events = u16::from_le_bytes([bytes[4], bytes[5]]) as usize;
    if requests > MOST_REQUESTS {
        return Err(No::of(22, format!("{requests} requests"), "at most 64"));
    }
    if events > MOST_EVENTS {
        return Err(No::of(22, format!("{events} events"), "at most 1,024"));
    }
    let length = 6 + 24 * requests + 2 * events;
    if bytes.len() != length {
        return Err(No::of(
            22,
            format!("{} bytes", bytes.len()),
            &format!("{length} bytes"),
        ));
    }
    Ok((requests, events))
}

fn request(bytes: &[u8]) -> Request {
    let word =
        |at: usize| u32::from_le_bytes([bytes[at], bytes[at + 1], bytes[at + 2], bytes[at + 3]]);
    Request {
        id: word(0),
        workflow: word(4),
        arguments: [word(8), word(12), word(16), word(20)],
    }
}

/// Question 23 for one event.
fn event(number: usize, byte: u8, index: u8, requests: usize) -> Result<Event, No> {
    let Some(&kind) = KINDS.get((byte >> 4) as usize) else {
        let found = format!("kind {} at event {number}", byte >> 4);
        return Err(No::of(23, found, "at most 4"));
    };
    let found = format!("index {index} at event {number}, {}", a(kind));
    if kind.names_request() && index as usize >= requests {
        return Err(No::of(23, found, &format!("an index below {requests}")));
    }
    if !kind.names_request() && index != 0 {
        return Err(No::of(23, found, "index 0"));
    }
    Ok(Event {
        kind,
        slot: byte & 15,
        request: index,
    })
}

fn a(kind: Kind) -> String {
    let article = if kind == Kind::Arrival { "an" } else { "a" };
    format!("{article} {}", kind.word())
}

/// A partition by its number, or the book which is numbered P.
pub fn partition_name(partition: usize, partitions: usize) -> String {
    match partition == partitions {
        true => "book".to_string(),
        false => format!("partition {partition}"),
    }
}

/// Question 9, put to P and C.
pub fn size_no(partitions: u32, rows: u32) -> Option<No> {
    partitions_no(partitions).or_else(|| rows_no(rows))
}

pub fn partitions_no(partitions: u32) -> Option<No> {
    let right = (1..=8).contains(&partitions);
    (!right).then(|| No::of(9, format!("P {partitions}"), "P 1 to 8"))
}

pub fn rows_no(rows: u32) -> Option<No> {
    let right = (5..=256).contains(&rows);
    (!right).then(|| No::of(9, format!("C {rows}"), "C 5 to 256"))
}
