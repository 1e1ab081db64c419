//! The text form of schedules, read.

use crate::fault::{Expected, Fault, No, Warning};
use crate::scan::{self, Line, Word};
use crate::schedule::{self, Event, Kind, Request, Schedule, MOST_EVENTS, MOST_REQUESTS};
use crate::words::{Missing, Words};

/// A schedule with the names its text gives to requests, and what is known to be refused in it.
#[derive(Clone, Debug)]
pub struct Planned {
    pub names: Vec<String>,
    pub schedule: Schedule,
    pub warnings: Vec<Warning>,
}

/// Reads the workflow names of a pack text: by `pack FILE`, as it stands in the plan.
pub type PackNames<'a> = &'a dyn Fn(&str) -> Result<Vec<String>, Vec<Fault>>;

/// Reads a whole plan. The workflow names are those of a pack known beforehand, or of the plan's `pack` line.
pub fn plan(
    file: &str,
    text: &str,
    known: Option<Vec<String>>,
    pack: PackNames,
) -> Result<Planned, Vec<Fault>> {
    let (lines, end) = scan::lines(text);
    let mut reader = Reader::new(file, known, pack);
    for line in &lines {
        if let Err((place, expected)) = reader.line(line) {
            reader.fault(place, expected);
        }
    }
    reader.finish(end)
}

struct Reader<'a> {
    file: &'a str,
    pack: PackNames<'a>,
    pack_line: Option<Word>,
    pack_is_faulty: bool,
    workflows: Option<Vec<String>>,
    partitions: Option<(Word, u32)>,
    rows: Option<(Word, u32)>,
    names: Vec<Word>,
    requests: Vec<Request>,
    events: Vec<Event>,
    too_many: bool,
    faults: Vec<Fault>,
    warnings: Vec<Warning>,
}

impl<'a> Reader<'a> {
    fn new(file: &'a str, workflows: Option<Vec<String>>, pack: PackNames<'a>) -> Reader<'a> {
        Reader {
            file,
            pack,
            pack_line: None,
            pack_is_faulty: false,
            workflows,
            partitions: None,
            rows: None,
            names: Vec::new(),
            requests: Vec::new(),
            events: Vec::new(),
            too_many: false,
            faults: Vec::new(),
            warnings: Vec::new(),
        }
    }

    fn fault(&mut self, place: Word, expected: Expected) {
        self.faults.push(Fault::Text {
            file: self.file.to_string(),
            place,
            expected,
        });
    }

    fn refuse(&mut self, place: Word, no: Option<No>) {
        let file = self.file.to_string();
        self.faults.extend(no.map(|no| Fault::Refused {
            file,
            place,
            no,
            whose: String::new(),
        }));
    }

    fn line(&mut self, line: &Line) -> Result<(), Missing> {
        let mut words = Words::of(line);
        let first = words.take();
        match first.text.as_str() {
            "pack" => self.pack_line(first, words),
            "partitions" => self.partitions(first, words),
            "rows" => self.rows(first, words),
            "request" => self.request(first, words),
            "arrival" => self.event(first, Kind::Arrival, words),
            "turn" => self.event(first, Kind::Turn, words),
            "crash" => self.event(first, Kind::Crash, words),
            "retry" => self.event(first, Kind::Retry, words),
            "restart" => self.event(first, Kind::Restart, words),
            _ => Err((first, Expected::Statement)),
        }
    }

    fn pack_line(&mut self, first: Word, mut words: Words) -> Result<(), Missing> {
        once(&first, self.pack_line.as_ref())?;
        self.pack_line = Some(first);
        let file = words.file_name()?;
        words.end()?;
        // A pack given with the command stands before the one the plan names.
        if self.workflows.is_none() {
            match (self.pack)(&file) {
                Ok(names) => self.workflows = Some(names),
                Err(faults) => {
                    self.pack_is_faulty = true;
                    self.faults.extend(faults);
                }
            }
        }
        Ok(())
    }

    fn partitions(&mut self, first: Word, mut words: Words) -> Result<(), Missing> {
        once(&first, self.partitions.as_ref().map(|(place, _)| place))?;
        // A faulty line is a fault; that there is none is not one more.
        self.partitions = Some((first.clone(), 0));
        let (place, number) = (words.peek().clone(), words.number()?);
        words.end()?;
        self.refuse(place, schedule::partitions_no(number));
        self.partitions = Some((first, number));
        Ok(())
    }

    fn rows(&mut self, first: Word, mut words: Words) -> Result<(), Missing> {
        once(&first, self.rows.as_ref().map(|(place, _)| place))?;
        // A faulty line is a fault; that there is none is not one more.
        self.rows = Some((first.clone(), 0));
        let (place, number) = (words.peek().clone(), words.number()?);
        words.end()?;
        self.refuse(place, schedule::rows_no(number));
        self.rows = Some((first, number));
        Ok(())
    }

    fn request(&mut self, first: Word, mut words: Words) -> Result<(), Missing> {
        let name = words.name()?;
        if let Some(twin) = self.names.iter().find(|twin| twin.text == name.text) {
            return Err((name, Expected::NewRequest(twin.line)));
        }
        // The name counts even if the rest is faulty, so that events that use it are not faulted too.
        self.names.push(name);
        if self.names.len() == MOST_REQUESTS + 1 {
            self.refuse(
                first,
                Some(No::of(22, "request number 65".to_string(), "at most 64")),
            );
        }
        words.keyword("id")?;
        let id = words.number()?;
        words.keyword("workflow")?;
        let workflow = self.workflow(&mut words)?;
        words.keyword("arguments")?;
        let arguments = [
            words.number()?,
            words.number()?,
            words.number()?,
            words.number()?,
        ];
        words.end()?;
        self.requests.push(Request {
            id,
            workflow,
            arguments,
        });
        Ok(())
    }

    /// A workflow by its number, or by its name where a pack text gives one.
    fn workflow(&self, words: &mut Words) -> Result<u32, Missing> {
        // The faults of a pack are enough: its missing names are not faults of the plan.
        if self.pack_is_faulty && scan::is_name(&words.peek().text) {
            words.take();
            return Ok(0);
        }
        let Some(names) = &self.workflows else {
            return words.number_in(0, u32::MAX, Expected::WorkflowNumber);
        };
        words.number_or_one_of(names, Expected::WorkflowOfPack)
    }

    fn event(&mut self, first: Word, kind: Kind, mut words: Words) -> Result<(), Missing> {
        let mut request = 0;
        let named = words.peek().clone();
        if kind.names_request() {
            request = words.one_of(&self.names)?;
            words.keyword("in")?;
        }
        // A restart's slot is not read; the text may still say it, since the byte has a place for it.
        let mut slot = 0;
        if kind != Kind::Restart || words.peek().text == "slot" {
            words.keyword("slot")?;
            slot = words.number_in(0, 15, Expected::Slot)?;
        }
        let mut times = 1;
        if !words.at_end() {
            words.keyword("x")?;
            times = words.number_in(1, MOST_EVENTS as u32, Expected::Repeat)?;
        }
        words.end()?;
        let event = Event {
            kind,
            slot: slot as u8,
            request: request as u8,
        };
        self.warn_of_zero(named, &event, times as usize);
        self.events.extend((0..times).map(|_| event));
        if self.events.len() > MOST_EVENTS && !self.too_many {
            self.too_many = true;
            self.refuse(
                first,
                Some(No::of(
                    22,
                    "event number 1,025".to_string(),
                    "at most 1,024",
                )),
            );
        }
        Ok(())
    }

    /// An arrival with id 0 is never accepted: 24, if 15 or 16 does not say no first. For a slot above 7 it is always 15, so
    /// nothing is said of 24 there.
    fn warn_of_zero(&mut self, named: Word, event: &Event, times: usize) {
        let zero = self.requests.get(usize::from(event.request));
        let is_zero = zero.is_some_and(|request| request.id == 0);
        if event.kind != Kind::Arrival || event.slot > 7 || !is_zero {
            return;
        }
        let first = self.events.len();
        let events = match times {
            1 => format!("event {first}"),
            _ => format!("events {first} to {}", first + times - 1),
        };
        let whose = format!(" (request {}, {events})", named.text);
        self.warnings.push(Warning {
            file: self.file.to_string(),
            place: named,
            no: No::of(24, "id 0".to_string(), "1 to 4294967295"),
            whose,
        });
    }

    fn finish(mut self, end: Word) -> Result<Planned, Vec<Fault>> {
        if self.partitions.is_none() {
            self.fault(end.clone(), Expected::Setting("partitions"));
        }
        if self.rows.is_none() {
            self.fault(end, Expected::Setting("rows"));
        }
        match (self.partitions, self.rows) {
            (Some((_, partitions)), Some((_, rows))) if self.faults.is_empty() => Ok(Planned {
                names: self.names.into_iter().map(|name| name.text).collect(),
                schedule: Schedule {
                    partitions: partitions as u8,
                    rows: rows as u16,
                    requests: self.requests,
                    events: self.events,
                },
                warnings: self.warnings,
            }),
            _ => Err(self.faults),
        }
    }
}

fn once(word: &Word, earlier: Option<&Word>) -> Result<(), Missing> {
    match earlier {
        Some(earlier) => Err((word.clone(), Expected::Once(earlier.line))),
        None => Ok(()),
    }
}
