//! The program's output with names beside its numbers.

use crate::folder::Folder;
use crate::questions::question;
use crate::schedule::{self, Event, Kind, Schedule};
use crate::show::event_words;

/// Each line as the program printed it, then `;` and what its numbers stand for.
pub fn with_names(output: &str, folder: &Folder) -> String {
    let lines: Vec<&str> = output.lines().collect();
    let width = lines.iter().map(|line| line.len()).max().unwrap_or(0);
    let schedule = schedule::accepted(&folder.schedule).ok();
    let mut reader = Reader {
        folder,
        schedule,
        slots: [None; 16],
        booked: Vec::new(),
    };
    let mut text = String::new();
    for line in lines {
        match reader.remark(line) {
            Some(remark) => text.push_str(&format!("{line:<width$}  ; {remark}\n")),
            None => text.push_str(&format!("{line}\n")),
        }
    }
    text
}

/// Follows the answers: which request is in which slot, and which one booked an id.
struct Reader<'a> {
    folder: &'a Folder,
    schedule: Option<Schedule>,
    slots: [Option<usize>; 16],
    booked: Vec<(u32, usize)>,
}

impl Reader<'_> {
    fn remark(&mut self, line: &str) -> Option<String> {
        let words: Vec<&str> = line.split(' ').collect();
        match words.as_slice() {
            ["refused", number] => Some(question(number.parse().ok()?).to_string()),
            ["log", _, id, step, _] => {
                let request = self.booked(id.parse().ok()?)?;
                Some(format!("{}, step {step}", self.request(request)))
            }
            [number, answer @ ..] => {
                let number: usize = number.parse().ok()?;
                let event = *self.schedule.as_ref()?.events.get(number)?;
                Some(self.event(event, answer))
            }
            [] => None,
        }
    }

    /// A request's workflow, by name where it has one.
    fn workflow(&self, index: usize) -> String {
        let number = self
            .schedule
            .as_ref()
            .map_or(0, |schedule| schedule.requests[index].workflow);
        let name = self.folder.workflows.get(number as usize).cloned();
        name.unwrap_or(format!("workflow {number}"))
    }

    fn request(&self, index: usize) -> String {
        format!("{}, {}", self.folder.requests[index], self.workflow(index))
    }

    fn id(&self, index: usize) -> u32 {
        self.schedule
            .as_ref()
            .map_or(0, |schedule| schedule.requests[index].id)
    }

    /// The request that booked an id: one of another name may have the same id.
    fn booked(&self, id: u32) -> Option<usize> {
        self.booked
            .iter()
            .find(|(booked, _)| *booked == id)
            .map(|(_, index)| *index)
    }

    fn event(&mut self, event: Event, answer: &[&str]) -> String {
        let index = event.request as usize;
        let mut remark = event_words(&event, &self.folder.requests);
        match (event.kind, self.slots[event.slot as usize]) {
            (Kind::Arrival, _) => {
                remark += &format!(": id {}, {}", self.id(index), self.workflow(index))
            }
            (Kind::Retry, _) => {
                let id = self.id(index);
                // A retry runs what was booked, whatever the request that it names says.
                let workflow = self.workflow(self.booked(id).unwrap_or(index));
                remark += &format!(": id {id}, {workflow}");
            }
            (Kind::Turn | Kind::Crash, Some(agent)) => {
                remark += &format!(": {}", self.request(agent))
            }
            _ => {}
        }
        match answer {
            ["refused", number] => {
                let words = question(number.parse().unwrap_or(0));
                remark += &format!(". {words}");
            }
            _ => self.follow(event, answer),
        }
        remark
    }

    /// An accepted call, carried over to the slots and the book.
    fn follow(&mut self, event: Event, answer: &[&str]) {
        let slot = event.slot as usize;
        let index = event.request as usize;
        match event.kind {
            Kind::Arrival | Kind::Retry => {
                let id = self.id(index);
                if self.booked(id).is_none() {
                    self.booked.push((id, index));
                }
                self.slots[slot] = self.booked(id);
            }
            Kind::Turn if answer.first() == Some(&"reply") => self.slots[slot] = None,
            Kind::Turn => {}
            Kind::Crash => self.slots[slot] = None,
            Kind::Restart => self.slots = [None; 16],
        }
    }
}
