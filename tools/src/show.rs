//! The text form of schedules, written.

use crate::schedule::{Event, Kind, Request, Schedule};
use std::fmt::Write;

/// The text of a right schedule; workflows have names where a pack text gives them.
pub fn show(schedule: &Schedule, workflows: &[String]) -> String {
    let Schedule {
        partitions, rows, ..
    } = schedule;
    let names = request_names(schedule);
    let requests = names.iter().zip(&schedule.requests);
    let requests: String = requests
        .map(|(name, request)| request_line(name, request, workflows))
        .collect();
    let mut groups = vec![format!("partitions {partitions}\nrows {rows}\n"), requests];
    groups.push(event_lines(&schedule.events, &names));
    groups.retain(|group| !group.is_empty());
    groups.join("\n")
}

/// A line for each run of equal events, with their numbers in a comment.
fn event_lines(events: &[Event], names: &[String]) -> String {
    let mut text = String::new();
    let mut number = 0;
    for run in events.chunk_by(|left, right| left == right) {
        let line = event_line(&run[0], run.len(), names);
        let numbers = match run.len() {
            1 => format!("event {number}"),
            count => format!("events {number} to {}", number + count - 1),
        };
        let _ = writeln!(text, "{line:<32}; {numbers}");
        number += run.len();
    }
    text
}

/// Names for requests that come from bytes: q0, q1 and so on.
pub fn request_names(schedule: &Schedule) -> Vec<String> {
    (0..schedule.requests.len())
        .map(|number| format!("q{number}"))
        .collect()
}

fn request_line(name: &str, request: &Request, workflows: &[String]) -> String {
    let number = request.workflow.to_string();
    let workflow = workflows.get(request.workflow as usize).unwrap_or(&number);
    let [first, second, third, fourth] = request.arguments;
    format!(
        "request {name} id {} workflow {workflow} arguments {first} {second} {third} {fourth}\n",
        request.id
    )
}

/// An event in the document's words.
pub fn event_words(event: &Event, names: &[String]) -> String {
    let word = event.kind.word();
    match event.kind {
        Kind::Arrival | Kind::Retry => format!(
            "{word} {} in slot {}",
            names[event.request as usize], event.slot
        ),
        Kind::Restart if event.slot == 0 => word.to_string(),
        _ => format!("{word} slot {}", event.slot),
    }
}

fn event_line(event: &Event, times: usize, names: &[String]) -> String {
    let words = event_words(event, names);
    match times {
        1 => words,
        _ => format!("{words} x {times}"),
    }
}
