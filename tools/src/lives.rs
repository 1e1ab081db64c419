//! The agents' lives in a run: who is in which slot from when to when.

use crate::trace::{Happened, Run, Step};
use reference::Call;

/// How a life ended.
#[derive(Clone, Copy, Debug, PartialEq, Eq)]
pub enum End {
    Reply {
        id: u32,
        value: u32,
    },
    Crash,
    Restart,
    /// The run ended first.
    Open,
}

/// One agent's life: its slot, the request that it works for, its first and last event or call.
#[derive(Clone, Debug, PartialEq, Eq)]
pub struct Life {
    pub slot: usize,
    pub request: usize,
    /// Whether the agent was there before the run.
    pub from_before: bool,
    pub first: usize,
    pub last: usize,
    pub end: End,
}

/// All lives, in the order in which they ended.
pub fn lives(run: &Run) -> Vec<Life> {
    let mut running: [Option<Life>; 8] = Default::default();
    for &(slot, request) in &run.agents_before {
        running[slot] = Some(begun(slot, request, true, 0));
    }
    let mut ended = Vec::new();
    for (number, step) in run.steps.iter().enumerate() {
        if step.is_refused() {
            continue;
        }
        if let (Some(slot), Some(named)) = (step.slot(), step.request) {
            let request = booked(run, named, number);
            running[slot] = Some(begun(slot, request, false, number));
        }
        for life in running.iter_mut() {
            let end = life.as_ref().and_then(|life| end_of(life, step));
            if let Some(end) = end {
                ended.extend(life.take().map(|life| Life {
                    last: number,
                    end,
                    ..life
                }));
            }
        }
    }
    let last = run.steps.len().saturating_sub(1);
    ended.extend(
        running
            .into_iter()
            .flatten()
            .map(|life| Life { last, ..life }),
    );
    ended
}

fn begun(slot: usize, request: usize, from_before: bool, first: usize) -> Life {
    Life {
        slot,
        request,
        from_before,
        first,
        last: first,
        end: End::Open,
    }
}

fn end_of(life: &Life, step: &Step) -> Option<End> {
    let here = step.slot() == Some(life.slot);
    match (step.call, step.happened) {
        (Call::Restart, _) => Some(End::Restart),
        (Call::Crash { .. }, _) if here => Some(End::Crash),
        (_, Happened::Replied { id, value }) if here => Some(End::Reply { id, value }),
        _ => None,
    }
}

/// The request that booked an id: a retry may name another one with the same id.
fn booked(run: &Run, named: usize, before: usize) -> usize {
    let id = run.requests[named].request.id;
    let mut accepted = run.steps[..before].iter().filter(|step| !step.is_refused());
    let first = accepted
        .find(|step| matches!(step.call, Call::Arrival { request, .. } if request.id == id));
    first.and_then(|step| step.request).unwrap_or(named)
}
