//! The ids on the worklist of a run: which is waiting or taken from when to when.

use crate::trace::Run;
use reference::worklist::{Entry, TAKEN, WAITING};

/// A time in which an id is listed with one mark.
#[derive(Clone, Debug, PartialEq, Eq)]
pub struct Stay {
    pub id: u32,
    pub mark: u8,
    /// The call that put it on the list or marked it; none if it was so before the run.
    pub first: Option<usize>,
    /// The call that marked it otherwise or removed it; none if it is so at the end.
    pub last: Option<usize>,
}

/// All stays, in the order in which they began.
pub fn stays(run: &Run) -> Vec<Stay> {
    let mut stays: Vec<Stay> = Vec::new();
    change(&mut stays, &run.listed_before, None);
    for (number, step) in run.steps.iter().enumerate() {
        change(&mut stays, &step.listed, Some(number));
    }
    stays
}

/// What is listed otherwise behind a call ends there, and what is new begins. Of an id that a wrong list has twice the first
/// entry counts.
fn change(stays: &mut Vec<Stay>, listed: &[Entry], number: Option<usize>) {
    let mark_of = |id: u32| {
        listed
            .iter()
            .find(|entry| entry.id == id)
            .map(|entry| entry.mark)
    };
    for stay in stays.iter_mut().filter(|stay| stay.last.is_none()) {
        if mark_of(stay.id) != Some(stay.mark) {
            stay.last = number;
        }
    }
    for entry in listed {
        let mut open = stays.iter().filter(|stay| stay.last.is_none());
        if !open.any(|stay| stay.id == entry.id) {
            stays.push(Stay {
                id: entry.id,
                mark: entry.mark,
                first: number,
                last: None,
            });
        }
    }
}

/// A mark in words; a wrong list may have another number.
pub fn mark_words(mark: u8) -> String {
    match mark {
        WAITING => "waiting".to_string(),
        TAKEN => "taken".to_string(),
        _ => format!("marked {mark}"),
    }
}
