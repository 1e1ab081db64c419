//! Where things stand in the picture: bands of events below each other, lanes and row counts within a band.

use crate::trace::{Run, Source};
use reference::Call;

/// Widths and heights, in the drawing's own units.
pub const LEFT: f64 = 84.0;
pub const RIGHT: f64 = 24.0;
pub const AXIS: f64 = 15.0;
pub const LANE: f64 = 44.0;
pub const EMPTY_LANE: f64 = 13.0;
pub const BAR_MIDDLE: f64 = 22.5;
pub const BAR_HALF: f64 = 9.0;
pub const STRIP: f64 = 17.0;
/// An id's lane on the worklist, and the line above all of them.
pub const LISTED_LANE: f64 = 20.0;
const LISTED_HEAD: f64 = 20.0;
const STRIPS_HEAD: f64 = 20.0;
const BAND_GAP: f64 = 24.0;
const LEAST_WIDTH: f64 = 880.0;

const WIDEST_CELL: f64 = 76.0;
const NARROWEST_CELL: f64 = 26.0;
const MOST_IN_BAND: usize = 64;

/// One slot's lane; slots from 8 on, which no agent can be in, share one. Calls that name no slot have the last.
#[derive(Clone, Debug)]
pub struct Lane {
    pub label: String,
    pub top: f64,
    pub in_use: bool,
}

#[derive(Clone, Debug)]
pub struct Layout {
    pub cell: f64,
    pub in_band: usize,
    pub lanes: Vec<Lane>,
    /// The ids that are ever on the worklist, in order of entry; each has a lane.
    pub listed: Vec<u32>,
    pub strips: usize,
}

impl Layout {
    pub fn of(run: &Run) -> Layout {
        let events = run.steps.len().max(1);
        let in_band = events.min(MOST_IN_BAND);
        let room = NARROWEST_CELL * MOST_IN_BAND as f64;
        let cell = (room / in_band as f64)
            .floor()
            .clamp(NARROWEST_CELL, WIDEST_CELL);
        Layout {
            cell,
            in_band,
            lanes: lanes(run),
            listed: listed(run),
            strips: run.partitions + 1,
        }
    }

    /// Wide cells have room for longer words.
    pub fn is_wide(&self) -> bool {
        self.cell > NARROWEST_CELL * 1.5
    }

    pub fn width(&self) -> f64 {
        self.right_edge().max(LEAST_WIDTH - RIGHT) + RIGHT
    }

    /// The right edge of a full band.
    pub fn right_edge(&self) -> f64 {
        LEFT + self.cell * self.in_band as f64
    }

    /// The left edge of an event's cell.
    pub fn x(&self, event: usize) -> f64 {
        LEFT + self.cell * (event % self.in_band) as f64
    }

    pub fn middle(&self, event: usize) -> f64 {
        self.x(event) + self.cell / 2.0
    }

    /// The lane of a slot, or of the calls that name none.
    pub fn lane(&self, slot: Option<usize>) -> &Lane {
        match slot {
            Some(slot) => &self.lanes[slot.min(8)],
            None => &self.lanes[self.lanes.len() - 1],
        }
    }

    /// The middle of a listed id's lane.
    pub fn listed_middle(&self, id: u32) -> f64 {
        let place = self.listed.iter().position(|&listed| listed == id);
        let above = LISTED_LANE * (place.unwrap_or(0) as f64 + 0.5);
        self.lanes_end() + LISTED_HEAD + above
    }

    pub fn lanes_end(&self) -> f64 {
        let last = &self.lanes[self.lanes.len() - 1];
        last.top + if last.in_use { LANE } else { EMPTY_LANE }
    }

    pub fn listed_end(&self) -> f64 {
        let head = if self.listed.is_empty() {
            0.0
        } else {
            LISTED_HEAD
        };
        self.lanes_end() + head + LISTED_LANE * self.listed.len() as f64
    }

    /// The top of the row counts of one partition.
    pub fn strip(&self, partition: usize) -> f64 {
        self.listed_end() + STRIPS_HEAD + STRIP * partition as f64
    }

    pub fn band_height(&self) -> f64 {
        self.strip(self.strips) + BAND_GAP
    }
}

fn lanes(run: &Run) -> Vec<Lane> {
    let slots: Vec<usize> = run.steps.iter().filter_map(|step| step.slot()).collect();
    let has_agent = |slot: usize| run.agents_before.iter().any(|(other, _)| *other == slot);
    let mut labels: Vec<(String, bool)> = (0..8)
        .map(|slot| {
            (
                format!("slot {slot}"),
                slots.contains(&slot) || has_agent(slot),
            )
        })
        .collect();
    if slots.iter().any(|&slot| slot >= 8) {
        let more = match run.source {
            Source::Schedule => "slots 8 to 15",
            Source::Calls => "slots from 8",
        };
        labels.push((more.to_string(), true));
    }
    if names_no_slot(run) {
        labels.push(("no slot".to_string(), true));
    }
    let mut top = AXIS;
    let place = |(label, in_use)| {
        let lane = Lane { label, top, in_use };
        top += if in_use { LANE } else { EMPTY_LANE };
        lane
    };
    labels.into_iter().map(place).collect()
}

/// Whether a call is drawn in the lane of those that name no slot: it puts a store in order, retires, or is about the worklist and
/// refused.
fn names_no_slot(run: &Run) -> bool {
    run.steps.iter().any(|step| {
        let is_elsewhere = step.call == Call::Restart || step.listed_id().is_some();
        step.slot().is_none() && !is_elsewhere
    })
}

/// The ids that are on the worklist before the run or behind a step, each once.
fn listed(run: &Run) -> Vec<u32> {
    let behind = run.steps.iter().flat_map(|step| &step.listed);
    let mut ids: Vec<u32> = Vec::new();
    for entry in run.listed_before.iter().chain(behind) {
        if !ids.contains(&entry.id) {
            ids.push(entry.id);
        }
    }
    ids
}
