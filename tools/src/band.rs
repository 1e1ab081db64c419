//! One band of the picture: the lanes with bars and marks, the worklist, and the row counts below them.

use crate::layout::{AXIS, BAR_MIDDLE, EMPTY_LANE, LANE, LEFT, RIGHT, STRIP};
use crate::lives::{End, Life};
use crate::marks::{self, Mark};
use crate::picture::{Drawing, MARGIN, NORMAL, SMALL};
use crate::questions::question;
use crate::schedule::partition_name;
use crate::stays::{mark_words, Stay};
use crate::svg::{text_width, Anchor};
use crate::trace::{Happened, Source, Step};
use reference::worklist::TAKEN;
use reference::Call;

/// How far a bar reaches from the middle of its first and last cell.
const REACH: f64 = 11.5;

impl Drawing<'_> {
    /// The events of one band, drawn from the back to the front.
    pub fn band(&mut self, first: usize, last: usize) {
        self.lanes(last);
        self.listed_lanes(last);
        self.axis(first, last);
        self.bars(first, last);
        self.stays(first, last);
        self.restart_lines(first, last);
        for number in first..last {
            self.mark(number);
        }
        self.strips(first, last);
        self.y += self.layout.band_height();
    }

    fn lanes(&mut self, last: usize) {
        let right = self.right_of(last - 1);
        for lane in self.layout.lanes.clone() {
            let y = self.y + lane.top;
            let (class, height, size, down) = match lane.in_use {
                true => ("plain", LANE, NORMAL, BAR_MIDDLE + 4.0),
                false => ("soft", EMPTY_LANE, SMALL, 9.5),
            };
            let area = (right - LEFT, height - 2.0);
            self.svg.rect("lane", (LEFT, y + 1.0), area);
            let size = fit(&lane.label, LEFT - 14.0, size);
            let at = (LEFT - 8.0, y + down);
            self.svg.text(class, at, size, Anchor::End, &lane.label);
        }
    }

    /// The events' numbers and lines down from them, each or each fourth.
    fn axis(&mut self, first: usize, last: usize) {
        let y = self.y + AXIS - 4.0;
        let bottom = self.y + self.layout.strip(self.layout.strips);
        let stride = if self.layout.is_wide() { 1 } else { 4 };
        for number in (first..last).filter(|number| number % stride == 0) {
            let (x, middle) = (self.layout.x(number), self.layout.middle(number));
            self.svg.line("grid", (x, self.y + AXIS), (x, bottom));
            let words = number.to_string();
            self.svg
                .text("soft", (middle, y), SMALL, Anchor::Middle, &words);
        }
        let at = (LEFT - 8.0, y);
        self.svg
            .text("soft", at, SMALL, Anchor::End, self.run.source.noun());
    }

    /// The right edge of an event's cell.
    fn right_of(&self, event: usize) -> f64 {
        self.layout.x(event) + self.layout.cell
    }

    fn bars(&mut self, first: usize, last: usize) {
        let mut here: Vec<Life> = self.lives.clone();
        here.retain(|life| life.first < last && life.last >= first);
        for life in &here {
            let lane = here.iter().filter(|other| other.slot == life.slot);
            let starts = lane.map(|other| other.first);
            let later = starts.chain(self.restarts(first, last));
            let next = later.filter(|&event| event > life.first).min();
            self.bar(life, first, last, next);
        }
    }

    /// The part of a life that is in a band, its name above, its reply below.
    fn bar(&mut self, life: &Life, first: usize, last: usize, next: Option<usize>) {
        let starts_here = life.first >= first && !life.from_before;
        let ends_here = life.last < last && life.end != End::Open;
        let (begin, end) = (life.first.max(first), life.last.min(last - 1));
        let left = match starts_here {
            true => self.layout.middle(begin) - REACH,
            false => self.layout.x(begin),
        };
        let right = match life.end {
            _ if !ends_here => self.right_of(end),
            End::Restart => self.layout.middle(end),
            _ => self.layout.middle(end) + REACH,
        };
        let (ends, closed) = ((left, right), (starts_here, ends_here));
        let top = self.y + self.layout.lane(Some(life.slot)).top;
        self.svg.open(&self.life_words(life));
        marks::bar(&mut self.svg, life.request, ends, top + BAR_MIDDLE, closed);
        let edge = self.right_of(last - 1) + RIGHT;
        let limit = next.map_or(edge, |next| self.layout.middle(next) - REACH);
        let name = self.fitting_name(life, limit - left - 4.0);
        let at = (left, top + 10.5);
        self.svg.text("plain", at, SMALL, Anchor::Start, &name);
        if let (End::Reply { value, .. }, true) = (life.end, ends_here) {
            // A bar of one cell is the rest of a life, at the left edge, where the margin is free.
            let room = if end > begin {
                right - left
            } else {
                right - MARGIN
            };
            self.reply(&value.to_string(), (right, top + 41.5), room);
        }
        self.svg.close();
    }

    /// A reply's value, which ends below its mark.
    fn reply(&mut self, value: &str, at: (f64, f64), room: f64) {
        // Bold figures are wider than plain ones, and neighbours need a gap.
        let size = fit(value, (room - 2.0) / 1.12, SMALL);
        self.svg.text("strong", at, size, Anchor::End, value);
    }

    fn life_words(&self, life: &Life) -> String {
        let named = &self.run.requests[life.request];
        let end = match life.end {
            End::Reply { id, value } => format!("reply {id} {value}"),
            End::Crash => "crash".to_string(),
            End::Restart => "restart".to_string(),
            End::Open => match self.run.source {
                Source::Schedule => "end of the schedule".to_string(),
                Source::Calls => "end of the list".to_string(),
            },
        };
        let (name, workflow, id) = (&named.name, &named.workflow, named.request.id);
        let noun = self.run.source.noun();
        format!(
            "{name}: {workflow}, id {id}, {noun}s {} to {}, {end}",
            life.first, life.last
        )
    }

    /// The longest form of a request's name that has room.
    fn fitting_name(&self, life: &Life, room: f64) -> String {
        let named = &self.run.requests[life.request];
        let (name, workflow, id) = (&named.name, &named.workflow, named.request.id);
        let forms = [
            format!("{name}: {workflow}, id {id}"),
            format!("{name}, id {id}"),
            name.clone(),
        ];
        let fits = |form: &&String| text_width(form, SMALL) <= room;
        match forms.iter().find(fits) {
            Some(form) => form.clone(),
            None => shortened(name, room),
        }
    }

    /// The lanes of the worklist, one for each id.
    fn listed_lanes(&mut self, last: usize) {
        let right = self.right_of(last - 1);
        for (place, id) in self.layout.listed.clone().into_iter().enumerate() {
            let middle = self.y + self.layout.listed_middle(id);
            if place == 0 {
                let words = "worklist: each id from its entry until it is done";
                let at = (LEFT, middle - 15.0);
                self.svg.text("soft", at, SMALL, Anchor::Start, words);
            }
            self.svg
                .rect("lane", (LEFT, middle - 9.0), (right - LEFT, 18.0));
            let label = format!("id {id}");
            let size = fit(&label, LEFT - 14.0, NORMAL);
            let at = (LEFT - 8.0, middle + 4.0);
            self.svg.text("plain", at, size, Anchor::End, &label);
        }
    }

    fn stays(&mut self, first: usize, last: usize) {
        for stay in self.stays.clone() {
            if stay.first.is_none_or(|number| number < last)
                && stay.last.is_none_or(|number| number >= first)
            {
                self.stay(&stay, first, last);
            }
        }
    }

    /// The part of a stay that is in a band, from the middle of a cell to that of another.
    fn stay(&mut self, stay: &Stay, first: usize, last: usize) {
        let starts_here = stay.first.filter(|&number| number >= first);
        let ends_here = stay.last.filter(|&number| number < last);
        let left = starts_here.map_or(LEFT, |number| self.layout.middle(number));
        let right = match ends_here {
            Some(number) => self.layout.middle(number),
            None => self.right_of(last - 1),
        };
        let mut requests = self.run.requests.iter();
        let request = requests.position(|named| named.request.id == stay.id);
        let taken = (stay.mark == TAKEN).then_some(request.unwrap_or(0));
        let middle = self.y + self.layout.listed_middle(stay.id);
        self.svg.open(&stay_words(stay));
        marks::listed_bar(&mut self.svg, taken, (left, right), middle);
        self.svg.close();
    }

    fn restarts(&self, first: usize, last: usize) -> Vec<usize> {
        let restart = |&number: &usize| self.run.steps[number].call == Call::Restart;
        (first..last).filter(restart).collect()
    }

    /// A restart goes through all lanes, and the worklist.
    fn restart_lines(&mut self, first: usize, last: usize) {
        let (top, bottom) = (self.y + AXIS, self.y + self.layout.listed_end());
        let noun = self.run.source.noun();
        for number in self.restarts(first, last) {
            self.svg.open(&format!("{noun} {number}: restart"));
            marks::restart(&mut self.svg, self.layout.middle(number), top, bottom);
            self.svg.close();
        }
    }

    fn mark(&mut self, number: usize) {
        let step = &self.run.steps[number];
        let Some(mark) = mark_of(step) else {
            return;
        };
        let middle = match step.listed_id() {
            Some(id) => self.layout.listed_middle(id),
            None => self.layout.lane(step.slot()).top + BAR_MIDDLE,
        };
        let at = (self.layout.middle(number), self.y + middle);
        self.svg.open(&self.step_words(number));
        marks::draw(&mut self.svg, mark, at);
        if let (Mark::Retire, Call::Retire { floor }) = (mark, step.call) {
            let words = floor.to_string();
            let size = fit(&words, self.layout.cell - 2.0, SMALL);
            self.svg
                .text("strong", (at.0, at.1 + 17.0), size, Anchor::Middle, &words);
        }
        self.svg.close();
    }

    fn step_words(&self, number: usize) -> String {
        let step = &self.run.steps[number];
        let answer = match step.happened {
            Happened::Done => "done".to_string(),
            Happened::Moved => "moved".to_string(),
            Happened::Ran(partition) => format!("moved, block ran on partition {partition}"),
            Happened::Logged(partition) => {
                format!("moved, block taken from the log of partition {partition}")
            }
            Happened::Replied { id, value } => format!("reply {id} {value}"),
            Happened::Taken(id) => format!("taken {id}"),
            Happened::Refused(question_number) => {
                format!("refused {question_number}: {}", question(question_number))
            }
        };
        let noun = self.run.source.noun();
        format!("{noun} {number}: {}: {answer}", step.words)
    }

    /// The used rows of each partition and of the book.
    fn strips(&mut self, first: usize, last: usize) {
        let head = self.y + self.layout.strip(0) - 5.0;
        let words = format!("rows used, of {} in each", self.run.rows);
        self.svg
            .text("soft", (LEFT, head), SMALL, Anchor::Start, &words);
        for partition in 0..self.layout.strips {
            let label = partition_name(partition, self.run.partitions);
            let bottom = self.y + self.layout.strip(partition) + STRIP - 2.0;
            self.svg.text(
                "plain",
                (LEFT - 8.0, bottom - 3.0),
                NORMAL,
                Anchor::End,
                &label,
            );
            self.strip(partition, first, last, bottom);
        }
    }

    fn strip(&mut self, partition: usize, first: usize, last: usize, bottom: f64) {
        let used = |number: usize| self.run.steps[number].used[partition];
        let height = |count: usize| (STRIP - 3.0) * count as f64 / self.run.rows as f64;
        let mut points = vec![(LEFT, bottom)];
        let mut numbers = Vec::new();
        for number in first..last {
            let (left, level) = (self.layout.x(number), bottom - height(used(number)));
            points.push((left, level));
            points.push((left + self.layout.cell, level));
            let before = if number == 0 { 0 } else { used(number - 1) };
            if used(number) != before || number == first {
                numbers.push((self.layout.middle(number), used(number).to_string()));
            }
        }
        let right = self.right_of(last - 1);
        points.push((right, bottom));
        points.dedup();
        self.svg
            .path("used", (0.0, 0.0), &straightened(&points), true);
        self.svg.line("edge", (LEFT, bottom), (right, bottom));
        for (middle, number) in numbers {
            self.svg.text(
                "strong",
                (middle, bottom - 3.0),
                SMALL,
                Anchor::Middle,
                &number,
            );
        }
    }
}

fn mark_of(step: &Step) -> Option<Mark> {
    match (step.happened, step.call) {
        (Happened::Refused(number), _) => Some(Mark::Refusal(number)),
        (Happened::Moved, _) => Some(Mark::Move),
        (Happened::Ran(partition), _) => Some(Mark::Ran(partition)),
        (Happened::Logged(partition), _) => Some(Mark::Logged(partition)),
        (Happened::Replied { .. }, _) => Some(Mark::Reply),
        (Happened::Taken(_), _) => Some(Mark::Take),
        (Happened::Done, Call::Arrival { .. }) => Some(Mark::Arrival),
        (Happened::Done, Call::Retry { .. }) => Some(Mark::Retry),
        (Happened::Done, Call::Crash { .. }) => Some(Mark::Crash),
        (Happened::Done, Call::Add { .. }) => Some(Mark::Add),
        (Happened::Done, Call::Done { .. }) => Some(Mark::Done),
        (Happened::Done, Call::Retire { .. }) => Some(Mark::Retire),
        (Happened::Done, Call::PutInOrder) => Some(Mark::Order),
        // A restart has no lane of its own and is drawn through all of them.
        (Happened::Done, _) => None,
    }
}

fn stay_words(stay: &Stay) -> String {
    let from = match stay.first {
        Some(number) => format!("from call {number}"),
        None => "from before the list".to_string(),
    };
    let until = match stay.last {
        Some(number) => format!("until call {number}"),
        None => "until the end of the list".to_string(),
    };
    let mark = mark_words(stay.mark);
    format!("id {}: {mark} {from} {until}", stay.id)
}

/// The size at which a text has room.
fn fit(text: &str, room: f64, most: f64) -> f64 {
    let width = text_width(text, most);
    if width <= room {
        most
    } else {
        most * room / width
    }
}

fn shortened(name: &str, room: f64) -> String {
    let letters = (room / text_width("M", SMALL)) as usize;
    match letters {
        0 | 1 => String::new(),
        _ => name.chars().take(letters - 1).chain(['…']).collect(),
    }
}

/// Leaves out points between two others at the same level.
fn straightened(points: &[(f64, f64)]) -> Vec<(f64, f64)> {
    let mut kept: Vec<(f64, f64)> = Vec::new();
    for &point in points {
        let level = kept.len() > 1
            && kept[kept.len() - 1].1 == point.1
            && kept[kept.len() - 2].1 == point.1;
        if level {
            kept.pop();
        }
        kept.push(point);
    }
    kept
}
