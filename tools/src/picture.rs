//! A picture of a run: its title, legend and lists around the bands of events or calls.

use crate::layout::Layout;
use crate::lives::{lives, Life};
use crate::marks::{self, Mark, CALLS_LEGEND, CALLS_STYLE, LEGEND, STYLE};
use crate::questions::question;
use crate::schedule::partition_name;
use crate::stays::{stays, Stay};
use crate::svg::{text_width, Anchor, Svg};
use crate::trace::{Happened, Named, Run, Source};
use std::collections::BTreeSet;

/// Sizes of the letters.
pub const SMALL: f64 = 9.0;
pub const NORMAL: f64 = 11.0;
const LARGE: f64 = 17.0;
pub const MARGIN: f64 = 14.0;

/// The whole picture as a file's text.
pub fn picture(name: &str, run: &Run) -> String {
    let layout = Layout::of(run);
    let mut drawing = Drawing {
        svg: Svg::default(),
        run,
        layout,
        lives: lives(run),
        stays: stays(run),
        y: 0.0,
    };
    let steps = run.steps.len();
    let (title, style) = match run.source {
        Source::Schedule => (
            format!("{name}: a run of {steps} events"),
            STYLE.to_string(),
        ),
        Source::Calls => (
            format!("{name}: a list of {steps} calls"),
            format!("{STYLE}{CALLS_STYLE}"),
        ),
    };
    drawing.header(&title);
    let mut first = 0;
    while first < run.steps.len() {
        let last = (first + drawing.layout.in_band).min(run.steps.len());
        drawing.band(first, last);
        first = last;
    }
    drawing.footer();
    let size = (drawing.layout.width(), drawing.y + MARGIN);
    let enlarged = if drawing.layout.is_wide() { 1.25 } else { 1.0 };
    drawing.svg.finish(&title, &style, size, enlarged)
}

/// A picture while it is drawn.
pub struct Drawing<'a> {
    pub svg: Svg,
    pub run: &'a Run,
    pub layout: Layout,
    pub lives: Vec<Life>,
    pub stays: Vec<Stay>,
    /// How far down it is drawn.
    pub y: f64,
}

impl Drawing<'_> {
    fn header(&mut self, title: &str) {
        let run = self.run;
        self.y = MARGIN + LARGE;
        self.svg
            .text("strong", (MARGIN, self.y), LARGE, Anchor::Start, title);
        self.y += 18.0;
        let requests = run.requests.len();
        let facts = format!(
            "P {} partitions and the book, C {} rows in each, {requests} requests",
            run.partitions, run.rows
        );
        self.svg
            .text("soft", (MARGIN, self.y), NORMAL, Anchor::Start, &facts);
        self.y += 26.0;
        self.legend();
        self.y += 26.0;
    }

    /// The legend, in as many lines as it needs.
    fn legend(&mut self) {
        let right = self.layout.width() - MARGIN;
        let mut x = MARGIN;
        let more = match self.run.source {
            Source::Schedule => &[][..],
            Source::Calls => &CALLS_LEGEND[..],
        };
        for &(mark, words) in LEGEND.iter().chain(more) {
            let width = 34.0 + text_width(words, NORMAL) + 10.0;
            if x + width > right {
                x = MARGIN;
                self.y += 26.0;
            }
            marks::draw(&mut self.svg, mark, (x + 13.0, self.y));
            self.svg.text(
                "plain",
                (x + 31.0, self.y + 4.0),
                NORMAL,
                Anchor::Start,
                words,
            );
            x += width;
        }
    }

    fn footer(&mut self) {
        self.refusals();
        self.rows();
        let requests = self.run.requests.iter().map(request_line).collect();
        self.in_columns(requests);
    }

    /// The words of each question that refused something.
    fn refusals(&mut self) {
        let refused = self
            .run
            .steps
            .iter()
            .filter_map(|step| match step.happened {
                Happened::Refused(number) => Some(number),
                _ => None,
            });
        for number in refused.collect::<BTreeSet<u32>>() {
            marks::draw(
                &mut self.svg,
                Mark::Refusal(number),
                (MARGIN + 13.0, self.y),
            );
            self.svg.text(
                "plain",
                (MARGIN + 31.0, self.y + 4.0),
                NORMAL,
                Anchor::Start,
                question(number),
            );
            self.y += 25.0;
        }
    }

    /// The rows used at the end, beside the most that all requests of a schedule together take.
    fn rows(&mut self) {
        let Some(most) = &self.run.most else {
            return;
        };
        let words = format!(
            "rows at the end of the run, and the most that all requests together take by any route (C {})",
            self.run.rows
        );
        self.svg
            .text("soft", (MARGIN, self.y), SMALL, Anchor::Start, &words);
        self.y += 14.0;
        let line = |(partition, most): (usize, &usize)| {
            let name = partition_name(partition, self.run.partitions);
            let used = self.run.steps.last().map_or(0, |step| step.used[partition]);
            format!("{name}: {used}, at most {most}")
        };
        let lines = most.iter().enumerate().map(line).collect();
        self.in_columns(lines);
        self.y += 8.0;
    }

    /// Short lines, in as many columns as there is room for.
    fn in_columns(&mut self, lines: Vec<String>) {
        let widest = lines
            .iter()
            .map(|line| text_width(line, SMALL))
            .fold(1.0, f64::max)
            + 20.0;
        let columns = ((self.layout.width() - 2.0 * MARGIN) / widest)
            .floor()
            .max(1.0) as usize;
        let rows = lines.len().div_ceil(columns).max(1);
        for (index, line) in lines.iter().enumerate() {
            let x = MARGIN + widest * (index / rows) as f64;
            self.svg.text(
                "plain",
                (x, self.y + 14.0 * (index % rows) as f64),
                SMALL,
                Anchor::Start,
                line,
            );
        }
        self.y += 14.0 * rows as f64;
    }
}

fn request_line(named: &Named) -> String {
    let [first, second, third, fourth] = named.request.arguments;
    format!(
        "{}: id {}, {} {first} {second} {third} {fourth}",
        named.name, named.request.id, named.workflow
    )
}
