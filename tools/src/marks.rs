//! The marks of the picture. Each has a shape of its own, so that no mark needs its colour.

use crate::svg::{Anchor, Svg};

#[derive(Clone, Copy, Debug, PartialEq, Eq)]
pub enum Mark {
    Arrival,
    Retry,
    Move,
    Ran(u32),
    Logged(u32),
    Reply,
    Crash,
    Refusal(u32),
    Restart,
    Life,
    Waiting,
    Taken,
    Add,
    Take,
    Done,
    Retire,
    Order,
}

/// The marks and their words, as the legend has them.
pub const LEGEND: [(Mark, &str); 10] = [
    (Mark::Life, "an agent's life (an open end goes on)"),
    (Mark::Arrival, "arrival"),
    (Mark::Retry, "retry"),
    (Mark::Move, "move by one instruction"),
    (Mark::Ran(0), "block ran, with its partition"),
    (Mark::Logged(0), "block taken from the log"),
    (Mark::Reply, "reply, its value below"),
    (Mark::Crash, "crash"),
    (Mark::Refusal(16), "refused, with its number"),
    (Mark::Restart, "restart"),
];

/// What a list of calls has beside them.
pub const CALLS_LEGEND: [(Mark, &str); 7] = [
    (Mark::Waiting, "an id waiting on the worklist"),
    (Mark::Taken, "an id taken by a worker"),
    (Mark::Add, "add"),
    (Mark::Take, "take"),
    (Mark::Done, "done, the id is removed"),
    (Mark::Retire, "retire, its floor below"),
    (Mark::Order, "store put in order"),
];

pub const CALLS_STYLE: &str = "\
.waiting{fill:#fff}
.wait{stroke:#4a4a4a;stroke-width:1.2;stroke-dasharray:2.5 2.5}
.stroke{stroke:#1a1a1a;stroke-width:2.4;stroke-linecap:round}
";

pub const STYLE: &str = "\
text{fill:#1a1a1a}
.strong{font-weight:bold}
.soft{fill:#595959}
.white{fill:#fff;font-weight:bold}
.paper{fill:#fff}
.lane{fill:#f4f4f1}
.grid{stroke:#dcdcd6;stroke-width:1}
.edge{stroke:#8c8c86;stroke-width:1}
.bar{stroke:#4a4a4a;stroke-width:1.2;fill:none}
.c0{fill:#cfe3f5}
.c1{fill:#f6dfc4}
.c2{fill:#d5ecd0}
.c3{fill:#ead6ee}
.c4{fill:#f5d5d6}
.c5{fill:#d3ecea}
.dark{fill:#1a1a1a}
.hollow{fill:#fff;stroke:#1a1a1a;stroke-width:1.4}
.ran{fill:#1f4e79;stroke:#1f4e79;stroke-width:1.4}
.logged{fill:#fff;stroke:#1f4e79;stroke-width:1.8;stroke-dasharray:3 1.8}
.crash{stroke:#b00020;stroke-width:3;stroke-linecap:round}
.refused{fill:#ffe08a;stroke:#7a4b00;stroke-width:1.4}
.restart{stroke:#b00020;stroke-width:1.6}
.used{fill:#c3ccd6}
.level{stroke:#51606f;stroke-width:1.2;fill:none}
";

/// Draws a mark at the middle of its cell.
pub fn draw(svg: &mut Svg, mark: Mark, at: (f64, f64)) {
    match mark {
        Mark::Arrival => svg.path("dark", at, &[(-5.0, -6.5), (7.0, 0.0), (-5.0, 6.5)], true),
        Mark::Retry => {
            svg.path("hollow", at, &[(-8.0, -6.0), (0.0, 0.0), (-8.0, 6.0)], true);
            svg.path("hollow", at, &[(0.0, -6.0), (8.0, 0.0), (0.0, 6.0)], true);
        }
        Mark::Move => svg.circle("dark", at, 2.8),
        Mark::Ran(partition) => square(svg, "ran", "white", at, partition),
        Mark::Logged(partition) => square(svg, "logged", "strong", at, partition),
        Mark::Reply => {
            svg.circle("hollow", at, 7.0);
            svg.circle("dark", at, 3.4);
        }
        Mark::Crash => {
            svg.line("crash", (at.0 - 6.0, at.1 - 6.0), (at.0 + 6.0, at.1 + 6.0));
            svg.line("crash", (at.0 - 6.0, at.1 + 6.0), (at.0 + 6.0, at.1 - 6.0));
        }
        Mark::Refusal(number) => {
            svg.path(
                "refused",
                at,
                &[(0.0, -10.5), (12.0, 0.0), (0.0, 10.5), (-12.0, 0.0)],
                true,
            );
            svg.text(
                "strong",
                (at.0, at.1 + 3.3),
                9.0,
                Anchor::Middle,
                &number.to_string(),
            );
        }
        Mark::Restart => restart(svg, at.0, at.1 - 8.0, at.1 + 8.0),
        Mark::Life => bar(svg, 0, (at.0 - 12.0, at.0 + 12.0), at.1, (true, false)),
        Mark::Waiting => listed_bar(svg, None, (at.0 - 12.0, at.0 + 12.0), at.1),
        Mark::Taken => listed_bar(svg, Some(0), (at.0 - 12.0, at.0 + 12.0), at.1),
        Mark::Add => strokes(svg, at, &[(-6.0, 0.0, 6.0, 0.0), (0.0, -6.0, 0.0, 6.0)]),
        Mark::Take => svg.path("dark", at, &[(-6.5, 5.5), (0.0, -6.5), (6.5, 5.5)], true),
        Mark::Done => strokes(svg, at, &[(-6.0, 0.0, -1.5, 5.0), (-1.5, 5.0, 7.0, -6.0)]),
        Mark::Retire => {
            svg.line("stroke", (at.0 - 8.0, at.1 + 6.0), (at.0 + 8.0, at.1 + 6.0));
            svg.path("dark", at, &[(-6.0, -6.5), (6.0, -6.5), (0.0, 3.0)], true);
        }
        Mark::Order => {
            let lines = [-5.0, 0.0, 5.0].map(|down| (-7.0, down, 1.0 + down, down));
            strokes(svg, at, &lines);
        }
    }
}

/// Thick lines, each from a point to another by their distance from an origin.
fn strokes(svg: &mut Svg, origin: (f64, f64), lines: &[(f64, f64, f64, f64)]) {
    for (left, top, right, bottom) in lines {
        let from = (origin.0 + left, origin.1 + top);
        svg.line("stroke", from, (origin.0 + right, origin.1 + bottom));
    }
}

/// The time of an id on the worklist: filled while it is taken, empty with a broken edge while it waits.
pub fn listed_bar(svg: &mut Svg, taken: Option<usize>, ends: (f64, f64), middle: f64) {
    let ((left, right), (top, bottom)) = (ends, (middle - 6.0, middle + 6.0));
    let (fill, edge) = match taken {
        Some(colour) => (format!("c{}", colour % 6), "bar"),
        None => ("waiting".to_string(), "wait"),
    };
    svg.rect(&fill, (left, top), (right - left, bottom - top));
    svg.line(edge, (left, top), (right, top));
    svg.line(edge, (left, bottom), (right, bottom));
}

fn square(svg: &mut Svg, class: &str, digit: &str, at: (f64, f64), partition: u32) {
    svg.rect(class, (at.0 - 7.0, at.1 - 7.0), (14.0, 14.0));
    svg.text(
        digit,
        (at.0, at.1 + 3.7),
        10.0,
        Anchor::Middle,
        &partition.to_string(),
    );
}

/// A double line from top to bottom.
pub fn restart(svg: &mut Svg, x: f64, top: f64, bottom: f64) {
    svg.line("restart", (x - 2.0, top), (x - 2.0, bottom));
    svg.line("restart", (x + 2.0, top), (x + 2.0, bottom));
}

/// A life's bar between two places; an end that is not closed goes on elsewhere.
pub fn bar(svg: &mut Svg, colour: usize, ends: (f64, f64), middle: f64, closed: (bool, bool)) {
    let half = crate::layout::BAR_HALF;
    let ((left, right), (top, bottom)) = (ends, (middle - half, middle + half));
    svg.rect(
        &format!("c{}", colour % 6),
        (left, top),
        (right - left, 2.0 * half),
    );
    svg.line("bar", (left, top), (right, top));
    svg.line("bar", (left, bottom), (right, bottom));
    if closed.0 {
        svg.line("bar", (left, top), (left, bottom));
    }
    if closed.1 {
        svg.line("bar", (right, top), (right, bottom));
    }
}
