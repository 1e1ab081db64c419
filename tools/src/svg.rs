//! The few forms of SVG that the picture needs.

use std::fmt::Write;

/// A drawing under construction.
#[derive(Default)]
pub struct Svg {
    body: String,
}

/// Where a text stands to its point.
#[derive(Clone, Copy, Debug, PartialEq, Eq)]
pub enum Anchor {
    Start,
    Middle,
    End,
}

impl Anchor {
    fn word(self) -> &'static str {
        ["start", "middle", "end"][self as usize]
    }
}

/// About the width of a text in the widest common sans serif, so that it has room in every other.
pub fn text_width(text: &str, size: f64) -> f64 {
    let width = |letter: char| match letter {
        'A'..='Z' | 'm' | 'w' => 0.72,
        '0'..='9' => 0.64,
        ' ' | ',' | ':' | 'i' | 'l' | 't' | 'f' => 0.38,
        _ => 0.62,
    };
    text.chars().map(width).sum::<f64>() * size
}

/// Numbers with at most one decimal keep the file short.
pub fn short(number: f64) -> String {
    let text = format!("{number:.1}");
    text.strip_suffix(".0").unwrap_or(&text).to_string()
}

pub fn escape(text: &str) -> String {
    text.replace('&', "&amp;")
        .replace('<', "&lt;")
        .replace('>', "&gt;")
        .replace('"', "&quot;")
}

impl Svg {
    pub fn rect(&mut self, class: &str, corner: (f64, f64), size: (f64, f64)) {
        let (x, y, width, height) = (
            short(corner.0),
            short(corner.1),
            short(size.0),
            short(size.1),
        );
        let _ = writeln!(
            self.body,
            r#"<rect class="{class}" x="{x}" y="{y}" width="{width}" height="{height}"/>"#
        );
    }

    pub fn line(&mut self, class: &str, from: (f64, f64), to: (f64, f64)) {
        let (x1, y1, x2, y2) = (short(from.0), short(from.1), short(to.0), short(to.1));
        let _ = writeln!(
            self.body,
            r#"<line class="{class}" x1="{x1}" y1="{y1}" x2="{x2}" y2="{y2}"/>"#
        );
    }

    pub fn circle(&mut self, class: &str, centre: (f64, f64), radius: f64) {
        let (x, y, radius) = (short(centre.0), short(centre.1), short(radius));
        let _ = writeln!(
            self.body,
            r#"<circle class="{class}" cx="{x}" cy="{y}" r="{radius}"/>"#
        );
    }

    /// A path through points given by their distance from an origin.
    pub fn path(&mut self, class: &str, origin: (f64, f64), points: &[(f64, f64)], closed: bool) {
        let mut data = String::new();
        for (index, (x, y)) in points.iter().enumerate() {
            let letter = if index == 0 { 'M' } else { 'L' };
            let _ = write!(
                data,
                "{letter}{} {}",
                short(origin.0 + x),
                short(origin.1 + y)
            );
        }
        if closed {
            data.push('Z');
        }
        let _ = writeln!(self.body, r#"<path class="{class}" d="{data}"/>"#);
    }

    pub fn text(&mut self, class: &str, at: (f64, f64), size: f64, anchor: Anchor, text: &str) {
        let (x, y, size, anchor) = (short(at.0), short(at.1), short(size), anchor.word());
        let text = escape(text);
        let _ = writeln!(
            self.body,
            r#"<text class="{class}" x="{x}" y="{y}" font-size="{size}" text-anchor="{anchor}">{text}</text>"#
        );
    }

    /// What follows until `close` says these words under the pointer.
    pub fn open(&mut self, words: &str) {
        let _ = writeln!(self.body, "<g><title>{}</title>", escape(words));
    }

    pub fn close(&mut self) {
        self.body.push_str("</g>\n");
    }

    /// The whole file; the size on the screen is the drawing's, enlarged.
    pub fn finish(self, title: &str, style: &str, size: (f64, f64), enlarged: f64) -> String {
        let (width, height) = (short(size.0), short(size.1));
        let (wide, high) = (short(size.0 * enlarged), short(size.1 * enlarged));
        format!(
            "<svg xmlns=\"http://www.w3.org/2000/svg\" width=\"{wide}\" height=\"{high}\" viewBox=\"0 0 {width} {height}\" \
             font-family=\"DejaVu Sans, Verdana, Arial, sans-serif\">\n<title>{}</title>\n<style>\n{style}</style>\n<rect class=\"paper\" width=\"{width}\" height=\"{height}\"/>\n{}</svg>\n",
            escape(title),
            self.body
        )
    }
}
