//! Shapes and words of an SVG, and room for words.

use std::fmt::Write;

/// Where a text stands by its place.
#[derive(Clone, Copy, PartialEq)]
pub enum Anchor {
    Start,
    Middle,
    End,
}

/// A part of the picture: from the left and the top to the right and the bottom.
#[derive(Clone, Copy)]
pub struct Area {
    pub left: f64,
    pub top: f64,
    pub right: f64,
    pub bottom: f64,
}

impl Area {
    pub fn width(&self) -> f64 {
        self.right - self.left
    }

    pub fn height(&self) -> f64 {
        self.bottom - self.top
    }

    fn meets(&self, other: &Area) -> bool {
        self.left < other.right && other.left < self.right && self.top < other.bottom && other.top < self.bottom
    }

    fn holds(&self, other: &Area) -> bool {
        self.left <= other.left && other.right <= self.right && self.top <= other.top && other.bottom <= self.bottom
    }
}

pub fn escaped(text: &str) -> String {
    let mut out = String::with_capacity(text.len());
    for character in text.chars() {
        match character {
            '&' => out.push_str("&amp;"),
            '<' => out.push_str("&lt;"),
            '>' => out.push_str("&gt;"),
            '"' => out.push_str("&quot;"),
            // XML has no other control characters
            control if control < ' ' && !matches!(control, '\t' | '\n' | '\r') => out.push('\u{fffd}'),
            '\u{fffe}' | '\u{ffff}' => out.push('\u{fffd}'),
            other => out.push(other),
        }
    }
    out
}

/// No usual sans-serif is wider on the average.
const WIDTH_OF_A_CHARACTER: f64 = 0.64;

pub struct Words<'a> {
    pub x: f64,
    pub y: f64,
    pub size: f64,
    pub anchor: Anchor,
    pub fill: &'a str,
    pub text: &'a str,
}

impl Words<'_> {
    pub fn area(&self) -> Area {
        let width = self.text.chars().count() as f64 * WIDTH_OF_A_CHARACTER * self.size;
        let left = match self.anchor {
            Anchor::Start => self.x,
            Anchor::Middle => self.x - width / 2.0,
            Anchor::End => self.x - width,
        };
        Area { left, top: self.y - 0.85 * self.size, right: left + width, bottom: self.y + 0.25 * self.size }
    }
}

pub struct Svg {
    out: String,
}

impl Svg {
    pub fn new(width: f64, height: f64) -> Svg {
        let mut out = String::new();
        let _ = writeln!(
            out,
            "<svg xmlns=\"http://www.w3.org/2000/svg\" viewBox=\"0 0 {width} {height}\" width=\"{width}\" height=\"{height}\" font-family=\"sans-serif\">"
        );
        let _ = writeln!(
            out,
            "<defs><pattern id=\"back\" width=\"7\" height=\"7\" patternUnits=\"userSpaceOnUse\" patternTransform=\"rotate(45)\"><path d=\"M0 0V7\" stroke=\"#c0392b\" stroke-width=\"2\"/></pattern></defs>"
        );
        let _ = writeln!(out, "<rect width=\"{width}\" height=\"{height}\" fill=\"#fff\"/>");
        Svg { out }
    }

    pub fn words(&mut self, words: &Words<'_>) {
        let anchor = match words.anchor {
            Anchor::Start => "",
            Anchor::Middle => " text-anchor=\"middle\"",
            Anchor::End => " text-anchor=\"end\"",
        };
        let Words { x, y, size, fill, text, .. } = words;
        let text = escaped(text);
        let _ = writeln!(
            self.out,
            "<text x=\"{x:.1}\" y=\"{y:.1}\" font-size=\"{size}\" fill=\"{fill}\"{anchor}>{text}</text>"
        );
    }

    /// A path in the language of SVG, as `M0 0H9`, with more attributes and, behind the mouse, words.
    pub fn path(&mut self, path: &str, attributes: &str, title: &str) {
        self.shape("path", &format!("d=\"{path}\" {attributes}"), title);
    }

    pub fn rect(&mut self, area: Area, attributes: &str, title: &str) {
        let place = format!(
            "x=\"{:.2}\" y=\"{:.2}\" width=\"{:.2}\" height=\"{:.2}\"",
            area.left,
            area.top,
            area.width(),
            area.height()
        );
        self.shape("rect", &format!("{place} {attributes}"), title);
    }

    pub fn circle(&mut self, (x, y): (f64, f64), radius: f64, attributes: &str, title: &str) {
        self.shape("circle", &format!("cx=\"{x:.2}\" cy=\"{y:.2}\" r=\"{radius}\" {attributes}"), title);
    }

    fn shape(&mut self, name: &str, attributes: &str, title: &str) {
        let _ = if title.is_empty() {
            writeln!(self.out, "<{name} {attributes}/>")
        } else {
            writeln!(self.out, "<{name} {attributes}><title>{}</title></{name}>", escaped(title))
        };
    }

    pub fn end(mut self) -> String {
        self.out.push_str("</svg>\n");
        self.out
    }
}

/// Words and lines that stand already, so that no words are laid over them.
pub struct Room {
    within: Area,
    words: Vec<Area>,
    lines: Vec<Area>,
}

/// Of a slanted line, pieces of this length are kept free.
const PIECE: f64 = 6.0;

impl Room {
    pub fn new(within: Area) -> Room {
        Room { within, words: Vec::new(), lines: Vec::new() }
    }

    /// Takes the words' place, if it is free and within.
    pub fn take(&mut self, words: &Words<'_>) -> bool {
        let area = words.area();
        // a little air on either side
        let wide = Area { left: area.left - 3.0, right: area.right + 3.0, ..area };
        let free = self.within.holds(&area)
            && !self.words.iter().any(|other| other.meets(&wide))
            && !self.lines.iter().any(|other| other.meets(&area));
        if free {
            self.words.push(area);
        }
        free
    }

    /// Keeps a place free of words.
    pub fn keep_free(&mut self, area: Area) {
        self.lines.push(area);
    }

    /// Keeps a line from point to point free of words.
    pub fn keep_line(&mut self, points: &[(f64, f64)]) {
        for two in points.windows(2) {
            self.lines.extend(pieces(two[0], two[1]));
        }
    }

    /// Whether a line would lie over no words.
    pub fn line_is_free(&self, from: (f64, f64), to: (f64, f64)) -> bool {
        !pieces(from, to).any(|piece| self.words.iter().any(|words| words.meets(&piece)))
    }
}

/// A line as small areas.
fn pieces((x, y): (f64, f64), (to_x, to_y): (f64, f64)) -> impl Iterator<Item = Area> {
    let slanted = (to_x - x).abs().min((to_y - y).abs());
    let count = (slanted / PIECE).ceil().clamp(1.0, 400.0);
    let at = move |piece: f64| (x + (to_x - x) * piece / count, y + (to_y - y) * piece / count);
    (0..count as usize).map(move |piece| {
        let ((x, y), (to_x, to_y)) = (at(piece as f64), at(piece as f64 + 1.0));
        Area { left: x.min(to_x) - 0.8, top: y.min(to_y) - 0.8, right: x.max(to_x) + 0.8, bottom: y.max(to_y) + 0.8 }
    })
}

#[cfg(test)]
mod tests {
    use super::*;

    #[test]
    fn words_are_escaped() {
        assert_eq!(escaped("<a & \"b\">\u{1}\n\u{ffff}"), "&lt;a &amp; &quot;b&quot;&gt;\u{fffd}\n\u{fffd}");
    }

    #[test]
    fn words_never_overlap() {
        let mut room = Room::new(Area { left: 0.0, top: 0.0, right: 200.0, bottom: 20.0 });
        let words = |x| Words { x, y: 12.0, size: 10.0, anchor: Anchor::Start, fill: "#000", text: "12345" };
        assert!(room.take(&words(0.0)));
        assert!(!room.take(&words(20.0)) && !room.take(&words(34.0)));
        assert!(room.take(&words(36.0)));
        assert!(!room.take(&words(190.0)));
        room.keep_line(&[(80.0, 0.0), (120.0, 20.0)]);
        assert!(!room.take(&words(90.0)) && room.take(&words(130.0)));
    }
}
