//! Strips of events by their kind, and the bands of warps and fakes through the panels.

use super::axes::{Beats, value_words};
use super::{FAKE, LAST, LEFT, MADE, RIGHT, SMALL, STOP, WARP};
use crate::svg::{Anchor, Area, Room, Svg, Words};
use marrighentu::{Columns, Timing, Warp};

/// Where the clock goes back to by a warp of negative length: its end, or that of a warp before it if that lies further on.
pub(super) fn goes_back_to(warps: &Columns<f32>, place: usize) -> f64 {
    warps.iter().take(place + 1).map(|(beat, length)| f64::from(beat) + f64::from(length)).fold(0.0, f64::max)
}

/// A span of beats that is shaded through the panels.
pub(super) struct Band {
    pub(super) from: f64,
    pub(super) to: f64,
    pub(super) fill: &'static str,
    /// Whether the clock goes back over it.
    pub(super) back: bool,
    /// Whether it is a warp that was made of a tempo or a stop.
    pub(super) made: bool,
    pub(super) title: String,
    pub(super) words: String,
}

/// The pattern of what the clock goes back over.
const BACK: &str = "url(#back)";

pub(super) fn bands(timing: &Timing) -> (Vec<Band>, Vec<Band>) {
    let warps = timing.marked_warps().enumerate().map(|(place, Warp { beat, length, made })| {
        let (start, end) = (f64::from(beat), f64::from(beat) + f64::from(length));
        let (fill, from) = if made { (MADE, ", made of a tempo or a stop") } else { (WARP, "") };
        if length < 0.0 {
            let back = goes_back_to(timing.warps(), place).min(start);
            let title = format!(
                "warp at beat {beat} for {length} beats{from}: a negative length, the clock goes back to beat {back} and counts from there again"
            );
            let words = format!("{} back", value_words(length));
            Band { from: back, to: start, fill: BACK, back: true, made, title, words }
        } else if end > LAST {
            let title = format!("warp at beat {beat} for {length} beats{from}, which never ends");
            Band { from: start, to: LAST, fill, back: false, made, title, words: "never ends".into() }
        } else {
            let title = format!("warp at beat {beat} for {length} beats{from}");
            Band { from: start, to: end, fill, back: false, made, title, words: value_words(length) }
        }
    });
    let fakes = timing.fakes().iter().map(|(beat, length)| {
        let (from, to) = (f64::from(beat), (f64::from(beat) + f64::from(length)).min(LAST));
        let title = format!("fake at beat {beat} for {length} beats");
        Band { from, to, fill: FAKE, back: false, made: false, title, words: value_words(length) }
    });
    (warps.collect(), fakes.collect())
}

pub(super) fn draw_bands(svg: &mut Svg, beats: Beats, area: Area, all: &[Band]) {
    for band in all.iter().filter(|band| beats.meets(band.from, band.to)) {
        let part = Area { left: beats.x(band.from), right: beats.x(band.to), ..area };
        svg.rect(part, &format!("fill=\"{}\" fill-opacity=\"0.16\"", band.fill), &band.title);
    }
}

/// A strip of events of one kind: marks below, their values above where there is room.
pub(super) struct Strip<'a> {
    pub(super) name: &'a str,
    pub(super) colour: &'a str,
    pub(super) marks: Vec<Mark>,
}

pub(super) struct Mark {
    pub(super) from: f64,
    /// The end of a span, none for a pause.
    pub(super) to: Option<f64>,
    pub(super) back: bool,
    pub(super) words: String,
    pub(super) title: String,
    pub(super) weight: f64,
}

pub(super) fn pauses<'a>(list: &Columns<f32>, name: &'a str, colour: &'a str) -> Strip<'a> {
    let marks = list.iter().map(|(beat, value)| Mark {
        from: f64::from(beat),
        to: None,
        back: false,
        words: format!("{} s", value_words(value)),
        title: format!("{name} at beat {beat}: {value} seconds"),
        weight: f64::from(value.abs()),
    });
    Strip { name, colour, marks: marks.collect() }
}

/// The bands of one origin on a strip of their own: warps that were written, warps that were made, fakes.
pub(super) fn spans<'a>(bands: &[Band], made: bool, name: &'a str, colour: &'a str) -> Strip<'a> {
    let marks = bands.iter().filter(|band| band.made == made).map(|band| Mark {
        from: band.from,
        to: Some(band.to),
        back: band.back,
        words: band.words.clone(),
        title: band.title.clone(),
        weight: band.to - band.from,
    });
    Strip { name, colour, marks: marks.collect() }
}

pub(super) fn draw_strip(svg: &mut Svg, beats: Beats, area: Area, strip: &Strip<'_>) {
    let shown: Vec<&Mark> = strip
        .marks
        .iter()
        .filter(|mark| beats.has(mark.from) || mark.to.is_some_and(|to| beats.meets(mark.from, to)))
        .collect();
    let (top, bottom) = (area.top + 15.0, area.bottom - 3.0);
    svg.path(&format!("M{LEFT} {0}H{RIGHT}", area.bottom), "stroke=\"#ccc\"", "");
    let label =
        Words { x: LEFT - 7.0, y: bottom - 1.0, size: 12.0, anchor: Anchor::End, fill: strip.colour, text: strip.name };
    svg.words(&label);
    for mark in &shown {
        let left = beats.x(mark.from);
        match mark.to {
            None => {
                let path = format!("M{left:.2} {bottom}V{top}");
                svg.path(&path, &format!("stroke=\"{}\" stroke-width=\"2\"", strip.colour), &mark.title);
            }
            Some(to) => {
                let right = beats.x(to).max(left + 1.5);
                let part = Area { left, top, right, bottom };
                if mark.back {
                    svg.rect(part, &format!("fill=\"{BACK}\" stroke=\"{STOP}\""), &mark.title);
                    // an arrow from the warp's beat back to where the clock goes
                    let middle = f64::midpoint(top, bottom);
                    let arrow = format!("M{right:.2} {middle}H{left:.2}m6 -5l-6 5l6 5");
                    svg.path(&arrow, "fill=\"none\" stroke=\"#7b241c\" stroke-width=\"1.6\"", &mark.title);
                } else {
                    svg.rect(part, &format!("fill=\"{}\" fill-opacity=\"0.75\"", strip.colour), &mark.title);
                }
            }
        }
    }
    let mut heaviest = shown;
    heaviest.sort_by(|one, other| other.weight.total_cmp(&one.weight));
    let mut room = Room::new(Area { right: RIGHT + 24.0, ..area });
    for mark in heaviest {
        let x = beats.x(mark.from) - 1.0;
        let fill = if mark.back { STOP } else { strip.colour };
        let words = Words { x, y: area.top + 11.5, size: SMALL, anchor: Anchor::Start, fill, text: &mark.words };
        if room.take(&words) {
            svg.words(&words);
        }
    }
}
