//! Values that hold until the next one, and the panel of tempos.

use super::axes::{Beats, Scale, draw_scale, frame, through, value_words};
use super::{SMALL, TEMPO};
use crate::svg::{Anchor, Area, Room, Svg, Words};
use marrighentu::Timing;

/// A value that holds until the next one, as a line of steps with words on them where there is room.
pub(super) struct Steps<'a> {
    pub(super) values: &'a [(f64, f64)],
    pub(super) colour: &'a str,
    pub(super) name: &'a str,
    pub(super) unit: &'a str,
    /// Whether the first value holds before its beat too.
    pub(super) holds_before: bool,
}

/// One step as it is drawn.
pub(super) struct Step {
    pub(super) beat: f64,
    pub(super) value: f64,
    pub(super) left: f64,
    pub(super) right: f64,
    pub(super) y: f64,
}

impl Steps<'_> {
    /// The entries that are seen, each with the beats from which and up to which it holds.
    fn seen(&self, beats: Beats) -> impl Iterator<Item = (f64, f64, f64, f64)> + '_ {
        let starts = self
            .values
            .iter()
            .enumerate()
            .map(|(place, entry)| if place == 0 && self.holds_before { f64::NEG_INFINITY } else { entry.0 });
        let ends = self.values.iter().skip(1).map(|entry| entry.0).chain([f64::INFINITY]);
        let spans =
            self.values.iter().zip(starts.zip(ends)).map(|((beat, value), (from, to))| (*beat, *value, from, to));
        spans.filter(move |(_, _, from, to)| beats.meets(*from, *to))
    }

    pub(super) fn drawn(&self, beats: Beats, scale: &Scale) -> Vec<Step> {
        let step = |(beat, value, from, to): (f64, f64, f64, f64)| Step {
            beat,
            value,
            left: beats.x(from.max(beats.from)),
            right: beats.x(to.min(beats.to)),
            y: scale.y(value),
        };
        self.seen(beats).map(step).collect()
    }

    /// Words on the steps that are wide enough, widest first, then on those that stand out. They stand on the step or hang below it, over no line.
    pub(super) fn name_values(&self, svg: &mut Svg, room: &mut Room, mut steps: Vec<Step>) {
        let width = |step: &Step| step.right - step.left;
        let even = steps.iter().map(|step| step.y).sum::<f64>() / steps.len().max(1) as f64;
        let weight = |step: &Step| if width(step) >= 40.0 { 1e6 + width(step) } else { (step.y - even).abs() };
        steps.sort_by(|one, other| weight(other).total_cmp(&weight(one)));
        for step in steps {
            let text = value_words(step.value as f32);
            let middle = f64::midpoint(step.left, step.right);
            let places = [
                (step.left + 3.0, step.y - 4.0, Anchor::Start),
                (middle, step.y - 4.0, Anchor::Middle),
                (middle, step.y + 12.0, Anchor::Middle),
                (step.left + 3.0, step.y + 12.0, Anchor::Start),
                (step.right + 3.0, step.y + 4.0, Anchor::Start),
                (step.left - 3.0, step.y + 4.0, Anchor::End),
            ];
            name_one(svg, room, self.colour, &text, &places);
        }
    }
}

/// Words at the first of some places that is free, or nowhere.
pub(super) fn name_one(svg: &mut Svg, room: &mut Room, fill: &str, text: &str, places: &[(f64, f64, Anchor)]) {
    for (x, y, anchor) in places.iter().copied() {
        let words = Words { x, y, size: SMALL, anchor, fill, text };
        if room.take(&words) {
            svg.words(&words);
            return;
        }
    }
}

/// The corners of a line of steps.
pub(super) fn corners(steps: &[Step]) -> Vec<(f64, f64)> {
    steps.iter().flat_map(|step| [(step.left, step.y), (step.right, step.y)]).collect()
}

/// How thick a line with so many bends is.
pub(super) fn thickness(bends: usize) -> f64 {
    if bends > 400 { 0.8 } else { 1.5 }
}

pub(super) fn draw_steps(svg: &mut Svg, all: &Steps<'_>, steps: &[Step]) {
    let width = thickness(steps.len());
    svg.path(
        &through(&corners(steps)),
        &format!("fill=\"none\" stroke=\"{}\" stroke-width=\"{width}\"", all.colour),
        "",
    );
    // a place for the mouse on each step
    for step in steps {
        let under =
            Area { left: step.left, top: step.y - 4.0, right: step.right.max(step.left + 1.0), bottom: step.y + 4.0 };
        let title = format!("{} at beat {}: {} {}", all.name, step.beat as f32, step.value as f32, all.unit);
        svg.rect(under, "fill-opacity=\"0\"", &title);
    }
}

pub(super) fn draw_tempos(svg: &mut Svg, timing: &Timing, beats: Beats, area: Area) {
    let values: Vec<(f64, f64)> =
        timing.tempos().iter().map(|(beat, tempo)| (f64::from(beat), f64::from(tempo))).collect();
    let all = Steps { values: &values, colour: TEMPO, name: "tempo", unit: "beats a minute", holds_before: true };
    let scale = Scale::over(all.seen(beats).map(|entry| entry.1), area, 0.14, true);
    let unit = if scale.powers { "tempo in beats a minute, logarithmic" } else { "tempo in beats a minute" };
    draw_scale(svg, &scale, unit);
    let steps = all.drawn(beats, &scale);
    let line = corners(&steps);
    if let Some(first) = line.first() {
        let closed = format!("{}V{:.2}H{:.2}Z", through(&line), area.bottom, first.0);
        svg.path(&closed, &format!("fill=\"{TEMPO}\" fill-opacity=\"0.12\""), "");
    }
    draw_steps(svg, &all, &steps);
    let mut room = Room::new(area);
    room.keep_line(&line);
    all.name_values(svg, &mut room, steps);
    frame(svg, area);
}
