//! The panel of scrolls and speeds.

use super::axes::{Beats, Scale, draw_scale, frame, through, value_words};
use super::steps::{Steps, corners, draw_steps, name_one, thickness};
use super::time::second;
use super::{LAST, LEFT, PALE, SCROLL, SMALL, SPEED};
use crate::svg::{Anchor, Area, Room, Svg, Words};
use marrighentu::{Cursor, SpeedUnit, Timing};

/// Points of a line: a beat and a ratio each.
type Points = Vec<(f64, f64)>;

pub(super) fn draw_ratios(svg: &mut Svg, timing: &Timing, beats: Beats, area: Area) {
    let scrolls: Points = timing.scrolls().iter().map(|(beat, ratio)| (f64::from(beat), f64::from(ratio))).collect();
    let (line, ends) = if timing.speeds().is_empty() { Default::default() } else { speed_line(timing, beats) };
    let shown = clipped(&line, beats);
    let scale = Scale::over(scrolls.iter().chain(&shown).map(|entry| entry.1).chain([1.0]), area, 0.14, false);
    draw_scale(svg, &scale, "");
    let mut x = LEFT;
    for (name, colour, drawn) in [("scroll", SCROLL, !scrolls.is_empty()), ("speed", SPEED, !line.is_empty())] {
        if drawn {
            let words =
                Words { x: x + 18.0, y: area.top - 7.0, size: SMALL, anchor: Anchor::Start, fill: colour, text: name };
            svg.path(&format!("M{x} {}h14", area.top - 11.0), &format!("stroke=\"{colour}\" stroke-width=\"2\""), "");
            svg.words(&words);
            x = words.area().right + 16.0;
        }
    }
    svg.words(&Words { x, y: area.top - 7.0, size: SMALL, anchor: Anchor::Start, fill: PALE, text: "as factors" });

    let all = Steps { values: &scrolls, colour: SCROLL, name: "scroll", unit: "times", holds_before: false };
    let steps = all.drawn(beats, &scale);
    let shown: Points = shown.iter().map(|(beat, ratio)| (beats.x(*beat), scale.y(*ratio))).collect();
    let mut room = Room::new(area);
    room.keep_line(&corners(&steps));
    room.keep_line(&shown);
    if !steps.is_empty() {
        draw_steps(svg, &all, &steps);
    }
    if !shown.is_empty() {
        let width = thickness(shown.len() / 4);
        let attributes = format!("fill=\"none\" stroke=\"{SPEED}\" stroke-width=\"{width}\" stroke-dasharray=\"6 2\"");
        svg.path(&through(&shown), &attributes, "");
    }
    let seen = timing.speeds().iter().zip(ends).filter(|(speed, _)| beats.has(f64::from(speed.beat)));
    for (speed, (end, ratio)) in seen {
        let unit = if speed.unit == SpeedUnit::Beats { "beats" } else { "s" };
        let (x, y) = (beats.x(end), scale.y(ratio));
        let title = format!("speed at beat {}: ratio {} over {} {unit}", speed.beat, speed.ratio, speed.delay);
        svg.circle((x, y), 1.7 * thickness(timing.speeds().len()), &format!("fill=\"{SPEED}\""), &title);
        let over =
            if speed.delay == 0.0 { String::new() } else { format!(" over {} {unit}", value_words(speed.delay)) };
        let text = format!("{}{over}", value_words(speed.ratio));
        let places = [
            (x + 4.0, y - 5.0, Anchor::Start),
            (x + 4.0, y + 13.0, Anchor::Start),
            (x - 4.0, y - 5.0, Anchor::End),
            (x - 4.0, y + 13.0, Anchor::End),
        ];
        name_one(svg, &mut room, SPEED, &text, &places);
    }
    all.name_values(svg, &mut room, steps);
    frame(svg, area);
}

/// A ratio reached over beats or seconds: the line goes from the ratio before to the new one, unless the next speed comes first. Beside the line, where
/// each speed is reached or cut off.
pub(super) fn speed_line(timing: &Timing, beats: Beats) -> (Points, Points) {
    let mut cursor = timing.cursor();
    let (mut line, mut ends) = (vec![(beats.from.min(0.0), 1.0)], Vec::new());
    let mut before = 1.0;
    for (place, speed) in timing.speeds().iter().enumerate() {
        let (start, ratio, delay) = (f64::from(speed.beat), f64::from(speed.ratio), f64::from(speed.delay));
        let end = if delay <= 0.0 {
            start
        } else if speed.unit == SpeedUnit::Beats {
            (start + delay).min(LAST)
        } else {
            reached(&mut cursor, start, delay)
        };
        let next = timing.speeds().get(place + 1).map_or(f64::INFINITY, |next| f64::from(next.beat));
        let reached =
            if end <= next { (end, ratio) } else { (next, before + (ratio - before) * (next - start) / (end - start)) };
        line.extend([(start, before), reached]);
        ends.push(reached);
        if next.is_finite() {
            line.push((next, reached.1));
        }
        before = ratio;
    }
    line.push((beats.to.max(line[line.len() - 1].0), line[line.len() - 1].1));
    (line, ends)
}

/// The first beat that is so many seconds behind another.
pub(super) fn reached(cursor: &mut Cursor<'_>, start: f64, seconds: f64) -> f64 {
    let end = second(cursor, start) + seconds;
    let (mut low, mut high) = (start, LAST);
    for _ in 0..40 {
        let middle = f64::midpoint(low, high);
        if second(cursor, middle) < end { low = middle } else { high = middle }
    }
    high
}

/// The part of a line that is seen, cut at both ends.
pub(super) fn clipped(line: &[(f64, f64)], beats: Beats) -> Points {
    let mut found = Vec::new();
    for two in line.windows(2) {
        let ((from, one), (to, other)) = (two[0], two[1]);
        if to < beats.from || from > beats.to {
            continue;
        }
        let at = |beat: f64| if to > from { one + (other - one) * (beat - from) / (to - from) } else { other };
        let (left, right) = (from.max(beats.from), to.min(beats.to));
        found.push((left, if left == from { one } else { at(left) }));
        found.push((right, if right == to { other } else { at(right) }));
    }
    found
}
