//! Where notes are drawn: the displayed beat against the beat, beside where it would be without scrolls.

use super::axes::{Beats, Scale, draw_scale, frame, short, through};
use super::{INK, LEFT, PALE, SCROLL, SMALL};
use crate::svg::{Anchor, Area, Svg, Words};
use marrighentu::{Refusal, Timing};

pub(super) fn draw_drawn(svg: &mut Svg, timing: &Timing, beats: Beats, area: Area) {
    match displayed(timing, beats) {
        Ok(line) => draw_line(svg, timing, &line, beats, area),
        Err(refusal) => {
            let text = format!("no note can be drawn by these scrolls: {refusal} (refusal {})", refusal.number());
            let (x, y) = (LEFT + 9.0, (area.top + area.bottom) / 2.0);
            svg.words(&Words { x, y, size: SMALL, anchor: Anchor::Start, fill: INK, text: &text });
        }
    }
    frame(svg, area);
}

/// Points of the line: both ends, and each scroll that is seen, where the line bends.
pub(super) fn displayed(timing: &Timing, beats: Beats) -> Result<Vec<(f64, f64)>, Refusal> {
    let bends = timing.scrolls().beats().iter().map(|beat| f64::from(*beat)).filter(|beat| beats.has(*beat));
    let asked: Vec<f64> = [beats.from].into_iter().chain(bends).chain([beats.to]).collect();
    asked.iter().zip(timing.displayed_beats(&asked)?).map(|(beat, position)| Ok((*beat, position?))).collect()
}

fn draw_line(svg: &mut Svg, timing: &Timing, line: &[(f64, f64)], beats: Beats, area: Area) {
    let ends = [beats.from, beats.to];
    let scale = Scale::over(line.iter().map(|point| point.1).chain(ends), area, 0.06, false);
    draw_scale(svg, &scale, "");
    let name =
        Words { x: LEFT, y: area.top - 7.0, size: SMALL, anchor: Anchor::Start, fill: SCROLL, text: "drawn at beat" };
    svg.words(&name);
    let x = name.area().right + 10.0;
    let text = "dashed: where it would be without scrolls";
    svg.words(&Words { x, y: area.top - 7.0, size: SMALL, anchor: Anchor::Start, fill: PALE, text });
    let plain = ends.map(|beat| (beats.x(beat), scale.y(beat)));
    svg.path(&through(&plain), &format!("fill=\"none\" stroke=\"{PALE}\" stroke-dasharray=\"5 4\""), "");
    let drawn: Vec<(f64, f64)> = line.iter().map(|(beat, position)| (beats.x(*beat), scale.y(*position))).collect();
    let attributes = format!("fill=\"none\" stroke=\"{SCROLL}\" stroke-width=\"1.8\" stroke-linejoin=\"round\"");
    svg.path(&through(&drawn), &attributes, "");
    for (beat, ratio) in timing.scrolls().iter().filter(|(beat, _)| beats.has(f64::from(*beat))) {
        let Ok(position) = timing.displayed_beat(f64::from(beat)) else { continue };
        let place = (beats.x(f64::from(beat)), scale.y(position));
        let title = format!("beat {beat} is drawn at {}; {ratio} times as far apart from there on", short(position));
        svg.circle(place, 2.4, &format!("fill=\"{SCROLL}\""), &title);
    }
}
