//! Time against beat, and the asked beats on it.

use super::axes::{Beats, Scale, draw_scale, frame, short, through};
use super::{ASKED, DELAY, INK, LAST, STOP};
use crate::seen::{Asked, Seen};
use crate::svg::{Anchor, Area, Room, Svg, Words};
use marrighentu::{Cursor, Timing, beat_to_note_row, note_row_to_beat};

pub(super) fn draw_time(svg: &mut Svg, seen: &Seen, beats: Beats, area: Area) {
    let timing = &seen.timing;
    let mut cursor = timing.cursor();
    let line: Vec<(f64, f64)> =
        bends(timing, beats).into_iter().map(|beat| (beat, second(&mut cursor, beat))).collect();
    let scale = Scale::over(line.iter().map(|point| point.1), area, 0.04, false);
    draw_scale(svg, &scale, "time in seconds");
    let pauses = [(timing.stops(), STOP, "stop"), (timing.delays(), DELAY, "delay")];
    let seen_pauses = pauses.iter().flat_map(|list| list.0.beats()).filter(|beat| beats.has(f64::from(**beat))).count();
    if seen_pauses <= 40 {
        for (list, colour, name) in pauses {
            for (beat, value) in list.iter().filter(|pause| beats.has(f64::from(pause.0))) {
                let path = format!("M{:.2} {}V{}", beats.x(f64::from(beat)), area.top, area.bottom);
                let attributes = format!("stroke=\"{colour}\" stroke-opacity=\"0.5\" stroke-dasharray=\"3 3\"");
                svg.path(&path, &attributes, &format!("{name} at beat {beat}: {value} seconds"));
            }
        }
    }
    let drawn: Vec<(f64, f64)> = line.iter().map(|(beat, time)| (beats.x(*beat), scale.y(*time))).collect();
    let attributes = "fill=\"none\" stroke=\"#111\" stroke-width=\"1.8\" stroke-linejoin=\"round\"";
    svg.path(&through(&drawn), attributes, "");
    frame(svg, area);

    let shown: Vec<_> = seen.asked.iter().filter(|asked| beats.has(asked.beat)).collect();
    let mut room = Room::new(area);
    room.keep_line(&drawn);
    for asked in &shown {
        let (x, y) = (beats.x(asked.beat), scale.y(asked.time));
        room.keep_free(Area { left: x - 5.0, top: y - 5.0, right: x + 5.0, bottom: y + 5.0 });
    }
    for asked in &shown {
        let (x, y) = (beats.x(asked.beat), scale.y(asked.time));
        let text = format!("beat {}: {} s{}", short(asked.beat), short(asked.time), not_judged(asked));
        // the line rises, so that there is room below it on the right and above it on the left; else further off, with a line to it
        for turn in 0..6 {
            let far = 15.0 * f64::from(turn);
            let places = [
                (9.0, 15.0 + far, Anchor::Start),
                (-9.0, -8.0 - far, Anchor::End),
                (9.0, -8.0 - far, Anchor::Start),
                (-9.0, 15.0 + far, Anchor::End),
            ];
            let free = places.into_iter().find(|(dx, dy, anchor)| {
                let words = Words { x: x + dx, y: y + dy, size: ASKED, anchor: *anchor, fill: INK, text: &text };
                let end = lead_end((x, y), *dx, *dy);
                (turn == 0 || room.line_is_free((x, y), end)) && room.take(&words)
            });
            if let Some((dx, dy, anchor)) = free {
                if turn > 0 {
                    let lead = [(x, y), lead_end((x, y), dx, dy)];
                    room.keep_line(&lead);
                    svg.path(&through(&lead), "stroke=\"#999\" stroke-width=\"0.8\"", "");
                }
                svg.words(&Words { x: x + dx, y: y + dy, size: ASKED, anchor, fill: INK, text: &text });
                break;
            }
        }
    }
    for asked in shown {
        let (x, y) = (beats.x(asked.beat), scale.y(asked.time));
        let fill = if asked.judged() { "#fff" } else { "#f5b7b1" };
        let title = format!("beat {} at {} s{}", asked.beat, asked.time, not_judged(asked));
        svg.circle((x, y), 4.5, &format!("fill=\"{fill}\" stroke=\"#111\" stroke-width=\"1.3\""), &title);
    }
}

pub(super) fn second(cursor: &mut Cursor<'_>, beat: f64) -> f64 {
    cursor.time_for_beat(beat.clamp(-LAST, LAST)).expect("the beats that are drawn are within the limit")
}

/// Beats at which the line of time bends: each event's row and the rows beside it, so that a pause shows as a step.
pub(super) fn bends(timing: &Timing, beats: Beats) -> Vec<f64> {
    let listed = [timing.tempos(), timing.stops(), timing.delays(), timing.warps()];
    let starts = listed.iter().flat_map(|list| list.beats()).map(|beat| f64::from(*beat));
    let ends = timing.warps().iter().map(|(beat, length)| f64::from(beat) + f64::from(length));
    let mut found = vec![beats.from, beats.to];
    for beat in starts.chain(ends).filter(|beat| beats.has(*beat)) {
        let row = beat_to_note_row(beat);
        found.extend([row - 1, row, row + 1].map(note_row_to_beat));
    }
    found.retain(|beat| beats.has(*beat));
    found.sort_by(f64::total_cmp);
    found.dedup();
    found
}

/// Where the line from an asked beat to its words ends.
pub(super) fn lead_end((x, y): (f64, f64), dx: f64, dy: f64) -> (f64, f64) {
    (x + dx, if dy > 0.0 { y + dy - 10.0 } else { y + dy + 4.0 })
}

pub(super) fn not_judged(asked: &Asked) -> &'static str {
    if asked.judged() { "" } else { ", not judged" }
}
