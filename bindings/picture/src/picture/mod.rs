//! The picture: time against beat above, then tempos, then pauses, warps and fakes on strips, then scrolls and speeds, then where scrolls draw the
//! beats, over one axis of beats.

mod axes;
mod drawn;
mod ratios;
mod steps;
mod strips;
mod time;

use crate::seen::Seen;
use crate::svg::{Anchor, Area, Svg, Words};
use axes::{Beats, draw_axis, draw_measures, short};
use drawn::draw_drawn;
use marrighentu::Timing;
use ratios::draw_ratios;
use steps::draw_tempos;
use strips::{Strip, bands, draw_bands, draw_strip, pauses, spans};
use time::{draw_time, second};

const WIDTH: f64 = 1280.0;
const LEFT: f64 = 92.0;
const RIGHT: f64 = WIDTH - 28.0;
const SMALL: f64 = 11.0;
const ASKED: f64 = 12.0;
const MOST_OF_A_TITLE: usize = 98;

const INK: &str = "#222";
const PALE: &str = "#777";
const TEMPO: &str = "#1e7145";
const STOP: &str = "#c0392b";
const DELAY: &str = "#2471a3";
const WARP: &str = "#b9770e";
/// Warps that were made of a tempo or a stop.
const MADE: &str = "#6b7a00";
const FAKE: &str = "#7d5ba6";
const SCROLL: &str = "#117a65";
const SPEED: &str = "#a04000";

/// The last beat that is timed.
const LAST: f64 = 65_536.0;

/// The height of a strip.
const STRIP: f64 = 30.0;

/// How many of what there are, in words.
fn counted(timing: &Timing) -> String {
    let all = [
        (timing.tempos().len(), "tempo"),
        (timing.stops().len(), "stop"),
        (timing.delays().len(), "delay"),
        (timing.marked_warps().filter(|warp| !warp.made).count(), "warp"),
        (timing.marked_warps().filter(|warp| warp.made).count(), "made warp"),
        (timing.fakes().len(), "fake"),
        (timing.scrolls().len(), "scroll"),
        (timing.speeds().len(), "speed"),
    ];
    let said: Vec<String> = all
        .into_iter()
        .filter(|(count, _)| *count > 0)
        .map(|(count, name)| format!("{count} {name}{}", if count == 1 { "" } else { "s" }))
        .collect();
    said.join(", ")
}

/// The picture of a timing with the asked beats marked, over the beats that are wanted or all on which something happens.
pub fn draw(title: &str, seen: &Seen, from: Option<f64>, to: Option<f64>) -> Result<String, String> {
    let timing = &seen.timing;
    let beats = Beats::of(seen, from, to)?;
    let (warps, fakes) = bands(timing);
    let strips: Vec<Strip<'_>> = [
        pauses(timing.stops(), "stop", STOP),
        pauses(timing.delays(), "delay", DELAY),
        spans(&warps, false, "warp", WARP),
        spans(&warps, true, "made warp", MADE),
        spans(&fakes, false, "fake", FAKE),
    ]
    .into_iter()
    .filter(|strip| !strip.marks.is_empty())
    .collect();
    let ratios = !timing.scrolls().is_empty() || !timing.speeds().is_empty();

    let panel = |top: f64, height: f64| Area { left: LEFT, top, right: RIGHT, bottom: top + height };
    let time = panel(96.0, 320.0);
    let tempo = panel(time.bottom + 34.0, 170.0);
    let first_strip = tempo.bottom + 8.0;
    let below = first_strip + STRIP * strips.len() as f64;
    let ratio = panel(below + 30.0, 110.0);
    let scrolled = !timing.scrolls().is_empty();
    let drawn = panel(ratio.bottom + 30.0, 150.0);
    let bottom = if scrolled {
        drawn.bottom
    } else if ratios {
        ratio.bottom
    } else {
        below.max(tempo.bottom)
    };

    let mut svg = Svg::new(WIDTH, bottom + 34.0);
    let mut title: String = title.replace(char::is_control, " ");
    if title.chars().count() > MOST_OF_A_TITLE {
        title = title.chars().take(MOST_OF_A_TITLE - 1).chain(['…']).collect();
    }
    svg.words(&Words { x: LEFT, y: 28.0, size: 18.0, anchor: Anchor::Start, fill: INK, text: &title });
    let mut cursor = timing.cursor();
    let (start, end) = (second(&mut cursor, beats.from), second(&mut cursor, beats.to));
    let said = format!(
        "beats {} to {}, {} to {} s. In all: {}",
        short(beats.from),
        short(beats.to),
        short(start),
        short(end),
        counted(timing)
    );
    svg.words(&Words { x: LEFT, y: 48.0, size: 12.0, anchor: Anchor::Start, fill: PALE, text: &said });

    let whole = Area { left: LEFT, top: time.top, right: RIGHT, bottom };
    draw_measures(&mut svg, beats, whole);
    for area in [time, tempo] {
        draw_bands(&mut svg, beats, area, &warps);
        draw_bands(&mut svg, beats, area, &fakes);
    }
    draw_axis(&mut svg, beats, 72.0, bottom + 18.0);
    draw_time(&mut svg, seen, beats, time);
    draw_tempos(&mut svg, timing, beats, tempo);
    for (place, strip) in strips.iter().enumerate() {
        draw_strip(&mut svg, beats, panel(first_strip + STRIP * place as f64, STRIP), strip);
    }
    if ratios {
        draw_ratios(&mut svg, timing, beats, ratio);
    }
    if scrolled {
        draw_drawn(&mut svg, timing, beats, drawn);
    }
    Ok(svg.end())
}
