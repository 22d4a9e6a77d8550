//! What is seen, in lines of words.

use crate::seen::{Mended, NoteRow, Seen};
use marrighentu::{BeatInfo, Columns, Event, EventKind, Fate, Speed, SpeedUnit, Timing, note_row_to_beat};
use marrighentu_charts::{ChartFile, ChartText};
use std::fmt::{Display, Write};

fn list(out: &mut String, name: &str, columns: &Columns<f32>, unit: &str) {
    for (beat, value) in columns.iter() {
        let _ = writeln!(out, "{name:<7} beat {beat} {value} {unit}");
    }
}

fn speed_words<Number: Display>(speed: &Speed<Number>) -> String {
    let unit = if speed.unit == SpeedUnit::Beats { "beats" } else { "s" };
    format!("beat {} ratio {} over {} {unit}", speed.beat, speed.ratio, speed.delay)
}

/// What became of an entry, and why.
fn fate_words(fate: Fate) -> &'static str {
    match fate {
        Fate::Kept => "kept",
        Fate::Replaced => "replaced, a later entry is on its row",
        Fate::Merged => "merged, it is as the one kept before it",
    }
}

/// A line for each entry of a list that was mended, as the chart has them.
fn mended(out: &mut String, mended: &Mended) {
    for ((beat, value), fate) in &mended.scrolls {
        let _ = writeln!(out, "mended  scroll beat {beat} {value} times: {}", fate_words(*fate));
    }
    for (speed, fate) in &mended.speeds {
        let _ = writeln!(out, "mended  speed {}: {}", speed_words(speed), fate_words(*fate));
    }
}

fn lists(out: &mut String, timing: &Timing) {
    let _ = writeln!(out, "offset  {} s", timing.offset());
    list(out, "tempo", timing.tempos(), "beats a minute");
    if let Ok(text) = timing.tempo_text() {
        let _ = writeln!(out, "bpms    {text}");
    }
    list(out, "stop", timing.stops(), "s");
    list(out, "delay", timing.delays(), "s");
    for warp in timing.marked_warps() {
        let from = if warp.made { ", made of a tempo or a stop" } else { "" };
        let _ = writeln!(out, "warp    beat {} {} beats{from}", warp.beat, warp.length);
    }
    if !timing.warps().is_empty() {
        let _ = writeln!(out, "warped  {} rows", timing.warped_rows());
    }
    for speed in timing.speeds() {
        let _ = writeln!(out, "speed   {}", speed_words(speed));
    }
    list(out, "scroll", timing.scrolls(), "times");
    list(out, "fake", timing.fakes(), "beats");
}

/// What happens at an event. Tempos and seconds are f32, as their lists have them.
fn happens(event: &Event) -> String {
    let of_list = event.number as f32;
    match event.kind {
        EventKind::WarpEnds => format!("warp ends, at beat {}", event.number),
        EventKind::Tempo => format!("tempo of {of_list} beats a minute"),
        EventKind::Delay => format!("delay of {of_list} s"),
        EventKind::Stop => format!("stop of {of_list} s"),
        EventKind::Warp => format!("warp begins, to beat {}", event.number),
    }
}

fn lanes(row: &NoteRow, count: usize) -> String {
    let mut lanes = vec!['0'; count];
    for note in &row.notes {
        lanes[note.lane] = note.kind.letter();
    }
    lanes.into_iter().collect()
}

/// Where a beat is drawn, where there are scrolls that can be drawn by.
fn drawn(timing: &Timing, displayed: Option<f64>) -> String {
    match displayed {
        Some(position) if !timing.scrolls().is_empty() => format!(", drawn at {position}"),
        _ => String::new(),
    }
}

/// What runs at a time, if time stands still then.
fn running(info: &BeatInfo) -> &'static str {
    match (info.freeze, info.delay) {
        (true, _) => ", in a stop",
        (false, true) => ", in a delay",
        (false, false) => "",
    }
}

/// The lists, the entries off the grid, the events, the asked beats and seconds, and the notes.
pub fn seen(seen: &Seen) -> String {
    let mut out = String::new();
    if let Some(told) = &seen.mended {
        mended(&mut out, told);
    }
    lists(&mut out, &seen.timing);
    for entry in &seen.moved {
        let _ = writeln!(out, "moved   {entry}");
    }
    for event in seen.events.as_deref().unwrap_or(&[]) {
        let _ = writeln!(out, "event   beat {} row {} {}", note_row_to_beat(event.row), event.row, happens(event));
    }
    for asked in &seen.asked {
        let judged = match (asked.warped, asked.fake) {
            (false, false) => "judged",
            (true, false) => "warped, not judged",
            (false, true) => "fake, not judged",
            (true, true) => "warped and fake, not judged",
        };
        let drawn = drawn(&seen.timing, asked.displayed);
        let _ = writeln!(out, "at      beat {} row {} {} s, {judged}{drawn}", asked.beat, asked.row, asked.time);
    }
    for (time, info) in &seen.at {
        let _ = writeln!(out, "second  {time} beat {}{}, {} steps", info.beat, running(info), info.steps);
    }
    let rows = seen.notes.as_deref().unwrap_or(&[]);
    let count = rows.iter().flat_map(|row| &row.notes).map(|note| note.lane + 1).max().unwrap_or(0);
    for row in rows {
        let judged = if row.judged { "judged" } else { "not judged" };
        let drawn = drawn(&seen.timing, row.displayed);
        let lanes = lanes(row, count);
        let _ = writeln!(
            out,
            "note    beat {} row {} {} s, {}, {judged}, {lanes}{drawn}",
            row.beat, row.row, row.time, row.snap
        );
    }
    out
}

/// A chart in a few words, without its number.
pub fn named(chart: &ChartText<'_>) -> String {
    let said = [chart.steps_type(), chart.difficulty(), chart.meter()];
    let said: Vec<String> = said.into_iter().filter(|word| !word.is_empty()).collect();
    said.join(" ")
}

/// A line for each chart of a file.
pub fn charts(file: &ChartFile) -> String {
    let mut out = String::new();
    for chart in file.charts() {
        let timing = if chart.has_own_timing() { "its own timing" } else { "the file's timing" };
        let mut said = vec![named(&chart), chart.description(), format!("line {}", chart.line()), timing.into()];
        said.retain(|part| !part.is_empty());
        let _ = writeln!(out, "chart   {} {}", chart.number(), said.join(", ").replace(char::is_control, " "));
    }
    if out.is_empty() { "no charts\n".into() } else { out }
}
