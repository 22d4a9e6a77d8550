//! What is seen, as JSON.

use crate::seen::{Mended, Seen};
use marrighentu::{Columns, Event, EventKind, Fate, Format, Speed, SpeedUnit, note_row_to_beat};
use marrighentu_charts::{ChartFile, Fault, MovedEntry};
use std::fmt::{Display, Write};

/// A value of JSON.
pub enum Json {
    Null,
    Truth(bool),
    Number(String),
    Text(String),
    List(Vec<Json>),
    Fields(Vec<(&'static str, Json)>),
}

impl Json {
    /// A number with the fewest digits that give it back at its own width.
    fn number(number: impl Display + Into<f64> + Copy) -> Json {
        if number.into().is_finite() { Json::Number(number.to_string()) } else { Json::Null }
    }

    fn count(count: usize) -> Json {
        Json::Number(count.to_string())
    }

    fn text(text: impl Into<String>) -> Json {
        Json::Text(text.into())
    }

    fn is_flat(&self) -> bool {
        match self {
            Json::List(values) => values.is_empty(),
            Json::Fields(fields) => fields.iter().all(|(_, value)| !matches!(value, Json::List(_) | Json::Fields(_))),
            _ => true,
        }
    }

    fn write(&self, out: &mut String, depth: usize) {
        match self {
            Json::Null => out.push_str("null"),
            Json::Truth(truth) => out.push_str(if *truth { "true" } else { "false" }),
            Json::Number(digits) => out.push_str(digits),
            Json::Text(text) => quote(out, text),
            Json::List(values) => {
                let flat = values.iter().all(|value| !matches!(value, Json::List(_) | Json::Fields(_)));
                group(out, depth, flat, ['[', ']'], values, |out, value, depth| value.write(out, depth));
            }
            Json::Fields(fields) => {
                group(out, depth, self.is_flat(), ['{', '}'], fields, |out, (name, value), depth| {
                    quote(out, name);
                    out.push_str(": ");
                    value.write(out, depth);
                })
            }
        }
    }

    /// The document, with a line feed behind it. What holds no other group stands in one line.
    pub fn document(&self) -> String {
        let mut out = String::new();
        self.write(&mut out, 0);
        out.push('\n');
        out
    }
}

fn group<T>(
    out: &mut String,
    depth: usize,
    flat: bool,
    [open, close]: [char; 2],
    values: &[T],
    write: impl Fn(&mut String, &T, usize),
) {
    out.push(open);
    for (place, value) in values.iter().enumerate() {
        if place > 0 {
            out.push(',');
        }
        if !flat {
            let _ = write!(out, "\n{:width$}", "", width = 2 * depth + 2);
        } else if place > 0 {
            out.push(' ');
        }
        write(out, value, depth + 1);
    }
    if !flat && !values.is_empty() {
        let _ = write!(out, "\n{:width$}", "", width = 2 * depth);
    }
    out.push(close);
}

fn quote(out: &mut String, text: &str) {
    out.push('"');
    for character in text.chars() {
        match character {
            '"' => out.push_str("\\\""),
            '\\' => out.push_str("\\\\"),
            '\n' => out.push_str("\\n"),
            '\r' => out.push_str("\\r"),
            '\t' => out.push_str("\\t"),
            control if control < ' ' || control == '\u{7f}' => {
                let _ = write!(out, "\\u{:04x}", u32::from(control));
            }
            other => out.push(other),
        }
    }
    out.push('"');
}

fn faults(faults: &[Fault]) -> Json {
    let told = faults.iter().map(|fault| {
        Json::Fields(vec![
            ("line", Json::count(fault.place.line)),
            ("column", Json::count(fault.place.column)),
            ("what", Json::text(&fault.what)),
        ])
    });
    Json::List(told.collect())
}

fn columns(columns: &Columns<f32>, value_name: &'static str) -> Json {
    let pair = |(beat, value)| Json::Fields(vec![("beat", Json::number(beat)), (value_name, Json::number(value))]);
    Json::List(columns.iter().map(pair).collect())
}

/// A file with its charts, and the fields of `seen` where something was asked of one.
pub fn file(name: &str, file: &ChartFile, seen: Option<&Seen>) -> Json {
    let format = if file.format() == Format::Sm { "sm" } else { "ssc" };
    let charts = file.charts().map(|chart| {
        Json::Fields(vec![
            ("number", Json::count(chart.number())),
            ("line", Json::count(chart.line())),
            ("steps_type", Json::text(chart.steps_type())),
            ("difficulty", Json::text(chart.difficulty())),
            ("meter", Json::text(chart.meter())),
            ("description", Json::text(chart.description())),
            ("own_timing", Json::Truth(chart.has_own_timing())),
        ])
    });
    let mut fields = vec![
        ("file", Json::text(name)),
        ("format", Json::text(format)),
        ("title", Json::text(file.title())),
        ("warnings", faults(file.warnings())),
        ("charts", Json::List(charts.collect())),
    ];
    if let Some(seen) = seen {
        fields.extend(timing(seen));
    }
    Json::Fields(fields)
}

fn event(event: &Event) -> Json {
    let (kind, number) = match event.kind {
        EventKind::WarpEnds => ("warp ends", Json::number(event.number)),
        EventKind::Tempo => ("tempo", Json::number(event.number as f32)),
        EventKind::Delay => ("delay", Json::number(event.number as f32)),
        EventKind::Stop => ("stop", Json::number(event.number as f32)),
        EventKind::Warp => ("warp", Json::number(event.number)),
    };
    Json::Fields(vec![
        ("row", Json::number(event.row)),
        ("beat", Json::number(note_row_to_beat(event.row))),
        ("kind", Json::text(kind)),
        ("number", number),
    ])
}

/// Beats are f32 but for those written as rows.
fn moved(entry: &MovedEntry) -> Json {
    let beat = |beat: f64| if f64::from(beat as f32) == beat { Json::number(beat as f32) } else { Json::number(beat) };
    Json::Fields(vec![
        ("list", Json::text(entry.list)),
        ("entry", Json::count(entry.number)),
        ("line", Json::count(entry.line)),
        ("beat", beat(entry.beat)),
        ("to", beat(entry.to)),
        ("by", Json::number(entry.by())),
    ])
}

fn speed_fields<Number: Display + Into<f64> + Copy>(speed: &Speed<Number>) -> Vec<(&'static str, Json)> {
    vec![
        ("beat", Json::number(speed.beat)),
        ("ratio", Json::number(speed.ratio)),
        ("delay", Json::number(speed.delay)),
        ("unit", Json::text(if speed.unit == SpeedUnit::Beats { "beats" } else { "seconds" })),
    ]
}

fn mended(mended: &Mended) -> Json {
    let with_fate = |mut fields: Vec<(&'static str, Json)>, fate: &Fate| {
        fields.push(("fate", Json::text(fate.to_string())));
        Json::Fields(fields)
    };
    let scrolls = mended.scrolls.iter().map(|((beat, value), fate)| {
        with_fate(vec![("beat", Json::number(*beat)), ("times", Json::number(*value))], fate)
    });
    let speeds = mended.speeds.iter().map(|(speed, fate)| with_fate(speed_fields(speed), fate));
    Json::Fields(vec![("scrolls", Json::List(scrolls.collect())), ("speeds", Json::List(speeds.collect()))])
}

fn timing(seen: &Seen) -> Vec<(&'static str, Json)> {
    let timing = &seen.timing;
    let speeds = timing.speeds().iter().map(|speed| Json::Fields(speed_fields(speed)));
    let warps = timing.marked_warps().map(|warp| {
        Json::Fields(vec![
            ("beat", Json::number(warp.beat)),
            ("beats", Json::number(warp.length)),
            ("made", Json::Truth(warp.made)),
        ])
    });
    let asked = seen.asked.iter().map(|asked| {
        Json::Fields(vec![
            ("beat", Json::number(asked.beat)),
            ("row", Json::number(asked.row)),
            ("time", Json::number(asked.time)),
            ("displayed", asked.displayed.map_or(Json::Null, Json::number)),
            ("warped", Json::Truth(asked.warped)),
            ("fake", Json::Truth(asked.fake)),
            ("judged", Json::Truth(asked.judged())),
        ])
    });
    let mut fields = vec![
        ("chart", seen.chart.map_or(Json::Null, Json::count)),
        ("own_timing", Json::Truth(seen.own)),
        ("passed_over", faults(&seen.passed_over)),
        ("offset", Json::number(timing.offset())),
        ("global_offset", Json::number(timing.global_offset())),
        ("tempos", columns(timing.tempos(), "beats_a_minute")),
        ("tempo_text", timing.tempo_text().map_or(Json::Null, Json::text)),
        ("stops", columns(timing.stops(), "seconds")),
        ("delays", columns(timing.delays(), "seconds")),
        ("warps", Json::List(warps.collect())),
        ("warped_rows", Json::Number(timing.warped_rows().to_string())),
        ("speeds", Json::List(speeds.collect())),
        ("scrolls", columns(timing.scrolls(), "times")),
        ("fakes", columns(timing.fakes(), "beats")),
        ("moved", Json::List(seen.moved.iter().map(moved).collect())),
        ("beats", Json::List(asked.collect())),
    ];
    if let Some(told) = &seen.mended {
        fields.push(("mended", mended(told)));
    }
    if !seen.at.is_empty() {
        let at = seen.at.iter().map(|(time, info)| {
            Json::Fields(vec![
                ("time", Json::number(*time)),
                ("beat", Json::number(info.beat)),
                ("freeze", Json::Truth(info.freeze)),
                ("delay", Json::Truth(info.delay)),
                ("steps", Json::count(info.steps)),
            ])
        });
        fields.push(("at", Json::List(at.collect())));
    }
    if let Some(events) = &seen.events {
        fields.push(("events", Json::List(events.iter().map(event).collect())));
    }
    if let Some(rows) = &seen.notes {
        let rows = rows.iter().map(|row| {
            let notes = row.notes.iter().map(|note| {
                Json::Fields(vec![("lane", Json::count(note.lane)), ("kind", Json::text(note.kind.name()))])
            });
            Json::Fields(vec![
                ("row", Json::number(row.row)),
                ("beat", Json::number(row.beat)),
                ("time", Json::number(row.time)),
                ("displayed", row.displayed.map_or(Json::Null, Json::number)),
                ("judged", Json::Truth(row.judged)),
                ("snap", Json::text(row.snap.to_string())),
                ("notes", Json::List(notes.collect())),
            ])
        });
        fields.push(("notes", Json::List(rows.collect())));
    }
    fields
}

#[cfg(test)]
mod tests {
    use super::*;

    #[test]
    fn text_is_escaped() {
        let said = |text: &str| Json::text(text).document();
        assert_eq!(said("a\"b\\c/d"), "\"a\\\"b\\\\c/d\"\n");
        assert_eq!(said("\n\r\t\u{0}\u{1f}\u{7f}"), "\"\\n\\r\\t\\u0000\\u001f\\u007f\"\n");
        assert_eq!(said("日本 \u{1F3B5}"), "\"日本 \u{1F3B5}\"\n");
    }

    #[test]
    fn numbers_are_numbers_of_json() {
        let said = |number: f64| Json::number(number).document();
        assert_eq!(said(-0.25) + &said(1e21) + &said(1e-7), "-0.25\n1000000000000000000000\n0.0000001\n");
        assert_eq!(Json::number(0.1f32).document(), "0.1\n");
        assert_eq!(said(f64::NAN) + &said(f64::INFINITY), "null\nnull\n");
    }

    #[test]
    fn groups_are_laid_out() {
        let pair = || Json::Fields(vec![("a", Json::count(1)), ("b", Json::Null)]);
        let whole = Json::Fields(vec![("list", Json::List(vec![pair(), pair()])), ("none", Json::List(vec![]))]);
        assert_eq!(
            whole.document(),
            "{\n  \"list\": [\n    {\"a\": 1, \"b\": null},\n    {\"a\": 1, \"b\": null}\n  ],\n  \"none\": []\n}\n"
        );
    }
}
