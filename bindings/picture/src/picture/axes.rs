//! Beats along the picture, scales of numbers, and their marks.

use super::{INK, LAST, LEFT, PALE, RIGHT, SMALL};
use crate::seen::Seen;
use crate::svg::{Anchor, Area, Svg, Words};
use marrighentu::note_row_to_beat;

/// The room that a number of the axis of beats takes.
const WIDEST_MARK: f64 = 72.0;

/// A number in at most three decimals, without zeros behind, and from 10,000 on with commas.
pub(super) fn short(number: f64) -> String {
    let text = format!("{number:.3}");
    let text = text.trim_end_matches('0').trim_end_matches('.');
    let (whole, rest) = text.split_at(text.find('.').unwrap_or(text.len()));
    let digits = whole.trim_start_matches('-');
    if text == "-0" {
        return "0".into();
    } else if digits.len() < 5 {
        return text.into();
    }
    let mut out: String = if number < 0.0 { "-".into() } else { String::new() };
    for (place, digit) in digits.chars().enumerate() {
        if place > 0 && (digits.len() - place) % 3 == 0 {
            out.push(',');
        }
        out.push(digit);
    }
    out + rest
}

/// A value of a list, where three decimals would leave nothing of it in more.
pub(super) fn value_words(value: f32) -> String {
    if value != 0.0 && value.abs() < 0.0005 { format!("{value:e}") } else { short(f64::from(value)) }
}

/// A step of 1, 2 or 5 times a power of ten, so that at most `most` fit a span.
pub(super) fn mark_step(span: f64, most: f64) -> f64 {
    let power = 10f64.powf((span / most).log10().floor());
    [1.0, 2.0, 5.0, 10.0].into_iter().map(|times| times * power).find(|step| span / step <= most).unwrap_or(span)
}

/// The marks of a step from `low` to `high`.
pub(super) fn marks(low: f64, high: f64, step: f64) -> impl Iterator<Item = f64> {
    let first = (low / step).ceil();
    let count = ((high / step).floor() - first).max(-1.0) as usize + usize::from(high / step >= first);
    (0..count.min(10_000)).map(move |place| (first + place as f64) * step)
}

/// The beats that are drawn.
#[derive(Clone, Copy)]
pub(super) struct Beats {
    pub(super) from: f64,
    pub(super) to: f64,
}

impl Beats {
    /// All that happens: events, where warps and fakes end, asked beats and notes. SM's last warp may never end.
    pub(super) fn of(seen: &Seen, from: Option<f64>, to: Option<f64>) -> Result<Beats, String> {
        let timing = &seen.timing;
        let lists =
            [timing.tempos(), timing.stops(), timing.delays(), timing.warps(), timing.fakes(), timing.scrolls()];
        let starts = lists.iter().flat_map(|list| list.beats()).copied();
        let starts = starts.chain(timing.speeds().iter().map(|speed| speed.beat)).map(f64::from);
        let lengths = timing.warps().iter().chain(timing.fakes().iter());
        let ends = lengths.map(|(beat, length)| f64::from(beat) + f64::from(length));
        let notes = seen.last_row.map(note_row_to_beat);
        let all: Vec<f64> = starts
            .chain(ends)
            .chain(notes)
            .chain(seen.asked.iter().map(|asked| asked.beat))
            .filter(|beat| beat.abs() <= LAST)
            .collect();
        let first = all.iter().copied().fold(0.0, f64::min);
        let last = all.iter().copied().fold(12.0, f64::max);
        let measure = |beat: f64| (beat / 4.0).floor() * 4.0;
        let from = from.unwrap_or_else(|| measure(first).min(to.map_or(LAST, |to| measure(to) - 4.0)).max(-LAST));
        let to = to.unwrap_or_else(|| (measure(last) + 4.0).max(from + 4.0).min(LAST));
        if from < to { Ok(Beats { from, to }) } else { Err("the picture has no beats: --from lies at the end".into()) }
    }

    pub(super) fn x(self, beat: f64) -> f64 {
        LEFT + ((beat - self.from) / (self.to - self.from)).clamp(0.0, 1.0) * (RIGHT - LEFT)
    }

    pub(super) fn has(self, beat: f64) -> bool {
        (self.from..=self.to).contains(&beat)
    }

    /// Whether any of a span is seen.
    pub(super) fn meets(self, from: f64, to: f64) -> bool {
        from < self.to && to > self.from
    }

    /// The width of a beat.
    pub(super) fn scale(self) -> f64 {
        (RIGHT - LEFT) / (self.to - self.from)
    }

    /// The least doubling of a measure that is so wide.
    pub(super) fn measures(self, least: f64) -> f64 {
        let mut step = 4.0;
        while step * self.scale() < least {
            step *= 2.0;
        }
        step
    }
}

/// A scale from numbers to heights, even or by powers.
#[derive(Clone, Copy)]
pub(super) struct Scale {
    pub(super) low: f64,
    pub(super) high: f64,
    pub(super) powers: bool,
    pub(super) area: Area,
}

impl Scale {
    /// Over all numbers, with some air; by powers where they are positive and lie far apart.
    pub(super) fn over(numbers: impl Iterator<Item = f64>, area: Area, air: f64, may_use_powers: bool) -> Scale {
        let (low, high) =
            numbers.fold((f64::INFINITY, f64::NEG_INFINITY), |(low, high), number| (low.min(number), high.max(number)));
        let powers = may_use_powers && low > 0.0 && high / low > 8.0;
        let (low, high) = if powers {
            let air = (high / low).powf(air);
            (low / air, high * air)
        } else {
            let air = if high > low { (high - low) * air } else { (high.abs() * 0.1).max(0.5) };
            (low - air, high + air)
        };
        Scale { low, high, powers, area }
    }

    pub(super) fn y(&self, number: f64) -> f64 {
        let part = if self.powers {
            (number / self.low).ln() / (self.high / self.low).ln()
        } else {
            (number - self.low) / (self.high - self.low)
        };
        self.area.bottom - part.clamp(0.0, 1.0) * self.area.height()
    }

    pub(super) fn marks(&self) -> Vec<f64> {
        let most = (self.area.height() / 26.0).max(2.0);
        if !self.powers {
            return marks(self.low, self.high, mark_step(self.high - self.low, most)).collect();
        }
        let (first, last) = (self.low.log10().floor() as i32, self.high.log10().ceil() as i32);
        let all = |times: &'static [f64]| {
            (first..=last)
                .flat_map(move |power| times.iter().map(move |times| times * 10f64.powi(power)))
                .filter(|mark| (self.low..=self.high).contains(mark))
                .collect::<Vec<f64>>()
        };
        let found =
            [&[1.0, 2.0, 5.0][..], &[1.0, 3.0], &[1.0]].into_iter().map(all).find(|all| all.len() as f64 <= most);
        found.unwrap_or_else(|| {
            let powers = all(&[1.0]);
            let step = (powers.len() as f64 / most).ceil() as usize;
            powers.into_iter().step_by(step).collect()
        })
    }
}

/// A path through points.
pub(super) fn through(points: &[(f64, f64)]) -> String {
    let points: Vec<String> = points.iter().map(|(x, y)| format!("{x:.2} {y:.2}")).collect();
    format!("M{}", points.join("L"))
}

pub(super) fn draw_scale(svg: &mut Svg, scale: &Scale, unit: &str) {
    for mark in scale.marks() {
        let y = scale.y(mark);
        svg.path(&format!("M{LEFT} {y:.2}H{RIGHT}"), "stroke=\"#e4e4e4\"", "");
        let text = short(mark);
        let text = if text.len() > 11 { format!("{mark:e}") } else { text };
        svg.words(&Words { x: LEFT - 7.0, y: y + 4.0, size: SMALL, anchor: Anchor::End, fill: INK, text: &text });
    }
    let y = scale.area.top - 7.0;
    svg.words(&Words { x: LEFT, y, size: SMALL, anchor: Anchor::Start, fill: PALE, text: unit });
}

pub(super) fn frame(svg: &mut Svg, area: Area) {
    svg.rect(area, "fill=\"none\" stroke=\"#999\"", "");
}

/// Measures as lines over a part of the picture, and single beats where these are wide.
pub(super) fn draw_measures(svg: &mut Svg, beats: Beats, area: Area) {
    if beats.scale() >= 14.0 {
        for beat in marks(beats.from, beats.to, 1.0) {
            svg.path(&format!("M{:.2} {}V{}", beats.x(beat), area.top, area.bottom), "stroke=\"#f3f3f3\"", "");
        }
    }
    let named = beats.measures(WIDEST_MARK);
    for beat in marks(beats.from, beats.to, beats.measures(7.0)) {
        let stroke = if beat.rem_euclid(named) == 0.0 { "#cfcfcf" } else { "#ebebeb" };
        svg.path(&format!("M{:.2} {}V{}", beats.x(beat), area.top, area.bottom), &format!("stroke=\"{stroke}\""), "");
    }
}

/// Measures above and beats below, with numbers as close as they fit.
pub(super) fn draw_axis(svg: &mut Svg, beats: Beats, top: f64, bottom: f64) {
    let mut name = |beat: f64, y: f64, fill: &str, text: String| {
        svg.words(&Words { x: beats.x(beat), y, size: SMALL, anchor: Anchor::Middle, fill, text: &text });
    };
    let measures = beats.measures(WIDEST_MARK);
    for beat in marks(beats.from, beats.to, measures) {
        name(beat, top, PALE, short(beat / 4.0));
    }
    let parts = [0.0625, 0.125, 0.25, 0.5, 1.0, 2.0];
    let step = parts.into_iter().find(|step| step * beats.scale() >= WIDEST_MARK).unwrap_or(measures);
    for beat in marks(beats.from, beats.to, step) {
        name(beat, bottom, INK, short(beat));
    }
    svg.words(&Words { x: LEFT - 30.0, y: top, size: SMALL, anchor: Anchor::End, fill: PALE, text: "measure" });
    svg.words(&Words { x: LEFT - 30.0, y: bottom, size: SMALL, anchor: Anchor::End, fill: INK, text: "beat" });
}
