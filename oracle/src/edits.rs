//! Edits further on: pairs of timings that agree up to an asked row, of which original and port have to give one time, and the port one count.

use crate::cases::Work;
use crate::clock::{Found, fresh_time_for_beat};
use crate::numbers::Number;
use crate::random::Random;
use crate::tally::Total;
use crate::timing::{get_time_for_beat, probe};
use crate::timings::{Chart, DELAYS, STOPS, TEMPOS, WARPS, beat_allowed};

fn row(beat: f32) -> i32 {
    probe::beat_to_note_row(beat.into())
}

/// Whether an entry on a row can turn the time of an asked row: tempos and delays on the row itself too, stops and warps only before it.
pub fn counts(list: usize, at: i32, asked: i32) -> bool {
    if list == TEMPOS || list == DELAYS { at <= asked } else { at < asked }
}

/// The chart's entries that count for a row, and behind them another chart's, or none. Before row 0 the first tempo counts too.
pub fn edited_by(
    counts: fn(usize, i32, i32) -> bool,
    chart: &Chart,
    other: &Chart,
    asked: i32,
    random: &mut Random,
) -> Chart {
    let mut edited = chart.clone();
    for list in [TEMPOS, STOPS, DELAYS, WARPS] {
        let (beats, values) = &mut edited.lists[list];
        let mut kept = beats.iter().take_while(|beat| counts(list, row(**beat), asked)).count();
        if list == TEMPOS {
            kept = kept.max(1).min(beats.len());
        }
        beats.truncate(kept);
        values.truncate(kept);
        if random.below(4) == 0 {
            continue;
        }
        let (more, their_values) = &other.lists[list];
        let first = more.iter().take_while(|beat| counts(list, row(**beat), asked)).count();
        for (beat, value) in more.iter().zip(their_values).skip(first) {
            let behind = beats.last().is_none_or(|last| row(*last) < row(*beat));
            if behind && beats.len() < 1_024 && (list != TEMPOS || row(*beat) > 0) {
                beats.push(*beat);
                values.push(*value);
            }
        }
    }
    let (tempos, values) = &mut edited.lists[TEMPOS];
    // a list without tempos is the one of 60 at beat 0
    if tempos.first().is_some_and(|first| *first != 0.0) {
        tempos.insert(0, 0.0);
        values.insert(0, 60.0);
        tempos.truncate(1_024);
        values.truncate(1_024);
    }
    edited
}

pub fn edited(chart: &Chart, other: &Chart, asked: i32, random: &mut Random) -> Chart {
    edited_by(counts, chart, other, asked, random)
}

/// Asks both sides about a beat before an edit and after it.
pub fn compare(work: Work, edit: fn(&Chart, &Chart, i32, &mut Random) -> Chart) -> Found {
    let mut random = Random::new(work.seed, "edits");
    let mut found = Found::default();
    for turn in 0..work.lists() / 4 {
        let (chart, other) = (Chart::sound(turn, &mut random), Chart::sound(turn + 1, &mut random));
        let timing = chart.original();
        for beat in chart.asked(6, &mut random).into_iter().filter(|beat| beat_allowed(*beat)) {
            let edited = edit(&chart, &other, probe::beat_to_note_row(beat), &mut random);
            assert_eq!((chart.number(), edited.number()), (0, 0), "{edited:?}");
            let (before, after) = (get_time_for_beat(&timing, beat), get_time_for_beat(&edited.original(), beat));
            let (one, two) = (fresh_time_for_beat(&chart, beat), fresh_time_for_beat(&edited, beat));
            let same = before.answer() == after.answer()
                && [one.time, two.time].iter().all(|time| time.answer() == before.answer())
                && one.count == two.count;
            found.check(same, || {
                format!("{chart:?} and {edited:?}, beat {beat:?}: {before:?} and {after:?}, port {one:?} and {two:?}")
            });
        }
    }
    found
}

pub fn compare_all(work: Work, total: &mut Total) {
    compare(work, edited).add("edits further on, of original and port", total);
}
