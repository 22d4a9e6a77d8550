//! The comparison of edits further on finds edits that reach too far: each leaves out one thing that has to agree.
#![cfg(feature = "port")]

use std::sync::atomic::{AtomicU64, Ordering::Relaxed};

use oracle::cases::Work;
use oracle::edits::{compare, counts, edited, edited_by};
use oracle::random::Random;
use oracle::timing::probe;
use oracle::timings::{Chart, DELAYS, STOPS, TEMPOS, WARPS};

const WORK: Work = Work { seed: 1, seconds: 0 };

#[test]
fn edits_further_on_move_nothing() {
    let found = compare(WORK, edited);
    assert!(found.compared >= 1_000);
    assert_eq!(found.different, 0);
}

/// Stops and warps on the asked row differ often, and so do timings asked before row 0.
#[test]
fn what_may_differ_is_tried() {
    static ON_THE_ROW: [AtomicU64; 2] = [AtomicU64::new(0), AtomicU64::new(0)];
    static BEFORE_ZERO: AtomicU64 = AtomicU64::new(0);
    fn noted(chart: &Chart, other: &Chart, asked: i32, random: &mut Random) -> Chart {
        let edited = edited(chart, other, asked, random);
        let on_row = |chart: &Chart, list: usize| {
            let (beats, values) = &chart.lists[list];
            let found = beats.iter().position(|beat| probe::beat_to_note_row((*beat).into()) == asked);
            found.map(|place| (beats[place].to_bits(), values[place].to_bits()))
        };
        for (list, count) in [STOPS, WARPS].into_iter().zip(&ON_THE_ROW) {
            count.fetch_add((on_row(chart, list) != on_row(&edited, list)).into(), Relaxed);
        }
        BEFORE_ZERO.fetch_add((asked < 0 && chart.lists != edited.lists).into(), Relaxed);
        edited
    }
    assert_eq!(compare(WORK, noted).different, 0);
    for count in ON_THE_ROW.iter().chain([&BEFORE_ZERO]) {
        assert!(count.load(Relaxed) >= 100, "{ON_THE_ROW:?} {BEFORE_ZERO:?}");
    }
}

#[test]
fn a_delay_on_the_asked_row_is_found() {
    fn before(list: usize, at: i32, asked: i32) -> bool {
        counts(list, at, asked) && (list != DELAYS || at < asked)
    }
    assert!(compare(WORK, |chart, other, asked, random| edited_by(before, chart, other, asked, random)).different > 0);
}

#[test]
fn a_tempo_on_the_asked_row_is_found_by_its_count() {
    fn before(list: usize, at: i32, asked: i32) -> bool {
        counts(list, at, asked) && (list != TEMPOS || at < asked)
    }
    assert!(compare(WORK, |chart, other, asked, random| edited_by(before, chart, other, asked, random)).different > 0);
}

#[test]
fn another_tempo_at_zero_is_found_before_row_zero() {
    fn wrong(chart: &Chart, other: &Chart, asked: i32, random: &mut Random) -> Chart {
        let mut edited = edited(chart, other, asked, random);
        let (beats, values) = &mut edited.lists[TEMPOS];
        match values.first_mut() {
            Some(first) if asked < 0 => *first = if *first == 60.0 { 120.0 } else { 60.0 },
            None if asked < 0 => (*beats, *values) = (vec![0.0], vec![120.0]),
            _ => {}
        }
        edited
    }
    assert!(compare(WORK, wrong).different > 0);
}

/// A warp's end goes by its beat: on the same row, by another beat, it may end on another row.
#[test]
fn a_warp_moved_on_its_row_is_found() {
    fn wrong(chart: &Chart, other: &Chart, asked: i32, random: &mut Random) -> Chart {
        let mut edited = edited(chart, other, asked, random);
        let row = |beat: f32| probe::beat_to_note_row(beat.into());
        for beat in &mut edited.lists[WARPS].0 {
            let moved = *beat - beat.signum() / 200.0;
            if row(moved) == row(*beat) {
                *beat = moved;
            }
        }
        edited
    }
    assert!(compare(WORK, wrong).different > 0);
}
