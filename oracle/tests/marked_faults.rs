//! The comparison of marked questions finds faults: calls that are the port's but for one thing each.
#![cfg(feature = "port")]

use std::sync::atomic::{AtomicU64, Ordering::Relaxed};

use oracle::cases::{LAST_ROW, Work};
use oracle::clock::{Answer, Columns, Cursor, Numbered, time_for_beat, time_for_beat_checked};
use oracle::marked::{
    Calls, LENT, Mark, MarkMade, PORT, check_marked_timing, compare, make_mark, run_marked,
    time_for_beat_checked_marked, time_for_beat_marked,
};
use oracle::timing::probe;
use oracle::timings::Chart;

const WORK: Work = Work { seed: 1, seconds: 0 };

const MARKS: usize = 0;
const QUESTIONS: usize = 1;
const HISTORIES: usize = 2;
const RUNS: usize = 3;

/// What differs in marks, questions, histories and runs.
fn different(calls: Calls) -> [u64; 4] {
    compare(WORK, calls).map(|found| found.different)
}

#[test]
fn the_port_answers_as_expected() {
    for calls in [PORT, LENT] {
        let found = compare(WORK, calls);
        let least = [5_000, 16_000, 30_000, 3_000];
        assert!(found.iter().zip(least).all(|(found, least)| found.compared >= least));
        assert_eq!(found.map(|found| found.different), [0; 4]);
    }
}

/// Among the marks are some in a warp that never ends, with a last row below the greatest, and beyond every question; and from marks both fresh cursors and used ones are answered.
#[test]
fn what_is_rare_is_tried() {
    static NEVER: AtomicU64 = AtomicU64::new(0);
    static BELOW: AtomicU64 = AtomicU64::new(0);
    static BEYOND: AtomicU64 = AtomicU64::new(0);
    static FRESH: AtomicU64 = AtomicU64::new(0);
    static USED: AtomicU64 = AtomicU64::new(0);
    fn make(chart: &Chart) -> MarkMade {
        let made = make_mark(chart);
        let Mark { state, row } = made.mark;
        NEVER.fetch_add(state.warping.into(), Relaxed);
        BELOW.fetch_add((state.row < row && made.number == 0).into(), Relaxed);
        BEYOND.fetch_add((LAST_ROW < row && made.number == 0).into(), Relaxed);
        made
    }
    fn ask_checked(cursor: Cursor, mark: Mark, chart: &Chart, beat: f64) -> Answer {
        let answer = time_for_beat_checked_marked(cursor, mark, chart, beat);
        if answer.number == 0 && mark.row < probe::beat_to_note_row(beat) {
            let count = if cursor.asked == i32::MIN { &FRESH } else { &USED };
            count.fetch_add(1, Relaxed);
        }
        answer
    }
    assert_eq!(different(Calls { make, ask_checked, ..PORT }), [0; 4]);
    for count in [&NEVER, &BELOW, &BEYOND, &FRESH, &USED] {
        assert!(count.load(Relaxed) >= 10, "{NEVER:?} {BELOW:?} {BEYOND:?} {FRESH:?} {USED:?}");
    }
}

/// A stop on that row, and what comes behind it there, is passed by then; the time is another.
#[test]
fn a_mark_that_serves_its_own_row_is_found() {
    let ask_checked = |cursor: Cursor, mark: Mark, chart: &Chart, beat: f64| {
        let row = if probe::beat_to_note_row(beat) == mark.row { mark.row - 1 } else { mark.row };
        time_for_beat_checked_marked(cursor, Mark { row, ..mark }, chart, beat)
    };
    let found = different(Calls { ask_checked, ..PORT });
    assert!(found[QUESTIONS] > 0 && found[HISTORIES] > 0);
}

#[test]
fn the_last_row_in_place_of_the_greatest_is_found() {
    let make = |chart: &Chart| {
        let made = make_mark(chart);
        MarkMade { mark: Mark { row: made.mark.state.row, ..made.mark }, ..made }
    };
    // a question in between is answered from the mark
    let ask = |cursor: Cursor, mark: Mark, chart: &Chart, beat: f64| {
        let answer = time_for_beat_marked(cursor, mark, chart, beat);
        let row = mark.row.min(mark.state.row);
        if answer.number == 0 {
            time_for_beat_checked_marked(cursor, Mark { row, ..mark }, chart, beat)
        } else {
            answer
        }
    };
    let found = different(Calls { make, ask, ..PORT });
    assert!(found[MARKS] > 0 && found[QUESTIONS] > 0 && found[HISTORIES] > 0);
}

#[test]
fn a_mark_without_the_warps_end_in_it_is_found() {
    let make = |chart: &Chart| {
        let made = make_mark(chart);
        let mut mark = made.mark;
        mark.state.warping |= mark.state.warps > 0;
        MarkMade { mark, ..made }
    };
    assert!(different(Calls { make, ..PORT })[MARKS] > 0);
}

#[test]
fn a_count_of_the_events_that_the_mark_skipped_is_found() {
    let ask = |cursor: Cursor, mark: Mark, chart: &Chart, beat: f64| {
        let answer = time_for_beat_marked(cursor, mark, chart, beat);
        if answer.number == 0 { Answer { count: time_for_beat(cursor, chart, beat).count, ..answer } } else { answer }
    };
    let run = |cursor: Cursor, mark: Mark, chart: &Chart, beats: &[f64], columns: &mut Columns, rooms: [usize; 3]| {
        let ran = run_marked(cursor, mark, chart, beats, columns, rooms);
        if ran.number == 0 && !beats.is_empty() {
            let first = time_for_beat_checked(cursor, chart, beats[0]);
            columns.counts[0] = first.count;
        }
        ran
    };
    let found = different(Calls { ask, run, ..PORT });
    assert!(found[QUESTIONS] > 0 && found[HISTORIES] > 0 && found[RUNS] > 0);
}

#[test]
fn a_mark_of_another_timing_that_is_taken_is_found() {
    let check = |mark: Mark, chart: &Chart| {
        let number = check_marked_timing(mark, chart);
        if number == 5 && chart.number() == 0 { 0 } else { number }
    };
    let ask = |cursor: Cursor, mark: Mark, chart: &Chart, beat: f64| {
        time_for_beat_marked(cursor, if chart.number() == 0 { make_mark(chart).mark } else { mark }, chart, beat)
    };
    let found = different(Calls { check, ask, ..PORT });
    assert!(found[MARKS] > 0 && found[QUESTIONS] > 0);
}

#[test]
fn a_zero_of_the_other_sign_that_is_taken_is_found() {
    let check = |mark: Mark, chart: &Chart| {
        let mut own = make_mark(chart).mark;
        if (own.state.time, own.state.end) == (mark.state.time, mark.state.end) {
            (own.state.time, own.state.end) = (mark.state.time, mark.state.end);
        }
        if own.same(mark) {
            check_marked_timing(make_mark(chart).mark, chart)
        } else {
            check_marked_timing(mark, chart)
        }
    };
    assert!(different(Calls { check, ..PORT })[MARKS] > 0);
}

/// The cursor after it is in the end state, from which the next question goes on.
#[test]
fn a_cursor_that_stays_behind_is_found() {
    let ask_checked = |cursor: Cursor, mark: Mark, chart: &Chart, beat: f64| {
        let mut answer = time_for_beat_checked_marked(cursor, mark, chart, beat);
        if answer.number == 0 && mark.row < probe::beat_to_note_row(beat) {
            answer.cursor.state = cursor.state;
        }
        answer
    };
    let found = different(Calls { ask_checked, ..PORT });
    assert!(found[QUESTIONS] > 0 && found[HISTORIES] > 0);
}

#[test]
fn a_run_that_tests_its_room_before_the_mark_is_found() {
    let run = |cursor: Cursor, mark: Mark, chart: &Chart, beats: &[f64], columns: &mut Columns, rooms: [usize; 3]| {
        let ran = run_marked(cursor, mark, chart, beats, columns, rooms);
        let short = rooms.iter().any(|room| *room < beats.len());
        if ran.number == 5 && chart.number() == 0 && short { Numbered { number: 7, ..ran } } else { ran }
    };
    assert!(different(Calls { run, ..PORT })[RUNS] > 0);
}

#[test]
fn a_time_of_other_bits_is_found() {
    let ask = |cursor: Cursor, mark: Mark, chart: &Chart, beat: f64| {
        let answer = time_for_beat_marked(cursor, mark, chart, beat);
        Answer { time: answer.time.next_up(), ..answer }
    };
    let found = different(Calls { ask, ..PORT });
    assert!(found[QUESTIONS] > 0 && found[HISTORIES] > 0);
}
