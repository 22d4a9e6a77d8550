//! The comparison of beat from time finds faults: calls that are the port's but for one thing each.
#![cfg(feature = "port")]

use std::sync::atomic::{AtomicU64, Ordering::Relaxed};

use oracle::by_time::{
    BeatInfo, Calls, Columns, PORT, Rooms, compare, get_beat_info_from_time, get_beat_info_from_time_checked,
    get_beat_infos_from_times, time_allowed,
};
use oracle::cases::Work;
use oracle::clock::{Cursor, DELAY, STOP, TEMPO, Walker};
use oracle::timing::probe;
use oracle::timings::Chart;

const WORK: Work = Work { seed: 1, seconds: 0 };

const QUESTIONS: usize = 0;
const RUNS: usize = 1;
const BACK: usize = 2;

/// What differs in questions, in runs, and in times asked back.
fn different(calls: Calls) -> [u64; 3] {
    compare(WORK, calls).map(|found| found.different)
}

/// What the question would be by a rule of one's own: whether an event is left out, where a pause that runs ends it, and the last line.
fn by_rule(
    chart: &Chart,
    time: f64,
    before: fn(f64, f64) -> bool,
    ranks: [usize; 6],
    last: fn(f64, f64, f64) -> f64,
) -> BeatInfo {
    let right = get_beat_info_from_time(chart, time);
    if right.number != 0 {
        return right;
    }
    let elapsed = time + chart.global;
    let mut walker = Walker::new(chart, Cursor::fresh(chart.offset, chart.global).state);
    let mut count = 1;
    while let Some((row, rank)) = walker.next_by(None, ranks) {
        let begins = walker.time_at(row);
        if before(elapsed, begins) {
            break;
        }
        if let Some((beat, lasts)) = walker.pause(rank)
            && elapsed < begins + lasts
        {
            return BeatInfo { beat, is_in_freeze: rank == STOP, is_in_delay: rank == DELAY, count, ..right };
        }
        walker.pass(row, rank);
        count += 1;
    }
    let beat = last(elapsed - walker.state.time, walker.beats_a_second(), f64::from(walker.state.row) / 48.0);
    BeatInfo { beat, is_in_freeze: false, is_in_delay: false, count, ..right }
}

const RANKS: [usize; 6] = [0, 1, 2, 3, 4, 5];

fn is_below(elapsed: f64, begins: f64) -> bool {
    elapsed < begins
}

#[test]
fn the_port_answers_as_expected() {
    let found = compare(WORK, PORT);
    let least = [40_000, 3_000, 5_000];
    assert!(found.iter().zip(least).all(|(found, least)| found.compared >= least));
    assert_eq!(found.map(|found| found.different), [0; 3]);
    // and by the rule as it is
    let ask = |chart: &Chart, time: f64| by_rule(chart, time, is_below, RANKS, f64::mul_add);
    assert_eq!(different(Calls { ask, ..PORT }), [0; 3]);
}

/// Stops and delays that run, beats that are not those of their rows, and times that are refused are all asked for.
#[test]
fn what_is_rare_is_tried() {
    static FROZEN: AtomicU64 = AtomicU64::new(0);
    static DELAYED: AtomicU64 = AtomicU64::new(0);
    static OFF_ROW: AtomicU64 = AtomicU64::new(0);
    static REFUSED: AtomicU64 = AtomicU64::new(0);
    static FAR: AtomicU64 = AtomicU64::new(0);
    fn ask(chart: &Chart, time: f64) -> BeatInfo {
        let info = get_beat_info_from_time(chart, time);
        let off_row = f64::from(probe::beat_to_note_row(info.beat)) / 48.0 != info.beat;
        FROZEN.fetch_add(info.is_in_freeze.into(), Relaxed);
        DELAYED.fetch_add(info.is_in_delay.into(), Relaxed);
        OFF_ROW.fetch_add(((info.is_in_freeze || info.is_in_delay) && off_row).into(), Relaxed);
        REFUSED.fetch_add((chart.number() == 0 && info.number == 4).into(), Relaxed);
        FAR.fetch_add((info.number == 0 && info.beat.abs() > 65_536.0).into(), Relaxed);
        info
    }
    assert_eq!(different(Calls { ask, ..PORT }), [0; 3]);
    for count in [&FROZEN, &DELAYED, &OFF_ROW, &REFUSED, &FAR] {
        assert!(count.load(Relaxed) >= 20, "{FROZEN:?} {DELAYED:?} {OFF_ROW:?} {REFUSED:?} {FAR:?}");
    }
}

#[test]
fn an_event_left_out_at_its_own_time_is_found() {
    let ask = |chart: &Chart, time: f64| by_rule(chart, time, |elapsed, begins| elapsed <= begins, RANKS, f64::mul_add);
    let found = different(Calls { ask, ..PORT });
    assert!(found[QUESTIONS] > 0 && found[BACK] > 0);
}

#[test]
fn two_roundings_in_the_last_line_are_found() {
    let ask = |chart: &Chart, time: f64| by_rule(chart, time, is_below, RANKS, |x, y, z| x * y + z);
    assert!(different(Calls { ask, ..PORT })[QUESTIONS] > 0);
}

#[test]
fn another_order_on_one_row_is_found() {
    // a stop before a delay; a delay before a tempo, which the count alone shows; a warp before a stop
    for (one, other) in [(DELAY, STOP), (TEMPO, DELAY), (STOP, 5)] {
        let mut ranks = RANKS;
        ranks.swap(one, other);
        assert!(by_ranks(ranks) > 0, "{one} and {other}");
    }
}

/// How many questions differ where ties are broken by other ranks.
fn by_ranks(ranks: [usize; 6]) -> u64 {
    static RANKED: std::sync::Mutex<[usize; 6]> = std::sync::Mutex::new(RANKS);
    *RANKED.lock().unwrap() = ranks;
    let ask = |chart: &Chart, time: f64| by_rule(chart, time, is_below, *RANKED.lock().unwrap(), f64::mul_add);
    different(Calls { ask, ..PORT })[QUESTIONS]
}

#[test]
fn a_running_pause_that_is_counted_is_found() {
    let ask_checked = |chart: &Chart, time: f64| {
        let info = get_beat_info_from_time_checked(chart, time);
        BeatInfo { count: info.count + usize::from(info.is_in_freeze), ..info }
    };
    assert!(different(Calls { ask_checked, ..PORT })[QUESTIONS] > 0);
}

#[test]
fn the_rows_beat_in_place_of_the_entrys_is_found() {
    let ask = |chart: &Chart, time: f64| {
        let info = get_beat_info_from_time(chart, time);
        if info.is_in_freeze || info.is_in_delay {
            return BeatInfo { beat: f64::from(probe::beat_to_note_row(info.beat)) / 48.0, ..info };
        }
        info
    };
    assert!(different(Calls { ask, ..PORT })[QUESTIONS] > 0);
}

#[test]
fn a_time_beyond_the_limit_that_is_taken_is_found() {
    let ask = |chart: &Chart, time: f64| {
        let time = if time.is_finite() { time.clamp(-2f64.powi(50), 2f64.powi(50)) } else { time };
        get_beat_info_from_time(chart, time)
    };
    assert!(different(Calls { ask, ..PORT })[QUESTIONS] > 0);
}

#[test]
fn marks_of_a_run_that_are_swapped_are_found() {
    let run = |chart: &Chart, times: &[f64], columns: &mut Columns, rooms: Rooms| {
        let number = get_beat_infos_from_times(chart, times, columns, rooms);
        if number == 0 {
            (0..times.len()).for_each(|place| std::mem::swap(&mut columns.freezes[place], &mut columns.delays[place]));
        }
        number
    };
    assert!(different(Calls { run, ..PORT })[RUNS] > 0);
}

#[test]
fn a_run_that_stops_at_a_refused_time_or_writes_on_a_refusal_is_found() {
    let stops = |chart: &Chart, times: &[f64], columns: &mut Columns, rooms: Rooms| {
        let good = times.iter().position(|time| !time_allowed(*time)).unwrap_or(times.len());
        get_beat_infos_from_times(chart, &times[..good], columns, rooms)
    };
    let writes = |chart: &Chart, times: &[f64], columns: &mut Columns, rooms: Rooms| {
        let number = get_beat_infos_from_times(chart, times, columns, rooms);
        if number != 0 && rooms[2] > 0 {
            columns.freezes[0] ^= 1;
        }
        number
    };
    assert!(different(Calls { run: stops, ..PORT })[RUNS] > 0);
    assert!(different(Calls { run: writes, ..PORT })[RUNS] > 0);
}
