//! The comparison of the bench clock finds faults: calls that are the port's but for one thing each.
#![cfg(feature = "port")]

use std::sync::atomic::{AtomicU64, Ordering::Relaxed};

use oracle::bench_clock::{
    BenchAnswer, Calls, Columns, DELAY_BEGINS, PORT, Rooms, STOP_BEGINS, WARP_BEGINS, WARP_ENDS, bench_time_for_beat,
    compare, lay_out_events, most_events,
};
use oracle::cases::Work;
use oracle::tidying::Outcome;
use oracle::timing::probe;
use oracle::timings::{Chart, WARPS};

const WORK: Work = Work { seed: 1, seconds: 0 };

/// What differs in laying out, and in questions.
fn different(calls: Calls) -> [u64; 2] {
    compare(WORK, calls).map(|found| found.different)
}

#[test]
fn the_port_lays_and_answers_as_expected() {
    let [laid, questions] = compare(WORK, PORT);
    assert!(laid.compared >= 4_000 && questions.compared >= 12_000);
    assert_eq!([laid.different, questions.different], [0, 0]);
}

/// Among the lists that are laid are rows that fall, warps that never end, and ends that are reached again.
#[test]
fn what_is_rare_is_tried() {
    static FALLING: AtomicU64 = AtomicU64::new(0);
    static NEVER: AtomicU64 = AtomicU64::new(0);
    static AGAIN: AtomicU64 = AtomicU64::new(0);
    fn lay_out(chart: &Chart, columns: &mut Columns, rooms: Rooms) -> Outcome {
        let outcome = lay_out_events(chart, columns, rooms);
        let list: Vec<_> = columns.rows.iter().zip(&columns.kinds).take(outcome.count).collect();
        let ends: Vec<_> = list.iter().filter(|(_, kind)| **kind == WARP_ENDS).map(|(row, _)| *row).collect();
        let last = list.iter().rfind(|(_, kind)| [WARP_ENDS, WARP_BEGINS].contains(*kind));
        FALLING.fetch_add(list.windows(2).any(|two| two[1].0 < two[0].0).into(), Relaxed);
        NEVER.fetch_add(last.is_some_and(|(_, kind)| **kind == WARP_BEGINS).into(), Relaxed);
        AGAIN.fetch_add(ends.windows(2).any(|two| two[0] == two[1]).into(), Relaxed);
        outcome
    }
    assert_eq!(different(Calls { lay_out, ..PORT }), [0, 0]);
    for count in [&FALLING, &NEVER, &AGAIN] {
        assert!(count.load(Relaxed) >= 20, "{FALLING:?} {NEVER:?} {AGAIN:?}");
    }
}

#[test]
fn a_stop_before_a_delay_is_found() {
    fn lay_out(chart: &Chart, columns: &mut Columns, rooms: Rooms) -> Outcome {
        let outcome = lay_out_events(chart, columns, rooms);
        for place in 1..outcome.count {
            let on_one_row = columns.rows[place - 1] == columns.rows[place];
            if on_one_row && columns.kinds[place - 1..=place] == [DELAY_BEGINS, STOP_BEGINS] {
                columns.kinds.swap(place - 1, place);
                columns.numbers.swap(place - 1, place);
            }
        }
        outcome
    }
    assert!(different(Calls { lay_out, ..PORT })[0] > 0);
}

#[test]
fn a_warp_that_ends_by_its_own_length_is_found() {
    fn lay_out(chart: &Chart, columns: &mut Columns, rooms: Rooms) -> Outcome {
        let outcome = lay_out_events(chart, columns, rooms);
        let (beats, lengths) = &chart.lists[WARPS];
        let begun = (0..outcome.count).filter(|place| columns.kinds[*place] == WARP_BEGINS).collect::<Vec<_>>();
        for (place, (beat, length)) in begun.into_iter().zip(beats.iter().zip(lengths)) {
            columns.numbers[place] = f64::from(*beat) + f64::from(*length);
        }
        outcome
    }
    assert!(different(Calls { lay_out, ..PORT })[0] > 0);
}

/// Rows may fall, so that events behind the first that is not before the beat are before it.
#[test]
fn counting_all_before_the_beat_is_found() {
    fn ask(chart: &Chart, beat: f64, columns: &mut Columns, rooms: Rooms) -> BenchAnswer {
        let mut answer = bench_time_for_beat(chart, beat, columns, rooms);
        if answer.number == 0 {
            let before = |place: &usize| {
                (columns.rows[*place], columns.kinds[*place]) < (probe::beat_to_note_row(beat), STOP_BEGINS)
            };
            answer.count = (0..answer.laid).filter(before).count() + 1;
        }
        answer
    }
    assert!(different(Calls { ask, ..PORT })[1] > 0);
}

#[test]
fn a_room_one_short_that_is_taken_is_found() {
    fn longer(chart: &Chart, rooms: Rooms) -> Rooms {
        // the places past the rooms are there too
        rooms.map(|room| room + usize::from(room + 1 == most_events(chart)))
    }
    let lay_out =
        |chart: &Chart, columns: &mut Columns, rooms: Rooms| lay_out_events(chart, columns, longer(chart, rooms));
    let ask = |chart: &Chart, beat: f64, columns: &mut Columns, rooms: Rooms| {
        bench_time_for_beat(chart, beat, columns, longer(chart, rooms))
    };
    assert!(different(Calls { lay_out, ask }).iter().all(|count| *count > 0));
}

#[test]
fn a_beat_tested_behind_the_room_is_found() {
    fn ask(chart: &Chart, beat: f64, columns: &mut Columns, rooms: Rooms) -> BenchAnswer {
        let mut answer = bench_time_for_beat(chart, beat, columns, rooms);
        let short = rooms.iter().any(|room| *room < most_events(chart));
        if answer.number == 3 && chart.number() == 0 && short {
            answer.number = 7;
        }
        answer
    }
    assert!(different(Calls { ask, ..PORT })[1] > 0);
}

#[test]
fn a_place_that_is_written_on_a_refusal_or_behind_the_list_is_found() {
    fn on_a_refusal(chart: &Chart, columns: &mut Columns, rooms: Rooms) -> Outcome {
        let outcome = lay_out_events(chart, columns, rooms);
        if outcome.number != 0 && rooms[1] > 0 {
            columns.kinds[0] ^= 1;
        }
        outcome
    }
    fn behind(chart: &Chart, columns: &mut Columns, rooms: Rooms) -> Outcome {
        let outcome = lay_out_events(chart, columns, rooms);
        if outcome.number == 0 {
            columns.rows[outcome.count] ^= 1;
        }
        outcome
    }
    assert!(different(Calls { lay_out: on_a_refusal, ..PORT })[0] > 0);
    assert!(different(Calls { lay_out: behind, ..PORT })[0] > 0);
}

#[test]
fn a_time_of_other_bits_and_a_count_of_laid_that_takes_every_end_are_found() {
    let late = |chart: &Chart, beat: f64, columns: &mut Columns, rooms: Rooms| {
        let answer = bench_time_for_beat(chart, beat, columns, rooms);
        BenchAnswer { time: answer.time.next_up(), ..answer }
    };
    let every_end = |chart: &Chart, beat: f64, columns: &mut Columns, rooms: Rooms| {
        let answer = bench_time_for_beat(chart, beat, columns, rooms);
        BenchAnswer { laid: if answer.number == 0 { most_events(chart) } else { 0 }, ..answer }
    };
    assert!(different(Calls { ask: late, ..PORT })[1] > 0);
    assert!(different(Calls { ask: every_end, ..PORT })[1] > 0);
}
