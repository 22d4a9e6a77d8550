//! The second clock: all events of a timing as one list, and a question that runs down it.

use crate::ffi;
use crate::refusal::{Refusal, taken};
use crate::timing::Timing;

/// What happens at an event. On one row events come in this order, and a note there comes after a delay and before a stop.
#[derive(Clone, Copy, Debug, PartialEq, Eq, PartialOrd, Ord, Hash)]
#[repr(u8)]
pub enum EventKind {
    /// A warp ends; the number is the beat where.
    WarpEnds = 0,
    /// A tempo begins; the number is its beats a minute.
    Tempo = 1,
    /// A delay; the number is its seconds.
    Delay = 2,
    /// A stop; the number is its seconds.
    Stop = 3,
    /// A warp begins; the number is the beat where it ends, which is the furthest end of all warps so far.
    Warp = 4,
}

impl EventKind {
    /// Every kind, in the order of their numbers.
    pub const ALL: [EventKind; 5] =
        [EventKind::WarpEnds, EventKind::Tempo, EventKind::Delay, EventKind::Stop, EventKind::Warp];

    fn of(number: u8) -> EventKind {
        let kind = EventKind::ALL.into_iter().find(|kind| *kind as u8 == number);
        kind.expect("the linked library gives kinds that this crate knows")
    }
}

/// An event of a timing.
#[derive(Clone, Copy, Debug, PartialEq)]
pub struct Event {
    /// The row on which it falls.
    pub row: i32,
    /// What happens.
    pub kind: EventKind,
    /// What it brings: beats a minute, seconds, or the beat where a warp ends.
    pub number: f64,
}

/// The second clock's answer.
#[derive(Clone, Copy, Debug, PartialEq)]
pub struct BenchAnswer {
    /// The second at which the beat is.
    pub time: f64,
    /// The events that come before the beat, and one.
    pub steps: usize,
    /// How many events the timing has.
    pub laid: usize,
}

/// Three columns that the events are laid out in.
struct Room {
    rows: Vec<i32>,
    kinds: Vec<u8>,
    numbers: Vec<f64>,
}

impl Room {
    /// Enough for all events: a warp has two, and a timing without a tempo has one all the same.
    fn of(timing: &Timing) -> Room {
        let most = timing.tempos.len().max(1) + timing.stops.len() + timing.delays.len() + 2 * timing.warps.len();
        Room { rows: vec![0; most], kinds: vec![0; most], numbers: vec![0.0; most] }
    }
}

impl Timing {
    /// All events in the order in which they fall, the ends of warps among them. Rows may fall too: a warp of negative length ends on a lower
    /// row than it begins.
    ///
    /// ```
    /// use marrighentu::{Chart, Event, EventKind, Format, Timing};
    ///
    /// // a warp from beat 4 to beat 6, and a stop inside it
    /// let chart =
    ///     Chart { tempos: vec![(0.0, 120.0)], stops: vec![(5.0, 1.0)], warps: vec![(4.0, 2.0)], ..Chart::default() };
    /// let timing = Timing::assemble(Format::Ssc, &chart, 0.0, 0.0)?;
    /// assert_eq!(
    ///     timing.events()?,
    ///     [
    ///         Event { row: 0, kind: EventKind::Tempo, number: 120.0 },
    ///         Event { row: 192, kind: EventKind::Warp, number: 6.0 },
    ///         Event { row: 240, kind: EventKind::Stop, number: 1.0 },
    ///         Event { row: 288, kind: EventKind::WarpEnds, number: 6.0 },
    ///     ]
    /// );
    /// # Ok::<(), marrighentu::Refusal>(())
    /// ```
    ///
    /// # Errors
    /// None: the lists were tested when the timing was made, and there is room for all events.
    pub fn events(&self) -> Result<Vec<Event>, Refusal> {
        let Room { mut rows, mut kinds, mut numbers } = Room::of(self);
        let outcome = ffi::lay_out_events(
            &self.tempos,
            &self.stops,
            &self.delays,
            &self.warps,
            &mut rows,
            &mut kinds,
            &mut numbers,
        );
        taken(outcome.number, ())?;
        let laid = rows.into_iter().zip(kinds).zip(numbers).take(outcome.count);
        Ok(laid.map(|((row, kind), number)| Event { row, kind: EventKind::of(kind), number }).collect())
    }

    /// At what time is this beat, by the list of all [`events`](Timing::events)? It runs down the list from the start, as far as events come before the beat.
    /// Time and steps are those of a fresh [`cursor`](Timing::cursor), but that behind all events the cursor takes one step. A player should ask that one:
    /// this lays out the whole list for each question, and is there to test the other clock by.
    ///
    /// ```
    /// use marrighentu::{BenchAnswer, Chart, Format, Timing};
    ///
    /// let chart = Chart { tempos: vec![(0.0, 120.0)], stops: vec![(4.0, 1.0)], ..Chart::default() };
    /// let timing = Timing::assemble(Format::Ssc, &chart, 0.0, 0.0)?;
    /// assert_eq!(timing.bench_time_for_beat(5.0)?, BenchAnswer { time: 3.5, steps: 3, laid: 2 });
    /// assert_eq!(timing.bench_time_for_beat(5.0)?.time, timing.cursor().time_for_beat(5.0)?);
    /// # Ok::<(), marrighentu::Refusal>(())
    /// ```
    ///
    /// # Errors
    /// [`Refusal::BadBeat`] for a beat that is not within -65,536 to 65,536.
    pub fn bench_time_for_beat(&self, beat: f64) -> Result<BenchAnswer, Refusal> {
        let Room { mut rows, mut kinds, mut numbers } = Room::of(self);
        let answer = ffi::bench_time_for_beat(
            &self.tempos,
            &self.stops,
            &self.delays,
            &self.warps,
            self.offset,
            self.global,
            beat,
            &mut rows,
            &mut kinds,
            &mut numbers,
        );
        taken(answer.number, BenchAnswer { time: answer.time, steps: answer.count, laid: answer.laid })
    }
}

#[cfg(test)]
mod tests {
    use super::*;
    use crate::lists::{Columns, Lists};

    fn at_120(lists: Lists) -> Timing {
        Timing::from_lists(&Lists { tempos: vec![(0.0, 120.0)], ..lists }, 0.0, 0.0).unwrap()
    }

    fn rows(timing: &Timing) -> Vec<i32> {
        timing.events().unwrap().iter().map(|event| event.row).collect()
    }

    /// The second clock's answers are those of a fresh cursor, bit for bit, on every quarter of a beat and where a beat is refused. Behind the greatest row of
    /// all events the cursor takes one step.
    fn agrees(timing: &Timing) {
        let events = timing.events().unwrap().len();
        let greatest = rows(timing).into_iter().max().unwrap();
        for quarter in -16..160 {
            let beat = f64::from(quarter) / 4.0;
            let (bench, fresh) = (timing.bench_time_for_beat(beat).unwrap(), timing.cursor().ask(beat).unwrap());
            assert_eq!(bench.time.to_bits(), fresh.time.to_bits(), "beat {beat}");
            let steps = if beat * 48.0 > greatest.into() { 1 } else { bench.steps };
            assert_eq!((fresh.steps, bench.laid), (steps, events), "beat {beat}");
        }
        for beat in [f64::NAN, 65_536.5, -1e9] {
            assert_eq!(timing.bench_time_for_beat(beat), Err(Refusal::BadBeat));
            assert_eq!(timing.cursor().ask(beat), Err(Refusal::BadBeat));
        }
    }

    #[test]
    fn a_stop_comes_after_its_beat() {
        let timing = at_120(Lists { stops: vec![(4.0, 1.0)], ..Lists::default() });
        assert_eq!(timing.bench_time_for_beat(4.0), Ok(BenchAnswer { time: 2.0, steps: 2, laid: 2 }));
        assert_eq!(timing.bench_time_for_beat(5.0), Ok(BenchAnswer { time: 3.5, steps: 3, laid: 2 }));
        agrees(&timing);
    }

    #[test]
    fn a_warp_takes_no_time() {
        let timing = at_120(Lists { warps: vec![(4.0, 2.0)], ..Lists::default() });
        assert_eq!(timing.bench_time_for_beat(8.0), Ok(BenchAnswer { time: 3.0, steps: 4, laid: 3 }));
        agrees(&timing);
    }

    #[test]
    fn rows_fall_where_a_warp_is_negative() {
        let one = at_120(Lists { warps: vec![(4.0, -2.0)], ..Lists::default() });
        assert_eq!(rows(&one), [0, 192, 96]);
        agrees(&one);
        // the end at beat 2 is not forgotten once it is reached
        let two = at_120(Lists { warps: vec![(0.0, 2.0), (4.0, -4.0)], ..Lists::default() });
        assert_eq!(rows(&two), [0, 0, 96, 192, 96]);
        assert!(two.events().unwrap()[1..].iter().all(|event| event.number == 2.0));
        agrees(&two);
    }

    #[test]
    fn all_kinds_on_one_row() {
        let lists = Lists {
            tempos: vec![(0.0, 120.0), (4.0, 60.0)],
            stops: vec![(4.0, 1.0)],
            delays: vec![(4.0, 0.5)],
            warps: vec![(2.0, 2.0), (4.0, 1.5), (5.0, 0.25)],
            ..Lists::default()
        };
        let timing = Timing::from_lists(&lists, 0.5, 0.25).unwrap();
        let found: Vec<(i32, EventKind, f64)> =
            timing.events().unwrap().iter().map(|event| (event.row, event.kind, event.number)).collect();
        assert_eq!(
            found,
            [
                (0, EventKind::Tempo, 120.0),
                (96, EventKind::Warp, 4.0),
                (192, EventKind::WarpEnds, 4.0),
                (192, EventKind::Tempo, 60.0),
                (192, EventKind::Delay, 0.5),
                (192, EventKind::Stop, 1.0),
                (192, EventKind::Warp, 5.5),
                (240, EventKind::Warp, 5.5),
                (264, EventKind::WarpEnds, 5.5),
            ]
        );
        agrees(&timing);
    }

    #[test]
    fn no_tempo_is_the_one_of_60() {
        let timing = Timing::from_lists(&Lists::default(), 0.0, 0.0).unwrap();
        assert_eq!(timing.events(), Ok(vec![Event { row: 0, kind: EventKind::Tempo, number: 60.0 }]));
        agrees(&timing);
    }

    /// A room that is one short is refused last, and stays as it was.
    #[test]
    fn a_short_room_is_refused() {
        let timing = at_120(Lists { warps: vec![(4.0, 2.0)], ..Lists::default() });
        let asked = |beat: f64, lengths: [usize; 3]| {
            let (mut rows, mut kinds, mut numbers) = (vec![7; lengths[0]], vec![7; lengths[1]], vec![7.0; lengths[2]]);
            let Timing { tempos, stops, delays, warps, .. } = &timing;
            let laid = ffi::lay_out_events(tempos, stops, delays, warps, &mut rows, &mut kinds, &mut numbers);
            if laid.number != 0 {
                assert!(laid.count == 0 && rows.iter().all(|row| *row == 7));
                assert!(kinds.iter().all(|kind| *kind == 7) && numbers.iter().all(|number| *number == 7.0));
            }
            let none = &Columns::of(&[]);
            assert_eq!(ffi::lay_out_events(none, none, none, none, &mut [], &mut [0], &mut [0.0]).number, 7);
            let answer = ffi::bench_time_for_beat(
                tempos,
                stops,
                delays,
                warps,
                0.0,
                0.0,
                beat,
                &mut rows,
                &mut kinds,
                &mut numbers,
            );
            (laid.number, answer.number, answer.laid)
        };
        assert_eq!(asked(8.0, [3, 3, 3]), (0, 0, 3));
        for lengths in [[2, 3, 3], [3, 2, 3], [3, 3, 2]] {
            assert_eq!(asked(8.0, lengths), (7, 7, 0));
            assert_eq!(asked(f64::NAN, lengths), (7, 3, 0));
        }
    }
}
