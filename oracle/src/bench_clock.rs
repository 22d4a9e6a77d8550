//! The bench clock, a third one beside the original's and the port's: all events of a timing laid out as one list, and questions answered by running down it.

use crate::cases::Work;
use crate::clock::{Asked, Found, lowest};
use crate::numbers::Number;
use crate::random::Random;
use crate::tally::Total;
use crate::tidying::Outcome;
use crate::timing::probe;
use crate::timings::{Chart, DELAYS, STOPS, TEMPOS, WARPS, beat_allowed};

// ---- the port

#[derive(Clone, Copy, Debug)]
#[repr(C)]
pub struct BenchAnswer {
    pub number: u32,
    pub time: f64,
    pub count: usize,
    pub laid: usize,
}

/// A call with the eight columns of a chart, and what it takes behind them. A slice crosses as its pointer and its length.
macro_rules! port {
    ($(fn $name:ident($($arg:ident: $type:ty),*) -> $answer:ty = $symbol:literal;)*) => {
        $(#[inline(always)]
        fn $name(chart: &Chart, $($arg: $type),*) -> $answer {
            unsafe extern "C" {
                #[link_name = $symbol]
                fn call(a: *const f32, al: usize, b: *const f32, bl: usize, c: *const f32, cl: usize, d: *const f32, dl: usize,
                    e: *const f32, el: usize, f: *const f32, fl: usize, g: *const f32, gl: usize, h: *const f32, hl: usize,
                    $($arg: $type),*) -> $answer;
            }
            let [(a, b), (c, d), (e, f), (g, h)] = &chart.lists;
            // SAFETY: the columns are lent whole; what else crosses is numbers, or columns that the caller lends whole.
            unsafe {
                call(a.as_ptr(), a.len(), b.as_ptr(), b.len(), c.as_ptr(), c.len(), d.as_ptr(), d.len(),
                    e.as_ptr(), e.len(), f.as_ptr(), f.len(), g.as_ptr(), g.len(), h.as_ptr(), h.len(), $($arg),*)
            }
        })*
    };
}

port! {
    fn lay_out_over(rows: *mut i32, rows_len: usize, kinds: *mut u8, kinds_len: usize, numbers: *mut f64, numbers_len: usize) -> Outcome = "marrighentu_lay_out_events";
    fn ask_over(offset: f64, global: f64, beat: f64, rows: *mut i32, rows_len: usize, kinds: *mut u8, kinds_len: usize, numbers: *mut f64, numbers_len: usize) -> BenchAnswer = "marrighentu_bench_time_for_beat";
}

/// The three columns that are lent for the list of events.
#[derive(Clone, Debug, Default)]
pub struct Columns {
    pub rows: Vec<i32>,
    pub kinds: Vec<u8>,
    pub numbers: Vec<f64>,
}

/// How much of each column is lent.
pub type Rooms = [usize; 3];

/// Over the front of each column, as long as its room.
#[inline(always)]
pub fn lay_out_events(chart: &Chart, columns: &mut Columns, rooms: Rooms) -> Outcome {
    let (rows, kinds, numbers) = columns.fronts(rooms);
    lay_out_over(
        chart,
        rows.as_mut_ptr(),
        rows.len(),
        kinds.as_mut_ptr(),
        kinds.len(),
        numbers.as_mut_ptr(),
        numbers.len(),
    )
}

#[inline(always)]
pub fn bench_time_for_beat(chart: &Chart, beat: f64, columns: &mut Columns, rooms: Rooms) -> BenchAnswer {
    let (rows, kinds, numbers) = columns.fronts(rooms);
    ask_over(
        chart,
        chart.offset,
        chart.global,
        beat,
        rows.as_mut_ptr(),
        rows.len(),
        kinds.as_mut_ptr(),
        kinds.len(),
        numbers.as_mut_ptr(),
        numbers.len(),
    )
}

/// The two calls, so that others can be put in their place.
#[derive(Clone, Copy)]
pub struct Calls {
    pub lay_out: fn(&Chart, &mut Columns, Rooms) -> Outcome,
    pub ask: fn(&Chart, f64, &mut Columns, Rooms) -> BenchAnswer,
}

pub const PORT: Calls = Calls { lay_out: lay_out_events, ask: bench_time_for_beat };

// ---- what is expected

pub const WARP_ENDS: u8 = 0;
pub const TEMPO_BEGINS: u8 = 1;
pub const DELAY_BEGINS: u8 = 2;
pub const STOP_BEGINS: u8 = 3;
pub const WARP_BEGINS: u8 = 4;

#[derive(Clone, Copy, Debug)]
pub struct Event {
    pub row: i32,
    pub kind: u8,
    pub number: f64,
}

/// All events of a sound timing in the order in which they fall: the least row is next, on one row the least kind.
pub fn events(chart: &Chart) -> Vec<Event> {
    let default = (vec![0.0], vec![60.0]);
    let tempos = if chart.lists[TEMPOS].0.is_empty() { &default } else { &chart.lists[TEMPOS] };
    // the lists of the kinds from 1 on
    let lists = [tempos, &chart.lists[DELAYS], &chart.lists[STOPS], &chart.lists[WARPS]];
    let (mut places, mut furthest, mut warping) = ([0; 4], 0.0, false);
    let mut events = Vec::new();
    loop {
        let begins = (TEMPO_BEGINS..).zip(lists.iter().zip(places));
        let heads =
            begins.filter_map(|(kind, ((beats, _), place))| beats.get(place).map(|beat| ((*beat).into(), kind)));
        let end = warping.then_some((furthest, WARP_ENDS));
        let falling = heads.chain(end).map(|(beat, kind)| (probe::beat_to_note_row(beat), kind));
        // an end that is held at the last row that there is never falls
        let Some((row, kind)) = falling.filter(|(row, _)| *row < i32::MAX).min() else { return events };
        let number = if kind == WARP_ENDS {
            warping = false;
            furthest
        } else {
            let list = usize::from(kind - TEMPO_BEGINS);
            let ((beats, values), place) = (lists[list], places[list]);
            places[list] += 1;
            if kind == WARP_BEGINS {
                let own = f64::from(beats[place]) + f64::from(values[place]);
                (furthest, warping) = (if own > furthest { own } else { furthest }, true);
                furthest
            } else {
                values[place].into()
            }
        };
        events.push(Event { row, kind, number });
    }
}

/// How many places a timing needs: B + S + D + 2W, and one for the tempo that it has where it has none.
pub fn most_events(chart: &Chart) -> usize {
    let [tempos, stops, delays, warps] = chart.lengths();
    tempos + stops + delays + 2 * warps
}

fn room_number(chart: &Chart, rooms: Rooms) -> u32 {
    if rooms.iter().any(|room| *room < most_events(chart)) { 7 } else { 0 }
}

impl Columns {
    /// Of so many places each.
    pub fn new(places: usize) -> Self {
        Self { rows: vec![0; places], kinds: vec![0; places], numbers: vec![0.0; places] }
    }

    /// Numbers of every kind, with some places past the rooms.
    fn by_chance([rows, kinds, numbers]: Rooms, random: &mut Random) -> Self {
        let mut column = |room: usize| (0..room + PAST).map(|_| random.bits()).collect::<Vec<_>>();
        Self {
            rows: column(rows).into_iter().map(|bits| bits as i32).collect(),
            kinds: column(kinds).into_iter().map(|bits| bits as u8).collect(),
            numbers: column(numbers).into_iter().map(f64::from_bits).collect(),
        }
    }

    fn fronts(&mut self, [rows, kinds, numbers]: Rooms) -> (&mut [i32], &mut [u8], &mut [f64]) {
        (&mut self.rows[..rows], &mut self.kinds[..kinds], &mut self.numbers[..numbers])
    }

    fn lay(&mut self, events: &[Event]) {
        for (place, event) in events.iter().enumerate() {
            (self.rows[place], self.kinds[place], self.numbers[place]) = (event.row, event.kind, event.number);
        }
    }

    fn same(&self, other: &Self) -> bool {
        let answers = |column: &[f64]| column.iter().map(|number| number.answer()).collect::<Vec<_>>();
        self.rows == other.rows && self.kinds == other.kinds && answers(&self.numbers) == answers(&other.numbers)
    }
}

const PAST: usize = 4;

// ---- the comparison

/// A chart with what is expected of it; its events where it is not refused.
struct Benched {
    asked: Asked,
    /// The number of laying out, which has no offsets to test.
    number: u32,
    events: Vec<Event>,
}

impl Benched {
    fn new(chart: Chart) -> Self {
        let number = Chart { offset: 0.0, global: 0.0, ..chart.clone() }.number();
        let events = if number == 0 { events(&chart) } else { Vec::new() };
        Self { asked: Asked::new(chart), number, events }
    }

    /// The number, how many were laid, and the columns to their last place and some places past it.
    fn lay_out(&self, calls: Calls, random: &mut Random, found: &mut Found) {
        let chart = &self.asked.chart;
        let rooms = rooms(most_events(chart), random);
        let mut wanted = Columns::by_chance(rooms, random);
        let mut got = wanted.clone();
        let outcome = match lowest([self.number, room_number(chart, rooms)]) {
            0 => {
                wanted.lay(&self.events);
                Outcome { number: 0, count: self.events.len() }
            }
            number => Outcome::refused(number),
        };
        let answer = (calls.lay_out)(chart, &mut got, rooms);
        found.check(answer == outcome && got.same(&wanted), || {
            format!("{chart:?}, rooms {rooms:?}: {outcome:?} {wanted:?}, port {answer:?} {got:?}")
        });
    }

    /// Time by the original, count by the counted walk from a fresh start.
    fn expected(&self, beat: f64, rooms: Rooms, wanted: &mut Columns) -> BenchAnswer {
        let (chart, beat_number) = (&self.asked.chart, if beat_allowed(beat) { 0 } else { 3 });
        match lowest([self.asked.number, beat_number, room_number(chart, rooms)]) {
            0 => {
                wanted.lay(&self.events);
                let fresh = self.asked.fresh_answer(beat);
                BenchAnswer { number: 0, time: fresh.time, count: fresh.count, laid: self.events.len() }
            }
            number => BenchAnswer { number, time: 0.0, count: 0, laid: 0 },
        }
    }

    fn ask(&self, calls: Calls, beat: f64, random: &mut Random, found: &mut Found) {
        let chart = &self.asked.chart;
        let rooms = rooms(most_events(chart), random);
        let mut wanted = Columns::by_chance(rooms, random);
        let mut got = wanted.clone();
        let expected = self.expected(beat, rooms, &mut wanted);
        let answer = (calls.ask)(chart, beat, &mut got, rooms);
        let words = |answer: BenchAnswer| (answer.number, answer.time.answer(), answer.count, answer.laid);
        found.check(words(answer) == words(expected) && got.same(&wanted), || {
            format!("{chart:?}, beat {beat:?}, rooms {rooms:?}: {expected:?} {wanted:?}, port {answer:?} {got:?}")
        });
    }
}

/// Just as long as they have to be, one short in one of them, empty, or larger.
fn rooms(most: usize, random: &mut Random) -> Rooms {
    let mut rooms = [most; 3];
    let column = random.below(3) as usize;
    match random.below(8) {
        0 => rooms[column] = most - 1,
        1 => rooms = [most - 1; 3],
        2 => {
            rooms = [0, 1, 2].map(|_| most + random.below(9) as usize);
            rooms[column] = [0, most - 1][random.below(2) as usize];
        }
        3 => rooms = [0; 3],
        4 | 5 => rooms = [0, 1, 2].map(|_| most + random.below(9) as usize),
        _ => (),
    }
    rooms
}

/// Laying out, and questions.
pub fn compare(work: Work, calls: Calls) -> [Found; 2] {
    let mut random = Random::new(work.seed, "bench clock");
    let [mut laid, mut questions] = [(); 2].map(|()| Found::default());
    for turn in 0..work.lists() / 4 {
        let benched = Benched::new(Chart::by_chance(turn, &mut random));
        for _ in 0..4 {
            benched.lay_out(calls, &mut random, &mut laid);
        }
        for beat in benched.asked.chart.asked(12, &mut random) {
            benched.ask(calls, beat, &mut random, &mut questions);
        }
    }
    [laid, questions]
}

pub fn compare_all(work: Work, total: &mut Total) {
    let [laid, questions] = compare(work, PORT);
    laid.add("lay_out_events", total);
    questions.add("bench_time_for_beat", total);
}
