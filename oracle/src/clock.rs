//! The clock: the original's cursor and the port's, and their comparison.

use crate::cases::{LAST_ROW, Work, power};
use crate::numbers::Number;
use crate::random::Random;
use crate::stored::{self, Case, Word};
use crate::tally::Total;
use crate::timing::{TimingData, get_time_for_beat, probe};
use crate::timings::{Chart, DELAYS, STOPS, TEMPOS, WARPS, beat_allowed};
use probe::{BeatCursor, Held};

// ---- the port

#[derive(Clone, Copy, Debug)]
#[repr(C)]
pub struct State {
    pub tempos: usize,
    pub stops: usize,
    pub delays: usize,
    pub warps: usize,
    pub row: i32,
    pub warping: bool,
    pub time: f64,
    pub end: f64,
}

#[derive(Clone, Copy, Debug)]
#[repr(C)]
pub struct Cursor {
    pub state: State,
    pub asked: i32,
}

#[derive(Clone, Copy, Debug)]
#[repr(C)]
pub struct Answer {
    pub number: u32,
    pub time: f64,
    pub count: usize,
    pub cursor: Cursor,
}

/// What a question to a lent cursor answers.
#[derive(Clone, Copy, Debug)]
#[repr(C)]
pub struct Reply {
    pub number: u32,
    pub time: f64,
    pub count: usize,
}

/// A number and a cursor: what a new cursor and a run answer.
#[derive(Clone, Copy, Debug)]
#[repr(C)]
pub struct Numbered {
    pub number: u32,
    pub cursor: Cursor,
}

/// A call with the eight columns of a chart and its offsets, what it takes before them, and what after. A slice crosses as its pointer and its length.
macro_rules! port {
    ($($(#[$doc:meta])* fn $name:ident($($before:ident: $before_type:ty),*; $($after:ident: $after_type:ty),*) -> $answer:ty = $symbol:literal;)*) => {
        $($(#[$doc])*
        #[inline(always)]
        pub fn $name($($before: $before_type,)* chart: &$crate::timings::Chart, $($after: $after_type),*) -> $answer {
            unsafe extern "C" {
                #[link_name = $symbol]
                fn call($($before: $before_type,)* a: *const f32, al: usize, b: *const f32, bl: usize, c: *const f32, cl: usize, d: *const f32, dl: usize,
                    e: *const f32, el: usize, f: *const f32, fl: usize, g: *const f32, gl: usize, h: *const f32, hl: usize,
                    offset: f64, global: f64, $($after: $after_type),*) -> $answer;
            }
            let [(a, b), (c, d), (e, f), (g, h)] = &chart.lists;
            // SAFETY: the columns are lent whole; what else crosses is numbers, structs of numbers, or columns that the caller lends whole.
            unsafe {
                call($($before,)* a.as_ptr(), a.len(), b.as_ptr(), b.len(), c.as_ptr(), c.len(), d.as_ptr(), d.len(),
                    e.as_ptr(), e.len(), f.as_ptr(), f.len(), g.as_ptr(), g.len(), h.as_ptr(), h.len(), chart.offset, chart.global, $($after),*)
            }
        })*
    };
}
pub(crate) use port;

port! {
    fn check_timing(;) -> u32 = "marrighentu_check_timing";
    fn time_for_beat(cursor: Cursor; beat: f64) -> Answer = "marrighentu_time_for_beat";
    fn time_for_beat_checked(cursor: Cursor; beat: f64) -> Answer = "marrighentu_time_for_beat_checked";
    fn fresh_time_for_beat(; beat: f64) -> Answer = "marrighentu_get_time_for_beat";
    fn lent_time_for_beat(cursor: &mut Cursor; beat: f64) -> Reply = "marrighentu_lent_time_for_beat";
    fn lent_time_for_beat_checked(cursor: &mut Cursor; beat: f64) -> Reply = "marrighentu_lent_time_for_beat_checked";
    fn lent_run_over(cursor: &mut Cursor; beats: *const f64, beats_len: usize, numbers: *mut u32, numbers_len: usize, times: *mut f64, times_len: usize, counts: *mut usize, counts_len: usize) -> u32 = "marrighentu_lent_run";
    fn run_over(cursor: Cursor; beats: *const f64, beats_len: usize, numbers: *mut u32, numbers_len: usize, times: *mut f64, times_len: usize, counts: *mut usize, counts_len: usize) -> Numbered = "marrighentu_run";
}

/// The three columns of a run.
#[derive(Clone, Debug)]
pub struct Columns {
    pub numbers: Vec<u32>,
    pub times: Vec<f64>,
    pub counts: Vec<usize>,
}

/// A run over the front of each column, as long as its room.
macro_rules! run_by {
    ($name:ident, $cursor:ty, $over:ident, $answer:ty) => {
        #[inline(always)]
        pub fn $name(
            cursor: $cursor,
            chart: &Chart,
            beats: &[f64],
            columns: &mut Columns,
            [numbers, times, counts]: [usize; 3],
        ) -> $answer {
            let (numbers, times, counts) =
                (&mut columns.numbers[..numbers], &mut columns.times[..times], &mut columns.counts[..counts]);
            $over(
                cursor,
                chart,
                beats.as_ptr(),
                beats.len(),
                numbers.as_mut_ptr(),
                numbers.len(),
                times.as_mut_ptr(),
                times.len(),
                counts.as_mut_ptr(),
                counts.len(),
            )
        }
    };
}

run_by!(run, Cursor, run_over, Numbered);
run_by!(lent_run, &mut Cursor, lent_run_over, u32);

pub fn cursor_new(offset: f64, global: f64) -> Numbered {
    unsafe extern "C" {
        safe fn marrighentu_cursor_new(offset: f64, global: f64) -> Numbered;
    }
    marrighentu_cursor_new(offset, global)
}

// ---- what is expected

impl Cursor {
    pub fn fresh(offset: f64, global: f64) -> Self {
        let state = State {
            tempos: 0,
            stops: 0,
            delays: 0,
            warps: 0,
            row: 0,
            time: -offset - global,
            end: 0.0,
            warping: false,
        };
        Self { state, asked: i32::MIN }
    }

    fn held(self) -> Held {
        let State { tempos, stops, delays, warps, row, time, end, warping } = self.state;
        Held { places: [tempos, stops, delays, warps], row, time, end, warping, asked: self.asked }
    }

    fn of(held: Held) -> Self {
        let Held { places: [tempos, stops, delays, warps], row, time, end, warping, asked } = held;
        Self { state: State { tempos, stops, delays, warps, row, time, end, warping }, asked }
    }

    /// Bit for bit, but for the sign of a warp's end of zero: which of two zeros is the larger differs from one processor to another in the original.
    pub(crate) fn same(self, other: Self) -> bool {
        let (one, two) = (self.state, other.state);
        let end = |state: State| (state.end + 0.0).answer();
        (one.tempos, one.stops, one.delays, one.warps, one.row, one.warping, self.asked)
            == (two.tempos, two.stops, two.delays, two.warps, two.row, two.warping, other.asked)
            && one.time.answer() == two.time.answer()
            && end(one) == end(two)
    }

    /// 9 or 0, by the rules.
    pub(crate) fn number(self, lengths: [usize; 4]) -> u32 {
        let State { tempos, stops, delays, warps, row, time, end, .. } = self.state;
        let beyond = [tempos, stops, delays, warps].iter().zip(lengths).any(|(place, length)| *place > length);
        let row_allowed = |row: i32| (-LAST_ROW..=LAST_ROW).contains(&row);
        let asked_allowed = row_allowed(self.asked) || self.asked == i32::MIN;
        if beyond || !row_allowed(row) || !asked_allowed || !time.is_finite() || !(0.0..=power(31)).contains(&end) {
            9
        } else {
            0
        }
    }

    /// Sound in most fields, and in one or two perhaps not.
    pub(crate) fn made_up(lengths: [usize; 4], random: &mut Random) -> Self {
        let mut place = |list: usize| random.below(lengths[list] as u64 + 1) as usize;
        let [tempos, stops, delays, warps] = [place(TEMPOS), place(STOPS), place(DELAYS), place(WARPS)];
        let mut row = || (random.below(2 * LAST_ROW as u64 + 1) as i32 - LAST_ROW) >> random.below(22);
        let (last, asked) = (row(), row());
        let (time, end) = (random.part() * 1_000.0 - 100.0, power(random.below(32) as i32) * random.part());
        let state = State { tempos, stops, delays, warps, row: last, time, end, warping: random.below(2) == 0 };
        let mut cursor = Self { state, asked: if random.below(6) == 0 { i32::MIN } else { asked } };
        let state = &mut cursor.state;
        match random.below(20) {
            0 => state.tempos = lengths[TEMPOS] + 1,
            1 => state.stops = lengths[STOPS] + 1,
            2 => state.delays = usize::MAX,
            3 => state.warps = lengths[WARPS] + 1,
            4 => state.row = LAST_ROW + 1,
            5 => state.row = i32::MIN,
            6 => state.time = f64::NAN,
            7 => state.time = f64::NEG_INFINITY,
            8 => state.end = power(31).moved(1),
            9 => state.end = -power(-1074),
            10 => state.end = f64::NAN,
            11 => cursor.asked = i32::MIN + 1,
            12 => cursor.asked = LAST_ROW + 1,
            13 => state.end = power(31),
            14 => state.row = LAST_ROW,
            15 => state.end = -0.0,
            _ => (),
        }
        cursor
    }
}

impl Reply {
    /// With the cursor that was lent, as it is after the question.
    pub(crate) fn with(self, cursor: Cursor) -> Answer {
        Answer { number: self.number, time: self.time, count: self.count, cursor }
    }
}

impl Answer {
    pub(crate) fn refused(number: u32, cursor: Cursor) -> Self {
        Self { number, time: 0.0, count: 0, cursor }
    }

    pub(crate) fn same(&self, other: &Self) -> bool {
        (self.number, self.time.answer(), self.count) == (other.number, other.time.answer(), other.count)
            && self.cursor.same(other.cursor)
    }
}

/// What comes next, by rank: on one row the lower one is first.
pub const WARP_END: usize = 0;
pub const TEMPO: usize = 1;
pub const DELAY: usize = 2;
pub const ASKED: usize = 3;
pub const STOP: usize = 4;
pub const WARP: usize = 5;

/// The rules of the walk once more, in plain Rust: event by event, over a timing's lists.
pub struct Walker<'a> {
    lists: [(&'a [f32], &'a [f32]); 4],
    early: f64,
    pub state: State,
}

impl<'a> Walker<'a> {
    pub fn new(chart: &'a Chart, state: State) -> Self {
        let mut lists = chart.lists.each_ref().map(|(beats, values)| (&beats[..], &values[..]));
        if lists[TEMPOS].0.is_empty() {
            lists[TEMPOS] = (&[0.0], &[60.0]);
        }
        let (beats, values) = lists[TEMPOS];
        let last_beat = f64::from(state.row) / 48.0;
        let before = beats.iter().take_while(|beat| f64::from(**beat) <= last_beat).count();
        Self { lists, early: values[before.saturating_sub(1)].into(), state }
    }

    /// The row and rank of what comes next: the least row wins, then the lower rank. An end that is held at the last row that there is never comes.
    pub fn next(&self, asked: Option<i32>) -> Option<(i32, usize)> {
        self.next_by(asked, [WARP_END, TEMPO, DELAY, ASKED, STOP, WARP])
    }

    /// The same by other places of the ranks on one row.
    pub fn next_by(&self, asked: Option<i32>, places: [usize; 6]) -> Option<(i32, usize)> {
        let state = &self.state;
        let head = |list: usize, place: usize| {
            self.lists[list].0.get(place).map(|beat| probe::beat_to_note_row((*beat).into()))
        };
        let heads = [
            state.warping.then(|| probe::beat_to_note_row(state.end)),
            head(TEMPOS, state.tempos),
            head(DELAYS, state.delays),
            asked,
            head(STOPS, state.stops),
            head(WARPS, state.warps),
        ];
        let all = heads.iter().enumerate().filter_map(|(rank, row)| row.map(|row| (row, rank)));
        all.filter(|(row, _)| *row < i32::MAX).min_by_key(|(row, rank)| (*row, places[*rank]))
    }

    /// Beats a second by the tempo in force.
    pub fn beats_a_second(&self) -> f64 {
        let place = self.state.tempos;
        let tempo = if place == 0 { self.early } else { self.lists[TEMPOS].1[place - 1].into() };
        tempo / 60.0
    }

    /// The time of a row by the tempo in force; in a warp time stands still.
    pub fn time_at(&self, row: i32) -> f64 {
        let beats = f64::from(row.wrapping_sub(self.state.row)) / 48.0;
        self.state.time + if self.state.warping { 0.0 } else { beats / self.beats_a_second() }
    }

    /// The beat and the seconds of the stop or delay that comes next.
    pub fn pause(&self, rank: usize) -> Option<(f64, f64)> {
        let (list, place) = match rank {
            DELAY => (DELAYS, self.state.delays),
            STOP => (STOPS, self.state.stops),
            _ => return None,
        };
        let (beats, values) = self.lists[list];
        Some((beats[place].into(), values[place].into()))
    }

    pub fn pass(&mut self, row: i32, rank: usize) {
        let (time, pause) = (self.time_at(row), self.pause(rank));
        let state = &mut self.state;
        (state.row, state.time) = (row, time);
        if let Some((_, lasts)) = pause {
            state.time += lasts;
        }
        match rank {
            WARP_END => state.warping = false,
            TEMPO => state.tempos += 1,
            DELAY => state.delays += 1,
            STOP => state.stops += 1,
            WARP => {
                let (beats, lengths) = self.lists[WARPS];
                let end = f64::from(beats[state.warps]) + f64::from(lengths[state.warps]);
                if end > state.end {
                    state.end = end;
                }
                state.warps += 1;
                state.warping = true;
            }
            _ => unreachable!("the asked beat is not passed"),
        }
    }
}

/// Where a walk to an asked row ends, and how many events it passed.
pub struct Counted {
    pub time: f64,
    pub passed: usize,
    pub state: State,
}

pub fn counted_walk(chart: &Chart, state: State, asked: i32) -> Counted {
    let (mut walker, mut passed) = (Walker::new(chart, state), 0);
    loop {
        let (row, rank) = walker.next(Some(asked)).unwrap();
        if rank == ASKED {
            return Counted { time: walker.time_at(row), passed, state: walker.state };
        }
        walker.pass(row, rank);
        passed += 1;
    }
}

/// What is expected of a question that is taken: time and cursor by the original, the count by the counted walk, which has to agree with it.
fn expected(chart: &Chart, timing: &TimingData, cursor: Cursor, beat: f64) -> Answer {
    let mut original = BeatCursor::new(timing);
    original.hold(cursor.held());
    let time = original.time_for_beat(beat);
    let row = probe::beat_to_note_row(beat);
    let from = if row < cursor.asked { Cursor::fresh(chart.offset, chart.global).state } else { cursor.state };
    let counted = counted_walk(chart, from, row);
    let after = Cursor::of(original.held());
    assert_eq!(
        (counted.time - chart.global).answer(),
        time.answer(),
        "the counted walk: {chart:?}, {cursor:?}, beat {beat:?}"
    );
    assert!(
        after.same(Cursor { state: counted.state, asked: row }),
        "the counted walk: {chart:?}, {cursor:?}, beat {beat:?}"
    );
    Answer { number: 0, time, count: counted.passed + 1, cursor: Cursor { state: counted.state, asked: row } }
}

pub(crate) fn lowest(numbers: impl IntoIterator<Item = u32>) -> u32 {
    numbers.into_iter().filter(|number| *number != 0).min().unwrap_or(0)
}

impl Columns {
    /// Numbers of every kind, with some places past the rooms.
    pub(crate) fn by_chance([numbers, times, counts]: [usize; 3], random: &mut Random) -> Self {
        let mut column = |room: usize| (0..room + PAST).map(|_| random.bits()).collect::<Vec<_>>();
        Self {
            numbers: column(numbers).into_iter().map(|bits| bits as u32).collect(),
            times: column(times).into_iter().map(f64::from_bits).collect(),
            counts: column(counts).into_iter().map(|bits| bits as usize).collect(),
        }
    }

    pub(crate) fn same(&self, other: &Self) -> bool {
        let times = || self.times.iter().zip(&other.times).all(|(one, other)| one.answer() == other.answer());
        self.numbers == other.numbers && self.counts == other.counts && self.times.len() == other.times.len() && times()
    }
}

const PAST: usize = 4;

// ---- the comparison

#[derive(Default)]
pub struct Found {
    pub compared: u64,
    pub different: u64,
    shown: Vec<String>,
}

impl Found {
    pub fn check(&mut self, same: bool, show: impl FnOnce() -> String) {
        self.compared += 1;
        if !same {
            self.different += 1;
            if self.shown.len() < 20 {
                self.shown.push(show());
            }
        }
    }

    pub fn add(self, name: &str, total: &mut Total) {
        total.add(name, self.compared, self.different, self.shown);
    }
}

/// A chart, the number by which it is refused, and the original's timing where it is not.
pub(crate) struct Asked {
    pub(crate) chart: Chart,
    pub(crate) number: u32,
    timing: Option<TimingData>,
}

impl Asked {
    pub(crate) fn new(chart: Chart) -> Self {
        let number = chart.number();
        let timing = (number == 0).then(|| chart.original());
        Self { chart, number, timing }
    }

    pub(crate) fn answer(&self, cursor: Cursor, beat: f64) -> Answer {
        match lowest([self.number, cursor.number(self.chart.lengths())]) {
            number if number == 0 || number > 3 && !beat_allowed(beat) => self.asked(cursor, beat),
            number => Answer::refused(number, cursor),
        }
    }

    /// The beat's own number decides.
    pub(crate) fn asked(&self, cursor: Cursor, beat: f64) -> Answer {
        match &self.timing {
            Some(timing) if beat_allowed(beat) => expected(&self.chart, timing, cursor, beat),
            _ => Answer::refused(3, cursor),
        }
    }

    /// One question, the tested form and the player's, which is asked where the timing is sound, each with the cursor by value and lent; the cursor after it.
    fn question(&self, cursor: Cursor, beat: f64, found: &mut Found) -> Cursor {
        let chart = &self.chart;
        let wanted = self.answer(cursor, beat);
        let mut check = |name: &str, got: Answer| {
            found.check(wanted.same(&got), || {
                format!("{chart:?}, {cursor:?}, beat {beat:?}: {wanted:?}, {name} {got:?}")
            });
        };
        let mut lent = cursor;
        check("port", time_for_beat(cursor, chart, beat));
        check("lent", lent_time_for_beat(&mut lent, chart, beat).with(lent));
        if self.number == 0 {
            let mut lent = cursor;
            check("player's", time_for_beat_checked(cursor, chart, beat));
            check("player's lent", lent_time_for_beat_checked(&mut lent, chart, beat).with(lent));
        }
        wanted.cursor
    }

    /// A run: its number, its cursor, and the three columns to their last place and some places past it.
    fn run(&self, cursor: Cursor, beats: &[f64], rooms: [usize; 3], random: &mut Random, found: &mut Found) {
        let chart = &self.chart;
        let mut wanted = Columns::by_chance(rooms, random);
        let (mut by_value, mut by_lent, mut lent) = (wanted.clone(), wanted.clone(), cursor);
        let ran = self.expected_run(cursor, beats, rooms, &mut wanted);
        let answer = run(cursor, chart, beats, &mut by_value, rooms);
        let number = lent_run(&mut lent, chart, beats, &mut by_lent, rooms);
        for (answer, got) in [(answer, by_value), (Numbered { number, cursor: lent }, by_lent)] {
            found.check(answer.number == ran.number && answer.cursor.same(ran.cursor) && got.same(&wanted), || {
                format!(
                    "{chart:?}, {cursor:?}, beats {beats:?}, rooms {rooms:?}: {ran:?} {wanted:?}, port {answer:?} {got:?}"
                )
            });
        }
    }

    /// What is expected of a run, and what its columns are left as.
    fn expected_run(&self, cursor: Cursor, beats: &[f64], rooms: [usize; 3], wanted: &mut Columns) -> Numbered {
        let room = if rooms.iter().any(|room| *room < beats.len()) { 7 } else { 0 };
        let mut ran = Numbered { number: lowest([self.number, room, cursor.number(self.chart.lengths())]), cursor };
        if ran.number == 0 {
            for (place, beat) in beats.iter().enumerate() {
                let answer = self.asked(ran.cursor, *beat);
                (wanted.numbers[place], wanted.times[place], wanted.counts[place]) =
                    (answer.number, answer.time, answer.count);
                ran.cursor = answer.cursor;
            }
        }
        ran
    }

    /// What is expected of a question to a fresh cursor.
    pub(crate) fn fresh_answer(&self, beat: f64) -> Answer {
        let chart = &self.chart;
        match (lowest([self.number, if beat_allowed(beat) { 0 } else { 3 }]), &self.timing) {
            (0, Some(timing)) => {
                let wanted = expected(chart, timing, Cursor::fresh(chart.offset, chart.global), beat);
                Answer { time: get_time_for_beat(timing, beat), ..wanted }
            }
            (number, _) => Answer::refused(number, Cursor::fresh(chart.offset, chart.global)),
        }
    }

    /// The original's cursor after the walk with no beat asked, which it takes a beat for that is no number of a chart; none of a timing that is refused.
    pub(crate) fn end(&self) -> Option<Cursor> {
        let mut original = BeatCursor::new(self.timing.as_ref()?);
        original.time_for_beat(f64::MAX);
        Some(Cursor::of(original.held()))
    }

    fn fresh(&self, beat: f64, found: &mut Found) {
        let chart = &self.chart;
        let wanted = self.fresh_answer(beat);
        let got = fresh_time_for_beat(chart, beat);
        found.check(wanted.same(&got), || format!("{chart:?}, beat {beat:?}: {wanted:?}, port {got:?}"));
    }
}

impl Cursor {
    fn words(self) -> [u64; 9] {
        let State { tempos, stops, delays, warps, row, warping, time, end } = self.state;
        let places = [tempos, stops, delays, warps].map(|place| place as u64);
        let [tempos, stops, delays, warps] = places;
        [tempos, stops, delays, warps, row.word(), warping.into(), time.word(), end.word(), self.asked.word()]
    }
}

impl Answer {
    fn words(self) -> impl Iterator<Item = u64> {
        [self.number.into(), self.time.word(), self.count as u64].into_iter().chain(self.cursor.words())
    }
}

/// Cases of one question, and of runs.
pub fn stored_cases(cases: &mut Vec<Case>) {
    let begun = |call: u64, chart: &Chart| {
        let mut case = Case::new(call);
        chart.lists.iter().flat_map(|(beats, values)| [beats, values]).for_each(|column| case.column(column));
        case
    };
    let from = |chart: &Chart, random: &mut Random| {
        if random.below(3) == 0 {
            Cursor::fresh(chart.offset, chart.global)
        } else {
            Cursor::made_up(chart.lengths(), random)
        }
    };
    let mut random = Random::new(1, "stored questions");
    let question = |turn: u64| {
        let asked = Asked::new(Chart::by_chance(turn, &mut random));
        let chart = &asked.chart;
        let (cursor, beat) = (from(chart, &mut random), chart.asked(1, &mut random)[0]);
        let mut case = begun(11, chart);
        case.words([chart.offset.word(), chart.global.word(), beat.word()]);
        case.words(cursor.words());
        case.words([asked.number.into()]);
        case.words(asked.answer(cursor, beat).words());
        case.words(asked.fresh_answer(beat).words());
        case.if_short()
    };
    cases.extend((0..).filter_map(question).take(3 * stored::EACH));
    let mut random = Random::new(1, "stored runs");
    let run = |turn: u64| {
        let asked = Asked::new(Chart::by_chance(turn, &mut random));
        let chart = &asked.chart;
        let cursor = from(chart, &mut random);
        let beats = chart.asked(random.below(16) as usize, &mut random);
        let mut columns = Columns {
            numbers: vec![stored::UNTOUCHED_BYTE.into(); stored::ROOM],
            times: vec![stored::UNTOUCHED; stored::ROOM],
            counts: vec![stored::UNTOUCHED_BYTE.into(); stored::ROOM],
        };
        let ran = asked.expected_run(cursor, &beats, [stored::ROOM; 3], &mut columns);
        let written = if ran.number == 0 { beats.len() } else { 0 };
        let mut case = begun(12, chart);
        case.column(&beats);
        case.column(&columns.numbers[..written]);
        case.column(&columns.times[..written]);
        case.column(&columns.counts[..written]);
        case.words([chart.offset.word(), chart.global.word()]);
        case.words(cursor.words());
        case.words([ran.number.into()]);
        case.words(ran.cursor.words());
        case.if_short()
    };
    cases.extend((0..).filter_map(run).take(stored::EACH));
}

/// The rooms of a run over so many beats: long enough, or one of them short.
pub(crate) fn run_rooms(count: usize, random: &mut Random) -> [usize; 3] {
    match random.below(8) {
        0 => [count.saturating_sub(1), count, count + 1],
        1 => [count + 3, count.saturating_sub(1), count],
        2 => [count, count, count.saturating_sub(1)],
        3 => [count, 0, 70],
        _ => [0, 1, 2].map(|_| count + random.below(5) as usize),
    }
}

pub fn compare_all(work: Work, total: &mut Total) {
    let mut random = Random::new(work.seed, "clock");
    let [mut timings, mut questions, mut fresh, mut made_up, mut runs] = [(); 5].map(|()| Found::default());
    for turn in 0..work.lists() / 4 {
        let asked = Asked::new(Chart::by_chance(turn, &mut random));
        let chart = &asked.chart;
        let number = check_timing(chart);
        timings.check(number == asked.number, || format!("{chart:?}: {}, port {number}", asked.number));
        let (new, offsets) = (cursor_new(chart.offset, chart.global), [chart.offset, chart.global]);
        let wanted = if offsets.iter().all(|offset| offset.abs() <= power(20)) { (0, offsets) } else { (4, [0.0; 2]) };
        let right = new.number == wanted.0 && new.cursor.same(Cursor::fresh(wanted.1[0], wanted.1[1]));
        timings.check(right, || format!("offsets {offsets:?}: {wanted:?}, port {new:?}"));

        let mut cursor = Cursor::fresh(wanted.1[0], wanted.1[1]);
        let beats = chart.asked(if asked.number == 0 { 40 } else { 4 }, &mut random);
        for beat in &beats {
            cursor = asked.question(cursor, *beat, &mut questions);
        }
        for beat in chart.asked(4, &mut random) {
            asked.fresh(beat, &mut fresh);
        }
        for beat in chart.asked(12, &mut random) {
            asked.question(Cursor::made_up(chart.lengths(), &mut random), beat, &mut made_up);
        }
        for _ in 0..3 {
            let count = random.below(60) as usize;
            let beats = chart.asked(count, &mut random);
            let from = match random.below(3) {
                0 => cursor,
                1 => Cursor::made_up(chart.lengths(), &mut random),
                _ => Cursor::fresh(wanted.1[0], wanted.1[1]),
            };
            let rooms = run_rooms(count, &mut random);
            asked.run(from, &beats, rooms, &mut random, &mut runs);
        }
    }
    timings.add("check_timing and Cursor::new", total);
    questions.add("time_for_beat, four forms", total);
    fresh.add("get_time_for_beat", total);
    made_up.add("time_for_beat of made-up cursors", total);
    runs.add("runs, by value and lent", total);
}
