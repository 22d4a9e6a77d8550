//! The end mark, which the original has not: made, tested, and asked beside it. A marked question's time is the original's of a fresh cursor.

use crate::cases::{LAST_ROW, Work};
use crate::clock::{self, Answer, Asked, Columns, Cursor, Found, Numbered, Reply, State, Walker, lowest};
use crate::numbers::Number;
use crate::random::Random;
use crate::stored::Word;
use crate::tally::Total;
use crate::timing::probe;
use crate::timings::{Chart, TEMPOS, beat_allowed};

// ---- the port

/// The state of the walk after all events, and the greatest row among them.
#[derive(Clone, Copy, Debug)]
#[repr(C)]
pub struct Mark {
    pub state: State,
    pub row: i32,
}

#[derive(Clone, Copy, Debug)]
#[repr(C)]
pub struct MarkMade {
    pub number: u32,
    pub mark: Mark,
}

clock::port! {
    fn make_mark(;) -> MarkMade = "marrighentu_make_mark";
    fn check_marked_timing(mark: Mark;) -> u32 = "marrighentu_check_marked_timing";
    fn time_for_beat_marked(cursor: Cursor, mark: Mark; beat: f64) -> Answer = "marrighentu_time_for_beat_marked";
    fn time_for_beat_checked_marked(cursor: Cursor, mark: Mark; beat: f64) -> Answer = "marrighentu_time_for_beat_checked_marked";
    fn run_over(cursor: Cursor, mark: Mark; beats: *const f64, beats_len: usize, numbers: *mut u32, numbers_len: usize, times: *mut f64, times_len: usize, counts: *mut usize, counts_len: usize) -> Numbered = "marrighentu_run_marked";
    fn lent_time_for_beat_marked(cursor: &mut Cursor, mark: Mark; beat: f64) -> Reply = "marrighentu_lent_time_for_beat_marked";
    fn lent_time_for_beat_checked_marked(cursor: &mut Cursor, mark: Mark; beat: f64) -> Reply = "marrighentu_lent_time_for_beat_checked_marked";
    fn lent_run_over(cursor: &mut Cursor, mark: Mark; beats: *const f64, beats_len: usize, numbers: *mut u32, numbers_len: usize, times: *mut f64, times_len: usize, counts: *mut usize, counts_len: usize) -> u32 = "marrighentu_lent_run_marked";
}

/// A run over the front of each column, as long as its room.
macro_rules! run_by {
    ($name:ident, $cursor:ty, $over:ident, $answer:ty) => {
        #[inline(always)]
        pub fn $name(
            cursor: $cursor,
            mark: Mark,
            chart: &Chart,
            beats: &[f64],
            columns: &mut Columns,
            [numbers, times, counts]: [usize; 3],
        ) -> $answer {
            let (numbers, times, counts) =
                (&mut columns.numbers[..numbers], &mut columns.times[..times], &mut columns.counts[..counts]);
            $over(
                cursor,
                mark,
                chart,
                beats.as_ptr(),
                beats.len(),
                numbers.as_mut_ptr(),
                numbers.len(),
                times.as_mut_ptr(),
                times.len(),
                counts.as_mut_ptr(),
                counts.len(),
            )
        }
    };
}

run_by!(run_marked, Cursor, run_over, Numbered);
run_by!(lent_run_marked, &mut Cursor, lent_run_over, u32);

/// The marked calls, so that others can be put in their place.
#[derive(Clone, Copy)]
pub struct Calls {
    pub make: fn(&Chart) -> MarkMade,
    pub check: fn(Mark, &Chart) -> u32,
    pub ask: fn(Cursor, Mark, &Chart, f64) -> Answer,
    pub ask_checked: fn(Cursor, Mark, &Chart, f64) -> Answer,
    pub run: fn(Cursor, Mark, &Chart, &[f64], &mut Columns, [usize; 3]) -> Numbered,
}

pub const PORT: Calls = Calls {
    make: make_mark,
    check: check_marked_timing,
    ask: time_for_beat_marked,
    ask_checked: time_for_beat_checked_marked,
    run: run_marked,
};

/// The same with the cursor lent.
pub const LENT: Calls = Calls {
    ask: |mut cursor, mark, chart, beat| lent_time_for_beat_marked(&mut cursor, mark, chart, beat).with(cursor),
    ask_checked: |mut cursor, mark, chart, beat| {
        lent_time_for_beat_checked_marked(&mut cursor, mark, chart, beat).with(cursor)
    },
    run: |mut cursor, mark, chart, beats, columns, rooms| {
        let number = lent_run_marked(&mut cursor, mark, chart, beats, columns, rooms);
        Numbered { number, cursor }
    },
    ..PORT
};

// ---- what is expected

impl Mark {
    /// What a refused timing has for a mark: no question lies beyond it.
    pub fn none() -> Self {
        Self { state: Cursor::fresh(0.0, 0.0).state, row: i32::MAX }
    }

    /// The end mark of a sound timing: the walk with no beat asked, to where nothing comes any more.
    pub fn of(chart: &Chart) -> Self {
        let mut walker = Walker::new(chart, Cursor::fresh(chart.offset, chart.global).state);
        let mut greatest = 0;
        while let Some((row, rank)) = walker.next(None) {
            greatest = greatest.max(row);
            walker.pass(row, rank);
        }
        Self { state: walker.state, row: greatest }
    }

    /// The time of a row beyond it, by the tempo that was passed last; a mark that has passed none, or more than there are, has no such tempo.
    fn time_at(self, chart: &Chart, row: i32) -> f64 {
        let State { tempos, row: last, warping, time, .. } = self.state;
        let own = if chart.lists[TEMPOS].1.is_empty() { &[60.0][..] } else { &chart.lists[TEMPOS].1 };
        let tempo = match tempos {
            0 => 0.0,
            _ => own.get(tempos - 1).copied().map_or(f64::NAN, f64::from),
        };
        let beats = (i64::from(row) - i64::from(last)) as f64 / 48.0;
        time + if warping { 0.0 } else { beats / (tempo / 60.0) }
    }

    fn words(self) -> [u64; 9] {
        let State { tempos, stops, delays, warps, row, warping, time, end } = self.state;
        let [tempos, stops, delays, warps] = [tempos, stops, delays, warps].map(|place| place as u64);
        let bits = [time.to_bits(), end.to_bits()];
        [tempos, stops, delays, warps, row.word(), warping.into(), bits[0], bits[1], self.row.word()]
    }

    /// By the bits of every field, so that -0 is not +0.
    pub fn same(self, other: Self) -> bool {
        self.words() == other.words()
    }

    /// Another in one field, or in none.
    fn damaged(mut self, random: &mut Random) -> Self {
        let state = &mut self.state;
        let place = |place: &mut usize, random: &mut Random| {
            *place = [place.wrapping_add(1), place.wrapping_sub(1), 0, usize::MAX][random.below(4) as usize];
        };
        let float = |float: &mut f64, random: &mut Random| {
            *float = [-*float, float.moved(1), float.moved(-1), 0.0, -0.0, f64::NAN][random.below(6) as usize];
        };
        match random.below(9) {
            0 => place(&mut state.tempos, random),
            1 => place(&mut state.stops, random),
            2 => place(&mut state.delays, random),
            3 => place(&mut state.warps, random),
            4 => state.row = [state.row.wrapping_add(1), 0, i32::MIN][random.below(3) as usize],
            5 => state.warping = !state.warping,
            6 => float(&mut state.time, random),
            7 => float(&mut state.end, random),
            _ => self.row = [self.row - 1, self.row.wrapping_add(1), 0, -1, LAST_ROW][random.below(5) as usize],
        }
        self
    }
}

/// A chart, its mark where it is not refused, and what is expected of questions with it.
struct Marked {
    asked: Asked,
    own: Option<Mark>,
}

impl Marked {
    fn new(chart: Chart) -> Self {
        let asked = Asked::new(chart);
        let own = (asked.number == 0).then(|| Mark::of(&asked.chart));
        Self { asked, own }
    }

    /// The timing's number, and then 5 for a mark that is not its own.
    fn number(&self, mark: Mark) -> u32 {
        match self.own {
            Some(own) if own.same(mark) => 0,
            Some(_) => 5,
            None => self.asked.number,
        }
    }

    /// Beyond a mark by the mark; else as the question without one. A mark of another timing is trusted, as the lists are.
    fn taken(&self, cursor: Cursor, mark: Mark, beat: f64) -> Answer {
        let (chart, row) = (&self.asked.chart, probe::beat_to_note_row(beat));
        if row <= mark.row {
            return self.asked.asked(cursor, beat);
        }
        let time = mark.time_at(chart, row) - chart.global;
        Answer { number: 0, time, count: 1, cursor: Cursor { state: mark.state, asked: row } }
    }

    fn answer(&self, cursor: Cursor, mark: Mark, beat: f64, timing_number: u32) -> Answer {
        let beat_number = if beat_allowed(beat) { 0 } else { 3 };
        match lowest([timing_number, beat_number, cursor.number(self.asked.chart.lengths())]) {
            0 => self.taken(cursor, mark, beat),
            number => Answer::refused(number, cursor),
        }
    }

    /// The mark as it is made, beside the walk written here and the original's, which it walks to the end where no beat is asked; and as it is tested.
    fn make(&self, calls: Calls, random: &mut Random, found: &mut Found) {
        let chart = &self.asked.chart;
        let wanted = self.own.unwrap_or_else(Mark::none);
        if let Some(own) = self.own {
            let end = self.asked.end().unwrap();
            assert!(end.same(Cursor { state: own.state, asked: end.asked }), "the mark of {chart:?}: {own:?}, {end:?}");
        }
        let made = (calls.make)(chart);
        found.check(made.number == self.asked.number && made.mark.same(wanted), || {
            format!("{chart:?}: {} {wanted:?}, port {made:?}", self.asked.number)
        });
        for mark in [wanted, wanted.damaged(random), wanted.damaged(random), Mark::none()] {
            let (number, got) = (self.number(mark), (calls.check)(mark, chart));
            found.check(number == got, || format!("{chart:?}, {mark:?}: {number}, port {got}"));
        }
    }

    /// One question, tested and the player's; the cursor after it. The player's is asked where the timing is sound.
    fn question(&self, calls: Calls, cursor: Cursor, mark: Mark, beat: f64, found: &mut Found) -> Cursor {
        let chart = &self.asked.chart;
        let mut check = |name: &str, wanted: Answer, got: Answer| {
            found.check(wanted.same(&got), || {
                format!("{chart:?}, {cursor:?}, {mark:?}, beat {beat:?}: {wanted:?}, {name} {got:?}")
            });
        };
        let tested = self.answer(cursor, mark, beat, self.number(mark));
        check("port", tested, (calls.ask)(cursor, mark, chart, beat));
        if self.own.is_none() {
            return tested.cursor;
        }
        let players = self.answer(cursor, mark, beat, 0);
        check("player's", players, (calls.ask_checked)(cursor, mark, chart, beat));
        players.cursor
    }

    /// Questions one after the other, marked and not, in any order: each time is the original's of a fresh cursor.
    fn history(&self, calls: Calls, random: &mut Random, found: &mut Found) -> Cursor {
        let chart = &self.asked.chart;
        let mut cursor = Cursor::fresh(chart.offset, chart.global);
        let Some(own) = self.own else { return cursor };
        for beat in chart.asked(40, random).into_iter().chain(beyond(own, 4, random)) {
            let fresh = self.asked.fresh_answer(beat);
            let marked = random.below(3) > 0;
            let wanted = if marked { self.answer(cursor, own, beat, 0) } else { self.asked.answer(cursor, beat) };
            let got = match (marked, random.below(2)) {
                (true, 0) => (calls.ask)(cursor, own, chart, beat),
                (true, _) => (calls.ask_checked)(cursor, own, chart, beat),
                (false, 0) => clock::time_for_beat(cursor, chart, beat),
                (false, _) => clock::time_for_beat_checked(cursor, chart, beat),
            };
            let right = wanted.same(&got) && got.time.answer() == fresh.time.answer() && got.number == fresh.number;
            found.check(right, || {
                format!(
                    "{chart:?}, {cursor:?}, beat {beat:?}, marked {marked}: {wanted:?}, fresh {fresh:?}, port {got:?}"
                )
            });
            cursor = wanted.cursor;
        }
        cursor
    }

    fn run(&self, calls: Calls, from: (Cursor, Mark), random: &mut Random, found: &mut Found) {
        let (chart, (cursor, mark)) = (&self.asked.chart, from);
        let mut beats = chart.asked(random.below(40) as usize, random);
        beats.extend(beyond(mark, random.below(8) as usize, random));
        let rooms = clock::run_rooms(beats.len(), random);
        let mut wanted = Columns::by_chance(rooms, random);
        let mut got = wanted.clone();
        let ran = self.expected_run(cursor, mark, &beats, rooms, &mut wanted);
        let answer = (calls.run)(cursor, mark, chart, &beats, &mut got, rooms);
        found.check(answer.number == ran.number && answer.cursor.same(ran.cursor) && got.same(&wanted), || {
            format!("{chart:?}, {cursor:?}, {mark:?}, beats {beats:?}, rooms {rooms:?}: {ran:?} {wanted:?}, port {answer:?} {got:?}")
        });
    }

    /// What is expected of a run, and what its columns are left as: the timing's number, the mark's, the room's, the cursor's.
    fn expected_run(
        &self,
        cursor: Cursor,
        mark: Mark,
        beats: &[f64],
        rooms: [usize; 3],
        wanted: &mut Columns,
    ) -> Numbered {
        let room = if rooms.iter().any(|room| *room < beats.len()) { 7 } else { 0 };
        let number = lowest([self.number(mark), room, cursor.number(self.asked.chart.lengths())]);
        let mut ran = Numbered { number, cursor };
        if number == 0 {
            for (place, beat) in beats.iter().enumerate() {
                let answer = if beat_allowed(*beat) {
                    self.taken(ran.cursor, mark, *beat)
                } else {
                    Answer::refused(3, ran.cursor)
                };
                (wanted.numbers[place], wanted.times[place], wanted.counts[place]) =
                    (answer.number, answer.time, answer.count);
                ran.cursor = answer.cursor;
            }
        }
        ran
    }
}

/// Beats on a mark's own row and behind it.
fn beyond(mark: Mark, count: usize, random: &mut Random) -> Vec<f64> {
    let row = i64::from(mark.row).clamp(0, i64::from(LAST_ROW));
    let rows = (0..count).map(|_| (row + random.below(4) as i64 * (1 + random.below(100) as i64)).min(LAST_ROW.into()));
    rows.map(|row| row as f64 / 48.0).collect()
}

/// Marks made and tested, questions, questions in histories, and runs.
pub fn compare(work: Work, calls: Calls) -> [Found; 4] {
    let mut random = Random::new(work.seed, "marked");
    let [mut marks, mut questions, mut histories, mut runs] = [(); 4].map(|()| Found::default());
    for turn in 0..work.lists() / 4 {
        let marked = Marked::new(Chart::by_chance(turn, &mut random));
        let chart = &marked.asked.chart;
        marked.make(calls, &mut random, &mut marks);
        let used = marked.history(calls, &mut random, &mut histories);
        let own = marked.own.unwrap_or_else(Mark::none);
        let any_mark = |random: &mut Random| match random.below(4) {
            0 => own.damaged(random),
            1 => Mark::none(),
            _ => own,
        };
        let any_cursor = |random: &mut Random| match random.below(3) {
            0 => used,
            1 => Cursor::made_up(chart.lengths(), random),
            _ => Cursor::fresh(chart.offset, chart.global),
        };
        let beats = chart.asked(8, &mut random).into_iter().chain(beyond(own, 8, &mut random));
        for beat in beats.collect::<Vec<_>>() {
            let (cursor, mark) = (any_cursor(&mut random), any_mark(&mut random));
            marked.question(calls, cursor, mark, beat, &mut questions);
        }
        for _ in 0..3 {
            let from = (any_cursor(&mut random), any_mark(&mut random));
            marked.run(calls, from, &mut random, &mut runs);
        }
    }
    [marks, questions, histories, runs]
}

pub fn compare_all(work: Work, total: &mut Total) {
    for (form, calls) in [("by value", PORT), ("lent", LENT)] {
        let [marks, questions, histories, runs] = compare(work, calls);
        marks.add(&format!("make_mark and check_marked_timing, asked with questions {form}"), total);
        questions.add(&format!("time_for_beat_marked {form}, tested and the player's, marks damaged"), total);
        histories.add(&format!("marked questions {form} mixed with others, beside a fresh cursor"), total);
        runs.add(&format!("run_marked {form}"), total);
    }
}
