//! The row store and the lookups: the original and the port, and their comparison.

use crate::cases::{LAST_ROW, Work, power};
use crate::lists;
use crate::random::Random;
use crate::stored::{self, Case, Word};
use crate::tally::Total;
use crate::tidying::Outcome;
use crate::timing::{Segment, TimingData, probe};

#[derive(Clone, Copy, Debug, Default, PartialEq)]
#[repr(C)]
pub struct Stored {
    pub number: u32,
    pub parts: [usize; 4],
}

#[derive(Clone, Copy, Debug, PartialEq)]
#[repr(C)]
pub struct Looked {
    pub number: u32,
    pub yes: bool,
}

impl Looked {
    fn refused(number: u32) -> Self {
        Self { number, yes: false }
    }
}

/// Beats and values of stops, delays, warps and fakes.
#[derive(Clone, Debug, Default)]
pub struct Lists {
    pub columns: [(Vec<f32>, Vec<f32>); 4],
}

/// A slice crosses as its pointer and its length.
macro_rules! port {
    ($(fn $name:ident($lists:ident: $which:tt; $($arg:ident: $type:ty),*) -> $answer:ty = $symbol:literal;)*) => {
        $(pub fn $name($lists: &Lists, $($arg: $type),*) -> $answer {
            port!(@call $symbol, $answer, $lists, $which, ($($arg: $type),*))
        })*
    };
    (@call $symbol:literal, $answer:ty, $lists:ident, (0 1 2 3), ($($arg:ident: $type:ty),*)) => {{
        unsafe extern "C" {
            #[link_name = $symbol]
            fn call(a: *const f32, al: usize, b: *const f32, bl: usize, c: *const f32, cl: usize, d: *const f32, dl: usize,
                e: *const f32, el: usize, f: *const f32, fl: usize, g: *const f32, gl: usize, h: *const f32, hl: usize, $($arg: $type),*) -> $answer;
        }
        let [(a, b), (c, d), (e, f), (g, h)] = &$lists.columns;
        // SAFETY: the columns are lent whole, and the other arguments are plain numbers.
        unsafe { call(a.as_ptr(), a.len(), b.as_ptr(), b.len(), c.as_ptr(), c.len(), d.as_ptr(), d.len(),
            e.as_ptr(), e.len(), f.as_ptr(), f.len(), g.as_ptr(), g.len(), h.as_ptr(), h.len(), $($arg),*) }
    }};
    (@call $symbol:literal, $answer:ty, $lists:ident, (0 1 2), ($($arg:ident: $type:ty),*)) => {{
        unsafe extern "C" {
            #[link_name = $symbol]
            fn call(a: *const f32, al: usize, b: *const f32, bl: usize, c: *const f32, cl: usize, d: *const f32, dl: usize,
                e: *const f32, el: usize, f: *const f32, fl: usize, $($arg: $type),*) -> $answer;
        }
        let [(a, b), (c, d), (e, f), _] = &$lists.columns;
        // SAFETY: the columns are lent whole, and the other arguments are plain numbers.
        unsafe { call(a.as_ptr(), a.len(), b.as_ptr(), b.len(), c.as_ptr(), c.len(), d.as_ptr(), d.len(),
            e.as_ptr(), e.len(), f.as_ptr(), f.len(), $($arg),*) }
    }};
    (@call $symbol:literal, $answer:ty, $lists:ident, (3), ($($arg:ident: $type:ty),*)) => {{
        unsafe extern "C" {
            #[link_name = $symbol]
            fn call(a: *const f32, al: usize, b: *const f32, bl: usize, $($arg: $type),*) -> $answer;
        }
        let (a, b) = &$lists.columns[3];
        // SAFETY: the columns are lent whole, and the other arguments are plain numbers.
        unsafe { call(a.as_ptr(), a.len(), b.as_ptr(), b.len(), $($arg),*) }
    }};
}

port! {
    fn warp_at_row(lists: (0 1 2); row: i32) -> Looked = "marrighentu_is_warp_at_row";
    fn warp_at_beat(lists: (0 1 2); beat: f64) -> Looked = "marrighentu_is_warp_at_beat";
    fn fake_at_row(lists: (3); row: i32) -> Looked = "marrighentu_is_fake_at_row";
    fn fake_at_beat(lists: (3); beat: f64) -> Looked = "marrighentu_is_fake_at_beat";
    fn judgable_at_row(lists: (0 1 2 3); row: i32) -> Looked = "marrighentu_is_judgable_at_row";
    fn judgable_at_beat(lists: (0 1 2 3); beat: f64) -> Looked = "marrighentu_is_judgable_at_beat";
    fn check(lists: (0 1 2 3);) -> u32 = "marrighentu_check_lookups";
    fn warp_at_row_checked(lists: (0 1 2); row: i32) -> Looked = "marrighentu_is_warp_at_row_checked";
    fn warp_at_beat_checked(lists: (0 1 2); beat: f64) -> Looked = "marrighentu_is_warp_at_beat_checked";
    fn fake_at_row_checked(lists: (3); row: i32) -> Looked = "marrighentu_is_fake_at_row_checked";
    fn fake_at_beat_checked(lists: (3); beat: f64) -> Looked = "marrighentu_is_fake_at_beat_checked";
    fn judgable_at_row_checked(lists: (0 1 2 3); row: i32) -> Looked = "marrighentu_is_judgable_at_row_checked";
    fn judgable_at_beat_checked(lists: (0 1 2 3); beat: f64) -> Looked = "marrighentu_is_judgable_at_beat_checked";
    fn store_raw(lists: (0 1 2 3); marks: *const u8, marks_len: usize, rows: *mut i32, rows_len: usize, row_marks: *mut u8, row_marks_len: usize) -> Stored = "marrighentu_build_segment_row_storage";
    fn judge_raw(lists: (0 1 2 3); rows: *const i32, rows_len: usize, out: *mut u8, out_len: usize) -> Outcome = "marrighentu_judgable_rows";
}

/// All warps written, and room for their marks.
pub fn store(lists: &Lists, rows: &mut [i32]) -> Stored {
    let warps = lists.columns[2].0.len();
    store_marked(lists, &WRITTEN[..warps.min(WRITTEN.len())], rows, &mut [0; 1_024])
}

/// Longer than a list may be.
const WRITTEN: [u8; 1_100] = [0; 1_100];

pub fn store_marked(lists: &Lists, marks: &[u8], rows: &mut [i32], row_marks: &mut [u8]) -> Stored {
    store_raw(
        lists,
        marks.as_ptr(),
        marks.len(),
        rows.as_mut_ptr(),
        rows.len(),
        row_marks.as_mut_ptr(),
        row_marks.len(),
    )
}

pub fn judge(lists: &Lists, rows: &[i32], out: &mut [u8]) -> Outcome {
    judge_raw(lists, rows.as_ptr(), rows.len(), out.as_mut_ptr(), out.len())
}

/// The number of one list by itself; with 5 where its rows must rise.
fn list_number(list: usize, (beats, values): &(Vec<f32>, Vec<f32>), rising: bool) -> u32 {
    let most = if list < 2 { power(50) } else { power(30) };
    let rises =
        || beats.windows(2).all(|two| probe::beat_to_note_row_f32(two[0]) < probe::beat_to_note_row_f32(two[1]));
    if beats.len() > 1_024 || values.len() > 1_024 {
        1
    } else if beats.len() != values.len() {
        2
    } else if beats.iter().any(|beat| !beat.is_finite() || f64::from(beat.abs()) > 65_536.0) {
        3
    } else if values.iter().any(|value| !value.is_finite() || f64::from(value.abs()) > most) {
        4
    } else if rising && !rises() {
        5
    } else {
        0
    }
}

impl Lists {
    /// The lowest number of some of the lists and of what is asked; else 0.
    pub fn number(&self, which: &[usize], rising: bool, asked: bool) -> u32 {
        let lists = which.iter().map(|list| list_number(*list, &self.columns[*list], rising));
        lists.chain([if asked { 0 } else { 3 }]).filter(|number| *number != 0).min().unwrap_or(0)
    }

    pub fn segments(&self) -> [Vec<Segment>; 4] {
        self.columns.each_ref().map(|(beats, values)| {
            beats
                .iter()
                .zip(values)
                .map(|(beat, value)| Segment { beat: f64::from(*beat), value: f64::from(*value) })
                .collect()
        })
    }

    pub fn timing(&self) -> TimingData {
        let [stops, delays, warps, fakes] = self.segments();
        probe::timing_of(&stops, &delays, &warps, &fakes)
    }

    /// Lists in any order, one in five of them spoiled.
    pub fn any(turn: u64, random: &mut Random) -> Self {
        let mut lists = Self::default();
        for column in &mut lists.columns {
            let length = if random.below(3) == 0 { lists::length(turn, random) } else { random.below(12) as usize };
            let (mut beats, mut values) = (lists::beats(length, random), lists::values(length, random));
            if random.below(12) == 0 {
                lists::spoil(&mut beats, &mut values, random);
            }
            let narrow = |column: Vec<f64>| column.into_iter().map(|number| number as f32).collect();
            *column = (narrow(beats), narrow(values));
        }
        lists
    }

    /// Lists whose rows rise, near each other: pauses on the rows of warps, lengths of every sign; a few with a beat that repeats.
    pub fn near(random: &mut Random) -> Self {
        let mut lists = Self::default();
        let start = match random.below(4) {
            0 => -LAST_ROW,
            1 => LAST_ROW - 40,
            _ => random.below(2 * LAST_ROW as u64 - 200) as i32 - LAST_ROW,
        };
        for (list, column) in lists.columns.iter_mut().enumerate() {
            let mut row = start + random.below(6) as i32;
            for _ in 0..random.below(9) {
                let off = if random.below(3) == 0 { (random.part() - 0.5) * 0.9 } else { 0.0 };
                let beat = ((f64::from(row) + off) / 48.0).clamp(-65_536.0, 65_536.0) as f32;
                let length = match random.below(6) {
                    0 => 0.0,
                    1 => -random.part() * 2.0,
                    2 => power(if list < 2 { 50 } else { 30 }) * random.sign(),
                    3 => random.below(40) as f64 / 48.0,
                    _ => random.part(),
                };
                column.0.push(beat);
                column.1.push(length as f32);
                row += random.below(7) as i32 + i32::from(random.below(200) != 0);
            }
        }
        lists
    }

    fn asked_row(&self, random: &mut Random) -> i32 {
        let list = &self.columns[random.below(4) as usize].0;
        match random.below(12) {
            0 => LAST_ROW + random.below(3) as i32 - 1,
            1 => -LAST_ROW - random.below(3) as i32 + 1,
            2 => random.bits() as i32,
            _ if list.is_empty() => random.below(100) as i32,
            _ => probe::beat_to_note_row_f32(list[random.below(list.len() as u64) as usize])
                .saturating_add(random.below(30) as i32 - 3),
        }
    }
}

fn row_allowed(row: i32) -> bool {
    row.unsigned_abs() <= LAST_ROW as u32
}

fn beat_allowed(beat: f64) -> bool {
    beat.is_finite() && beat.abs() <= 65_536.0
}

/// How many places past a room are looked at too.
const PAST: usize = 4;

/// What is expected of a room, and what it is left as.
fn expected_store(lists: &Lists, room: usize, wanted: &mut [i32]) -> Stored {
    let mut outcome = Stored { number: lists.number(&[0, 1, 2, 3], false, true), parts: [0; 4] };
    if outcome.number == 0 {
        let [stops, delays, warps, fakes] = lists.segments();
        let (rows, ends) = probe::build_segment_row_storage(&stops, &delays, &warps, &fakes);
        if rows.len() > room {
            outcome.number = 7;
        } else {
            outcome.parts = std::array::from_fn(|part| ends[part + 1] - ends[part]);
            wanted[..rows.len()].copy_from_slice(&rows);
        }
    }
    outcome
}

fn store_differs(lists: &Lists, room: usize, random: &mut Random) -> Option<String> {
    let before: Vec<i32> = (0..room + PAST).map(|_| random.bits() as i32).collect();
    let (mut wanted, mut got) = (before.clone(), before);
    let outcome = expected_store(lists, room, &mut wanted);
    let answer = store(lists, &mut got[..room]);
    (answer != outcome || wanted != got).then(|| format!("{lists:?}, room {room}: {outcome:?}, port {answer:?}"))
}

/// What the six lookups are expected to answer.
fn expected_lookups(lists: &Lists, timing: Option<&TimingData>, row: i32, beat: f64) -> [Looked; 6] {
    let beat_allowed = beat_allowed(beat);
    let ask = |which: &[usize], allowed: bool, original: &dyn Fn(&TimingData) -> bool| match lists
        .number(which, true, allowed)
    {
        // the lists that a call does not take may be refused: then its own make the timing
        0 => Looked { number: 0, yes: timing.map_or_else(|| original(&lists.only(which).timing()), original) },
        number => Looked::refused(number),
    };
    [
        ask(&[0, 1, 2], row_allowed(row), &|timing| probe::is_warp_at_row(timing, row)),
        ask(&[0, 1, 2], beat_allowed, &|timing| probe::is_warp_at_beat(timing, beat)),
        ask(&[3], row_allowed(row), &|timing| probe::is_fake_at_row(timing, row)),
        ask(&[3], beat_allowed, &|timing| probe::is_fake_at_beat(timing, beat)),
        ask(&[0, 1, 2, 3], row_allowed(row), &|timing| probe::is_judgable_at_row(timing, row)),
        ask(&[0, 1, 2, 3], beat_allowed, &|timing| probe::is_judgable_at_beat(timing, beat)),
    ]
}

fn lookups_differ(lists: &Lists, timing: Option<&TimingData>, row: i32, beat: f64) -> Option<String> {
    let wanted = expected_lookups(lists, timing, row, beat);
    let got = [
        warp_at_row(lists, row),
        warp_at_beat(lists, beat),
        fake_at_row(lists, row),
        fake_at_beat(lists, beat),
        judgable_at_row(lists, row),
        judgable_at_beat(lists, beat),
    ];
    let place = wanted.iter().zip(&got).position(|(wanted, got)| wanted != got)?;
    Some(format!("{lists:?}, row {row}, beat {beat:?}, call {place}: {:?}, port {:?}", wanted[place], got[place]))
}

/// The test of the lists, and the six lookups after it: over lists that a call's test takes what the tested one answers, over any other the number for what is asked.
fn checked_differ(lists: &Lists, timing: Option<&TimingData>, row: i32, beat: f64) -> Option<String> {
    let wanted = expected_lookups(lists, timing, row, beat);
    let got = [
        warp_at_row_checked(lists, row),
        warp_at_beat_checked(lists, beat),
        fake_at_row_checked(lists, row),
        fake_at_beat_checked(lists, beat),
        judgable_at_row_checked(lists, row),
        judgable_at_beat_checked(lists, beat),
    ];
    let taken = |which: &[usize]| lists.number(which, true, true) == 0;
    let tested = [taken(&[0, 1, 2]), taken(&[3]), taken(&[0, 1, 2, 3])];
    let asked = |place: usize| if place % 2 == 0 { row_allowed(row) } else { beat_allowed(beat) };
    let agrees = |place: usize| match (tested[place / 2], asked(place)) {
        (true, _) => got[place] == wanted[place],
        (false, true) => got[place].number == 0,
        (false, false) => got[place] == Looked::refused(3),
    };
    if check(lists) != lists.number(&[0, 1, 2, 3], true, true) {
        return Some(format!("{lists:?}: the test of the lists answers {}", check(lists)));
    }
    let place = (0..got.len()).find(|place| !agrees(*place))?;
    Some(format!(
        "{lists:?}, row {row}, beat {beat:?}, checked call {place}: {:?}, port {:?}",
        wanted[place], got[place]
    ))
}

fn batch_differs(
    lists: &Lists,
    timing: Option<&TimingData>,
    rows: &[i32],
    room: usize,
    random: &mut Random,
) -> Option<String> {
    let before: Vec<u8> = (0..room + PAST).map(|_| random.bits() as u8).collect();
    let (mut wanted, mut got) = (before.clone(), before);
    let outcome = expected_batch(lists, timing, rows, room, &mut wanted);
    let answer = judge(lists, rows, &mut got[..room]);
    (answer != outcome || wanted != got)
        .then(|| format!("{lists:?}, rows {rows:?}, room {room}: {outcome:?}, port {answer:?}"))
}

/// What is expected of many rows, and what their room is left as.
fn expected_batch(lists: &Lists, timing: Option<&TimingData>, rows: &[i32], room: usize, wanted: &mut [u8]) -> Outcome {
    match lists.number(&[0, 1, 2, 3], true, rows.iter().all(|row| row_allowed(*row))) {
        0 if rows.len() > room => Outcome::refused(7),
        0 => {
            probe::judgable_rows(timing.expect("lists that are taken"), rows, wanted);
            Outcome { number: 0, count: rows.len() }
        }
        number => Outcome::refused(number),
    }
}

/// The original's timing, where the lists' numbers are taken.
fn timing_if_sound(lists: &Lists) -> Option<TimingData> {
    let sound = (0..4).all(|list| matches!(list_number(list, &lists.columns[list], true), 0 | 5));
    sound.then(|| lists.timing())
}

fn asked_beat(lists: &Lists, random: &mut Random) -> f64 {
    match random.below(10) {
        0 => f64::from_bits(random.bits()),
        1 => 65_536.0 * random.sign(),
        _ => (f64::from(lists.asked_row(random)) + random.part() - 0.5) / 48.0,
    }
}

fn asked_rows(lists: &Lists, random: &mut Random) -> Vec<i32> {
    let mut rows: Vec<i32> = (0..random.below(60)).map(|_| lists.asked_row(random)).collect();
    if random.below(10) != 0 {
        rows.retain(|row| row_allowed(*row));
    }
    if random.below(2) == 0 {
        rows.sort_unstable();
    }
    rows
}

/// The longest part of the lists' rows, or some where they are refused; then a room about as long.
fn store_room(lists: &Lists, random: &mut Random) -> usize {
    let most = match lists.number(&[0, 1, 2, 3], false, true) {
        0 => {
            let [stops, delays, warps, fakes] = lists.segments();
            probe::build_segment_row_storage(&stops, &delays, &warps, &fakes).0.len()
        }
        _ => 20,
    };
    match random.below(5) {
        0 => most.saturating_sub(1),
        1 => random.below(most as u64 + 1) as usize,
        2 => most + random.below(9) as usize,
        3 => 4_096,
        _ => most,
    }
}

/// Cases for the row store, the lookups and many rows.
pub fn stored_cases(cases: &mut Vec<Case>) {
    let begun = |call: u64, lists: &Lists| {
        let mut case = Case::new(call);
        lists.columns.iter().flat_map(|(beats, values)| [beats, values]).for_each(|column| case.column(column));
        case
    };
    let mut random = Random::new(1, "stored row store");
    let store = |turn: u64| {
        let lists = if turn % 3 == 0 { Lists::near(&mut random) } else { Lists::any(turn, &mut random) };
        let mut rows = vec![i32::from(stored::UNTOUCHED_BYTE); stored::ROOM];
        let outcome = expected_store(&lists, stored::ROOM, &mut rows);
        let mut case = begun(8, &lists);
        case.column(&rows[..outcome.parts.iter().sum()]);
        case.words([u64::from(outcome.number)].into_iter().chain(outcome.parts.map(|part| part as u64)));
        case.if_short()
    };
    cases.extend((0..).filter_map(store).take(stored::EACH));
    let mut random = Random::new(1, "stored lookups");
    let lookups = |turn: u64| {
        let lists = if turn % 8 == 0 { Lists::any(turn, &mut random) } else { Lists::near(&mut random) };
        let (row, beat) = (lists.asked_row(&mut random), asked_beat(&lists, &mut random));
        let mut case = begun(9, &lists);
        case.words([row.word(), beat.word()]);
        let looked = expected_lookups(&lists, timing_if_sound(&lists).as_ref(), row, beat);
        case.words(looked.into_iter().flat_map(|looked| [looked.number.into(), looked.yes.into()]));
        case.if_short()
    };
    cases.extend((0..).filter_map(lookups).take(2 * stored::EACH));
    let mut random = Random::new(1, "stored judgable rows");
    let judged = |turn: u64| {
        let lists = if turn % 8 == 0 { Lists::any(turn, &mut random) } else { Lists::near(&mut random) };
        let rows = asked_rows(&lists, &mut random);
        let mut out = vec![stored::UNTOUCHED_BYTE; stored::ROOM];
        let outcome = expected_batch(&lists, timing_if_sound(&lists).as_ref(), &rows, stored::ROOM, &mut out);
        let mut case = begun(10, &lists);
        case.column(&rows);
        case.column(&out[..outcome.count]);
        case.words([outcome.number.into(), outcome.count as u64]);
        case.if_short()
    };
    cases.extend((0..).filter_map(judged).take(stored::EACH));
}

pub fn compare_all(work: Work, total: &mut Total) {
    let mut random = Random::new(work.seed, "row store");
    let (mut compared, mut shown) = (0, Vec::new());
    for turn in 0..work.lists() {
        let lists = if turn % 3 == 0 { Lists::near(&mut random) } else { Lists::any(turn, &mut random) };
        let room = store_room(&lists, &mut random);
        compared += 1;
        shown.extend(store_differs(&lists, room, &mut random));
    }
    total.add("build_segment_row_storage", compared, shown.len() as u64, shown);

    let mut random = Random::new(work.seed, "lookups");
    let (mut compared, mut shown, mut many, mut many_shown) = (0, Vec::new(), 0, Vec::new());
    let (mut checked, mut checked_shown) = (0, Vec::new());
    for turn in 0..work.lists() {
        let lists = if turn % 8 == 0 { Lists::any(turn, &mut random) } else { Lists::near(&mut random) };
        let timing = timing_if_sound(&lists);
        for _ in 0..20 {
            let row = lists.asked_row(&mut random);
            let beat = asked_beat(&lists, &mut random);
            compared += 6;
            shown.extend(lookups_differ(&lists, timing.as_ref(), row, beat));
            checked += 7;
            checked_shown.extend(checked_differ(&lists, timing.as_ref(), row, beat));
        }
        let rows = asked_rows(&lists, &mut random);
        let room = (rows.len() + random.below(4) as usize).saturating_sub(1);
        many += 1;
        many_shown.extend(batch_differs(&lists, timing.as_ref(), &rows, room, &mut random));
    }
    total.add("lookups", compared, shown.len() as u64, shown);
    total.add("checked lookups", checked, checked_shown.len() as u64, checked_shown);
    total.add("judgable_rows", many, many_shown.len() as u64, many_shown);
}

impl Lists {
    /// The named lists, and the others empty.
    fn only(&self, which: &[usize]) -> Self {
        let mut lists = Self::default();
        which.iter().for_each(|list| lists.columns[*list] = self.columns[*list].clone());
        lists
    }
}
