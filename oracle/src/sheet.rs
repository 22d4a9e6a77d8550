//! The note sheet: the port's call, and the original's cursor, its judgable rows and a remainder, which do the same.

use crate::cases::{LAST_ROW, Work};
use crate::clock::{self, ASKED, Cursor, Found, Walker, lowest};
use crate::lookups::Lists;
use crate::numbers::Number;
use crate::random::Random;
use crate::stored::{self, Case, Word};
use crate::tally::Total;
use crate::timing::{TimingData, probe};
use crate::timings::{Chart, DELAYS, STOPS, WARPS};

// ---- the port

#[derive(Clone, Copy, Debug, PartialEq)]
#[repr(C)]
pub struct Sheet {
    pub number: u32,
    pub count: usize,
    pub steps: usize,
}

clock::port! {
    fn sheet_over(; fake_beats: *const f32, fake_beats_len: usize, fake_lengths: *const f32, fake_lengths_len: usize, rows: *const i32, rows_len: usize, times: *mut f64, times_len: usize, judged: *mut u8, judged_len: usize, snaps: *mut u8, snaps_len: usize) -> Sheet = "marrighentu_note_sheet";
}

/// A timing with its fakes.
#[derive(Clone, Debug, Default)]
pub struct Song {
    pub chart: Chart,
    pub fakes: (Vec<f32>, Vec<f32>),
}

/// The three columns of a sheet.
#[derive(Clone, Debug)]
pub struct Columns {
    pub times: Vec<f64>,
    pub judged: Vec<u8>,
    pub snaps: Vec<u8>,
}

/// How much of each column is lent.
pub type Rooms = [usize; 3];

/// A sheet over the front of each column, as long as its room.
#[inline(always)]
pub fn note_sheet(song: &Song, rows: &[i32], columns: &mut Columns, rooms: Rooms) -> Sheet {
    let (fake_beats, fake_lengths) = &song.fakes;
    let times = &mut columns.times[..rooms[0]];
    let judged = &mut columns.judged[..rooms[1]];
    let snaps = &mut columns.snaps[..rooms[2]];
    sheet_over(
        &song.chart,
        fake_beats.as_ptr(),
        fake_beats.len(),
        fake_lengths.as_ptr(),
        fake_lengths.len(),
        rows.as_ptr(),
        rows.len(),
        times.as_mut_ptr(),
        times.len(),
        judged.as_mut_ptr(),
        judged.len(),
        snaps.as_mut_ptr(),
        snaps.len(),
    )
}

/// The call, so that others can be put in its place.
pub type Call = fn(&Song, &[i32], &mut Columns, Rooms) -> Sheet;

// ---- what is expected

/// The first of nine parts of a beat that a row falls on.
pub fn snap(row: i32) -> u8 {
    [48, 24, 16, 12, 8, 6, 4, 3, 1]
        .iter()
        .position(|many| row.rem_euclid(*many) == 0)
        .expect("every row is a whole one") as u8
}

/// The same by a table of the remainders, as a player would write it for speed.
#[inline(always)]
pub fn snap_by_remainder(row: i32) -> u8 {
    match row.rem_euclid(48) {
        0 => 0,
        24 => 1,
        16 | 32 => 2,
        12 | 36 => 3,
        8 | 40 => 4,
        6 | 18 | 30 | 42 => 5,
        4 | 20 | 28 | 44 => 6,
        3 | 9 | 15 | 21 | 27 | 33 | 39 | 45 => 7,
        _ => 8,
    }
}

impl Columns {
    /// Of so many places each.
    pub fn new(places: usize) -> Self {
        Self { times: vec![0.0; places], judged: vec![0; places], snaps: vec![0; places] }
    }

    /// Numbers of every kind, with some places past the rooms.
    fn by_chance([times, judged, snaps]: Rooms, random: &mut Random) -> Self {
        let mut column = |room: usize| (0..room + PAST).map(|_| random.bits()).collect::<Vec<_>>();
        Self {
            times: column(times).into_iter().map(f64::from_bits).collect(),
            judged: column(judged).into_iter().map(|bits| bits as u8).collect(),
            snaps: column(snaps).into_iter().map(|bits| bits as u8).collect(),
        }
    }

    fn same(&self, other: &Self) -> bool {
        let answers = |column: &[f64]| column.iter().map(|number| number.answer()).collect::<Vec<_>>();
        answers(&self.times) == answers(&other.times) && self.judged == other.judged && self.snaps == other.snaps
    }
}

const PAST: usize = 4;

fn row_allowed(row: i32) -> bool {
    row.unsigned_abs() <= LAST_ROW as u32
}

/// A song with the number by which its lists are refused, and the original's timings where they are not: the clock's and the lookups'.
pub struct Timed {
    pub song: Song,
    number: u32,
    timings: Option<[TimingData; 2]>,
}

impl Timed {
    pub fn new(song: Song) -> Self {
        let lists = song.lists();
        let number = lowest([song.chart.number(), lists.number(&[0, 1, 2, 3], true, true)]);
        let timings = (number == 0).then(|| [song.chart.original(), lists.timing()]);
        Self { song, number, timings }
    }

    fn refusal(&self, rows: &[i32], rooms: Rooms) -> u32 {
        let near = if rows.iter().all(|row| row_allowed(*row)) { 0 } else { 3 };
        let order = if rows.windows(2).all(|two| two[0] < two[1]) { 0 } else { 5 };
        let room = if rooms.iter().any(|room| *room < rows.len()) { 7 } else { 0 };
        lowest([self.number, near, order, room])
    }

    /// What is written, and the events up to the last row and one step for each.
    fn write(&self, rows: &[i32], columns: &mut Columns) -> Sheet {
        let [clock, lookups] = self.timings.as_ref().expect("lists that are taken");
        let mut cursor = probe::BeatCursor::new(clock);
        for (place, row) in rows.iter().enumerate() {
            columns.times[place] = cursor.time_for_beat(f64::from(*row) / 48.0);
            columns.snaps[place] = snap(*row);
        }
        probe::judgable_rows(lookups, rows, &mut columns.judged);
        let chart = &self.song.chart;
        let mut walker = Walker::new(chart, Cursor::fresh(chart.offset, chart.global).state);
        let mut steps = rows.len();
        if let Some(last) = rows.last() {
            while let Some((row, rank)) = walker.next(Some(*last)).filter(|(_, rank)| *rank != ASKED) {
                walker.pass(row, rank);
                steps += 1;
            }
        }
        let [tempos, stops, delays, warps] = chart.lengths();
        assert!(steps <= tempos + stops + delays + 2 * warps + rows.len(), "more than one round: {chart:?}, {rows:?}");
        Sheet { number: 0, count: rows.len(), steps }
    }

    fn sheet(&self, call: Call, rows: &[i32], rooms: Rooms, random: &mut Random, found: &mut Found) {
        let mut wanted = Columns::by_chance(rooms, random);
        let mut got = wanted.clone();
        let number = self.refusal(rows, rooms);
        let sheet = if number == 0 { self.write(rows, &mut wanted) } else { Sheet { number, count: 0, steps: 0 } };
        let answer = call(&self.song, rows, &mut got, rooms);
        found.check(answer == sheet && got.same(&wanted), || {
            format!("{:?}, rows {rows:?}, rooms {rooms:?}: {sheet:?} {wanted:?}, port {answer:?} {got:?}", self.song)
        });
    }

    /// Rows that rise, near what happens and anywhere, at the ends of what is taken; some twice, beyond, or out of order.
    fn rows(&self, random: &mut Random) -> Vec<i32> {
        let count = [0, 1, 2, 10, 64, 65, 200][random.below(7) as usize];
        let beats = self.song.chart.asked(count, random);
        let near =
            |beat: f64| if beat.is_finite() { probe::beat_to_note_row(beat.clamp(-65_536.0, 65_536.0)) } else { 0 };
        let mut rows: Vec<i32> = beats.into_iter().map(near).collect();
        rows.sort_unstable();
        rows.dedup();
        if random.below(8) == 0 && !rows.is_empty() {
            let place = random.below(rows.len() as u64) as usize;
            match random.below(4) {
                0 => rows.insert(place, rows[place]),
                1 => rows.swap(0, place),
                2 => rows.push(LAST_ROW + 1),
                _ => rows.insert(0, -LAST_ROW - 1 - random.below(3) as i32),
            }
        }
        rows
    }
}

impl Song {
    /// The four lists that the lookups take.
    fn lists(&self) -> Lists {
        let [stops, delays, warps] = [STOPS, DELAYS, WARPS].map(|list| self.chart.lists[list].clone());
        Lists { columns: [stops, delays, warps, self.fakes.clone()] }
    }

    fn by_chance(turn: u64, random: &mut Random) -> Self {
        let chart = Chart::by_chance(turn, random);
        let mut fakes = (Vec::new(), Vec::new());
        let mut row = random.below(200) as i32 - 100;
        for _ in 0..random.below(8) {
            fakes.0.push(row as f32 / 48.0);
            fakes.1.push((random.part() * 3.0 - 0.5) as f32);
            row += random.below(300) as i32 + i32::from(random.below(40) != 0);
        }
        match random.below(60) {
            0 => fakes.1.push(1.0),
            1 => fakes.1.iter_mut().for_each(|length| *length = f32::INFINITY),
            _ => (),
        }
        Self { chart, fakes }
    }
}

fn rooms(count: usize, random: &mut Random) -> Rooms {
    let mut rooms = [(); 3].map(|()| count + random.below(4) as usize);
    if random.below(6) == 0 {
        rooms[random.below(3) as usize] = count.saturating_sub(1 + random.below(2) as usize);
    }
    rooms
}

pub fn compare(work: Work, call: Call) -> Found {
    let mut random = Random::new(work.seed, "note sheets");
    let mut found = Found::default();
    for turn in 0..work.lists() / 4 {
        let timed = Timed::new(Song::by_chance(turn, &mut random));
        for _ in 0..if timed.number == 0 { 4 } else { 1 } {
            let rows = timed.rows(&mut random);
            timed.sheet(call, &rows, rooms(rows.len(), &mut random), &mut random, &mut found);
        }
    }
    found
}

pub fn compare_all(work: Work, total: &mut Total) {
    compare(work, note_sheet).add("note_sheet", total);
}

/// Sheets of few rows.
pub fn stored_cases(cases: &mut Vec<Case>) {
    let mut random = Random::new(1, "stored sheets");
    let sheet = |turn: u64| {
        let timed = Timed::new(Song::by_chance(turn, &mut random));
        let rows: Vec<i32> = timed.rows(&mut random).into_iter().take(12).collect();
        let number = timed.refusal(&rows, [stored::ROOM; 3]);
        let mut columns = Columns::new(rows.len());
        let sheet = if number == 0 { timed.write(&rows, &mut columns) } else { Sheet { number, count: 0, steps: 0 } };
        let mut case = Case::new(19);
        let Song { chart, fakes } = &timed.song;
        let lists = chart.lists.iter().chain([fakes]);
        lists.flat_map(|(beats, values)| [beats, values]).for_each(|column| case.column(column));
        case.column(&rows);
        case.column(&columns.times[..sheet.count]);
        case.column(&columns.judged[..sheet.count]);
        case.column(&columns.snaps[..sheet.count]);
        case.words([chart.offset.word(), chart.global.word(), number.into(), sheet.count as u64, sheet.steps as u64]);
        case.if_short()
    };
    cases.extend((0..).filter_map(sheet).take(stored::EACH));
}
