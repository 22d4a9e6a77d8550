//! Marks of warps, which the original has not: a plain reading of where each warp came from, and its comparison with the port's calls that carry them.

pub use crate::assembly::marks_number;
use crate::cases::{Work, power};
use crate::clock::Found;
use crate::lists;
use crate::lookups::{self, Lists, Stored};
use crate::random::Random;
use crate::tally::Total;
use crate::tidying::Outcome;
use crate::timing::probe;
use std::collections::BTreeMap;

// ---- a plain reading

/// A beat, a length, and the mark: 0 written, 1 made.
pub type Warp = (f64, f64, u8);

/// The lowest of some numbers, where 0 is no refusal.
pub fn lowest<const N: usize>(numbers: [u32; N]) -> u32 {
    numbers.into_iter().filter(|number| *number != 0).min().unwrap_or(0)
}

fn list_number(beats: &[f64], lengths: &[f64]) -> u32 {
    let within = |number: &f64, most: f64| number.is_finite() && number.abs() <= most;
    if beats.len() > 1_024 || lengths.len() > 1_024 {
        1
    } else if beats.len() != lengths.len() {
        2
    } else if beats.iter().any(|beat| !within(beat, 65_536.0)) {
        3
    } else if lengths.iter().any(|length| !within(length, power(30))) {
        4
    } else {
        0
    }
}

/// Each row once, with the length and the mark of the warp that came last for it.
pub fn tidied(beats: &[f64], lengths: &[f64], marks: &[u8]) -> Vec<Warp> {
    let mut rows = BTreeMap::new();
    for ((beat, length), mark) in beats.iter().zip(lengths).zip(marks) {
        rows.insert(probe::beat_to_note_row(*beat), (*length, *mark));
    }
    rows.into_iter().map(|(row, (length, mark))| (probe::note_row_to_beat(row), length, mark)).collect()
}

/// The mark of each row of the row store's warps: all of them, those of one row in the order given.
pub fn by_rows(beats: &[f32], marks: &[u8]) -> Vec<u8> {
    let mut rows: Vec<(i32, u8)> =
        beats.iter().zip(marks).map(|(beat, mark)| (probe::beat_to_note_row_f32(*beat), *mark)).collect();
    rows.sort_by_key(|(row, _)| *row);
    rows.into_iter().map(|(_, mark)| mark).collect()
}

// ---- the port

unsafe extern "C" {
    fn marrighentu_tidy_warp_segments(
        beats: *const f64,
        beats_length: usize,
        lengths: *const f64,
        lengths_length: usize,
        marks: *const u8,
        marks_length: usize,
        out_beats: *mut f64,
        out_beats_length: usize,
        out_lengths: *mut f64,
        out_lengths_length: usize,
        out_marks: *mut u8,
        out_marks_length: usize,
    ) -> Outcome;
}

/// The three rooms of a list of warps.
#[derive(Clone, Debug)]
pub struct Rooms {
    pub beats: Vec<f64>,
    pub lengths: Vec<f64>,
    pub marks: Vec<u8>,
}

impl Rooms {
    fn by_chance(sizes: [usize; 3], random: &mut Random) -> Self {
        Self {
            beats: (0..sizes[0]).map(|_| random.part()).collect(),
            lengths: (0..sizes[1]).map(|_| random.part()).collect(),
            marks: (0..sizes[2]).map(|_| random.bits() as u8).collect(),
        }
    }

    fn same(&self, other: &Self) -> bool {
        let bits = |one: &[f64], other: &[f64]| one.iter().map(|x| x.to_bits()).eq(other.iter().map(|x| x.to_bits()));
        bits(&self.beats, &other.beats) && bits(&self.lengths, &other.lengths) && self.marks == other.marks
    }
}

/// The call that tidies, so that others can be put in its place.
pub type Tidy = fn(&[f64], &[f64], &[u8], &mut Rooms) -> Outcome;

pub fn tidy_warp_segments(beats: &[f64], lengths: &[f64], marks: &[u8], rooms: &mut Rooms) -> Outcome {
    // SAFETY: the slices are lent whole and apart for the call
    unsafe {
        marrighentu_tidy_warp_segments(
            beats.as_ptr(),
            beats.len(),
            lengths.as_ptr(),
            lengths.len(),
            marks.as_ptr(),
            marks.len(),
            rooms.beats.as_mut_ptr(),
            rooms.beats.len(),
            rooms.lengths.as_mut_ptr(),
            rooms.lengths.len(),
            rooms.marks.as_mut_ptr(),
            rooms.marks.len(),
        )
    }
}

/// As a plain reading has it.
pub fn tidy_plainly(beats: &[f64], lengths: &[f64], marks: &[u8], rooms: &mut Rooms) -> Outcome {
    let number = lowest([list_number(beats, lengths), marks_number(beats.len(), marks)]);
    if number != 0 {
        return Outcome::refused(number);
    }
    let warps = tidied(beats, lengths, marks);
    if warps.len() > rooms.beats.len().min(rooms.lengths.len()).min(rooms.marks.len()) {
        return Outcome::refused(7);
    }
    for (place, (beat, length, mark)) in warps.iter().enumerate() {
        (rooms.beats[place], rooms.lengths[place], rooms.marks[place]) = (*beat, *length, *mark);
    }
    Outcome { number: 0, count: warps.len() }
}

// ---- cases

/// Of one kind: all written, all made, or a mix; now and then another length, too many, or a mark that is none.
pub fn marks(beats: usize, random: &mut Random) -> Vec<u8> {
    let kind = random.below(4);
    let mut marks: Vec<u8> = (0..beats).map(|_| if kind < 2 { kind as u8 } else { random.below(2) as u8 }).collect();
    match random.below(24) {
        0 => marks.push(0),
        1 => drop(marks.pop()),
        2 => marks.resize(1_025, 1),
        3 if beats > 0 => marks[random.below(beats as u64) as usize] = 2 + random.below(254) as u8,
        _ => (),
    }
    marks
}

fn rooms_for(count: usize, random: &mut Random) -> [usize; 3] {
    let mut rooms = [count + random.below(4) as usize; 3];
    match random.below(6) {
        short @ 0..3 => rooms[short as usize] = count.saturating_sub(1),
        3 => rooms = [1_024; 3],
        4 => rooms = [count; 3],
        _ => (),
    }
    rooms
}

/// Beats and lengths with marks carried have to be the original's without.
pub fn compare_tidying(work: Work, call: Tidy) -> Found {
    let mut random = Random::new(work.seed, "warps tidied with marks");
    let mut found = Found::default();
    for turn in 0..work.lists() {
        let length = lists::length(turn, &mut random);
        let (mut beats, mut lengths) = (lists::beats(length, &mut random), lists::values(length, &mut random));
        if random.below(8) == 0 {
            lists::spoil(&mut beats, &mut lengths, &mut random);
        }
        let marks = marks(beats.len(), &mut random);
        let count = tidied(&beats, &lengths, &marks).len();
        let sizes = rooms_for(count, &mut random);
        let (mut wanted, mut got) = (Rooms::by_chance(sizes, &mut random), Rooms::by_chance([0; 3], &mut random));
        got.clone_from(&wanted);
        let (outcome, answer) =
            (tidy_plainly(&beats, &lengths, &marks, &mut wanted), call(&beats, &lengths, &marks, &mut got));
        if outcome.number == 0 {
            let list =
                beats.iter().zip(&lengths).map(|(beat, value)| crate::timing::Segment { beat: *beat, value: *value });
            let original = probe::tidy_row_segments(list.collect());
            let same = original.iter().enumerate().all(|(place, entry)| {
                entry.beat.to_bits() == wanted.beats[place].to_bits()
                    && entry.value.to_bits() == wanted.lengths[place].to_bits()
            });
            assert!(
                same && original.len() == outcome.count,
                "{beats:?} {lengths:?}: the reading is not the original's"
            );
        }
        found.check(outcome == answer && wanted.same(&got), || {
            let front = |column: &[f64]| format!("{} {:?}", column.len(), &column[..column.len().min(8)]);
            format!(
                "beats {}, lengths {}, {} marks, rooms {sizes:?}: {outcome:?}, port {answer:?}",
                front(&beats),
                front(&lengths),
                marks.len()
            )
        });
    }
    found
}

/// The call that stores rows, so that others can be put in its place.
pub type Store = fn(&Lists, &[u8], &mut [i32], &mut [u8]) -> Stored;

/// The rows are compared without marks elsewhere; here the number, and the marks' room to its last place and past it.
pub fn compare_storing(work: Work, call: Store) -> Found {
    let mut random = Random::new(work.seed, "row store with marks");
    let mut found = Found::default();
    for turn in 0..work.lists() {
        let lists = if turn % 2 == 0 { Lists::near(&mut random) } else { Lists::any(turn, &mut random) };
        let beats = &lists.columns[2].0;
        let marks = marks(beats.len(), &mut random);
        let room = beats.len() + random.below(4) as usize;
        let room = if random.below(4) == 0 { beats.len().saturating_sub(1) } else { room };
        let mut rows = vec![0; 4_096];
        let before: Vec<u8> = (0..room).map(|_| random.bits() as u8).collect();
        let (mut wanted, mut got) = (before.clone(), before);
        let tests = lowest([lists.number(&[0, 1, 2, 3], false, true), marks_number(beats.len(), &marks)]);
        let number = if tests == 0 && beats.len() > room { 7 } else { tests };
        if number == 0 {
            wanted[..beats.len()].copy_from_slice(&by_rows(beats, &marks));
        }
        let answer = call(&lists, &marks, &mut rows, &mut got);
        found.check(number == answer.number && wanted == got, || {
            format!("{lists:?}, marks {marks:?}, room {room}: number {number}, {wanted:?}, port {answer:?}, {got:?}")
        });
    }
    found
}

pub fn compare_all(work: Work, total: &mut Total) {
    compare_tidying(work, tidy_warp_segments).add("tidy_warp_segments", total);
    compare_storing(work, lookups::store_marked).add("build_segment_row_storage, marks", total);
}
