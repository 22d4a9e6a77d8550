//! The calls that tidy a list: the original and the port under one name, and their comparison.

use crate::cases::{Work, power};
use crate::lists;
use crate::numbers::Number;
use crate::random::Random;
use crate::stored::{self, Case};
use crate::tally::Total;
use crate::timing::{Segment, probe};

/// What the port answers: the refusal's number, 0 where there is none, and how many entries were written.
#[derive(Clone, Copy, Debug, PartialEq)]
#[repr(C)]
pub struct Outcome {
    pub number: u32,
    pub count: usize,
}

impl Outcome {
    pub fn refused(number: u32) -> Self {
        Self { number, count: 0 }
    }
}

pub trait Tidying {
    type Entry: Copy;
    const NAME: &str;

    fn entry(beat: f64, value: f64) -> Self::Entry;
    fn beat_and_value(entry: &Self::Entry) -> (f64, f64);
    /// Whether a value is within its limit.
    fn takes(value: f64) -> bool;
    fn original(list: Vec<Self::Entry>) -> Vec<Self::Entry>;
    /// Whether the original's way with a list that is not in order meets a kept list that falls.
    fn falls(_beats: &[f64], _values: &[f64]) -> bool {
        false
    }
    fn port(beats: &[f64], values: &[f64], out_beats: &mut [f64], out_values: &mut [f64]) -> Outcome;
}

pub struct Rows;

pub struct Tempos;

pub struct Scrolls;

/// The port's function `marrighentu_NAME`.
macro_rules! port {
    ($name:literal) => {
        fn port(beats: &[f64], values: &[f64], out_beats: &mut [f64], out_values: &mut [f64]) -> Outcome {
            unsafe extern "C" {
                #[link_name = concat!("marrighentu_", $name)]
                fn tidy(
                    beats: *const f64,
                    beats_len: usize,
                    values: *const f64,
                    values_len: usize,
                    out_beats: *mut f64,
                    out_beats_len: usize,
                    out_values: *mut f64,
                    out_values_len: usize,
                ) -> Outcome;
            }
            let (beats_to, values_to) = (out_beats.as_mut_ptr(), out_values.as_mut_ptr());
            // SAFETY: the four slices are lent whole and apart, and a slice crosses as its pointer and its length.
            unsafe {
                tidy(
                    beats.as_ptr(),
                    beats.len(),
                    values.as_ptr(),
                    values.len(),
                    beats_to,
                    out_beats.len(),
                    values_to,
                    out_values.len(),
                )
            }
        }
    };
}

impl Tidying for Rows {
    type Entry = Segment;
    const NAME: &str = "tidy_row_segments";

    fn entry(beat: f64, value: f64) -> Segment {
        Segment { beat, value }
    }
    fn beat_and_value(entry: &Segment) -> (f64, f64) {
        (entry.beat, entry.value)
    }
    fn takes(value: f64) -> bool {
        value.is_finite() && value.abs() <= power(30)
    }
    fn original(list: Vec<Segment>) -> Vec<Segment> {
        probe::tidy_row_segments(list)
    }
    port! { "tidy_row_segments" }
}

impl Tidying for Tempos {
    type Entry = (f64, f64);
    const NAME: &str = "tidy_bpms";

    fn entry(beat: f64, value: f64) -> (f64, f64) {
        (beat, value)
    }
    fn beat_and_value(entry: &(f64, f64)) -> (f64, f64) {
        *entry
    }
    fn takes(value: f64) -> bool {
        value == 0.0 || value.is_finite() && (power(-20)..=power(30)).contains(&value.abs())
    }
    fn original(list: Vec<(f64, f64)>) -> Vec<(f64, f64)> {
        probe::tidy_bpms(list)
    }
    port! { "tidy_bpms" }
}

impl Tidying for Scrolls {
    type Entry = Segment;
    const NAME: &str = "tidy_scroll_segments";

    fn entry(beat: f64, value: f64) -> Segment {
        Segment { beat, value }
    }
    fn beat_and_value(entry: &Segment) -> (f64, f64) {
        (entry.beat, entry.value)
    }
    fn takes(value: f64) -> bool {
        value.is_finite() && value.abs() <= power(30)
    }
    fn original(list: Vec<Segment>) -> Vec<Segment> {
        probe::tidy_scroll_segments(list)
    }
    fn falls(beats: &[f64], values: &[f64]) -> bool {
        let on_row = |beat: &f64| probe::note_row_to_beat(probe::beat_to_note_row(*beat));
        let falls = |list: &[Segment]| list.windows(2).any(|pair| pair[1].beat < pair[0].beat);
        let list: Vec<_> = beats.iter().zip(values).map(|(beat, value)| Self::entry(on_row(beat), *value)).collect();
        let mut kept = Vec::new();
        falls(&list)
            && list.into_iter().any(|entry| {
                let fallen = falls(&kept);
                if kept.is_empty() {
                    kept.push(entry);
                } else {
                    probe::add_scroll_segment_slow(&mut kept, entry);
                }
                fallen
            })
    }
    port! { "tidy_scroll_segments" }
}

pub fn list<T: Tidying>(beats: &[f64], values: &[f64]) -> Vec<T::Entry> {
    beats.iter().zip(values).map(|(beat, value)| T::entry(*beat, *value)).collect()
}

/// The number by which a list is refused, whatever the rooms; else 0.
fn list_number<T: Tidying>(beats: &[f64], values: &[f64]) -> u32 {
    if beats.len() > 1_024 || values.len() > 1_024 {
        1
    } else if beats.len() != values.len() {
        2
    } else if beats.iter().any(|beat| !beat.is_finite() || beat.abs() > 65_536.0) {
        3
    } else if values.iter().any(|value| !T::takes(*value)) {
        4
    } else if T::falls(beats, values) {
        6
    } else {
        0
    }
}

/// A list, and the lengths of the rooms for beats and values.
#[derive(Clone, Debug)]
pub struct Asked {
    pub beats: Vec<f64>,
    pub values: Vec<f64>,
    pub rooms: [usize; 2],
}

/// How many places past each room are looked at too.
const PAST: usize = 4;

/// An outcome, and both rooms with the places past them.
struct Left {
    outcome: Outcome,
    rooms: [Vec<f64>; 2],
}

impl Left {
    fn same(&self, other: &Self) -> bool {
        let mut places = self.rooms.iter().flatten().zip(other.rooms.iter().flatten());
        self.outcome == other.outcome && places.all(|(one, other)| one.bits() == other.bits())
    }
}

impl Asked {
    fn by_chance<T: Tidying>(turn: u64, random: &mut Random) -> Self {
        let length = lists::length(turn, random);
        let (mut beats, mut values) = (lists::beats(length, random), lists::values(length, random));
        if random.below(6) == 0 {
            lists::spoil(&mut beats, &mut values, random);
        }
        let count = match list_number::<T>(&beats, &values) {
            0 => T::original(list::<T>(&beats, &values)).len(),
            _ => length,
        };
        let rooms = match random.below(8) {
            0 => [count, count],
            1 => [count.saturating_sub(1), count],
            2 => [count, count.saturating_sub(1)],
            3 => [random.below(count as u64 + 1) as usize, 1_024],
            4 => [0, 0],
            5 => [count, count + 1 + random.below(9) as usize],
            6 => [count + 1 + random.below(9) as usize, count],
            _ => [count + random.below(9) as usize, 1_024],
        };
        Self { beats, values, rooms }
    }

    /// The rooms before a call: numbers of every kind.
    fn rooms(&self) -> [Vec<f64>; 2] {
        let mut random = Random::new(1, "rooms");
        self.rooms.map(|room| (0..room + PAST).map(|_| f64::of_bits(random.bits())).collect())
    }

    fn port<T: Tidying>(&self) -> Left {
        let ([mut out_beats, mut out_values], [beats_room, values_room]) = (self.rooms(), self.rooms);
        let outcome = T::port(&self.beats, &self.values, &mut out_beats[..beats_room], &mut out_values[..values_room]);
        Left { outcome, rooms: [out_beats, out_values] }
    }

    /// By the original where the list is taken and its result has room.
    fn expected<T: Tidying>(&self) -> Left {
        self.expected_over::<T>(self.rooms())
    }

    fn expected_over<T: Tidying>(&self, mut rooms: [Vec<f64>; 2]) -> Left {
        let number = list_number::<T>(&self.beats, &self.values);
        if number != 0 {
            return Left { outcome: Outcome::refused(number), rooms };
        }
        let result = T::original(list::<T>(&self.beats, &self.values));
        if result.len() > self.rooms[0].min(self.rooms[1]) {
            return Left { outcome: Outcome::refused(7), rooms };
        }
        for (place, entry) in result.iter().enumerate() {
            (rooms[0][place], rooms[1][place]) = T::beat_and_value(entry);
        }
        Left { outcome: Outcome { number: 0, count: result.len() }, rooms }
    }

    /// A case to be replayed.
    fn stored<T: Tidying>(&self, call: u64) -> Case {
        let asked = Self { rooms: [stored::ROOM; 2], ..self.clone() };
        let Left { outcome, rooms } = asked.expected_over::<T>([(); 2].map(|()| vec![stored::UNTOUCHED; stored::ROOM]));
        let mut case = Case::new(call);
        [&self.beats, &self.values].into_iter().for_each(|column| case.column(column));
        rooms.iter().for_each(|room| case.column(&room[..outcome.count]));
        case.words([outcome.number.into(), outcome.count as u64]);
        case
    }

    fn differs<T: Tidying>(&self) -> bool {
        !self.expected::<T>().same(&self.port::<T>())
    }

    /// Without entries that can go while both sides still differ, halves first.
    fn plainest<T: Tidying>(mut self) -> Self {
        let mut cut = self.beats.len();
        while cut > 0 {
            let mut from = 0;
            while from < self.beats.len().min(self.values.len()) {
                let mut less = self.clone();
                for column in [&mut less.beats, &mut less.values] {
                    column.drain(from..(from + cut).min(column.len()));
                }
                if less.differs::<T>() {
                    self = less;
                } else {
                    from += cut;
                }
            }
            cut /= 2;
        }
        self
    }

    fn shown<T: Tidying>(&self) -> String {
        let (expected, port) = (self.expected::<T>(), self.port::<T>());
        let (wanted, got) = (expected.outcome, port.outcome);
        let places = (0..2).flat_map(|room| (0..expected.rooms[room].len()).map(move |place| (room, place)));
        let other =
            |&(room, place): &(usize, usize)| expected.rooms[room][place].bits() != port.rooms[room][place].bits();
        let place = places.into_iter().find(other).map_or(String::new(), |(room, place)| {
            let (wanted, got) = (expected.rooms[room][place].shown(), port.rooms[room][place].shown());
            format!("; {} place {place}: {wanted}, port {got}", ["beats", "values"][room])
        });
        let front = |column: &[f64]| format!("{} {:?}", column.len(), &column[..column.len().min(8)]);
        format!(
            "beats {}, values {}, rooms {:?}: number {} count {}, port number {} count {}{place}",
            front(&self.beats),
            front(&self.values),
            self.rooms,
            wanted.number,
            wanted.count,
            got.number,
            got.count,
        )
    }
}

/// What the comparison of one call found.
#[derive(Default)]
pub struct Found {
    pub compared: u64,
    pub different: u64,
    /// How often each number was expected.
    pub numbers: [u64; 8],
    /// The plainest of the shortest lists that differ.
    pub plainest: Option<Asked>,
}

pub fn compare<T: Tidying>(work: Work) -> Found {
    let mut random = Random::new(work.seed, T::NAME);
    let mut found = Found::default();
    for turn in 0..work.lists() {
        let asked = Asked::by_chance::<T>(turn, &mut random);
        let expected = asked.expected::<T>();
        found.compared += 1;
        found.numbers[expected.outcome.number as usize] += 1;
        if !expected.same(&asked.port::<T>()) {
            found.different += 1;
            if found.plainest.as_ref().is_none_or(|kept| asked.beats.len() < kept.beats.len()) {
                found.plainest = Some(asked);
            }
        }
    }
    found.plainest = found.plainest.map(Asked::plainest::<T>);
    found
}

/// Cases for each call, from its number on.
pub fn stored_cases(cases: &mut Vec<Case>) {
    fn add<T: Tidying>(call: u64, cases: &mut Vec<Case>) {
        let mut random = Random::new(1, T::NAME);
        stored::add(cases, |turn| Asked::by_chance::<T>(turn, &mut random).stored::<T>(call));
    }
    add::<Rows>(1, cases);
    add::<Tempos>(2, cases);
    add::<Scrolls>(3, cases);
}

pub fn compare_all(work: Work, total: &mut Total) {
    fn add<T: Tidying>(work: Work, total: &mut Total) {
        let found = compare::<T>(work);
        total.add(T::NAME, found.compared, found.different, found.plainest.map(|asked| asked.shown::<T>()));
    }
    add::<Rows>(work, total);
    add::<Tempos>(work, total);
    add::<Scrolls>(work, total);
}
