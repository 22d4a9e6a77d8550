//! The calls that process raw tempos and stops, by format: the original and the port under one name, and their comparison.

use crate::cases::{Work, power};
use crate::charts::{self, Lists};
use crate::numbers::Number;
use crate::random::Random;
use crate::stored::{self, Case};
use crate::tally::Total;
use crate::timing::{Segment, probe};

/// What the port answers: the refusal's number, 0 where there is none, how many entries of each result were written, and the offset.
#[derive(Clone, Copy, Debug)]
#[repr(C)]
pub struct Processed {
    pub number: u32,
    pub tempos: usize,
    pub stops: usize,
    pub warps: usize,
    pub offset: f64,
}

impl Processed {
    pub fn refused(number: u32) -> Self {
        Self { number, tempos: 0, stops: 0, warps: 0, offset: 0.0 }
    }

    fn same(&self, other: &Self) -> bool {
        (self.number, self.tempos, self.stops, self.warps) == (other.number, other.tempos, other.stops, other.warps)
            && self.offset.bits() == other.offset.bits()
    }
}

/// Tempos, stops, warps and the offset, as the original gives them.
pub type Result = (Vec<(f64, f64)>, Vec<Segment>, Vec<Segment>, f64);

/// Columns of beats and values for tempos, stops and warps; a format that makes no warps has none for them.
pub type Rooms = [Vec<f64>; 6];

pub trait Format {
    const NAME: &str;
    /// How many of the six rooms the call has.
    const ROOMS: usize;

    fn original(tempos: &[(f64, f64)], stops: &[Segment]) -> Result;
    /// Writes into the front of each room, of which `lengths` are lent.
    fn port(lists: &Lists, rooms: &mut Rooms, lengths: &[usize; 6]) -> Processed;
}

pub struct Ssc;

impl Format for Ssc {
    const NAME: &str = "process_bpms_and_stops_ssc";
    const ROOMS: usize = 4;

    fn original(tempos: &[(f64, f64)], stops: &[Segment]) -> Result {
        probe::process_bpms_and_stops_ssc(tempos.to_vec(), stops.to_vec())
    }

    fn port(lists: &Lists, rooms: &mut Rooms, lengths: &[usize; 6]) -> Processed {
        unsafe extern "C" {
            fn marrighentu_process_bpms_and_stops_ssc(
                tempo_beats: *const f64,
                tempo_beats_len: usize,
                tempo_values: *const f64,
                tempo_values_len: usize,
                stop_beats: *const f64,
                stop_beats_len: usize,
                stop_values: *const f64,
                stop_values_len: usize,
                out_tempo_beats: *mut f64,
                out_tempo_beats_len: usize,
                out_tempo_values: *mut f64,
                out_tempo_values_len: usize,
                out_stop_beats: *mut f64,
                out_stop_beats_len: usize,
                out_stop_values: *mut f64,
                out_stop_values_len: usize,
            ) -> Processed;
        }
        let [tempo_beats, tempo_values, stop_beats, stop_values] = &lists.columns;
        let [room0, room1, room2, room3, _, _] = rooms;
        assert!([&room0, &room1, &room2, &room3].iter().zip(lengths).all(|(room, length)| *length <= room.len()));
        // SAFETY: the eight columns are lent whole and apart, and a slice crosses as its pointer and its length.
        unsafe {
            marrighentu_process_bpms_and_stops_ssc(
                tempo_beats.as_ptr(),
                tempo_beats.len(),
                tempo_values.as_ptr(),
                tempo_values.len(),
                stop_beats.as_ptr(),
                stop_beats.len(),
                stop_values.as_ptr(),
                stop_values.len(),
                room0.as_mut_ptr(),
                lengths[0],
                room1.as_mut_ptr(),
                lengths[1],
                room2.as_mut_ptr(),
                lengths[2],
                room3.as_mut_ptr(),
                lengths[3],
            )
        }
    }
}

pub struct Sm;

impl Format for Sm {
    const NAME: &str = "process_bpms_and_stops_sm";
    const ROOMS: usize = 6;

    fn original(tempos: &[(f64, f64)], stops: &[Segment]) -> Result {
        probe::process_bpms_and_stops_sm(tempos, stops)
    }

    fn port(lists: &Lists, rooms: &mut Rooms, lengths: &[usize; 6]) -> Processed {
        unsafe extern "C" {
            fn marrighentu_process_bpms_and_stops_sm(
                tempo_beats: *const f64,
                tempo_beats_len: usize,
                tempo_values: *const f64,
                tempo_values_len: usize,
                stop_beats: *const f64,
                stop_beats_len: usize,
                stop_values: *const f64,
                stop_values_len: usize,
                out_tempo_beats: *mut f64,
                out_tempo_beats_len: usize,
                out_tempo_values: *mut f64,
                out_tempo_values_len: usize,
                out_stop_beats: *mut f64,
                out_stop_beats_len: usize,
                out_stop_values: *mut f64,
                out_stop_values_len: usize,
                out_warp_beats: *mut f64,
                out_warp_beats_len: usize,
                out_warp_lengths: *mut f64,
                out_warp_lengths_len: usize,
            ) -> Processed;
        }
        let [tempo_beats, tempo_values, stop_beats, stop_values] = &lists.columns;
        let [room0, room1, room2, room3, room4, room5] = rooms;
        assert!(
            [&room0, &room1, &room2, &room3, &room4, &room5]
                .iter()
                .zip(lengths)
                .all(|(room, length)| *length <= room.len())
        );
        // SAFETY: the ten columns are lent whole and apart, and a slice crosses as its pointer and its length.
        unsafe {
            marrighentu_process_bpms_and_stops_sm(
                tempo_beats.as_ptr(),
                tempo_beats.len(),
                tempo_values.as_ptr(),
                tempo_values.len(),
                stop_beats.as_ptr(),
                stop_beats.len(),
                stop_values.as_ptr(),
                stop_values.len(),
                room0.as_mut_ptr(),
                lengths[0],
                room1.as_mut_ptr(),
                lengths[1],
                room2.as_mut_ptr(),
                lengths[2],
                room3.as_mut_ptr(),
                lengths[3],
                room4.as_mut_ptr(),
                lengths[4],
                room5.as_mut_ptr(),
                lengths[5],
            )
        }
    }
}

/// The number by which a list is refused by itself; else 0. What is not finite passes, to be dropped later.
fn list_number(beats: &[f64], values: &[f64]) -> u32 {
    if beats.len() > 1_024 || values.len() > 1_024 {
        1
    } else if beats.len() != values.len() {
        2
    } else if beats.iter().any(|beat| beat.is_finite() && beat.abs() > 65_536.0) {
        3
    } else if values
        .iter()
        .any(|value| value.is_finite() && *value != 0.0 && !(power(-20)..=power(30)).contains(&value.abs()))
    {
        4
    } else {
        0
    }
}

/// The lowest number of either list.
fn number(lists: &Lists) -> u32 {
    let [tempo_beats, tempo_values, stop_beats, stop_values] = &lists.columns;
    let numbers = [list_number(tempo_beats, tempo_values), list_number(stop_beats, stop_values)];
    numbers.into_iter().filter(|number| *number != 0).min().unwrap_or(0)
}

pub fn tempos(lists: &Lists) -> Vec<(f64, f64)> {
    lists.columns[0].iter().copied().zip(lists.columns[1].iter().copied()).collect()
}

pub fn stops(lists: &Lists) -> Vec<Segment> {
    lists.columns[2].iter().zip(&lists.columns[3]).map(|(&beat, &value)| Segment { beat, value }).collect()
}

fn original<F: Format>(lists: &Lists) -> Result {
    F::original(&tempos(lists), &stops(lists))
}

/// Both lists, and the lengths of the rooms.
#[derive(Clone, Debug)]
pub struct Asked {
    pub lists: Lists,
    pub rooms: [usize; 6],
}

/// How many places past each room are looked at too.
const PAST: usize = 4;

/// An answer, and all rooms with the places past them.
struct Left {
    answer: Processed,
    rooms: Rooms,
}

impl Left {
    fn same(&self, other: &Self) -> bool {
        let mut places = self.rooms.iter().flatten().zip(other.rooms.iter().flatten());
        self.answer.same(&other.answer) && places.all(|(one, other)| one.bits() == other.bits())
    }
}

impl Asked {
    fn by_chance<F: Format>(turn: u64, random: &mut Random) -> Self {
        let lists = charts::lists(turn, random);
        let counts = match number(&lists) {
            0 => {
                let (tempos, stops, warps, _) = original::<F>(&lists);
                [tempos.len(), stops.len(), warps.len()]
            }
            _ => [lists.columns[0].len(), lists.columns[2].len(), 3],
        };
        let mut rooms = [0; 6];
        for (room, length) in rooms.iter_mut().enumerate().take(F::ROOMS) {
            *length = counts[room / 2] + if turn % 3 == 0 { 0 } else { random.below(9) as usize };
        }
        match random.below(8) {
            // one of them one short
            0 | 1 => {
                let room = random.below(F::ROOMS as u64) as usize;
                rooms[room] = counts[room / 2].saturating_sub(1);
            }
            2 => rooms[random.below(F::ROOMS as u64) as usize] = 0,
            3 => rooms = rooms.map(|length| length / 2),
            _ => (),
        }
        Self { lists, rooms }
    }

    /// The rooms before a call: numbers of every kind.
    fn rooms(&self) -> Rooms {
        let mut random = Random::new(1, "rooms");
        self.rooms.map(|room| (0..room + PAST).map(|_| f64::of_bits(random.bits())).collect())
    }

    fn port<F: Format>(&self) -> Left {
        let mut rooms = self.rooms();
        let answer = F::port(&self.lists, &mut rooms, &self.rooms);
        Left { answer, rooms }
    }

    /// By the original where the lists are taken and each result has room.
    fn expected<F: Format>(&self) -> Left {
        self.expected_over::<F>(self.rooms())
    }

    fn expected_over<F: Format>(&self, mut rooms: Rooms) -> Left {
        let number = number(&self.lists);
        if number != 0 {
            return Left { answer: Processed::refused(number), rooms };
        }
        let (tempos, stops, warps, offset) = original::<F>(&self.lists);
        let counts = [tempos.len(), stops.len(), warps.len()];
        if (0..F::ROOMS).any(|room| counts[room / 2] > self.rooms[room]) {
            return Left { answer: Processed::refused(7), rooms };
        }
        for (place, (beat, tempo)) in tempos.into_iter().enumerate() {
            (rooms[0][place], rooms[1][place]) = (beat, tempo);
        }
        for (list, segments) in [stops, warps].into_iter().enumerate() {
            for (place, segment) in segments.into_iter().enumerate() {
                (rooms[2 * list + 2][place], rooms[2 * list + 3][place]) = (segment.beat, segment.value);
            }
        }
        let answer = Processed { number: 0, tempos: counts[0], stops: counts[1], warps: counts[2], offset };
        Left { answer, rooms }
    }

    /// A case to be replayed.
    fn stored<F: Format>(&self, call: u64) -> Case {
        let asked = Self { rooms: [stored::ROOM; 6], ..self.clone() };
        let rooms = [(); 6].map(|()| vec![stored::UNTOUCHED; stored::ROOM]);
        let Left { answer, rooms } = asked.expected_over::<F>(rooms);
        let counts = [answer.tempos, answer.stops, answer.warps];
        let mut case = Case::new(call);
        self.lists.columns.iter().for_each(|column| case.column(column));
        (0..F::ROOMS).for_each(|room| case.column(&rooms[room][..counts[room / 2]]));
        case.words([answer.number.into(), answer.tempos as u64, answer.stops as u64, answer.warps as u64]);
        case.words([answer.offset.answer()]);
        case
    }

    fn differs<F: Format>(&self) -> bool {
        !self.expected::<F>().same(&self.port::<F>())
    }

    fn size(&self) -> usize {
        self.lists.columns.iter().map(Vec::len).sum()
    }

    /// Without entries that can go while both sides still differ, halves first.
    fn plainest<F: Format>(mut self) -> Self {
        for list in [0, 2] {
            let mut cut = self.lists.columns[list].len();
            while cut > 0 {
                let mut from = 0;
                while from < self.lists.columns[list].len().min(self.lists.columns[list + 1].len()) {
                    let mut less = self.clone();
                    for column in &mut less.lists.columns[list..list + 2] {
                        column.drain(from..(from + cut).min(column.len()));
                    }
                    if less.differs::<F>() {
                        self = less;
                    } else {
                        from += cut;
                    }
                }
                cut /= 2;
            }
        }
        self
    }

    fn shown<F: Format>(&self) -> String {
        let (expected, port) = (self.expected::<F>(), self.port::<F>());
        let places = (0..6).flat_map(|room| (0..expected.rooms[room].len()).map(move |place| (room, place)));
        let other =
            |&(room, place): &(usize, usize)| expected.rooms[room][place].bits() != port.rooms[room][place].bits();
        let place = places.into_iter().find(other).map_or(String::new(), |(room, place)| {
            let (wanted, got) = (expected.rooms[room][place].shown(), port.rooms[room][place].shown());
            format!("; room {room} place {place}: {wanted}, port {got}")
        });
        let columns = self.lists.columns.each_ref().map(|column| &column[..column.len().min(8)]);
        let lengths = self.lists.columns.each_ref().map(Vec::len);
        format!(
            "{columns:?} of {lengths:?}, rooms {:?}: {:?}, port {:?}{place}",
            self.rooms, expected.answer, port.answer
        )
    }
}

/// What the comparison of one format found.
#[derive(Default)]
pub struct Found {
    pub compared: u64,
    pub different: u64,
    /// How often each number was expected.
    pub numbers: [u64; 8],
    /// The plainest of the shortest lists that differ.
    pub plainest: Option<Asked>,
}

pub fn compare<F: Format>(work: Work) -> Found {
    let mut random = Random::new(work.seed, F::NAME);
    let mut found = Found::default();
    for turn in 0..work.lists() {
        let asked = Asked::by_chance::<F>(turn, &mut random);
        let expected = asked.expected::<F>();
        found.compared += 1;
        found.numbers[expected.answer.number as usize] += 1;
        if !expected.same(&asked.port::<F>()) {
            found.different += 1;
            if found.plainest.as_ref().is_none_or(|kept| asked.size() < kept.size()) {
                found.plainest = Some(asked);
            }
        }
    }
    found.plainest = found.plainest.map(Asked::plainest::<F>);
    found
}

/// Cases for both formats, from the call's number on.
pub fn stored_cases(cases: &mut Vec<Case>) {
    fn add<F: Format>(call: u64, cases: &mut Vec<Case>) {
        let mut random = Random::new(1, F::NAME);
        stored::add(cases, |turn| Asked::by_chance::<F>(turn, &mut random).stored::<F>(call));
    }
    add::<Ssc>(5, cases);
    add::<Sm>(6, cases);
}

pub fn compare_all(work: Work, total: &mut Total) {
    fn add<F: Format>(work: Work, total: &mut Total) {
        let found = compare::<F>(work);
        total.add(F::NAME, found.compared, found.different, found.plainest.map(|asked| asked.shown::<F>()));
    }
    add::<Ssc>(work, total);
    add::<Sm>(work, total);
}
