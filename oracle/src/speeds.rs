//! Speed tidying, whose list has four columns: the original and the port, and their comparison.

use crate::cases::{Work, power};
use crate::lists;
use crate::numbers::Number;
use crate::random::Random;
use crate::stored::{self, Case};
use crate::tally::Total;
use crate::tidying::Outcome;
use crate::timing::{SpeedSegment, SpeedUnit, probe};

pub const NAME: &str = "tidy_speed_segments";

/// Beats, ratios, delays and units; in a list that is asked the columns may differ in length.
#[derive(Clone, Debug, Default)]
pub struct Columns {
    pub numbers: [Vec<f64>; 3],
    pub units: Vec<u8>,
}

/// A port of the call: a list, and the four rooms.
pub type Port = fn(&Columns, [&mut [f64]; 3], &mut [u8]) -> Outcome;

pub fn port(list: &Columns, rooms: [&mut [f64]; 3], units_room: &mut [u8]) -> Outcome {
    unsafe extern "C" {
        #[link_name = "marrighentu_tidy_speed_segments"]
        fn tidy(
            beats: *const f64,
            beats_len: usize,
            ratios: *const f64,
            ratios_len: usize,
            delays: *const f64,
            delays_len: usize,
            units: *const u8,
            units_len: usize,
            out_beats: *mut f64,
            out_beats_len: usize,
            out_ratios: *mut f64,
            out_ratios_len: usize,
            out_delays: *mut f64,
            out_delays_len: usize,
            out_units: *mut u8,
            out_units_len: usize,
        ) -> Outcome;
    }
    let ([beats, ratios, delays], units) = (&list.numbers, &list.units);
    let [out_beats, out_ratios, out_delays] = rooms;
    // SAFETY: the eight slices are lent whole and apart, and a slice crosses as its pointer and its length.
    unsafe {
        tidy(
            beats.as_ptr(),
            beats.len(),
            ratios.as_ptr(),
            ratios.len(),
            delays.as_ptr(),
            delays.len(),
            units.as_ptr(),
            units.len(),
            out_beats.as_mut_ptr(),
            out_beats.len(),
            out_ratios.as_mut_ptr(),
            out_ratios.len(),
            out_delays.as_mut_ptr(),
            out_delays.len(),
            units_room.as_mut_ptr(),
            units_room.len(),
        )
    }
}

impl Columns {
    /// The entries, of columns of one length and units that are taken.
    pub fn list(&self) -> Vec<SpeedSegment> {
        let [beats, ratios, delays] = &self.numbers;
        let unit = |unit| if unit == 0 { SpeedUnit::Beats } else { SpeedUnit::Seconds };
        (0..beats.len())
            .map(|place| SpeedSegment {
                beat: beats[place],
                ratio: ratios[place],
                delay: delays[place],
                unit: unit(self.units[place]),
            })
            .collect()
    }

    fn lengths(&self) -> [usize; 4] {
        let [beats, ratios, delays] = &self.numbers;
        [beats.len(), ratios.len(), delays.len(), self.units.len()]
    }

    /// The number by which the list is refused, whatever the rooms; else 0.
    fn number(&self) -> u32 {
        let ([beats, values @ ..], lengths) = (&self.numbers, self.lengths());
        if lengths.iter().any(|length| *length > 1_024) {
            1
        } else if lengths.iter().any(|length| *length != lengths[0]) {
            2
        } else if beats.iter().any(|beat| !beat.is_finite() || beat.abs() > 65_536.0) {
            3
        } else if values.iter().flatten().any(|value| !value.is_finite() || value.abs() > power(30))
            || self.units.iter().any(|unit| *unit > 1)
        {
            4
        } else if falls(&self.list()) {
            6
        } else {
            0
        }
    }
}

/// Whether the original's way with a list that is not in order meets a kept list that falls.
fn falls(list: &[SpeedSegment]) -> bool {
    let on_row = |beat| probe::note_row_to_beat(probe::beat_to_note_row(beat));
    let fallen = |list: &[SpeedSegment]| list.windows(2).any(|pair| pair[1].beat < pair[0].beat);
    let list: Vec<_> = list.iter().map(|entry| SpeedSegment { beat: on_row(entry.beat), ..*entry }).collect();
    let mut kept = Vec::new();
    fallen(&list)
        && list.into_iter().any(|entry| {
            let before = fallen(&kept);
            if kept.is_empty() {
                kept.push(entry);
            } else {
                probe::add_speed_segment_slow(&mut kept, entry);
            }
            before
        })
}

/// A list, and the lengths of the four rooms.
#[derive(Clone, Debug)]
pub struct Asked {
    pub list: Columns,
    pub rooms: [usize; 4],
}

/// How many places past each room are looked at too.
const PAST: usize = 4;

/// An outcome, and the rooms with the places past them.
struct Left {
    outcome: Outcome,
    rooms: Columns,
}

impl Left {
    fn same(&self, other: &Self) -> bool {
        let mut places = self.rooms.numbers.iter().flatten().zip(other.rooms.numbers.iter().flatten());
        self.outcome == other.outcome
            && self.rooms.units == other.rooms.units
            && places.all(|(one, other)| one.bits() == other.bits())
    }
}

impl Asked {
    fn by_chance(turn: u64, random: &mut Random) -> Self {
        let length = lists::length(turn, random);
        let beats = lists::beats(length, random);
        let [ratios, delays] = lists::near_pairs(length, random);
        let units = lists::units(length, random);
        let mut list = Columns { numbers: [beats, ratios, delays], units };
        if random.below(6) == 0 {
            let Columns { numbers: [beats, ratios, delays], units } = &mut list;
            lists::spoil(beats, if random.below(2) == 0 { ratios } else { delays }, random);
            lists::spoil_units(units, random);
        }
        let count = if list.number() == 0 { probe::tidy_speed_segments(list.list()).len() } else { length };
        let mut rooms = [count; 4];
        let place = random.below(4) as usize;
        match random.below(6) {
            0 => (),
            1 => rooms[place] = count.saturating_sub(1),
            2 => rooms[place] = random.below(count as u64 + 1) as usize,
            3 => rooms = [0; 4],
            4 => rooms[place] += 1 + random.below(9) as usize,
            _ => rooms = rooms.map(|room| room + random.below(9) as usize),
        }
        Self { list, rooms }
    }

    /// The rooms before a call: numbers of every kind.
    fn rooms(&self) -> Columns {
        let mut random = Random::new(1, "rooms");
        let [beats, ratios, delays, units] = self.rooms.map(|room| room + PAST);
        let mut column = |length| (0..length).map(|_| f64::of_bits(random.bits())).collect();
        let numbers = [column(beats), column(ratios), column(delays)];
        Columns { numbers, units: (0..units).map(|_| random.below(256) as u8).collect() }
    }

    fn left_by(&self, port: Port) -> Left {
        let mut rooms = self.rooms();
        let Columns { numbers: [beats, ratios, delays], units } = &mut rooms;
        let [beats_room, ratios_room, delays_room, units_room] = self.rooms;
        let lent = [&mut beats[..beats_room], &mut ratios[..ratios_room], &mut delays[..delays_room]];
        let outcome = port(&self.list, lent, &mut units[..units_room]);
        Left { outcome, rooms }
    }

    /// By the original where the list is taken and its result has room.
    fn expected(&self) -> Left {
        self.expected_over(self.rooms())
    }

    fn expected_over(&self, mut rooms: Columns) -> Left {
        let number = self.list.number();
        if number != 0 {
            return Left { outcome: Outcome::refused(number), rooms };
        }
        let result = probe::tidy_speed_segments(self.list.list());
        if self.rooms.iter().any(|room| result.len() > *room) {
            return Left { outcome: Outcome::refused(7), rooms };
        }
        for (place, entry) in result.iter().enumerate() {
            let numbers = [entry.beat, entry.ratio, entry.delay];
            rooms.numbers.iter_mut().zip(numbers).for_each(|(room, number)| room[place] = number);
            rooms.units[place] = matches!(entry.unit, SpeedUnit::Seconds).into();
        }
        Left { outcome: Outcome { number: 0, count: result.len() }, rooms }
    }

    /// A case to be replayed.
    fn stored(&self) -> Case {
        let asked = Self { rooms: [stored::ROOM; 4], ..self.clone() };
        let numbers = [(); 3].map(|()| vec![stored::UNTOUCHED; stored::ROOM]);
        let units = vec![stored::UNTOUCHED_BYTE; stored::ROOM];
        let Left { outcome, rooms } = asked.expected_over(Columns { numbers, units });
        let mut case = Case::new(4);
        self.list.numbers.iter().for_each(|column| case.column(column));
        case.column(&self.list.units);
        rooms.numbers.iter().for_each(|room| case.column(&room[..outcome.count]));
        case.column(&rooms.units[..outcome.count]);
        case.words([outcome.number.into(), outcome.count as u64]);
        case
    }

    fn differs(&self, port: Port) -> bool {
        !self.expected().same(&self.left_by(port))
    }

    /// Without entries that can go while both sides still differ, halves first.
    fn plainest(mut self, port: Port) -> Self {
        let shortest = |asked: &Self| asked.list.lengths().into_iter().min().unwrap_or(0);
        let mut cut = shortest(&self);
        while cut > 0 {
            let mut from = 0;
            while from < shortest(&self) {
                let mut less = self.clone();
                for column in &mut less.list.numbers {
                    column.drain(from..(from + cut).min(column.len()));
                }
                less.list.units.drain(from..(from + cut).min(less.list.units.len()));
                if less.differs(port) {
                    self = less;
                } else {
                    from += cut;
                }
            }
            cut /= 2;
        }
        self
    }

    fn shown(&self, port: Port) -> String {
        let (wanted, got) = (self.expected().outcome, self.left_by(port).outcome);
        let front = |column: &[f64]| format!("{} {:?}", column.len(), &column[..column.len().min(8)]);
        let [beats, ratios, delays] = self.list.numbers.each_ref().map(|column| front(column));
        let units = &self.list.units;
        format!(
            "beats {beats}, ratios {ratios}, delays {delays}, units {} {:?}, rooms {:?}: number {} count {}, port number {} count {}",
            units.len(),
            &units[..units.len().min(8)],
            self.rooms,
            wanted.number,
            wanted.count,
            got.number,
            got.count,
        )
    }
}

/// What the comparison found.
#[derive(Default)]
pub struct Found {
    pub compared: u64,
    pub different: u64,
    /// How often each number was expected.
    pub numbers: [u64; 8],
    /// The plainest of the shortest lists that differ.
    pub plainest: Option<Asked>,
}

pub fn compare(work: Work, port: Port) -> Found {
    let mut random = Random::new(work.seed, NAME);
    let mut found = Found::default();
    for turn in 0..work.lists() {
        let asked = Asked::by_chance(turn, &mut random);
        let expected = asked.expected();
        found.compared += 1;
        found.numbers[expected.outcome.number as usize] += 1;
        if !expected.same(&asked.left_by(port)) {
            found.different += 1;
            let shorter = |kept: &Asked| asked.list.units.len() < kept.list.units.len();
            if found.plainest.as_ref().is_none_or(shorter) {
                found.plainest = Some(asked);
            }
        }
    }
    found.plainest = found.plainest.map(|asked| asked.plainest(port));
    found
}

pub fn stored_cases(cases: &mut Vec<Case>) {
    let mut random = Random::new(1, NAME);
    stored::add(cases, |turn| Asked::by_chance(turn, &mut random).stored());
}

pub fn compare_all(work: Work, total: &mut Total) {
    let found = compare(work, port);
    total.add(NAME, found.compared, found.different, found.plainest.map(|asked| asked.shown(port)));
}
