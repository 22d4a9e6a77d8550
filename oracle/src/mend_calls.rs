//! The calls that mend scrolls and speeds, beside the plain reading of `mend`, and their comparison.

use crate::cases::Work;
use crate::mend::{KEPT, List, Mended};
use crate::numbers::Number;
use crate::random::Random;
use crate::tally::Total;
use crate::tidying::Outcome;

/// The rooms of a call, as long as they are lent: those of the list's columns, and that of the fates.
#[derive(Clone, Debug)]
pub struct Rooms {
    pub list: List,
    pub fates: Vec<u8>,
}

/// A port of both calls: a list, and rooms with places past their ends, of which so many are lent.
pub type Port = fn(&List, &mut Rooms, &[usize]) -> Outcome;

/// How many places past each room are looked at too.
const PAST: usize = 4;

pub fn port(list: &List, rooms: &mut Rooms, lent: &[usize]) -> Outcome {
    unsafe extern "C" {
        fn marrighentu_mend_scrolls(
            beats: *const f64,
            beats_len: usize,
            values: *const f64,
            values_len: usize,
            out_beats: *mut f64,
            out_beats_len: usize,
            out_values: *mut f64,
            out_values_len: usize,
            out_fates: *mut u8,
            out_fates_len: usize,
        ) -> Outcome;
        fn marrighentu_mend_speeds(
            beats: *const f64,
            beats_len: usize,
            ratios: *const f64,
            ratios_len: usize,
            delays: *const f64,
            delays_len: usize,
            units: *const u8,
            units_len: usize,
            out_beats: *mut f64,
            out_beats_len: usize,
            out_ratios: *mut f64,
            out_ratios_len: usize,
            out_delays: *mut f64,
            out_delays_len: usize,
            out_units: *mut u8,
            out_units_len: usize,
            out_fates: *mut u8,
            out_fates_len: usize,
        ) -> Outcome;
    }
    let fates = &mut rooms.fates[..*lent.last().unwrap()];
    // SAFETY: every slice is lent whole and apart, and crosses as its pointer and its length.
    match (list, &mut rooms.list) {
        (List::Scrolls([beats, values]), List::Scrolls([out_beats, out_values])) => unsafe {
            let (out_beats, out_values) = (&mut out_beats[..lent[0]], &mut out_values[..lent[1]]);
            marrighentu_mend_scrolls(
                beats.as_ptr(),
                beats.len(),
                values.as_ptr(),
                values.len(),
                out_beats.as_mut_ptr(),
                out_beats.len(),
                out_values.as_mut_ptr(),
                out_values.len(),
                fates.as_mut_ptr(),
                fates.len(),
            )
        },
        (
            List::Speeds([beats, ratios, delays], units),
            List::Speeds([out_beats, out_ratios, out_delays], out_units),
        ) => unsafe {
            let (out_beats, out_ratios) = (&mut out_beats[..lent[0]], &mut out_ratios[..lent[1]]);
            let (out_delays, out_units) = (&mut out_delays[..lent[2]], &mut out_units[..lent[3]]);
            marrighentu_mend_speeds(
                beats.as_ptr(),
                beats.len(),
                ratios.as_ptr(),
                ratios.len(),
                delays.as_ptr(),
                delays.len(),
                units.as_ptr(),
                units.len(),
                out_beats.as_mut_ptr(),
                out_beats.len(),
                out_ratios.as_mut_ptr(),
                out_ratios.len(),
                out_delays.as_mut_ptr(),
                out_delays.len(),
                out_units.as_mut_ptr(),
                out_units.len(),
                fates.as_mut_ptr(),
                fates.len(),
            )
        },
        _ => unreachable!("rooms of another kind"),
    }
}

/// A list, and the lengths of the rooms: of its columns, and last of the fates.
#[derive(Clone, Debug)]
pub struct Asked {
    pub list: List,
    pub lent: Vec<usize>,
}

struct Left {
    outcome: Outcome,
    rooms: Rooms,
}

impl Left {
    fn same(&self, other: &Self) -> bool {
        let (one, two) = (&self.rooms.list, &other.rooms.list);
        let mut places = one.numbers().iter().flatten().zip(two.numbers().iter().flatten());
        self.outcome == other.outcome
            && self.rooms.fates == other.rooms.fates
            && one.units() == two.units()
            && places.all(|(one, other)| one.bits() == other.bits())
    }
}

impl Asked {
    fn by_chance(speeds: bool, turn: u64, random: &mut Random) -> Self {
        let list = List::by_chance(speeds, turn, random);
        let raw = list.lengths()[0];
        let count = if list.number() == 0 { list.mended().places.len() } else { raw };
        let mut lent = vec![count; list.lengths().len()];
        lent.push(raw);
        let place = random.below(lent.len() as u64) as usize;
        match random.below(7) {
            0 => (),
            1 => lent[place] = lent[place].saturating_sub(1),
            2 => lent[place] = random.below(lent[place] as u64 + 1) as usize,
            3 => lent.fill(0),
            4 => lent[place] += 1 + random.below(9) as usize,
            5 => *lent.last_mut().unwrap() = count,
            _ => lent.iter_mut().for_each(|room| *room += random.below(9) as usize),
        }
        Self { list, lent }
    }

    /// The rooms before a call: numbers of every kind.
    fn rooms(&self) -> Rooms {
        let mut random = Random::new(1, "rooms");
        let fates = |random: &mut Random, room: usize| (0..room + PAST).map(|_| random.below(256) as u8).collect();
        let mut column = |room: usize| (0..room + PAST).map(|_| f64::of_bits(random.bits())).collect();
        let lent = &self.lent;
        let list = match self.list {
            List::Scrolls(_) => List::Scrolls([column(lent[0]), column(lent[1])]),
            List::Speeds(..) => {
                let numbers = [column(lent[0]), column(lent[1]), column(lent[2])];
                List::Speeds(numbers, fates(&mut random, lent[3]))
            }
        };
        Rooms { list, fates: fates(&mut Random::new(1, "fates"), *lent.last().unwrap()) }
    }

    fn left_by(&self, port: Port) -> Left {
        let mut rooms = self.rooms();
        let outcome = port(&self.list, &mut rooms, &self.lent);
        Left { outcome, rooms }
    }

    /// By the plain reading.
    fn expected(&self) -> Left {
        let mut rooms = self.rooms();
        let number = self.list.number();
        if number != 0 {
            return Left { outcome: Outcome::refused(number), rooms };
        }
        let Mended { places, fates } = self.list.mended();
        let (fates_room, list_rooms) = self.lent.split_last().unwrap();
        if list_rooms.iter().any(|room| places.len() > *room) || fates.len() > *fates_room {
            return Left { outcome: Outcome::refused(7), rooms };
        }
        let written = self.list.at(&places);
        for (room, column) in rooms.list.numbers_mut().iter_mut().zip(written.numbers()) {
            room[..column.len()].copy_from_slice(column);
        }
        if let (List::Speeds(_, room), List::Speeds(_, units)) = (&mut rooms.list, &written) {
            room[..units.len()].copy_from_slice(units);
        }
        rooms.fates[..fates.len()].copy_from_slice(&fates);
        Left { outcome: Outcome { number: 0, count: places.len() }, rooms }
    }

    fn differs(&self, port: Port) -> bool {
        !self.expected().same(&self.left_by(port))
    }

    /// Without entries that can go while both sides still differ, halves first.
    fn plainest(mut self, port: Port) -> Self {
        let shortest = |asked: &Self| asked.list.lengths().into_iter().min().unwrap_or(0);
        let mut cut = shortest(&self);
        while cut > 0 {
            let mut from = 0;
            while from < shortest(&self) {
                let mut less = self.clone();
                less.list.drain(from, cut);
                if less.differs(port) {
                    self = less;
                } else {
                    from += cut;
                }
            }
            cut /= 2;
        }
        self
    }

    fn shown(&self, port: Port) -> String {
        let (wanted, got) = (self.expected(), self.left_by(port));
        let front = |column: &Vec<f64>| format!("{} {:?}", column.len(), &column[..column.len().min(8)]);
        let numbers: Vec<String> = self.list.numbers().iter().map(front).collect();
        let fates = |left: &Left| format!("{:?}", &left.rooms.fates[..left.rooms.fates.len().min(8)]);
        format!(
            "{}, rooms {:?}: number {} count {} fates {}, port number {} count {} fates {}",
            numbers.join(", "),
            self.lent,
            wanted.outcome.number,
            wanted.outcome.count,
            fates(&wanted),
            got.outcome.number,
            got.outcome.count,
            fates(&got),
        )
    }
}

/// What the comparison of one call found.
#[derive(Default)]
pub struct Found {
    pub compared: u64,
    pub different: u64,
    /// How often each number was expected, and each fate.
    pub numbers: [u64; 8],
    pub fates: [u64; 3],
    /// The plainest of the shortest lists that differ.
    pub plainest: Option<Asked>,
}

pub fn name(speeds: bool) -> &'static str {
    if speeds { "mend_speeds" } else { "mend_scrolls" }
}

pub fn compare(work: Work, speeds: bool, port: Port) -> Found {
    let mut random = Random::new(work.seed, name(speeds));
    let mut found = Found::default();
    for turn in 0..work.lists() {
        let asked = Asked::by_chance(speeds, turn, &mut random);
        let expected = asked.expected();
        found.compared += 1;
        found.numbers[expected.outcome.number as usize] += 1;
        let mut differs = !expected.same(&asked.left_by(port));
        if expected.outcome.number == 0 {
            let Mended { places, fates } = asked.list.mended();
            fates.iter().for_each(|fate| found.fates[usize::from(*fate)] += 1);
            // what is written, mended again, stays as it is
            let again = Asked { list: asked.list.at(&places), lent: vec![places.len(); asked.lent.len()] };
            let all_kept =
                again.list.mended() == Mended { places: (0..places.len()).collect(), fates: vec![KEPT; places.len()] };
            differs = differs || !all_kept || again.differs(port);
        }
        if differs {
            found.different += 1;
            let shorter = |kept: &Asked| asked.list.lengths()[0] < kept.list.lengths()[0];
            if found.plainest.as_ref().is_none_or(shorter) {
                found.plainest = Some(asked);
            }
        }
    }
    found.plainest = found.plainest.map(|asked| asked.plainest(port));
    found
}

pub fn compare_all(work: Work, total: &mut Total) {
    for speeds in [false, true] {
        let found = compare(work, speeds, port);
        total.add(name(speeds), found.compared, found.different, found.plainest.map(|asked| asked.shown(port)));
    }
}
