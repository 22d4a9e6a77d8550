//! Scroll and speed lists that lost their order, mended by a plain reading of the rule, which the original has not; and what the program mend writes.

use crate::cases::power;
use crate::lists;
use crate::random::Random;
use crate::report::{self, Entry, Input, MOST, SPEED};
use crate::timing::probe;

/// What becomes of a raw entry, as the port says it.
pub const KEPT: u8 = 0;
pub const REPLACED: u8 = 1;
pub const MERGED: u8 = 2;

/// A list by its columns: beats, then values, or of speeds ratios, delays and units. In a list that is asked the columns may differ in length.
#[derive(Clone, Debug, PartialEq)]
pub enum List {
    Scrolls([Vec<f64>; 2]),
    Speeds([Vec<f64>; 3], Vec<u8>),
}

/// What mending comes to: the places of the entries that are written, in the order of their rows, and the fate of each raw entry.
#[derive(Clone, Debug, PartialEq)]
pub struct Mended {
    pub places: Vec<usize>,
    pub fates: Vec<u8>,
}

impl List {
    pub fn numbers(&self) -> &[Vec<f64>] {
        match self {
            List::Scrolls(numbers) => numbers,
            List::Speeds(numbers, _) => numbers,
        }
    }

    pub fn numbers_mut(&mut self) -> &mut [Vec<f64>] {
        match self {
            List::Scrolls(numbers) => numbers,
            List::Speeds(numbers, _) => numbers,
        }
    }

    pub fn units(&self) -> &[u8] {
        match self {
            List::Scrolls(_) => &[],
            List::Speeds(_, units) => units,
        }
    }

    pub fn lengths(&self) -> Vec<usize> {
        let numbers = self.numbers().iter().map(Vec::len);
        match self {
            List::Scrolls(_) => numbers.collect(),
            List::Speeds(_, units) => numbers.chain([units.len()]).collect(),
        }
    }

    /// The number by which the list is refused, whatever the rooms; else 0.
    pub fn number(&self) -> u32 {
        let (lengths, numbers) = (self.lengths(), self.numbers());
        let beyond = |column: &Vec<f64>, most: f64| column.iter().any(|number| !(number.abs() <= most));
        if lengths.iter().any(|length| *length > 1_024) {
            1
        } else if lengths.iter().any(|length| *length != lengths[0]) {
            2
        } else if beyond(&numbers[0], 65_536.0) {
            3
        } else if numbers[1..].iter().any(|column| beyond(column, power(30)))
            || self.units().iter().any(|unit| *unit > 1)
        {
            4
        } else {
            0
        }
    }

    fn row(&self, place: usize) -> i32 {
        probe::beat_to_note_row(self.numbers()[0][place])
    }

    /// Whether the entry at a place counts as the same as that at another.
    fn near(&self, place: usize, other: usize) -> bool {
        let numbers = self.numbers()[1..].iter().all(|column| (column[place] - column[other]).abs() < 1e-6);
        numbers && self.units().get(place) == self.units().get(other)
    }

    /// Of a list that is taken: of each row, from the lowest, the last raw entry, unless near the one written before.
    pub fn mended(&self) -> Mended {
        let rows: Vec<i32> = (0..self.numbers()[0].len()).map(|place| self.row(place)).collect();
        let mut rising = rows.clone();
        rising.sort_unstable();
        rising.dedup();
        let mut places: Vec<usize> = Vec::new();
        for row in rising {
            let last = rows.iter().rposition(|other| *other == row).unwrap();
            if places.last().is_none_or(|before| !self.near(last, *before)) {
                places.push(last);
            }
        }
        let fate = |place: usize| {
            if rows[place + 1..].contains(&rows[place]) {
                REPLACED
            } else if places.contains(&place) {
                KEPT
            } else {
                MERGED
            }
        };
        Mended { fates: (0..rows.len()).map(fate).collect(), places }
    }

    /// The entries at places.
    pub fn at(&self, places: &[usize]) -> List {
        let of = |column: &Vec<f64>| places.iter().map(|place| column[*place]).collect();
        match self {
            List::Scrolls(numbers) => List::Scrolls(numbers.each_ref().map(of)),
            List::Speeds(numbers, units) => {
                List::Speeds(numbers.each_ref().map(of), places.iter().map(|place| units[*place]).collect())
            }
        }
    }

    pub fn by_chance(speeds: bool, turn: u64, random: &mut Random) -> List {
        let length = lists::length(turn, random);
        let mut beats = lists::beats(length, random);
        if random.below(2) == 0 {
            shuffle(&mut beats, random);
        }
        let mut list = if speeds {
            let [ratios, delays] = lists::near_pairs(length, random);
            List::Speeds([beats, ratios, delays], lists::units(length, random))
        } else {
            List::Scrolls([beats, lists::values(length, random)])
        };
        if random.below(6) == 0 {
            list.spoil(random);
        }
        list
    }

    fn spoil(&mut self, random: &mut Random) {
        match self {
            List::Scrolls([beats, values]) => lists::spoil(beats, values, random),
            List::Speeds([beats, ratios, delays], units) => {
                lists::spoil(beats, if random.below(2) == 0 { ratios } else { delays }, random);
                lists::spoil_units(units, random);
            }
        }
    }

    pub fn drain(&mut self, from: usize, cut: usize) {
        for column in self.numbers_mut() {
            column.drain(from.min(column.len())..(from + cut).min(column.len()));
        }
        if let List::Speeds(_, units) = self {
            units.drain(from.min(units.len())..(from + cut).min(units.len()));
        }
    }
}

fn shuffle(beats: &mut [f64], random: &mut Random) {
    (1..beats.len()).rev().for_each(|place| beats.swap(place, random.below(place as u64 + 1) as usize));
}

// ---- the program

/// The place of the scrolls among the lists of an input.
const SCROLL: usize = SPEED + 1;

/// What the program mend writes for an input.
pub fn answer(input: &[u8]) -> String {
    let Some(input) = report::read(input) else { return refused(10) };
    if input.lists.iter().any(|list| list.len() > MOST) {
        return refused(1);
    }
    let column =
        |entries: &[Entry], part: usize| entries.iter().map(|entry| f64::from_bits(entry.numbers[part])).collect();
    let (scrolls, speeds) = (&input.lists[SCROLL], &input.lists[SPEED]);
    let units = speeds.iter().map(|entry| entry.unit).collect();
    let lists = [
        (scrolls, List::Scrolls([0, 1].map(|part| column(scrolls, part)))),
        (speeds, List::Speeds([0, 1, 2].map(|part| column(speeds, part)), units)),
    ];
    match lists.iter().map(|(_, list)| list.number()).filter(|number| *number > 0).min() {
        Some(number) => refused(number),
        None => refused(0) + &lists.map(|(entries, list)| told(entries, &list)).concat(),
    }
}

fn refused(number: u32) -> String {
    format!("answer={number}\n")
}

/// The lines of the entries that are kept, as the input has them, and one for each raw entry.
fn told(entries: &[Entry], list: &List) -> String {
    let Mended { places, fates } = list.mended();
    let kept = places.iter().map(|place| entries[*place].clone()).collect();
    let mut input = Input::default();
    input.lists[if matches!(list, List::Speeds(..)) { SPEED } else { SCROLL }] = kept;
    let text = String::from_utf8(report::text(&input)).unwrap();
    let (_, lines) = text.split_once('\n').unwrap();
    let words = ["kept", "replaced", "merged"];
    let fates = fates.iter().enumerate().map(|(place, fate)| format!("{}={place}\n", words[usize::from(*fate)]));
    lines.to_string() + &fates.collect::<String>()
}

/// Inputs whose scrolls and speeds are of every length up to the limit and past it, in any order, some of them spoiled.
pub fn by_chance(turn: u64, random: &mut Random) -> Input {
    let mut input = Input { ssc: random.below(2) == 0, ..Input::default() };
    for (place, speeds) in [(SPEED, true), (SCROLL, false)] {
        let list = List::by_chance(speeds, 4 * turn + 1, random);
        let length = list.lengths().into_iter().min().unwrap();
        let numbers = |entry: usize| list.numbers().iter().map(|column| column[entry].to_bits()).collect();
        let unit = |entry: usize| list.units().get(entry).map_or(0, |unit| unit % 10);
        input.lists[place] = (0..length).map(|entry| Entry { numbers: numbers(entry), unit: unit(entry) }).collect();
    }
    input
}
