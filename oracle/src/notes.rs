//! Where a note stands and where it is drawn: the multiply-add with one rounding, the displayed beat and the beats of note data's rows.

use crate::cases::{Cases, Work, power};
use crate::lists;
use crate::numbers::Number;
use crate::random::Random;
use crate::stored::{self, Case, Word};
use crate::tally::Total;
use crate::tidying::Outcome;
use crate::timing::{Segment, TimingData, compute_row_to_beat, get_displayed_beat, probe};

#[derive(Clone, Copy, Debug)]
#[repr(C)]
pub struct Displayed {
    pub number: u32,
    pub beat: f64,
}

/// Bit for bit.
impl PartialEq for Displayed {
    fn eq(&self, other: &Self) -> bool {
        self.number == other.number && self.beat.answer() == other.beat.answer()
    }
}

impl Displayed {
    fn refused(number: u32) -> Self {
        Self { number, beat: 0.0 }
    }
}

mod port {
    use super::{Displayed, Outcome};

    unsafe extern "C" {
        pub fn marrighentu_mul_add_f64(a: f64, b: f64, c: f64) -> f64;
        pub fn marrighentu_mul_add_f32(a: f32, b: f32, c: f32) -> f32;
        pub fn marrighentu_get_displayed_beat(
            beats: *const f32,
            beats_len: usize,
            ratios: *const f32,
            ratios_len: usize,
            beat: f64,
        ) -> Displayed;
        pub fn marrighentu_build_scroll_prefix(
            beats: *const f32,
            beats_len: usize,
            ratios: *const f32,
            ratios_len: usize,
            prefix: *mut f64,
            prefix_len: usize,
        ) -> Outcome;
        pub fn marrighentu_get_displayed_beat_checked(
            beats: *const f32,
            beats_len: usize,
            ratios: *const f32,
            ratios_len: usize,
            prefix: *const f64,
            prefix_len: usize,
            beat: f64,
        ) -> Displayed;
        pub fn marrighentu_get_displayed_beats(
            beats: *const f32,
            beats_len: usize,
            ratios: *const f32,
            ratios_len: usize,
            asked: *const f64,
            asked_len: usize,
            numbers: *mut u32,
            numbers_len: usize,
            positions: *mut f64,
            positions_len: usize,
        ) -> Outcome;
        pub fn marrighentu_compute_row_to_beat(
            note_data: *const u8,
            note_data_len: usize,
            beats: *mut f32,
            beats_len: usize,
        ) -> Outcome;
    }
}

// SAFETY, of all calls below: plain numbers, and slices that are lent whole.

#[inline(always)]
pub fn mul_add_f64(a: f64, b: f64, c: f64) -> f64 {
    unsafe { port::marrighentu_mul_add_f64(a, b, c) }
}

#[inline(always)]
pub fn mul_add_f32(a: f32, b: f32, c: f32) -> f32 {
    unsafe { port::marrighentu_mul_add_f32(a, b, c) }
}

/// A scroll list: beats and ratios.
#[derive(Clone, Debug, Default)]
pub struct Scrolls {
    pub beats: Vec<f32>,
    pub ratios: Vec<f32>,
}

impl Scrolls {
    #[inline(always)]
    pub fn displayed(&self, beat: f64) -> Displayed {
        let Self { beats, ratios } = self;
        unsafe {
            port::marrighentu_get_displayed_beat(beats.as_ptr(), beats.len(), ratios.as_ptr(), ratios.len(), beat)
        }
    }

    pub fn prefix(&self, room: &mut [f64]) -> Outcome {
        let Self { beats, ratios } = self;
        unsafe {
            port::marrighentu_build_scroll_prefix(
                beats.as_ptr(),
                beats.len(),
                ratios.as_ptr(),
                ratios.len(),
                room.as_mut_ptr(),
                room.len(),
            )
        }
    }

    #[inline(always)]
    pub fn displayed_checked(&self, prefix: &[f64], beat: f64) -> Displayed {
        let Self { beats, ratios } = self;
        unsafe {
            port::marrighentu_get_displayed_beat_checked(
                beats.as_ptr(),
                beats.len(),
                ratios.as_ptr(),
                ratios.len(),
                prefix.as_ptr(),
                prefix.len(),
                beat,
            )
        }
    }

    pub fn displayed_each(&self, asked: &[f64], numbers: &mut [u32], positions: &mut [f64]) -> Outcome {
        let Self { beats, ratios } = self;
        unsafe {
            port::marrighentu_get_displayed_beats(
                beats.as_ptr(),
                beats.len(),
                ratios.as_ptr(),
                ratios.len(),
                asked.as_ptr(),
                asked.len(),
                numbers.as_mut_ptr(),
                numbers.len(),
                positions.as_mut_ptr(),
                positions.len(),
            )
        }
    }

    /// The original's timing, with the prefix that it builds.
    pub fn original(&self) -> TimingData {
        let entries = self.beats.iter().zip(&self.ratios);
        probe::scrolled_timing(
            entries.map(|(beat, ratio)| Segment { beat: (*beat).into(), value: (*ratio).into() }).collect(),
        )
    }

    /// The number of the list by itself, else 0.
    fn number(&self) -> u32 {
        let within = |number: &f32, most: f64| number.is_finite() && f64::from(number.abs()) <= most;
        if self.beats.len() > 1_024 || self.ratios.len() > 1_024 {
            1
        } else if self.beats.len() != self.ratios.len() {
            2
        } else if !self.beats.iter().all(|beat| within(beat, 65_536.0)) {
            3
        } else if !self.ratios.iter().all(|ratio| within(ratio, power(30))) {
            4
        } else if self.beats.windows(2).any(|two| two[1] < two[0]) {
            5
        } else {
            0
        }
    }

    /// Lists of any kind and order, a few of them spoiled.
    fn any(turn: u64, random: &mut Random) -> Self {
        let length = if random.below(3) == 0 { lists::length(turn, random) } else { random.below(24) as usize };
        let (mut beats, mut values) = (lists::beats(length, random), lists::values(length, random));
        if random.below(10) == 0 {
            lists::spoil(&mut beats, &mut values, random);
        }
        let narrow = |column: Vec<f64>| column.into_iter().map(|number| number as f32).collect();
        Self { beats: narrow(beats), ratios: narrow(values) }
    }

    /// As charts have them: on rows or a little off, some beats twice, ratios about 1; a few fall.
    fn usual(random: &mut Random) -> Self {
        let mut scrolls = Self::default();
        let mut row = random.below(400) as f64 - 100.0;
        let length = if random.below(40) == 0 { 1_024 } else { random.below(40) as usize };
        for _ in 0..length {
            let off = if random.below(4) == 0 { random.part() - 0.5 } else { 0.0 };
            scrolls.beats.push(((row + off) / 48.0) as f32);
            scrolls.ratios.push(match random.below(6) {
                0 => 0.0,
                1 => -(random.part() as f32),
                2 => [1.0, 0.5, 2.0, 1.37][random.below(4) as usize],
                3 => (random.part() * 1e6) as f32,
                _ => random.part() as f32 * 4.0,
            });
            row += match random.below(60) {
                0 => -1.0,
                1..20 => 0.0,
                _ => random.below(96) as f64,
            };
        }
        scrolls
    }

    fn by_chance(turn: u64, random: &mut Random) -> Self {
        if turn.is_multiple_of(3) { Self::any(turn, random) } else { Self::usual(random) }
    }

    fn asked_beat(&self, random: &mut Random) -> f64 {
        let near = |random: &mut Random| match self.beats.len() {
            0 => random.below(96) as f64 / 48.0,
            length => f64::from(self.beats[random.below(length as u64) as usize]),
        };
        match random.below(12) {
            0 => f64::from_bits(random.bits()),
            1 => 65_536.0 * random.sign(),
            2 => [0.0, -0.0, power(-1074), f64::NAN, f64::INFINITY, 65_536f64.moved(1)][random.below(6) as usize],
            3 => (random.part() - 0.5) * 2.0 * 65_536.0,
            4 | 5 => near(random),
            6 => near(random).moved(random.below(3) as i64 - 1),
            7 => near(random) + random.part(),
            _ => near(random) + (random.below(200) as f64 - 60.0) / 48.0,
        }
    }
}

fn asked_number(beat: f64) -> u32 {
    if beat.is_finite() && beat.abs() <= 65_536.0 { 0 } else { 3 }
}

fn lowest(one: u32, other: u32) -> u32 {
    [one, other].into_iter().filter(|number| *number != 0).min().unwrap_or(0)
}

/// What the call that tests everything is expected to answer.
fn expected(scrolls: &Scrolls, original: Option<&TimingData>, beat: f64) -> Displayed {
    match (lowest(scrolls.number(), asked_number(beat)), original) {
        (0, Some(timing)) => Displayed { number: 0, beat: get_displayed_beat(timing, beat) },
        (number, _) => Displayed::refused(number),
    }
}

/// How many places past a room are looked at too.
const PAST: usize = 4;

fn same(one: &[f64], other: &[f64]) -> bool {
    one.iter().map(|number| number.answer()).eq(other.iter().map(|number| number.answer()))
}

/// The prefix, and the player's questions over it.
fn prefix_differs(
    scrolls: &Scrolls,
    original: Option<&TimingData>,
    asked: &[f64],
    random: &mut Random,
) -> Option<String> {
    let room = (scrolls.beats.len() + random.below(5) as usize).saturating_sub(1);
    let before: Vec<f64> = (0..room + PAST).map(|_| f64::from_bits(random.bits())).collect();
    let (mut wanted, mut got) = (before.clone(), before);
    let outcome = match (scrolls.number(), original) {
        (0, _) if scrolls.beats.len() > room => Outcome::refused(7),
        (0, Some(timing)) => {
            let prefix = probe::scroll_prefix(timing);
            wanted[..prefix.len()].copy_from_slice(&prefix);
            Outcome { number: 0, count: prefix.len() }
        }
        (number, _) => Outcome::refused(number),
    };
    let answer = scrolls.prefix(&mut got[..room]);
    if answer != outcome || !same(&wanted, &got) {
        return Some(format!("{scrolls:?}, room {room}: {outcome:?} {wanted:?}, port {answer:?} {got:?}"));
    }
    asked.iter().find_map(|beat| {
        let answer = scrolls.displayed_checked(&got[..room], *beat);
        let agrees = if answer.number != asked_number(*beat) {
            false
        } else if outcome.number == 0 {
            answer == expected(scrolls, original, *beat)
        } else {
            answer.number == 0 || answer == Displayed::refused(3)
        };
        (!agrees).then(|| format!("{scrolls:?}, beat {beat:?}: the player's call {answer:?}"))
    })
}

fn batch_differs(
    scrolls: &Scrolls,
    original: Option<&TimingData>,
    asked: &[f64],
    random: &mut Random,
) -> Option<String> {
    let mut room = || (asked.len() + random.below(4) as usize).saturating_sub(usize::from(random.below(4) == 0));
    let (numbers_room, positions_room) = (room(), room());
    let numbers: Vec<u32> = (0..numbers_room + PAST).map(|_| random.bits() as u32).collect();
    let positions: Vec<f64> = (0..positions_room + PAST).map(|_| f64::from_bits(random.bits())).collect();
    let (mut wanted_numbers, mut wanted_positions) = (numbers.clone(), positions.clone());
    let (mut got_numbers, mut got_positions) = (numbers, positions);
    let outcome = match scrolls.number() {
        0 if asked.len() > numbers_room.min(positions_room) => Outcome::refused(7),
        0 => {
            for (place, beat) in asked.iter().enumerate() {
                let one = expected(scrolls, original, *beat);
                (wanted_numbers[place], wanted_positions[place]) = (one.number, one.beat);
            }
            Outcome { number: 0, count: asked.len() }
        }
        number => Outcome::refused(number),
    };
    let answer = scrolls.displayed_each(asked, &mut got_numbers[..numbers_room], &mut got_positions[..positions_room]);
    let agrees = answer == outcome && wanted_numbers == got_numbers && same(&wanted_positions, &got_positions);
    (!agrees).then(|| {
        format!("{scrolls:?}, asked {asked:?}, rooms {numbers_room} and {positions_room}: {outcome:?}, port {answer:?}")
    })
}

/// The port's answer over note data, in a room of that length.
pub fn row_to_beat(note_data: &[u8], room: &mut [f32]) -> Outcome {
    unsafe { port::marrighentu_compute_row_to_beat(note_data.as_ptr(), note_data.len(), room.as_mut_ptr(), room.len()) }
}

/// Blanks of every kind and what is none, commas, and what notes are written with.
const ANY_BYTES: &[u8] = b"\t\n\x0b\x0c\r ,,0014M\n\n";

/// Note data by chance: rows of any width, line ends of every kind, commas anywhere, some measures empty.
fn note_data(turn: u64, random: &mut Random) -> Vec<u8> {
    let length = match turn % 64 {
        0 => [0, 1, 2, 3][random.below(4) as usize],
        1 => 3_000 + random.below(3_000),
        _ => random.below(160),
    };
    let kind = random.below(4);
    let mut data = Vec::new();
    while (data.len() as u64) < length {
        match kind {
            // well-formed rows
            0 => {
                let rows = [4, 8, 12, 16, 24, 48, 3, 5, 7, 192][random.below(10) as usize];
                (0..rows).for_each(|_| data.extend_from_slice(b"0100\n"));
                data.extend_from_slice(b",\n");
            }
            1 => data.extend_from_slice(
                [&b"1000\r\n"[..], b"\n", b"  \n", b",", b"0000\n,\n", b"\x0b\n"][random.below(6) as usize],
            ),
            _ => data.push(ANY_BYTES[random.below(ANY_BYTES.len() as u64) as usize]),
        }
    }
    if random.below(3) == 0 {
        data.pop();
    }
    data
}

fn rows_differ(data: &[u8], random: &mut Random) -> Option<String> {
    let beats = compute_row_to_beat(data);
    let room = (beats.len() + random.below(4) as usize).saturating_sub(usize::from(random.below(4) == 0));
    let before: Vec<f32> = (0..room + PAST).map(|_| f32::from_bits(random.bits() as u32)).collect();
    let (mut wanted, mut got) = (before.clone(), before);
    let outcome = if data.len() > 1 << 20 {
        Outcome::refused(1)
    } else if beats.len() > room {
        Outcome::refused(7)
    } else {
        wanted[..beats.len()].copy_from_slice(&beats);
        Outcome { number: 0, count: beats.len() }
    };
    let answer = row_to_beat(data, &mut got[..room]);
    let agrees = answer == outcome && wanted.iter().map(|x| x.answer()).eq(got.iter().map(|x| x.answer()));
    (!agrees).then(|| {
        format!("{} bytes {:?}, room {room}: {outcome:?}, port {answer:?}", data.len(), &data[..data.len().min(200)])
    })
}

/// Three numbers for the multiply-add: often what is added lies close to the product, or far below it.
fn factors(turn: u64, random: &mut Random) -> [f64; 3] {
    let number = |random: &mut Random| match random.below(5) {
        0 => f64::from_bits(random.bits()),
        1 => f64::by_chance(random.bits(), random),
        2 => f64::from(random.below(4_000) as u32) / 48.0,
        3 => f64::from(random.part() as f32 * 4.0),
        _ => random.sign() * power(random.below(200) as i32 - 100) * (1.0 + random.part()),
    };
    let (a, b) = (number(random), number(random));
    let c = match turn % 6 {
        0 => -(a * b),
        1 => (-(a * b)).moved(random.below(5) as i64 - 2),
        2 => (a * b) * power(random.below(240) as i32 - 120),
        3 => random.sign() * [0.0, f64::INFINITY, power(-1074), f64::MAX][random.below(4) as usize],
        _ => number(random),
    };
    [a, b, c]
}

fn factors_f32(turn: u64, random: &mut Random) -> [f32; 3] {
    let number = |random: &mut Random| match random.below(5) {
        0 => f32::from_bits(random.bits() as u32),
        1 => f32::by_chance(random.bits(), random),
        2 => random.below(4_000) as f32,
        3 => 4.0 / (1 + random.below(400)) as f32,
        _ => random.sign() as f32 * 2f32.powi(random.below(120) as i32 - 60) * (1.0 + random.part() as f32),
    };
    let (a, b) = (number(random), number(random));
    let c = match turn % 6 {
        0 => -(a * b),
        1 => (-(a * b)).moved(random.below(5) as i64 - 2),
        2 => (a * b) * 2f32.powi(random.below(60) as i32 - 30),
        3 => random.sign() as f32 * [0.0, f32::INFINITY, f32::from_bits(1), f32::MAX][random.below(4) as usize],
        _ => number(random),
    };
    [a, b, c]
}

fn compare_mul_add(work: Work, total: &mut Total) {
    let turns = 100 * work.lists();
    let mut random = Random::new(work.seed, "mul_add");
    let (mut shown, mut narrow_shown) = (Vec::new(), Vec::new());
    for turn in 0..turns {
        let [a, b, c] = factors(turn, &mut random);
        let (wanted, got) = (a.mul_add(b, c), mul_add_f64(a, b, c));
        if wanted.answer() != got.answer() {
            shown.push(format!("{a:e} {b:e} {c:e}: {}, port {}", wanted.shown(), got.shown()));
        }
        let [a, b, c] = factors_f32(turn, &mut random);
        let (wanted, got) = (a.mul_add(b, c), mul_add_f32(a, b, c));
        if wanted.answer() != got.answer() {
            narrow_shown.push(format!("{a:e} {b:e} {c:e}: {}, port {}", wanted.shown(), got.shown()));
        }
    }
    total.add("mul_add_f64", turns, shown.len() as u64, shown);
    total.add("mul_add_f32", turns, narrow_shown.len() as u64, narrow_shown);
}

pub fn compare_all(work: Work, total: &mut Total) {
    compare_mul_add(work, total);

    let mut random = Random::new(work.seed, "displayed beats");
    let (mut singles, mut single_shown, mut others, mut prefix_shown, mut batch_shown) =
        (0, Vec::new(), 0, Vec::new(), Vec::new());
    for turn in 0..work.lists() {
        let scrolls = Scrolls::by_chance(turn, &mut random);
        let original = (scrolls.number() == 0).then(|| scrolls.original());
        let asked: Vec<f64> = (0..random.below(24)).map(|_| scrolls.asked_beat(&mut random)).collect();
        for beat in &asked {
            let (wanted, got) = (expected(&scrolls, original.as_ref(), *beat), scrolls.displayed(*beat));
            singles += 1;
            if wanted != got {
                single_shown.push(format!("{scrolls:?}, beat {beat:?}: {wanted:?}, port {got:?}"));
            }
        }
        others += 1;
        prefix_shown.extend(prefix_differs(&scrolls, original.as_ref(), &asked, &mut random));
        batch_shown.extend(batch_differs(&scrolls, original.as_ref(), &asked, &mut random));
    }
    total.add("get_displayed_beat", singles, single_shown.len() as u64, single_shown);
    total.add("build_scroll_prefix and the player's questions", others, prefix_shown.len() as u64, prefix_shown);
    total.add("get_displayed_beats", others, batch_shown.len() as u64, batch_shown);

    let mut random = Random::new(work.seed, "row to beat");
    let (mut compared, mut shown) = (0, Vec::new());
    for turn in 0..work.lists() {
        compared += 1;
        shown.extend(rows_differ(&note_data(turn, &mut random), &mut random));
    }
    // the limit and the lengths beside it: one row a byte pair, one row in all, and nothing but commas
    for length in [(1 << 20) - 1, 1 << 20, (1 << 20) + 1] {
        for unit in [&b"1\n"[..], b"1", b",", b"1\n,\n"] {
            let data: Vec<u8> = unit.iter().copied().cycle().take(length).collect();
            compared += 1;
            shown.extend(rows_differ(&data, &mut random));
        }
    }
    total.add("compute_row_to_beat", compared, shown.len() as u64, shown);
}

/// Cases for the displayed beat and the rows of note data.
pub fn stored_cases(cases: &mut Vec<Case>) {
    let mut random = Random::new(1, "stored displayed beats");
    let displayed = |turn: u64| {
        // no longer than the rooms of stored cases
        let scrolls = std::iter::repeat_with(|| Scrolls::by_chance(turn, &mut random))
            .find(|scrolls| scrolls.beats.len().max(scrolls.ratios.len()) <= stored::ROOM)
            .expect("most are short");
        let original = (scrolls.number() == 0).then(|| scrolls.original());
        let asked: Vec<f64> = (0..random.below(24)).map(|_| scrolls.asked_beat(&mut random)).collect();
        let answers: Vec<Displayed> = asked.iter().map(|beat| expected(&scrolls, original.as_ref(), *beat)).collect();
        let mut case = Case::new(13);
        case.column(&scrolls.beats);
        case.column(&scrolls.ratios);
        case.column(&asked);
        case.column(&answers.iter().map(|answer| answer.number).collect::<Vec<_>>());
        case.column(&answers.iter().map(|answer| answer.beat).collect::<Vec<_>>());
        case.column(&original.as_ref().map(probe::scroll_prefix).unwrap_or_default());
        case.words([u64::from(scrolls.number())]);
        case
    };
    stored::add(cases, displayed);
    let mut random = Random::new(1, "stored row to beat");
    let rows = |turn: u64| {
        let data = note_data(turn, &mut random);
        let beats = compute_row_to_beat(&data);
        let mut case = Case::new(14);
        // more rows than a room of stored cases has are refused
        let taken = beats.len() <= stored::ROOM;
        case.column(&data);
        case.column(if taken { &beats[..] } else { &[] });
        case.words(if taken { [0, beats.len().word()] } else { [7, 0] });
        case
    };
    stored::add(cases, rows);
}
