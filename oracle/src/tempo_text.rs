//! The tempo list as text: both calls that write it, and their comparison.

use crate::cases::{Cases, Work, power};
use crate::lists;
use crate::numbers::Number;
use crate::random::Random;
use crate::stored::{self, Case, Word};
use crate::tally::Total;
use crate::tidying::Outcome;
use crate::timing::{format_bpm_segments_f32_like_itg, format_bpm_segments_like_itg};
use std::fmt::Debug;

mod port {
    use super::Outcome;

    unsafe extern "C" {
        pub fn marrighentu_format_bpm_segments_like_itg(
            beats: *const f64,
            beats_len: usize,
            tempos: *const f64,
            tempos_len: usize,
            page: *mut u8,
            page_len: usize,
        ) -> Outcome;
        pub fn marrighentu_format_bpm_segments_f32_like_itg(
            beats: *const f32,
            beats_len: usize,
            tempos: *const f32,
            tempos_len: usize,
            page: *mut u8,
            page_len: usize,
        ) -> Outcome;
    }
}

/// What an entry of a list that is taken has at most, with its comma.
pub const MOST_ENTRY_BYTES: usize = 33;

/// The two widths that a list is written from.
pub trait Width: Number + Word + Debug + Into<f64> {
    const NAME: &str;
    fn of(number: f64) -> Self;
    fn original(list: &[(Self, Self)]) -> String;
    /// The port's text over the front of a page.
    fn port(beats: &[Self], tempos: &[Self], page: &mut [u8]) -> Outcome;
}

// SAFETY, of both calls: plain slices that are lent whole.

impl Width for f64 {
    const NAME: &str = "format_bpm_segments_like_itg";
    fn of(number: f64) -> Self {
        number
    }
    fn original(list: &[(f64, f64)]) -> String {
        format_bpm_segments_like_itg(list)
    }
    fn port(beats: &[f64], tempos: &[f64], page: &mut [u8]) -> Outcome {
        unsafe {
            port::marrighentu_format_bpm_segments_like_itg(
                beats.as_ptr(),
                beats.len(),
                tempos.as_ptr(),
                tempos.len(),
                page.as_mut_ptr(),
                page.len(),
            )
        }
    }
}

impl Width for f32 {
    const NAME: &str = "format_bpm_segments_f32_like_itg";
    fn of(number: f64) -> Self {
        number as f32
    }
    fn original(list: &[(f32, f32)]) -> String {
        format_bpm_segments_f32_like_itg(list)
    }
    fn port(beats: &[f32], tempos: &[f32], page: &mut [u8]) -> Outcome {
        unsafe {
            port::marrighentu_format_bpm_segments_f32_like_itg(
                beats.as_ptr(),
                beats.len(),
                tempos.as_ptr(),
                tempos.len(),
                page.as_mut_ptr(),
                page.len(),
            )
        }
    }
}

#[derive(Clone, Debug)]
pub struct Tempos<N> {
    pub beats: Vec<N>,
    pub tempos: Vec<N>,
}

impl<N: Width> Tempos<N> {
    /// The number of the list by itself, else 0: a beat that is not finite is refused, a tempo that is not finite is taken.
    fn number(&self) -> u32 {
        let beat_taken = |beat: &N| {
            let beat: f64 = (*beat).into();
            beat.is_finite() && beat.abs() <= 65_536.0
        };
        let tempo_taken = |tempo: &N| {
            let tempo: f64 = (*tempo).into();
            !tempo.is_finite() || tempo == 0.0 || (power(-20)..=power(30)).contains(&tempo.abs())
        };
        if self.beats.len() > 1_024 || self.tempos.len() > 1_024 {
            1
        } else if self.beats.len() != self.tempos.len() {
            2
        } else if !self.beats.iter().all(beat_taken) {
            3
        } else if !self.tempos.iter().all(tempo_taken) {
            4
        } else {
            0
        }
    }

    pub fn original(&self) -> String {
        N::original(&self.beats.iter().copied().zip(self.tempos.iter().copied()).collect::<Vec<_>>())
    }

    /// What a page of that length is expected to be answered, and the text that is then written.
    fn expected(&self, room: usize) -> (Outcome, String) {
        let text = if self.number() == 0 { self.original() } else { String::new() };
        match self.number() {
            0 if text.len() > room => (Outcome::refused(7), String::new()),
            0 => (Outcome { number: 0, count: text.len() }, text),
            number => (Outcome::refused(number), text),
        }
    }

    fn narrowed(from: (Vec<f64>, Vec<f64>)) -> Self {
        let width = |column: Vec<f64>| column.into_iter().map(N::of).collect();
        Self { beats: width(from.0), tempos: width(from.1) }
    }

    /// Lists of any kind, length and order, a few of them spoiled; tempos that are not finite are sprinkled in.
    fn by_chance(turn: u64, random: &mut Random) -> Self {
        let length = if turn.is_multiple_of(3) { lists::length(turn / 3, random) } else { random.below(24) as usize };
        let beats = if random.below(3) == 0 { lists::beats(length, random) } else { usual_beats(length, random) };
        let kind = random.below(4);
        let tempos = match kind {
            0 => lists::values(length, random),
            _ => (0..length).map(|_| tempo(kind, random)).collect(),
        };
        let (mut beats, mut tempos) = (beats, tempos);
        if random.below(5) == 0 {
            for tempo in &mut tempos {
                if random.below(4) == 0 {
                    *tempo = [f64::NAN, f64::INFINITY, f64::NEG_INFINITY, -0.0][random.below(4) as usize];
                }
            }
        }
        if random.below(8) == 0 {
            lists::spoil(&mut beats, &mut tempos, random);
        }
        Self::narrowed((beats, tempos))
    }
}

/// Beats as charts have them: on rows or a little off, rising.
fn usual_beats(length: usize, random: &mut Random) -> Vec<f64> {
    let mut row = -(random.below(200) as f64);
    (0..length)
        .map(|_| {
            row += random.below(400) as f64;
            let off = if random.below(3) == 0 { random.part() - 0.5 } else { 0.0 };
            (row + off) / 48.0
        })
        .collect()
}

/// A tempo: one that a charter writes, one half way between two texts, or one at a limit or where a text grows by a digit.
fn tempo(kind: u64, random: &mut Random) -> f64 {
    match (kind, random.below(4)) {
        (1, 0) => random.below(400) as f64,
        (1, _) => random.below(400_000) as f64 / 1_000.0,
        (2, _) => random.sign() * (2 * random.below(1 << 23) + 1) as f64 / 128.0,
        (_, 0) => {
            random.sign()
                * [0.0, power(-20), power(-20).moved(1), power(30), power(30).moved(-1)][random.below(5) as usize]
        }
        (_, 1) => random.sign() * f64::from(10f32.powi(random.below(10) as i32).moved(random.below(3) as i64 - 1)),
        _ => random.sign() * power(random.below(49) as i32 - 19) * (1.0 + random.part()),
    }
}

/// How many bytes past a page are looked at too.
const PAST: usize = 40;
const UNTOUCHED: u8 = 0xA5;

fn differs<N: Width>(list: &Tempos<N>, room: usize) -> Option<String> {
    let (outcome, text) = list.expected(room);
    let mut wanted = vec![UNTOUCHED; room + PAST];
    let mut got = wanted.clone();
    wanted[..text.len()].copy_from_slice(text.as_bytes());
    let answer = N::port(&list.beats, &list.tempos, &mut got[..room]);
    (answer != outcome || wanted != got).then(|| {
        let shown = String::from_utf8_lossy(&got).into_owned();
        format!("{list:?}, room {room}: {outcome:?} {text}, port {answer:?} {shown}")
    })
}

/// A page as long as the text, one byte shorter, one longer, as long as is always enough, or any.
fn room<N: Width>(list: &Tempos<N>, random: &mut Random) -> usize {
    let text = if list.number() == 0 { list.original().len() } else { 0 };
    match random.below(6) {
        0 | 1 => text,
        2 => text.saturating_sub(1),
        3 => text + 1,
        4 => MOST_ENTRY_BYTES * list.beats.len(),
        _ => random.below(2 * text as u64 + 60) as usize,
    }
}

fn compare_lists<N: Width>(work: Work, total: &mut Total) {
    let mut random = Random::new(work.seed, N::NAME);
    let (mut shown, mut compared) = (Vec::new(), 0);
    for turn in 0..work.lists() {
        let list = Tempos::<N>::by_chance(turn, &mut random);
        let room = room(&list, &mut random);
        compared += 1;
        shown.extend(differs(&list, room));
    }
    total.add(N::NAME, compared, shown.len() as u64, shown);
}

/// Every so many of the tempos that are taken, 1,024 to a list, and every beat of a row; all of them from 2,400 seconds on.
fn compare_each(work: Work, total: &mut Total) {
    let stride = (2_400 / work.seconds.max(1)).max(1) as usize | 1;
    let (low, high) = ((power(-20) as f32).to_bits(), (power(30) as f32).to_bits());
    let start = low + Random::new(work.seed, "each tempo").below(stride as u64) as u32;
    let mut tempos = (start..=high).step_by(stride).flat_map(|bits| [bits, bits | 1 << 31]).map(f32::from_bits);
    let mut rows = (-3_145_728..=3_145_728i32).cycle();
    let (mut compared, mut shown) = (0, Vec::new());
    loop {
        let tempos: Vec<f32> = tempos.by_ref().take(1_024).collect();
        if tempos.is_empty() {
            break;
        }
        let beats = tempos.iter().map(|_| rows.next().expect("without end") as f32 / 48.0).collect();
        compared += tempos.len() as u64;
        let list = Tempos { beats, tempos };
        shown.extend(differs(&list, MOST_ENTRY_BYTES * 1_024));
    }
    total.add("entries of f32 tempos and rows in turn", compared, shown.len() as u64, shown);
}

pub fn compare_all(work: Work, total: &mut Total) {
    compare_lists::<f64>(work, total);
    compare_lists::<f32>(work, total);
    compare_each(work, total);
}

fn stored_lists<N: Width>(call: u64, cases: &mut Vec<Case>) {
    let mut random = Random::new(1, N::NAME);
    let case = |list: &Tempos<N>| {
        let (outcome, text) = list.expected(stored::ROOM);
        let mut case = Case::new(call);
        case.column(&list.beats);
        case.column(&list.tempos);
        case.column(text.as_bytes());
        case.words([u64::from(outcome.number), outcome.count.word()]);
        case
    };
    stored::add(cases, |turn| case(&Tempos::by_chance(turn, &mut random)));
    // as long as the room, and a byte to either side
    for length in [stored::ROOM - 1, stored::ROOM, stored::ROOM + 1] {
        let list = std::iter::repeat_with(|| {
            let beats = usual_beats(12, &mut random);
            let tempos = beats.iter().map(|_| tempo(random.below(4), &mut random)).collect();
            Tempos::<N>::narrowed((beats, tempos))
        });
        cases.push(case(&list.into_iter().find(|list| list.original().len() == length).expect("without end")));
    }
}

/// Lists at both widths, and numbers of every kind with six decimals.
pub fn stored_cases(cases: &mut Vec<Case>) {
    stored_lists::<f64>(15, cases);
    stored_lists::<f32>(16, cases);
    let mut random = Random::new(1, "stored numbers with six decimals");
    let special = [
        0x0000_0000,
        0x8000_0000,
        0x3C00_0000,
        0x3CC0_0000,
        0xBD20_0000,
        0x47FF_FFFF,
        0x3506_37BD,
        0x3506_37BE,
        0xB089_705F,
        0x0000_0001,
        0x007F_FFFF,
        0x3F7F_FFFF,
        0x4B80_0000,
        0x5F7F_FFFF,
        0x5F80_0000,
        0x7F7F_FFFF,
        0xFF7F_FFFF,
        0x7F80_0000,
        0xFF80_0000,
        0x7FC0_0000,
    ];
    let by_chance: Vec<f32> = (0..80).map(|turn| f32::by_chance(turn, &mut random)).collect();
    for number in special.into_iter().map(f32::from_bits).chain(by_chance) {
        let mut case = Case::new(17);
        case.words([number.word()]);
        case.column(format!("{number:.6}").as_bytes());
        cases.push(case);
    }
}
