//! Warps and delays as SM stops: the original and the port, and their comparison.

use crate::cases::{Work, power};
use crate::lists;
use crate::random::Random;
use crate::stored::{self, Case};
use crate::tally::Total;
use crate::timing::convert_warps_and_delays_to_sm_stops;

type Pairs = Vec<(f32, f32)>;

#[derive(Clone, Copy, Debug, PartialEq)]
#[repr(C)]
pub struct Filled {
    pub number: u32,
    pub count: usize,
    pub own: bool,
}

/// Tempos, delays and warps in columns, and the stops flat.
#[derive(Clone, Debug, Default)]
pub struct Lists {
    pub tempos: (Vec<f32>, Vec<f32>),
    pub stops: Vec<f32>,
    pub delays: (Vec<f32>, Vec<f32>),
    pub warps: (Vec<f32>, Vec<f32>),
}

fn pairs((beats, values): &(Vec<f32>, Vec<f32>)) -> Pairs {
    beats.iter().copied().zip(values.iter().copied()).collect()
}

impl Lists {
    pub fn pairs(&self) -> [Pairs; 4] {
        let stops = self.stops.chunks_exact(2).map(|entry| (entry[0], entry[1])).collect();
        [pairs(&self.tempos), stops, pairs(&self.delays), pairs(&self.warps)]
    }

    pub fn port(&self, work: &mut [f32]) -> Filled {
        unsafe extern "C" {
            #[link_name = "marrighentu_convert_warps_and_delays_to_sm_stops"]
            #[allow(clippy::too_many_arguments)]
            fn call(
                tempo_beats: *const f32,
                tempo_beats_len: usize,
                tempo_values: *const f32,
                tempo_values_len: usize,
                stops: *const f32,
                stops_len: usize,
                delay_beats: *const f32,
                delay_beats_len: usize,
                delay_values: *const f32,
                delay_values_len: usize,
                warp_beats: *const f32,
                warp_beats_len: usize,
                warp_lengths: *const f32,
                warp_lengths_len: usize,
                work: *mut f32,
                work_len: usize,
            ) -> Filled;
        }
        let Self { tempos, stops, delays, warps } = self;
        // SAFETY: the slices are lent whole and apart, and a slice crosses as its pointer and its length.
        unsafe {
            call(
                tempos.0.as_ptr(),
                tempos.0.len(),
                tempos.1.as_ptr(),
                tempos.1.len(),
                stops.as_ptr(),
                stops.len(),
                delays.0.as_ptr(),
                delays.0.len(),
                delays.1.as_ptr(),
                delays.1.len(),
                warps.0.as_ptr(),
                warps.0.len(),
                warps.1.as_ptr(),
                warps.1.len(),
                work.as_mut_ptr(),
                work.len(),
            )
        }
    }

    /// What the rules refuse, before any result is known; the work list's size is asked too.
    fn number(&self, size: usize) -> u32 {
        let beat = |beat: &f32| beat.is_finite() && beat.abs() <= 65_536.0;
        let tempo = |value: &f32| (power(-20)..=power(30)).contains(&f64::from(value.abs()));
        let up_to = |power_of: i32| move |value: &f32| value.is_finite() && f64::from(value.abs()) <= power(power_of);
        let list = |(beats, values): &(Vec<f32>, Vec<f32>), in_range: &dyn Fn(&f32) -> bool| {
            if beats.len() > 1_024 || values.len() > 1_024 {
                1
            } else if beats.len() != values.len() {
                2
            } else if !beats.iter().all(beat) {
                3
            } else if !values.iter().all(in_range) {
                4
            } else {
                0
            }
        };
        let flat = if self.stops.len() > 2_048 {
            1
        } else if self.stops.len() % 2 != 0 {
            2
        } else if !self.stops.iter().step_by(2).all(beat) {
            3
        } else if !self.stops.iter().skip(1).step_by(2).all(up_to(50)) {
            4
        } else {
            0
        };
        let numbers = [
            list(&self.tempos, &tempo),
            flat,
            list(&self.delays, &up_to(50)),
            list(&self.warps, &up_to(30)),
            if size % 2 == 0 { 0 } else { 2 },
        ];
        numbers.into_iter().filter(|number| *number != 0).min().unwrap_or(0)
    }

    /// Lists in any order that share beats, signs of zero among them; one in ten has a list spoiled, and some have no tempo, delay or warp.
    fn any(turn: u64, random: &mut Random) -> Self {
        let mut few: Vec<f32> = (0..8).map(|_| (random.below(97) as i32 - 48) as f32 / 24.0).collect();
        few.extend([0.0, -0.0, 65_536.0, -65_536.0]);
        let shared = random.below(2) == 0;
        let mut list = |most: f64, tempos: bool| {
            let length = match random.below(6) {
                0 => 0,
                1 => lists::length(turn, random),
                _ => random.below(9) as usize,
            };
            let (mut beats, mut values) = (lists::beats(length, random), lists::values(length, random));
            if shared {
                beats.iter_mut().for_each(|beat| *beat = few[random.below(few.len() as u64) as usize].into());
                if random.below(3) > 0 {
                    beats.sort_by(|one, other| one.partial_cmp(other).unwrap());
                }
            }
            for value in &mut values {
                *value = match (tempos, random.below(8)) {
                    (true, 0) => power(-20) * random.sign(),
                    (true, 1) => power(30) * random.sign(),
                    (true, _) => (1.0 + random.part() * 300.0) * random.sign(),
                    (_, 0) => 0.0 * random.sign(),
                    (_, 1) => most * random.sign(),
                    (_, 2..4) => random.sign(),
                    _ => (random.part() - 0.3) * 4.0,
                };
            }
            if random.below(40) == 0 {
                lists::spoil(&mut beats, &mut values, random);
            }
            let narrow = |column: Vec<f64>| column.into_iter().map(|number| number as f32).collect::<Vec<_>>();
            (narrow(beats), narrow(values))
        };
        let (tempos, stops) = (list(power(30), true), list(power(50), false));
        let (delays, warps) = (list(power(50), false), list(power(30), false));
        let mut flat: Vec<f32> = stops.0.iter().zip(&stops.1).flat_map(|(beat, value)| [*beat, *value]).collect();
        if random.below(40) == 0 {
            flat.push(1.0);
        }
        Self { tempos, stops: flat, delays, warps }
    }
}

/// How many places past the work list are looked at too.
const PAST: usize = 4;

/// What is expected of a work list of a size: the answer, and what its front is filled with.
fn expected(lists: &Lists, size: usize) -> (Filled, Vec<f32>) {
    let refused = |number| (Filled { number, count: 0, own: false }, Vec::new());
    match lists.number(size) {
        0 => {
            let [tempos, stops, delays, warps] = lists.pairs();
            if delays.is_empty() && warps.is_empty() {
                (Filled { number: 0, count: 0, own: true }, Vec::new())
            } else if tempos.is_empty() && !warps.is_empty() {
                refused(8)
            } else {
                let result = convert_warps_and_delays_to_sm_stops(&tempos, &stops, &delays, &warps);
                if result.len() > size / 2 {
                    refused(7)
                } else {
                    let flat: Vec<f32> = result.iter().flat_map(|(beat, value)| [*beat, *value]).collect();
                    (Filled { number: 0, count: result.len(), own: false }, flat)
                }
            }
        }
        number => refused(number),
    }
}

fn differs(lists: &Lists, size: usize, random: &mut Random) -> Option<String> {
    let before: Vec<f32> = (0..size + PAST).map(|_| f32::from_bits(random.bits() as u32 & 0x7F7F_FFFF)).collect();
    let mut after = before.clone();
    let filled = lists.port(&mut after[..size]);
    let (expected, flat) = expected(lists, size);
    let bits = |list: &[f32]| list.iter().map(|number| number.to_bits()).collect::<Vec<_>>();
    let expected_after = [&flat[..], &before[flat.len()..]].concat();
    (filled != expected || bits(&after) != bits(&expected_after))
        .then(|| format!("{lists:?} in {size}: {filled:?}, not {expected:?}; {after:?}, not {expected_after:?}"))
}

/// A size for the work list: mostly right, sometimes short, odd or larger.
fn work_size(lists: &Lists, random: &mut Random) -> usize {
    let entries = lists.stops.len() / 2 + lists.delays.0.len() + lists.warps.0.len();
    match random.below(8) {
        0 => 0,
        1 => 2 * entries.saturating_sub(1),
        2 => 2 * random.below(entries as u64 + 1) as usize,
        3 => 2 * entries + 1,
        4 => 2 * entries + 6,
        _ => 2 * entries,
    }
}

fn stored_case(lists: &Lists) -> Option<Case> {
    let (filled, work) = expected(lists, stored::ROOM);
    let Lists { tempos, stops, delays, warps } = lists;
    let mut case = Case::new(7);
    [&tempos.0, &tempos.1, stops, &delays.0, &delays.1, &warps.0, &warps.1, &work]
        .into_iter()
        .for_each(|column| case.column(column));
    case.words([filled.number.into(), filled.count as u64, filled.own.into()]);
    case.if_short()
}

pub fn stored_cases(cases: &mut Vec<Case>) {
    let mut random = Random::new(1, "convert_warps_and_delays_to_sm_stops");
    cases.extend((0..).filter_map(|turn| stored_case(&Lists::any(turn, &mut random))).take(stored::EACH));
}

pub fn compare_all(work: Work, total: &mut Total) {
    let mut random = Random::new(work.seed, "convert_warps_and_delays_to_sm_stops");
    let (mut compared, mut shown) = (0, Vec::new());
    for turn in 0..work.lists() {
        let lists = Lists::any(turn, &mut random);
        let size = work_size(&lists, &mut random);
        compared += 1;
        if let Some(difference) = differs(&lists, size, &mut random) {
            shown.push(difference);
        }
    }
    total.add("convert_warps_and_delays_to_sm_stops", compared, shown.len() as u64, shown);
}
