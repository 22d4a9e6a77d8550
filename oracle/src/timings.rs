//! Timings by chance: the four lists of the clock with their offsets, what is asked of them, and what a plain reading of the rules refuses.

use crate::cases::{LAST_ROW, power};
use crate::numbers::Number;
use crate::random::Random;
use crate::timing::{Segment, TimingData, probe};

pub const TEMPOS: usize = 0;
pub const STOPS: usize = 1;
pub const DELAYS: usize = 2;
pub const WARPS: usize = 3;

/// Beats and values of tempos, stops, delays and warps, the song's offset with the beat-0 offset, and the machine's.
#[derive(Clone, Debug, Default)]
pub struct Chart {
    pub lists: [(Vec<f32>, Vec<f32>); 4],
    pub offset: f64,
    pub global: f64,
}

impl Chart {
    pub fn original(&self) -> TimingData {
        let [tempos, stops, delays, warps] = self.lists.each_ref().map(|(beats, values)| {
            let entries = beats.iter().zip(values);
            entries.map(|(beat, value)| Segment { beat: (*beat).into(), value: (*value).into() }).collect::<Vec<_>>()
        });
        probe::clock_timing(&tempos, [&stops, &delays, &warps], self.offset, self.global)
    }

    /// How many entries a cursor may have passed; a timing without tempos has one.
    pub fn lengths(&self) -> [usize; 4] {
        let [tempos, stops, delays, warps] = self.lists.each_ref().map(|(beats, _)| beats.len());
        [tempos.max(1), stops, delays, warps]
    }

    /// The number by which the timing is refused, whatever is asked; else 0.
    pub fn number(&self) -> u32 {
        let offsets = [self.offset, self.global].iter().any(|offset| !within(*offset, power(20)));
        let tests: [(u32, &dyn Fn(usize) -> bool); 5] = [
            (1, &|list| self.lists[list].0.len() > 1_024 || self.lists[list].1.len() > 1_024),
            (2, &|list| self.lists[list].0.len() != self.lists[list].1.len()),
            (3, &|list| self.lists[list].0.iter().any(|beat| !within((*beat).into(), 65_536.0))),
            (4, &|list| offsets || self.lists[list].1.iter().any(|value| !takes(list, (*value).into()))),
            (5, &|list| {
                !rises(&self.lists[list].0)
                    || list == TEMPOS && self.lists[list].0.first().is_some_and(|beat| *beat != 0.0)
            }),
        ];
        tests.iter().find(|(_, test)| (0..4).any(test)).map_or(0, |(number, _)| *number)
    }

    /// One in six is damaged.
    pub fn by_chance(turn: u64, random: &mut Random) -> Self {
        let mut chart = Self::sound(turn, random);
        if random.below(6) == 0 {
            (0..1 + random.below(3)).for_each(|_| chart.damage(random));
        }
        chart
    }

    /// The lists take their rows from one rising list, so that many events share a row.
    pub fn sound(turn: u64, random: &mut Random) -> Self {
        let full = turn % 64 == 0;
        let most = if full { 1_024 } else { [0, 1, 2, 4, 8, 16, 40][random.below(7) as usize] };
        let gap = [1, 2, 7, 48, 200][random.below(5) as usize];
        let first = match random.below(8) {
            0 => -LAST_ROW,
            1 => LAST_ROW - random.below(most * gap + 1) as i32,
            2 => random.below(2 * LAST_ROW as u64) as i32 - LAST_ROW,
            3 => 0,
            _ => -(random.below(most * gap / 2 + 1) as i32),
        };
        let mut rows = vec![first];
        while rows.len() < most as usize {
            rows.push(rows.last().unwrap() + 1 + random.below(gap) as i32);
        }
        rows.retain(|row| *row <= LAST_ROW);
        let mut chart = Self { offset: offset(random), global: offset(random), ..Self::default() };
        for list in 0..4 {
            let share = if full { 0 } else { random.below(4) };
            let mut own: Vec<i32> =
                rows.iter().copied().filter(|_| share == 0 || random.below(share + 1) == 0).collect();
            if share == 3 && random.below(2) == 0 {
                own.clear();
            }
            if list == TEMPOS && !own.is_empty() {
                own.retain(|row| *row > 0);
                own.insert(0, 0);
                own.truncate(1_024);
            }
            let off_rows = random.below(3) == 0;
            chart.lists[list].0 = own.iter().map(|row| beat_on(*row, off_rows, random)).collect();
            let kind = random.below(4);
            chart.lists[list].1 = own.iter().map(|_| value(list, kind, random)).collect();
        }
        if let Some(beat) = chart.lists[TEMPOS].0.first_mut() {
            *beat = 0.0 * random.sign() as f32;
        }
        chart
    }

    fn damage(&mut self, random: &mut Random) {
        let list = random.below(4) as usize;
        let (beats, values) = &mut self.lists[list];
        let place = random.below(beats.len().max(1) as u64) as usize;
        match random.below(9) {
            0 => values.push(1.0),
            1 => drop(beats.pop()),
            2 => {
                let more = 1_025 - beats.len().min(1_025);
                beats.extend((0..more).map(|place| place as f32));
            }
            3 => beats.iter_mut().skip(place).take(1).for_each(|beat| {
                *beat = one_of(&[f32::NAN, f32::INFINITY, 65_536.0f32.moved(1), -65_536.0f32.moved(1)], random)
            }),
            4 => values.iter_mut().skip(place).take(1).for_each(|value| {
                *value = one_of(
                    &[
                        f32::NAN,
                        f32::NEG_INFINITY,
                        0.0,
                        power(50) as f32,
                        (power(50) as f32).moved(1),
                        (power(30) as f32).moved(1),
                        (power(-20) as f32).moved(-1),
                    ],
                    random,
                );
            }),
            5 if beats.len() > 1 => beats[place] = beats[(place + 1) % beats.len()],
            6 if beats.len() > 1 => beats.swap(place, 0),
            7 => self.offset = one_of(&[f64::NAN, f64::INFINITY, power(20).moved(1), -power(20).moved(1)], random),
            8 => self.global = one_of(&[f64::NAN, f64::NEG_INFINITY, power(20).moved(1)], random),
            _ => beats.iter_mut().take(1).for_each(|beat| *beat = beat.moved(1)),
        }
    }

    /// A row on or beside an event or the end of a warp, or any.
    fn asked_row(&self, random: &mut Random) -> f64 {
        let (beats, values) = &self.lists[random.below(4) as usize];
        if beats.is_empty() || random.below(8) == 0 {
            let most = if random.below(3) == 0 { LAST_ROW as u64 } else { 3_000 };
            return random.below(most) as f64 * random.sign();
        }
        let place = random.below(beats.len() as u64) as usize;
        let end = if random.below(4) == 0 { values.get(place).copied().unwrap_or(0.0) } else { 0.0 };
        (f64::from(beats[place]) + f64::from(end)) * 48.0 + random.below(5) as f64 - 2.0
    }

    /// Beats rising, falling, each asked again, or in no order; some are refused.
    pub fn asked(&self, count: usize, random: &mut Random) -> Vec<f64> {
        let off_rows = random.below(2) == 0;
        let mut beats: Vec<f64> = (0..count)
            .map(|_| {
                let off = if off_rows { random.part() - 0.5 } else { 0.0 };
                ((self.asked_row(random) + off) / 48.0).clamp(-65_536.0, 65_536.0)
            })
            .map(|beat| if beat.is_nan() { 0.0 } else { beat })
            .collect();
        let order = random.below(5);
        if order < 3 {
            beats.sort_by(f64::total_cmp);
        }
        match order {
            1 => beats.reverse(),
            2 => (0..count / 2).for_each(|place| beats[2 * place + 1] = beats[2 * place]),
            _ => (),
        }
        if random.below(2) == 0 {
            let refused =
                [f64::NAN, f64::INFINITY, f64::NEG_INFINITY, 65_536f64.moved(1), -65_536f64.moved(1), f64::MAX];
            (0..count).for_each(|place| {
                if random.below(9) == 0 {
                    beats[place] = one_of(&refused, random);
                }
            });
        }
        beats
    }
}

pub fn beat_allowed(beat: f64) -> bool {
    within(beat, 65_536.0)
}

fn within(number: f64, most: f64) -> bool {
    number.is_finite() && number.abs() <= most
}

fn takes(list: usize, value: f64) -> bool {
    match list {
        TEMPOS => within(value, power(30)) && value.abs() >= power(-20),
        STOPS | DELAYS => within(value, power(50)),
        _ => within(value, power(30)),
    }
}

fn rises(beats: &[f32]) -> bool {
    let row = |beat: f32| probe::beat_to_note_row(beat.into());
    beats.windows(2).all(|two| row(two[0]) < row(two[1]))
}

fn one_of<N: Copy>(numbers: &[N], random: &mut Random) -> N {
    numbers[random.below(numbers.len() as u64) as usize]
}

fn offset(random: &mut Random) -> f64 {
    match random.below(6) {
        0 => 0.0 * random.sign(),
        1 => power(20) * random.sign(),
        2 => 0.009,
        _ => random.part() * 20.0 - 10.0,
    }
}

fn beat_on(row: i32, off_row: bool, random: &mut Random) -> f32 {
    let off = if off_row { (random.part() - 0.5) * 0.6 } else { 0.0 };
    let sign = if row == 0 && random.below(4) == 0 { -1.0 } else { 1.0 };
    ((f64::from(row) + off) * sign / 48.0).clamp(-65_536.0, 65_536.0) as f32
}

/// A value that is taken: of the kind that charts have, or of any size.
fn value(list: usize, kind: u64, random: &mut Random) -> f32 {
    let most = if list == STOPS || list == DELAYS { 50 } else { 30 };
    let number = match (list, kind) {
        (TEMPOS, 0) => 60.0 + random.below(240) as f64,
        (TEMPOS, 1) => (20.0 + random.part() * 400.0) * random.sign(),
        (TEMPOS, 2) => one_of(&[power(-20), power(30), 120.0, 9_999_999.0], random) * random.sign(),
        (TEMPOS, _) => power(random.below(50) as i32 - 20) * (1.0 + random.part() * 0.9) * random.sign(),
        (STOPS | DELAYS, 0) => random.part() * 4.0,
        (STOPS | DELAYS, 1) => random.below(3) as f64 - 1.0,
        // ends on a row, far beyond the next events, before its own start, or never
        (WARPS, 0) => random.below(100) as f64 / 48.0,
        (WARPS, 1) => random.part() * 30.0 - 10.0,
        (WARPS, 2) => one_of(&[0.0, -0.0, 1.0, -1.0, 8.0, power(30), -power(30), 44_739_242.0, 99_999_999.0], random),
        _ => power(random.below(most as u64 + 40) as i32 - 40) * (1.0 + random.part() * 0.9) * random.sign(),
    };
    (number as f32).clamp(-power(most) as f32, power(most) as f32)
}
