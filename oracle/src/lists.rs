//! Lists by chance: what the calls that take a column of beats and one of values are asked.

use crate::cases::{Cases, LAST_ROW, power};
use crate::numbers::Number;
use crate::random::Random;

/// The limit, the ends of the ways that either side takes by length, and the lengths beside them.
const LENGTHS: [usize; 16] = [0, 1, 2, 3, 31, 32, 33, 47, 48, 49, 255, 256, 257, 1_023, 1_024, 1_025];
const MOST_BEAT: f64 = 65_536.0;

/// Every other list has one of the lengths above; the rest by chance, half of them short.
pub fn length(turn: u64, random: &mut Random) -> usize {
    match turn % 4 {
        0 | 2 => LENGTHS[(turn / 2) as usize % LENGTHS.len()],
        1 => random.below(64) as usize,
        _ => random.below(1_030) as usize,
    }
}

/// Beats within the limit, of one kind and in one order.
pub fn beats(length: usize, random: &mut Random) -> Vec<f64> {
    let (kind, row) = (random.below(8), any_row(random));
    let mut beats: Vec<f64> = (0..length)
        .map(|_| match kind {
            0 => f64::typical(random),
            1 => any_row(random) / 48.0,
            2 => (random.part() - 0.5) * 2.0 * MOST_BEAT,
            // half way between two of a few rows, or next to it
            3 => ((row + random.below(9) as f64 + 0.5) / 48.0).moved(random.below(3) as i64 - 1),
            // all on one row, and off its beat
            4 => (row + (random.part() - 0.5) * 0.99) / 48.0,
            // on a few rows, then between them
            5 => (row + random.below(5) as f64) / 48.0,
            6 => (row + random.part() * 5.0) / 48.0,
            _ => {
                random.sign()
                    * one_of(&[0.0, power(-1074), 0.5 / 48.0, 1.0 / 48.0, MOST_BEAT.moved(-1), MOST_BEAT], random)
            }
        })
        .map(|beat| beat.clamp(-MOST_BEAT, MOST_BEAT))
        .collect();
    arrange(&mut beats, random);
    beats
}

fn any_row(random: &mut Random) -> f64 {
    (random.below(2 * LAST_ROW as u64 + 1) as i32 - LAST_ROW).into()
}

fn one_of(numbers: &[f64], random: &mut Random) -> f64 {
    numbers[random.below(numbers.len() as u64) as usize]
}

/// Rising, falling, rising but for two, or as they are.
fn arrange(beats: &mut [f64], random: &mut Random) {
    let order = random.below(5);
    if order < 4 {
        beats.sort_by(|one, other| one.partial_cmp(other).unwrap());
    }
    if order == 2 {
        beats.reverse();
    }
    if order == 3 && !beats.is_empty() {
        let mut place = || random.below(beats.len() as u64) as usize;
        let (one, other) = (place(), place());
        beats.swap(one, other);
    }
}

/// Values that every call takes, of one kind.
pub fn values(length: usize, random: &mut Random) -> Vec<f64> {
    let kind = random.below(5);
    let ends = [0.0, power(-20), power(-20).moved(1), power(30).moved(-1), power(30)];
    let mut last = 60.0;
    (0..length)
        .map(|_| {
            let kind = if kind == 3 { random.below(3) } else { kind };
            last = match kind {
                0 => random.sign() * power(random.below(50) as i32 - 20) * (1.0 + random.part()),
                // runs of the same
                1 if random.below(3) != 0 => last,
                // about as far apart as values may be to count as the same
                4 if random.below(3) == 0 => 60.0 + random.below(3) as f64,
                4 => (last + random.sign() * one_of(&[0.0, 0.4e-6, 1e-6, 2e-6], random))
                    .moved(random.below(3) as i64 - 1),
                1 => random.sign() * one_of(&[0.0, 60.0, 60f64.moved(1), 120.0], random),
                _ => random.sign() * one_of(&ends, random),
            };
            last
        })
        .collect()
}

/// Two columns of values: often one of them is all but the same in every entry, so that the other alone decides.
pub fn near_pairs(length: usize, random: &mut Random) -> [Vec<f64>; 2] {
    let all_near = |random: &mut Random| (0..length).map(|_| 1.0 + 0.3e-6 * random.below(3) as f64).collect();
    let few = |random: &mut Random| (0..length).map(|_| random.below(3) as f64).collect();
    match random.below(6) {
        0 => [values(length, random), values(length, random)],
        1 => [values(length, random), all_near(random)],
        2 => [all_near(random), values(length, random)],
        3 => [few(random), all_near(random)],
        4 => [all_near(random), few(random)],
        _ => [few(random), few(random)],
    }
}

/// All beats, all seconds, or either.
pub fn units(length: usize, random: &mut Random) -> Vec<u8> {
    let kind = random.below(4);
    (0..length).map(|_| if kind < 2 { kind as u8 } else { random.below(2) as u8 }).collect()
}

/// Sometimes a unit that is none, and sometimes another length.
pub fn spoil_units(units: &mut Vec<u8>, random: &mut Random) {
    if random.below(2) == 0 && !units.is_empty() {
        let place = random.below(units.len() as u64) as usize;
        units[place] = [2, 3, 255][random.below(3) as usize];
    }
    match random.below(12) {
        0 => units.push(0),
        1 => drop(units.pop()),
        _ => (),
    }
}

/// Moves a beat or a value beyond its limit, or gives the columns other lengths; sometimes all of these.
pub fn spoil(beats: &mut Vec<f64>, values: &mut Vec<f64>, random: &mut Random) {
    let endless = [f64::NAN, f64::INFINITY, f64::MAX];
    let picked = 1 + random.below(7);
    for (column, ends, bit) in [
        (&mut *beats, vec![MOST_BEAT.moved(1)], 1),
        (&mut *values, vec![power(30).moved(1), power(-20).moved(-1), power(-1074)], 2),
    ] {
        if picked & bit != 0 && !column.is_empty() {
            let place = random.below(column.len() as u64) as usize;
            column[place] = random.sign() * one_of(&[&endless[..], &ends].concat(), random);
        }
    }
    if picked & 4 != 0 {
        let column = if random.below(2) == 0 { beats } else { values };
        match random.below(3) {
            0 => column.push(1.0),
            1 => drop(column.pop()),
            _ => column.truncate(random.below(column.len() as u64 + 1) as usize),
        }
    }
}
