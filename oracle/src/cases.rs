//! What the calls are asked. The same work and seed always give the same cases.

use crate::numbers::Number;
use crate::random::Random;

/// The row of the greatest beat within the limit.
pub const LAST_ROW: i32 = 3_145_728;

/// How much is asked. `seconds` is a size: about what one core does in that time.
#[derive(Clone, Copy)]
pub struct Work {
    pub seed: u64,
    pub seconds: u64,
}

impl Work {
    /// Every pattern of 32 bits from 600 seconds on, else one in so many, from where the seed says. The stride is odd, so
    /// co-prime to 2^32.
    fn patterns(self) -> impl Iterator<Item = u64> {
        let stride = 600u64.div_ceil(self.seconds.max(1)) | 1;
        let start = Random::new(self.seed, "patterns").bits();
        (0..(1u64 << 32).div_ceil(stride)).map(move |step| start.wrapping_add(step * stride) & 0xFFFF_FFFF)
    }

    fn turns(self) -> u64 {
        self.seconds * 2_000_000
    }

    /// How many lists a call is asked.
    pub fn lists(self) -> u64 {
        4_000 + self.seconds * 2_000
    }
}

pub trait Cases: Number {
    /// The numbers at which a rule changes, at both signs.
    fn special() -> Vec<Self>;

    /// What a row gives: the numbers at it and half way to the next one, and those beside them.
    fn of_row(row: i32) -> impl IntoIterator<Item = Self>;

    /// A beat or a row as charts have them: up to beat 2,000, every other one on a row, some before 0.
    fn typical(random: &mut Random) -> Self;

    /// A number by chance; turns take the kinds of number one after the other.
    fn by_chance(turn: u64, random: &mut Random) -> Self;

    /// What is asked beside special numbers, rows and numbers by chance.
    fn more(work: Work, give: &mut impl FnMut(Self));

    /// All that is asked of a call.
    fn every(work: Work, give: &mut impl FnMut(Self)) {
        for special in Self::special() {
            (-4_096..=4_096).for_each(|patterns| give(special.moved(patterns)));
        }
        for row in -LAST_ROW..=LAST_ROW {
            Self::of_row(row).into_iter().for_each(&mut *give);
        }
        Self::more(work, give);
        let mut random = Random::new(work.seed, "by chance");
        (0..work.turns()).for_each(|turn| give(Self::by_chance(turn, &mut random)));
    }
}

impl Cases for f64 {
    fn special() -> Vec<Self> {
        let i32_end = power(31);
        let mut found = vec![0.0, f64::INFINITY, f64::NAN];
        // its own ends, and where 48 times a number passes them
        found.extend([power(-1074), power(-1022), f64::MAX, f64::MAX / 48.0]);
        // f32's ends: where narrowing gives zero, a subnormal number, a normal one, an infinity; the ties there
        found.extend([
            power(-150),
            power(-149),
            power(-149) + power(-150),
            power(-127),
            power(-126) - power(-150),
            power(-126),
        ]);
        found.extend([power(128) - power(104), power(128) - power(103), power(128), f64::from(f32::MAX) / 48.0]);
        // i32's ends, as whole numbers and as beats
        for end in [i32_end - 1.0, i32_end - 0.5, i32_end, i32_end + 0.5, i32_end + 1.0] {
            found.extend([end, end / 48.0]);
        }
        // the limit, as a beat and as a row
        found.extend([65_536.0, f64::from(LAST_ROW), f64::from(LAST_ROW) + 0.5]);
        // where a float has no halves, and then no whole numbers
        found.extend([power(22), power(23), power(24), power(51), power(52), 1.5 * power(52), power(53)]);
        // rows and ties near zero; the last has another row at each width
        found.extend([0.5, 1.0, 1.5, 2.5, 1.0 / 48.0, 1.0 / 96.0, 0.031_25, 0.093_75, 0.010_416_666_666_666_67]);
        found.iter().flat_map(|&x| [x, -x]).collect()
    }

    fn of_row(row: i32) -> impl IntoIterator<Item = Self> {
        let row = f64::from(row);
        beside([row / 48.0, (2.0 * row + 1.0) / 96.0, row + 0.5])
    }

    fn typical(random: &mut Random) -> Self {
        let beat = (random.part() - 0.05) * 2_000.0;
        if random.below(2) == 0 { (beat * 48.0).round() / 48.0 } else { beat }
    }

    fn by_chance(turn: u64, random: &mut Random) -> Self {
        match turn % 5 {
            // every exponent in its turn
            0 => f64::from_bits(random.bits() & !(0x7FF << 52) | ((turn / 5) & 0x7FF) << 52),
            1 => near_f32_tie(random),
            // a row or a tie anywhere within an i32
            2 => (f64::from(random.bits() as i32) / 2.0 / 48.0).moved(random.below(5) as i64 - 2),
            3 => random.sign() * random.part() * 65_536.0,
            _ => Self::typical(random),
        }
    }

    fn more(_: Work, give: &mut impl FnMut(Self)) {
        // the ends of every binade
        for end in (0..0x800).flat_map(|exponent| [exponent << 52, exponent << 52 | 1 << 63]) {
            (-64..=64).for_each(|patterns| give(f64::from_bits(end).moved(patterns)));
        }
    }
}

impl Cases for f32 {
    fn special() -> Vec<Self> {
        f64::special().into_iter().map(|x| x as f32).chain([f32::MAX / 48.0, -f32::MAX / 48.0]).collect()
    }

    fn of_row(row: i32) -> impl IntoIterator<Item = Self> {
        let row = row as f32;
        beside([row / 48.0, (2.0 * row + 1.0) / 96.0, row + 0.5])
    }

    fn typical(random: &mut Random) -> Self {
        f64::typical(random) as f32
    }

    fn by_chance(turn: u64, random: &mut Random) -> Self {
        match turn % 2 {
            0 => f32::from_bits(random.bits() as u32),
            _ => f64::by_chance(turn, random) as f32,
        }
    }

    fn more(work: Work, give: &mut impl FnMut(Self)) {
        work.patterns().for_each(|pattern| give(Self::of_bits(pattern)));
    }
}

impl Cases for i32 {
    fn special() -> Vec<Self> {
        let sizes = (0..31).map(|bit| 1 << bit).chain([0, 48, LAST_ROW, i32::MAX]);
        sizes.flat_map(|size| [size, -size]).chain([i32::MIN]).collect()
    }

    fn of_row(row: i32) -> impl IntoIterator<Item = Self> {
        [row]
    }

    fn typical(random: &mut Random) -> Self {
        (f64::typical(random) * 48.0).round() as i32
    }

    fn by_chance(turn: u64, random: &mut Random) -> Self {
        match turn % 2 {
            0 => random.bits() as i32,
            _ => Self::typical(random),
        }
    }

    fn more(work: Work, give: &mut impl FnMut(Self)) {
        work.patterns().for_each(|pattern| give(Self::of_bits(pattern)));
    }
}

/// 2^exponent, subnormal ones too.
pub fn power(exponent: i32) -> f64 {
    f64::from_bits(if exponent < -1022 { 1 << (exponent + 1074) } else { ((exponent + 1023) as u64) << 52 })
}

fn beside<N: Number>(numbers: [N; 3]) -> impl IntoIterator<Item = N> {
    numbers.into_iter().flat_map(|x| [x.moved(-1), x, x.moved(1)])
}

/// Half way between two f32, subnormal ones too, or an f64 next to that.
fn near_f32_tie(random: &mut Random) -> f64 {
    let exponent = random.below(280) as i32 - 151;
    // how many digits of the f64 stand below the f32's last one
    let below = 29 + (-126 - exponent).clamp(0, 23);
    let fraction = random.bits() >> 12 >> below << below | 1 << (below - 1);
    let tie = power(exponent).bits() | fraction;
    random.sign() * f64::from_bits(tie).moved(random.below(3) as i64 - 1)
}
