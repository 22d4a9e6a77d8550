//! vectors: the original's answers to a sample of cases, for a program to replay.
//!
//! A line is 36 bytes: the call's letter, the bits asked and the bits answered, each as 16 upper-case hexadecimal digits with
//! zeros in front. A NaN is always the one quiet NaN of its width.

use oracle::calls::{self, Call, Visit};
use oracle::cases::{Cases, LAST_ROW};
use oracle::numbers::Number;
use oracle::random::Random;
use std::collections::HashSet;

/// Special numbers and the numbers beside them, then so many of rows, and the rest by chance.
const LINES_A_CALL: usize = 230;
const OF_ROWS: usize = 18;

fn main() {
    calls::visit_all(&mut Vectors);
}

struct Vectors;

impl Visit for Vectors {
    fn visit<C: Call>(&mut self) {
        let random = &mut Random::new(1, C::NAME);
        let special = C::From::special();
        let mut asked = special.clone();
        asked.extend(special.iter().step_by(2).flat_map(|x| [x.moved(-1), x.moved(1)]));
        let rows = (0..OF_ROWS).map(|_| random.below(2 * LAST_ROW as u64 + 1) as i32 - LAST_ROW);
        asked.extend(rows.flat_map(C::From::of_row).take(OF_ROWS));
        asked.extend((0..).map(|turn| C::From::by_chance(turn, random)).take(LINES_A_CALL));
        let mut seen = HashSet::new();
        for from in asked.iter().map(|from| from.answer()).filter(|bits| seen.insert(*bits)).take(LINES_A_CALL) {
            println!("{} {from:016X} {:016X}", C::LETTER, C::original(C::From::of_bits(from)).answer());
        }
    }
}
