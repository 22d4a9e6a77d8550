//! Cases with the original's answers, for the program `replay_lists` to replay: words of 64 bits.

use crate::numbers::Number;

/// What every place of a room holds before a call, in a room for numbers, and in one for bytes or whole numbers. What a call
/// has to write is stored, and the rest of the room has to stay.
pub const UNTOUCHED: f64 = 1.5;
pub const UNTOUCHED_BYTE: u8 = 77;

/// How many places each room for results has.
pub const ROOM: usize = 300;

/// How many cases a call has, and the most words of one; a few are longer.
pub const EACH: usize = 48;
const MOST_WORDS: usize = 150;
const MOST_WORDS_OF_LONG: usize = 1_300;

/// The call's number, columns with their lengths before them, and the answer.
pub struct Case {
    words: Vec<u64>,
}

/// A number as a stored word.
pub trait Word: Copy {
    fn word(self) -> u64;
}

impl Word for f64 {
    fn word(self) -> u64 {
        self.answer()
    }
}

impl Word for f32 {
    fn word(self) -> u64 {
        self.answer()
    }
}

impl Word for i32 {
    fn word(self) -> u64 {
        self.bits()
    }
}

macro_rules! whole {
    ($($type:ty)*) => {
        $(impl Word for $type {
            fn word(self) -> u64 {
                self as u64
            }
        })*
    };
}
whole! { u8 u32 usize }

impl Case {
    pub fn new(call: u64) -> Self {
        Self { words: vec![call] }
    }

    pub fn column<W: Word>(&mut self, column: &[W]) {
        self.words.push(column.len() as u64);
        self.words.extend(column.iter().map(|number| number.word()));
    }

    pub fn words(&mut self, words: impl IntoIterator<Item = u64>) {
        self.words.extend(words);
    }

    /// None where so many words would make the stored file long.
    pub fn if_short(self) -> Option<Self> {
        (self.words.len() <= MOST_WORDS).then_some(self)
    }

    fn if_long(self) -> Option<Self> {
        (MOST_WORDS_OF_LONG / 2..=MOST_WORDS_OF_LONG).contains(&self.words.len()).then_some(self)
    }
}

/// Short cases of a call, then a long one.
pub fn add(cases: &mut Vec<Case>, mut case: impl FnMut(u64) -> Case) {
    cases.extend((0..).filter_map(|turn| case(turn).if_short()).take(EACH));
    cases.extend((0..).filter_map(|turn| case(turn).if_long()).take(1));
}

/// The file: how many cases, and each after the other.
pub fn print(cases: &[Case]) {
    println!("{:016X}", cases.len());
    cases.iter().flat_map(|case| &case.words).for_each(|word| println!("{word:016X}"));
}
