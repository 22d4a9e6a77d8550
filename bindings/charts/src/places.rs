//! Places in a text.

use std::error::Error;
use std::fmt;

/// A place in a file. Both count from 1, columns in characters.
///
/// ```
/// use marrighentu_charts::{ChartFile, Place};
///
/// let fault = ChartFile::read("#TITLE:é;#STOPS:4;".as_bytes()).timing().unwrap_err();
/// assert_eq!(fault.place, Place { line: 1, column: 17 });
/// ```
#[derive(Clone, Copy, Debug, PartialEq, Eq, PartialOrd, Ord, Hash)]
pub struct Place {
    /// The line.
    pub line: usize,
    /// The column in the line.
    pub column: usize,
}

/// What is wrong with a text, or strange about it, and where.
///
/// ```
/// use marrighentu_charts::ChartFile;
///
/// let fault = ChartFile::read(b"#BPMS:0=120,\n 4=fast;").timing().unwrap_err();
/// assert_eq!(fault.to_string(), "2:4: a number is wanted, found \"fast\"");
/// ```
#[derive(Clone, Debug, PartialEq, Eq)]
pub struct Fault {
    /// Where.
    pub place: Place,
    /// What, in words.
    pub what: String,
}

impl fmt::Display for Fault {
    fn fmt(&self, f: &mut fmt::Formatter<'_>) -> fmt::Result {
        write!(f, "{}:{}: {}", self.place.line, self.place.column, self.what)
    }
}

impl Error for Fault {}

/// How many bytes lie between two counts of characters.
const BLOCK: usize = 64;

/// Tells the place of an offset without a walk over the text.
#[derive(Clone, Debug)]
pub(crate) struct Places {
    lines: Vec<usize>,
    /// The characters before each block.
    before: Vec<usize>,
}

fn characters(bytes: &[u8]) -> usize {
    bytes.iter().filter(|byte| **byte & 0xC0 != 0x80).count()
}

impl Places {
    pub(crate) fn of(text: &[u8]) -> Places {
        let newlines = text.iter().enumerate().filter(|(_, byte)| **byte == b'\n').map(|(at, _)| at + 1);
        let mut before = vec![0];
        let mut count = 0;
        for block in text.chunks(BLOCK) {
            count += characters(block);
            before.push(count);
        }
        Places { lines: std::iter::once(0).chain(newlines).collect(), before }
    }

    pub(crate) fn line(&self, at: usize) -> usize {
        self.lines.partition_point(|start| *start <= at)
    }

    pub(crate) fn place(&self, text: &[u8], at: usize) -> Place {
        let line = self.line(at);
        let counted = |at: usize| self.before[at / BLOCK] + characters(&text[at / BLOCK * BLOCK..at]);
        Place { line, column: counted(at) - counted(self.lines[line - 1]) + 1 }
    }
}

#[cfg(test)]
mod tests {
    use super::*;

    #[test]
    fn places_are_those_of_a_walk() {
        let text = "é#a\n\n日本語:x\r\n".repeat(60) + "end";
        let places = Places::of(text.as_bytes());
        let (mut line, mut column) = (1, 1);
        for (at, character) in text.char_indices() {
            assert_eq!(places.place(text.as_bytes(), at), Place { line, column }, "{at}");
            (line, column) = if character == '\n' { (line + 1, 1) } else { (line, column + 1) };
        }
        assert_eq!(places.place(text.as_bytes(), text.len()), Place { line, column });
    }
}
