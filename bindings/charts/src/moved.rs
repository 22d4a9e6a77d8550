//! Which entries were off the grid.

use crate::lists::ChartTiming;
use crate::refused::{self, shown};
use marrighentu::{Format, quantize};
use std::fmt;

/// An entry whose beat was a little beside a row, and was moved to it.
///
/// ```
/// use marrighentu_charts::ChartFile;
///
/// let read = ChartFile::read(b"#BPMS:0=120;\n#STOPS:4=1,\n8.01=1;").timing()?;
/// let moved = read.moved();
/// assert_eq!((moved[0].list, moved[0].number, moved[0].line, moved[0].to), ("stop", 2, 3, 8.0));
/// assert_eq!(moved[0].to_string(), "stop 2, line 3: beat 8.01 is off the grid, moved by -0.01 to beat 8");
/// # Ok::<(), marrighentu_charts::Fault>(())
/// ```
#[derive(Clone, Debug, PartialEq)]
pub struct MovedEntry {
    /// What its list has: a tempo, a stop, a delay, a warp, a speed, a scroll or a fake.
    pub list: &'static str,
    /// Which entry of its tag it is, counted from 1.
    pub number: usize,
    /// Its line in the file.
    pub line: usize,
    /// Its beat as it is written.
    pub beat: f64,
    /// The beat of its row.
    pub to: f64,
}

impl MovedEntry {
    /// By how many beats it was moved: below 0 where it stood behind its row.
    #[must_use]
    pub fn by(&self) -> f64 {
        self.to - self.beat
    }
}

/// A difference in three digits.
fn few(number: f64) -> String {
    format!("{number:.2e}").parse::<f64>().map_or_else(|_| number.to_string(), |rounded| rounded.to_string())
}

impl fmt::Display for MovedEntry {
    fn fmt(&self, f: &mut fmt::Formatter<'_>) -> fmt::Result {
        let MovedEntry { list, number, line, beat, to } = self;
        let by = few(self.by());
        let (beat, to) = (shown(*beat), shown(*to));
        write!(f, "{list} {number}, line {line}: beat {beat} is off the grid, moved by {by} to beat {to}")
    }
}

/// Whether the format keeps a tempo or a stop.
fn stays(format: Format, beat: f64, value: f64) -> bool {
    let finite = beat.is_finite() && value.is_finite();
    finite && if format == Format::Ssc { beat >= 0.0 && value > 0.0 } else { value != 0.0 }
}

pub(crate) fn moved(read: &ChartTiming) -> Vec<MovedEntry> {
    let mut found = Vec::new();
    for list in refused::listed(read) {
        let values = &list.values[0].1;
        let mut here: Vec<MovedEntry> = (0..list.beats.len())
            .filter(|place| !list.raw || stays(read.format, list.beats[*place], values[*place]))
            .filter_map(|place| {
                let beat = list.beats[place];
                let quantized = quantize(beat);
                let written = list.written[place];
                quantized.off.then_some(MovedEntry {
                    list: list.name,
                    number: written.number,
                    line: written.line,
                    beat,
                    to: quantized.beat,
                })
            })
            .collect();
        // tempos are in order by beat: told as they are written
        here.sort_by_key(|entry| (entry.line, entry.number));
        found.extend(here);
    }
    found
}
