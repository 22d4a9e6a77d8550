//! The lists of a chart, read as rssp reads them.

use crate::moved::{self, MovedEntry};
use crate::refused::{self, Refused};
use marrighentu::{Chart, Format, Speed, SpeedUnit, Timing};
use std::borrow::Cow;

/// A chart's seven lists and its offset, as its text has them.
///
/// ```
/// use marrighentu_charts::ChartFile;
///
/// let file = ChartFile::read(b"#OFFSET:-0.25;#BPMS:0=120,1.001=150,1=160;#VERSION:0.83;");
/// let read = file.timing()?;
/// // tempos are in order by beat; the two near beat 1 fall on one row, where the last in this order counts
/// assert_eq!(read.chart().tempos[1], (1.0, 160.0));
/// let timing = read.assemble(0.0)?;
/// assert_eq!(timing.tempos().iter().collect::<Vec<_>>(), [(0.0, 120.0), (1.0, 150.0)]);
/// assert_eq!(timing.offset(), -0.25);
/// # Ok::<(), Box<dyn std::error::Error>>(())
/// ```
#[derive(Clone, Debug, PartialEq)]
pub struct ChartTiming {
    pub(crate) format: Format,
    pub(crate) chart: Chart,
    pub(crate) offset: f64,
    pub(crate) own: bool,
    pub(crate) written: [Vec<Written>; 7],
    pub(crate) offset_line: Option<usize>,
}

/// Which entry of its tag a list's entry is, counted from 1, and its line.
#[derive(Clone, Copy, Debug, PartialEq, Eq)]
pub(crate) struct Written {
    pub number: usize,
    pub line: usize,
}

impl ChartTiming {
    /// The lists, to be timed: tempos in order by beat, every other list as it is written.
    #[must_use]
    pub fn chart(&self) -> &Chart {
        &self.chart
    }

    /// The song's offset in seconds: the chart's, or else the file's.
    #[must_use]
    pub fn offset(&self) -> f64 {
        self.offset
    }

    /// The file's format, which decides what tempos and stops mean.
    #[must_use]
    pub fn format(&self) -> Format {
        self.format
    }

    /// Whether this is a chart's own timing, and not the whole file's.
    #[must_use]
    pub fn is_own(&self) -> bool {
        self.own
    }

    /// The entries off the grid, list by list in the order in which they are written: as many of each list as [`Timing::moved`] counts, where the lists are taken.
    #[must_use]
    pub fn moved(&self) -> Vec<MovedEntry> {
        moved::moved(self)
    }

    /// The timing of these lists, by [`Timing::assemble`]. `global_offset` is the machine's, in seconds.
    ///
    /// # Errors
    /// What the port refuses, with the entry that it is refused for.
    ///
    /// ```
    /// use marrighentu_charts::ChartFile;
    ///
    /// let read = ChartFile::read(b"#BPMS:0=120;\n#STOPS:4=1,\n8=1,\n12=1e-7;").timing()?;
    /// assert_eq!(read.assemble(0.0).unwrap_err().to_string(), "stop 3, line 4: 1e-7 s is below 2^-20 (refusal 4)");
    /// # Ok::<(), Box<dyn std::error::Error>>(())
    /// ```
    pub fn assemble(&self, global_offset: f64) -> Result<Timing, Refused> {
        Timing::assemble(self.format, &self.chart, self.offset, global_offset)
            .map_err(|refusal| refused::explained(self, global_offset, refusal))
    }
}

/// A part of an entry and its place.
#[derive(Clone, Copy)]
struct Part<'a> {
    text: &'a str,
    at: usize,
}

impl<'a> Part<'a> {
    fn trimmed(self) -> Part<'a> {
        let text = self.text.trim_start();
        Part { text: text.trim_end(), at: self.at + self.text.len() - text.len() }
    }

    fn split_once(self) -> Option<(Part<'a>, Part<'a>)> {
        let (one, other) = self.text.split_once('=')?;
        Some((Part { text: one, at: self.at }, Part { text: other, at: self.at + one.len() + 1 }))
    }

    fn split(self) -> impl Iterator<Item = Part<'a>> {
        let mut at = self.at;
        self.text.split('=').map(move |text| {
            let part = Part { text, at };
            at += text.len() + 1;
            part
        })
    }
}

/// An entry between commas, without the space around it; of one with control characters among its text these are gone.
struct Entry<'a> {
    text: Cow<'a, str>,
    at: usize,
    number: usize,
}

impl Entry<'_> {
    fn part(&self) -> Part<'_> {
        Part { text: &self.text, at: self.at }
    }
}

fn cleaned(text: &str) -> Cow<'_, str> {
    if text.bytes().any(|byte| byte < 0x20 && !matches!(byte, b'\t' | b'\n' | b'\r')) {
        let kept: String = text.chars().filter(|character| !character.is_control()).collect();
        Cow::Owned(kept.trim().to_string())
    } else {
        Cow::Borrowed(text.trim())
    }
}

/// The entries of a list. Empty ones are none: a list may be empty, and a comma may end it.
fn entries(list: &str, at: usize) -> impl Iterator<Item = Entry<'_>> {
    let mut next = at;
    list.split(',')
        .filter_map(move |text| {
            let at = Part { text, at: next }.trimmed().at;
            next += text.len() + 1;
            let text = cleaned(text);
            (!text.is_empty()).then_some((text, at))
        })
        .enumerate()
        .map(|(place, (text, at))| Entry { text, at, number: place + 1 })
}

/// An entry's pair or speed, which entry of its tag it is, and its place.
pub(crate) struct Found<T> {
    pub entry: T,
    pub number: usize,
    pub at: usize,
}

/// Reads lists, and notes what can't be read and its place.
#[derive(Default)]
pub(crate) struct Reader {
    pub faults: Vec<(usize, String)>,
}

impl Reader {
    pub(crate) fn wrong(&mut self, at: usize, what: &str, found: &str) {
        self.faults.push((at, format!("{what}, found {found:?}")));
    }

    /// A beat as f32, or a row with an `r` behind it.
    fn beat(&mut self, part: Part<'_>) -> Option<f64> {
        let part = part.trimmed();
        let (digits, rows) = match part.text.strip_suffix(['r', 'R']) {
            Some(digits) => (digits.trim_end(), true),
            None => (part.text, false),
        };
        let number = digits.parse::<f32>().ok().filter(|number| number.is_finite());
        if number.is_none() {
            self.wrong(part.at, "a beat is wanted", part.text);
        }
        number.map(|number| if rows { f64::from(number) / 48.0 } else { f64::from(number) })
    }

    /// A number through f32, as it is read and narrowed. One that is not finite is told, and so is one that no f32 holds.
    fn value(&mut self, part: Part<'_>) -> Option<(f64, f64)> {
        let part = part.trimmed();
        let Ok(number) = part.text.parse::<f64>() else {
            self.wrong(part.at, "a number is wanted", part.text);
            return None;
        };
        let narrowed = f64::from(number as f32);
        if !narrowed.is_finite() {
            self.wrong(part.at, "a finite number is wanted", part.text);
        }
        Some((number, narrowed))
    }

    fn pair(&mut self, entry: &Entry<'_>) -> Option<(f64, (f64, f64))> {
        let Some((beat, value)) = entry.part().split_once() else {
            self.wrong(entry.at, "a beat and a value are wanted, as 4=120", &entry.text);
            return None;
        };
        Some((self.beat(beat)?, self.value(value)?))
    }

    fn pairs(&mut self, list: &str, at: usize, kept: impl Fn(f64, f64) -> bool, found: &mut Vec<Found<(f64, f64)>>) {
        for entry in entries(list, at) {
            if let Some((beat, (number, narrowed))) = self.pair(&entry)
                && kept(number, narrowed)
            {
                found.push(Found { entry: (beat, narrowed), number: entry.number, at: entry.at });
            }
        }
    }

    /// Tempos, in order by beat and stable. Processing drops those that are not finite.
    pub(crate) fn tempos(&mut self, list: &str, at: usize) -> Vec<Found<(f64, f64)>> {
        let mut found = Vec::new();
        self.pairs(list, at, |_, _| true, &mut found);
        // no beat is a NaN
        found.sort_by(|one, other| one.entry.0.partial_cmp(&other.entry.0).unwrap_or(std::cmp::Ordering::Equal));
        found
    }

    pub(crate) fn segments(&mut self, list: &str, at: usize) -> Vec<Found<(f64, f64)>> {
        let mut found = Vec::new();
        self.pairs(list, at, |number, _| number.is_finite(), &mut found);
        found
    }

    /// Fakes that are not positive are left out.
    pub(crate) fn fakes(&mut self, list: &str, at: usize) -> Vec<Found<(f64, f64)>> {
        let mut found = Vec::new();
        self.pairs(list, at, |number, narrowed| number.is_finite() && narrowed > 0.0, &mut found);
        found
    }

    /// A speed's unit is seconds where it is 1, else beats. One that is neither 0 nor 1 is told, and so is what stands behind it.
    fn speed(&mut self, entry: &Entry<'_>) -> Option<Speed<f64>> {
        let mut parts = entry.part().split().map(Part::trimmed);
        let (Some(beat), Some(ratio), Some(delay)) = (parts.next(), parts.next(), parts.next()) else {
            self.wrong(entry.at, "a beat, a ratio, a delay and a unit are wanted, as 4=1.5=0.25=0", &entry.text);
            return None;
        };
        let (beat, ratio, delay) = (self.beat(beat)?, self.value(ratio)?.1, self.value(delay)?.1);
        let unit = match parts.next() {
            Some(Part { text: "1", .. }) => SpeedUnit::Seconds,
            Some(Part { text: "0", .. }) | None => SpeedUnit::Beats,
            Some(part) => {
                self.wrong(part.at, "a unit is wanted, 0 for beats or 1 for seconds", part.text);
                SpeedUnit::Beats
            }
        };
        if let Some(part) = parts.next() {
            self.wrong(part.at, "a speed has four numbers", part.text);
        }
        Some(Speed { beat, ratio, delay, unit })
    }

    pub(crate) fn speeds(&mut self, list: &str, at: usize) -> Vec<Found<Speed<f64>>> {
        entries(list, at)
            .filter_map(|entry| {
                self.speed(&entry).map(|speed| Found { entry: speed, number: entry.number, at: entry.at })
            })
            .collect()
    }

    /// An offset in seconds, 0 where none can be read.
    pub(crate) fn offset(&mut self, text: &str, at: usize) -> f64 {
        let part = Part { text, at }.trimmed();
        if part.text.is_empty() {
            return 0.0;
        }
        match part.text.parse::<f64>() {
            Ok(number) if number.is_finite() => number,
            _ => {
                self.wrong(part.at, "a number of seconds is wanted", part.text);
                0.0
            }
        }
    }
}

#[cfg(test)]
mod tests {
    use super::*;

    fn pairs(found: Vec<Found<(f64, f64)>>) -> Vec<(f64, f64)> {
        found.into_iter().map(|found| found.entry).collect()
    }

    #[test]
    fn tempos_are_sorted_and_keep_their_order_on_one_beat() {
        let mut reader = Reader::default();
        assert_eq!(
            pairs(reader.tempos("4=1,1.001=150,1=160,1=170, 96r=60,", 0)),
            [(1.0, 160.0), (1.0, 170.0), (f64::from(1.001f32), 150.0), (2.0, 60.0), (4.0, 1.0)]
        );
        let numbers: Vec<usize> = reader.tempos("4=1,,0=1", 0).iter().map(|found| found.number).collect();
        assert_eq!((numbers, reader.faults), (vec![2, 1], vec![]));
    }

    #[test]
    fn values_go_through_f32_and_fakes_are_positive() {
        let mut reader = Reader::default();
        assert_eq!(pairs(reader.segments("1=0.1,2=-1e-46", 0)), [(1.0, f64::from(0.1f32)), (2.0, -0.0)]);
        assert_eq!(pairs(reader.fakes("1=1,2=0,3=-1,4=1e-46,5=-0", 0)), [(1.0, 1.0)]);
        assert!(reader.faults.is_empty());
    }

    #[test]
    fn control_characters_are_no_part_of_an_entry() {
        let mut reader = Reader::default();
        assert_eq!(pairs(reader.segments("\u{1}1\n=\u{7}2 ,\u{2},\u{b}3=4\n5", 0)), [(1.0, 2.0), (3.0, 45.0)]);
        assert!(reader.faults.is_empty());
    }

    #[test]
    fn what_is_passed_over_is_told() {
        let mut reader = Reader::default();
        assert_eq!(
            pairs(reader.segments("1=1,x=1,2=1=1,3,4=inf,5=1e39,inf=1", 100)),
            [(1.0, 1.0), (5.0, f64::INFINITY)]
        );
        let places: Vec<usize> = reader.faults.iter().map(|fault| fault.0).collect();
        assert_eq!(places, [104, 110, 114, 118, 124, 129]);
        let mut reader = Reader::default();
        let units: Vec<SpeedUnit> =
            reader.speeds("0=1=0,0=1=0=1,0=1=0=2,0=1=0=0=5,0=1", 0).iter().map(|found| found.entry.unit).collect();
        assert_eq!(units, [SpeedUnit::Beats, SpeedUnit::Seconds, SpeedUnit::Beats, SpeedUnit::Beats]);
        assert_eq!(reader.faults.len(), 3);
    }
}
