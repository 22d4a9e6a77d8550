//! A chart's lists, as they are written and as they are timed.

use std::iter::Zip;
use std::slice;

/// The file format of a chart, which decides how its tempos and stops are read.
#[derive(Clone, Copy, Debug, PartialEq, Eq, Hash)]
pub enum Format {
    /// Negative tempos and stops, and very fast tempos, are warps.
    Sm,
    /// Warps stand in a list of their own; tempos and stops that are not positive are left out.
    Ssc,
}

impl Format {
    pub(crate) fn number(self) -> u32 {
        match self {
            Format::Sm => 0,
            Format::Ssc => 1,
        }
    }
}

/// What a speed's delay is counted in.
#[derive(Clone, Copy, Debug, PartialEq, Eq, Hash, Default)]
pub enum SpeedUnit {
    /// Beats of the chart.
    #[default]
    Beats,
    /// Seconds of the song.
    Seconds,
}

impl SpeedUnit {
    pub(crate) fn number(self) -> u8 {
        match self {
            SpeedUnit::Beats => 0,
            SpeedUnit::Seconds => 1,
        }
    }

    pub(crate) fn of(number: u8) -> SpeedUnit {
        if number == 0 { SpeedUnit::Beats } else { SpeedUnit::Seconds }
    }
}

/// A speed as a chart gives it (`f64`), or as it is timed (`f32`).
#[derive(Clone, Copy, Debug, PartialEq, Default)]
pub struct Speed<Number> {
    /// Where it begins.
    pub beat: Number,
    /// How fast notes come from then on; 1 is as usual.
    pub ratio: Number,
    /// How long it takes to get there.
    pub delay: Number,
    /// What that is counted in.
    pub unit: SpeedUnit,
}

/// A warp of a timing, and where it came from.
#[derive(Clone, Copy, Debug, PartialEq)]
pub struct Warp {
    /// Where it begins.
    pub beat: f32,
    /// How many beats are skipped.
    pub length: f32,
    /// Whether SM processing made it of a negative or fast tempo or of a negative stop; else the charter wrote it.
    pub made: bool,
}

/// Marks as the calls take them, one for each warp: those that are given, or, where none is, all written.
pub(crate) fn marks(made: &[bool], warps: usize) -> Vec<u8> {
    if made.is_empty() { vec![0; warps] } else { made.iter().map(|made| u8::from(*made)).collect() }
}

/// A chart's lists as it gives them: a beat and a value for each entry, in any order.
///
/// Tempos are beats a minute; stops and delays seconds; warps and fakes beats.
#[derive(Clone, Debug, PartialEq, Default)]
pub struct Chart {
    /// Beats a minute.
    pub tempos: Vec<(f64, f64)>,
    /// Seconds; notes on the beat come before the stop.
    pub stops: Vec<(f64, f64)>,
    /// Seconds; notes on the beat come after the delay.
    pub delays: Vec<(f64, f64)>,
    /// Beats that are skipped.
    pub warps: Vec<(f64, f64)>,
    /// Of each warp whether it was made of a tempo or a stop, and not written. A chart whose warps are all written leaves this empty.
    pub warps_made: Vec<bool>,
    /// How fast notes come.
    pub speeds: Vec<Speed<f64>>,
    /// How far apart notes are drawn; 1 is as usual.
    pub scrolls: Vec<(f64, f64)>,
    /// Beats whose notes are not judged.
    pub fakes: Vec<(f64, f64)>,
}

/// Beats and values of one list, each a column of its own.
#[derive(Clone, Debug, PartialEq, Default)]
pub struct Columns<Number> {
    pub(crate) beats: Vec<Number>,
    pub(crate) values: Vec<Number>,
}

impl<Number: Copy> Columns<Number> {
    pub(crate) fn of(entries: &[(Number, Number)]) -> Columns<Number> {
        let (beats, values) = entries.iter().copied().unzip();
        Columns { beats, values }
    }

    /// How many entries there are.
    #[must_use]
    pub fn len(&self) -> usize {
        self.beats.len()
    }

    /// Whether there is none.
    #[must_use]
    pub fn is_empty(&self) -> bool {
        self.beats.is_empty()
    }

    /// The beats, in the order of the entries.
    #[must_use]
    pub fn beats(&self) -> &[Number] {
        &self.beats
    }

    /// The values, in the order of the entries.
    #[must_use]
    pub fn values(&self) -> &[Number] {
        &self.values
    }

    /// The entries as pairs of a beat and a value.
    #[must_use]
    pub fn iter(&self) -> Entries<'_, Number> {
        Entries { left: self.beats.iter().zip(self.values.iter()) }
    }
}

/// The entries of a list, one after the other: [`Columns::iter`].
#[derive(Clone, Debug)]
pub struct Entries<'list, Number> {
    left: Zip<slice::Iter<'list, Number>, slice::Iter<'list, Number>>,
}

impl<Number: Copy> Iterator for Entries<'_, Number> {
    type Item = (Number, Number);

    fn next(&mut self) -> Option<(Number, Number)> {
        self.left.next().map(|(beat, value)| (*beat, *value))
    }

    fn size_hint(&self) -> (usize, Option<usize>) {
        self.left.size_hint()
    }
}

impl<Number: Copy> DoubleEndedIterator for Entries<'_, Number> {
    fn next_back(&mut self) -> Option<(Number, Number)> {
        self.left.next_back().map(|(beat, value)| (*beat, *value))
    }
}

impl<Number: Copy> ExactSizeIterator for Entries<'_, Number> {}

impl<'list, Number: Copy> IntoIterator for &'list Columns<Number> {
    type Item = (Number, Number);
    type IntoIter = Entries<'list, Number>;

    fn into_iter(self) -> Entries<'list, Number> {
        self.iter()
    }
}

/// The seven lists of a timing, tidy: in order, each row once, as the clock and the lookups take them.
#[derive(Clone, Debug, PartialEq, Default)]
pub struct Lists {
    /// Beats a minute.
    pub tempos: Vec<(f32, f32)>,
    /// Seconds; notes on the beat come before the stop.
    pub stops: Vec<(f32, f32)>,
    /// Seconds; notes on the beat come after the delay.
    pub delays: Vec<(f32, f32)>,
    /// Beats that are skipped.
    pub warps: Vec<(f32, f32)>,
    /// Of each warp whether it was made, and not written; empty where all are written.
    pub warps_made: Vec<bool>,
    /// How fast notes come.
    pub speeds: Vec<Speed<f32>>,
    /// How far apart notes are drawn; 1 is as usual.
    pub scrolls: Vec<(f32, f32)>,
    /// Beats whose notes are not judged.
    pub fakes: Vec<(f32, f32)>,
}
