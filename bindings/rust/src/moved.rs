//! Beats off the grid.

use crate::ffi;

/// A beat on its row, and whether it was off the grid.
#[derive(Clone, Copy, Debug, PartialEq)]
pub struct Quantized {
    /// The beat of its row, through `f32` as charts are read.
    pub beat: f64,
    /// Whether the beat, narrowed to `f32`, was another than the `f32` beat of its row. They are compared by value.
    pub off: bool,
}

/// A beat moved to its row, and whether it was off the grid.
///
/// ```
/// use marrighentu::quantize;
///
/// let a_little_late = quantize(4.01);
/// assert_eq!((a_little_late.beat, a_little_late.off), (4.0, true));
/// // a third of a beat is on a row, and so is -0
/// assert!(!quantize(1.0 / 3.0).off && !quantize(-0.0).off);
/// ```
#[must_use]
pub fn quantize(beat: f64) -> Quantized {
    let quantized = ffi::quantize(beat);
    Quantized { beat: quantized.beat, off: quantized.off }
}

/// Of each list of a chart, how many of its raw entries were off the grid. Only beats count, not lengths; entries that the format leaves out and warps that are
/// made do not, and entries that others replace do.
#[derive(Clone, Copy, Debug, Default, PartialEq, Eq)]
#[repr(C)]
pub struct Moved {
    /// Of the tempos.
    pub tempos: u32,
    /// Of the stops.
    pub stops: u32,
    /// Of the delays.
    pub delays: u32,
    /// Of the warps that were given.
    pub warps: u32,
    /// Of the speeds.
    pub speeds: u32,
    /// Of the scrolls.
    pub scrolls: u32,
    /// Of the fakes.
    pub fakes: u32,
}

impl Moved {
    /// Of all lists together.
    #[must_use]
    pub fn total(self) -> u32 {
        self.tempos + self.stops + self.delays + self.warps + self.speeds + self.scrolls + self.fakes
    }
}
