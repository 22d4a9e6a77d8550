//! Chart timing for dance games, proved right.
//!
//! A chart says on which beat a note falls; this crate says at which second, and whether a note there is judged at all.
//! It is a safe, thin layer over functions that are proved to meet their contracts for every input, and that answer bit for bit what the
//! timing part of rssp answers. Text is not read here: a chart comes as its seven lists of numbers.
//!
//! ```
//! use marrighentu::{Chart, Format, Timing};
//!
//! // 120 beats a minute, and a stop of one second on beat 4
//! let chart = Chart { tempos: vec![(0.0, 120.0)], stops: vec![(4.0, 1.0)], ..Chart::default() };
//! let timing = Timing::assemble(Format::Ssc, &chart, 0.0, 0.0)?;
//!
//! let mut cursor = timing.cursor();
//! assert_eq!(cursor.time_for_beat(4.0)?, 2.0);
//! assert_eq!(cursor.time_for_beat(5.0)?, 3.5);
//! # Ok::<(), marrighentu::Refusal>(())
//! ```
//!
//! What is proved ends at the C functions that this crate calls. Its own code, which lends columns to them and reads their answers, is tested.

#![deny(missing_docs)]

mod by_time;
mod cursor;
mod events;
mod ffi;
mod lists;
mod mend;
mod moved;
mod refusal;
mod sheet;
mod timing;

pub use by_time::BeatInfo;
pub use cursor::{Answer, Cursor, CursorState};
pub use events::{BenchAnswer, Event, EventKind};
pub use lists::{Chart, Columns, Entries, Format, Lists, Speed, SpeedUnit, Warp};
pub use mend::{Fate, Mended, mend_scrolls, mend_speeds};
pub use moved::{Moved, Quantized, quantize};
pub use refusal::{NoRefusal, Refusal};
pub use sheet::{Note, Snap};
pub use timing::{RowStore, Timing};

/// Rows to a beat.
pub const ROWS_PER_BEAT: i32 = 48;

/// The version of the functions that are linked: 10,000 times its first number, 100 times its second, and its third.
///
/// ```
/// assert_eq!(marrighentu::linked_version(), 100);
/// ```
#[must_use]
pub fn linked_version() -> u32 {
    ffi::version()
}

/// The beat of a row.
///
/// ```
/// assert_eq!(marrighentu::note_row_to_beat(72), 1.5);
/// ```
#[must_use]
pub fn note_row_to_beat(row: i32) -> f64 {
    ffi::note_row_to_beat(row)
}

/// The row of a beat: the nearest, of two that are equally near the even one, held at the ends of an `i32`.
///
/// ```
/// assert_eq!(marrighentu::beat_to_note_row(0.03125), 2);
/// assert_eq!(marrighentu::beat_to_note_row(f64::INFINITY), 0);
/// ```
#[must_use]
pub fn beat_to_note_row(beat: f64) -> i32 {
    ffi::beat_to_note_row(beat)
}

/// The most bytes of note data.
const MOST_NOTE_BYTES: usize = 1 << 20;

/// The beat of each row of note data: measures between commas, the rows of each spread evenly over its four beats. A row is a line with a byte
/// in it that is not blank, and may end at a comma or at the end of the data too; a measure without rows is four beats all the same.
///
/// ```
/// assert_eq!(marrighentu::row_to_beat(b"1000\n0000\n0100\n0000\n,\n,\n1000\n0001\n")?, [0.0, 1.0, 2.0, 3.0, 8.0, 10.0]);
/// # Ok::<(), marrighentu::Refusal>(())
/// ```
///
/// # Errors
/// [`Refusal::TooLong`] for more than 2^20 bytes.
pub fn row_to_beat(note_data: &[u8]) -> Result<Vec<f32>, Refusal> {
    // a row has a byte, and another that ends it or is the data's last
    let mut beats = vec![0.0; note_data.len().min(MOST_NOTE_BYTES).div_ceil(2)];
    let outcome = ffi::compute_row_to_beat(note_data, &mut beats);
    refusal::taken(outcome.number, ())?;
    beats.truncate(outcome.count);
    Ok(beats)
}

/// So many bytes for each entry always hold the text of a tempo list.
pub const TEMPO_TEXT_BYTES: usize = 33;

/// A list of raw tempos as text: beat=tempo with six decimals each and commas between, in the order given. A beat is moved to its row; a tempo is
/// divided by 60 and multiplied again at `f32`, as rssp does, and 0 is written for one that is not finite.
///
/// ```
/// let text = marrighentu::tempo_text(&[(0.0, 120.0), (4.01, 63.0), (8.0, -0.0), (12.0, f64::NAN)])?;
/// assert_eq!(text, "0.000000=120.000000,4.000000=62.999996,8.000000=-0.000000,12.000000=0.000000");
/// # Ok::<(), marrighentu::Refusal>(())
/// ```
///
/// # Errors
/// [`Refusal::TooLong`] for more than 1,024 entries; [`Refusal::BadBeat`] for a beat beyond 65,536 or one that is not finite;
/// [`Refusal::BadValue`] for a tempo that is neither 0 nor from 2^-20 to 2^30 in size.
pub fn tempo_text(tempos: &[(f64, f64)]) -> Result<String, Refusal> {
    let tempos = Columns::of(tempos);
    let mut page = vec![0; TEMPO_TEXT_BYTES * tempos.len()];
    let outcome = ffi::format_bpm_segments(&tempos, &mut page);
    refusal::taken(outcome.number, ())?;
    page.truncate(outcome.count);
    Ok(String::from_utf8(page).expect("digits, signs, points and commas"))
}
