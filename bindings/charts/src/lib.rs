//! Reads .sm and .ssc files: each chart's timing as rssp takes it from text, and its notes.
//!
//! **This reading is not proved.** It is plain Rust, tested, and held against rssp by running both on random texts. What it reads is handed to
//! [`marrighentu`], where the proved part begins.
//!
//! ```
//! use marrighentu_charts::ChartFile;
//!
//! let file = ChartFile::read(b"#VERSION:0.83;
//! #TITLE:Two stops;
//! #BPMS:0=120;
//! #NOTEDATA:;
//! #STEPSTYPE:dance-single;
//! #DIFFICULTY:Hard;
//! #METER:9;
//! #BPMS:0=60,4=120;
//! #STOPS:2=0.5;
//! #NOTES:
//! 1000
//! 0000
//! 0110
//! 0000
//! ;");
//! assert_eq!(file.title(), "Two stops");
//!
//! let chart = file.chart(1).expect("there is one");
//! assert_eq!((chart.steps_type(), chart.difficulty(), chart.meter()), ("dance-single".into(), "Hard".into(), "9".into()));
//! assert!(chart.has_own_timing());
//!
//! let read = chart.timing()?;
//! assert_eq!(read.chart().tempos, [(0.0, 60.0), (4.0, 120.0)]);
//! let timing = read.assemble(0.0)?;
//! for note in chart.notes()? {
//!     let second = timing.cursor().time_for_beat(note.beat())?;
//!     println!("lane {} at {second} s", note.lane);
//! }
//! # assert_eq!(chart.notes()?.len(), 3);
//! # Ok::<(), Box<dyn std::error::Error>>(())
//! ```
//!
//! # What is read, and how
//!
//! - A file is a row of tags, `#NAME:value;`. A backslash takes its meaning from the character behind it, `//` begins a comment, and a tag whose
//!   semicolon is missing ends where a line begins with the next `#`. Tags that are not about timing are never a reason to refuse a file, and
//!   neither is a `#` that begins none. Of several tags of one name the last counts.
//! - What stands before the first chart is the whole file's. An .ssc chart has timing of its own where it has any of twelve tags (BPMS, STOPS,
//!   DELAYS, WARPS, SPEEDS, SCROLLS, FAKES, TIMESIGNATURES, LABELS, TICKCOUNTS, COMBOS, OFFSET) and the file's version is at least 0.7; then none of
//!   the file's lists are used, only its offset where the chart has none. A file without a readable version counts as of version 0.83.
//! - Beats are `f32`, or rows with an `r` behind them; values go through `f32`. Tempos are put in order by beat, stable. Fakes that are not
//!   positive are left out.
//! - rssp passes over an entry that it can't read. [`ChartText::timing`] tells its place instead; [`ChartText::timing_passing_over`] does as rssp does.
//!
//! Reading takes time in proportion to the file's size; a list of tempos that are not in order is sorted.

#![deny(missing_docs)]

mod file;
mod lists;
mod moved;
mod notes;
mod places;
mod refused;
mod tags;

pub use file::{ChartFile, ChartText};
pub use lists::ChartTiming;
pub use moved::MovedEntry;
pub use notes::{Note, NoteKind};
pub use places::{Fault, Place};
pub use refused::Refused;
