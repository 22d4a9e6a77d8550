//! The note sheet: what a player and a judge need of each row with notes.

use crate::ffi;
use crate::refusal::{Refusal, taken};
use crate::timing::Timing;
use std::fmt;

/// The part of a beat that a row falls on, by which a note is coloured: the first of nine that holds.
#[derive(Clone, Copy, Debug, PartialEq, Eq, PartialOrd, Ord, Hash)]
pub enum Snap {
    /// On the beat.
    Fourth,
    /// Half a beat.
    Eighth,
    /// A third of a beat.
    Twelfth,
    /// A quarter of a beat.
    Sixteenth,
    /// A sixth of a beat.
    TwentyFourth,
    /// An eighth of a beat.
    ThirtySecond,
    /// A twelfth of a beat.
    FortyEighth,
    /// A sixteenth of a beat.
    SixtyFourth,
    /// Every other row.
    OneNinetySecond,
}

impl Snap {
    const ALL: [Snap; 9] = [
        Snap::Fourth,
        Snap::Eighth,
        Snap::Twelfth,
        Snap::Sixteenth,
        Snap::TwentyFourth,
        Snap::ThirtySecond,
        Snap::FortyEighth,
        Snap::SixtyFourth,
        Snap::OneNinetySecond,
    ];
}

/// As players write it: `4th`, `12th`, `32nd`.
impl fmt::Display for Snap {
    fn fmt(&self, f: &mut fmt::Formatter<'_>) -> fmt::Result {
        f.write_str(match self {
            Snap::Fourth => "4th",
            Snap::Eighth => "8th",
            Snap::Twelfth => "12th",
            Snap::Sixteenth => "16th",
            Snap::TwentyFourth => "24th",
            Snap::ThirtySecond => "32nd",
            Snap::FortyEighth => "48th",
            Snap::SixtyFourth => "64th",
            Snap::OneNinetySecond => "192nd",
        })
    }
}

/// A row of a note sheet.
#[derive(Clone, Copy, Debug, PartialEq)]
pub struct Note {
    /// The row as it was asked.
    pub row: i32,
    /// The time of the row's beat, in seconds.
    pub time: f64,
    /// Whether a note there is judged: the row is neither warped nor fake.
    pub judgable: bool,
    /// Its colour.
    pub snap: Snap,
}

impl Timing {
    /// Of each of a rising list of rows its time, whether it is judgable, and its colour, by one cursor that goes along once.
    ///
    /// ```
    /// use marrighentu::{Chart, Format, Note, Refusal, Snap, Timing};
    ///
    /// // 120 beats a minute, and a warp over the second beat
    /// let chart = Chart { tempos: vec![(0.0, 120.0)], warps: vec![(1.0, 1.0)], ..Chart::default() };
    /// let timing = Timing::assemble(Format::Ssc, &chart, 0.0, 0.0)?;
    /// let sheet = timing.note_sheet(&[-1, 24, 64])?;
    /// assert_eq!(sheet[1], Note { row: 24, time: 0.25, judgable: true, snap: Snap::Eighth });
    /// assert_eq!(sheet[2], Note { row: 64, time: 0.5, judgable: false, snap: Snap::Twelfth });
    /// assert_eq!(sheet[0].snap.to_string(), "192nd");
    /// // each row once, and each after the one before it
    /// assert_eq!(timing.note_sheet(&[24, 24]), Err(Refusal::NotRising));
    /// # Ok::<(), Refusal>(())
    /// ```
    ///
    /// # Errors
    /// [`Refusal::BadBeat`] where a row lies beyond 3,145,728, else [`Refusal::NotRising`] where one is not above the one before it.
    pub fn note_sheet(&self, rows: &[i32]) -> Result<Vec<Note>, Refusal> {
        let (mut times, mut judged, mut snaps) = (vec![0.0; rows.len()], vec![0; rows.len()], vec![0; rows.len()]);
        let sheet = ffi::note_sheet(
            &self.tempos,
            &self.stops,
            &self.delays,
            &self.warps,
            self.offset,
            self.global,
            &self.fakes,
            rows,
            &mut times,
            &mut judged,
            &mut snaps,
        );
        taken(sheet.number, ())?;
        let notes = rows.iter().zip(times).zip(judged.into_iter().zip(snaps));
        Ok(notes
            .map(|((row, time), (judgable, snap))| Note {
                row: *row,
                time,
                judgable: judgable == 1,
                snap: Snap::ALL[usize::from(snap)],
            })
            .collect())
    }
}

#[cfg(test)]
mod tests {
    use super::{Note, Snap};
    use crate::{Chart, Format, Refusal, Timing};

    fn timing() -> Timing {
        let chart = Chart {
            tempos: vec![(0.0, 120.0), (8.0, 60.0)],
            stops: vec![(4.0, 1.0)],
            warps: vec![(6.0, 1.0)],
            fakes: vec![(2.0, 1.0)],
            ..Chart::default()
        };
        Timing::assemble(Format::Ssc, &chart, 0.25, 0.0).unwrap()
    }

    #[test]
    fn a_sheet_is_its_questions() {
        let timing = timing();
        let rows: Vec<i32> = (-200..2_000).step_by(7).collect();
        let sheet = timing.note_sheet(&rows).unwrap();
        assert_eq!(sheet.len(), rows.len());
        for (row, note) in rows.iter().zip(&sheet) {
            let time = timing.cursor().time_for_beat(f64::from(*row) / 48.0).unwrap();
            assert_eq!((note.row, note.time.to_bits()), (*row, time.to_bits()));
            assert_eq!(note.judgable, timing.is_judgable_at_row(*row).unwrap());
        }
    }

    #[test]
    fn colours_go_by_the_place_in_the_beat() {
        let rows: Vec<i32> = (-48..96).collect();
        let divides = [48, 24, 16, 12, 8, 6, 4, 3, 1];
        for Note { row, snap, .. } in timing().note_sheet(&rows).unwrap() {
            let first = divides.iter().position(|many| row.rem_euclid(*many) == 0).unwrap();
            assert_eq!(snap, Snap::ALL[first], "row {row}");
        }
        assert_eq!(Snap::ALL.map(|snap| snap.to_string()).join(" "), "4th 8th 12th 16th 24th 32nd 48th 64th 192nd");
    }

    #[test]
    fn rows_that_no_sheet_has_are_refused() {
        let timing = timing();
        assert_eq!(timing.note_sheet(&[]), Ok(vec![]));
        assert_eq!(timing.note_sheet(&[0, 0]), Err(Refusal::NotRising));
        assert_eq!(timing.note_sheet(&[1, 0]), Err(Refusal::NotRising));
        assert_eq!(timing.note_sheet(&[3_145_729, 0]), Err(Refusal::BadBeat));
        assert_eq!(timing.note_sheet(&[-3_145_728, 3_145_728]).unwrap().len(), 2);
    }
}
