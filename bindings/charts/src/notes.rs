//! The notes of a chart.

use marrighentu::{beat_to_note_row, note_row_to_beat};
use std::ops::Range;

/// What a note is.
///
/// ```
/// use marrighentu_charts::NoteKind;
///
/// assert_eq!((NoteKind::Mine.letter(), NoteKind::Mine.name()), ('M', "mine"));
/// ```
#[derive(Clone, Copy, Debug, PartialEq, Eq, Hash)]
pub enum NoteKind {
    /// `1`, a step.
    Tap,
    /// `2`, where a hold begins.
    Hold,
    /// `4`, where a roll begins.
    Roll,
    /// `3`, where a hold or a roll ends.
    End,
    /// `M`.
    Mine,
    /// `L`, a foot lifted.
    Lift,
    /// `F`, a note that is never judged.
    Fake,
    /// `K`, a sound that plays by itself.
    Keysound,
}

impl NoteKind {
    /// The character that stands for it in a file.
    #[must_use]
    pub fn letter(self) -> char {
        match self {
            NoteKind::Tap => '1',
            NoteKind::Hold => '2',
            NoteKind::Roll => '4',
            NoteKind::End => '3',
            NoteKind::Mine => 'M',
            NoteKind::Lift => 'L',
            NoteKind::Fake => 'F',
            NoteKind::Keysound => 'K',
        }
    }

    /// Its name, in small letters.
    #[must_use]
    pub fn name(self) -> &'static str {
        match self {
            NoteKind::Tap => "tap",
            NoteKind::Hold => "hold",
            NoteKind::Roll => "roll",
            NoteKind::End => "end",
            NoteKind::Mine => "mine",
            NoteKind::Lift => "lift",
            NoteKind::Fake => "fake",
            NoteKind::Keysound => "keysound",
        }
    }

    fn of(byte: u8) -> Option<NoteKind> {
        Some(match byte.to_ascii_uppercase() {
            b'1' => NoteKind::Tap,
            b'2' => NoteKind::Hold,
            b'3' => NoteKind::End,
            b'4' => NoteKind::Roll,
            b'M' => NoteKind::Mine,
            b'L' => NoteKind::Lift,
            b'F' => NoteKind::Fake,
            b'K' => NoteKind::Keysound,
            _ => return None,
        })
    }
}

/// A note: where it stands, in time and among the lanes.
///
/// ```
/// use marrighentu_charts::{ChartFile, NoteKind};
///
/// // the second measure has three lines, so that 64 rows lie between two of them
/// let file = ChartFile::read(b"#NOTES:dance-single::Easy:1::\n1000\n,\n0000\n0000\n00M0;");
/// let notes = file.chart(1).expect("there is one").notes()?;
/// assert_eq!((notes[1].row, notes[1].lane, notes[1].kind, notes[1].line), (192 + 128, 2, NoteKind::Mine, 6));
/// assert_eq!(notes[1].beat(), 320.0 / 48.0);
/// # Ok::<(), marrighentu_charts::Fault>(())
/// ```
#[derive(Clone, Copy, Debug, PartialEq, Eq)]
pub struct Note {
    /// The row, 48 to a beat.
    pub row: i32,
    /// The lane, counted from 0 on the left.
    pub lane: usize,
    /// What it is.
    pub kind: NoteKind,
    /// The line in the file.
    pub line: usize,
}

impl Note {
    /// The beat of its row.
    #[must_use]
    pub fn beat(&self) -> f64 {
        note_row_to_beat(self.row)
    }
}

/// The lines of a measure that are not blank.
fn lines(text: &[u8], measure: Range<usize>) -> impl Iterator<Item = Range<usize>> + Clone {
    let mut start = measure.start;
    text[measure].split(|byte| *byte == b'\n').filter_map(move |line| {
        let from = start + line.len() - line.trim_ascii_start().len();
        start += line.len() + 1;
        let length = line.trim_ascii().len();
        (length > 0).then_some(from..from + length)
    })
}

/// Ranges between a character that parts them.
fn parts(text: &[u8], whole: Range<usize>, by: u8) -> impl Iterator<Item = Range<usize>> {
    let mut start = whole.start;
    text[whole].split(move |byte| *byte == by).map(move |part| {
        let range = start..start + part.len();
        start = range.end + 1;
        range
    })
}

/// The row of a line: the measure's four beats are spread over its lines, in f32 as rssp has it.
fn row(measure: usize, line: usize, lines: usize) -> i32 {
    let beat = (line as f32).mul_add(4.0 / lines as f32, measure as f32 * 4.0);
    beat_to_note_row(f64::from(beat))
}

/// What a line holds, lane by lane; what stands in brackets behind a note is passed over. Else the place of what is no note.
fn lanes(text: &[u8], line: Range<usize>, mut found: impl FnMut(usize, NoteKind)) -> Result<(), usize> {
    let (mut at, mut lane) = (line.start, 0);
    while at < line.end {
        let byte = text[at];
        match (byte, NoteKind::of(byte)) {
            (b'0', _) => lane += 1,
            (_, Some(kind)) => {
                found(lane, kind);
                lane += 1;
            }
            (b'[' | b'{' | b'<', None) if lane > 0 => {
                let closing = match byte {
                    b'[' => b']',
                    b'{' => b'}',
                    _ => b'>',
                };
                at += text[at..line.end].iter().position(|other| *other == closing).ok_or(at)?;
            }
            _ => return Err(at),
        }
        at += 1;
    }
    Ok(())
}

/// The notes of a value in the order of their rows, then lanes. `line_of` tells the line of a place.
pub(crate) fn read(
    text: &[u8],
    value: Range<usize>,
    line_of: impl Fn(usize) -> usize,
) -> Result<Vec<Note>, (usize, String)> {
    let mut notes = Vec::new();
    // each player of a routine chart has a part of its own
    for player in parts(text, value, b'&') {
        for (number, measure) in parts(text, player, b',').enumerate() {
            let written = lines(text, measure);
            let count = written.clone().count();
            for (place, line) in written.enumerate() {
                let (row, line_number) = (row(number, place, count), line_of(line.start));
                lanes(text, line.clone(), |lane, kind| notes.push(Note { row, lane, kind, line: line_number }))
                    .map_err(|at| {
                        let rest = String::from_utf8_lossy(&text[at..line.end]);
                        let found: String = rest.chars().take(1).collect();
                        (at, format!("a note is wanted, one of 0 1 2 3 4 M L F K, found {found:?}"))
                    })?;
            }
        }
    }
    notes.sort_by_key(|note| (note.row, note.lane));
    Ok(notes)
}

#[cfg(test)]
mod tests {
    use super::*;

    fn rows(text: &str) -> Vec<(i32, usize, char)> {
        let notes = read(text.as_bytes(), 0..text.len(), |_| 1).unwrap();
        notes.iter().map(|note| (note.row, note.lane, note.kind.letter())).collect()
    }

    #[test]
    fn measures_spread_over_192_rows() {
        assert_eq!(rows("1000\n0100\n0010\n0001\n"), [(0, 0, '1'), (48, 1, '1'), (96, 2, '1'), (144, 3, '1')]);
        assert_eq!(rows("0\n,\n\n,\n1\n1\n1"), [(384, 0, '1'), (448, 0, '1'), (512, 0, '1')]);
        assert_eq!(rows(""), []);
        for count in [1, 2, 3, 4, 6, 8, 12, 16, 24, 32, 48, 64, 96, 192] {
            let lines: Vec<&str> = vec!["1"; count];
            let found = rows(&format!(",{}", lines.join("\r\n")));
            let wanted: Vec<i32> = (0..count).map(|line| 192 + (line * 192 / count) as i32).collect();
            assert_eq!(found.iter().map(|note| note.0).collect::<Vec<_>>(), wanted);
        }
    }

    #[test]
    fn every_kind_and_what_stands_beside_it() {
        assert_eq!(rows("012\n34M\nLFK\nmlf").iter().map(|note| note.2).collect::<String>(), "1234MLFKMLF");
        assert_eq!(rows("1[3]0{x}2"), [(0, 0, '1'), (0, 2, '2')]);
        assert_eq!(rows("10\n01&\n01\n10"), [(0, 0, '1'), (0, 1, '1'), (96, 0, '1'), (96, 1, '1')]);
    }

    #[test]
    fn what_is_no_note_is_told() {
        for (text, place) in [("10\n0x", 4), ("1[3", 1), ("[3]1", 0), ("1 0", 1), ("é", 0)] {
            assert_eq!(read(text.as_bytes(), 0..text.len(), |_| 1).unwrap_err().0, place, "{text:?}");
        }
    }
}
