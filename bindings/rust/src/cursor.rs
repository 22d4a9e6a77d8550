//! The clock.

use crate::ffi;
use crate::refusal::{Refusal, taken};
use crate::timing::Timing;

/// A question's answer.
#[derive(Clone, Copy, Debug, PartialEq)]
pub struct Answer {
    /// The second at which the beat is.
    pub time: f64,
    /// The events that the question passed, and one; one where the beat lies behind all events.
    pub steps: usize,
}

/// A place in a timing, which goes forward with the beats that it is asked.
///
/// Questions may come in any order: each time is bit for bit what a fresh cursor gives for that beat. Rising beats are cheap, since only
/// the events between two of them are passed; a beat on a lower row starts from beat zero again. A beat behind all events is answered at once, from
/// the end of the timing, which was worked out when the timing was made.
///
/// ```
/// use marrighentu::{Chart, Format, Refusal, Timing};
///
/// // a warp from beat 4 to beat 6 takes no time
/// let chart = Chart { tempos: vec![(0.0, 120.0)], warps: vec![(4.0, 2.0)], ..Chart::default() };
/// let timing = Timing::assemble(Format::Ssc, &chart, 0.0, 0.0)?;
/// let mut cursor = timing.cursor();
/// assert_eq!(cursor.time_for_beat(5.0)?, 2.0);
/// assert_eq!(cursor.time_for_beat(8.0)?, 3.0);
/// assert_eq!(cursor.time_for_beat(1.0)?, 0.5);
/// // the warp's end, on beat 6, is the last event: behind it a question is one step
/// assert_eq!(cursor.ask(6.0)?.steps, 3);
/// assert_eq!(timing.cursor().ask(1000.0)?.steps, 1);
/// // a refused question leaves the cursor as it was
/// assert_eq!(cursor.time_for_beat(f64::NAN), Err(Refusal::BadBeat));
/// # Ok::<(), Refusal>(())
/// ```
#[derive(Clone, Debug)]
pub struct Cursor<'timing> {
    timing: &'timing Timing,
    at: ffi::Cursor,
}

/// A cursor without its timing: 64 plain bytes, which a player keeps beside the timing in one struct. The timing is named at each question, and a
/// state of another one is refused.
///
/// ```
/// use marrighentu::{Chart, CursorState, Format, Refusal, Timing};
///
/// struct Player {
///     timing: Timing,
///     at: CursorState,
/// }
///
/// let chart = Chart { tempos: vec![(0.0, 120.0)], ..Chart::default() };
/// let timing = Timing::assemble(Format::Ssc, &chart, 0.0, 0.0)?;
/// let at = timing.cursor().detach();
/// let mut player = Player { timing, at };
/// assert_eq!(player.at.time_for_beat(&player.timing, 4.0)?, 2.0);
///
/// let other = Timing::assemble(Format::Ssc, &chart, 0.5, 0.0)?;
/// assert_eq!(player.at.time_for_beat(&other, 4.0), Err(Refusal::BadCursor));
/// # Ok::<(), Refusal>(())
/// ```
#[derive(Clone, Copy, Debug, PartialEq)]
pub struct CursorState {
    state: ffi::State,
    asked: i32,
    /// which timing it belongs to
    of: u32,
}

const _: () = assert!(size_of::<CursorState>() == 64);

impl CursorState {
    /// The cursor that asks this timing from here on.
    ///
    /// # Errors
    /// [`Refusal::BadCursor`] where the state is one of another timing.
    pub fn attach(self, timing: &Timing) -> Result<Cursor<'_>, Refusal> {
        if self.of != timing.number {
            return Err(Refusal::BadCursor);
        }
        Ok(Cursor { timing, at: ffi::Cursor { state: self.state, asked: self.asked } })
    }

    /// At what time is this beat? As [`Cursor::time_for_beat`].
    ///
    /// # Errors
    /// [`Refusal::BadBeat`] for a beat that is not within -65,536 to 65,536; [`Refusal::BadCursor`] for another timing than its own.
    pub fn time_for_beat(&mut self, timing: &Timing, beat: f64) -> Result<f64, Refusal> {
        self.ask(timing, beat).map(|answer| answer.time)
    }

    /// The same with the number of steps.
    ///
    /// # Errors
    /// As [`time_for_beat`](CursorState::time_for_beat).
    pub fn ask(&mut self, timing: &Timing, beat: f64) -> Result<Answer, Refusal> {
        let mut cursor = self.attach(timing)?;
        let answer = cursor.ask(beat);
        *self = cursor.detach();
        answer
    }
}

impl<'timing> Cursor<'timing> {
    pub(crate) fn fresh(timing: &'timing Timing) -> Cursor<'timing> {
        Cursor { timing, at: ffi::cursor_new(timing.offset(), timing.global_offset()).cursor }
    }

    /// Its state, to be kept without a borrow of the timing.
    #[must_use]
    pub fn detach(self) -> CursorState {
        CursorState { state: self.at.state, asked: self.at.asked, of: self.timing.number }
    }

    /// The timing that is asked.
    #[must_use]
    pub fn timing(&self) -> &'timing Timing {
        self.timing
    }

    /// At what time is this beat? The cost does not grow with the timing's lists: they were tested when the timing was made.
    ///
    /// # Errors
    /// [`Refusal::BadBeat`] for a beat that is not within -65,536 to 65,536.
    #[inline]
    pub fn time_for_beat(&mut self, beat: f64) -> Result<f64, Refusal> {
        self.ask(beat).map(|answer| answer.time)
    }

    /// The same with the number of steps.
    ///
    /// # Errors
    /// [`Refusal::BadBeat`] for a beat that is not within -65,536 to 65,536.
    #[inline]
    pub fn ask(&mut self, beat: f64) -> Result<Answer, Refusal> {
        let t = self.timing;
        let reply = ffi::time_for_beat_checked_marked(
            &mut self.at,
            t.mark,
            &t.tempos,
            &t.stops,
            &t.delays,
            &t.warps,
            t.offset,
            t.global,
            beat,
        );
        taken(reply.number, Answer { time: reply.time, steps: reply.count })
    }

    /// Each beat of a list, in its order. A refused beat does not stop the ones after it.
    #[must_use]
    pub fn ask_all(&mut self, beats: &[f64]) -> Vec<Result<Answer, Refusal>> {
        let mut numbers = vec![0; beats.len()];
        let mut times = vec![0.0; beats.len()];
        let mut counts = vec![0; beats.len()];
        if let Err(refusal) = self.times_into(beats, &mut numbers, &mut times, &mut counts) {
            return vec![Err(refusal); beats.len()];
        }
        numbers
            .into_iter()
            .zip(times)
            .zip(counts)
            .map(|((number, time), steps)| taken(number, Answer { time, steps }))
            .collect()
    }

    /// Each beat of a list into the caller's own columns: the number of its refusal or 0, its second, its steps. Nothing is allocated. A beat that is refused has
    /// the second 0 and no steps, and does not stop the ones after it; what a column has beyond the beats stays as it was.
    ///
    /// ```
    /// use marrighentu::{Chart, Format, Timing};
    ///
    /// let chart = Chart { tempos: vec![(0.0, 120.0)], ..Chart::default() };
    /// let timing = Timing::assemble(Format::Ssc, &chart, 0.0, 0.0)?;
    /// let (mut numbers, mut times, mut steps) = ([0; 3], [0.0; 3], [0; 3]);
    /// timing.cursor().times_into(&[2.0, 1e9, 4.0], &mut numbers, &mut times, &mut steps)?;
    /// assert_eq!((numbers, times, steps), ([0, 3, 0], [1.0, 0.0, 2.0], [1, 0, 1]));
    /// # Ok::<(), marrighentu::Refusal>(())
    /// ```
    ///
    /// # Errors
    /// [`Refusal::NoRoom`] where a column is shorter than the beats; nothing is written then, and the cursor stays.
    pub fn times_into(
        &mut self,
        beats: &[f64],
        numbers: &mut [u32],
        times: &mut [f64],
        steps: &mut [usize],
    ) -> Result<(), Refusal> {
        let t = self.timing;
        let number = ffi::run_marked(
            &mut self.at,
            t.mark,
            &t.tempos,
            &t.stops,
            &t.delays,
            &t.warps,
            t.offset,
            t.global,
            beats,
            numbers,
            times,
            steps,
        );
        taken(number, ())
    }
}

#[cfg(test)]
mod tests {
    use super::*;
    use crate::lists::Lists;

    /// Every field of the cursor that crosses has its own value, so that a field in a wrong place would be seen.
    #[test]
    fn the_cursor_crosses_field_by_field() {
        let lists = Lists {
            tempos: vec![(0.0, 120.0), (1.0, 60.0), (2.0, 120.0), (30.0, 60.0)],
            stops: vec![(1.0, 1.0), (2.0, 2.0)],
            delays: vec![(3.0, 0.5)],
            warps: vec![(4.0, 1.0), (4.5, 0.25), (5.5, 0.5), (8.0, 4.0)],
            ..Lists::default()
        };
        let timing = Timing::from_lists(&lists, 0.5, 0.25).unwrap();
        let mut cursor = timing.cursor();
        let fresh =
            ffi::State { tempos: 0, stops: 0, delays: 0, warps: 0, row: 0, warping: false, time: -0.75, end: 0.0 };
        assert_eq!(cursor.at, ffi::Cursor { state: fresh, asked: i32::MIN });
        let answer = cursor.ask(9.0).unwrap();
        let state =
            ffi::State { tempos: 3, stops: 2, delays: 1, warps: 4, row: 384, warping: true, time: 6.5, end: 12.0 };
        assert_eq!(cursor.at, ffi::Cursor { state, asked: 432 });
        assert_eq!(answer, Answer { time: 6.25, steps: 13 });
        let before = cursor.at;
        assert_eq!(cursor.ask(70_000.0), Err(Refusal::BadBeat));
        assert_eq!(cursor.at, before);
        // so does the mark: behind the last tempo its state is the cursor's
        let state =
            ffi::State { tempos: 4, stops: 2, delays: 1, warps: 4, row: 1_440, warping: false, time: 15.5, end: 12.0 };
        assert_eq!(timing.mark, ffi::Mark { state, row: 1_440 });
        assert_eq!(timing.cursor().ask(30.0), Ok(Answer { time: 15.25, steps: 15 }));
        assert_eq!(cursor.ask(31.0), Ok(Answer { time: 16.25, steps: 1 }));
        assert_eq!(cursor.at, ffi::Cursor { state, asked: 1_488 });
        assert_eq!(timing.cursor().ask(31.0), Ok(Answer { time: 16.25, steps: 1 }));
    }

    fn at_120(warps: Vec<(f32, f32)>) -> Timing {
        Timing::from_lists(&Lists { tempos: vec![(0.0, 120.0)], warps, ..Lists::default() }, 0.0, 0.0).unwrap()
    }

    /// The greatest row, not the last: a warp of negative length ends before it starts.
    #[test]
    fn the_mark_is_on_the_greatest_row() {
        let timing = at_120(vec![(4.0, -2.0)]);
        assert_eq!((timing.mark.row, timing.mark.state.row), (192, 96));
        assert_eq!(timing.cursor().ask(4.0), Ok(Answer { time: 2.0, steps: 2 }));
        assert_eq!(timing.cursor().ask(5.0), Ok(Answer { time: 3.5, steps: 1 }));
    }

    /// Time stands still in a warp that never ends, and its mark serves; an end beyond the last row that is asked belongs to the mark, which then never serves.
    #[test]
    fn warps_that_end_far_away() {
        let never = at_120(vec![(0.0, 44_739_244.0)]);
        assert!(never.mark.state.warping && never.mark.row == 0);
        assert_eq!(never.cursor().ask(60_000.0), Ok(Answer { time: 0.0, steps: 1 }));
        let far = at_120(vec![(0.0, 44_739_240.0)]);
        assert!(!far.mark.state.warping && far.mark.row == 2_147_483_520);
        assert_eq!(far.cursor().ask(60_000.0), Ok(Answer { time: 0.0, steps: 3 }));
    }

    /// Questions in any order, one by one and as a run, have the seconds of a fresh cursor.
    #[test]
    fn behind_the_mark_and_before_it() {
        let timing = at_120(vec![(4.0, 2.0), (10.0, 1.0)]);
        let beats = [12.0, 3.0, 500.0, 11.0, 11.0625, 500.0, 4.0, 12.0];
        let (mut cursor, times) = (timing.cursor(), timing.times(&beats));
        for (beat, time) in beats.into_iter().zip(times) {
            let fresh = timing.bench_time_for_beat(beat).unwrap().time;
            assert_eq!((cursor.time_for_beat(beat), time), (Ok(fresh), Ok(fresh)), "beat {beat}");
        }
    }
}
