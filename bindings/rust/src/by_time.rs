//! Which beat it is at a time.

use crate::ffi;
use crate::refusal::{Refusal, taken};
use crate::timing::Timing;

/// The beat at a time, and whether time stands still there.
#[derive(Clone, Copy, Debug, PartialEq)]
pub struct BeatInfo {
    /// The beat; while a stop or a delay runs, that entry's own.
    pub beat: f64,
    /// Whether a stop runs.
    pub freeze: bool,
    /// Whether a delay runs.
    pub delay: bool,
    /// The events that are over by then, and one: a stop or a delay that still runs is not among them.
    pub steps: usize,
}

impl Timing {
    /// Which beat is it at this time? Each question walks from the start, as far as events are over by then.
    ///
    /// ```
    /// use marrighentu::{BeatInfo, Chart, Format, Refusal, Timing};
    ///
    /// // 120 beats a minute, and a stop of one second on beat 4, which is reached at 2 seconds
    /// let chart = Chart { tempos: vec![(0.0, 120.0)], stops: vec![(4.0, 1.0)], ..Chart::default() };
    /// let timing = Timing::assemble(Format::Ssc, &chart, 0.0, 0.0)?;
    /// assert_eq!(timing.beat_at(1.75)?, BeatInfo { beat: 3.5, freeze: false, delay: false, steps: 2 });
    /// assert_eq!(timing.beat_at(2.5)?, BeatInfo { beat: 4.0, freeze: true, delay: false, steps: 2 });
    /// assert_eq!(timing.beat_at(3.5)?, BeatInfo { beat: 5.0, freeze: false, delay: false, steps: 3 });
    /// assert_eq!(timing.beat_at(f64::NAN), Err(Refusal::BadValue));
    /// # Ok::<(), Refusal>(())
    /// ```
    ///
    /// # Errors
    /// [`Refusal::BadValue`] for a time that is not finite or beyond 2^50 seconds.
    #[inline]
    pub fn beat_at(&self, time: f64) -> Result<BeatInfo, Refusal> {
        let info = ffi::get_beat_info_from_time_checked(
            &self.tempos,
            &self.stops,
            &self.delays,
            &self.warps,
            self.offset,
            self.global,
            time,
        );
        let ffi::BeatInfo { number, beat, is_in_freeze: freeze, is_in_delay: delay, count: steps } = info;
        taken(number, BeatInfo { beat, freeze, delay, steps })
    }

    /// The beat at each time of a list, in its order. A time that is refused does not stop the ones after it.
    ///
    /// ```
    /// use marrighentu::{Chart, Format, Refusal, Timing};
    ///
    /// let chart = Chart { tempos: vec![(0.0, 60.0), (4.0, 120.0)], ..Chart::default() };
    /// let timing = Timing::assemble(Format::Ssc, &chart, 0.0, 0.0)?;
    /// let beats: Vec<_> = timing.beats_at(&[2.0, 1e20, 5.0]).into_iter().map(|info| info.map(|info| info.beat)).collect();
    /// assert_eq!(beats, [Ok(2.0), Err(Refusal::BadValue), Ok(6.0)]);
    /// # Ok::<(), Refusal>(())
    /// ```
    #[must_use]
    pub fn beats_at(&self, times: &[f64]) -> Vec<Result<BeatInfo, Refusal>> {
        let count = times.len();
        let (mut numbers, mut beats, mut counts) = (vec![0; count], vec![0.0; count], vec![0; count]);
        let (mut freezes, mut delays) = (vec![0; count], vec![0; count]);
        let number = ffi::get_beat_infos_from_times(
            &self.tempos,
            &self.stops,
            &self.delays,
            &self.warps,
            self.offset,
            self.global,
            times,
            &mut numbers,
            &mut beats,
            &mut freezes,
            &mut delays,
            &mut counts,
        );
        if let Err(refusal) = taken(number, ()) {
            return vec![Err(refusal); count];
        }
        let info = |place: usize| BeatInfo {
            beat: beats[place],
            freeze: freezes[place] == 1,
            delay: delays[place] == 1,
            steps: counts[place],
        };
        numbers.iter().enumerate().map(|(place, number)| taken(*number, info(place))).collect()
    }
}

#[cfg(test)]
mod tests {
    use super::*;
    use crate::lists::Lists;

    fn at_120(lists: Lists) -> Timing {
        Timing::from_lists(&Lists { tempos: vec![(0.0, 120.0)], ..lists }, 0.0, 0.0).unwrap()
    }

    fn info(beat: f64, freeze: bool, delay: bool, steps: usize) -> Result<BeatInfo, Refusal> {
        Ok(BeatInfo { beat, freeze, delay, steps })
    }

    /// Every field of the answer has its own value, by one question and by many.
    #[test]
    fn the_answer_crosses_field_by_field() {
        let lists = Lists { stops: vec![(4.0, 1.0)], delays: vec![(2.0, 0.5), (4.0, 0.25)], ..Lists::default() };
        let timing = at_120(lists);
        let times = [-1.0, 1.25, 2.5, 2.6, 2.75, 3.75, f64::INFINITY, 1e15, 4.0];
        let wanted = [
            info(-2.0, false, false, 1),
            info(2.0, false, true, 2),
            info(4.0, false, true, 3),
            info(4.0, false, true, 3),
            info(4.0, true, false, 4),
            info(4.0, false, false, 5),
            Err(Refusal::BadValue),
            info(2e15 - 3.5, false, false, 5),
            info(4.5, false, false, 5),
        ];
        assert_eq!(timing.beats_at(&times), wanted);
        assert_eq!(times.map(|time| timing.beat_at(time)), wanted);
        assert_eq!(timing.beats_at(&[]), []);
    }

    /// An event is over at its own time; on one row a delay comes before a stop.
    #[test]
    fn times_at_which_something_changes() {
        let timing = at_120(Lists { stops: vec![(4.0, 1.0)], delays: vec![(4.0, 1.0)], ..Lists::default() });
        let just_before = |time: f64| timing.beat_at(time.next_down()).unwrap();
        assert!(!just_before(2.0).delay && just_before(2.0).beat < 4.0);
        assert_eq!(timing.beat_at(2.0), info(4.0, false, true, 2));
        assert!(just_before(3.0).delay);
        assert_eq!(timing.beat_at(3.0), info(4.0, true, false, 3));
        assert!(just_before(4.0).freeze);
        assert_eq!(timing.beat_at(4.0), info(4.0, false, false, 4));
        // the beat of a pause is its entry's own, which need not be that of its row
        let off_row = at_120(Lists { stops: vec![(4.005, 1.0)], ..Lists::default() });
        assert_eq!(off_row.beat_at(2.5), info(4.005f32.into(), true, false, 2));
    }

    #[test]
    fn warps_take_no_time() {
        let timing = at_120(Lists { warps: vec![(4.0, 2.0)], ..Lists::default() });
        assert_eq!(timing.beat_at(2.0), info(6.0, false, false, 4));
        assert!(timing.beat_at(2f64.next_down()).unwrap().beat < 4.0);
        // one that never ends goes on by the tempo; one that ends just before has its end among the events
        let never = at_120(Lists { warps: vec![(0.0, 44_739_244.0)], ..Lists::default() });
        assert_eq!(never.beat_at(2.0), info(4.0, false, false, 3));
        let far = at_120(Lists { warps: vec![(-2.0, 44_739_244.0)], ..Lists::default() });
        assert_eq!(far.beat_at(0.0), info(f64::from(2_147_483_616) / 48.0 + 2.0, false, false, 4));
    }

    /// Both offsets: the machine's is added to what is asked and taken from the start.
    #[test]
    fn offsets_move_the_answer() {
        let timing = Timing::from_lists(&Lists { tempos: vec![(0.0, 120.0)], ..Lists::default() }, 0.5, 0.25).unwrap();
        let time = timing.cursor().time_for_beat(8.0).unwrap();
        assert_eq!(time, 3.0);
        assert_eq!(timing.beat_at(3.0), info(8.0, false, false, 2));
    }

    /// With positive tempos and pauses the time of a beat asked back is that beat.
    #[test]
    fn there_and_back() {
        let lists = Lists {
            tempos: vec![(0.0, 120.0), (8.0, 180.0), (16.0, 90.5)],
            stops: vec![(4.0, 1.0), (8.0, 0.5)],
            delays: vec![(12.0, 0.25)],
            ..Lists::default()
        };
        let timing = Timing::from_lists(&lists, 0.1, 0.0).unwrap();
        for row in -96..2_000 {
            let beat = crate::note_row_to_beat(row);
            let back = timing.beat_at(timing.cursor().time_for_beat(beat).unwrap()).unwrap();
            assert!((back.beat - beat).abs() < 1e-9, "row {row}: {back:?}");
        }
    }
}
