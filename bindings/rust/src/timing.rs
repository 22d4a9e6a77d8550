//! A timing: a chart's lists, tidy, with its offsets.

use crate::TEMPO_TEXT_BYTES;
use crate::cursor::Cursor;
use crate::ffi;
use crate::lists::{Chart, Columns, Format, Lists, Speed, SpeedUnit, Warp, marks};
use crate::moved::Moved;
use crate::refusal::{Refusal, taken};
use std::sync::atomic::{AtomicU32, Ordering};

/// The most entries that a list may have.
const MOST_ENTRIES: usize = 1_024;

/// The seven lists of a chart as the clock and the lookups take them, and its offsets.
///
/// Its lists are tested once, when it is made, and can't change after that; where its events end is worked out then too.
#[derive(Clone, Debug)]
pub struct Timing {
    pub(crate) tempos: Columns<f32>,
    pub(crate) stops: Columns<f32>,
    pub(crate) delays: Columns<f32>,
    pub(crate) warps: Columns<f32>,
    /// of each warp 1 where it was made, else 0
    warp_marks: Vec<u8>,
    speeds: Vec<Speed<f32>>,
    scrolls: Columns<f32>,
    pub(crate) fakes: Columns<f32>,
    /// how far the display has moved at each scroll; none where the scrolls can't be drawn
    shown: Option<Vec<f64>>,
    pub(crate) offset: f64,
    pub(crate) global: f64,
    /// how many raw entries were off the grid
    moved: Moved,
    /// from which beats behind all events are answered
    pub(crate) mark: ffi::Mark,
    /// by which a cursor's state knows its timing; a clone has the same
    pub(crate) number: u32,
}

/// Two timings are equal where their lists and offsets are.
impl PartialEq for Timing {
    fn eq(&self, other: &Timing) -> bool {
        self.lists() == other.lists() && self.offset == other.offset && self.global == other.global
    }
}

/// Before it is made.
const NO_MARK: ffi::Mark = ffi::Mark {
    state: ffi::State { tempos: 0, stops: 0, delays: 0, warps: 0, row: 0, warping: false, time: 0.0, end: 0.0 },
    row: i32::MAX,
};

/// Another number for each timing that is made, until they have all been given.
fn next_number() -> u32 {
    static NEXT: AtomicU32 = AtomicU32::new(0);
    NEXT.fetch_add(1, Ordering::Relaxed)
}

/// The rows of stops, delays, warps and fakes, one list behind another.
#[derive(Clone, Debug, PartialEq, Eq)]
pub struct RowStore {
    rows: Vec<i32>,
    ends: [usize; 4],
    warps_made: Vec<bool>,
}

impl RowStore {
    fn part(&self, list: usize) -> &[i32] {
        let start = if list == 0 { 0 } else { self.ends[list - 1] };
        &self.rows[start..self.ends[list]]
    }

    /// The rows with a positive stop, rising, each once.
    #[must_use]
    pub fn stops(&self) -> &[i32] {
        self.part(0)
    }

    /// The rows with a positive delay, rising, each once.
    #[must_use]
    pub fn delays(&self) -> &[i32] {
        self.part(1)
    }

    /// The row of each warp, rising.
    #[must_use]
    pub fn warps(&self) -> &[i32] {
        self.part(2)
    }

    /// Of each of these rows whether its warp was made, and not written.
    #[must_use]
    pub fn warps_made(&self) -> &[bool] {
        &self.warps_made
    }

    /// The row of each fake, rising.
    #[must_use]
    pub fn fakes(&self) -> &[i32] {
        self.part(3)
    }
}

impl Timing {
    /// The timing of a chart: its lists put in order, quantised and narrowed as the format has it, and SM's negative and fast tempos and
    /// negative stops made into warps.
    ///
    /// `song_offset` is the chart's own offset; where SM's stops before beat 0 move it, they are added. `global_offset` is the machine's.
    ///
    /// ```
    /// use marrighentu::{Chart, Format, Timing};
    ///
    /// // in SM a tempo below zero is a warp, which ends when the time it owes is worked off
    /// let chart = Chart { tempos: vec![(0.0, 120.0), (4.0, -120.0), (8.0, 120.0)], ..Chart::default() };
    /// let timing = Timing::assemble(Format::Sm, &chart, 0.0, 0.0)?;
    /// assert_eq!(timing.tempos().iter().collect::<Vec<_>>(), [(0.0, 120.0)]);
    /// assert_eq!(timing.warps().iter().collect::<Vec<_>>(), [(4.0, 8.0)]);
    /// # Ok::<(), marrighentu::Refusal>(())
    /// ```
    ///
    /// # Errors
    /// The reason with the lowest number over all lists; [`Refusal::BadValue`] too where the offsets are beyond 2^20 seconds.
    pub fn assemble(format: Format, chart: &Chart, song_offset: f64, global_offset: f64) -> Result<Timing, Refusal> {
        let tempos = Columns::of(&chart.tempos);
        let stops = Columns::of(&chart.stops);
        let delays = Columns::of(&chart.delays);
        let warps = Columns::of(&chart.warps);
        let warp_marks = marks(&chart.warps_made, chart.warps.len());
        let scrolls = Columns::of(&chart.scrolls);
        let fakes = Columns::of(&chart.fakes);
        let speed_beats: Vec<f64> = chart.speeds.iter().map(|speed| speed.beat).collect();
        let speed_ratios: Vec<f64> = chart.speeds.iter().map(|speed| speed.ratio).collect();
        let speed_delays: Vec<f64> = chart.speeds.iter().map(|speed| speed.delay).collect();
        let speed_units: Vec<u8> = chart.speeds.iter().map(|speed| speed.unit.number()).collect();

        // No list of a timing is longer than this, so that room is never short.
        let room = || Columns { beats: vec![0.0f32; MOST_ENTRIES], values: vec![0.0f32; MOST_ENTRIES] };
        let [mut out_tempos, mut out_stops, mut out_delays, mut out_warps, mut out_scrolls, mut out_fakes] =
            std::array::from_fn(|_| room());
        let [mut out_beats, mut out_ratios, mut out_spans] = std::array::from_fn(|_| vec![0.0f32; MOST_ENTRIES]);
        let (mut out_units, mut out_marks) = (vec![0u8; MOST_ENTRIES], vec![0u8; MOST_ENTRIES]);
        let made = ffi::compute_timing_segments(
            format.number(),
            &tempos,
            &stops,
            &delays,
            &warps,
            &warp_marks,
            &speed_beats,
            &speed_ratios,
            &speed_delays,
            &speed_units,
            &scrolls,
            &fakes,
            &mut out_tempos,
            &mut out_stops,
            &mut out_delays,
            &mut out_warps,
            &mut out_marks,
            &mut out_beats,
            &mut out_ratios,
            &mut out_spans,
            &mut out_units,
            &mut out_scrolls,
            &mut out_fakes,
        );
        taken(made.number, ())?;
        let front = |columns: Columns<f32>, count: usize| Columns {
            beats: columns.beats[..count].to_vec(),
            values: columns.values[..count].to_vec(),
        };
        let speeds = (0..made.speeds)
            .map(|i| Speed {
                beat: out_beats[i],
                ratio: out_ratios[i],
                delay: out_spans[i],
                unit: SpeedUnit::of(out_units[i]),
            })
            .collect();
        Timing {
            tempos: front(out_tempos, made.tempos),
            stops: front(out_stops, made.stops),
            delays: front(out_delays, made.delays),
            warps: front(out_warps, made.warps),
            warp_marks: out_marks[..made.warps].to_vec(),
            speeds,
            scrolls: front(out_scrolls, made.scrolls),
            fakes: front(out_fakes, made.fakes),
            shown: None,
            offset: song_offset + f64::from(made.offset),
            global: global_offset,
            moved: made.moved,
            mark: NO_MARK,
            number: next_number(),
        }
        .checked()
    }

    /// A timing of lists that are tidy already, as another program kept them. `offset` is the song's and the beat-0 offset together.
    ///
    /// # Errors
    /// What the clock or the lookups refuse: lists that are too long, numbers beyond their limits, rows that do not rise strictly, at f64
    /// and for stops, delays, warps and fakes at f32 too, a first tempo that is not at beat 0. Scrolls and speeds are kept as they are given. Where it is said of warps
    /// which were made, it is said of each, or the lists are refused as [`Refusal::Uneven`].
    pub fn from_lists(lists: &Lists, offset: f64, global_offset: f64) -> Result<Timing, Refusal> {
        Timing {
            tempos: Columns::of(&lists.tempos),
            stops: Columns::of(&lists.stops),
            delays: Columns::of(&lists.delays),
            warps: Columns::of(&lists.warps),
            warp_marks: marks(&lists.warps_made, lists.warps.len()),
            speeds: lists.speeds.clone(),
            scrolls: Columns::of(&lists.scrolls),
            fakes: Columns::of(&lists.fakes),
            shown: None,
            offset,
            global: global_offset,
            moved: Moved::default(),
            mark: NO_MARK,
            number: next_number(),
        }
        .checked()
    }

    /// The lists as the clock and as the lookups test them, once: the questions after that refuse only what is asked.
    fn checked(mut self) -> Result<Timing, Refusal> {
        let made = ffi::make_mark(&self.tempos, &self.stops, &self.delays, &self.warps, self.offset, self.global);
        self.mark = made.mark;
        let lookups = ffi::check_lookups(&self.stops, &self.delays, &self.warps, &self.fakes);
        let uneven = if self.warp_marks.len() == self.warps.len() { 0 } else { Refusal::Uneven as u32 };
        let lowest = [made.number, lookups, uneven].into_iter().filter(|number| *number != 0).min();
        let mut shown = vec![0.0; self.scrolls.len()];
        self.shown = (ffi::build_scroll_prefix(&self.scrolls, &mut shown).number == 0).then_some(shown);
        taken(lowest.unwrap_or(0), self)
    }

    /// The tempos: beats a minute.
    #[must_use]
    pub fn tempos(&self) -> &Columns<f32> {
        &self.tempos
    }

    /// The stops: seconds.
    #[must_use]
    pub fn stops(&self) -> &Columns<f32> {
        &self.stops
    }

    /// The delays: seconds.
    #[must_use]
    pub fn delays(&self) -> &Columns<f32> {
        &self.delays
    }

    /// The warps: beats.
    #[must_use]
    pub fn warps(&self) -> &Columns<f32> {
        &self.warps
    }

    /// The warps, each with where it came from.
    ///
    /// ```
    /// use marrighentu::{Chart, Format, Timing, Warp};
    ///
    /// // a stop below zero is a warp in SM: where one is written on its row, the made one counts
    /// let chart = Chart { stops: vec![(4.0, -1.0)], warps: vec![(4.0, 1.0), (8.0, 1.0)], ..Chart::default() };
    /// let timing = Timing::assemble(Format::Sm, &chart, 0.0, 0.0)?;
    /// let warps = [Warp { beat: 4.0, length: 1.0, made: true }, Warp { beat: 8.0, length: 1.0, made: false }];
    /// assert_eq!(timing.marked_warps().collect::<Vec<_>>(), warps);
    /// # Ok::<(), marrighentu::Refusal>(())
    /// ```
    pub fn marked_warps(&self) -> impl Iterator<Item = Warp> + '_ {
        let made = self.warp_marks.iter().map(|mark| *mark != 0);
        self.warps.iter().zip(made).map(|((beat, length), made)| Warp { beat, length, made })
    }

    /// The speeds.
    #[must_use]
    pub fn speeds(&self) -> &[Speed<f32>] {
        &self.speeds
    }

    /// The scrolls.
    #[must_use]
    pub fn scrolls(&self) -> &Columns<f32> {
        &self.scrolls
    }

    /// The fakes: beats.
    #[must_use]
    pub fn fakes(&self) -> &Columns<f32> {
        &self.fakes
    }

    /// All seven lists, as [`from_lists`](Timing::from_lists) takes them again.
    ///
    /// ```
    /// use marrighentu::{Chart, Format, Timing};
    ///
    /// let chart = Chart { stops: vec![(4.0, 1.0)], ..Chart::default() };
    /// let timing = Timing::assemble(Format::Ssc, &chart, 0.5, 0.0)?;
    /// assert_eq!(Timing::from_lists(&timing.lists(), timing.offset(), timing.global_offset())?, timing);
    /// # Ok::<(), marrighentu::Refusal>(())
    /// ```
    #[must_use]
    pub fn lists(&self) -> Lists {
        Lists {
            tempos: self.tempos.iter().collect(),
            stops: self.stops.iter().collect(),
            delays: self.delays.iter().collect(),
            warps: self.warps.iter().collect(),
            warps_made: self.warp_marks.iter().map(|mark| *mark != 0).collect(),
            speeds: self.speeds.clone(),
            scrolls: self.scrolls.iter().collect(),
            fakes: self.fakes.iter().collect(),
        }
    }

    /// The song's offset and what SM's stops before beat 0 add to it, in seconds.
    #[must_use]
    pub fn offset(&self) -> f64 {
        self.offset
    }

    /// The machine's offset, in seconds.
    #[must_use]
    pub fn global_offset(&self) -> f64 {
        self.global
    }

    /// How many entries of the chart were off the grid, by list and [in all](Moved::total): an editor had put them a little beside a row, and they were moved to
    /// it. Of a timing [from lists](Timing::from_lists), whose beats are as they were kept, none.
    ///
    /// ```
    /// use marrighentu::{Chart, Format, Timing};
    ///
    /// // two delays on one row, of which the second counts: both were off
    /// let chart = Chart { delays: vec![(4.01, 1.0), (4.0, 2.0), (4.005, 3.0)], fakes: vec![(8.001, 1.0)], ..Chart::default() };
    /// let timing = Timing::assemble(Format::Ssc, &chart, 0.0, 0.0)?;
    /// assert_eq!(timing.delays().iter().collect::<Vec<_>>(), [(4.0, 3.0)]);
    /// assert_eq!((timing.moved().delays, timing.moved().fakes, timing.moved().total()), (2, 1, 3));
    /// # Ok::<(), marrighentu::Refusal>(())
    /// ```
    #[must_use]
    pub fn moved(&self) -> Moved {
        self.moved
    }

    /// A cursor that was not asked yet.
    #[must_use]
    pub fn cursor(&self) -> Cursor<'_> {
        Cursor::fresh(self)
    }

    /// The time of each beat, in the order of the list. A beat that is refused does not stop the ones after it.
    ///
    /// ```
    /// use marrighentu::{Chart, Format, Refusal, Timing};
    ///
    /// let chart = Chart { tempos: vec![(0.0, 60.0), (4.0, 120.0)], ..Chart::default() };
    /// let timing = Timing::assemble(Format::Ssc, &chart, 0.0, 0.0)?;
    /// assert_eq!(timing.times(&[2.0, 1e9, 6.0]), [Ok(2.0), Err(Refusal::BadBeat), Ok(5.0)]);
    /// # Ok::<(), Refusal>(())
    /// ```
    #[must_use]
    pub fn times(&self, beats: &[f64]) -> Vec<Result<f64, Refusal>> {
        self.cursor().ask_all(beats).into_iter().map(|answer| answer.map(|answer| answer.time)).collect()
    }

    /// Where a note on a beat is drawn, in beats: scrolls stretch and squeeze the distance between beats, and a negative one draws backward.
    /// Before the first scroll, and without one, that is the beat itself.
    ///
    /// ```
    /// use marrighentu::{Chart, Format, Timing};
    ///
    /// // twice as far apart from beat 4 on
    /// let chart = Chart { scrolls: vec![(4.0, 2.0)], ..Chart::default() };
    /// let timing = Timing::assemble(Format::Ssc, &chart, 0.0, 0.0)?;
    /// assert_eq!(timing.displayed_beat(3.0)?, 3.0);
    /// assert_eq!(timing.displayed_beat(6.0)?, 8.0);
    /// # Ok::<(), marrighentu::Refusal>(())
    /// ```
    ///
    /// # Errors
    /// [`Refusal::BadBeat`] for a beat beyond 65,536. Else [`Refusal::NotRising`] where the beats of the scrolls fall somewhere, as those of some
    /// old charts do; and of a timing [from lists](Timing::from_lists), whose scrolls are kept as they are given, what else those are refused by.
    pub fn displayed_beat(&self, beat: f64) -> Result<f64, Refusal> {
        let shown = match &self.shown {
            Some(prefix) => ffi::get_displayed_beat_checked(&self.scrolls, prefix, beat),
            None => ffi::get_displayed_beat(&self.scrolls, beat),
        };
        taken(shown.number, shown.beat)
    }

    /// Where notes on many beats are drawn. A beat that is refused does not stop the ones after it.
    ///
    /// ```
    /// use marrighentu::{Chart, Format, Refusal, Timing};
    ///
    /// let chart = Chart { scrolls: vec![(0.0, 0.5), (8.0, -1.0)], ..Chart::default() };
    /// let timing = Timing::assemble(Format::Ssc, &chart, 0.0, 0.0)?;
    /// assert_eq!(timing.displayed_beats(&[4.0, 1e9, 10.0])?, [Ok(2.0), Err(Refusal::BadBeat), Ok(2.0)]);
    /// # Ok::<(), Refusal>(())
    /// ```
    ///
    /// # Errors
    /// What the scrolls are refused by, as [`displayed_beat`](Timing::displayed_beat) says.
    pub fn displayed_beats(&self, beats: &[f64]) -> Result<Vec<Result<f64, Refusal>>, Refusal> {
        let (mut numbers, mut positions) = (vec![0; beats.len()], vec![0.0; beats.len()]);
        taken(ffi::get_displayed_beats(&self.scrolls, beats, &mut numbers, &mut positions).number, ())?;
        Ok(numbers.into_iter().zip(positions).map(|(number, position)| taken(number, position)).collect())
    }

    /// The tempos as text, as a song browser shows them: beat=tempo with six decimals each and commas between. A tempo is divided by 60 and
    /// multiplied again at `f32`, as rssp does, so that some are written one step below. [`tempo_text`](crate::tempo_text) writes raw lists.
    ///
    /// ```
    /// use marrighentu::{Chart, Format, Timing};
    ///
    /// let chart = Chart { tempos: vec![(0.0, 120.0), (16.0, 63.0)], ..Chart::default() };
    /// let timing = Timing::assemble(Format::Ssc, &chart, 0.0, 0.0)?;
    /// assert_eq!(timing.tempo_text()?, "0.000000=120.000000,16.000000=62.999996");
    /// # Ok::<(), marrighentu::Refusal>(())
    /// ```
    ///
    /// # Errors
    /// None: the tempos of a timing are within the limits of raw ones.
    pub fn tempo_text(&self) -> Result<String, Refusal> {
        let mut page = vec![0; TEMPO_TEXT_BYTES * self.tempos.len()];
        let count = self.tempo_text_into(&mut page)?.len();
        page.truncate(count);
        Ok(String::from_utf8(page).expect("digits, signs, points and commas"))
    }

    /// The same text over the front of a page of one's own. [`TEMPO_TEXT_BYTES`](crate::TEMPO_TEXT_BYTES) for each tempo are always enough.
    ///
    /// ```
    /// use marrighentu::{Chart, Format, Refusal, TEMPO_TEXT_BYTES, Timing};
    ///
    /// let timing = Timing::assemble(Format::Ssc, &Chart::default(), 0.0, 0.0)?;
    /// let mut page = [0; TEMPO_TEXT_BYTES];
    /// assert_eq!(timing.tempo_text_into(&mut page)?, "0.000000=60.000000");
    /// // a page as long as the text will do, and one byte less will not
    /// assert_eq!(timing.tempo_text_into(&mut page[..18])?.len(), 18);
    /// assert_eq!(timing.tempo_text_into(&mut page[..17]), Err(Refusal::NoRoom));
    /// # Ok::<(), Refusal>(())
    /// ```
    ///
    /// # Errors
    /// [`Refusal::NoRoom`] where the text is longer than the page, which is then left as it was.
    pub fn tempo_text_into<'a>(&self, page: &'a mut [u8]) -> Result<&'a str, Refusal> {
        let outcome = ffi::format_bpm_segments_f32(&self.tempos, page);
        taken(outcome.number, ())?;
        Ok(std::str::from_utf8(&page[..outcome.count]).expect("digits, signs, points and commas"))
    }

    /// How many rows the warps pass over, each row once: the different rows from some warp's start on, before its end. A warp whose length is not
    /// above 0 passes over none, and one without an end over 2,147,483,647.
    ///
    /// ```
    /// use marrighentu::{Chart, Format, Timing};
    ///
    /// // the second warp lies within the first
    /// let chart = Chart { warps: vec![(0.0, 8.0), (4.0, 1.0)], ..Chart::default() };
    /// let timing = Timing::assemble(Format::Ssc, &chart, 0.0, 0.0)?;
    /// assert_eq!(timing.warped_rows(), 8 * 48);
    /// # Ok::<(), marrighentu::Refusal>(())
    /// ```
    #[must_use]
    pub fn warped_rows(&self) -> u64 {
        ffi::warped_rows(&self.warps)
    }

    /// Whether a row is warped: the last warp that starts at or before it reaches beyond it, and no positive stop or delay is on the row.
    ///
    /// # Errors
    /// [`Refusal::BadBeat`] for a row beyond 3,145,728. This goes for all lookups: the lists were tested when the timing was made, so that
    /// a question's time grows with the logarithm of their lengths alone.
    pub fn is_warp_at_row(&self, row: i32) -> Result<bool, Refusal> {
        answered(ffi::is_warp_at_row_checked(&self.stops, &self.delays, &self.warps, row))
    }

    /// Whether the row of a beat is warped.
    ///
    /// # Errors
    /// As [`is_warp_at_row`](Timing::is_warp_at_row).
    pub fn is_warp_at_beat(&self, beat: f64) -> Result<bool, Refusal> {
        answered(ffi::is_warp_at_beat_checked(&self.stops, &self.delays, &self.warps, beat))
    }

    /// Whether a row is fake: the last fake that starts at or before it reaches beyond it.
    ///
    /// # Errors
    /// As [`is_warp_at_row`](Timing::is_warp_at_row).
    pub fn is_fake_at_row(&self, row: i32) -> Result<bool, Refusal> {
        answered(ffi::is_fake_at_row_checked(&self.fakes, row))
    }

    /// Whether the row of a beat is fake.
    ///
    /// # Errors
    /// As [`is_warp_at_row`](Timing::is_warp_at_row).
    pub fn is_fake_at_beat(&self, beat: f64) -> Result<bool, Refusal> {
        answered(ffi::is_fake_at_beat_checked(&self.fakes, beat))
    }

    /// Whether a note on a row is judged: the row is neither warped nor fake.
    ///
    /// ```
    /// use marrighentu::{Chart, Format, Timing};
    ///
    /// let chart = Chart { warps: vec![(4.0, 2.0)], fakes: vec![(8.0, 1.0)], ..Chart::default() };
    /// let timing = Timing::assemble(Format::Ssc, &chart, 0.0, 0.0)?;
    /// assert!(timing.is_judgable_at_row(3 * 48)?);
    /// assert!(!timing.is_judgable_at_row(5 * 48)?);
    /// assert!(timing.is_judgable_at_beat(6.0)?);
    /// assert!(!timing.is_judgable_at_beat(8.5)?);
    /// # Ok::<(), marrighentu::Refusal>(())
    /// ```
    ///
    /// # Errors
    /// As [`is_warp_at_row`](Timing::is_warp_at_row).
    pub fn is_judgable_at_row(&self, row: i32) -> Result<bool, Refusal> {
        answered(ffi::is_judgable_at_row_checked(&self.stops, &self.delays, &self.warps, &self.fakes, row))
    }

    /// Whether a note on a beat is judged.
    ///
    /// # Errors
    /// As [`is_warp_at_row`](Timing::is_warp_at_row).
    pub fn is_judgable_at_beat(&self, beat: f64) -> Result<bool, Refusal> {
        answered(ffi::is_judgable_at_beat_checked(&self.stops, &self.delays, &self.warps, &self.fakes, beat))
    }

    /// Whether a note is judged on each row of a list. The timing's lists are tested once for all rows, and rising rows are cheapest: a
    /// whole note sheet is asked by one call.
    ///
    /// # Errors
    /// As [`is_warp_at_row`](Timing::is_warp_at_row), where any of the rows is beyond the limit.
    pub fn judgable_rows(&self, rows: &[i32]) -> Result<Vec<bool>, Refusal> {
        let mut answers = vec![0; rows.len()];
        let outcome = ffi::judgable_rows(&self.stops, &self.delays, &self.warps, &self.fakes, rows, &mut answers);
        taken(outcome.number, ())?;
        Ok(answers.into_iter().map(|answer| answer == 1).collect())
    }

    /// The rows of stops, delays, warps and fakes.
    ///
    /// # Errors
    /// None for lists that [`assemble`](Timing::assemble) made.
    pub fn row_store(&self) -> Result<RowStore, Refusal> {
        let room = self.stops.len() + self.delays.len() + self.warps.len() + self.fakes.len();
        let (mut rows, mut row_marks) = (vec![0; room], vec![0; self.warps.len()]);
        let stored = ffi::build_segment_row_storage(
            &self.stops,
            &self.delays,
            &self.warps,
            &self.fakes,
            &self.warp_marks,
            &mut rows,
            &mut row_marks,
        );
        taken(stored.number, ())?;
        let mut end = 0;
        let ends = [stored.stops, stored.delays, stored.warps, stored.fakes].map(|count| {
            end += count;
            end
        });
        rows.truncate(end);
        row_marks.truncate(stored.warps);
        Ok(RowStore { rows, ends, warps_made: row_marks.into_iter().map(|mark| mark != 0).collect() })
    }

    /// The stops that an SM file would need to play this timing without delays and warps: a beat and seconds each.
    ///
    /// # Errors
    /// [`Refusal::NoTempo`] where there is a warp and no tempo, which lists that [`assemble`](Timing::assemble) made never have.
    pub fn sm_stops(&self) -> Result<Vec<(f32, f32)>, Refusal> {
        let stops: Vec<f32> = self.stops.iter().flat_map(|(beat, seconds)| [beat, seconds]).collect();
        let mut work = vec![0.0; 2 * (self.stops.len() + self.delays.len() + self.warps.len())];
        let filled =
            ffi::convert_warps_and_delays_to_sm_stops(&self.tempos, &stops, &self.delays, &self.warps, &mut work);
        taken(filled.number, ())?;
        let flat = if filled.own { stops } else { work };
        let count = if filled.own { self.stops.len() } else { filled.count };
        Ok(flat.chunks_exact(2).take(count).map(|entry| (entry[0], entry[1])).collect())
    }
}

impl From<&Timing> for Lists {
    fn from(timing: &Timing) -> Lists {
        timing.lists()
    }
}

fn answered(looked: ffi::Looked) -> Result<bool, Refusal> {
    taken(looked.number, looked.yes)
}

#[cfg(test)]
mod tests {
    use super::*;

    fn made(lists: Lists) -> Result<Timing, Refusal> {
        Timing::from_lists(&Lists { tempos: vec![(0.0, 120.0)], ..lists }, 0.0, 0.0)
    }

    /// What only a lookup would refuse is refused when the timing is made.
    #[test]
    fn lists_that_no_lookup_takes_make_no_timing() {
        let fakes = |fakes| made(Lists { fakes, ..Lists::default() });
        assert_eq!(fakes(vec![(8.0, 1.0), (4.0, 1.0)]), Err(Refusal::NotRising));
        assert_eq!(fakes(vec![(f32::NAN, 1.0)]), Err(Refusal::BadBeat));
        assert_eq!(fakes(vec![(4.0, f32::INFINITY)]), Err(Refusal::BadValue));
        assert!(fakes(vec![(4.0, 1.0), (8.0, 1.0)]).is_ok());
        // two rows for the clock, one for the lookups
        let warps = vec![(41_666.74, 1.0), (41_666.75, 1.0)];
        assert_eq!(made(Lists { warps, ..Lists::default() }), Err(Refusal::NotRising));
    }

    /// Marks go through the lists and back, and to the row store; a made warp wins its row, and a list of marks that is too short makes no timing.
    #[test]
    fn warps_keep_where_they_came_from() {
        let chart = Chart {
            stops: vec![(4.0, -1.0)],
            warps: vec![(8.0, 1.0), (4.0, 3.0), (0.0, 0.5)],
            warps_made: vec![true, false, false],
            ..Chart::default()
        };
        let timing = Timing::assemble(Format::Sm, &chart, 0.0, 0.0).unwrap();
        let marked = |timing: &Timing| timing.marked_warps().map(|warp| (warp.beat, warp.made)).collect::<Vec<_>>();
        assert_eq!(marked(&timing), [(0.0, false), (4.0, true), (8.0, true)]);
        let store = timing.row_store().unwrap();
        assert_eq!((store.warps(), store.warps_made()), (&[0, 192, 384][..], &[false, true, true][..]));
        let again = Timing::from_lists(&timing.lists(), timing.offset(), 0.0).unwrap();
        assert_eq!(marked(&again), marked(&timing));
        let unmarked = Lists { warps_made: vec![], ..timing.lists() };
        assert_eq!(
            marked(&Timing::from_lists(&unmarked, 0.0, 0.0).unwrap()),
            [(0.0, false), (4.0, false), (8.0, false)]
        );
        let short = Lists { warps_made: vec![true], ..timing.lists() };
        assert_eq!(Timing::from_lists(&short, 0.0, 0.0), Err(Refusal::Uneven));
        assert_eq!(
            Timing::assemble(Format::Sm, &Chart { warps_made: vec![true], ..chart }, 0.0, 0.0),
            Err(Refusal::Uneven)
        );
    }

    #[test]
    fn warped_rows_are_counted_once() {
        let warped = |warps: &[(f32, f32)]| {
            made(Lists { warps: warps.to_vec(), ..Lists::default() }).map(|timing| timing.warped_rows())
        };
        let held = 99_999_999.0;
        for (warps, rows) in [
            (&[][..], 0),
            (&[(0.0, 8.0), (4.0, 1.0)], 384),
            (&[(0.0, 4.0), (2.0, 6.0)], 384),
            (&[(0.0, 4.0), (4.0, 1.0)], 240),
            (&[(0.0, 8.0), (1.0, 1.0), (4.0, 6.0)], 480),
            (&[(-2.0, 4.0), (1.0, 1.0)], 192),
            (&[(0.0, -8.0), (1.0, 0.0), (2.0, 1.0 / 256.0)], 0),
            (&[(0.0, held), (4.0, 1.0)], 2_147_483_647),
            (&[(0.0, held), (4.0, held)], 2_147_483_839),
        ] {
            assert_eq!(warped(warps), Ok(rows), "{warps:?}");
        }
        // no timing has warps whose rows fall
        assert_eq!(warped(&[(4.0, 1.0), (0.0, 8.0)]), Err(Refusal::NotRising));
    }

    /// Scrolls that can't be drawn make a timing all the same, and are refused when a note is to be drawn.
    #[test]
    fn scrolls_that_fall_are_refused_where_notes_are_drawn() {
        let scrolls = |scrolls| made(Lists { scrolls, ..Lists::default() }).unwrap();
        let fallen = scrolls(vec![(4.0, 1.0), (0.0, 2.0)]);
        assert_eq!(fallen.displayed_beat(1.0), Err(Refusal::NotRising));
        assert_eq!(fallen.displayed_beat(f64::NAN), Err(Refusal::BadBeat));
        assert_eq!(fallen.displayed_beats(&[1.0]), Err(Refusal::NotRising));
        assert_eq!(scrolls(vec![(4.0, f32::NAN)]).displayed_beat(1.0), Err(Refusal::BadValue));
        assert_eq!(scrolls(vec![]).displayed_beat(-7.5), Ok(-7.5));
        // of two on one beat the last counts
        let twice = scrolls(vec![(4.0, 9.0), (4.0, 3.0)]);
        assert_eq!(twice.displayed_beat(5.0), Ok(7.0));
        assert_eq!(twice.displayed_beats(&[4.0, 65_537.0, 3.0]), Ok(vec![Ok(4.0), Err(Refusal::BadBeat), Ok(3.0)]));
    }

    #[test]
    fn rows_of_note_data_have_beats() {
        assert_eq!(crate::row_to_beat(b""), Ok(vec![]));
        // only a line feed ends a row, 11 is no blank, and a row may end at a comma
        assert_eq!(crate::row_to_beat(b" \t\r\x0c\n1\r2\n\x0b,3"), Ok(vec![0.0, 2.0, 4.0]));
        assert_eq!(crate::row_to_beat(&vec![b'1'; (1 << 20) + 1]), Err(Refusal::TooLong));
        assert_eq!(crate::row_to_beat(&b"1\n".repeat(1 << 19)).map(|beats| beats.len()), Ok(1 << 19));
    }

    #[test]
    fn raw_tempos_are_written_by_the_raw_limits() {
        use crate::tempo_text;
        assert_eq!(tempo_text(&[]), Ok(String::new()));
        // order, repeats and rows that fall are kept
        assert_eq!(tempo_text(&[(4.0, 2.0), (-1.0, 3.0 / 128.0)]), Ok("4.000000=2.000000,-1.000000=0.023438".into()));
        assert_eq!(tempo_text(&[(f64::INFINITY, 120.0)]), Err(Refusal::BadBeat));
        assert_eq!(tempo_text(&[(0.0, f64::INFINITY)]), Ok("0.000000=0.000000".into()));
        assert_eq!(tempo_text(&[(0.0, 1e-9)]), Err(Refusal::BadValue));
        assert_eq!(tempo_text(&[(0.0, 1.0); 1_025]), Err(Refusal::TooLong));
        // the longest entries there are
        let longest = tempo_text(&[(-65_536.0, -1_073_741_824.0); 1_024]).unwrap();
        assert_eq!(longest.len(), 1_024 * crate::TEMPO_TEXT_BYTES - 1);
    }

    #[test]
    fn lookups_refuse_what_is_asked() {
        let timing = made(Lists { warps: vec![(4.0, 2.0)], fakes: vec![(8.0, 1.0)], ..Lists::default() }).unwrap();
        assert_eq!(timing.is_warp_at_row(5 * 48), Ok(true));
        assert_eq!(timing.is_warp_at_beat(6.0), Ok(false));
        assert_eq!(timing.is_fake_at_row(8 * 48), Ok(true));
        assert_eq!(timing.is_fake_at_beat(9.0), Ok(false));
        assert_eq!(timing.is_judgable_at_row(3_145_729), Err(Refusal::BadBeat));
        assert_eq!(timing.is_judgable_at_beat(f64::NAN), Err(Refusal::BadBeat));
    }
}
