//! Scroll and speed lists that lost their order, mended.

use crate::ffi;
use crate::lists::{Columns, Speed, SpeedUnit};
use crate::refusal::{Refusal, taken};
use std::fmt;

/// What became of an entry of a list that was mended.
#[derive(Clone, Copy, Debug, PartialEq, Eq, Hash)]
pub enum Fate {
    /// It is in the mended list.
    Kept,
    /// A later entry of the list is on its row.
    Replaced,
    /// It is the last of its row, and near the one kept before: its row has no entry left.
    Merged,
}

impl Fate {
    const ALL: [Fate; 3] = [Fate::Kept, Fate::Replaced, Fate::Merged];
}

/// As the program `mend` writes it: `kept`, `replaced`, `merged`.
impl fmt::Display for Fate {
    fn fmt(&self, f: &mut fmt::Formatter<'_>) -> fmt::Result {
        f.write_str(match self {
            Fate::Kept => "kept",
            Fate::Replaced => "replaced",
            Fate::Merged => "merged",
        })
    }
}

/// A list that was mended.
#[derive(Clone, Debug, PartialEq)]
pub struct Mended<Entry> {
    /// The kept entries as they were given, their rows strictly rising, none near the one before it.
    pub list: Vec<Entry>,
    /// What became of each entry that was given, in the order in which they were.
    pub fates: Vec<Fate>,
}

impl<Entry> Mended<Entry> {
    fn of(list: Vec<Entry>, fates: Vec<u8>) -> Mended<Entry> {
        Mended { list, fates: fates.into_iter().map(|fate| Fate::ALL[usize::from(fate)]).collect() }
    }
}

/// Scrolls in the order of their rows, beats as given: of each row the last entry, without those whose value is less than a millionth away from
/// that of the entry kept before.
///
/// ```
/// use marrighentu::{Fate, mend_scrolls};
///
/// // out of order
/// assert_eq!(mend_scrolls(&[(4.0, 1.0), (0.0, 2.0)])?.list, [(0.0, 2.0), (4.0, 1.0)]);
/// // the last entry of beat 4 is what the scroll is anyway: the line before it was replaced, so nothing is left there
/// let mended = mend_scrolls(&[(0.0, 1.0), (4.0, 2.0), (4.0, 1.0)])?;
/// assert_eq!(mended.list, [(0.0, 1.0)]);
/// assert_eq!(mended.fates, [Fate::Kept, Fate::Replaced, Fate::Merged]);
/// # Ok::<(), marrighentu::Refusal>(())
/// ```
///
/// # Errors
/// [`Refusal::TooLong`] above 1,024 entries, then [`Refusal::BadBeat`] and [`Refusal::BadValue`].
pub fn mend_scrolls(scrolls: &[(f64, f64)]) -> Result<Mended<(f64, f64)>, Refusal> {
    let (mut out, mut fates) = (Columns::of(scrolls), vec![0; scrolls.len()]);
    let outcome = ffi::mend_scrolls(&Columns::of(scrolls), &mut out, &mut fates);
    let count = taken(outcome.number, outcome.count)?;
    Ok(Mended::of(out.iter().take(count).collect(), fates))
}

/// The same of speeds. Two count as the same where ratios and delays are less than a millionth apart and the unit is one.
///
/// ```
/// use marrighentu::{Fate, Speed, SpeedUnit, mend_speeds};
///
/// let speed = |beat, ratio, unit| Speed { beat, ratio, delay: 0.5, unit };
/// let raw = [speed(4.0, 2.0, SpeedUnit::Beats), speed(0.0, 2.0, SpeedUnit::Beats), speed(8.0, 2.0, SpeedUnit::Seconds)];
/// let mended = mend_speeds(&raw)?;
/// assert_eq!(mended.list, [raw[1], raw[2]]);
/// assert_eq!(mended.fates, [Fate::Merged, Fate::Kept, Fate::Kept]);
/// # Ok::<(), marrighentu::Refusal>(())
/// ```
///
/// # Errors
/// As [`mend_scrolls`].
pub fn mend_speeds(speeds: &[Speed<f64>]) -> Result<Mended<Speed<f64>>, Refusal> {
    let column = |field: fn(&Speed<f64>) -> f64| -> Vec<f64> { speeds.iter().map(field).collect() };
    let [beats, ratios, delays] =
        [column(|speed| speed.beat), column(|speed| speed.ratio), column(|speed| speed.delay)];
    let units: Vec<u8> = speeds.iter().map(|speed| speed.unit.number()).collect();
    let [mut out_beats, mut out_ratios, mut out_delays] = [beats.clone(), ratios.clone(), delays.clone()];
    let (mut out_units, mut fates) = (units.clone(), vec![0; speeds.len()]);
    let outcome = ffi::mend_speeds(
        &beats,
        &ratios,
        &delays,
        &units,
        &mut out_beats,
        &mut out_ratios,
        &mut out_delays,
        &mut out_units,
        &mut fates,
    );
    let entry = |place: usize| Speed {
        beat: out_beats[place],
        ratio: out_ratios[place],
        delay: out_delays[place],
        unit: SpeedUnit::of(out_units[place]),
    };
    let count = taken(outcome.number, outcome.count)?;
    Ok(Mended::of((0..count).map(entry).collect(), fates))
}

#[cfg(test)]
mod tests {
    use super::{Fate, Mended, mend_scrolls, mend_speeds};
    use crate::{Chart, Format, Refusal, Speed, SpeedUnit, Timing};

    #[test]
    fn the_last_of_a_row_stays_though_it_is_near() {
        let mended = mend_scrolls(&[(4.0, 2.0), (4.0, 2.000_000_5)]).unwrap();
        assert_eq!(mended, Mended { list: vec![(4.0, 2.000_000_5)], fates: vec![Fate::Replaced, Fate::Kept] });
    }

    #[test]
    fn nothing_follows_from_a_chain() {
        let mended = mend_scrolls(&[(0.0, 1.0), (1.0, 1.000_000_6), (2.0, 1.000_001_2)]).unwrap();
        assert_eq!(mended.fates, [Fate::Kept, Fate::Merged, Fate::Kept]);
    }

    #[test]
    fn beats_stay_as_given() {
        let mended = mend_scrolls(&[(0.011, 2.0), (-0.0, 1.0)]).unwrap();
        assert_eq!(mended.list[0].0.to_bits(), (-0.0f64).to_bits());
        assert_eq!(mended.list[1], (0.011, 2.0));
    }

    #[test]
    fn what_is_refused() {
        assert_eq!(mend_scrolls(&[]), Ok(Mended { list: vec![], fates: vec![] }));
        assert_eq!(mend_scrolls(&vec![(0.0, 1.0); 1_025]), Err(Refusal::TooLong));
        assert_eq!(mend_scrolls(&[(65_537.0, f64::NAN)]), Err(Refusal::BadBeat));
        assert_eq!(mend_scrolls(&[(0.0, f64::NAN)]), Err(Refusal::BadValue));
        let speed = Speed { beat: 0.0, ratio: f64::INFINITY, delay: 0.0, unit: SpeedUnit::Beats };
        assert_eq!(mend_speeds(&[speed]), Err(Refusal::BadValue));
        assert_eq!(mend_speeds(&[]), Ok(Mended { list: vec![], fates: vec![] }));
    }

    #[test]
    fn a_mended_list_is_kept_and_drawn() {
        let raw = [(4.0, 1.0), (8.0, 2.0), (0.0, 2.0)];
        let timing = |scrolls: &[(f64, f64)]| {
            let chart = Chart { tempos: vec![(0.0, 120.0)], scrolls: scrolls.to_vec(), ..Chart::default() };
            Timing::assemble(Format::Ssc, &chart, 0.0, 0.0).unwrap()
        };
        assert_eq!(timing(&raw).displayed_beat(6.0), Err(Refusal::NotRising));
        let mended = mend_scrolls(&raw).unwrap();
        assert_eq!(timing(&mended.list).displayed_beat(6.0), Ok(10.0));
        let again = mend_scrolls(&mended.list).unwrap();
        assert_eq!(again, Mended { fates: vec![Fate::Kept; mended.list.len()], list: mended.list });
    }
}
