//! The number of warped rows: a plain count of rows, one pass read plainly, and the comparison of the port's call with both.

use crate::timing::probe;
use std::collections::HashSet;
use std::ops::Range;

// ---- a plain reading

/// Up to so many rows of all warps together are counted one by one.
const FEW_ROWS: i64 = 100_000;

/// The rows of a warp: from that of its beat on, as many as its length has; none where the length is not above 0.
#[inline(always)]
fn span((beat, length): (f32, f32)) -> Range<i64> {
    let row = |beats: f32| i64::from(probe::beat_to_note_row(f64::from(beats)));
    let start = row(beat);
    start..start + if length > 0.0 { row(length) } else { 0 }
}

/// The rows of each warp, of columns of unlike length as far as the shorter goes.
pub fn spans(beats: &[f32], lengths: &[f32]) -> Vec<Range<i64>> {
    beats.iter().copied().zip(lengths.iter().copied()).map(span).collect()
}

/// How many different rows there are: row by row, and where they are too many for that, stretch by stretch.
pub fn count(spans: &[Range<i64>]) -> u64 {
    let rows: i64 = spans.iter().map(|span| span.end - span.start).sum();
    if rows <= FEW_ROWS { row_by_row(spans) } else { by_stretches(spans) }
}

pub fn row_by_row(spans: &[Range<i64>]) -> u64 {
    spans.iter().cloned().flatten().collect::<HashSet<_>>().len() as u64
}

/// Between two neighbours among all starts and ends a warp covers every row or none.
pub fn by_stretches(spans: &[Range<i64>]) -> u64 {
    let mut ends: Vec<i64> = spans.iter().flat_map(|span| [span.start, span.end]).collect();
    ends.sort_unstable();
    let covered = |row: &i64| spans.iter().any(|span| span.contains(row));
    ends.windows(2).filter(|two| covered(&two[0])).map(|two| (two[1] - two[0]) as u64).sum()
}

/// One pass in the order given: a warp adds its rows that are not before the end of any warp with rows that came before it.
pub fn one_pass(spans: &[Range<i64>]) -> u64 {
    let added = spans.iter().enumerate().map(|(place, span)| {
        let before = spans[..place].iter().filter(|before| !before.is_empty()).map(|before| before.end);
        let first = before.fold(span.start, i64::max);
        (span.end - first).max(0) as u64
    });
    added.sum()
}

/// As a player would write it for a list whose rows rise.
#[inline(always)]
pub fn along_the_list(beats: &[f32], lengths: &[f32]) -> u64 {
    let (mut rows, mut far) = (0, i64::MIN);
    for (beat, length) in beats.iter().zip(lengths) {
        let span = span((*beat, *length));
        let first = far.max(span.start);
        if first < span.end {
            rows += (span.end - first) as u64;
            far = span.end;
        }
    }
    rows
}

// ---- the port
#[cfg(feature = "port")]
pub use port::{Call, compare, compare_all, warped_rows};

#[cfg(feature = "port")]
mod port {
    use super::{count, one_pass, spans};
    use crate::cases::Work;
    use crate::clock::Found;
    use crate::random::Random;
    use crate::tally::Total;

    unsafe extern "C" {
        fn marrighentu_warped_rows(
            beats: *const f32,
            beats_length: usize,
            lengths: *const f32,
            lengths_length: usize,
        ) -> u64;
    }

    #[inline(always)]
    pub fn warped_rows(beats: &[f32], lengths: &[f32]) -> u64 {
        // SAFETY: the slices are lent for the call, which only reads them
        unsafe { marrighentu_warped_rows(beats.as_ptr(), beats.len(), lengths.as_ptr(), lengths.len()) }
    }

    /// The call, so that others can be put in its place.
    pub type Call = fn(&[f32], &[f32]) -> u64;

    /// On rows, beside them and anywhere; some below 0, some far, some no number.
    fn beat(random: &mut Random) -> f32 {
        match random.below(60) {
            0 => 65_536.0 * random.sign() as f32,
            1 => f32::from_bits(random.bits() as u32),
            2 => -0.0,
            _ => {
                let beside = [0.0, 0.25, 0.5, -0.5, 0.499][random.below(5) as usize];
                ((random.below(500) as f32 - 100.0) + beside) / 48.0
            }
        }
    }

    /// Of a few rows, one or none, backward, less than half a row; some without an end, some no number.
    fn length(random: &mut Random) -> f32 {
        match random.below(40) {
            0 => [99_999_999.0, f32::MAX, f32::INFINITY, 44_739_244.0][random.below(4) as usize],
            1 => f32::from_bits(random.bits() as u32),
            2 => [0.0, -0.0, 1.0 / 256.0, 0.5 / 48.0, -1.0][random.below(5) as usize],
            _ => (random.below(200) as f32 - 30.0) / 48.0,
        }
    }

    /// The columns of a list, three times in four in the order of its beats, and now and then with entries that one column alone has.
    fn columns(random: &mut Random) -> (Vec<f32>, Vec<f32>) {
        let most = if random.below(500) == 0 { 1_025 } else { 12 };
        let mut beats: Vec<f32> = (0..random.below(most)).map(|_| beat(random)).collect();
        if random.below(4) != 0 {
            beats.sort_by(f32::total_cmp);
        }
        let mut lengths: Vec<f32> = beats.iter().map(|_| length(random)).collect();
        match random.below(16) {
            0 => beats.push(beat(random)),
            1 => lengths.push(length(random)),
            _ => (),
        }
        (beats, lengths)
    }

    /// Where rows never fall the pass has to be the count, and never more; the call is held to the pass.
    pub fn compare(work: Work, call: Call) -> Found {
        let mut random = Random::new(work.seed, "warped rows");
        let mut found = Found::default();
        for _ in 0..4 * work.lists() {
            let (beats, lengths) = columns(&mut random);
            let spans = spans(&beats, &lengths);
            let (count, pass) = (count(&spans), one_pass(&spans));
            let rising = spans.is_sorted_by_key(|span| span.start);
            assert!(pass == count || !rising && pass < count, "{beats:?} {lengths:?}: pass {pass}, count {count}");
            let answer = call(&beats, &lengths);
            found.check(answer == pass, || {
                format!("{beats:?} {lengths:?}: pass {pass}, of {count} rows, port {answer}")
            });
        }
        found
    }

    pub fn compare_all(work: Work, total: &mut Total) {
        compare(work, warped_rows).add("warped_rows", total);
    }
}
