//! The comparison of warped rows finds faults: calls that are wrong in one thing each.
#![cfg(feature = "port")]

use oracle::cases::Work;
use oracle::warped::{Call, along_the_list, by_stretches, compare, count, one_pass, row_by_row, spans, warped_rows};

const WORK: Work = Work { seed: 1, seconds: 0 };

fn different(call: Call) -> u64 {
    compare(WORK, call).different
}

/// One pass that keeps a furthest end, of which each turn is told: the end so far, and the warp's start and end, as how many rows it adds and the end then.
fn by_turns(beats: &[f32], lengths: &[f32], turn: impl Fn(i64, i64, i64) -> (i64, i64)) -> u64 {
    let mut far = i64::MIN;
    let added = spans(beats, lengths).into_iter().map(|span| {
        let (rows, end) = turn(far, span.start, span.end);
        far = end;
        rows.max(0) as u64
    });
    added.sum()
}

#[test]
fn the_port_has_none() {
    let found = compare(WORK, warped_rows);
    assert!(
        found.compared > 10_000 && found.different == 0,
        "{} compared, {} different",
        found.compared,
        found.different
    );
}

#[test]
fn the_pass_by_turns_has_none() {
    let right: Call = |beats, lengths| {
        by_turns(beats, lengths, |far, start, end| {
            let first = far.max(start);
            (end - first, if end > first { end } else { far })
        })
    };
    assert_eq!((different(right), different(along_the_list)), (0, 0));
}

#[test]
fn both_ways_to_the_count_agree() {
    for warps in [
        (&[0.0, 4.0][..], &[8.0, 1.0][..], 384),
        (&[4.0], &[2.0], 96),
        (&[0.0, 4.0], &[4.0, 1.0], 240),
        (&[-2.0, 1.0], &[4.0, 1.0], 192),
        (&[4.0, 0.0], &[1.0, 8.0], 384),
        (&[0.0, 1.0, 2.0], &[-8.0, 0.0, 1.0 / 256.0], 0),
    ] {
        let spans = spans(warps.0, warps.1);
        assert_eq!((row_by_row(&spans), by_stretches(&spans), count(&spans)), (warps.2, warps.2, warps.2));
    }
    assert_eq!(one_pass(&spans(&[4.0, 0.0], &[1.0, 8.0])), 192);
    assert_eq!(count(&spans(&[0.0, 4.0], &[99_999_999.0, 99_999_999.0])), 2_147_483_839);
}

#[test]
fn the_sum_of_lengths() {
    assert!(different(|beats, lengths| by_turns(beats, lengths, |far, start, end| (end - start, far))) > 0);
}

#[test]
fn the_end_counted_too() {
    assert!(
        different(|beats, lengths| {
            let rows = |far: i64, start: i64, end: i64| end + i64::from(start < end) - far.max(start);
            by_turns(beats, lengths, |far, start, end| {
                (rows(far, start, end), far.max(if start < end { end } else { far }))
            })
        }) > 0
    );
}

#[test]
fn a_furthest_end_that_falls_back() {
    assert!(
        different(|beats, lengths| {
            by_turns(beats, lengths, |far, start, end| (end - far.max(start), if start < end { end } else { far }))
        }) > 0
    );
}

#[test]
fn an_empty_warp_that_moves_the_end() {
    assert!(
        different(|beats, lengths| by_turns(beats, lengths, |far, start, end| (end - far.max(start), far.max(end))))
            > 0
    );
}

#[test]
fn rows_from_the_start_on_where_the_end_is_further() {
    assert!(
        different(|beats, lengths| {
            by_turns(beats, lengths, |far, start, end| if end > far { (end - start, end) } else { (0, far) })
        }) > 0
    );
}

#[test]
fn lengths_without_their_sign() {
    assert!(
        different(|beats, lengths| {
            let lengths: Vec<f32> = lengths.iter().map(|length| length.abs()).collect();
            warped_rows(beats, &lengths)
        }) > 0
    );
}

#[test]
fn rows_below_zero_left_out() {
    assert!(
        different(|beats, lengths| {
            by_turns(beats, lengths, |far, start, end| {
                let first = far.max(start);
                (end.max(0) - first.max(0), if end > first { end } else { far })
            })
        }) > 0
    );
}

#[test]
fn an_end_held_at_the_greatest_row() {
    assert!(
        different(|beats, lengths| {
            by_turns(beats, lengths, |far, start, end| {
                let (first, end) = (far.max(start), end.min(i64::from(i32::MAX)));
                (end - first, if end > first { end } else { far })
            })
        }) > 0
    );
}

#[test]
fn all_rows_of_a_list_that_falls() {
    assert!(different(|beats, lengths| count(&spans(beats, lengths))) > 0);
}

#[test]
fn the_longer_column_counts() {
    assert!(
        different(|beats, lengths| {
            let mut beats = beats.to_vec();
            beats.resize(beats.len().max(lengths.len()), 0.0);
            warped_rows(&beats, lengths)
        }) > 0
    );
}
