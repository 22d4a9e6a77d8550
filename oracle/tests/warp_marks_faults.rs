//! The comparison of marks finds faults: calls that are wrong in one thing each.
#![cfg(feature = "port")]

use oracle::cases::Work;
use oracle::lookups::{self, Lists};
use oracle::warp_marks::{
    Rooms, Store, Tidy, by_rows, compare_storing, compare_tidying, tidied, tidy_plainly, tidy_warp_segments,
};

const WORK: Work = Work { seed: 1, seconds: 0 };

fn tidied_wrong(call: Tidy) -> bool {
    compare_tidying(WORK, call).different > 0
}

fn stored_wrong(call: Store) -> bool {
    compare_storing(WORK, call).different > 0
}

#[test]
fn the_port_has_none() {
    let (tidying, storing) = (compare_tidying(WORK, tidy_warp_segments), compare_storing(WORK, lookups::store_marked));
    assert!(tidying.compared > 100 && storing.compared > 100);
    assert_eq!((tidying.different, storing.different), (0, 0));
}

#[test]
fn the_cases_that_the_request_names() {
    // given on beats 4 and 0, and one that was made on beat 4 behind them
    let warps = tidied(&[4.0, 0.0, 4.0], &[1.0, 1.0, 2.0], &[0, 0, 1]);
    assert_eq!(warps, [(0.0, 1.0, 0), (4.0, 2.0, 1)]);
    // the row store keeps both of a row, in the order given
    assert_eq!(by_rows(&[4.001, 0.0, 4.0], &[0, 1, 1]), [1, 0, 1]);
}

#[test]
fn marks_in_raw_order() {
    assert!(tidied_wrong(|beats, lengths, marks, rooms| {
        let outcome = tidy_plainly(beats, lengths, marks, rooms);
        rooms.marks[..outcome.count].copy_from_slice(&marks[..outcome.count]);
        outcome
    }));
    assert!(stored_wrong(|lists, marks, rows, out| {
        let stored = lookups::store_marked(lists, marks, rows, out);
        if stored.number == 0 {
            out[..marks.len()].copy_from_slice(marks);
        }
        stored
    }));
}

#[test]
fn the_first_mark_of_a_row() {
    assert!(tidied_wrong(|beats, lengths, marks, rooms| {
        let outcome = tidy_plainly(beats, lengths, marks, rooms);
        let turned = |column: &[f64]| column.iter().rev().copied().collect::<Vec<_>>();
        let last_first: Vec<u8> = marks.iter().rev().copied().collect();
        for (place, warp) in
            tidied(&turned(beats), &turned(lengths), &last_first).iter().take(outcome.count).enumerate()
        {
            rooms.marks[place] = warp.2;
        }
        outcome
    }));
}

#[test]
fn a_mark_of_two_taken() {
    assert!(tidied_wrong(|beats, lengths, marks, rooms| {
        let held: Vec<u8> = marks.iter().map(|mark| (*mark).min(1)).collect();
        tidy_plainly(beats, lengths, &held, rooms)
    }));
    assert!(stored_wrong(|lists, marks, rows, out| {
        let held: Vec<u8> = marks.iter().map(|mark| (*mark).min(1)).collect();
        lookups::store_marked(lists, &held, rows, out)
    }));
}

#[test]
fn too_many_marks_as_another_length() {
    assert!(tidied_wrong(|beats, lengths, marks, rooms| {
        tidy_plainly(beats, lengths, &marks[..marks.len().min(1_024)], rooms)
    }));
}

#[test]
fn a_short_room_for_marks_overlooked() {
    assert!(tidied_wrong(|beats, lengths, marks, rooms| {
        let mut wide = Rooms { marks: vec![0; 1_024], ..rooms.clone() };
        let outcome = tidy_plainly(beats, lengths, marks, &mut wide);
        (rooms.beats, rooms.lengths) = (wide.beats, wide.lengths);
        let room = rooms.marks.len().min(outcome.count);
        rooms.marks[..room].copy_from_slice(&wide.marks[..room]);
        outcome
    }));
    assert!(stored_wrong(|lists, marks, rows, out| {
        let mut wide = vec![0; 1_030];
        let stored = lookups::store_marked(lists, marks, rows, &mut wide);
        let room = out.len().min(if stored.number == 0 { marks.len() } else { 0 });
        out[..room].copy_from_slice(&wide[..room]);
        stored
    }));
}

#[test]
fn the_higher_number_first() {
    assert!(tidied_wrong(|beats, lengths, marks, rooms| {
        let plain = vec![0; beats.len()];
        let mut spare = rooms.clone();
        match tidy_plainly(beats, lengths, &plain, &mut spare) {
            refused if refused.number != 0 && refused.number != 7 => refused,
            _ => tidy_plainly(beats, lengths, marks, rooms),
        }
    }));
}

#[test]
fn marks_sorted_within_a_row() {
    assert!(stored_wrong(|lists: &Lists, marks, rows, out| {
        let stored = lookups::store_marked(lists, marks, rows, out);
        if stored.number == 0 {
            let warps = &rows[stored.parts[0] + stored.parts[1]..][..stored.parts[2]];
            let mut pairs: Vec<(i32, u8)> = warps.iter().copied().zip(out.iter().copied()).collect();
            pairs.sort_unstable();
            pairs.iter().enumerate().for_each(|(place, pair)| out[place] = pair.1);
        }
        stored
    }));
}

#[test]
fn what_follows_is_written_over() {
    assert!(tidied_wrong(|beats, lengths, marks, rooms| {
        let outcome = tidy_plainly(beats, lengths, marks, rooms);
        if let Some(next) = rooms.marks.get_mut(outcome.count) {
            *next = 0;
        }
        outcome
    }));
}
