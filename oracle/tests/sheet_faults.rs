//! The comparison of note sheets finds faults: calls that are the port's but for one thing each.
#![cfg(feature = "port")]

use oracle::cases::Work;
use oracle::sheet::{Call, Columns, Rooms, Sheet, Song, compare, note_sheet, snap, snap_by_remainder};

const WORK: Work = Work { seed: 1, seconds: 0 };

fn different(call: Call) -> u64 {
    compare(WORK, call).different
}

/// The port's sheet, changed where it is taken.
fn changed(
    song: &Song,
    rows: &[i32],
    columns: &mut Columns,
    rooms: Rooms,
    change: impl Fn(&mut Sheet, &mut Columns),
) -> Sheet {
    let mut sheet = note_sheet(song, rows, columns, rooms);
    if sheet.number == 0 {
        change(&mut sheet, columns);
    }
    sheet
}

#[test]
fn the_port_has_none() {
    let found = compare(WORK, note_sheet);
    assert!(
        found.compared > 1_000 && found.different == 0,
        "{} compared, {} different",
        found.compared,
        found.different
    );
}

#[test]
fn both_ways_to_the_colour_agree() {
    assert!((-96..96).all(|row| snap(row) == snap_by_remainder(row)));
}

#[test]
fn a_colour_that_is_wrong_below_zero() {
    assert!(
        different(|song, rows, columns, rooms| changed(song, rows, columns, rooms, |_, columns| {
            rows.iter().zip(&mut columns.snaps).filter(|(row, _)| *row % 48 < 0).for_each(|(_, colour)| *colour = 8);
        })) > 0
    );
}

#[test]
fn a_mark_of_its_neighbour() {
    assert!(
        different(|song, rows, columns, rooms| changed(song, rows, columns, rooms, |_, columns| {
            (1..rows.len()).rev().for_each(|place| columns.judged[place] = columns.judged[place - 1]);
        })) > 0
    );
}

#[test]
fn a_time_one_step_off() {
    assert!(
        different(|song, rows, columns, rooms| changed(song, rows, columns, rooms, |_, columns| {
            if let Some(time) = columns.times[..rows.len()].last_mut() {
                *time = time.next_up();
            }
        })) > 0
    );
}

#[test]
fn steps_of_rows_alone() {
    assert!(
        different(
            |song, rows, columns, rooms| changed(song, rows, columns, rooms, |sheet, _| sheet.steps = sheet.count)
        ) > 0
    );
}

#[test]
fn written_past_the_last_row() {
    assert!(
        different(|song, rows, columns, rooms| changed(song, rows, columns, rooms, |_, columns| {
            if let Some(past) = columns.snaps.get_mut(rows.len()) {
                *past = past.wrapping_add(1);
            }
        })) > 0
    );
}

#[test]
fn a_row_taken_twice() {
    assert!(
        different(|song, rows, columns, rooms| {
            let mut once = rows.to_vec();
            once.dedup();
            note_sheet(song, &once, columns, rooms)
        }) > 0
    );
}
