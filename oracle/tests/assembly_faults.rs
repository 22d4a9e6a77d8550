//! The comparison of assembly finds counts of entries off the grid and marks of warps that are wrong: calls that are the port's but for one thing each.
#![cfg(feature = "port")]

use oracle::assembly::{Assembled, Call, MARKS, Moved, Raw, Rooms, WARPS, assemble, compare, off_grid, stays};
use oracle::cases::Work;

const WORK: Work = Work { seed: 1, seconds: 0 };

fn different(call: Call) -> u64 {
    compare(true, WORK, call).different + compare(false, WORK, call).different
}

/// The port's answer, with other counts where it is taken.
fn counted(ssc: bool, raw: &Raw, rooms: &mut Rooms, count: impl Fn(&Raw, &Assembled) -> Moved) -> Assembled {
    let mut assembled = assemble(ssc, raw, rooms);
    if assembled.number == 0 {
        assembled.moved = count(raw, &assembled);
    }
    assembled
}

/// Counts by another test of a beat.
fn by_beats(ssc: bool, raw: &Raw, rooms: &mut Rooms, off: impl Fn(f64) -> bool) -> Assembled {
    counted(ssc, raw, rooms, |raw, _| Moved::by(raw, |beat, value| stays(ssc, beat, value), &off))
}

#[test]
fn the_port_has_none() {
    for ssc in [true, false] {
        let found = compare(ssc, WORK, assemble);
        assert!(
            found.compared > 1_000 && found.different == 0,
            "{} compared, {} different",
            found.compared,
            found.different
        );
    }
}

#[test]
fn the_plain_reading_itself() {
    assert_eq!(different(|ssc, raw, rooms| by_beats(ssc, raw, rooms, off_grid)), 0);
    assert!(![-0.0, 1.0 / 3.0, f64::from(1.0_f32 / 3.0), f64::from_bits(1), 65_536.0].into_iter().any(off_grid));
    assert!([0.001, 4.01, -0.01, 65_535.99].into_iter().all(off_grid));
}

#[test]
fn compared_before_narrowing() {
    assert!(
        different(|ssc, raw, rooms| by_beats(ssc, raw, rooms, |beat| {
            let narrow = beat as f32;
            beat != f64::from((narrow * 48.0).round_ties_even() / 48.0)
        })) > 0
    );
}

#[test]
fn compared_with_the_f64_beat_of_the_row() {
    assert!(
        different(|ssc, raw, rooms| by_beats(ssc, raw, rooms, |beat| beat != (beat * 48.0).round_ties_even() / 48.0))
            > 0
    );
}

#[test]
fn compared_by_bits() {
    assert!(
        different(|ssc, raw, rooms| by_beats(ssc, raw, rooms, |beat| {
            let narrow = beat as f32;
            narrow.to_bits() != ((narrow * 48.0).round_ties_even() / 48.0 + 0.0).to_bits()
        })) > 0
    );
}

#[test]
fn entries_that_are_dropped_counted() {
    assert!(different(|ssc, raw, rooms| counted(ssc, raw, rooms, |raw, _| Moved::by(raw, |_, _| true, off_grid))) > 0);
}

#[test]
fn stops_before_zero_left_out() {
    assert!(
        different(|ssc, raw, rooms| counted(ssc, raw, rooms, |raw, _| Moved::by(
            raw,
            |beat, value| stays(ssc, beat, value) && beat >= 0.0,
            off_grid
        ))) > 0
    );
}

#[test]
fn entries_that_tidying_loses_left_out() {
    assert!(
        different(|ssc, raw, rooms| counted(ssc, raw, rooms, |_, right| {
            let written = |moved: u32, count: usize| moved.min(count as u32);
            Moved { delays: written(right.moved.delays, right.delays), ..right.moved }
        })) > 0
    );
}

#[test]
fn a_count_kept_on_a_refusal() {
    assert!(
        different(|ssc, raw, rooms| {
            let mut assembled = assemble(ssc, raw, rooms);
            if assembled.number == 7 {
                assembled.moved = Moved::by(raw, |beat, value| stays(ssc, beat, value), off_grid);
            }
            assembled
        }) > 0
    );
}

#[test]
fn lengths_counted() {
    assert!(
        different(|ssc, raw, rooms| counted(ssc, raw, rooms, |raw, right| {
            let lengths = raw.numbers[oracle::assembly::FAKES + 1].iter().filter(|length| off_grid(**length)).count();
            Moved { fakes: right.moved.fakes + lengths as u32, ..right.moved }
        })) > 0
    );
}

// ---- marks

/// The port's answer, with another mark for each warp that it wrote: by its place, its row and its own mark.
fn marked(ssc: bool, raw: &Raw, rooms: &mut Rooms, mark: impl Fn(usize, f64, u8) -> u8) -> Assembled {
    let assembled = assemble(ssc, raw, rooms);
    if assembled.number == 0 {
        for place in 0..assembled.warps {
            let row = (f64::from(rooms.numbers[WARPS][place]) * 48.0).round_ties_even();
            rooms.marks[place] = mark(place, row, rooms.marks[place]);
        }
    }
    assembled
}

/// The mark that is given for the last warp on a row.
fn given_mark(raw: &Raw, row: f64) -> Option<u8> {
    let on_row = |beat: f64| (f64::from(beat as f32) * 48.0).round_ties_even() == row;
    raw.numbers[WARPS].iter().zip(&raw.marks).filter(|(beat, _)| on_row(**beat)).map(|(_, mark)| *mark).next_back()
}

#[test]
fn marks_as_they_are() {
    assert_eq!(different(|ssc, raw, rooms| marked(ssc, raw, rooms, |_, _, mark| mark)), 0);
}

#[test]
fn the_given_mark_where_a_made_warp_wins() {
    assert!(
        different(|ssc, raw, rooms| marked(ssc, raw, rooms, |_, row, mark| given_mark(raw, row).unwrap_or(mark))) > 0
    );
}

#[test]
fn marks_in_raw_order() {
    assert!(
        different(|ssc, raw, rooms| marked(ssc, raw, rooms, |place, _, _| raw.marks.get(place).copied().unwrap_or(1)))
            > 0
    );
}

#[test]
fn made_warps_marked_as_written() {
    assert!(
        different(|ssc, raw, rooms| marked(ssc, raw, rooms, |_, row, mark| given_mark(raw, row).map_or(0, |_| mark)))
            > 0
    );
}

#[test]
fn a_mark_of_two_taken() {
    assert!(
        different(|ssc, raw, rooms| {
            let marks = raw.marks.iter().map(|mark| (*mark).min(1)).collect();
            assemble(ssc, &Raw { marks, ..raw.clone() }, rooms)
        }) > 0
    );
}

#[test]
fn marks_of_another_length_taken() {
    assert!(
        different(|ssc, raw, rooms| {
            let mut marks = raw.marks.clone();
            marks.resize(raw.numbers[WARPS].len(), 0);
            assemble(ssc, &Raw { marks, ..raw.clone() }, rooms)
        }) > 0
    );
}

#[test]
fn the_room_for_marks_not_counted() {
    assert!(
        different(|ssc, raw, rooms| {
            let given = rooms.lengths[MARKS];
            let mut roomy = rooms.clone();
            roomy.marks.resize(1_030, 0);
            roomy.lengths[MARKS] = 1_030;
            let assembled = assemble(ssc, raw, &mut roomy);
            (rooms.numbers, rooms.units) = (roomy.numbers, roomy.units);
            rooms.marks[..given].copy_from_slice(&roomy.marks[..given]);
            assembled
        }) > 0
    );
}
