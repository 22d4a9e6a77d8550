//! The comparison finds readers that are wrong.

use marrighentu::{Chart, beat_to_note_row};
use marrighentu_charts::ChartFile;
use text_compare::case::Case;
use text_compare::{compare, reader};

const TEXTS: u64 = 1_000;

#[test]
fn the_reader_agrees() {
    let (counts, shown) = compare(7, TEXTS, reader);
    assert!(shown.is_empty(), "{}", shown[0]);
    assert!(counts.unsorted > TEXTS / 10 && counts.passed_over > TEXTS / 10, "{counts:?}");
    assert!(counts.refused < counts.timings / 5, "{counts:?}");
}

fn found(wrong: fn(&Case, &ChartFile, usize) -> (Chart, f64)) -> String {
    let (_, shown) = compare(7, TEXTS, wrong);
    assert!(!shown.is_empty(), "nothing was found");
    shown[0].clone()
}

#[test]
fn tempos_in_another_order_on_a_row() {
    let said = found(|case, file, chart| {
        let (mut read, offset) = reader(case, file, chart);
        read.tempos.sort_by_key(|tempo| beat_to_note_row(tempo.0));
        for two in 1..read.tempos.len() {
            if beat_to_note_row(read.tempos[two - 1].0) == beat_to_note_row(read.tempos[two].0) {
                read.tempos.swap(two - 1, two);
            }
        }
        (read, offset)
    });
    assert!(said.starts_with("tempos: "), "{said}");
}

#[test]
fn timing_of_its_own_by_eight_tags() {
    let said = found(|case, file, chart| {
        let only_the_others = chart > 0 && {
            let tags = &case.charts[chart - 1].0;
            tags[..7].iter().all(Option::is_none) && tags[11].is_none() && tags[7..11].iter().any(Option::is_some)
        };
        reader(case, file, if only_the_others { 0 } else { chart })
    });
    assert!(said.contains("original"), "{said}");
}

#[test]
fn fakes_that_are_not_positive() {
    let said = found(|case, file, chart| {
        let (mut read, offset) = reader(case, file, chart);
        read.fakes.push((1.0, -1.0));
        (read, offset)
    });
    assert!(said.starts_with("fakes: "), "{said}");
}

#[test]
fn values_that_are_not_narrowed() {
    let said = found(|case, file, chart| {
        let (mut read, offset) = reader(case, file, chart);
        for stop in &mut read.stops {
            stop.1 *= 1.0 + f64::from(f32::EPSILON);
        }
        (read, offset)
    });
    assert!(said.starts_with("stops: "), "{said}");
}

#[test]
fn an_offset_of_the_file_for_the_charts() {
    let said = found(|case, file, chart| (reader(case, file, chart).0, reader(case, file, 0).1));
    assert!(said.starts_with("song offset: "), "{said}");
}
