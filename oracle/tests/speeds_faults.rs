//! The comparison of speed tidying asks for every answer, and finds faults: ports that are wrong in one thing each.
#![cfg(feature = "port")]

use oracle::cases::Work;
use oracle::speeds::{Columns, compare, port};
use oracle::tidying::Outcome;

const WORK: Work = Work { seed: 1, seconds: 0 };

#[test]
fn every_number_is_answered() {
    let found = compare(WORK, port);
    assert_eq!(found.different, 0);
    println!("{} compared, by number {:?}", found.compared, found.numbers);
    for number in [0, 1, 2, 3, 4, 6, 7] {
        assert!(found.numbers[number] >= 50, "{number}: {:?}", found.numbers);
    }
}

#[test]
fn a_unit_left_out_of_nearness_is_found() {
    fn wrong(list: &Columns, rooms: [&mut [f64]; 3], units_room: &mut [u8]) -> Outcome {
        let units = list.units.iter().map(|unit| if *unit > 1 { *unit } else { 0 }).collect();
        port(&Columns { units, ..list.clone() }, rooms, units_room)
    }
    assert!(compare(WORK, wrong).different > 0);
}

#[test]
fn a_room_written_on_a_refusal_is_found() {
    fn wrong(list: &Columns, rooms: [&mut [f64]; 3], units_room: &mut [u8]) -> Outcome {
        let outcome = port(list, rooms, units_room);
        if let (7, [first, ..]) = (outcome.number, units_room) {
            *first = first.wrapping_add(1);
        }
        outcome
    }
    let found = compare(WORK, wrong);
    assert!(found.different > 0);
    assert!(found.plainest.is_some_and(|asked| asked.list.units.len() <= 2));
}
