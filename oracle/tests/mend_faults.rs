//! The comparison of mending asks for every number and every fate, and finds faults: ports that are wrong in one thing each.
#![cfg(feature = "port")]

use oracle::cases::Work;
use oracle::mend::{KEPT, List, MERGED, REPLACED};
use oracle::mend_calls::{Rooms, compare, port};
use oracle::tidying::Outcome;

const WORK: Work = Work { seed: 1, seconds: 0 };

fn found_in_both(wrong: fn(&List, &mut Rooms, &[usize]) -> Outcome) -> bool {
    [false, true].into_iter().all(|speeds| compare(WORK, speeds, wrong).different > 0)
}

#[test]
fn every_number_and_every_fate_is_answered() {
    for speeds in [false, true] {
        let found = compare(WORK, speeds, port);
        assert_eq!(found.different, 0);
        println!("{} compared, by number {:?}, by fate {:?}", found.compared, found.numbers, found.fates);
        for number in [0, 1, 2, 3, 4, 7] {
            assert!(found.numbers[number] >= 50, "{number}: {:?}", found.numbers);
        }
        assert!(found.fates.iter().all(|count| *count > 1_000), "{:?}", found.fates);
    }
}

#[test]
fn a_merged_entry_that_is_called_replaced_is_found() {
    assert!(found_in_both(|list, rooms, lent| {
        let outcome = port(list, rooms, lent);
        if outcome.number == 0 {
            let raw = list.lengths()[0];
            rooms.fates[..raw].iter_mut().filter(|fate| **fate == MERGED).for_each(|fate| *fate = REPLACED);
        }
        outcome
    }));
}

#[test]
fn fates_in_another_order_are_found() {
    assert!(found_in_both(|list, rooms, lent| {
        let outcome = port(list, rooms, lent);
        if outcome.number == 0 {
            rooms.fates[..list.lengths()[0]].reverse();
        }
        outcome
    }));
}

#[test]
fn a_list_that_was_turned_round_first_is_found() {
    // of one row the first stays then
    assert!(found_in_both(|list, rooms, lent| {
        let mut turned = list.clone();
        match &mut turned {
            List::Scrolls(numbers) => numbers.iter_mut().for_each(|column| column.reverse()),
            List::Speeds(numbers, units) => {
                numbers.iter_mut().for_each(|column| column.reverse());
                units.reverse();
            }
        }
        let outcome = port(&turned, rooms, lent);
        if outcome.number == 0 {
            rooms.fates[..list.lengths()[0]].reverse();
        }
        outcome
    }));
}

#[test]
fn a_room_of_fates_that_is_not_tested_is_found() {
    assert!(found_in_both(|list, rooms, lent| {
        let mut wider = lent.to_vec();
        let (mut longer, last) = (rooms.clone(), wider.len() - 1);
        wider[last] = wider[last].max(list.lengths()[0]);
        longer.fates.resize(wider[last] + 4, 0);
        let outcome = port(list, &mut longer, &wider);
        longer.fates.truncate(rooms.fates.len());
        *rooms = longer;
        outcome
    }));
}

#[test]
fn a_place_past_the_fates_is_looked_at() {
    assert!(found_in_both(|list, rooms, lent| {
        let outcome = port(list, rooms, lent);
        if let Some(last) = rooms.fates.last_mut() {
            *last = if *last == KEPT { MERGED } else { KEPT };
        }
        outcome
    }));
}

#[test]
fn a_room_written_on_a_refusal_is_found() {
    assert!(found_in_both(|list, rooms, lent| {
        let outcome = port(list, rooms, lent);
        if outcome.number == 7 {
            rooms.fates[0] = rooms.fates[0].wrapping_add(1);
        }
        outcome
    }));
}
