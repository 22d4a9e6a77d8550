//! The comparison of tidying finds faults: ports that are wrong in one thing each, and the plainest list by which that shows.
#![cfg(feature = "port")]

use oracle::cases::Work;
use oracle::tidying::{Asked, Found, Outcome, Rows, Tempos, Tidying, compare};

const WORK: Work = Work { seed: 1, seconds: 0 };

/// A call whose port is the code given; `right` is the true one.
macro_rules! wrong {
    ($name:ident like $right:ident($beats:ident, $values:ident, $to_beats:ident, $to_values:ident) $port:block) => {
        struct $name;
        impl Tidying for $name {
            type Entry = <$right as Tidying>::Entry;
            const NAME: &str = $right::NAME;
            fn entry(beat: f64, value: f64) -> Self::Entry {
                $right::entry(beat, value)
            }
            fn beat_and_value(entry: &Self::Entry) -> (f64, f64) {
                $right::beat_and_value(entry)
            }
            fn takes(value: f64) -> bool {
                $right::takes(value)
            }
            fn original(list: Vec<Self::Entry>) -> Vec<Self::Entry> {
                $right::original(list)
            }
            fn port($beats: &[f64], $values: &[f64], $to_beats: &mut [f64], $to_values: &mut [f64]) -> Outcome $port
        }
    };
}

wrong! { FirstOfRow like Rows(beats, values, to_beats, to_values) {
    let backwards = |column: &[f64]| column.iter().rev().copied().collect::<Vec<_>>();
    Rows::port(&backwards(beats), &backwards(values), to_beats, to_values)
} }

wrong! { OneShort like Rows(beats, values, to_beats, to_values) {
    if beats.len() == 1_024 { Outcome::refused(1) } else { Rows::port(beats, values, to_beats, to_values) }
} }

wrong! { WritesOn like Rows(beats, values, to_beats, to_values) {
    let outcome = Rows::port(beats, values, to_beats, to_values);
    if outcome.number == 0 && outcome.count < to_values.len() {
        to_values[outcome.count] = 0.0;
    }
    outcome
} }

wrong! { WritesBeforeRefusing like Tempos(beats, values, to_beats, to_values) {
    let outcome = Tempos::port(beats, values, to_beats, to_values);
    if outcome.number == 7 && !to_beats.is_empty() {
        to_beats[0] = 0.0;
    }
    outcome
} }

wrong! { OneZero like Tempos(beats, values, to_beats, to_values) {
    let outcome = Tempos::port(beats, values, to_beats, to_values);
    to_values.iter_mut().take(outcome.count).filter(|value| **value == 0.0).for_each(|value| *value = 0.0);
    outcome
} }

fn plainest<T: Tidying>() -> Asked {
    let found = compare::<T>(WORK);
    assert!(found.different > 0);
    found.plainest.unwrap()
}

#[test]
fn faults_are_found() {
    assert_eq!(plainest::<FirstOfRow>().beats.len(), 2);
    assert_eq!(plainest::<OneShort>().beats.len(), 1_024);
    assert_eq!(plainest::<WritesOn>().beats.len(), 0);
    assert!(plainest::<WritesBeforeRefusing>().beats.len() <= 2);
    let minus = plainest::<OneZero>().values;
    assert_eq!(minus.iter().map(|value| value.to_bits()).collect::<Vec<_>>(), [1 << 63]);
}

/// Every number that these calls give is among what is asked.
#[test]
fn every_number_is_asked() {
    let given = |found: Found| found.numbers.map(|times| times > 20);
    let wanted = [0, 1, 2, 3, 4, 5, 6, 7].map(|number| ![5, 6].contains(&number));
    assert_eq!(given(compare::<Rows>(WORK)), wanted);
    assert_eq!(given(compare::<Tempos>(WORK)), wanted);
}
