//! The comparison finds faults: ports that are wrong in one place each, and the plainest case by which that shows.
#![cfg(feature = "port")]

use oracle::calls::{Call, called};
use oracle::cases::{Cases, Work};
use oracle::tally::{Tally, Total};

/// A call whose port is the code given.
macro_rules! wrong {
    ($name:ident like $right:ident($arg:ident: $from:ty) -> $to:ty { $port:expr }) => {
        struct $name;
        impl Call for $name {
            type From = $from;
            type To = $to;
            const NAME: &str = stringify!($name);
            const LETTER: char = '-';
            fn original(from: $from) -> $to {
                called::$right::original(from)
            }
            fn port($arg: $from) -> $to {
                $port
            }
            fn port_each(from: &[$from], to: &mut [$to]) {
                from.iter().zip(to).for_each(|(from, to)| *to = Self::port(*from));
            }
        }
    };
}

wrong! { TiesAway like lrint_f64(x: f64) -> i32 { if x.is_finite() { x.round() as i32 } else { 0 } } }
wrong! { EndsOpen like lrint_f32(x: f32) -> i32 { if x.is_finite() { x.round_ties_even() as i64 as i32 } else { 0 } } }
wrong! { NoSubnormals like narrow_f64(x: f64) -> f32 { if (x as f32).is_subnormal() { 0.0 } else { x as f32 } } }
wrong! { OneRow like note_row_to_beat(row: i32) -> f64 { f64::from(row - i32::from(row == 3_145_728)) / 48.0 } }

fn plainest<C: Call>() -> (C::From, u64) {
    let mut tally = Tally::<C>::default();
    C::From::every(Work { seed: 1, seconds: 0 }, &mut |from| tally.give(from));
    let first = tally.differing()[0];
    let mut total = Total::default();
    tally.end(&mut total);
    assert!(!total.end());
    (first, total.different)
}

#[test]
fn faults_are_found() {
    assert_eq!(plainest::<TiesAway>().0, 0.5);
    assert_eq!(plainest::<EndsOpen>().0, 2_147_483_648.0);
    assert_eq!(plainest::<NoSubnormals>().0, f64::from(f32::MIN_POSITIVE) / 2.0);
    let (row, times) = plainest::<OneRow>();
    assert_eq!(row, 3_145_728);
    assert!(times >= 1);
}
