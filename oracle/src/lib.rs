//! The original, built whole and unchanged, beside the port: what `compare`, `vectors` and `bench` are made of.

/// For each line, a public function that is the private one of the same name, inlined where it is called.
macro_rules! probes {
    ($from:ident => $(fn $name:ident($($arg:ident: $type:ty),* $(,)?) $(-> $answer:ty)?;)*) => {
        $(#[inline(always)]
        pub fn $name($($arg: $type),*) $(-> $answer)? {
            $from::$name($($arg),*)
        })*
    };
}
pub(crate) use probes;

include!(concat!(env!("OUT_DIR"), "/original.rs"));

mod missing;
use missing::{nps, parse, resolve_difficulty_label, stats, supported_stepstype_lanes_bytes};

pub mod assembly;
#[cfg(feature = "port")]
pub mod bench_clock;
#[cfg(feature = "port")]
pub mod by_time;
pub mod calls;
pub mod cases;
pub mod charts;
#[cfg(feature = "port")]
pub mod clock;
#[cfg(feature = "port")]
pub mod edits;
pub mod lists;
#[cfg(feature = "port")]
pub mod lookups;
#[cfg(feature = "port")]
pub mod marked;
pub mod mend;
#[cfg(feature = "port")]
pub mod mend_calls;
#[cfg(feature = "port")]
pub mod notes;
pub mod numbers;
#[cfg(feature = "port")]
pub mod processing;
pub mod random;
pub mod report;
#[cfg(feature = "port")]
pub mod sheet;
#[cfg(feature = "port")]
pub mod sm_stops;
#[cfg(feature = "port")]
pub mod speeds;
pub mod stored;
#[cfg(feature = "port")]
pub mod tally;
#[cfg(feature = "port")]
pub mod tempo_text;
#[cfg(feature = "port")]
pub mod tidying;
pub mod timings;
#[cfg(feature = "port")]
pub mod warp_marks;
pub mod warped;
