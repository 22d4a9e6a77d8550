//! The calls that take one number and give one: the original and the port under one name.

use crate::math::probe as math;
use crate::numbers::Number;
use crate::timing::probe as timing;

pub trait Call {
    type From: crate::cases::Cases;
    type To: Number;
    const NAME: &str;
    /// Tells the call's lines in the stored vectors.
    const LETTER: char;

    fn original(from: Self::From) -> Self::To;

    /// The original in the loop that the port has, to be inlined there.
    #[inline(never)]
    fn original_each(from: &[Self::From], to: &mut [Self::To]) {
        for (from, to) in from.iter().zip(to) {
            *to = Self::original(*from);
        }
    }

    #[cfg(feature = "port")]
    fn port(from: Self::From) -> Self::To;

    /// The port's own loop over columns.
    #[cfg(feature = "port")]
    fn port_each(from: &[Self::From], to: &mut [Self::To]);
}

/// What is done with every call.
pub trait Visit {
    fn visit<C: Call>(&mut self);
}

/// Each line is a call: its letter, its name, what it takes and gives, and what the original answers.
/// The port's functions are `marrighentu_NAME` and `marrighentu_each_NAME`.
macro_rules! calls {
    ($($letter:literal $name:ident($arg:ident: $from:ty) -> $to:ty { $original:expr })*) => {
        pub mod called {
            $(#[allow(non_camel_case_types)]
            pub struct $name;)*
        }

        $(impl Call for called::$name {
            type From = $from;
            type To = $to;
            const NAME: &str = stringify!($name);
            const LETTER: char = $letter;

            #[inline(always)]
            fn original($arg: $from) -> $to {
                $original
            }

            #[cfg(feature = "port")]
            fn port(from: $from) -> $to {
                unsafe extern "C" {
                    #[link_name = concat!("marrighentu_", stringify!($name))]
                    safe fn one(from: $from) -> $to;
                }
                one(from)
            }

            #[cfg(feature = "port")]
            fn port_each(from: &[$from], to: &mut [$to]) {
                unsafe extern "C" {
                    #[link_name = concat!("marrighentu_each_", stringify!($name))]
                    fn each(from: *const $from, from_len: usize, to: *mut $to, to_len: usize);
                }
                // SAFETY: both slices are lent whole, and a slice crosses as its pointer and its length.
                unsafe { each(from.as_ptr(), from.len(), to.as_mut_ptr(), to.len()) }
            }
        })*

        pub fn visit_all(visitor: &mut impl Visit) {
            $(visitor.visit::<called::$name>();)*
        }
    };
}

calls! {
    'a' lrint_f64(x: f64) -> i32 { math::lrint_f64(x) as i32 }
    'b' lrint_f32(x: f32) -> i32 { math::lrint_f32(x) }
    'c' narrow_f64(x: f64) -> f32 { x as f32 }
    'd' note_row_to_beat(row: i32) -> f64 { timing::note_row_to_beat(row) }
    'e' note_row_to_beat_f32(row: i32) -> f32 { timing::note_row_to_beat_f32(row) }
    'f' beat_to_note_row(beat: f64) -> i32 { timing::beat_to_note_row(beat) }
    'g' beat_to_note_row_f32(beat: f32) -> i32 { timing::beat_to_note_row_f32(beat) }
    'h' quantize_beat(beat: f64) -> f64 { timing::quantize_beat(beat) }
    'i' quantize_beat_f32(beat: f32) -> f32 { timing::quantize_beat_f32(beat) }
}
