//! The port's functions by their C names. A slice crosses as its pointer and its length.

use crate::lists::Columns;
use crate::moved::Moved;

/// How far a walk through a timing's events has come.
#[derive(Clone, Copy, Debug, PartialEq)]
#[repr(C)]
pub struct State {
    pub tempos: usize,
    pub stops: usize,
    pub delays: usize,
    pub warps: usize,
    pub row: i32,
    pub warping: bool,
    pub time: f64,
    pub end: f64,
}

#[derive(Clone, Copy, Debug, PartialEq)]
#[repr(C)]
pub struct Cursor {
    pub state: State,
    pub asked: i32,
}

/// The end of a timing: the state after all its events, and the greatest row among them.
#[derive(Clone, Copy, Debug, PartialEq)]
#[repr(C)]
pub struct Mark {
    pub state: State,
    pub row: i32,
}

/// A number and a mark: what making a mark answers.
#[derive(Clone, Copy, Debug)]
#[repr(C)]
pub struct MarkMade {
    pub number: u32,
    pub mark: Mark,
}

/// What a question answers; the cursor after it stands in the place that was lent.
#[derive(Clone, Copy, Debug)]
#[repr(C)]
pub struct Reply {
    pub number: u32,
    pub time: f64,
    pub count: usize,
}

/// What a question to the second clock answers.
#[derive(Clone, Copy, Debug)]
#[repr(C)]
pub struct BenchAnswer {
    pub number: u32,
    pub time: f64,
    pub count: usize,
    pub laid: usize,
}

/// Which beat it is at a time.
#[derive(Clone, Copy, Debug)]
#[repr(C)]
pub struct BeatInfo {
    pub number: u32,
    pub beat: f64,
    pub is_in_freeze: bool,
    pub is_in_delay: bool,
    pub count: usize,
}

/// A number and a cursor: what a new cursor answers.
#[derive(Clone, Copy, Debug)]
#[repr(C)]
pub struct Numbered {
    pub number: u32,
    pub cursor: Cursor,
}

#[derive(Clone, Copy, Debug)]
#[repr(C)]
pub struct Looked {
    pub number: u32,
    pub yes: bool,
}

#[derive(Clone, Copy, Debug)]
#[repr(C)]
pub struct Outcome {
    pub number: u32,
    pub count: usize,
}

/// What a note sheet answers: the rows written, and the steps to all their times.
#[derive(Clone, Copy, Debug)]
#[repr(C)]
pub struct Sheet {
    pub number: u32,
    pub count: usize,
    pub steps: usize,
}

#[derive(Clone, Copy, Debug)]
#[repr(C)]
pub struct Displayed {
    pub number: u32,
    pub beat: f64,
}

#[derive(Clone, Copy, Debug)]
#[repr(C)]
pub struct Stored {
    pub number: u32,
    pub stops: usize,
    pub delays: usize,
    pub warps: usize,
    pub fakes: usize,
}

#[derive(Clone, Copy, Debug)]
#[repr(C)]
pub struct Filled {
    pub number: u32,
    pub count: usize,
    pub own: bool,
}

#[derive(Clone, Copy, Debug)]
#[repr(C)]
pub struct Assembled {
    pub number: u32,
    pub tempos: usize,
    pub stops: usize,
    pub delays: usize,
    pub warps: usize,
    pub speeds: usize,
    pub scrolls: usize,
    pub fakes: usize,
    pub offset: f32,
    pub moved: Moved,
}

#[derive(Clone, Copy, Debug)]
#[repr(C)]
pub struct Quantized {
    pub beat: f64,
    pub off: bool,
}

/// Safe calls: `slice` is a column that is read and `list` a list's two, `room` and `rooms` are columns that are written, `lent` a struct that is
/// changed, `value` a number.
macro_rules! calls {
    ($(fn $name:ident($($kind:ident $arg:ident: $type:ty),* $(,)?) -> $answer:ty = $symbol:literal;)*) => {
        $(#[inline(always)]
        #[allow(clippy::too_many_arguments)]
        pub fn $name($($arg: calls!(@taken $kind $type)),*) -> $answer {
            calls!(@declared $symbol [$($kind $arg: $type,)*] [$answer] [] [])
        })*
    };
    (@taken slice $type:ty) => { &[$type] };
    (@taken list $type:ty) => { &Columns<$type> };
    (@taken room $type:ty) => { &mut [$type] };
    (@taken rooms $type:ty) => { &mut Columns<$type> };
    (@taken lent $type:ty) => { &mut $type };
    (@taken value $type:ty) => { $type };
    // the C declaration, its parameters one by one, and the call
    (@declared $symbol:literal [slice $arg:ident: $type:ty, $($rest:tt)*] $answer:tt [$($params:tt)*] [$($given:tt)*]) => {
        calls!(@declared $symbol [$($rest)*] $answer [$($params)* _: *const $type, _: usize,] [$($given)* $arg.as_ptr(), $arg.len(),])
    };
    (@declared $symbol:literal [list $arg:ident: $type:ty, $($rest:tt)*] $answer:tt [$($params:tt)*] [$($given:tt)*]) => {
        calls!(@declared $symbol [$($rest)*] $answer [$($params)* _: *const $type, _: usize, _: *const $type, _: usize,]
            [$($given)* $arg.beats.as_ptr(), $arg.beats.len(), $arg.values.as_ptr(), $arg.values.len(),])
    };
    (@declared $symbol:literal [room $arg:ident: $type:ty, $($rest:tt)*] $answer:tt [$($params:tt)*] [$($given:tt)*]) => {
        calls!(@declared $symbol [$($rest)*] $answer [$($params)* _: *mut $type, _: usize,] [$($given)* $arg.as_mut_ptr(), $arg.len(),])
    };
    (@declared $symbol:literal [rooms $arg:ident: $type:ty, $($rest:tt)*] $answer:tt [$($params:tt)*] [$($given:tt)*]) => {
        calls!(@declared $symbol [$($rest)*] $answer [$($params)* _: *mut $type, _: usize, _: *mut $type, _: usize,]
            [$($given)* $arg.beats.as_mut_ptr(), $arg.beats.len(), $arg.values.as_mut_ptr(), $arg.values.len(),])
    };
    (@declared $symbol:literal [lent $arg:ident: $type:ty, $($rest:tt)*] $answer:tt [$($params:tt)*] [$($given:tt)*]) => {
        calls!(@declared $symbol [$($rest)*] $answer [$($params)* _: *mut $type,] [$($given)* std::ptr::from_mut($arg),])
    };
    (@declared $symbol:literal [value $arg:ident: $type:ty, $($rest:tt)*] $answer:tt [$($params:tt)*] [$($given:tt)*]) => {
        calls!(@declared $symbol [$($rest)*] $answer [$($params)* _: $type,] [$($given)* $arg,])
    };
    (@declared $symbol:literal [] [$answer:ty] [$($params:tt)*] [$($given:tt)*]) => {{
        unsafe extern "C" {
            #[link_name = $symbol]
            fn call($($params)*) -> $answer;
        }
        // SAFETY: every slice is lent whole for the call, and what else crosses is numbers and structs of numbers, of which every pattern is taken.
        unsafe { call($($given)*) }
    }};
}

calls! {
    fn version() -> u32 = "marrighentu_version";
    fn note_row_to_beat(value row: i32) -> f64 = "marrighentu_note_row_to_beat";
    fn beat_to_note_row(value beat: f64) -> i32 = "marrighentu_beat_to_note_row";
    fn quantize(value beat: f64) -> Quantized = "marrighentu_quantize";
    fn compute_timing_segments(
        value format: u32,
        list tempos: f64,
        list stops: f64,
        list delays: f64,
        list warps: f64,
        slice warp_marks: u8,
        slice speed_beats: f64,
        slice speed_ratios: f64,
        slice speed_delays: f64,
        slice speed_units: u8,
        list scrolls: f64,
        list fakes: f64,
        rooms out_tempos: f32,
        rooms out_stops: f32,
        rooms out_delays: f32,
        rooms out_warps: f32,
        room out_warp_marks: u8,
        room out_speed_beats: f32,
        room out_speed_ratios: f32,
        room out_speed_delays: f32,
        room out_speed_units: u8,
        rooms out_scrolls: f32,
        rooms out_fakes: f32,
    ) -> Assembled = "marrighentu_compute_timing_segments";
    fn make_mark(
        list tempos: f32,
        list stops: f32,
        list delays: f32,
        list warps: f32,
        value offset: f64,
        value global: f64,
    ) -> MarkMade = "marrighentu_make_mark";
    fn cursor_new(value offset: f64, value global: f64) -> Numbered = "marrighentu_cursor_new";
    fn time_for_beat_checked_marked(
        lent cursor: Cursor,
        value mark: Mark,
        list tempos: f32,
        list stops: f32,
        list delays: f32,
        list warps: f32,
        value offset: f64,
        value global: f64,
        value beat: f64,
    ) -> Reply = "marrighentu_lent_time_for_beat_checked_marked";
    fn run_marked(
        lent cursor: Cursor,
        value mark: Mark,
        list tempos: f32,
        list stops: f32,
        list delays: f32,
        list warps: f32,
        value offset: f64,
        value global: f64,
        slice beats: f64,
        room numbers: u32,
        room times: f64,
        room counts: usize,
    ) -> u32 = "marrighentu_lent_run_marked";
    fn get_beat_info_from_time_checked(
        list tempos: f32,
        list stops: f32,
        list delays: f32,
        list warps: f32,
        value offset: f64,
        value global: f64,
        value time: f64,
    ) -> BeatInfo = "marrighentu_get_beat_info_from_time_checked";
    fn get_beat_infos_from_times(
        list tempos: f32,
        list stops: f32,
        list delays: f32,
        list warps: f32,
        value offset: f64,
        value global: f64,
        slice times: f64,
        room numbers: u32,
        room beats: f64,
        room freezes: u8,
        room delay_marks: u8,
        room counts: usize,
    ) -> u32 = "marrighentu_get_beat_infos_from_times";
    fn note_sheet(
        list tempos: f32,
        list stops: f32,
        list delays: f32,
        list warps: f32,
        value offset: f64,
        value global: f64,
        list fakes: f32,
        slice rows: i32,
        room times: f64,
        room judged: u8,
        room snaps: u8,
    ) -> Sheet = "marrighentu_note_sheet";
    fn mend_scrolls(list scrolls: f64, rooms out_scrolls: f64, room out_fates: u8) -> Outcome = "marrighentu_mend_scrolls";
    fn mend_speeds(
        slice beats: f64,
        slice ratios: f64,
        slice delays: f64,
        slice units: u8,
        room out_beats: f64,
        room out_ratios: f64,
        room out_delays: f64,
        room out_units: u8,
        room out_fates: u8,
    ) -> Outcome = "marrighentu_mend_speeds";
    fn lay_out_events(
        list tempos: f32,
        list stops: f32,
        list delays: f32,
        list warps: f32,
        room rows: i32,
        room kinds: u8,
        room numbers: f64,
    ) -> Outcome = "marrighentu_lay_out_events";
    fn bench_time_for_beat(
        list tempos: f32,
        list stops: f32,
        list delays: f32,
        list warps: f32,
        value offset: f64,
        value global: f64,
        value beat: f64,
        room rows: i32,
        room kinds: u8,
        room numbers: f64,
    ) -> BenchAnswer = "marrighentu_bench_time_for_beat";
    fn build_segment_row_storage(
        list stops: f32,
        list delays: f32,
        list warps: f32,
        list fakes: f32,
        slice warp_marks: u8,
        room rows: i32,
        room row_marks: u8,
    ) -> Stored = "marrighentu_build_segment_row_storage";
    fn check_lookups(list stops: f32, list delays: f32, list warps: f32, list fakes: f32) -> u32 = "marrighentu_check_lookups";
    fn warped_rows(list warps: f32) -> u64 = "marrighentu_warped_rows";
    fn is_warp_at_row_checked(
        list stops: f32,
        list delays: f32,
        list warps: f32,
        value row: i32,
    ) -> Looked = "marrighentu_is_warp_at_row_checked";
    fn is_warp_at_beat_checked(
        list stops: f32,
        list delays: f32,
        list warps: f32,
        value beat: f64,
    ) -> Looked = "marrighentu_is_warp_at_beat_checked";
    fn is_fake_at_row_checked(list fakes: f32, value row: i32) -> Looked = "marrighentu_is_fake_at_row_checked";
    fn is_fake_at_beat_checked(list fakes: f32, value beat: f64) -> Looked = "marrighentu_is_fake_at_beat_checked";
    fn is_judgable_at_row_checked(
        list stops: f32,
        list delays: f32,
        list warps: f32,
        list fakes: f32,
        value row: i32,
    ) -> Looked = "marrighentu_is_judgable_at_row_checked";
    fn is_judgable_at_beat_checked(
        list stops: f32,
        list delays: f32,
        list warps: f32,
        list fakes: f32,
        value beat: f64,
    ) -> Looked = "marrighentu_is_judgable_at_beat_checked";
    fn judgable_rows(
        list stops: f32,
        list delays: f32,
        list warps: f32,
        list fakes: f32,
        slice rows: i32,
        room out: u8,
    ) -> Outcome = "marrighentu_judgable_rows";
    fn convert_warps_and_delays_to_sm_stops(
        list tempos: f32,
        slice stops: f32,
        list delays: f32,
        list warps: f32,
        room work: f32,
    ) -> Filled = "marrighentu_convert_warps_and_delays_to_sm_stops";
    fn get_displayed_beat(list scrolls: f32, value beat: f64) -> Displayed = "marrighentu_get_displayed_beat";
    fn build_scroll_prefix(list scrolls: f32, room prefix: f64) -> Outcome = "marrighentu_build_scroll_prefix";
    fn get_displayed_beat_checked(
        list scrolls: f32,
        slice prefix: f64,
        value beat: f64,
    ) -> Displayed = "marrighentu_get_displayed_beat_checked";
    fn get_displayed_beats(
        list scrolls: f32,
        slice beats: f64,
        room numbers: u32,
        room positions: f64,
    ) -> Outcome = "marrighentu_get_displayed_beats";
    fn compute_row_to_beat(slice note_data: u8, room beats: f32) -> Outcome = "marrighentu_compute_row_to_beat";
    fn format_bpm_segments(list tempos: f64, room page: u8) -> Outcome = "marrighentu_format_bpm_segments_like_itg";
    fn format_bpm_segments_f32(list tempos: f32, room page: u8) -> Outcome = "marrighentu_format_bpm_segments_f32_like_itg";
}

/// The layout of each struct is that of the C header, where the same figures stand.
const _: () = {
    use std::mem::{align_of, offset_of, size_of};
    assert!(size_of::<usize>() == 8);
    assert!(size_of::<State>() == 56 && align_of::<State>() == 8);
    assert!(offset_of!(State, warps) == 24 && offset_of!(State, row) == 32 && offset_of!(State, warping) == 36);
    assert!(offset_of!(State, time) == 40 && offset_of!(State, end) == 48);
    assert!(size_of::<Cursor>() == 64 && offset_of!(Cursor, asked) == 56);
    assert!(size_of::<Mark>() == 64 && offset_of!(Mark, row) == 56);
    assert!(size_of::<MarkMade>() == 72 && offset_of!(MarkMade, mark) == 8);
    assert!(size_of::<Reply>() == 24 && offset_of!(Reply, time) == 8 && offset_of!(Reply, count) == 16);
    assert!(size_of::<BenchAnswer>() == 32 && offset_of!(BenchAnswer, time) == 8);
    assert!(offset_of!(BenchAnswer, count) == 16 && offset_of!(BenchAnswer, laid) == 24);
    assert!(size_of::<BeatInfo>() == 32 && offset_of!(BeatInfo, beat) == 8 && offset_of!(BeatInfo, is_in_freeze) == 16);
    assert!(offset_of!(BeatInfo, is_in_delay) == 17 && offset_of!(BeatInfo, count) == 24);
    assert!(size_of::<Numbered>() == 72 && offset_of!(Numbered, cursor) == 8);
    assert!(size_of::<Looked>() == 8 && offset_of!(Looked, yes) == 4);
    assert!(size_of::<Outcome>() == 16 && offset_of!(Outcome, count) == 8);
    assert!(size_of::<Displayed>() == 16 && offset_of!(Displayed, beat) == 8);
    assert!(size_of::<Stored>() == 40 && offset_of!(Stored, fakes) == 32);
    assert!(size_of::<Filled>() == 24 && offset_of!(Filled, own) == 16);
    assert!(size_of::<Assembled>() == 96 && offset_of!(Assembled, offset) == 64 && offset_of!(Assembled, moved) == 68);
    assert!(size_of::<Moved>() == 28 && offset_of!(Moved, fakes) == 24);
    assert!(size_of::<Quantized>() == 16 && offset_of!(Quantized, off) == 8);
};
