// Probes into timing.rs: a line each, `fn NAME(ARGUMENTS) -> ANSWER;` as the original has it.

crate::probes! { super =>
    fn note_row_to_beat(row: i32) -> f64;
    fn note_row_to_beat_f32(row: i32) -> f32;
    fn beat_to_note_row(beat: f64) -> i32;
    fn beat_to_note_row_f32(beat: f32) -> i32;
    fn quantize_beat(beat: f64) -> f64;
    fn quantize_beat_f32(beat: f32) -> f32;
    fn tidy_row_segments(segments: Vec<super::Segment>) -> Vec<super::Segment>;
    fn tidy_scroll_segments(segments: Vec<super::Segment>) -> Vec<super::Segment>;
    fn add_scroll_segment_slow(out: &mut Vec<super::Segment>, seg: super::Segment);
    fn tidy_speed_segments(segments: Vec<super::SpeedSegment>) -> Vec<super::SpeedSegment>;
    fn add_speed_segment_slow(out: &mut Vec<super::SpeedSegment>, seg: super::SpeedSegment);
    fn tidy_bpms(bpms: Vec<(f64, f64)>) -> Vec<(f64, f64)>;
    fn process_bpms_and_stops_ssc(bpms: Vec<(f64, f64)>, stops: Vec<super::Segment>) -> super::BpmStopResult;
    fn process_bpms_and_stops_sm(bpms: &[(f64, f64)], stops: &[super::Segment]) -> super::BpmStopResult;
}

crate::probes! { super =>
    fn build_segment_row_storage(stops: &[super::Segment], delays: &[super::Segment], warps: &[super::Segment], fakes: &[super::Segment]) -> (Vec<i32>, [usize; 5]);
    fn is_warp_at_row(t: &super::TimingData, row: i32) -> bool;
    fn is_warp_at_beat(t: &super::TimingData, beat: f64) -> bool;
    fn is_fake_at_row(t: &super::TimingData, row: i32) -> bool;
    fn is_fake_at_beat(t: &super::TimingData, beat: f64) -> bool;
    fn is_judgable_at_row(t: &super::TimingData, row: i32) -> bool;
    fn is_judgable_at_beat(t: &super::TimingData, beat: f64) -> bool;
}

/// A timing that has the lists of the lookups, and their rows as the original stores them.
pub fn timing_of(stops: &[super::Segment], delays: &[super::Segment], warps: &[super::Segment], fakes: &[super::Segment]) -> super::TimingData {
    let (segment_rows, segment_row_offsets) = super::build_segment_row_storage(stops, delays, warps, fakes);
    let mut segments = Vec::new();
    let mut segment_offsets = [0; 5];
    for (place, list) in [stops, delays, warps, fakes].into_iter().enumerate() {
        segments.extend_from_slice(list);
        segment_offsets[place + 1] = segments.len();
    }
    super::TimingData {
        beat_to_time: Vec::new(),
        segments,
        segment_offsets,
        speeds: Vec::new(),
        scrolls: Vec::new(),
        segment_rows,
        segment_row_offsets,
        speed_runtime: Vec::new(),
        scroll_prefix: Vec::new(),
        beat0_offset_sec: 0.0,
        global_offset_sec: 0.0,
        max_bpm: 0.0,
    }
}

/// The original's cursor over many rows: 1 for a judgable one.
pub fn judgable_rows(timing: &super::TimingData, rows: &[i32], out: &mut [u8]) {
    let mut cursor = super::JudgableRowCursor::new(timing);
    for (row, out) in rows.iter().zip(out) {
        *out = u8::from(cursor.is_judgable(*row));
    }
}

/// A timing that has the lists of the clock. One without a tempo is given the tempo that the original's assembly gives it.
pub fn clock_timing(tempos: &[super::Segment], lists: [&[super::Segment]; 3], offset: f64, global: f64) -> super::TimingData {
    let [stops, delays, warps] = lists;
    let mut timing = timing_of(stops, delays, warps, &[]);
    timing.beat_to_time = tempos.iter().map(|tempo| super::BeatTimePoint { beat: tempo.beat, bpm: tempo.value }).collect();
    if timing.beat_to_time.is_empty() {
        timing.beat_to_time.push(super::BeatTimePoint { beat: 0.0, bpm: super::DEFAULT_BPM });
    }
    timing.beat0_offset_sec = offset;
    timing.global_offset_sec = global;
    timing
}

/// What a cursor of the original holds: the places in tempos, stops, delays and warps, the last row and time, the warp's end, whether it
/// is warping, and the row asked last.
#[derive(Clone, Copy, Debug)]
pub struct Held {
    pub places: [usize; 4],
    pub row: i32,
    pub time: f64,
    pub end: f64,
    pub warping: bool,
    pub asked: i32,
}

/// The original's cursor.
pub struct BeatCursor<'a>(super::BeatTimeCursor<'a>);

impl<'a> BeatCursor<'a> {
    pub fn new(timing: &'a super::TimingData) -> Self {
        Self(super::BeatTimeCursor::new(timing))
    }

    #[inline(always)]
    pub fn time_for_beat(&mut self, beat: f64) -> f64 {
        self.0.time_for_beat(beat)
    }

    pub fn hold(&mut self, held: Held) {
        let [bpm_idx, stop_idx, delay_idx, warp_idx] = held.places;
        self.0.state = super::GetBeatState {
            bpm_idx,
            stop_idx,
            delay_idx,
            warp_idx,
            last_row: held.row,
            last_time: held.time,
            warp_destination: held.end,
            is_warping: held.warping,
        };
        self.0.last_target_row = held.asked;
    }

    pub fn held(&self) -> Held {
        let state = self.0.state;
        Held {
            places: [state.bpm_idx, state.stop_idx, state.delay_idx, state.warp_idx],
            row: state.last_row,
            time: state.last_time,
            end: state.warp_destination,
            warping: state.is_warping,
            asked: self.0.last_target_row,
        }
    }
}

/// A timing that has a scroll list and nothing else, with the prefix that the original makes of it.
pub fn scrolled_timing(scrolls: Vec<super::Segment>) -> super::TimingData {
    super::timing_data_build(0.0, 0.0, Vec::new(), Vec::new(), [0; 5], Vec::new(), [0; 5], Vec::new(), scrolls)
}

/// How far the display has moved at each scroll.
pub fn scroll_prefix(timing: &super::TimingData) -> Vec<f64> {
    timing.scroll_prefix.iter().map(|entry| entry.cum_displayed).collect()
}
