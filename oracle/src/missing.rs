//! What the original calls in files that are not at hand. Whatever could change an answer panics.

fn missing() -> ! {
    panic!("this part of the original is not at hand")
}

pub fn supported_stepstype_lanes_bytes(_: &[u8]) -> Option<usize> {
    missing()
}

pub fn resolve_difficulty_label(_: &str, _: &str, _: &str, _: &str) -> String {
    missing()
}

pub mod parse {
    use super::missing;
    use crate::timing::TimingFormat;
    use std::borrow::Cow;

    pub struct ParsedChartEntry<'a> {
        pub field_count: usize,
        pub fields: [&'a [u8]; 4],
        pub chart_bpms: Option<Cow<'a, [u8]>>,
        pub chart_stops: Option<Cow<'a, [u8]>>,
        pub chart_display_bpm: Option<Cow<'a, [u8]>>,
    }

    pub struct Sections<'a> {
        pub version: Option<&'a [u8]>,
        pub bpms: Option<&'a [u8]>,
        pub stops: Option<&'a [u8]>,
        pub notes_list: Vec<ParsedChartEntry<'a>>,
    }

    pub fn extract_sections<'a>(_: &'a [u8], _: &str) -> Result<Sections<'a>, std::fmt::Error> {
        missing()
    }

    pub fn decode_bytes(_: &[u8]) -> Cow<'_, str> {
        missing()
    }

    pub fn decode_unescape_trim(_: &[u8]) -> Cow<'_, str> {
        missing()
    }

    pub fn parse_float_prefix(_: &str) -> Option<f64> {
        missing()
    }

    /// Of a plain number, which has one reading only, so that the choice between a chart's timing and the file's can be compared.
    pub fn parse_offset_seconds(tag: Option<&[u8]>) -> f64 {
        let text = tag.and_then(|bytes| std::str::from_utf8(bytes).ok());
        text.and_then(|text| text.parse().ok()).unwrap_or_else(|| missing())
    }

    pub fn parse_version(_: Option<&[u8]>, _: TimingFormat) -> f32 {
        missing()
    }
}

pub mod stats {
    use super::missing;

    #[derive(Clone, Copy, PartialEq)]
    pub enum RunDensity {
        Break,
    }

    pub fn categorize_measure_density(_: usize) -> RunDensity {
        missing()
    }

    pub fn chart_last_beat(_: &[u8], _: usize) -> f64 {
        missing()
    }

    /// Only sizes a list that is then read from text, so that the calls that take text can be probed too.
    pub fn count_byte(text: &[u8], wanted: u8) -> usize {
        text.iter().filter(|&&byte| byte == wanted).count()
    }

    pub fn for_each_minimized_row(_: &[u8], _: usize, _: impl FnMut(usize, usize, usize, &[u8])) {
        missing()
    }
}

pub mod nps {
    use super::missing;

    pub fn compute_measure_nps_vec() {
        missing()
    }

    pub fn compute_measure_nps_vec_with_timing() {
        missing()
    }

    pub fn get_nps_stats() {
        missing()
    }

    pub fn get_nps_stats_in_place() {
        missing()
    }

    pub fn get_nps_stats_with_scratch() {
        missing()
    }
}
