//! The reader of .sm and .ssc text beside the original: whole files by chance, lists, offsets, times and rows of notes bit for bit.
//!
//! The original's own splitting of a file into tags is not at hand. So each file is made from tags that are known; the reader finds them in the text,
//! and the original is handed their values.

pub mod case;

use case::{Case, LISTS, OFFSET, Tags, measures};
use marrighentu::{Chart, Format, Refusal, SpeedUnit, Timing, beat_to_note_row};
use marrighentu_charts::ChartFile;
use oracle::assembly::{self, Raw};
use oracle::bpm;
use oracle::random::Random;
use oracle::timing::{self as original, TimingFormat, TimingSegments};

/// What a reader makes of a chart, or of the whole file where `chart` is 0.
pub type Reader = fn(case: &Case, file: &ChartFile, chart: usize) -> (Chart, f64);

/// The reader that is held against the original.
pub fn reader(_: &Case, file: &ChartFile, chart: usize) -> (Chart, f64) {
    let (read, _) = match file.chart(chart) {
        Some(chart) => chart.timing_passing_over(),
        None => file.timing_passing_over(),
    };
    (read.chart().clone(), read.offset())
}

#[derive(Clone, Copy, Debug, Default)]
pub struct Counts {
    pub texts: u64,
    pub timings: u64,
    pub times: u64,
    pub rows: u64,
    /// Timings beyond the limits, which both sides tell by the same number.
    pub refused: u64,
    /// Timings with an entry that was passed over.
    pub passed_over: u64,
    /// Timings of which two tempos lie on one row, in a file order that is not that of their beats.
    pub unsorted: u64,
}

fn text(tag: &Option<String>) -> Option<&[u8]> {
    tag.as_ref().map(|value| value.as_bytes())
}

/// The original's choice between a chart's tags and the file's, and the lists that it makes of them.
fn segments(case: &Case, own: &Tags) -> (TimingSegments, f64, bool) {
    let format = if case.format == Format::Sm { TimingFormat::Sm } else { TimingFormat::Ssc };
    let allowed = original::steps_timing_allowed(case.version, format);
    let song_offset = case.header[OFFSET].as_ref().map_or(0.0, |value| value.trim().parse().unwrap());
    let global = |list: usize| case.header[list].as_deref().unwrap_or("");
    let [bpms, stops, delays, warps, speeds, scrolls, fakes, signatures, labels, ticks, combos, offset] =
        std::array::from_fn(|place| text(&own[place]));
    let chosen = original::resolve_chart_timing(
        allowed,
        song_offset,
        offset,
        bpms,
        stops,
        delays,
        warps,
        speeds,
        scrolls,
        fakes,
        signatures,
        labels,
        ticks,
        combos,
        global(0),
        global(1),
        global(2),
        global(3),
        global(4),
        global(5),
        global(6),
    );
    let mine: [Option<String>; LISTS] = std::array::from_fn(|list| {
        if chosen.chart_has_own_timing { bpm::chart_timing_tag_raw(text(&own[list])) } else { None }
    });
    let lists = original::compute_timing_segments(
        mine[0].as_deref(),
        chosen.global_bpms,
        mine[1].as_deref(),
        chosen.global_stops,
        mine[2].as_deref(),
        chosen.global_delays,
        mine[3].as_deref(),
        chosen.global_warps,
        mine[4].as_deref(),
        chosen.global_speeds,
        mine[5].as_deref(),
        chosen.global_scrolls,
        mine[6].as_deref(),
        chosen.global_fakes,
        format,
        false,
    );
    (lists, chosen.chart_offset_seconds, chosen.chart_has_own_timing)
}

fn bits(list: &[(f32, f32)]) -> Vec<(u32, u32)> {
    list.iter().map(|entry| (entry.0.to_bits(), entry.1.to_bits())).collect()
}

fn raw(chart: &Chart) -> Raw {
    let mut raw = Raw::default();
    let mut lay = |place: usize, list: &[(f64, f64)]| {
        (raw.numbers[place], raw.numbers[place + 1]) = list.iter().copied().unzip();
    };
    lay(assembly::TEMPOS, &chart.tempos);
    lay(assembly::STOPS, &chart.stops);
    lay(assembly::DELAYS, &chart.delays);
    lay(assembly::WARPS, &chart.warps);
    lay(assembly::SCROLLS, &chart.scrolls);
    lay(assembly::FAKES, &chart.fakes);
    for speed in &chart.speeds {
        raw.numbers[assembly::SPEEDS].push(speed.beat);
        raw.numbers[assembly::SPEEDS + 1].push(speed.ratio);
        raw.numbers[assembly::SPEEDS + 2].push(speed.delay);
        raw.units.push(u8::from(speed.unit == SpeedUnit::Seconds));
    }
    raw.marks = vec![0; chart.warps.len()];
    raw
}

/// What differs between a timing and the original's lists and times.
fn differs(
    random: &mut Random,
    timing: &Timing,
    (lists, song_offset): (&TimingSegments, f64),
    global: f64,
    counts: &mut Counts,
) -> Option<String> {
    let pairs = [
        ("tempos", timing.tempos(), &lists.bpms),
        ("stops", timing.stops(), &lists.stops),
        ("delays", timing.delays(), &lists.delays),
        ("warps", timing.warps(), &lists.warps),
        ("scrolls", timing.scrolls(), &lists.scrolls),
        ("fakes", timing.fakes(), &lists.fakes),
    ];
    for (name, read, wanted) in pairs {
        let read: Vec<(f32, f32)> = read.iter().collect();
        if bits(&read) != bits(wanted) {
            return Some(format!("{name}: original {wanted:?}, read {read:?}"));
        }
    }
    let speed =
        |beat: f32, ratio: f32, delay: f32, seconds| (beat.to_bits(), ratio.to_bits(), delay.to_bits(), seconds);
    let read = timing.speeds().iter().map(|s| speed(s.beat, s.ratio, s.delay, s.unit == SpeedUnit::Seconds));
    let wanted = lists.speeds.iter().map(|s| speed(s.0, s.1, s.2, s.3 == original::SpeedUnit::Seconds));
    if read.ne(wanted) {
        return Some(format!("speeds: original {:?}, read {:?}", lists.speeds, timing.speeds()));
    }
    let data = original::timing_data_from_segments(song_offset, global, lists);
    let offset = song_offset + f64::from(lists.beat0_offset_adjust);
    if timing.offset().to_bits() != offset.to_bits() {
        return Some(format!("offset: original {offset}, read {}", timing.offset()));
    }
    let mut beats: Vec<f64> = (0..6).map(|_| random.part() * 50.0 - 4.0).collect();
    let starts = lists.bpms.iter().chain(&lists.stops).chain(&lists.warps).chain(&lists.delays);
    beats.extend(starts.take(20).flat_map(|entry| [f64::from(entry.0), f64::from(entry.0) + 1.0 / 48.0]));
    beats.retain(|beat| beat.abs() <= 65_536.0);
    for (beat, time) in beats.iter().zip(timing.times(&beats)) {
        let wanted = original::get_time_for_beat(&data, *beat);
        let same = time.is_ok_and(|time| time.to_bits() == wanted.to_bits() || time.is_nan() && wanted.is_nan());
        if !same {
            return Some(format!("time of beat {beat}: original {wanted}, read {time:?}"));
        }
        let judged = original::is_judgable_at_beat(&data, *beat);
        if timing.is_judgable_at_beat(*beat) != Ok(judged) {
            return Some(format!("judged at beat {beat}: original {judged}"));
        }
        counts.times += 1;
    }
    None
}

/// One chart of a case, or the whole file: how the reader differs from the original, if it does.
fn compare_chart(
    random: &mut Random,
    case: &Case,
    file: &ChartFile,
    chart: usize,
    reader: Reader,
    counts: &mut Counts,
) -> Option<String> {
    let none = Tags::default();
    let own = if chart == 0 { &none } else { &case.charts[chart - 1].0 };
    let (lists, song_offset, is_own) = segments(case, own);
    if file.chart(chart).is_some_and(|chart| chart.has_own_timing() != is_own) {
        return Some(format!("own timing: original {is_own}"));
    }
    let (read, offset) = reader(case, file, chart);
    if offset.to_bits() != song_offset.to_bits() {
        return Some(format!("song offset: original {song_offset}, read {offset}"));
    }
    let global = [0.0, 0.009, -0.5][random.below(3) as usize];
    counts.timings += 1;
    match Timing::assemble(case.format, &read, offset, global) {
        Ok(timing) => differs(random, &timing, (&lists, song_offset), global, counts),
        Err(refusal) => {
            counts.refused += 1;
            let most = 1_024;
            match assembly::assembled(case.format == Format::Ssc, &raw(&read), most) {
                Err(number) if number == refusal.number() => None,
                other => Some(format!("refused by {refusal}, the rules say {:?}", other.err())),
            }
        }
    }
}

fn compare_notes(case: &Case, file: &ChartFile, chart: usize, counts: &mut Counts) -> Option<String> {
    let written = measures(&case.charts[chart - 1].1);
    let beats = original::compute_row_to_beat(written.as_bytes());
    let wanted: Vec<i32> = beats.iter().map(|beat| original::beat_to_note_row(f64::from(*beat))).collect();
    let read = match file.chart(chart)?.notes() {
        Ok(notes) => notes.iter().map(|note| note.row).collect::<Vec<_>>(),
        Err(fault) => return Some(format!("notes: {fault}")),
    };
    counts.rows += wanted.len() as u64;
    (read != wanted).then(|| format!("rows of notes: original {wanted:?}, read {read:?}"))
}

/// Whether the port refuses with the entry named: what a person is told has to hold of the numbers.
fn compare_refusal(file: &ChartFile, chart: usize) -> Option<String> {
    let (read, _) = match file.chart(chart) {
        Some(chart) => chart.timing_passing_over(),
        None => file.timing_passing_over(),
    };
    let refused = read.assemble(0.0).err()?;
    let by_warps = refused.refusal == Refusal::TooLong && refused.to_string().contains("together");
    (refused.line.is_none() && !by_warps).then(|| format!("no entry is named: {refused}"))
}

fn tempos_fall_on_a_row(case: &Case, chart: usize) -> bool {
    let tags = if chart == 0 { &case.header } else { &case.charts[chart - 1].0 };
    let beats: Vec<f64> = tags[0]
        .iter()
        .flat_map(|list| list.split(','))
        .filter_map(|entry| entry.split('=').next()?.trim().parse::<f32>().ok().map(f64::from))
        .collect();
    beats.windows(2).any(|two| two[1] < two[0] && beat_to_note_row(two[0]) == beat_to_note_row(two[1]))
}

/// Compares so many files, and answers the first few differences, each with its text.
pub fn compare(seed: u64, texts: u64, reader: Reader) -> (Counts, Vec<String>) {
    let mut random = Random::new(seed, "texts");
    let (mut counts, mut shown) = (Counts::default(), Vec::new());
    for _ in 0..texts {
        let case = case::case(&mut random);
        let file = ChartFile::read_as(case.format, case.text.as_bytes());
        counts.texts += 1;
        let mut told = Vec::new();
        if file.charts().len() != case.charts.len() {
            told.push(format!("charts: {} written, {} read", case.charts.len(), file.charts().len()));
        } else {
            for chart in 0..=case.charts.len() {
                told.extend(compare_chart(&mut random, &case, &file, chart, reader, &mut counts));
                told.extend(compare_refusal(&file, chart));
                if chart > 0 {
                    told.extend(compare_notes(&case, &file, chart, &mut counts));
                }
                let passed = match file.chart(chart) {
                    Some(chart) => chart.timing_passing_over().1,
                    None => file.timing_passing_over().1,
                };
                counts.passed_over += u64::from(!passed.is_empty());
                counts.unsorted += u64::from(tempos_fall_on_a_row(&case, chart));
            }
        }
        shown.extend(told.into_iter().map(|what| format!("{what}\n{:?} {:?}", case.format, case.text)));
        if shown.len() >= 3 {
            break;
        }
    }
    (counts, shown)
}
