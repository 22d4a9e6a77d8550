//! Which entry a refusal is about.

use crate::lists::{ChartTiming, Written};
use marrighentu::{Chart, Format, Refusal, Timing};
use std::error::Error;
use std::fmt;

/// Why a timing was refused: the list, the entry, its line in the file, the number and its limit.
///
/// ```
/// use marrighentu::Refusal;
/// use marrighentu_charts::ChartFile;
///
/// let refused = ChartFile::read(b"#BPMS:0=120;\n#DELAYS:70000=1;").timing()?.assemble(0.0).unwrap_err();
/// assert_eq!((refused.refusal, refused.line), (Refusal::BadBeat, Some(2)));
/// assert_eq!(refused.to_string(), "delay 1, line 2: beat 70000 is above 65,536 (refusal 3)");
/// # Ok::<(), marrighentu_charts::Fault>(())
/// ```
#[derive(Clone, Debug, PartialEq, Eq)]
pub struct Refused {
    /// The port's reason.
    pub refusal: Refusal,
    /// The line of the entry or tag that it is about, where it is about one.
    pub line: Option<usize>,
    what: String,
}

impl fmt::Display for Refused {
    fn fmt(&self, f: &mut fmt::Formatter<'_>) -> fmt::Result {
        write!(f, "{} (refusal {})", self.what, self.refusal.number())
    }
}

impl Error for Refused {}

/// A limit by its number and by how people write it.
#[derive(Clone, Copy)]
struct Limit {
    number: f64,
    written: &'static str,
}

const MOST_ENTRIES: usize = 1_024;
const MOST_BEATS: Limit = Limit { number: 65_536.0, written: "65,536" };
const LEAST: Limit = Limit { number: 1.0 / 1_048_576.0, written: "2^-20" };
const MOST: Limit = Limit { number: 1_073_741_824.0, written: "2^30" };
const MOST_OFFSET: Limit = Limit { number: 1_048_576.0, written: "2^20" };

/// One list with its name, and for each entry the beat and the values by name and unit.
pub(crate) struct Listed<'a> {
    pub name: &'static str,
    plural: &'static str,
    pub written: &'a [Written],
    pub beats: Vec<f64>,
    /// A name before the number, the numbers and a unit behind them.
    pub values: Vec<(&'static str, Vec<f64>, &'static str)>,
    /// Tempos and stops: a number that is not 0 has a least size, and one that is not finite is dropped.
    pub raw: bool,
}

pub(crate) fn listed(read: &ChartTiming) -> [Listed<'_>; 7] {
    let chart = &read.chart;
    let pairs = |place: usize, name, plural, list: &[(f64, f64)], unit, raw| Listed {
        name,
        plural,
        written: &read.written[place],
        beats: list.iter().map(|entry| entry.0).collect(),
        values: vec![("", list.iter().map(|entry| entry.1).collect(), unit)],
        raw,
    };
    [
        pairs(0, "tempo", "tempos", &chart.tempos, " beats a minute", true),
        pairs(1, "stop", "stops", &chart.stops, " s", true),
        pairs(2, "delay", "delays", &chart.delays, " s", false),
        pairs(3, "warp", "warps", &chart.warps, " beats", false),
        Listed {
            name: "speed",
            plural: "speeds",
            written: &read.written[4],
            beats: chart.speeds.iter().map(|speed| speed.beat).collect(),
            values: vec![
                ("ratio ", chart.speeds.iter().map(|speed| speed.ratio).collect(), ""),
                ("delay ", chart.speeds.iter().map(|speed| speed.delay).collect(), ""),
            ],
            raw: false,
        },
        pairs(5, "scroll", "scrolls", &chart.scrolls, "", false),
        pairs(6, "fake", "fakes", &chart.fakes, " beats", false),
    ]
}

/// A number that went through f32, in few digits.
pub(crate) fn shown(number: f64) -> String {
    let number = number as f32;
    if number == 0.0 || (1e-5..1e16).contains(&number.abs()) { format!("{number}") } else { format!("{number:?}") }
}

/// How a number breaks a limit: none where it does not.
fn above(number: f64, limit: Limit) -> Option<String> {
    if !number.is_finite() {
        Some("is not finite".into())
    } else if number > limit.number {
        Some(format!("is above {}", limit.written))
    } else if number < -limit.number {
        Some(format!("is below -{}", limit.written))
    } else {
        None
    }
}

fn below(number: f64, limit: Limit) -> Option<String> {
    let size = if number < 0.0 { " in size" } else { "" };
    (number != 0.0 && number.abs() < limit.number).then(|| format!("is below {}{size}", limit.written))
}

impl Listed<'_> {
    fn entry(&self, place: usize) -> String {
        let written = self.written[place];
        format!("{} {}, line {}", self.name, written.number, written.line)
    }

    fn bad_beat(&self) -> Option<(usize, String)> {
        self.beats.iter().enumerate().find_map(|(place, beat)| {
            let why = above(*beat, MOST_BEATS)?;
            Some((place, format!("{}: beat {} {why}", self.entry(place), shown(*beat))))
        })
    }

    fn bad_value(&self) -> Option<(usize, String)> {
        (0..self.beats.len()).find_map(|place| {
            self.values.iter().find_map(|(name, numbers, unit)| {
                let number = numbers[place];
                let why = if !self.raw {
                    above(number, MOST)
                } else if number.is_finite() {
                    above(number, MOST).or_else(|| below(number, LEAST))
                } else {
                    None
                }?;
                Some((place, format!("{}: {name}{}{unit} {why}", self.entry(place), shown(number))))
            })
        })
    }
}

/// The first entry of a list that can't be placed, where the port refuses the list alone.
fn falling(listed: &Listed<'_>, front: impl Fn(usize) -> Chart) -> Option<(usize, String)> {
    let falls = |count: usize| Timing::assemble(Format::Ssc, &front(count), 0.0, 0.0) == Err(Refusal::Falls);
    let count = listed.beats.len();
    if !falls(count) {
        return None;
    }
    let counts: Vec<usize> = (1..=count).collect();
    let place = counts.partition_point(|count| !falls(*count));
    let beat = shown(listed.beats[place]);
    let what = format!(
        "{}: beat {beat} has no place, since the {} before it are out of order",
        listed.entry(place),
        listed.plural
    );
    Some((place, what))
}

/// Whether an offset breaks its limit, and how it is said.
fn bad_offset(read: &ChartTiming, global_offset: f64) -> (Option<usize>, String) {
    let named = read.offset_line.map_or("offset".to_string(), |line| format!("offset, line {line}"));
    if let Some(why) = above(read.offset, MOST_OFFSET) {
        (read.offset_line, format!("{named}: {} s {why}", read.offset))
    } else if let Some(why) = above(global_offset, MOST_OFFSET) {
        (None, format!("the machine's offset: {global_offset} s {why}"))
    } else {
        (read.offset_line, format!("{named}: {} s with the stops before beat 0 is beyond 2^20", read.offset))
    }
}

/// The first of the lists in which an entry is found, as its line and what is said of it.
fn first<'a>(
    lists: &[Listed<'a>],
    find: impl Fn(&Listed<'a>) -> Option<(usize, String)>,
) -> Option<(Option<usize>, String)> {
    lists.iter().find_map(|list| find(list).map(|(place, what)| (Some(list.written[place].line), what)))
}

fn too_long(list: &Listed<'_>) -> Option<(usize, String)> {
    let count = list.beats.len();
    let (place, written) = list.written.iter().enumerate().min_by_key(|(_, written)| written.line)?;
    (count > MOST_ENTRIES)
        .then(|| (place, format!("the {} from line {} on: {count} entries are above 1,024", list.plural, written.line)))
}

pub(crate) fn explained(read: &ChartTiming, global_offset: f64, refusal: Refusal) -> Refused {
    let (lists, chart) = (listed(read), &read.chart);
    let found = match refusal {
        Refusal::TooLong => first(&lists, too_long).or_else(|| {
            let given = chart.warps.len();
            Some((None, format!("{given} warps and those that tempos and stops make are above 1,024 together")))
        }),
        Refusal::BadBeat => first(&lists, |list| list.bad_beat()),
        Refusal::BadValue => first(&lists, |list| list.bad_value()).or_else(|| Some(bad_offset(read, global_offset))),
        Refusal::Falls => first(&lists, |list| match list.name {
            "speed" => falling(list, |count| Chart { speeds: chart.speeds[..count].to_vec(), ..Chart::default() }),
            "scroll" => falling(list, |count| Chart { scrolls: chart.scrolls[..count].to_vec(), ..Chart::default() }),
            _ => None,
        }),
        _ => None,
    };
    let said = || {
        let whole = refusal.to_string();
        whole.strip_suffix(&format!(" (refusal {})", refusal.number())).unwrap_or(&whole).to_string()
    };
    let (line, what) = found.unwrap_or_else(|| (None, said()));
    Refused { refusal, line, what }
}
