//! All that is read of texts, in lines: by it another reader is held to this one (`bindings/web/tests/reader.test.js`).
//!
//! Standard input has a byte for the format, `s` for .sm, `c` for .ssc, any other for neither, the length in four bytes, the least first, and the text; and so on.
//! Numbers are told by their bits. A line with a full stop ends what is told of a text.

use marrighentu::{Format, SpeedUnit};
use marrighentu_charts::{ChartFile, ChartTiming, Fault};
use std::fmt::Write as _;
use std::io::{self, Read as _, Write as _};

fn bits(numbers: &[f64]) -> String {
    numbers.iter().map(|number| format!("{:016x}", number.to_bits())).collect::<Vec<_>>().join(",")
}

fn list(out: &mut String, name: &str, entries: impl Iterator<Item = String>) {
    let _ = writeln!(out, "{name} {}", entries.collect::<Vec<_>>().join(" "));
}

fn timing(out: &mut String, (read, faults): (ChartTiming, Vec<Fault>)) {
    let chart = read.chart();
    let _ = writeln!(out, "timing own {} offset {}", read.is_own(), bits(&[read.offset()]));
    for (name, pairs) in [
        ("tempos", &chart.tempos),
        ("stops", &chart.stops),
        ("delays", &chart.delays),
        ("warps", &chart.warps),
        ("scrolls", &chart.scrolls),
        ("fakes", &chart.fakes),
    ] {
        list(out, name, pairs.iter().map(|(beat, value)| bits(&[*beat, *value])));
    }
    let unit = |unit: SpeedUnit| if unit == SpeedUnit::Seconds { 1.0 } else { 0.0 };
    let speeds = chart.speeds.iter();
    list(out, "speeds", speeds.map(|speed| bits(&[speed.beat, speed.ratio, speed.delay, unit(speed.unit)])));
    for fault in faults {
        let _ = writeln!(out, "fault {fault}");
    }
    for entry in read.moved() {
        let _ = writeln!(out, "moved {entry}");
    }
    if let Err(refused) = read.assemble(0.0) {
        let _ = writeln!(out, "refused {refused}");
    }
}

fn told(format: u8, text: &[u8]) -> String {
    let file = match format {
        b's' => ChartFile::read_as(Format::Sm, text),
        b'c' => ChartFile::read_as(Format::Ssc, text),
        _ => ChartFile::read(text),
    };
    let mut out = String::new();
    let _ = writeln!(out, "{} {:?} {:?}", bits(&[f64::from(file.version())]), file.format(), file.title());
    for warning in file.warnings() {
        let _ = writeln!(out, "warning {warning}");
    }
    timing(&mut out, file.timing_passing_over());
    for chart in file.charts() {
        let said = [chart.steps_type(), chart.description(), chart.difficulty(), chart.meter()];
        let _ = writeln!(out, "chart {} line {} {said:?}", chart.number(), chart.line());
        timing(&mut out, chart.timing_passing_over());
        match chart.notes() {
            Ok(notes) => list(
                &mut out,
                "notes",
                notes.iter().map(|note| format!("{},{},{},{}", note.row, note.lane, note.kind.letter(), note.line)),
            ),
            Err(fault) => {
                let _ = writeln!(out, "no notes {fault}");
            }
        }
    }
    out + ".\n"
}

fn main() -> io::Result<()> {
    let mut input = Vec::new();
    io::stdin().read_to_end(&mut input)?;
    let mut rest = &input[..];
    let mut out = io::stdout().lock();
    while let [format, a, b, c, d, behind @ ..] = rest {
        let length = u32::from_le_bytes([*a, *b, *c, *d]) as usize;
        out.write_all(told(*format, &behind[..length]).as_bytes())?;
        rest = &behind[length..];
    }
    Ok(())
}
