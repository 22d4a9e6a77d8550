//! What a machine sees of a chart: its tidy lists, the times of beats and notes, and a picture.

mod json;
mod picture;
mod seen;
mod svg;
mod wanted;
mod words;

use marrighentu::Format;
use marrighentu_charts::{ChartFile, ChartText};
use seen::{Question, Seen};
use std::fs;
use std::io::{Read as _, Write as _};
use std::path::Path;
use std::process::ExitCode;
use wanted::{HELP, Wanted};

fn read(wanted: &Wanted) -> Result<ChartFile, String> {
    let mut text = Vec::new();
    if wanted.file == "-" {
        std::io::stdin().read_to_end(&mut text).map_err(|why| format!("standard input: {why}"))?;
    } else {
        text = fs::read(&wanted.file).map_err(|why| format!("{}: {why}", wanted.file))?;
    }
    let name = wanted.file.to_ascii_lowercase();
    let by_name = [(".sm", Format::Sm), (".ssc", Format::Ssc)].into_iter().find(|format| name.ends_with(format.0));
    Ok(match wanted.format.or(by_name.map(|format| format.1)) {
        Some(format) => ChartFile::read_as(format, &text),
        None => ChartFile::read(&text),
    })
}

/// The chart that is asked for; none where the whole file is.
fn chosen<'file>(wanted: &Wanted, file: &'file ChartFile) -> Result<Option<ChartText<'file>>, String> {
    match wanted.chart {
        None if wanted.header => Ok(None),
        None => Ok(file.chart(1)),
        Some(number) => match (file.chart(number), file.charts().len()) {
            (Some(chart), _) => Ok(Some(chart)),
            (None, 0) => Err(format!("{}: the file has no charts", wanted.file)),
            (None, count) => Err(format!("{}: there is no chart {number}, the file has {count}", wanted.file)),
        },
    }
}

fn title(wanted: &Wanted, file: &ChartFile, chart: Option<ChartText<'_>>, seen: &Seen) -> String {
    let name = Path::new(&wanted.file).file_name().map_or("-".into(), |name| name.to_string_lossy());
    let title = if file.title().is_empty() { name.to_string() } else { file.title() };
    let whose = chart.map_or("the whole file".to_string(), |chart| {
        let named = words::named(&chart);
        let timing = if seen.own { "its own timing" } else { "the file's timing" };
        format!("chart {}{}{named}, {timing}", chart.number(), if named.is_empty() { "" } else { ": " })
    });
    format!("{title} ({whose})")
}

fn run(wanted: &Wanted) -> Result<String, String> {
    let file = read(wanted)?;
    let warn = |what: &str| eprintln!("chart-picture: warning: {}:{what}", wanted.file);
    if !wanted.json {
        file.warnings().iter().for_each(|fault| warn(&fault.to_string()));
    }
    if wanted.list {
        return Ok(if wanted.json { json::file(&wanted.file, &file, None).document() } else { words::charts(&file) });
    }
    let chart = chosen(wanted, &file)?;
    let question = Question {
        chart,
        beats: &wanted.beats,
        times: &wanted.times,
        events: wanted.events,
        notes: wanted.notes,
        mend: wanted.mend,
        global: wanted.global,
        pass_over: wanted.pass_over,
    };
    let seen = seen::see(&file, &question).map_err(|why| format!("{}:{why}", wanted.file))?;
    if !wanted.json {
        seen.passed_over.iter().for_each(|fault| warn(&format!("{fault}, passed over")));
    }
    if let Some(path) = &wanted.svg {
        let title = title(wanted, &file, chart, &seen);
        let drawn = picture::draw(&title, &seen, wanted.from, wanted.to)?;
        fs::write(path, drawn).map_err(|why| format!("{path}: {why}"))?;
    }
    Ok(if wanted.json { json::file(&wanted.file, &file, Some(&seen)).document() } else { words::seen(&seen) })
}

fn main() -> ExitCode {
    let words: Result<Vec<String>, _> = std::env::args_os().skip(1).map(|word| word.into_string()).collect();
    let told = match words.map_err(|word| format!("a word is not UTF-8: {word:?}")).and_then(wanted::wanted) {
        Ok(Some(wanted)) => run(&wanted),
        Ok(None) => Ok(format!("{HELP}\n")),
        Err(why) => Err(why),
    };
    match told {
        // a reader that has gone away wants no more
        Ok(text) => {
            let _ = std::io::stdout().write_all(text.as_bytes());
            ExitCode::SUCCESS
        }
        Err(why) => {
            eprintln!("chart-picture: {why}");
            ExitCode::FAILURE
        }
    }
}
