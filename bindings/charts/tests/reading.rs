//! Whole files: which timing a chart has, what is told, and how long reading takes.

use marrighentu::{Format, Refusal};
use marrighentu_charts::{ChartFile, NoteKind};
use std::time::{Duration, Instant};

fn tempos(text: &str) -> Vec<(f32, f32)> {
    let file = ChartFile::read_as(Format::Ssc, text.as_bytes());
    let read = file.chart(1).map_or_else(|| file.timing(), |chart| chart.timing()).unwrap();
    read.assemble(0.0).unwrap().tempos().iter().collect()
}

#[test]
fn tempos_are_sorted_before_they_are_quantised() {
    assert_eq!(tempos("#BPMS:0=120,1.001=150,1=160;"), [(0.0, 120.0), (1.0, 150.0)]);
}

#[test]
fn any_of_twelve_tags_is_timing_of_its_own() {
    for name in [
        "BPMS",
        "STOPS",
        "DELAYS",
        "WARPS",
        "SPEEDS",
        "SCROLLS",
        "FAKES",
        "TIMESIGNATURES",
        "LABELS",
        "TICKCOUNTS",
        "COMBOS",
        "OFFSET",
    ] {
        let text = format!("#VERSION:0.83;#BPMS:0=200;#NOTEDATA:;#{name}:;#NOTES:;");
        let file = ChartFile::read(text.as_bytes());
        let chart = file.chart(1).unwrap();
        assert!(chart.has_own_timing(), "{name}");
        assert_eq!(tempos(&text), [(0.0, 60.0)], "{name}");
        assert_eq!(tempos(&text.replace("0.83", "0.69")), [(0.0, 200.0)], "{name}");
        assert_eq!(file.warnings().len(), 1, "{name}: {:?}", file.warnings());
    }
    assert_eq!(tempos("#VERSION:0.83;#BPMS:0=200;#NOTEDATA:;#CHARTNAME:x;#NOTES:;"), [(0.0, 200.0)]);
}

#[test]
fn charts_by_number() {
    let text = "#VERSION:0.83;\n#OFFSET:0.5;\n#BPMS:0=100;\n#STOPS:1=1;\n#NOTEDATA:;\n#STEPSTYPE:dance-single;\n#BPMS:0=200;\n#NOTES:;\n#NOTEDATA:;\n#METER:7;\n#NOTEDATA:;\n#OFFSET:;";
    let file = ChartFile::read(text.as_bytes());
    assert_eq!(file.charts().len(), 3);
    let read: Vec<_> = file
        .charts()
        .map(|chart| {
            let timing = chart.timing().unwrap();
            (timing.chart().tempos.clone(), timing.chart().stops.len(), timing.offset(), timing.is_own())
        })
        .collect();
    assert_eq!(read[0], (vec![(0.0, 200.0)], 0, 0.5, true));
    assert_eq!(read[1], (vec![(0.0, 100.0)], 1, 0.5, false));
    assert_eq!(read[2], (vec![], 0, 0.0, true));
    assert_eq!((file.chart(1).unwrap().line(), file.chart(2).unwrap().line()), (5, 9));
    assert_eq!(
        (file.chart(1).unwrap().steps_type(), file.chart(2).unwrap().meter()),
        ("dance-single".into(), "7".into())
    );
    assert!(file.chart(0).is_none() && file.chart(4).is_none());
}

#[test]
fn an_sm_chart_has_six_fields() {
    let text = "#BPMS:0=120;\n#NOTES:\n dance-single:\n K\\:W:\n Hard:\n 9:\n 0,0,0:\n1000\n000M\n,\n0000\n;\n#NOTES:x;\n#STOPS:1=1;";
    let file = ChartFile::read(text.as_bytes());
    let chart = file.chart(1).unwrap();
    assert_eq!(
        (chart.steps_type(), chart.description(), chart.difficulty(), chart.meter()),
        ("dance-single".into(), "K:W".into(), "Hard".into(), "9".into())
    );
    let notes = chart.notes().unwrap();
    assert_eq!(
        notes.iter().map(|note| (note.row, note.lane, note.kind, note.line)).collect::<Vec<_>>(),
        [(0, 0, NoteKind::Tap, 8), (96, 3, NoteKind::Mine, 9)]
    );
    assert_eq!(chart.timing().unwrap().chart().stops, []);
    let told: Vec<String> = file.warnings().iter().map(ToString::to_string).collect();
    assert_eq!(
        told,
        [
            "13:1: chart 2: six fields are wanted, found 1",
            "14:1: this timing tag stands behind a chart and is passed over"
        ]
    );
}

#[test]
fn tags_that_are_not_timing_refuse_nothing() {
    let text = "#TITLE:a\\;b\\#c;\n # loose\n#KEYSOUNDS;\n#VERSION:;\n#ARTIST:\u{1F3B5};\n#BPMS:0=150;";
    let file = ChartFile::read(text.as_bytes());
    assert_eq!((file.title(), file.tag("artist"), file.version()), ("a;b#c".into(), Some("\u{1F3B5}".into()), 0.83));
    assert_eq!(file.timing().unwrap().chart().tempos, [(0.0, 150.0)]);
    let told: Vec<String> = file.warnings().iter().map(ToString::to_string).collect();
    assert_eq!(told, ["2:2: this # begins no tag", "4:1: no version can be read, 0.83 is taken"]);
}

#[test]
fn faults_have_their_place() {
    for (text, place) in [
        ("#BPMS:0=120,\n 4=x;", (2, 4)),
        ("#BPMS:0=120,4;", (1, 13)),
        ("#STOPS:nan=1;", (1, 8)),
        ("#STOPS:1=inf;", (1, 10)),
        ("#STOPS:1=1e39;", (1, 10)),
        ("#SPEEDS:0=1=0=2;", (1, 15)),
        ("#SPEEDS:0=1;", (1, 9)),
        ("#OFFSET:1s;", (1, 9)),
        ("é#BPMS:1=1=1;", (1, 10)),
        ("#STOPS:x;\n#BPMS:y;", (1, 8)),
        ("// ééééé\n#BPMS:1=1, // é\n\t2=é;", (3, 4)),
    ] {
        let fault = ChartFile::read(text.as_bytes()).timing().unwrap_err();
        assert_eq!((fault.place.line, fault.place.column), place, "{text:?}: {fault}");
    }
    let fault = ChartFile::read(b"#BPMS:0=120,1=\xFF1;").timing().unwrap_err();
    assert_eq!(fault.to_string(), "1:15: this tag's value is not UTF-8 from here on");
    let file = ChartFile::read(b"#NOTES:a:b:c:d:e:\n10\n0x;");
    assert_eq!(
        file.chart(1).unwrap().notes().unwrap_err().to_string(),
        "3:2: a note is wanted, one of 0 1 2 3 4 M L F K, found \"x\""
    );
}

#[test]
fn as_many_entries_are_off_the_grid_as_the_timing_counts() {
    let text = "#BPMS:0=120,0.01=130,4.01=0,8.3=-60;\n#STOPS:-0.01=1,2=1,5.001=0,6.01=-1,6.011=2;\n#DELAYS:1.01=1,1.012=1;\n#WARPS:9.01=1,10=0.01;\n#SPEEDS:0.3=1=0=0,16r=2=0=0;\n#SCROLLS:1.5=1,1.55=2,1.6=2;\n#FAKES:3.01=1,3.02=0,0.3333333333=1;";
    for (format, counts) in [(Format::Sm, [2, 3, 2, 1, 1, 2, 1]), (Format::Ssc, [1, 1, 2, 1, 1, 2, 1])] {
        let read = ChartFile::read_as(format, text.as_bytes()).timing().unwrap();
        let (told, counted) = (read.moved(), read.assemble(0.0).unwrap().moved());
        let lists = ["tempo", "stop", "delay", "warp", "speed", "scroll", "fake"];
        assert_eq!(lists.map(|list| told.iter().filter(|entry| entry.list == list).count() as u32), counts);
        let marrighentu::Moved { tempos, stops, delays, warps, speeds, scrolls, fakes } = counted;
        assert_eq!([tempos, stops, delays, warps, speeds, scrolls, fakes], counts);
        assert_eq!(counted.total() as usize, told.len());
    }
}

fn refused(text: &str) -> String {
    ChartFile::read_as(Format::Ssc, text.as_bytes()).timing().unwrap().assemble(0.0).unwrap_err().to_string()
}

#[test]
fn a_refusal_names_the_entry() {
    for (text, said) in [
        ("#STOPS:1=1,2=2\n,\n3=1e-7;", "stop 3, line 3: 1e-7 s is below 2^-20 (refusal 4)"),
        ("#STOPS:1=-1e-7;", "stop 1, line 1: -1e-7 s is below 2^-20 in size (refusal 4)"),
        ("#BPMS:4=2e9,0=120;", "tempo 1, line 1: 2000000000 beats a minute is above 2^30 (refusal 4)"),
        ("\n#DELAYS:70000=1;", "delay 1, line 2: beat 70000 is above 65,536 (refusal 3)"),
        ("#FAKES:0=0,-70000=1;", "fake 2, line 1: beat -70000 is below -65,536 (refusal 3)"),
        ("#WARPS:0=-2e9;", "warp 1, line 1: -2000000000 beats is below -2^30 (refusal 4)"),
        ("#SPEEDS:0=1=2e9=0;", "speed 1, line 1: delay 2000000000 is above 2^30 (refusal 4)"),
        ("#OFFSET:2000000;", "offset, line 1: 2000000 s is above 2^20 (refusal 4)"),
        ("#STOPS:1=1e-7;#FAKES:70000=1;", "fake 1, line 1: beat 70000 is above 65,536 (refusal 3)"),
    ] {
        assert_eq!(refused(text), said);
    }
    let many =
        format!("#BPMS:0=1;\n#SCROLLS:{};", (0..1_030).map(|beat| format!("\n{beat}={beat},")).collect::<String>());
    assert_eq!(refused(&many), "the scrolls from line 3 on: 1030 entries are above 1,024 (refusal 1)");
    let global = ChartFile::read(b"#BPMS:0=1;").timing().unwrap().assemble(f64::NAN).unwrap_err();
    assert_eq!(global.to_string(), "the machine's offset: NaN s is not finite (refusal 4)");
    assert_eq!((global.refusal, global.line), (Refusal::BadValue, None));
    let moved =
        ChartFile::read(b"#OFFSET:1048576;#BPMS:0=1;#STOPS:-1=-5;").timing().unwrap().assemble(0.0).unwrap_err();
    assert_eq!(moved.to_string(), "offset, line 1: 1048576 s with the stops before beat 0 is beyond 2^20 (refusal 4)");
    let warps: String = (0..1_020).map(|beat| format!("{beat}=1,")).collect();
    let stops: String = (0..40).map(|beat| format!("{beat}=-0.1,")).collect();
    let text = format!("#BPMS:0=60;#WARPS:{warps};#STOPS:{stops};");
    let made = ChartFile::read(text.as_bytes()).timing().unwrap().assemble(0.0).unwrap_err();
    assert_eq!(
        made.to_string(),
        "1020 warps and those that tempos and stops make are above 1,024 together (refusal 1)"
    );
}

/// An entry before the first and near the second leaves a list that falls; the next entry then has no place.
#[test]
fn an_entry_without_a_place_is_named() {
    for (name, unit) in [("scroll", ""), ("speed", "=0=0")] {
        let list = ["4=1", "8=2", "\n0=2", "9=5"].map(|entry| entry.to_string() + unit).join(",");
        let text = format!("#BPMS:0=120;\n#{}S:{list};", name.to_uppercase());
        let said =
            format!("{name} 4, line 3: beat 9 has no place, since the {name}s before it are out of order (refusal 6)");
        assert_eq!(refused(&text), said);
    }
}

/// Some tenths of a second each. A walk over the rest of the text for each tag, entry, note or fault would take minutes.
#[test]
fn time_grows_with_the_size_only() {
    const SIZE: usize = 4 << 20;
    let full = |piece: &str, before: &str| before.to_string() + &piece.repeat(SIZE / piece.len());
    for text in [
        full("#A:\n", ""),
        full("#", ""),
        full("#BPMS:\n", ""),
        full("#NOTEDATA:;#LABELS:;\n", "#VERSION:0.83;"),
        full("#NOTES:a:b:c;\n", ""),
        full("x,", "#BPMS:"),
        full("0=1\\,", "#BPMS:"),
        full("4=1,3=2,", "#BPMS:"),
        full("1\n", "#NOTES:a:b:c:d:e:"),
        full("//", "#BPMS:"),
    ] {
        let start = Instant::now();
        let file = ChartFile::read(text.as_bytes());
        let _ = file.timing_passing_over();
        if let Some(chart) = file.chart(1) {
            let _ = chart.timing_passing_over();
            let _ = chart.notes();
        }
        let took = start.elapsed();
        assert!(took < Duration::from_secs(5), "{:?}: {took:?}", &text[..20]);
    }
}

/// Any bytes are read to their end, and what is told of them has a place in them.
#[test]
fn any_bytes_are_read() {
    let pieces: [&[u8]; 34] = [
        b"#",
        b":",
        b";",
        b",",
        b"=",
        b"\\",
        b"\n",
        b"\r",
        b"/",
        b"//",
        b" ",
        b"&",
        b"[",
        b"]",
        b"{",
        b"0",
        b"1",
        b"4",
        b"-",
        b".5",
        b"e9",
        b"r",
        b"M",
        b"\xff",
        b"\xc3",
        "é".as_bytes(),
        b"\x01",
        b"#BPMS:",
        b"#STOPS:",
        b"#SPEEDS:",
        b"#NOTES:",
        b"#NOTEDATA:",
        b"#VERSION:0.8",
        b"#OFFSET:",
    ];
    let mut state = 1u64;
    let mut below = |end: usize| {
        state = state.wrapping_mul(6_364_136_223_846_793_005).wrapping_add(1_442_695_040_888_963_407);
        (state >> 33) as usize % end
    };
    for _ in 0..20_000 {
        let count = below(60);
        let text: Vec<u8> = (0..count).flat_map(|_| pieces[below(pieces.len())]).copied().collect();
        let file = ChartFile::read(&text);
        let mut faults = file.warnings().to_vec();
        faults.extend(file.timing_passing_over().1);
        for chart in file.charts() {
            let (read, passed_over) = chart.timing_passing_over();
            assert_eq!(chart.timing().is_ok(), passed_over.is_empty());
            let _ = read.assemble(0.0);
            faults.extend(passed_over);
            faults.extend(chart.notes().err());
            let _ = (chart.steps_type(), chart.description(), chart.difficulty(), chart.meter(), chart.line());
        }
        let lines: Vec<&[u8]> = text.split(|byte| *byte == b'\n').collect();
        for fault in faults {
            let line = lines[fault.place.line - 1];
            assert!(
                (1..=line.len() + 1).contains(&fault.place.column),
                "{fault} of {:?}",
                String::from_utf8_lossy(&text)
            );
        }
    }
}
