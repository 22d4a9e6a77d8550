//! The command over stored charts, and over texts that it refuses.

mod common;

use common::{Json, assert_well_formed, refused, run, said, scratch, texts, written};
use std::fs;
use std::io::Write;
use std::path::PathBuf;
use std::process::{Command, Stdio};

#[test]
fn lists_times_and_a_picture() {
    let svg = scratch("example.svg");
    let done = run(&["example.ssc", "--beats", "4,5,17,24.5,30", "--svg", svg.to_str().unwrap()]);
    assert!(done.status.success(), "{}", String::from_utf8_lossy(&done.stderr));
    let expected = fs::read_to_string(PathBuf::from(env!("CARGO_MANIFEST_DIR")).join("tests/example.txt")).unwrap();
    assert_eq!(String::from_utf8(done.stdout).unwrap(), expected);
    let picture = fs::read_to_string(svg).unwrap();
    assert!(picture.starts_with("<svg ") && picture.ends_with("</svg>\n"));
    for what in [
        "warp at beat 16 for 2 beats",
        "fake at beat 24 for 1 beats",
        "stop at beat 4: 1 seconds",
        "delay at beat 8: 0.5 seconds",
        "tempo at beat 20: 180",
    ] {
        assert!(picture.contains(what), "{what} is not in the picture");
    }
    for asked in ["beat 4: 2.25 s", "beat 5: 3.75 s", "beat 17: 11.75 s, not judged", "beat 30: 17.083 s"] {
        assert!(texts(&picture).iter().any(|shown| shown.text == asked), "{asked} is not in the picture");
    }
    // the asked beats, where the two speeds are reached, and the scroll from which beats are drawn
    assert_eq!(picture.matches("<circle").count(), 5 + 2 + 1);
    assert!(picture.contains("beat 0 is drawn at 0; 1 times as far apart from there on"));
}

#[test]
fn where_beats_are_drawn() {
    let chart = |scrolls: &str| format!("#VERSION:0.83;#BPMS:0=120;#SCROLLS:{scrolls};");
    let twice = written("drawn-twice.ssc", &chart("4=2"));
    let lines = said(&[&twice, "--header", "--beats", "3,6"]);
    assert!(
        lines.ends_with(
            "at      beat 3 row 144 1.5 s, judged, drawn at 3\nat      beat 6 row 288 3 s, judged, drawn at 8\n"
        ),
        "{lines}"
    );
    let json = said(&[&twice, "--header", "--beats", "6", "--json"]);
    assert!(json.contains("\"displayed\": 8"), "{json}");
    // an old chart's scrolls fall: nothing is said of asked beats, and the picture says why
    let svg = scratch("drawn-fallen.svg");
    let fallen = written("drawn-fallen.ssc", &chart("4=1,8=2,0=2"));
    let lines = said(&[&fallen, "--header", "--beats", "6", "--svg", svg.to_str().unwrap()]);
    assert!(lines.ends_with("at      beat 6 row 288 3 s, judged\n"), "{lines}");
    let picture = fs::read_to_string(svg).unwrap();
    assert!(picture.contains("no note can be drawn by these scrolls") && picture.contains("(refusal 5)"));
}

#[test]
fn entries_off_the_grid_are_told() {
    let text = "#BPMS:0=120,\n8.01=60,\n4.002=90;\n#STOPS:-0.01=1,3.01=0,\n12.5=1;\n#DELAYS:0.333333=1,16.02=1,16=2;\n#FAKES:24.000001=0.01;";
    let file = written("moved.sm", text);
    let told = said(&[&file, "--header"]);
    let moved: Vec<&str> = told.lines().filter(|line| line.starts_with("moved")).collect();
    // a stop of no seconds is left out, thirds of a beat and what narrows to a row are on the grid, and of lengths nothing is said
    assert_eq!(
        moved,
        [
            "moved   tempo 2, line 2: beat 8.01 is off the grid, moved by -0.01 to beat 8",
            "moved   tempo 3, line 3: beat 4.002 is off the grid, moved by -0.002 to beat 4",
            "moved   stop 1, line 4: beat -0.01 is off the grid, moved by 0.01 to beat 0",
            "moved   delay 1, line 6: beat 0.333333 is off the grid, moved by 0.000000358 to beat 0.33333334",
            "moved   delay 2, line 6: beat 16.02 is off the grid, moved by 0.000834 to beat 16.020834",
            "moved   fake 1, line 7: beat 24.000002 is off the grid, moved by -0.00000191 to beat 24",
        ]
    );
    let json = Json::read(&said(&[&file, "--header", "--json"]));
    let told: Vec<(&str, f64, f64, f64, f64)> = json
        .field("moved")
        .list()
        .iter()
        .map(|entry| {
            let number = |name| entry.field(name).number();
            (entry.field("list").text(), number("entry"), number("line"), number("beat"), number("to"))
        })
        .collect();
    assert_eq!(told.len(), moved.len());
    assert_eq!(told[2], ("stop", 1.0, 4.0, -0.01, 0.0));
    assert_eq!(json.field("moved").list()[0].field("by").number(), 8.0 - f64::from(8.01_f32));
    assert!(!said(&["example.ssc"]).contains("moved"));
    assert!(Json::read(&said(&["example.ssc", "--json"])).field("moved").list().is_empty());
}

#[test]
fn lists_out_of_order_are_mended() {
    let speeds = "8=2=0.5=0,4=2=0.5=0,0=1=0=1";
    let text = format!("#VERSION:0.83;#BPMS:0=120;#SCROLLS:4=1,8=2,0=2,0=3,12=2;#SPEEDS:{speeds};");
    let fallen = written("mended.ssc", &text);
    let plain = run(&[&fallen, "--header"]);
    assert!(!plain.status.success() || !String::from_utf8_lossy(&plain.stdout).contains("mended"));
    let lines = said(&[&fallen, "--header", "--mend", "--beats", "6"]);
    let told = "\
mended  scroll beat 4 1 times: kept
mended  scroll beat 8 2 times: kept
mended  scroll beat 0 2 times: replaced, a later entry is on its row
mended  scroll beat 0 3 times: kept
mended  scroll beat 12 2 times: merged, it is as the one kept before it
mended  speed beat 8 ratio 2 over 0.5 beats: merged, it is as the one kept before it
mended  speed beat 4 ratio 2 over 0.5 beats: kept
mended  speed beat 0 ratio 1 over 0 s: kept
";
    assert!(lines.starts_with(told), "{lines}");
    assert!(lines.ends_with("at      beat 6 row 288 3 s, judged, drawn at 14\n"), "{lines}");
    let json = said(&[&fallen, "--header", "--mend", "--json"]);
    assert!(json.contains("{\"beat\": 0, \"times\": 2, \"fate\": \"replaced\"}"), "{json}");
    assert!(json.contains("\"unit\": \"beats\", \"fate\": \"merged\"}"), "{json}");
    // what no mending takes is told as without it
    let far = written("mended-far.ssc", "#VERSION:0.83;#BPMS:0=120;#SCROLLS:4=1,70000=2;");
    let done = run(&[&far, "--header", "--mend"]);
    assert!(!done.status.success() && String::from_utf8_lossy(&done.stderr).contains("scroll 2, line 1"));
}

#[test]
fn the_whole_file() {
    let done = run(&["example.ssc", "--header", "--beats", "1"]);
    assert_eq!(
        String::from_utf8(done.stdout).unwrap(),
        "offset  -0.1 s\ntempo   beat 0 100 beats a minute\nbpms    0.000000=100.000000\nat      beat 1 row 48 0.7 s, judged\n"
    );
}

/// As many entries as lists may have, some of them huge.
fn full(name: &str) -> String {
    let list = |values: [&str; 3]| -> String {
        (0..1_024).map(|place| format!("{}={},", place as f64 * 0.75, values[(place + place / 2) % 3])).collect()
    };
    let text = format!(
        "#VERSION:0.83;#BPMS:{};#STOPS:{};#DELAYS:{};#WARPS:{};#FAKES:{};#SCROLLS:{};#SPEEDS:{};",
        list(["150", "151.5", "1000000000"]),
        list(["0.1", "100000000", "0.002"]),
        list(["0.0001", "0.25", "1"]),
        list(["0.25", "-0.5", "0"]),
        list(["0.25", "0.5", "0.021"]),
        list(["1", "-2.5", "100000"]),
        list(["1=0=0", "2.5=0.5=1", "0.25=2=0"]),
    );
    written(name, &text)
}

/// Charts of three sizes: few events, some dozens, and more than three hundred tempos; parts of them; and lists at their limit.
fn pictures(of: &str) -> Vec<(String, String)> {
    let full = full(&format!("{of}-full.ssc"));
    [
        &["example.ssc", "--beats", "4,5,17,24.5,30"][..],
        &["dozens.ssc", "--chart", "2", "--beats", "31.75,64,96,121,150,170"],
        &["many.sm", "--beats", "100,126,250,400"],
        &["many.sm", "--from", "120", "--to", "136", "--beats", "124,126,126.5,127,128,129,130"],
        &["dozens.ssc", "--chart", "2", "--from", "94.5", "--to", "99.25"],
        &[&full, "--beats", "0,1,2,3,4,5,6,7,8,100,101,102,400,500"],
        &[&full, "--from", "-65536", "--to", "65536"],
    ]
    .iter()
    .enumerate()
    .map(|(place, words)| {
        let svg = scratch(&format!("{of}-{place}.svg"));
        let mut all = words.to_vec();
        all.extend(["--svg", svg.to_str().unwrap()]);
        said(&all);
        (words.join(" "), fs::read_to_string(svg).unwrap())
    })
    .collect()
}

#[test]
fn words_of_a_picture_never_overlap() {
    for (name, picture) in pictures("words") {
        assert_well_formed(&picture);
        let texts = texts(&picture);
        assert!(texts.len() > 20, "{name}");
        for (place, one) in texts.iter().enumerate() {
            assert!(one.left >= 0.0 && one.right <= 1280.0 && one.top >= 0.0, "{name}: {one:?}");
            for other in &texts[..place] {
                let apart = one.right <= other.left
                    || other.right <= one.left
                    || one.bottom <= other.top
                    || other.bottom <= one.top;
                assert!(apart, "{name}: {one:?} over {other:?}");
            }
        }
    }
}

#[test]
fn pictures_have_what_they_are_for() {
    let all = pictures("all");
    let has = |place: usize, what: &str| assert!(all[place].1.contains(what), "{}: no {what}", all[place].0);
    // measures every four beats, a warp of negative length as what it is, scrolls and speeds
    has(0, ">measure</text>");
    has(
        1,
        "warp at beat 150 for -2 beats: a negative length, the clock goes back to beat 148 and counts from there again",
    );
    has(1, ">-2 back</text>");
    has(1, ">1.5 over 1.5 s</text>");
    has(1, "scroll at beat 92: -1 times");
    // and where they draw the beats
    has(1, ">drawn at beat</text>");
    has(1, "; -1 times as far apart from there on");
    // values that can be read among more than three hundred tempos
    has(2, "338 tempos, 42 stops, 3 made warps");
    // made warps apart from written ones, of which the other charts have some
    has(2, ">made warp</text>");
    has(2, " beats, made of a tempo or a stop</title>");
    assert!(!all[1].1.contains("made warp") && all[1].1.contains(">warp</text>"));
    let values =
        texts(&all[2].1).iter().filter(|shown| shown.text.parse::<f64>().is_ok_and(|value| value > 60.0)).count();
    assert!(values > 30, "{values}");
    // all 338 can be pointed at
    assert_eq!(all[2].1.matches("<title>tempo at beat ").count(), 338);
    has(3, "beats 120 to 136, 50.096 to 56.969 s");
    has(4, "beats 94.5 to 99.25");
}

#[test]
fn charts_are_listed_and_chosen() {
    assert_eq!(
        said(&["dozens.ssc", "--list"]),
        "chart   1 dance-single Easy 4, plain, line 8, the file's timing\nchart   2 dance-single Challenge 13, stops, warps & \"speeds\", line 26, its own timing\n"
    );
    assert!(said(&["dozens.ssc"]).starts_with("offset  0.012 s\ntempo   beat 0 140 beats a minute\n"));
    assert!(said(&["dozens.ssc", "--chart", "2"]).starts_with("offset  -0.25 s\n"));
    assert!(refused(&["dozens.ssc", "--chart", "3"]).contains("there is no chart 3, the file has 2"));
    assert!(refused(&[&written("none.sm", "#BPMS:0=1;"), "--chart", "1"]).contains("the file has no charts"));
    assert_eq!(said(&[&written("none.sm", "#BPMS:0=1;"), "--list"]), "no charts\n");
}

#[test]
fn notes_have_their_times() {
    let told = said(&["dozens.ssc", "--chart", "1", "--notes"]);
    let notes: Vec<&str> = told.lines().filter(|line| line.starts_with("note")).collect();
    assert_eq!(notes.len(), 7);
    assert_eq!(notes[0], "note    beat 0 row 0 -0.012 s, 4th, judged, 1000");
    assert!(
        notes[1].starts_with("note    beat 1 row 48 0.4165714285714") && notes[1].ends_with(" s, 4th, judged, 0100")
    );
    assert!(notes[6].starts_with("note    beat 7 row 336 ") && notes[6].ends_with(", 000M"));
    let warped = written("warped.ssc", "#VERSION:0.83;#BPMS:0=60;#WARPS:1=2;#NOTEDATA:;#NOTES:\n1\n1\n1\n1;");
    let told = said(&[&warped, "--notes"]);
    let notes: Vec<&str> = told.lines().filter(|line| line.starts_with("note")).collect();
    assert_eq!(
        notes,
        [
            "note    beat 0 row 0 0 s, 4th, judged, 1",
            "note    beat 1 row 48 1 s, 4th, not judged, 1",
            "note    beat 2 row 96 1 s, 4th, not judged, 1",
            "note    beat 3 row 144 1 s, 4th, judged, 1"
        ]
    );
    let bad = written("bad-notes.sm", "#BPMS:0=60;\n#NOTES:a:b:c:d:e:\n1\nx;");
    assert!(said(&[&bad]).contains("tempo"));
    assert!(refused(&[&bad, "--notes"]).contains("bad-notes.sm:4:1: a note is wanted"));
    let far = written("far-notes.sm", &format!("#BPMS:0=60;\n#NOTES:a:b:c:d:e:\n{}1;", ",".repeat(16_385)));
    assert!(refused(&[&far, "--notes"]).contains("note, line 3: row 3145920 is above 3,145,728 (refusal 3)"));
}

#[test]
fn events_are_told_in_the_order_in_which_they_fall() {
    let lists = "#VERSION:0.83;#BPMS:0=120,6=174.3;#STOPS:5=1;#DELAYS:6=0.1;#WARPS:4=2,8=-1;";
    let file = written("events.ssc", lists);
    let told = said(&[&file, "--header", "--events", "--beats", "9"]);
    let events: Vec<&str> = told.lines().filter(|line| line.starts_with("event")).collect();
    assert_eq!(
        events,
        [
            "event   beat 0 row 0 tempo of 120 beats a minute",
            "event   beat 4 row 192 warp begins, to beat 6",
            "event   beat 5 row 240 stop of 1 s",
            "event   beat 6 row 288 warp ends, at beat 6",
            "event   beat 6 row 288 tempo of 174.3 beats a minute",
            "event   beat 6 row 288 delay of 0.1 s",
            "event   beat 8 row 384 warp begins, to beat 7",
            "event   beat 7 row 336 warp ends, at beat 7",
        ]
    );
    // behind the lists and before the beats
    assert!(told.starts_with("offset") && told.lines().last().unwrap().starts_with("at      beat 9 "));
    let json = Json::read(&said(&[&file, "--header", "--events", "--json"]));
    let told: Vec<(f64, f64, &str, f64)> = json
        .field("events")
        .list()
        .iter()
        .map(|event| {
            let number = |name| event.field(name).number();
            (number("row"), number("beat"), event.field("kind").text(), number("number"))
        })
        .collect();
    assert_eq!(
        told,
        [
            (0.0, 0.0, "tempo", 120.0),
            (192.0, 4.0, "warp", 6.0),
            (240.0, 5.0, "stop", 1.0),
            (288.0, 6.0, "warp ends", 6.0),
            (288.0, 6.0, "tempo", 174.3),
            (288.0, 6.0, "delay", 0.1),
            (384.0, 8.0, "warp", 7.0),
            (336.0, 7.0, "warp ends", 7.0),
        ]
    );
    // nothing is said of events where they are not asked for
    assert!(
        !said(&[&file, "--header"]).contains("event") && !said(&[&file, "--header", "--json"]).contains("\"events\":")
    );
    assert!(said(&["--help"]).contains("--events"));
}

#[test]
fn warped_rows_are_counted_once() {
    // of two warps that overlap, one of negative length and one below 0
    let lists = "#VERSION:0.83;#BPMS:0=120;#WARPS:-1=2,2=8,4=1,6=-1,9=2;";
    let file = written("overlapping.ssc", lists);
    let told = said(&[&file, "--header"]);
    let warps: Vec<&str> = told.lines().filter(|line| line.starts_with("warp")).collect();
    assert_eq!(
        warps,
        [
            "warp    beat -1 2 beats",
            "warp    beat 2 8 beats",
            "warp    beat 4 1 beats",
            "warp    beat 6 -1 beats",
            "warp    beat 9 2 beats",
            "warped  528 rows"
        ]
    );
    assert_eq!(Json::read(&said(&[&file, "--header", "--json"])).field("warped_rows").number(), 528.0);
    // of no warps only JSON says so
    assert!(!said(&["example.ssc", "--header"]).contains("warped"));
    assert_eq!(Json::read(&said(&["example.ssc", "--header", "--json"])).field("warped_rows").number(), 0.0);
}

#[test]
fn seconds_have_their_beats() {
    let told = said(&["example.ssc", "--at", "1.75,2.25,2.75,5.5,11.75,1000", "--beats", "4"]);
    let seconds: Vec<&str> = told.lines().filter(|line| line.starts_with("second")).collect();
    assert_eq!(
        seconds,
        [
            "second  1.75 beat 3, 2 steps",
            "second  2.25 beat 4, in a stop, 2 steps",
            "second  2.75 beat 4, in a stop, 2 steps",
            "second  5.5 beat 8, in a delay, 3 steps",
            "second  11.75 beat 18, 7 steps",
            "second  1000 beat 2978.75, 8 steps",
        ]
    );
    // behind the beats
    assert!(told.find("at      beat 4").unwrap() < told.find("second  1.75").unwrap());
    let json = Json::read(&said(&["example.ssc", "--at", "2.25,5.5,-1", "--json"]));
    let told: Vec<(f64, f64, &Json, &Json, f64)> = json
        .field("at")
        .list()
        .iter()
        .map(|at| {
            let number = |name| at.field(name).number();
            (number("time"), number("beat"), at.field("freeze"), at.field("delay"), number("steps"))
        })
        .collect();
    let (yes, no) = (&Json::Truth(true), &Json::Truth(false));
    assert_eq!(told, [(2.25, 4.0, yes, no, 2.0), (5.5, 8.0, no, yes, 3.0), (-1.0, -2.5, no, no, 1.0)]);
    // the machine's offset counts, nothing is said where nothing is asked, and a second beyond the limit is refused
    assert!(said(&["example.ssc", "--at", "1.5", "--global", "0.25"]).contains("second  1.5 beat 3.5, 2 steps"));
    assert!(!said(&["example.ssc"]).contains("second") && !said(&["example.ssc", "--json"]).contains("\"at\":"));
    assert!(refused(&["example.ssc", "--at", "1,1e300"]).contains("(refusal 4)"));
    assert!(said(&["--help"]).contains("--at"));
}

#[test]
fn json_says_all_of_it() {
    let json = Json::read(&said(&["dozens.ssc", "--chart", "2", "--notes", "--beats", "121,0.1", "--json"]));
    assert_eq!((json.field("format").text(), json.field("title").text()), ("ssc", "Some dozens"));
    assert_eq!((json.field("chart").number(), json.field("own_timing")), (2.0, &Json::Truth(true)));
    assert_eq!(json.field("charts").list()[1].field("description").text(), "stops, warps & \"speeds\"");
    let counts =
        ["tempos", "stops", "delays", "warps", "speeds", "scrolls", "fakes"].map(|list| json.field(list).list().len());
    assert_eq!(counts, [14, 13, 4, 6, 6, 8, 4]);
    assert_eq!(json.field("tempos").list()[2].field("beats_a_minute").number(), 87.5);
    assert_eq!(json.field("stops").list()[1].field("seconds").number() as f32, 0.343);
    assert_eq!(json.field("speeds").list()[2].field("unit").text(), "seconds");
    let beats = json.field("beats").list();
    assert_eq!((beats[0].field("warped"), beats[0].field("judged")), (&Json::Truth(true), &Json::Truth(false)));
    assert_eq!(beats[1].field("row").number(), 5.0);
    // the words say the same
    let words = said(&["dozens.ssc", "--chart", "2", "--notes", "--beats", "121,0.1"]);
    let notes = json.field("notes").list();
    assert_eq!(notes.len(), words.lines().filter(|line| line.starts_with("note")).count());
    for note in notes {
        let start = format!(
            "note    beat {} row {} {} s, {}, {}, ",
            note.field("beat").number(),
            note.field("row").number(),
            note.field("time").number(),
            note.field("snap").text(),
            if note.field("judged") == &Json::Truth(true) { "judged" } else { "not judged" }
        );
        assert!(words.contains(&start), "{start}");
        assert!(!note.field("notes").list().is_empty());
    }
    assert_eq!(notes[0].field("notes").list()[0].field("kind").text().len(), "tap".len());
    let listed = Json::read(&said(&["dozens.ssc", "--list", "--json"]));
    assert_eq!(listed.field("charts").list().len(), 2);
}

#[test]
fn json_of_strange_text() {
    let text = "#TITLE:\"a\\\\b\"\t\u{1}\u{7f}é\u{1F3B5}\nx;\n# \n#STOPS:x;";
    let json = Json::read(&said(&[&written("strange.sm", text), "--pass-over", "--json"]));
    assert_eq!(json.field("title").text(), "\"a\\b\"\t\u{1}\u{7f}é\u{1F3B5}\nx");
    let told = |list: &str| -> Vec<String> {
        json.field(list).list().iter().map(|fault| fault.field("what").text().to_string()).collect()
    };
    assert_eq!(told("warnings"), ["the file has no #BPMS: 60 beats a minute are taken", "this # begins no tag"]);
    assert_eq!(told("passed_over"), ["a beat and a value are wanted, as 4=120, found \"x\""]);
    assert_eq!(json.field("passed_over").list()[0].field("line").number(), 4.0);
    assert_eq!(json.field("chart"), &Json::Null);
}

#[test]
fn strange_titles_make_whole_pictures() {
    let svg = scratch("strange.svg");
    let text = format!("#TITLE:<a & \"b\">\u{1}{};#BPMS:0=120;#WARPS:4=99999;", "long ".repeat(60));
    said(&[&written("strange-title.ssc", &text), "--svg", svg.to_str().unwrap(), "--from", "-8"]);
    let picture = fs::read_to_string(svg).unwrap();
    assert_well_formed(&picture);
    assert!(picture.contains("&lt;a &amp; &quot;b&quot;&gt;") && picture.contains(">never ends</text>"));
}

#[test]
fn warnings_are_told_and_hinder_nothing() {
    let done = run(&[&written("no-tempo.sm", "#STOPS:4=1;")]);
    assert!(done.status.success());
    assert!(String::from_utf8(done.stdout).unwrap().contains("tempo   beat 0 60 beats a minute"));
    assert!(
        String::from_utf8(done.stderr)
            .unwrap()
            .ends_with("no-tempo.sm:1:1: the file has no #BPMS: 60 beats a minute are taken\n")
    );
    let text = written("passed.sm", "#BPMS:0=120,4=fast,8=90;");
    assert!(refused(&[&text]).contains("passed.sm:1:15: a number is wanted"));
    let done = run(&[&text, "--pass-over"]);
    assert!(
        String::from_utf8(done.stderr)
            .unwrap()
            .contains("passed.sm:1:15: a number is wanted, found \"fast\", passed over")
    );
    assert_eq!(String::from_utf8(done.stdout).unwrap().matches("tempo").count(), 2);
}

#[test]
fn a_refusal_names_its_entry() {
    let text = written("tiny.sm", "#BPMS:0=120;\n#STOPS:1=1,\n2=1,\n3=0.0000001;");
    assert!(refused(&[&text]).contains("tiny.sm: stop 3, line 4: 1e-7 s is below 2^-20 (refusal 4)"));
}

#[test]
fn standard_input_tells_its_format() {
    let mut child = Command::new(env!("CARGO_BIN_EXE_chart-picture"))
        .args(["-", "--json"])
        .stdin(Stdio::piped())
        .stdout(Stdio::piped())
        .spawn()
        .unwrap();
    child.stdin.take().unwrap().write_all(b"#VERSION:0.83;#BPMS:0=120;").unwrap();
    let done = child.wait_with_output().unwrap();
    let json = Json::read(&String::from_utf8(done.stdout).unwrap());
    assert_eq!((json.field("file").text(), json.field("format").text()), ("-", "ssc"));
}

#[test]
fn bad_text_writes_nothing() {
    let (text, svg) = (scratch("bad.sm"), scratch("bad.svg"));
    let _ = fs::remove_file(&svg);
    fs::write(&text, "#BPMS:0=120,\n4=fast;\n").unwrap();
    let done = run(&[text.to_str().unwrap(), "--svg", svg.to_str().unwrap()]);
    assert!(!done.status.success() && done.stdout.is_empty() && !svg.exists());
    assert!(String::from_utf8(done.stderr).unwrap().contains("bad.sm:2:3: a number is wanted, found \"fast\""));
}

#[test]
fn a_refused_chart_writes_nothing() {
    let (text, svg) = (scratch("far.sm"), scratch("far.svg"));
    let _ = fs::remove_file(&svg);
    fs::write(&text, "#BPMS:0=120;#DELAYS:70000=1;").unwrap();
    for words in [
        vec![text.to_str().unwrap(), "--svg", svg.to_str().unwrap()],
        vec!["example.ssc", "--beats", "70000", "--svg", svg.to_str().unwrap()],
    ] {
        let done = run(&words);
        assert!(!done.status.success() && done.stdout.is_empty() && !svg.exists());
        assert!(String::from_utf8(done.stderr).unwrap().contains("(refusal 3)"));
    }
}

#[test]
fn bad_words_are_told() {
    for words in [
        &[][..],
        &["a.sm", "b.sm"],
        &["--svg"],
        &["a.sm", "--format", "osu"],
        &["a.sm", "--beats", "x"],
        &["a.sm", "--at", "soon"],
        &["a.sm", "--at"],
        &["a.sm", "--loud"],
        &["example.ssc", "--chart", "0"],
        &["example.ssc", "--chart", "one"],
        &["example.ssc", "--chart", "1", "--header"],
        &["example.ssc", "--header", "--notes"],
        &["example.ssc", "--from", "4", "--to", "4"],
        &["example.ssc", "--from", "70000"],
        &["example.ssc", "--to", "nan"],
        &["missing.sm"],
    ] {
        let done = run(words);
        assert!(!done.status.success() && done.stdout.is_empty() && !done.stderr.is_empty(), "{words:?}");
    }
    assert!(run(&["--help"]).status.success());
}
