//! Files by chance: the tags of a file and its charts, and a text that has them.

use marrighentu::Format;
use oracle::random::Random;

/// The timing tags in the order of [`Tags`]: seven lists, four tags that are only looked for, and the offset.
pub const NAMES: [&str; 12] = [
    "BPMS",
    "STOPS",
    "DELAYS",
    "WARPS",
    "SPEEDS",
    "SCROLLS",
    "FAKES",
    "TIMESIGNATURES",
    "LABELS",
    "TICKCOUNTS",
    "COMBOS",
    "OFFSET",
];
pub const SPEEDS: usize = 4;
pub const LISTS: usize = 7;
pub const OFFSET: usize = 11;

/// The value of each timing tag that there is.
pub type Tags = [Option<String>; 12];

#[derive(Clone, Debug)]
pub struct Case {
    pub format: Format,
    pub version: f32,
    pub header: Tags,
    /// Each chart's own tags, and its notes: measures of so many lines each.
    pub charts: Vec<(Tags, Vec<usize>)>,
    pub text: String,
}

fn one_of<'a, T: ?Sized>(random: &mut Random, all: &[&'a T]) -> &'a T {
    all[random.below(all.len() as u64) as usize]
}

fn one_in(random: &mut Random, count: u64) -> bool {
    random.below(count) == 0
}

/// Beats that share rows, mostly: a few beats, and what lies close beside them.
fn beat(random: &mut Random, span: u64) -> String {
    let whole = random.below(span);
    match random.below(24) {
        0 => format!("{}r", whole * 12),
        1 => format!(" {} R", whole * 48 + random.below(48)),
        2 => format!("-{whole}"),
        3 if one_in(random, 40) => one_of(random, &["65536", "-65536", "65536.004", "70000"]).into(),
        3 => one_of(random, &["-0", "+2", ".5", "3.", "1e1", "1000", "-64", "1e-46", "2e0"]).into(),
        4 => format!("{}", whole as f64 + random.part()),
        5 => format!("{:.6}", whole as f64 + random.below(192) as f64 / 192.0),
        6..=11 => {
            format!("{:.3}", whole as f64 + [0.001, 0.002, 0.005, -0.001, 0.0104, 0.0105][random.below(6) as usize])
        }
        12..=15 => format!("{:.3}", whole as f64 + random.below(4) as f64 / 4.0),
        _ => format!("{whole}.000"),
    }
}

fn value(random: &mut Random, list: usize) -> String {
    let usual: &[&str] = match list {
        0 => &[
            "120",
            "60.000",
            "150",
            "160.5",
            "-120",
            "0",
            "240",
            "9999999",
            "9999999.5",
            "10000000",
            "0.001",
            "1e6",
            "179.99999",
        ],
        1 | 2 => &["1", "0.5", "-0.5", "0.001", "-1", "0", "2.000", "0.123456789", "-0.25", "100"],
        3 | 6 => &["1", "2.000", "0.5", "0.333", "-1", "0", "4", "0.0104", "-0", "1e-46"],
        _ => &["1", "1.000", "0.5", "2", "1.0000005", "-1", "0", "1.5", "1.000001"],
    };
    match random.below(400) {
        0 => one_of(random, &["1e-7", "-1e-7", "1e10", "2147483648", "-1e10", "1e38", "9.5367431640625e-7"]).into(),
        1..=8 => format!(" {} ", one_of(random, usual)),
        9..=40 => format!("{}", random.part() * 300.0),
        _ => one_of(random, usual).into(),
    }
}

/// What no reader takes for an entry, or only one of the two.
fn junk(random: &mut Random, list: usize) -> String {
    let good = value(random, list);
    let written = one_of(
        random,
        &[
            "x=V",
            "4",
            "=V",
            "4=",
            "4=V=V",
            "nan=V",
            "inf=V",
            "1e39=V",
            "r=V",
            "4=nan",
            "4=inf",
            "4=-inf",
            "4=1e39",
            "4=fast",
            "4==V",
            "\u{1}4=V",
            "4\n=V",
            "4=\u{1}1\n2",
            "\u{b}4=1\n2",
            "4=1\n2",
            "é",
            "4=V\u{85}",
            "\u{a0}4=V",
            "4=1=0=1=1",
            "4=1=0=x",
            "4=1=0= 1 ",
            "4=1=0=2",
            "4=1=0=",
            "4=1=x=1",
            "4=1=0",
            "4=inf=0=1",
            "4=1",
            "=",
            "==",
            "\u{7f}4=V",
            "4=0x10",
            "4=1_0",
            "4=١",
        ],
    );
    written.replace('V', &good)
}

fn list(random: &mut Random, list: usize, rare: bool) -> String {
    let count = match random.below(40) {
        0 => 40,
        1 if rare => 1_030,
        2..=8 => 0,
        _ => 1 + random.below(8),
    };
    let span = [3, 8, 40, 2_000][random.below(4) as usize];
    let mut entries: Vec<(f64, String)> = (0..count)
        .map(|_| {
            let beat = beat(random, span);
            let place = beat.trim().parse().unwrap_or(0.0);
            let mut entry = beat + "=" + &value(random, list);
            if list == SPEEDS {
                let delay = value(random, 2);
                entry += &format!("={delay}{}", one_of(random, &["=0", "=1", "", "= 1", "=0 "]));
            }
            if one_in(random, 100) {
                entry = junk(random, list);
            }
            (place, entry)
        })
        .collect();
    if random.below(3) != 0 {
        entries.sort_by(|one, other| one.0.total_cmp(&other.0));
    }
    // a row's entries in a file order that is not that of their beats
    if list < 4 && one_in(random, 3) {
        let (whole, near) = (random.below(span), [1, 2, 5][random.below(3) as usize]);
        let place = random.below(entries.len() as u64 + 1) as usize;
        let two =
            [format!("{whole}.00{near}"), format!("{whole}")].map(|beat| (0.0, beat + "=" + &value(random, list)));
        entries.splice(place..place, two);
    }
    let mut text = String::new();
    for (place, (_, entry)) in entries.into_iter().enumerate() {
        if place > 0 {
            text += one_of(random, &[",", ",", ",\n", "\n,", ",\r\n", " , ", ",,"]);
        }
        text += &entry;
    }
    text + one_of(random, &["", "", "\n", ",", " \n"])
}

/// Each tag by a chance in a hundred; now and then one alone.
fn tags(random: &mut Random, chance: u64, rare: bool) -> Tags {
    let mut tags: Tags = Default::default();
    let alone = one_in(random, 6).then(|| random.below(NAMES.len() as u64) as usize);
    for (place, tag) in tags.iter_mut().enumerate() {
        let chance = match alone {
            Some(only) => 100 * u64::from(only == place),
            None if place < LISTS || place == OFFSET => chance,
            None => chance / 8,
        };
        if random.below(100) >= chance {
            continue;
        }
        *tag = Some(if place < LISTS {
            list(random, place, rare)
        } else if place == OFFSET {
            one_of(random, &["0", "-0.25", "0.1", "1.5", "-12.345678", "0.009"]).into()
        } else {
            one_of(random, &["", "0=4=4", "0=Song Start"]).into()
        });
    }
    tags
}

/// A name as files may write it.
fn cased(random: &mut Random, name: &str) -> String {
    match random.below(12) {
        0 => name.to_lowercase(),
        1 => format!(" {name} "),
        2 => name[..1].to_string() + &name[1..].to_lowercase(),
        _ => name.into(),
    }
}

fn write_tag(random: &mut Random, text: &mut String, name: &str, value: &str) {
    // comments stand only where space may: behind a comma
    let mut commented = String::new();
    for character in value.chars() {
        commented.push(character);
        if character == ',' && one_in(random, 40) {
            commented += one_of(random, &["// a comment; #BPMS:0=999;\n", " //\n", "//,4=4,\n"]);
        }
    }
    *text += &format!("#{}:{commented}", cased(random, name));
    let end = one_of(random, &[";\n", ";\n", ";\n", ";", " ;\r\n", "\n"]);
    *text += end;
    if end.contains(';') && end.ends_with('\n') && one_in(random, 12) {
        *text += one_of(
            random,
            &[
                "\n",
                "// #STOPS:1=1;\n",
                "words\n",
                "#KEYSOUNDS;\n",
                "#ATTACKS:a\\;b\\#c:d;\n",
                "# loose\n",
                "#CREDIT:#1;\n",
            ],
        );
    }
}

fn write_tags(random: &mut Random, text: &mut String, tags: &Tags) {
    let mut order: Vec<usize> = (0..tags.len()).collect();
    for place in (1..order.len()).rev() {
        order.swap(place, random.below(place as u64 + 1) as usize);
    }
    for place in order {
        if let Some(value) = &tags[place] {
            // an offset of a former tag of that name does not count, nor does a list
            if one_in(random, 40) {
                write_tag(random, text, NAMES[place], if place == OFFSET { "7" } else { "0=1" });
            }
            write_tag(random, text, NAMES[place], value);
        }
    }
}

/// Measures of `1`s, with comments and blank lines between.
pub fn measures(lines: &[usize]) -> String {
    let written: Vec<String> = lines.iter().map(|count| "1\n".repeat(*count)).collect();
    written.join(",\n")
}

pub fn case(random: &mut Random) -> Case {
    let format = if one_in(random, 2) { Format::Sm } else { Format::Ssc };
    let rare = one_in(random, 40);
    let version = [0.83, 0.81, 0.7, 0.69, 0.5][random.below(5) as usize];
    let (header_chance, own_chance) =
        ([20, 60, 90][random.below(3) as usize], [0, 4, 30, 80][random.below(4) as usize]);
    let header = tags(random, header_chance, rare);
    let charts: Vec<(Tags, Vec<usize>)> = (0..random.below(4))
        .map(|_| {
            let own = if format == Format::Ssc { tags(random, own_chance, rare) } else { Tags::default() };
            let notes = (0..random.below(6)).map(|_| match random.below(8) {
                0 => 0,
                1 => 1 + random.below(400) as usize,
                _ => [4, 8, 12, 16, 24, 32, 48, 64, 192][random.below(9) as usize],
            });
            (own, notes.collect())
        })
        .collect();
    let mut text = String::new();
    if format == Format::Ssc {
        write_tag(random, &mut text, "VERSION", &version.to_string());
    }
    let title = one_of(random, &["a\\;b\\#c", "", "x\\\\", "http:\\//x", "日本 #1"]);
    write_tag(random, &mut text, "TITLE", title);
    write_tags(random, &mut text, &header);
    for (own, notes) in &charts {
        let written = measures(notes);
        if format == Format::Ssc {
            write_tag(random, &mut text, "NOTEDATA", "");
            write_tag(random, &mut text, "STEPSTYPE", "dance-single");
            write_tags(random, &mut text, own);
            let name = one_of(random, &["NOTES", "NOTES", "NOTES2"]);
            write_tag(random, &mut text, name, &("\n".to_string() + &written));
        } else {
            let fields = "\n     dance-single:\n     K\\:W:\n     Hard:\n     9:\n     0,0,0,0,0:\n";
            write_tag(random, &mut text, "NOTES", &(fields.to_string() + &written));
        }
    }
    Case { format, version, header, charts, text }
}
