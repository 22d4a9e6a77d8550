//! The report program read plainly: its form line by line, the numbers that refuse an input, and the original's functions for the lists.
//! What `reports` stores for a Rattle program to replay, and what a built report program is held to.

use crate::assembly::{DELAYS, FAKES, Lists, Raw, SCROLLS, SPEEDS, STOPS, TEMPOS, WARPS, assembled};
use crate::cases::power;
use crate::charts;
use crate::random::Random;
use crate::warped;

/// The words of the lists, in their order, and the place of the one that has four numbers a line.
const WORDS: [&str; 7] = ["bpm", "stop", "delay", "warp", "speed", "scroll", "fake"];
pub const SPEED: usize = 4;

/// The most entries of a list.
pub const MOST: usize = 256;

/// An entry: a beat and a value, or of a speed the beat, the ratio, the delay and the unit.
#[derive(Clone, Debug)]
pub struct Entry {
    pub numbers: Vec<u64>,
    pub unit: u8,
}

#[derive(Clone, Debug, Default)]
pub struct Input {
    pub ssc: bool,
    pub lists: [Vec<Entry>; 7],
}

/// What the report program writes for an input.
pub fn answer(input: &[u8]) -> String {
    let Some(input) = read(input) else { return refused(10) };
    if input.lists.iter().any(|list| list.len() > MOST) {
        return refused(1);
    }
    match assembled(input.ssc, &columns(&input), MOST) {
        Ok(lists) => written(&lists),
        Err(number) => refused(number),
    }
}

fn refused(number: u32) -> String {
    format!("answer={number}\n")
}

/// The lists of an input that is of the form.
pub fn read(bytes: &[u8]) -> Option<Input> {
    let text = std::str::from_utf8(bytes).ok()?;
    let mut lines = text.strip_suffix('\n')?.split('\n');
    let ssc = match lines.next()? {
        "format=sm" => false,
        "format=ssc" => true,
        _ => return None,
    };
    let mut input = Input { ssc, ..Input::default() };
    let mut last = 0;
    for line in lines {
        let (word, numbers) = line.split_once('=')?;
        let list = WORDS.iter().position(|name| *name == word)?;
        if list < last {
            return None;
        }
        last = list;
        let mut parts: Vec<&str> = numbers.split(',').collect();
        let unit = if list == SPEED { unit(parts.pop()?)? } else { 0 };
        if parts.len() != if list == SPEED { 3 } else { 2 } {
            return None;
        }
        let numbers = parts.into_iter().map(hexadecimal).collect::<Option<Vec<u64>>>()?;
        input.lists[list].push(Entry { numbers, unit });
    }
    Some(input)
}

fn hexadecimal(text: &str) -> Option<u64> {
    let upper = text.bytes().all(|byte| byte.is_ascii_digit() || (b'A'..=b'F').contains(&byte));
    if upper && text.len() == 16 { u64::from_str_radix(text, 16).ok() } else { None }
}

fn unit(text: &str) -> Option<u8> {
    match text.as_bytes() {
        [digit] if digit.is_ascii_digit() => Some(digit - b'0'),
        _ => None,
    }
}

/// The lists as columns.
fn columns(input: &Input) -> Raw {
    let mut raw = Raw::default();
    for (entries, first) in input.lists.iter().zip([TEMPOS, STOPS, DELAYS, WARPS, SPEEDS, SCROLLS, FAKES]) {
        for entry in entries {
            entry
                .numbers
                .iter()
                .enumerate()
                .for_each(|(place, bits)| raw.numbers[first + place].push(f64::from_bits(*bits)));
            if first == SPEEDS {
                raw.units.push(entry.unit);
            }
        }
    }
    // the form has no marks
    raw.marks = vec![0; input.lists[WORDS.iter().position(|word| *word == "warp").unwrap()].len()];
    raw
}

fn written(lists: &Lists) -> String {
    let bits = |x: f32| format!("{:08X}", x.to_bits());
    let pairs = |word: &str, list: &[(f32, f32)]| -> String {
        list.iter().map(|(beat, value)| format!("{word}={},{}\n", bits(*beat), bits(*value))).collect()
    };
    let speeds: String = lists
        .speeds
        .iter()
        .map(|(beat, ratio, delay, unit)| format!("speed={},{},{},{unit}\n", bits(*beat), bits(*ratio), bits(*delay)))
        .collect();
    let [tempos, stops, delays, warps, scrolls, fakes] = &lists.pairs;
    let (beats, lengths): (Vec<f32>, Vec<f32>) = warps.iter().copied().unzip();
    let warped = warped::count(&warped::spans(&beats, &lengths));
    let front = format!("answer=0\noffset={}\n", bits(lists.offset));
    let marked: String = warps
        .iter()
        .zip(&lists.marks)
        .map(|((beat, length), mark)| format!("warp={},{},{mark}\n", bits(*beat), bits(*length)))
        .collect();
    let before = pairs("bpm", tempos) + &pairs("stop", stops) + &pairs("delay", delays) + &marked;
    front
        + &before
        + &speeds
        + &pairs("scroll", scrolls)
        + &pairs("fake", fakes)
        + &format!("warped={warped}\nmoved={}\n", lists.moved.total())
}

/// The text of an input.
pub fn text(input: &Input) -> Vec<u8> {
    let mut text = format!("format={}\n", if input.ssc { "ssc" } else { "sm" });
    for (word, list) in WORDS.iter().zip(&input.lists) {
        for entry in list {
            let mut parts: Vec<String> = entry.numbers.iter().map(|bits| format!("{bits:016X}")).collect();
            if *word == "speed" {
                parts.push(entry.unit.to_string());
            }
            text += &format!("{word}={}\n", parts.join(","));
        }
    }
    text.into_bytes()
}

// ---- inputs

fn entry(beat: f64, value: f64) -> Entry {
    Entry { numbers: vec![beat.to_bits(), value.to_bits()], unit: 0 }
}

/// An input by chance: lists of a few entries that share beats, now and then one that is out of order or out of its limits.
pub fn by_chance(turn: u64, random: &mut Random) -> Input {
    let most = [3, 6, 12][random.below(3) as usize];
    let mut input = Input { ssc: random.below(2) == 0, ..Input::default() };
    let raw = charts::lists(turn, random).columns;
    for list in 0..2 {
        let beats = raw[2 * list].iter().zip(&raw[2 * list + 1]);
        input.lists[list] = beats.take(most as usize).map(|(beat, value)| entry(*beat, *value)).collect();
    }
    for list in 2..7 {
        let mut beats: Vec<f64> = (0..random.below(most + 1)).map(|_| beat(random)).collect();
        if random.below(4) != 0 {
            beats.sort_by(f64::total_cmp);
        }
        input.lists[list] = beats.into_iter().map(|beat| other_entry(list, beat, random)).collect();
    }
    input
}

fn other_entry(list: usize, beat: f64, random: &mut Random) -> Entry {
    let mut made = entry(beat, value(random));
    if list == SPEED {
        made.numbers.push(value(random).to_bits());
        made.unit = if random.below(40) == 0 { random.below(10) as u8 } else { random.below(2) as u8 };
    }
    made
}

fn beat(random: &mut Random) -> f64 {
    match random.below(60) {
        0 => random.sign() * 65_536.0,
        1 => f64::from_bits(65_536.0_f64.to_bits() + random.below(2)),
        2 => f64::from_bits(random.bits()),
        3 => -0.0,
        _ => [0.25, 1.0, 1.0 / 48.0, 0.001][random.below(4) as usize] * random.below(40) as f64 - 2.0,
    }
}

fn value(random: &mut Random) -> f64 {
    match random.below(60) {
        0 => random.sign() * power(30),
        1 => f64::from_bits(power(30).to_bits() + random.below(2)),
        2 => f64::from_bits(random.bits()),
        3 => f64::from_bits(random.below(1 << 40)),
        4 => random.part() * 1e-6,
        _ => [0.0, 1.0, 1.0, 2.0, -1.0, 0.5, 1.0 + 5e-7, 1.0 + 1e-6, 0.01, 3.3][random.below(10) as usize],
    }
}

/// Each byte of a text changed, dropped and doubled in turn.
pub fn damaged(text: &[u8], random: &mut Random) -> Vec<Vec<u8>> {
    const OTHERS: &[u8] = b"\0\r\n =,;-+.aAfFgGzZ019:/@\x7f\x80\xff";
    let mut made = Vec::new();
    for at in 0..text.len() {
        let other = loop {
            let byte = OTHERS[random.below(OTHERS.len() as u64) as usize];
            if byte != text[at] {
                break byte;
            }
        };
        let with = |bytes: &[u8]| [&text[..at], bytes, &text[at + 1..]].concat();
        made.extend([with(&[other]), with(&[text[at] ^ 0x20]), with(&[]), with(&[text[at], text[at]])]);
    }
    made
}

/// Inputs written out: the whole case, lines that have no place in the form, lists about their limits.
pub fn written_out() -> Vec<Vec<u8>> {
    let number = "3FF0000000000000";
    let pair = |word: &str| format!("{word}={number},{number}\n");
    let speed = format!("speed={number},{number},{number},1\n");
    let every = |format: &str| {
        format!("format={format}\n")
            + &WORDS.map(|word| if word == "speed" { speed.clone() } else { pair(word) }).concat()
    };
    let mut made = vec![
        WHOLE.to_string(),
        String::new(),
        "\n".into(),
        "\n\n".into(),
        "format=sm".into(),
        "format=sm\n".into(),
        "format=ssc\n".into(),
        "format=SM\n".into(),
        "format=smm\n".into(),
        "format=s\n".into(),
        "format=\n".into(),
        "format=sm\n\n".into(),
        "\nformat=sm\n".into(),
        "format=sm\nformat=sm\n".into(),
        "format=sm\r\n".into(),
        "\u{feff}format=sm\n".into(),
        "format=sm\n\0".into(),
        "format=sm\n#\n".into(),
        "formatt=sm\n".into(),
        "format=sm,\n".into(),
        pair("bpm"),
        "bpm\n".into(),
        every("sm"),
        every("ssc"),
        every("sm").replace('\n', "\r\n"),
        every("ssc") + "fake=",
        every("ssc") + "fake",
        every("ssc") + &pair("bpm"),
        every("ssc") + &pair("fake"),
        every("ssc").replace(number, &number.to_lowercase()),
        every("ssc").replace("3FF0", "3FF"),
        every("ssc").replace("3FF0", "3FF00"),
        every("ssc").replace(',', ", "),
        every("ssc").replace(',', ";"),
        every("ssc").trim_end().to_string(),
    ];
    for word in WORDS {
        let line = if word == "speed" { speed.clone() } else { pair(word) };
        let whole = format!("format=ssc\n{line}");
        made.push(whole.clone());
        made.push(whole.trim_end().to_string());
        made.push(whole.replace(word, &word.to_uppercase()));
        made.push(whole.replace(word, &format!(" {word}")));
        made.push(whole.replace('=', ""));
        made.push(whole.replace('\n', ",\n"));
        made.push(whole.replace('\n', &format!(",{number}\n")));
        made.push(whole.replacen(&format!("{number},"), "", 1));
        for before in WORDS {
            let line = if before == "speed" { speed.clone() } else { pair(before) };
            made.push(format!("{whole}{line}"));
        }
    }
    for unit in ["", "0", "1", "2", "9", "10", "01", "a", "A", "-1", " 1", "1 ", "+", "/", ":"] {
        made.push(format!("format=sm\nspeed={number},{number},{number},{unit}\n"));
    }
    for digits in [0, 1, 8, 15, 17, 32, 300] {
        made.push(format!("format=sm\nbpm={},{number}\n", "0".repeat(digits)));
        made.push(format!("format=sm\nbpm={number},{}\n", "0".repeat(digits)));
    }
    made.push(format!("format=sm\n{}\n", "bpm".repeat(2_000)));
    made.into_iter().map(String::into_bytes).collect()
}

/// The case that the specification plays whole.
pub const WHOLE: &str = "format=sm\nbpm=0000000000000000,405E000000000000\nstop=4010000000000000,BFF0000000000000\n";

/// Lists of 256 and 257 entries, and warps that are more than 256 only when those that SM makes are counted in.
pub fn about_the_limit() -> Vec<Input> {
    let rising = |count: usize, list: usize| -> Vec<Entry> {
        (0..count)
            .map(|place| {
                let mut made = entry(place as f64 * 0.25, 1.0 + (place % 3) as f64);
                if list == SPEED {
                    made.numbers.push(0.5_f64.to_bits());
                    made.unit = (place % 2) as u8;
                }
                made
            })
            .collect()
    };
    let mut made = Vec::new();
    for (list, count) in [(0, 256), (0, 257), (3, 257), (4, 256), (4, 257), (6, 257), (1, 300)] {
        let mut input = Input { ssc: true, ..Input::default() };
        input.lists[list] = rising(count, list);
        made.push(input);
    }
    for (given, owed) in [(255, 1), (256, 1)] {
        let mut input = Input::default();
        input.lists[0] = vec![entry(0.0, 120.0)];
        input.lists[1] = (0..owed).map(|place| entry(100.0 + 8.0 * place as f64, -0.5)).collect();
        input.lists[3] = (0..given).map(|place| entry(place as f64 * 0.25, 0.125)).collect();
        made.push(input);
    }
    made
}

/// Warps that share rows, touch, or lie apart, in either format; some of them made by SM out of what runs backward.
pub fn overlapping_warps() -> Vec<Input> {
    const ENDLESS: f64 = 99_999_999.0;
    let lists: [&[(f64, f64)]; 16] = [
        &[(0.0, 8.0), (4.0, 1.0)],
        &[(0.0, 4.0), (2.0, 6.0)],
        &[(0.0, 8.0), (4.0, 4.0)],
        &[(0.0, 4.0), (4.0, 1.0)],
        &[(0.0, 4.0), (4.0 + 1.0 / 48.0, 1.0)],
        &[(0.0, 8.0), (1.0, 1.0), (4.0, 2.0)],
        &[(0.0, 8.0), (1.0, 1.0), (4.0, 6.0)],
        &[(-2.0, 4.0), (1.0, 1.0)],
        &[(-8.0, 2.0), (-7.0, 9.0)],
        &[(0.0, ENDLESS), (4.0, 1.0)],
        &[(0.0, ENDLESS), (4.0, ENDLESS)],
        &[(-4.0, ENDLESS), (4.0, ENDLESS), (8.0, 1.0)],
        &[(0.0, 8.0), (4.0, -8.0), (6.0, 0.0), (7.0, 2.0)],
        &[(0.0, 8.0), (4.0, 1.0 / 256.0), (8.0, 1.0 / 256.0)],
        &[(4.0, 1.0), (0.0, 8.0)],
        &[(4.0, 8.0), (0.0, 5.0), (4.0, 2.0)],
    ];
    let mut made = Vec::new();
    for warps in lists {
        let warps: Vec<Entry> = warps.iter().map(|(beat, length)| entry(*beat, *length)).collect();
        for (ssc, stops) in [(true, vec![]), (false, vec![]), (false, vec![entry(5.0, -1.0)])] {
            let mut input = Input { ssc, ..Input::default() };
            input.lists[0] = vec![entry(0.0, 120.0)];
            input.lists[1] = stops;
            input.lists[3] = warps.clone();
            made.push(input);
        }
    }
    made
}

/// Scrolls and speeds whose kept list falls: taken while it is the last entry that makes it fall, refused with 6 once another follows, and
/// with a lower number where one is to be given.
pub fn out_of_order() -> Vec<Input> {
    let falling = |list: usize, count: usize| -> Vec<Entry> {
        [(4.0, 1.0), (8.0, 2.0), (0.0, 2.0), (16.0, 3.0)][..count]
            .iter()
            .map(|(beat, value)| {
                let mut made = entry(*beat, *value);
                if list == SPEED {
                    made.numbers.push(0.5_f64.to_bits());
                }
                made
            })
            .collect()
    };
    let mut made = Vec::new();
    for list in [SPEED, SPEED + 1] {
        for count in [3, 4] {
            let mut input = Input { ssc: list == SPEED, ..Input::default() };
            input.lists[list] = falling(list, count);
            made.push(input);
        }
        for (other, spoiled) in [(2, entry(70_000.0, 1.0)), (6, entry(1.0, power(31)))] {
            let mut input = Input::default();
            input.lists[list] = falling(list, 4);
            input.lists[other] = vec![entry(0.0, 1.0), spoiled];
            made.push(input);
        }
        let mut input = about_the_limit().pop().expect("warps that are one too many");
        input.lists[list] = falling(list, 4);
        made.push(input);
    }
    made
}

/// Entries off the grid: in each list, that tidying loses, that the format drops, before 0, at beats that only look off; and beside a warp that is made.
pub fn off_the_grid() -> Vec<Input> {
    let listed = |list: usize, beats: &[f64]| -> Vec<Entry> {
        beats
            .iter()
            .enumerate()
            .map(|(place, beat)| {
                let mut made = entry(*beat, 1.0 + place as f64);
                if list == SPEED {
                    made.numbers.push(0.5_f64.to_bits());
                }
                made
            })
            .collect()
    };
    // each the beat of its row, by value, once it is narrowed
    let on = [-0.0, f64::from_bits(1), 1.0 / 3.0, f64::from(1.0_f32 / 3.0), 5.0 / 48.0, 65_536.0];
    let off = [0.001, 0.01, 4.01, 4.011, 8.0, 8.3, 65_535.99];
    let mut made = Vec::new();
    for list in 0..WORDS.len() {
        for beats in [&on[..], &off] {
            for ssc in [true, false] {
                let mut input = Input { ssc, ..Input::default() };
                input.lists[list] = listed(list, beats);
                made.push(input);
            }
        }
    }
    for ssc in [true, false] {
        let mut input = Input { ssc, ..Input::default() };
        input.lists[0] = vec![entry(0.01, 120.0), entry(0.01, 130.0), entry(2.01, 0.0), entry(f64::NAN, 60.0)];
        input.lists[1] = vec![entry(-0.01, 1.0), entry(3.01, 0.0), entry(4.01, f64::INFINITY), entry(5.01, -1.0)];
        input.lists[3] = vec![entry(6.01, 1.0), entry(6.012, 2.0)];
        made.push(input.clone());
        // and refused: nothing is counted
        input.lists[6] = vec![entry(0.01, power(31))];
        made.push(input);
    }
    made
}
