//! bench: the port's times beside the original's, in one run on the same columns. Nanoseconds an entry for the loops, a call for tidying.

use oracle::assembly;
use oracle::bench_clock;
use oracle::by_time;
use oracle::calls::{self, Call, Visit};
use oracle::cases::Cases;
use oracle::charts;
use oracle::clock::{self, Columns, Cursor};
use oracle::lookups::{self, Lists};
use oracle::marked;
use oracle::mend::List;
use oracle::mend_calls::{self, Rooms as MendRooms};
use oracle::notes::{self, Scrolls as ScrollList};
use oracle::processing::{self, Format, Rooms, Sm, Ssc};
use oracle::random::Random;
use oracle::sheet::{self, Song};
use oracle::sm_stops;
use oracle::speeds::{self, Columns as SpeedColumns};
use oracle::tempo_text::{self, MOST_ENTRY_BYTES, Width};
use oracle::tidying::{self, Rows, Scrolls, Tempos, Tidying};
use oracle::timing::{
    compute_row_to_beat, convert_warps_and_delays_to_sm_stops, get_beat_info_from_time, get_displayed_beat,
    get_time_for_beat, probe,
};
use oracle::timings::{Chart, DELAYS, STOPS, TEMPOS, WARPS};
use oracle::warped;
use std::hint::black_box;
use std::time::{Duration, Instant};

const ENTRIES: usize = 1_024;
/// A time is the best of so many; the two sides take turns, so that what disturbs one disturbs the other.
const TIMES: usize = 400;
/// What one time should last, so that the clock's own steps don't show.
const LASTS: Duration = Duration::from_micros(200);

fn main() {
    let only = std::env::args().nth(1).unwrap_or_default();
    let mut bench = Bench { worst: (0.0, String::new()), only };
    println!("nanoseconds an entry");
    calls::visit_all(&mut bench);
    println!(
        "nanoseconds a call; the original takes its list, so each call has a fresh copy, and the copying is in its time"
    );
    for entries in [16, 256, 1_024] {
        ORDERS.iter().for_each(|order| bench.tidying::<Rows>(entries, *order));
        bench.tidying::<Rows>(entries, SPREAD);
    }
    for entries in [16, 256, 1_024] {
        ORDERS.iter().for_each(|order| bench.tidying::<Tempos>(entries, *order));
    }
    for entries in [16, 256, 1_024] {
        ORDERS[..2].iter().for_each(|order| bench.tidying::<Scrolls>(entries, *order));
    }
    for entries in [16, 256, 1_024] {
        ORDERS[..2].iter().for_each(|order| bench.speeds(entries, *order));
    }
    for entries in [16, 256] {
        bench.lookups(entries);
    }
    for (tempos, stops) in [(50, 30), (1_024, 1_024)] {
        for newest_first in [false, true] {
            bench.processing::<Ssc>(tempos, stops, newest_first);
            bench.processing::<Sm>(tempos, stops, newest_first);
        }
    }
    for (name, counts) in [("a typical chart", [50, 30, 10, 10, 20, 20, 10]), ("full lists", [1_024; 7])] {
        bench.assembly(&format!("SSC of {name}"), true, assembly::typical(counts, false));
        bench.assembly(&format!("SM of {name}"), false, assembly::typical(counts, false));
        bench.assembly(&format!("SM of {name}, with warps"), false, assembly::typical(counts, true));
        for (format, ssc) in [("SSC", true), ("SM", false)] {
            let mut raw = assembly::typical(counts, false);
            raw.turn_round();
            bench.assembly(&format!("{format} of {name}, saved backwards but scrolls and speeds"), ssc, raw);
        }
    }
    for (format, ssc) in [("SSC", true), ("SM", false)] {
        let raw = assembly::typical([50, 30, 10, 0, 20, 20, 10], false);
        bench.assembly(&format!("{format} of a typical chart without warps"), ssc, raw);
    }
    bench.assembly("SM of lists of 512, with warps", false, assembly::typical([512; 7], true));
    let mut mixed = assembly::typical([1_024; 7], false);
    mixed.marks.iter_mut().step_by(2).for_each(|mark| *mark = 1);
    bench.assembly("SSC of full lists, every other warp marked as made", true, mixed);
    for entries in [16, 256] {
        bench.sm_stops(entries);
    }
    println!(
        "nanoseconds a question of 2,000; the port counts events and tests each beat, and a run tests the timing once"
    );
    for (name, chart) in [("a typical chart", chart([50, 30, 10, 10])), ("1,000 tempos", chart([1_000, 0, 0, 0]))] {
        ASKED.iter().for_each(|order| bench.clock(name, &chart, *order));
    }
    println!(
        "nanoseconds a question past the last event, each from a fresh cursor, by the end mark; the original walks through all events"
    );
    for (name, entries) in [
        ("a typical chart", [50, 30, 10, 10]),
        ("10 tempos", [10, 0, 0, 0]),
        ("100 tempos", [100, 0, 0, 0]),
        ("1,000 tempos", [1_000, 0, 0, 0]),
    ] {
        bench.past_the_end(name, &chart(entries));
    }
    println!("nanoseconds a question of 2,000 before the mark; beside the port's own question without a mark");
    for (name, chart) in [("a typical chart", chart([50, 30, 10, 10])), ("1,000 tempos", chart([1_000, 0, 0, 0]))] {
        ASKED.iter().for_each(|order| bench.before_the_mark(name, &chart, *order));
    }
    println!(
        "nanoseconds a time of 2,000, from the start each, but in a run, which goes on where times rise and tests the timing once"
    );
    for (name, chart) in [("a typical chart", chart([50, 30, 10, 10])), ("1,000 tempos", chart([1_000, 0, 0, 0]))] {
        ASKED[..1].iter().chain(&ASKED[2..]).for_each(|order| bench.by_time(name, &chart, *order));
    }
    println!("nanoseconds a row of a note sheet; beside the original's cursor, its judgable rows, and a remainder");
    for (name, chart) in [("a typical chart", chart([50, 30, 10, 10])), ("1,000 tempos", chart([1_000, 0, 0, 0]))] {
        [2_000, 200].iter().for_each(|rows| bench.note_sheet(name, &chart, *rows));
    }
    println!(
        "nanoseconds a warp; the original has no such call, and beside it stands one pass in Rust by the original's rows"
    );
    [16, 256, 1_024].iter().for_each(|warps| bench.warped_rows(*warps));
    println!(
        "nanoseconds a call of the port's two clocks; each call tests the timing, and a question to the bench clock lays all events out first"
    );
    for (name, entries) in [
        ("a typical chart", [50, 30, 10, 10]),
        ("10 tempos", [10, 0, 0, 0]),
        ("100 tempos", [100, 0, 0, 0]),
        ("1,000 tempos", [1_000, 0, 0, 0]),
    ] {
        bench.bench_clock(name, &chart(entries));
    }
    println!(
        "nanoseconds a call of the port's own: lists in no order, all values apart, mended, and placed one by one"
    );
    for entries in [16, 256, 1_024] {
        bench.mend(entries);
    }
    println!("nanoseconds a beat of 2,000 in no order, and a multiply-add; the original has the processor's own");
    for entries in [16, 256, 1_024] {
        bench.displayed(entries, "usual ratios", &[1.0, 0.5, 2.0, 1.37]);
        bench.displayed(entries, "any ratio", &[]);
    }
    println!("nanoseconds a call");
    for (name, rows) in
        [("rows of 4 to 192 a measure", &[4, 8, 12, 16, 24, 32, 48, 64, 192][..]), ("16 rows a measure", &[16])]
    {
        bench.row_to_beat(name, rows);
    }
    bench.mul_add();
    println!("nanoseconds an entry; the original makes a String, the port writes on a page that it is lent");
    for entries in [4, 100, 1_024] {
        bench.tempo_text::<f64>(entries);
        bench.tempo_text::<f32>(entries);
    }
    println!("worst ratio {:.2} ({})", bench.worst.0, bench.worst.1);
}

struct Bench {
    worst: (f64, String),
    /// Lines are left out whose name has not this text.
    only: String,
}

impl Bench {
    /// Times two closures that do the same work on `entries` entries, and prints their line. A call that takes lists is one such line.
    fn line(&mut self, name: &str, entries: usize, mut port: impl FnMut(), mut original: impl FnMut()) {
        if !name.contains(&self.only) {
            return;
        }
        let [port, original] = in_turns(&mut port, &mut original).map(|time| time / entries as f64);
        let ratio = port / original;
        println!("{name}: port {port:.3} ns, original {original:.3} ns, ratio {ratio:.2}");
        if ratio > self.worst.0 {
            self.worst = (ratio, name.to_owned());
        }
    }

    /// Times two calls of the port on `entries` entries, the first beside the second. It is not among the ratios to the original.
    fn beside(&mut self, name: &str, entries: usize, mut one: impl FnMut(), other_name: &str, mut other: impl FnMut()) {
        if name.contains(&self.only) {
            let [one, other] = in_turns(&mut one, &mut other).map(|time| time / entries as f64);
            println!("{name}: {one:.1} ns, {other_name} {other:.1} ns, {:.2} of it", one / other);
        }
    }

    /// A list of entries a quarter of a beat apart, each with a value of its own.
    fn tidying<T: Tidying>(&mut self, entries: usize, (order, arrange): Order) {
        let mut random = Random::new(1, "bench of tidying");
        let mut beats: Vec<_> = (0..entries).map(|place| place as f64 / 4.0).collect();
        arrange(&mut beats, &mut random);
        let values: Vec<_> = (0..entries).map(|_| 1.0 + random.part() * 999.0).collect();
        let list = tidying::list::<T>(&beats, &values);
        let (mut out_beats, mut out_values) = (vec![0.0; entries], vec![0.0; entries]);
        self.line(
            &format!("{} of {entries} {order}", T::NAME),
            1,
            || {
                black_box(T::port(black_box(&beats), black_box(&values), &mut out_beats, &mut out_values));
            },
            || drop(black_box(T::original(black_box(&list).clone()))),
        );
    }

    /// A list of speeds a quarter of a beat apart, each with a ratio of its own.
    fn speeds(&mut self, entries: usize, (order, arrange): Order) {
        let mut random = Random::new(1, "bench of tidying");
        let mut beats: Vec<_> = (0..entries).map(|place| place as f64 / 4.0).collect();
        arrange(&mut beats, &mut random);
        let mut values = || (0..entries).map(|_| 1.0 + random.part() * 999.0).collect();
        let columns = SpeedColumns { numbers: [beats, values(), values()], units: vec![0; entries] };
        let list = columns.list();
        let mut rooms = columns.clone();
        self.line(
            &format!("{} of {entries} {order}", speeds::NAME),
            1,
            || {
                let [beats, ratios, delays] = &mut rooms.numbers;
                black_box(speeds::port(black_box(&columns), [beats, ratios, delays], &mut rooms.units));
            },
            || drop(black_box(probe::tidy_speed_segments(black_box(&list).clone()))),
        );
    }

    /// Warps a beat apart, every fourth of which reaches into the next.
    fn warped_rows(&mut self, entries: usize) {
        let beats: Vec<f32> = (0..entries).map(|place| place as f32).collect();
        let lengths: Vec<f32> = (0..entries).map(|place| if place % 4 == 0 { 1.5 } else { 0.4 }).collect();
        assert_eq!(warped::warped_rows(&beats, &lengths), warped::along_the_list(&beats, &lengths));
        self.line(
            &format!("warped_rows of {entries}"),
            entries,
            || {
                black_box(warped::warped_rows(black_box(&beats), black_box(&lengths)));
            },
            || {
                black_box(warped::along_the_list(black_box(&beats), black_box(&lengths)));
            },
        );
    }

    /// Four lists of entries a beat apart, 2,000 rows that rise through them, and one row.
    fn lookups(&mut self, entries: usize) {
        let mut lists = Lists::default();
        for (list, (beats, values)) in lists.columns.iter_mut().enumerate() {
            *beats = (0..entries).map(|place| place as f32 + list as f32 / 4.0).collect();
            *values = vec![0.4; entries];
        }
        let (segments, timing) = (lists.segments(), lists.timing());
        let mut room = vec![0; 4 * entries];
        self.line(
            &format!("build_segment_row_storage of 4 x {entries}"),
            1,
            || {
                black_box(lookups::store(black_box(&lists), &mut room));
            },
            || {
                let [stops, delays, warps, fakes] = black_box(&segments);
                drop(black_box(probe::build_segment_row_storage(stops, delays, warps, fakes)));
            },
        );
        let rows: Vec<i32> = (0..2_000).map(|place| (place * entries / 2_000 * 48 + place % 48) as i32).collect();
        let (mut port, mut original) = (vec![0; rows.len()], vec![0; rows.len()]);
        self.line(
            &format!("judgable_rows of 2,000 rows over 4 x {entries}"),
            1,
            || {
                black_box(lookups::judge(black_box(&lists), black_box(&rows), &mut port));
            },
            || probe::judgable_rows(black_box(&timing), black_box(&rows), black_box(&mut original)),
        );
        let row = entries as i32 * 24 + 5;
        self.line(
            &format!("is_judgable_at_row over 4 x {entries}, tests of the lists and all"),
            1,
            || {
                black_box(lookups::judgable_at_row(black_box(&lists), black_box(row)));
            },
            || {
                black_box(probe::is_judgable_at_row(black_box(&timing), black_box(row)));
            },
        );
        let random = &mut Random::new(1, "bench of lookups");
        let asked = [
            ("one row again and again", vec![row; 2_000]),
            ("rows that rise", rows.clone()),
            ("rows in no order", (0..20_000).map(|_| random.below(entries as u64 * 48) as i32).collect()),
        ];
        for (order, rows) in asked {
            self.one_by_one(
                &format!("is_judgable_at_row_checked over 4 x {entries}, {order}"),
                &rows,
                |row| lookups::judgable_at_row_checked(black_box(&lists), row).yes,
                |row| probe::is_judgable_at_row(black_box(&timing), row),
            );
            self.one_by_one(
                &format!("is_warp_at_row_checked over 3 x {entries}, {order}"),
                &rows,
                |row| lookups::warp_at_row_checked(black_box(&lists), row).yes,
                |row| probe::is_warp_at_row(black_box(&timing), row),
            );
            self.one_by_one(
                &format!("is_fake_at_row_checked over {entries}, {order}"),
                &rows,
                |row| lookups::fake_at_row_checked(black_box(&lists), row).yes,
                |row| probe::is_fake_at_row(black_box(&timing), row),
            );
        }
    }

    /// Each row asked by itself; nanoseconds a question.
    fn one_by_one(&mut self, name: &str, rows: &[i32], port: impl Fn(i32) -> bool, original: impl Fn(i32) -> bool) {
        self.line(name, rows.len(), || ask_each(rows, &port), || ask_each(rows, &original));
    }
}

impl Bench {
    fn assembly(&mut self, name: &str, ssc: bool, mut raw: assembly::Raw) {
        let mut rooms = assembly::Rooms::new([1_024; 17], &mut Random::new(1, "bench of assembly"));
        // full lists leave no place for made warps
        if assembly::assemble(ssc, &raw, &mut rooms).number == 1 {
            raw.numbers[assembly::WARPS].clear();
            raw.numbers[assembly::WARPS + 1].clear();
            raw.marks.clear();
        }
        assert_eq!(assembly::assemble(ssc, &raw, &mut rooms).number, 0, "{name}");
        self.line(
            &format!("compute_timing_segments, {name}"),
            1,
            || {
                black_box(assembly::assemble(ssc, black_box(&raw), &mut rooms));
            },
            || drop(black_box(assembly::original(ssc, black_box(&raw)))),
        );
    }

    /// A stop, a delay and a warp on every beat, and a tempo on every fourth.
    fn sm_stops(&mut self, entries: usize) {
        let beats: Vec<f32> = (0..entries).map(|place| place as f32).collect();
        let list = |value: f32| (beats.clone(), vec![value; entries]);
        let tempos = (beats.iter().step_by(4).copied().collect(), vec![120.0; entries.div_ceil(4)]);
        let stops = beats.iter().flat_map(|beat| [*beat, 0.25]).collect();
        let lists = sm_stops::Lists { tempos, stops, delays: list(0.5), warps: list(0.25) };
        let [tempos, stops, delays, warps] = lists.pairs();
        let mut work = vec![0.0; 6 * entries];
        self.line(
            &format!("convert_warps_and_delays_to_sm_stops of 3 x {entries}"),
            1,
            || {
                black_box(black_box(&lists).port(&mut work));
            },
            || {
                drop(black_box(convert_warps_and_delays_to_sm_stops(
                    black_box(&tempos),
                    black_box(&stops),
                    black_box(&delays),
                    black_box(&warps),
                )))
            },
        );
    }
}

impl Bench {
    /// A tempo and a stop every few beats, in order or the newest first.
    fn processing<F: Format>(&mut self, tempos: usize, stops: usize, newest_first: bool) {
        let mut random = Random::new(1, "bench of processing");
        let mut columns: [Vec<f64>; 4] = [
            (0..tempos).map(|place| place as f64 * 4.0).collect(),
            (0..tempos).map(|_| 60.0 + random.part() * 200.0).collect(),
            (0..stops).map(|place| place as f64 * 5.0 + 0.5).collect(),
            (0..stops).map(|_| 0.05 + random.part()).collect(),
        ];
        if newest_first {
            columns.iter_mut().for_each(|column| column.reverse());
        }
        let lists = charts::Lists { columns };
        let (list, segments) = (processing::tempos(&lists), processing::stops(&lists));
        let lengths = [tempos, tempos, stops, stops, tempos + stops, tempos + stops];
        let mut rooms: Rooms = lengths.map(|length| vec![0.0; length]);
        self.line(
            &format!("{} of {tempos} tempos, {stops} stops{}", F::NAME, ["", ", reversed"][usize::from(newest_first)]),
            1,
            || {
                black_box(F::port(black_box(&lists), &mut rooms, &lengths));
            },
            || drop(black_box(F::original(black_box(&list), black_box(&segments)))),
        );
    }
}

impl Bench {
    /// A scroll every beat and a half, with the ratios one after the other or, where none is given, any; beats of rows in no order.
    fn displayed(&mut self, entries: usize, name: &str, ratios: &[f32]) {
        let random = &mut Random::new(1, "bench of displayed beats");
        let ratio = |place: usize, random: &mut Random| match ratios.len() {
            0 => 0.01 + random.part() as f32 * 4.0,
            count => ratios[place % count],
        };
        let scrolls = ScrollList {
            beats: (0..entries).map(|place| place as f32 * 1.5).collect(),
            ratios: (0..entries).map(|place| ratio(place, random)).collect(),
        };
        let rows = entries as u64 * 72;
        let beats: Vec<f64> = (0..2_000).map(|_| random.below(rows) as f64 / 48.0).collect();
        let (timing, mut prefix) = (scrolls.original(), vec![0.0; entries]);
        assert_eq!(scrolls.prefix(&mut prefix).number, 0);
        let (mut numbers, mut positions, mut others) = (vec![0; 2_000], vec![0.0; 2_000], vec![0.0; 2_000]);
        let mut original = || {
            for (beat, other) in black_box(&beats).iter().zip(black_box(&mut others)) {
                *other = get_displayed_beat(black_box(&timing), *beat);
            }
        };
        self.line(
            &format!("get_displayed_beat_checked over {entries} scrolls, {name}"),
            beats.len(),
            || {
                for (beat, position) in black_box(&beats).iter().zip(black_box(&mut positions)) {
                    *position = black_box(&scrolls).displayed_checked(black_box(&prefix), *beat).beat;
                }
            },
            &mut original,
        );
        self.line(
            &format!("get_displayed_beats over {entries} scrolls, {name}"),
            beats.len(),
            || {
                black_box(black_box(&scrolls).displayed_each(black_box(&beats), &mut numbers, &mut positions));
            },
            &mut original,
        );
        self.line(
            &format!("get_displayed_beat over {entries} scrolls, {name}, tests of the list and all"),
            beats.len(),
            || {
                for (beat, position) in black_box(&beats).iter().zip(black_box(&mut positions)) {
                    *position = black_box(&scrolls).displayed(*beat).beat;
                }
            },
            &mut original,
        );
    }

    /// 200 measures of four lanes, of so many rows in turn.
    fn row_to_beat(&mut self, name: &str, rows: &[usize]) {
        let mut data = Vec::new();
        for measure in 0..200 {
            (0..rows[measure % rows.len()]).for_each(|row| data.extend_from_slice([b"0100\n", b"0000\n"][row % 2]));
            data.extend_from_slice(b",\n");
        }
        let mut beats = vec![0.0; data.len()];
        self.line(
            &format!("compute_row_to_beat of 200 measures, {name}"),
            1,
            || {
                black_box(notes::row_to_beat(black_box(&data), &mut beats));
            },
            || drop(black_box(compute_row_to_beat(black_box(&data)))),
        );
    }

    /// A tempo list as text, on a page that holds any such list, and on one just as long as the text.
    fn tempo_text<N: Width>(&mut self, entries: usize) {
        let random = &mut Random::new(1, "bench of the tempo text");
        let beats: Vec<N> = (0..entries).map(|place| N::of(place as f64 * 4.0)).collect();
        let tempos: Vec<N> = (0..entries).map(|_| N::of((60_000 + random.below(200_000)) as f64 / 1_000.0)).collect();
        let list = tempo_text::Tempos { beats, tempos };
        let pairs: Vec<(N, N)> = list.beats.iter().copied().zip(list.tempos.iter().copied()).collect();
        for (name, room) in [
            ("on a page for any", entries * MOST_ENTRY_BYTES),
            ("on a page as long as the text", list.original().len()),
        ] {
            let mut page = vec![0; room];
            self.line(
                &format!("{} of {entries} {name}", N::NAME),
                entries,
                || {
                    black_box(N::port(black_box(&list.beats), black_box(&list.tempos), &mut page));
                },
                || drop(black_box(N::original(black_box(&pairs)))),
            );
        }
    }

    /// The multiply-add alone, beside the processor's.
    fn mul_add(&mut self) {
        let random = &mut Random::new(1, "bench of the multiply-add");
        let beat = |random: &mut Random| random.below(48_000) as f64 / 48.0;
        let grid: Vec<[f64; 3]> = (0..ENTRIES)
            .map(|place| [beat(random), [1.0, 0.5, 2.0, f64::from(1.37f32)][place % 4], beat(random)])
            .collect();
        let seconds: Vec<[f64; 3]> =
            (0..ENTRIES).map(|_| [random.part() * 200.0, random.part() * 4.0, beat(random)]).collect();
        let mut out = vec![0.0; ENTRIES];
        let mut hardware = vec![0.0; ENTRIES];
        for (name, numbers) in [("beats on rows, usual ratios", grid), ("seconds and any tempo", seconds)] {
            self.line(
                &format!("mul_add_f64, {name}"),
                ENTRIES,
                || {
                    for ([a, b, c], out) in black_box(&numbers).iter().zip(black_box(&mut out)) {
                        *out = notes::mul_add_f64(*a, *b, *c);
                    }
                },
                || {
                    for ([a, b, c], out) in black_box(&numbers).iter().zip(black_box(&mut hardware)) {
                        *out = a.mul_add(*b, *c);
                    }
                },
            );
        }
        let rows: Vec<[f32; 3]> =
            (0..ENTRIES).map(|place| [(place % 48) as f32, 4.0 / 48.0, (place / 48) as f32 * 4.0]).collect();
        let (mut out, mut hardware) = (vec![0.0; ENTRIES], vec![0.0; ENTRIES]);
        self.line(
            "mul_add_f32, rows of measures",
            ENTRIES,
            || {
                for ([a, b, c], out) in black_box(&rows).iter().zip(black_box(&mut out)) {
                    *out = notes::mul_add_f32(*a, *b, *c);
                }
            },
            || {
                for ([a, b, c], out) in black_box(&rows).iter().zip(black_box(&mut hardware)) {
                    *out = a.mul_add(*b, *c);
                }
            },
        );
    }
}

/// Lists of so many tempos, stops, delays and warps over 500 beats.
fn chart(entries: [usize; 4]) -> Chart {
    let mut chart = Chart { offset: -0.25, global: 0.009, ..Chart::default() };
    for list in [TEMPOS, STOPS, DELAYS, WARPS] {
        let (count, value) = (entries[list], [140.0, 0.5, 0.25, 1.5][list]);
        let beat = |place: usize| (place * 24_000 / count) as f32 / 48.0 + list as f32 / 3.0;
        chart.lists[list] = ((0..count).map(beat).collect(), (0..count).map(|place| value + place as f32).collect());
    }
    chart.lists[WARPS].1.fill(1.5);
    chart
}

impl Bench {
    /// 2,000 questions a quarter of a beat apart, as one run, and one by one.
    fn clock(&mut self, name: &str, chart: &Chart, (order, arrange): Order) {
        let mut beats: Vec<_> = (0..2_000).map(|place| place as f64 / 4.0).collect();
        arrange(&mut beats, &mut Random::new(1, "bench of the clock"));
        let (timing, fresh, count) = (chart.original(), Cursor::fresh(chart.offset, chart.global), beats.len());
        assert_eq!(clock::check_timing(chart), 0);
        let mut columns = Columns { numbers: vec![0; count], times: vec![0.0; count], counts: vec![0; count] };
        let mut times = vec![0.0; count];
        let mut original = || {
            let mut cursor = probe::BeatCursor::new(black_box(&timing));
            for (beat, time) in black_box(&beats).iter().zip(black_box(&mut times)) {
                *time = cursor.time_for_beat(*beat);
            }
        };
        self.line(
            &format!("run over {name}, {order}"),
            count,
            || {
                black_box(clock::run(fresh, black_box(chart), black_box(&beats), &mut columns, [count; 3]));
            },
            &mut original,
        );
        type Question = fn(&mut Cursor, &Chart, f64) -> f64;
        let forms: [(&str, Question); 3] = [
            ("lent_time_for_beat_checked", |cursor, chart, beat| {
                clock::lent_time_for_beat_checked(cursor, chart, beat).time
            }),
            ("time_for_beat_checked", |cursor, chart, beat| {
                let answer = clock::time_for_beat_checked(*cursor, chart, beat);
                *cursor = answer.cursor;
                answer.time
            }),
            ("time_for_beat, tests of the lists and all,", |cursor, chart, beat| {
                let answer = clock::time_for_beat(*cursor, chart, beat);
                *cursor = answer.cursor;
                answer.time
            }),
        ];
        for (form, ask) in forms {
            self.line(
                &format!("{form} over {name}, {order}"),
                count,
                || {
                    let mut cursor = fresh;
                    for (beat, time) in black_box(&beats).iter().zip(black_box(&mut columns.times)) {
                        *time = ask(&mut cursor, black_box(chart), *beat);
                    }
                },
                &mut original,
            );
        }
    }
}

impl Bench {
    /// 2,000 beats of an outro, each asked of a fresh cursor, and as a run that is tested once, the mark made anew for that.
    fn past_the_end(&mut self, name: &str, chart: &Chart) {
        let beats: Vec<_> = (0..2_000).map(|place| 600.0 + place as f64 / 4.0).collect();
        let (timing, fresh, count) = (chart.original(), Cursor::fresh(chart.offset, chart.global), beats.len());
        let made = marked::make_mark(chart);
        assert_eq!(made.number, 0);
        assert!(f64::from(made.mark.row) < beats[0] * 48.0, "{name} ends before the beats");
        let (mut times, mut others) = (vec![0.0; count], vec![0.0; count]);
        let mut original = || {
            for (beat, time) in black_box(&beats).iter().zip(black_box(&mut others)) {
                *time = get_time_for_beat(black_box(&timing), *beat);
            }
        };
        self.line(
            &format!("lent_time_for_beat_checked_marked past the end of {name}"),
            count,
            || {
                for (beat, time) in black_box(&beats).iter().zip(black_box(&mut times)) {
                    let mut cursor = fresh;
                    let (mark, chart) = (*black_box(&made.mark), black_box(chart));
                    *time = marked::lent_time_for_beat_checked_marked(&mut cursor, mark, chart, *beat).time;
                }
            },
            &mut original,
        );
        self.line(
            &format!("time_for_beat_checked_marked past the end of {name}"),
            count,
            || {
                for (beat, time) in black_box(&beats).iter().zip(black_box(&mut times)) {
                    let (mark, chart) = (*black_box(&made.mark), black_box(chart));
                    *time = marked::time_for_beat_checked_marked(fresh, mark, chart, *beat).time;
                }
            },
            &mut original,
        );
        let mut columns = Columns { numbers: vec![0; count], times: vec![0.0; count], counts: vec![0; count] };
        self.line(
            &format!("run_marked past the end of {name}"),
            count,
            || {
                black_box(marked::run_marked(
                    fresh,
                    made.mark,
                    black_box(chart),
                    black_box(&beats),
                    &mut columns,
                    [count; 3],
                ));
            },
            &mut original,
        );
    }

    /// Questions up to the mark's own row, a quarter of a beat apart: marked, and not.
    fn before_the_mark(&mut self, name: &str, chart: &Chart, (order, arrange): Order) {
        let mark = marked::make_mark(chart).mark;
        let last = f64::from(mark.row) / 48.0;
        let mut beats: Vec<_> = (0..2_000).map(|place| place as f64 / 4.0).filter(|beat| *beat <= last).collect();
        arrange(&mut beats, &mut Random::new(1, "bench of the clock"));
        let (fresh, count) = (Cursor::fresh(chart.offset, chart.global), beats.len());
        let (mut times, mut others) = (vec![0.0; count], vec![0.0; count]);
        self.beside(
            &format!("lent_time_for_beat_checked_marked over {name}, {order}"),
            count,
            || {
                let mut cursor = fresh;
                for (beat, time) in black_box(&beats).iter().zip(black_box(&mut times)) {
                    let chart = black_box(chart);
                    *time =
                        marked::lent_time_for_beat_checked_marked(&mut cursor, *black_box(&mark), chart, *beat).time;
                }
            },
            "lent_time_for_beat_checked",
            || {
                let mut cursor = fresh;
                for (beat, time) in black_box(&beats).iter().zip(black_box(&mut others)) {
                    *time = clock::lent_time_for_beat_checked(&mut cursor, black_box(chart), *beat).time;
                }
            },
        );
    }
}

impl Bench {
    /// Times from the first event to behind the last, evenly spread.
    fn by_time(&mut self, name: &str, chart: &Chart, (order, arrange): Order) {
        let last = clock::fresh_time_for_beat(chart, 520.0).time;
        let mut times: Vec<_> = (0..2_000).map(|place| last * place as f64 / 2_000.0).collect();
        arrange(&mut times, &mut Random::new(1, "bench of beat from time"));
        let (timing, count) = (chart.original(), times.len());
        assert_eq!(clock::check_timing(chart), 0);
        let (mut beats, mut others) = (vec![0.0; count], vec![0.0; count]);
        let mut original = || {
            for (time, beat) in black_box(&times).iter().zip(black_box(&mut others)) {
                *beat = get_beat_info_from_time(black_box(&timing), *time).beat;
            }
        };
        type Question = fn(&Chart, f64) -> f64;
        let forms: [(&str, Question); 2] = [
            ("get_beat_info_from_time_checked", |chart, time| {
                by_time::get_beat_info_from_time_checked(chart, time).beat
            }),
            ("get_beat_info_from_time, tests of the lists and all,", |chart, time| {
                by_time::get_beat_info_from_time(chart, time).beat
            }),
        ];
        for (form, ask) in forms {
            self.line(
                &format!("{form} over {name}, {order}"),
                count,
                || {
                    for (time, beat) in black_box(&times).iter().zip(black_box(&mut beats)) {
                        *beat = ask(black_box(chart), *time);
                    }
                },
                &mut original,
            );
        }
        let mut columns = by_time::Columns::new(count);
        self.line(
            &format!("get_beat_infos_from_times over {name}, {order}"),
            count,
            || {
                black_box(by_time::get_beat_infos_from_times(
                    black_box(chart),
                    black_box(&times),
                    &mut columns,
                    [count; 5],
                ));
            },
            &mut original,
        );
    }
}

impl Bench {
    /// Rows evenly spread over 500 beats.
    fn note_sheet(&mut self, name: &str, chart: &Chart, count: usize) {
        let rows: Vec<i32> = (0..count).map(|place| (place * 24_000 / count) as i32).collect();
        let (song, timing) = (Song { chart: chart.clone(), ..Song::default() }, chart.original());
        let (mut ours, mut theirs) = (sheet::Columns::new(count), sheet::Columns::new(count));
        assert_eq!(sheet::note_sheet(&song, &rows, &mut ours, [count; 3]).number, 0);
        self.line(
            &format!("note_sheet of {count} rows over {name}"),
            count,
            || {
                black_box(sheet::note_sheet(black_box(&song), black_box(&rows), &mut ours, [count; 3]));
            },
            || {
                let mut cursor = probe::BeatCursor::new(black_box(&timing));
                for (row, time) in black_box(&rows).iter().zip(&mut theirs.times) {
                    *time = cursor.time_for_beat(f64::from(*row) / 48.0);
                }
                probe::judgable_rows(black_box(&timing), black_box(&rows), &mut theirs.judged);
                for (row, snap) in black_box(&rows).iter().zip(&mut theirs.snaps) {
                    *snap = sheet::snap_by_remainder(*row);
                }
                black_box(&theirs);
            },
        );
    }
}

impl Bench {
    /// Values are all apart: of others an entry is soon placed in a list that falls, and the list is refused at once.
    fn mend(&mut self, entries: usize) {
        let mut random = Random::new(1, "mend");
        let mut order: Vec<f64> = (0..entries).map(|place| place as f64).collect();
        (1..entries).rev().for_each(|place| order.swap(place, random.below(place as u64 + 1) as usize));
        let beats: Vec<f64> = order.iter().map(|place| place / 4.0).collect();
        let room = || vec![0.0; entries];
        let mut tidied = [room(), room()];
        let scrolls = List::Scrolls([beats.clone(), order.clone()]);
        let mut rooms = MendRooms { list: List::Scrolls([room(), room()]), fates: vec![0; entries] };
        assert_eq!(mend_calls::port(&scrolls, &mut rooms, &[entries; 3]).count, entries);
        self.beside(
            &format!("mend_scrolls of {entries} in no order"),
            1,
            || {
                black_box(mend_calls::port(black_box(&scrolls), &mut rooms, &[entries; 3]));
            },
            "tidy_scroll_segments",
            || {
                let [out_beats, out_values] = &mut tidied;
                black_box(Scrolls::port(black_box(&beats), black_box(&order), out_beats, out_values));
            },
        );
        let speeds = List::Speeds([beats.clone(), order.clone(), room()], vec![0; entries]);
        let mut rooms =
            MendRooms { list: List::Speeds([room(), room(), room()], vec![0; entries]), fates: vec![0; entries] };
        assert_eq!(mend_calls::port(&speeds, &mut rooms, &[entries; 5]).count, entries);
        let list = SpeedColumns { numbers: [beats, order, room()], units: vec![0; entries] };
        let (mut numbers, mut units) = ([room(), room(), room()], vec![0; entries]);
        self.beside(
            &format!("mend_speeds of {entries} in no order"),
            1,
            || {
                black_box(mend_calls::port(black_box(&speeds), &mut rooms, &[entries; 5]));
            },
            "tidy_speed_segments",
            || {
                let lent = numbers.each_mut().map(|column| &mut column[..]);
                black_box(speeds::port(black_box(&list), lent, &mut units));
            },
        );
    }
}

impl Bench {
    /// Laying out beside the tests of the timing, which it has too; a question at the first beat, half way and behind all events, beside the clock's to a fresh cursor.
    fn bench_clock(&mut self, name: &str, chart: &Chart) {
        let most = bench_clock::most_events(chart);
        let (mut columns, rooms) = (bench_clock::Columns::new(most), [most; 3]);
        let laid = bench_clock::lay_out_events(chart, &mut columns, rooms);
        assert_eq!(laid.number, 0);
        self.beside(
            &format!("lay_out_events of {name}, {} events laid", laid.count),
            1,
            || {
                black_box(bench_clock::lay_out_events(black_box(chart), &mut columns, rooms));
            },
            "check_timing",
            || {
                black_box(clock::check_timing(black_box(chart)));
            },
        );
        for beat in [-1.0, 250.0, 600.0] {
            let answer = bench_clock::bench_time_for_beat(chart, beat, &mut columns, rooms);
            assert_eq!((answer.number, answer.count), (0, clock::fresh_time_for_beat(chart, beat).count));
            self.beside(
                &format!("bench_time_for_beat of {name}, {} events laid and {} passed", answer.laid, answer.count - 1),
                1,
                || {
                    black_box(bench_clock::bench_time_for_beat(black_box(chart), black_box(beat), &mut columns, rooms));
                },
                "get_time_for_beat",
                || {
                    black_box(clock::fresh_time_for_beat(black_box(chart), black_box(beat)));
                },
            );
        }
    }
}

type Order = (&'static str, fn(&mut [f64], &mut Random));

const ORDERS: [Order; 3] = [("ordered", |_, _| ()), ("shuffled", shuffle), ("reversed", |beats, _| beats.reverse())];

/// Over the whole range of beats, in no order.
const SPREAD: Order =
    ("spread", |beats, random| beats.iter_mut().for_each(|beat| *beat = random.part() * 131_072.0 - 65_536.0));

const ASKED: [Order; 3] = [("rising", |_, _| ()), ("falling", |beats, _| beats.reverse()), ("in no order", shuffle)];

fn shuffle(beats: &mut [f64], random: &mut Random) {
    for place in (1..beats.len()).rev() {
        beats.swap(place, random.below(place as u64 + 1) as usize);
    }
}

impl Visit for Bench {
    fn visit<C: Call>(&mut self) {
        let mut random = Random::new(1, "bench");
        let from: Vec<_> = (0..ENTRIES).map(|_| C::From::typical(&mut random)).collect();
        let (mut port, mut original) = (vec![C::To::default(); ENTRIES], vec![C::To::default(); ENTRIES]);
        self.line(
            C::NAME,
            ENTRIES,
            || C::port_each(black_box(&from), black_box(&mut port)),
            || C::original_each(black_box(&from), black_box(&mut original)),
        );
    }
}

fn ask_each(rows: &[i32], ask: impl Fn(i32) -> bool) {
    for row in rows {
        black_box(ask(black_box(*row)));
    }
}

fn time(rounds: u32, work: &mut impl FnMut()) -> Duration {
    let start = Instant::now();
    (0..rounds).for_each(|_| work());
    start.elapsed()
}

/// The best time of each, in nanoseconds.
fn in_turns(one: &mut impl FnMut(), other: &mut impl FnMut()) -> [f64; 2] {
    let rounds = rounds(other).max(rounds(one));
    let mut best = [Duration::MAX; 2];
    for _ in 0..TIMES {
        best[0] = best[0].min(time(rounds, one));
        best[1] = best[1].min(time(rounds, other));
    }
    best.map(|time| time.as_nanos() as f64 / f64::from(rounds))
}

/// How often the work is done in one time.
fn rounds(work: &mut impl FnMut()) -> u32 {
    let mut rounds = 1;
    while time(rounds, work) < LASTS {
        rounds *= 2;
    }
    rounds
}
