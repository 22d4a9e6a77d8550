//! Assembly of the seven lists: the rules read plainly over the original's functions, and the entries off the grid and the marks of warps, which the original has
//! not; and the port, and their comparison.

use crate::cases::power;
use crate::timing::{Segment, SpeedSegment, SpeedUnit, probe};
use std::collections::BTreeMap;

/// The raw lists with their places among the columns of numbers: beats first, then values. Speeds have two columns of values and one of units.
#[derive(Clone, Debug, Default)]
pub struct Raw {
    pub numbers: [Vec<f64>; 15],
    pub units: Vec<u8>,
    /// of each warp 0 where it was written, 1 where it was made
    pub marks: Vec<u8>,
}

pub const TEMPOS: usize = 0;
pub const STOPS: usize = 2;
pub const DELAYS: usize = 4;
pub const WARPS: usize = 6;
pub const SPEEDS: usize = 8;
pub const SCROLLS: usize = 11;
pub const FAKES: usize = 13;

/// What assembly writes: tempos, stops, delays, warps, scrolls and fakes, and the speeds; the mark of each warp; and how many raw entries were off the grid.
#[derive(Clone, Debug, Default)]
pub struct Lists {
    pub offset: f32,
    pub pairs: [Vec<(f32, f32)>; 6],
    pub speeds: Vec<(f32, f32, f32, u8)>,
    pub marks: Vec<u8>,
    pub moved: Moved,
}

/// Of each list, how many of its raw entries were off the grid.
#[derive(Clone, Copy, Debug, Default, PartialEq)]
#[repr(C)]
pub struct Moved {
    pub tempos: u32,
    pub stops: u32,
    pub delays: u32,
    pub warps: u32,
    pub speeds: u32,
    pub scrolls: u32,
    pub fakes: u32,
}

impl Moved {
    pub fn total(&self) -> u32 {
        self.tempos + self.stops + self.delays + self.warps + self.speeds + self.scrolls + self.fakes
    }

    /// Of the entries that the test keeps, those that another test says are off the grid.
    pub fn by(raw: &Raw, stays: impl Fn(f64, f64) -> bool, off: impl Fn(f64) -> bool) -> Self {
        let all = |list: usize| raw.numbers[list].iter().filter(|beat| off(**beat)).count() as u32;
        let stayed = |list: usize| {
            raw.segments(list).iter().filter(|entry| stays(entry.beat, entry.value) && off(entry.beat)).count() as u32
        };
        Self {
            tempos: stayed(TEMPOS),
            stops: stayed(STOPS),
            delays: all(DELAYS),
            warps: all(WARPS),
            speeds: all(SPEEDS),
            scrolls: all(SCROLLS),
            fakes: all(FAKES),
        }
    }
}

/// Whether the format keeps a raw tempo or stop.
pub fn stays(ssc: bool, beat: f64, value: f64) -> bool {
    let finite = beat.is_finite() && value.is_finite();
    finite && if ssc { beat >= 0.0 && value > 0.0 } else { value != 0.0 }
}

/// Whether a beat's f32 is not, by value, the f32 beat of its row.
pub fn off_grid(beat: f64) -> bool {
    let narrow = beat as f32;
    narrow != (narrow * 48.0).round_ties_even() / 48.0
}

impl Raw {
    fn columns(&self, list: usize) -> &[Vec<f64>] {
        &self.numbers[list..list + if list == SPEEDS { 3 } else { 2 }]
    }

    fn segments(&self, list: usize) -> Vec<Segment> {
        self.numbers[list].iter().zip(&self.numbers[list + 1]).map(|(&beat, &value)| Segment { beat, value }).collect()
    }

    /// A list is refused for its length, its columns, a beat, then a value. Of tempos and stops what is not finite passes, to be dropped later.
    fn list_number(&self, list: usize) -> u32 {
        let dropped = list < DELAYS;
        let beat_taken = |beat: &f64| if beat.is_finite() { beat.abs() <= 65_536.0 } else { dropped };
        let value_taken = |value: &f64| {
            if !value.is_finite() {
                dropped
            } else if dropped {
                *value == 0.0 || (power(-20)..=power(30)).contains(&value.abs())
            } else {
                value.abs() <= power(30)
            }
        };
        let columns = self.columns(list);
        let mut lengths: Vec<usize> = columns.iter().map(Vec::len).collect();
        if list == SPEEDS {
            lengths.push(self.units.len());
        }
        if lengths.iter().any(|length| *length > 1_024) {
            1
        } else if lengths.iter().any(|length| *length != lengths[0]) {
            2
        } else if !columns[0].iter().all(beat_taken) {
            3
        } else if !columns[1..].iter().flatten().all(value_taken)
            || list == SPEEDS && self.units.iter().any(|unit| *unit > 1)
        {
            4
        } else {
            0
        }
    }
}

/// What a column of marks answers beside so many warps.
pub fn marks_number(warps: usize, marks: &[u8]) -> u32 {
    if marks.len() > 1_024 {
        1
    } else if marks.len() != warps {
        2
    } else if marks.iter().any(|mark| *mark > 1) {
        4
    } else {
        0
    }
}

/// Of each row of warps the mark of the one that came last: the given marks are for the first, and made ones follow with 1.
fn marks_by_rows(warps: &[Segment], given: &[u8]) -> Vec<u8> {
    let marks = given.iter().copied().chain(std::iter::repeat(1));
    let rows: BTreeMap<i32, u8> = warps
        .iter()
        .zip(marks)
        .map(|(warp, mark)| (probe::beat_to_note_row(probe::quantize_beat(warp.beat)), mark))
        .collect();
    rows.into_values().collect()
}

/// Whether the original's way with entries that are not in order meets a kept list that falls.
fn falls<T: Copy>(list: &[T], beat: impl Fn(&T) -> f64, add: impl Fn(&mut Vec<T>, T)) -> bool {
    let fallen = |list: &[T]| list.windows(2).any(|pair| beat(&pair[1]) < beat(&pair[0]));
    let mut kept = Vec::new();
    fallen(list)
        && list.iter().any(|entry| {
            let before = fallen(&kept);
            if kept.is_empty() {
                kept.push(*entry);
            } else {
                add(&mut kept, *entry);
            }
            before
        })
}

fn on_row(beat: f64) -> f64 {
    probe::note_row_to_beat(probe::beat_to_note_row(beat))
}

fn quantized(list: &[Segment], values: bool) -> Vec<Segment> {
    let value = |value| if values { probe::quantize_beat(value) } else { value };
    list.iter().map(|entry| Segment { beat: probe::quantize_beat(entry.beat), value: value(entry.value) }).collect()
}

/// Tempos, stops, made warps and the offset, as the original processes them.
type Processed = (Vec<(f64, f64)>, Vec<Segment>, Vec<Segment>, f64);

fn processed(ssc: bool, raw: &Raw) -> Processed {
    let mut tempos: Vec<(f64, f64)> = raw.segments(TEMPOS).iter().map(|entry| (entry.beat, entry.value)).collect();
    if tempos.is_empty() {
        tempos.push((0.0, 60.0));
    }
    let stops = raw.segments(STOPS);
    let (mut tempos, stops, made, offset) = if ssc {
        probe::process_bpms_and_stops_ssc(tempos, stops)
    } else {
        probe::process_bpms_and_stops_sm(&tempos, &stops)
    };
    if tempos.is_empty() {
        tempos.push((0.0, 60.0));
    }
    (tempos, stops, made, offset)
}

fn quantized_speeds(raw: &Raw) -> Vec<SpeedSegment> {
    (0..raw.units.len())
        .map(|place| SpeedSegment {
            beat: probe::quantize_beat(raw.numbers[SPEEDS][place]),
            ratio: raw.numbers[SPEEDS + 1][place],
            delay: raw.numbers[SPEEDS + 2][place],
            unit: if raw.units[place] == 0 { SpeedUnit::Beats } else { SpeedUnit::Seconds },
        })
        .collect()
}

/// The original's own steps, with no test of a number.
pub fn original(ssc: bool, raw: &Raw) -> Lists {
    laid(raw, processed(ssc, raw))
}

fn laid(raw: &Raw, (tempos, stops, made, offset): Processed) -> Lists {
    let mut warps = raw.segments(WARPS);
    warps.extend(made);
    let marks = marks_by_rows(&warps, &raw.marks);
    let narrowed = |list: Vec<Segment>| list.iter().map(|entry| (entry.beat as f32, entry.value as f32)).collect();
    Lists {
        offset: offset as f32,
        pairs: [
            tempos.into_iter().map(|(beat, value)| (beat as f32, value as f32)).collect(),
            narrowed(probe::tidy_row_segments(stops)),
            narrowed(probe::tidy_row_segments(quantized(&raw.segments(DELAYS), false))),
            narrowed(probe::tidy_row_segments(quantized(&warps, true))),
            narrowed(probe::tidy_scroll_segments(quantized(&raw.segments(SCROLLS), false))),
            narrowed(probe::tidy_row_segments(quantized(&raw.segments(FAKES), true))),
        ],
        speeds: probe::tidy_speed_segments(quantized_speeds(raw))
            .iter()
            .map(|entry| {
                let unit = u8::from(matches!(entry.unit, SpeedUnit::Seconds));
                (entry.beat as f32, entry.ratio as f32, entry.delay as f32, unit)
            })
            .collect(),
        marks,
        moved: Moved::default(),
    }
}

/// The lists, or the number by which they are refused: raw tests, then warps given and made above `most`, then scrolls or speeds that fall.
pub fn assembled(ssc: bool, raw: &Raw, most: usize) -> Result<Lists, u32> {
    let lists = [TEMPOS, STOPS, DELAYS, WARPS, SPEEDS, SCROLLS, FAKES];
    let numbers = lists.into_iter().map(|list| raw.list_number(list));
    let numbers = numbers.chain([marks_number(raw.numbers[WARPS].len(), &raw.marks)]);
    if let Some(number) = numbers.filter(|number| *number != 0).min() {
        return Err(number);
    }
    let processed = processed(ssc, raw);
    if raw.numbers[WARPS].len() + processed.2.len() > most {
        return Err(1);
    }
    let scrolls: Vec<_> = quantized(&raw.segments(SCROLLS), false)
        .iter()
        .map(|entry| Segment { beat: on_row(entry.beat), ..*entry })
        .collect();
    let speeds: Vec<_> =
        quantized_speeds(raw).iter().map(|entry| SpeedSegment { beat: on_row(entry.beat), ..*entry }).collect();
    if falls(&scrolls, |entry| entry.beat, probe::add_scroll_segment_slow)
        || falls(&speeds, |entry| entry.beat, probe::add_speed_segment_slow)
    {
        return Err(6);
    }
    let moved = Moved::by(raw, |beat, value| stays(ssc, beat, value), off_grid);
    Ok(Lists { moved, ..laid(raw, processed) })
}

#[cfg(feature = "port")]
pub use port::{Assembled, Call, MARKS, Rooms, assemble, compare, compare_all, typical};

#[cfg(feature = "port")]
mod port {
    use super::*;
    use crate::cases::Work;
    use crate::clock::Found;
    use crate::numbers::Number;
    use crate::random::Random;
    use crate::tally::Total;
    use crate::{charts, lists, warp_marks};

    #[derive(Clone, Copy, Debug, PartialEq)]
    #[repr(C)]
    pub struct Assembled {
        pub number: u32,
        pub tempos: usize,
        pub stops: usize,
        pub delays: usize,
        pub warps: usize,
        pub speeds: usize,
        pub scrolls: usize,
        pub fakes: usize,
        pub offset: f32,
        pub moved: Moved,
    }

    /// The call, so that others can be put in its place.
    pub type Call = fn(bool, &Raw, &mut Rooms) -> Assembled;

    /// The columns of results, in the order of the raw ones, each with its length and what stands past it.
    #[derive(Clone, Debug)]
    pub struct Rooms {
        pub numbers: [Vec<f32>; 15],
        pub units: Vec<u8>,
        pub marks: Vec<u8>,
        pub lengths: [usize; 17],
    }

    /// The places of the units and of the marks among the lengths.
    const UNITS: usize = 15;
    pub const MARKS: usize = 16;
    /// How many places past each room are looked at too.
    const PAST: usize = 4;

    type Column<T> = (*const T, usize);

    /// A slice crosses as its pointer and its length.
    pub fn assemble(ssc: bool, raw: &Raw, rooms: &mut Rooms) -> Assembled {
        let fit = rooms.numbers.iter().map(Vec::len).chain([rooms.units.len(), rooms.marks.len()]).zip(rooms.lengths);
        assert!(fit.into_iter().all(|(room, length)| length <= room));
        #[rustfmt::skip]
        unsafe extern "C" {
            #[link_name = "marrighentu_compute_timing_segments"]
            fn call(
                format: u32,
                a: *const f64, al: usize, b: *const f64, bl: usize, c: *const f64, cl: usize, d: *const f64, dl: usize,
                e: *const f64, el: usize, f: *const f64, fl: usize, g: *const f64, gl: usize, h: *const f64, hl: usize,
                marks: *const u8, marks_length: usize,
                i: *const f64, il: usize, j: *const f64, jl: usize, k: *const f64, kl: usize, u: *const u8, ul: usize,
                l: *const f64, ll: usize, m: *const f64, ml: usize, n: *const f64, nl: usize, o: *const f64, ol: usize,
                oa: *const f32, oal: usize, ob: *const f32, obl: usize, oc: *const f32, ocl: usize, od: *const f32, odl: usize,
                oe: *const f32, oel: usize, of: *const f32, ofl: usize, og: *const f32, ogl: usize, oh: *const f32, ohl: usize,
                out_marks: *const u8, out_marks_length: usize,
                oi: *const f32, oil: usize, oj: *const f32, ojl: usize, ok: *const f32, okl: usize, ou: *const u8, oul: usize,
                ol: *const f32, oll: usize, om: *const f32, oml: usize, on: *const f32, onl: usize, oo: *const f32, ool: usize,
            ) -> Assembled;
        }
        let from: [Column<f64>; 15] = raw.numbers.each_ref().map(|column| (column.as_ptr(), column.len()));
        let (unit, units) = (raw.units.as_ptr(), raw.units.len());
        let mut place = 0;
        let out: [Column<f32>; 15] = rooms.numbers.each_mut().map(|room| {
            place += 1;
            (room.as_mut_ptr().cast_const(), rooms.lengths[place - 1])
        });
        let (out_unit, out_units) = (rooms.units.as_mut_ptr().cast_const(), rooms.lengths[UNITS]);
        let (out_mark, out_marks) = (rooms.marks.as_mut_ptr().cast_const(), rooms.lengths[MARKS]);
        let [a, b, c, d, e, f, g, h, i, j, k, l, m, n, o] = from;
        let [oa, ob, oc, od, oe, of, og, oh, oi, oj, ok, ol, om, on, oo] = out;
        // SAFETY: the columns are lent whole and apart, those of results from pointers that may be written.
        unsafe {
            call(
                u32::from(ssc),
                a.0,
                a.1,
                b.0,
                b.1,
                c.0,
                c.1,
                d.0,
                d.1,
                e.0,
                e.1,
                f.0,
                f.1,
                g.0,
                g.1,
                h.0,
                h.1,
                raw.marks.as_ptr(),
                raw.marks.len(),
                i.0,
                i.1,
                j.0,
                j.1,
                k.0,
                k.1,
                unit,
                units,
                l.0,
                l.1,
                m.0,
                m.1,
                n.0,
                n.1,
                o.0,
                o.1,
                oa.0,
                oa.1,
                ob.0,
                ob.1,
                oc.0,
                oc.1,
                od.0,
                od.1,
                oe.0,
                oe.1,
                of.0,
                of.1,
                og.0,
                og.1,
                oh.0,
                oh.1,
                out_mark,
                out_marks,
                oi.0,
                oi.1,
                oj.0,
                oj.1,
                ok.0,
                ok.1,
                out_unit,
                out_units,
                ol.0,
                ol.1,
                om.0,
                om.1,
                on.0,
                on.1,
                oo.0,
                oo.1,
            )
        }
    }

    impl Rooms {
        /// Of the given lengths, filled with numbers of every kind.
        pub fn new(lengths: [usize; 17], random: &mut Random) -> Self {
            let mut place = 0;
            let numbers = [(); 15].map(|()| {
                place += 1;
                (0..lengths[place - 1] + PAST).map(|_| f32::from_bits(random.bits() as u32)).collect()
            });
            let [units, marks] =
                [UNITS, MARKS].map(|place| (0..lengths[place] + PAST).map(|_| random.bits() as u8).collect());
            Self { numbers, units, marks, lengths }
        }

        fn bits(&self) -> (Vec<u64>, &[u8], &[u8]) {
            (self.numbers.iter().flatten().map(|number| number.answer()).collect(), &self.units, &self.marks)
        }

        fn lay(&mut self, column: usize, values: impl Iterator<Item = f32>) {
            values.enumerate().for_each(|(place, value)| self.numbers[column][place] = value);
        }
    }

    /// The first column of each list of pairs, in the order of `Lists`.
    const PAIRS: [usize; 6] = [TEMPOS, STOPS, DELAYS, WARPS, SCROLLS, FAKES];

    fn counts(lists: &Lists) -> [usize; 17] {
        let mut counts = [0; 17];
        for (list, column) in lists.pairs.iter().zip(PAIRS) {
            counts[column..column + 2].fill(list.len());
        }
        counts[SPEEDS..SPEEDS + 3].fill(lists.speeds.len());
        counts[UNITS] = lists.speeds.len();
        counts[MARKS] = lists.marks.len();
        counts
    }

    /// By the original, what the call has to answer, and the rooms as it has to leave them.
    fn expected(lists: &Result<Lists, u32>, rooms: &mut Rooms) -> Assembled {
        let refused = |number| Assembled {
            number,
            tempos: 0,
            stops: 0,
            delays: 0,
            warps: 0,
            speeds: 0,
            scrolls: 0,
            fakes: 0,
            offset: 0.0,
            moved: Moved::default(),
        };
        let lists = match lists {
            Err(number) => return refused(*number),
            Ok(lists) if counts(lists).iter().zip(rooms.lengths).any(|(count, length)| *count > length) => {
                return refused(7);
            }
            Ok(lists) => lists,
        };
        for (list, column) in lists.pairs.iter().zip(PAIRS) {
            rooms.lay(column, list.iter().map(|entry| entry.0));
            rooms.lay(column + 1, list.iter().map(|entry| entry.1));
        }
        rooms.lay(SPEEDS, lists.speeds.iter().map(|entry| entry.0));
        rooms.lay(SPEEDS + 1, lists.speeds.iter().map(|entry| entry.1));
        rooms.lay(SPEEDS + 2, lists.speeds.iter().map(|entry| entry.2));
        lists.speeds.iter().enumerate().for_each(|(place, entry)| rooms.units[place] = entry.3);
        rooms.marks[..lists.marks.len()].copy_from_slice(&lists.marks);
        let [tempos, stops, delays, warps, scrolls, fakes] = lists.pairs.each_ref().map(Vec::len);
        let Lists { offset, moved, .. } = *lists;
        Assembled { number: 0, tempos, stops, delays, warps, speeds: lists.speeds.len(), scrolls, fakes, offset, moved }
    }

    fn same(one: &Assembled, other: &Assembled) -> bool {
        let without_offset = |assembled: &Assembled| Assembled { offset: 0.0, ..*assembled };
        without_offset(one) == without_offset(other) && one.offset.answer() == other.offset.answer()
    }

    impl Raw {
        /// Lists of every length and order, or a few entries on shared beats; one list in ten is spoiled.
        pub fn by_chance(turn: u64, random: &mut Random) -> Self {
            let mut raw = Self::default();
            let [tempo_beats, tempo_values, stop_beats, stop_values] = charts::lists(turn, random).columns;
            for (column, numbers) in [tempo_beats, tempo_values, stop_beats, stop_values].into_iter().enumerate() {
                raw.numbers[column] = numbers;
            }
            let short = random.below(4) != 0;
            for list in [DELAYS, WARPS, SPEEDS, SCROLLS, FAKES] {
                let length = if short { random.below(12) as usize } else { lists::length(turn, random) };
                let mut beats = if short && random.below(2) == 0 {
                    shared_beats(length, random)
                } else {
                    lists::beats(length, random)
                };
                let mut values = lists::values(length, random);
                if random.below(10) == 0 {
                    lists::spoil(&mut beats, &mut values, random);
                }
                raw.numbers[list] = beats;
                if list == SPEEDS {
                    let [ratios, mut delays] = lists::near_pairs(length, random);
                    raw.units = lists::units(length, random);
                    if random.below(20) == 0 {
                        lists::spoil_units(&mut raw.units, random);
                    }
                    if raw.numbers[SPEEDS].len() != length || random.below(20) == 0 {
                        delays = values;
                    }
                    raw.numbers[SPEEDS + 1] = ratios;
                    raw.numbers[SPEEDS + 2] = delays;
                } else {
                    raw.numbers[list + 1] = values;
                }
            }
            raw.marks = warp_marks::marks(raw.numbers[WARPS].len(), random);
            raw
        }

        /// The newest entry first in every list but speeds and scrolls.
        pub fn turn_round(&mut self) {
            for list in [TEMPOS, STOPS, DELAYS, WARPS, FAKES] {
                self.numbers[list].reverse();
                self.numbers[list + 1].reverse();
            }
            self.marks.reverse();
        }
    }

    /// Beats on a few rows, mostly in order.
    fn shared_beats(length: usize, random: &mut Random) -> Vec<f64> {
        let mut beats: Vec<f64> = (0..length).map(|_| random.below(40) as f64 * 0.25 - 1.0).collect();
        if random.below(3) != 0 {
            beats.sort_by(f64::total_cmp);
        }
        beats
    }

    /// A chart in order with so many entries a list, for its time: tempos, stops, delays, warps, speeds, scrolls, fakes.
    pub fn typical([tempos, stops, delays, warps, speeds, scrolls, fakes]: [usize; 7], backward: bool) -> Raw {
        let mut random = Random::new(1, "bench of assembly");
        let mut raw = Raw::default();
        let mut fill = |list: usize, length: usize, values: &dyn Fn(&mut Random, usize) -> f64| {
            raw.numbers[list] = (0..length).map(|place| place as f64 * 4.0 + list as f64 * 0.25).collect();
            raw.numbers[list + 1] = (0..length).map(|place| values(&mut random, place)).collect();
        };
        fill(TEMPOS, tempos, &|random, place| {
            let tempo = 60.0 + random.part() * 200.0;
            if backward && place % 8 == 7 { -tempo } else { tempo }
        });
        fill(STOPS, stops, &|random, _| 0.05 + random.part());
        fill(DELAYS, delays, &|random, _| 0.05 + random.part());
        fill(WARPS, warps, &|random, _| 0.25 + random.part());
        fill(SPEEDS, speeds, &|random, place| place as f64 + random.part());
        fill(SCROLLS, scrolls, &|random, place| place as f64 + random.part());
        fill(FAKES, fakes, &|random, _| 0.25 + random.part());
        raw.numbers[SPEEDS + 2] = (0..speeds).map(|place| place as f64 * 0.5).collect();
        raw.units = vec![0; speeds];
        raw.marks = vec![0; warps];
        raw
    }

    pub fn compare(ssc: bool, work: Work, call: Call) -> Found {
        let mut random = Random::new(work.seed, name(ssc));
        let mut found = Found::default();
        for turn in 0..work.lists() {
            let raw = Raw::by_chance(turn, &mut random);
            let lists = assembled(ssc, &raw, 1_024);
            let mut lengths = lists.as_ref().map_or([12; 17], counts);
            match random.below(6) {
                0 => {
                    let column = random.below(17) as usize;
                    lengths[column] = lengths[column].saturating_sub(1);
                }
                1 => lengths[random.below(17) as usize] = 0,
                2 => lengths = lengths.map(|length| length + random.below(5) as usize),
                3 => lengths = [1_030; 17],
                _ => (),
            }
            let mut wanted = Rooms::new(lengths, &mut random);
            let mut got = wanted.clone();
            let answer = expected(&lists, &mut wanted);
            let assembled = call(ssc, &raw, &mut got);
            found.check(same(&answer, &assembled) && wanted.bits() == got.bits(), || {
                format!("{raw:?}, rooms {lengths:?}: {answer:?}, port {assembled:?}")
            });
        }
        found
    }

    fn name(ssc: bool) -> &'static str {
        if ssc { "compute_timing_segments of SSC" } else { "compute_timing_segments of SM" }
    }

    pub fn compare_all(work: Work, total: &mut Total) {
        for ssc in [true, false] {
            compare(ssc, work, assemble).add(name(ssc), total);
        }
    }
}
