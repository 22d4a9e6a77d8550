//! Beat from time: the original's call and the port's three, with a plain reading that counts beside them.

use crate::cases::{Work, power};
use crate::clock::{self, Cursor, DELAY, Found, STOP, Walker, lowest};
use crate::numbers::Number;
use crate::random::Random;
use crate::stored::{self, Case, Word};
use crate::tally::Total;
use crate::timing::{TimingData, get_beat_info_from_time as original_info};
use crate::timings::{Chart, DELAYS, STOPS, TEMPOS, WARPS};

// ---- the port

#[derive(Clone, Copy, Debug)]
#[repr(C)]
pub struct BeatInfo {
    pub number: u32,
    pub beat: f64,
    pub is_in_freeze: bool,
    pub is_in_delay: bool,
    pub count: usize,
}

clock::port! {
    fn get_beat_info_from_time(; time: f64) -> BeatInfo = "marrighentu_get_beat_info_from_time";
    fn get_beat_info_from_time_checked(; time: f64) -> BeatInfo = "marrighentu_get_beat_info_from_time_checked";
    fn each_over(; times: *const f64, times_len: usize, numbers: *mut u32, numbers_len: usize, beats: *mut f64, beats_len: usize, freezes: *mut u8, freezes_len: usize, delays: *mut u8, delays_len: usize, counts: *mut usize, counts_len: usize) -> u32 = "marrighentu_get_beat_infos_from_times";
}

/// The five columns of a run.
#[derive(Clone, Debug, Default)]
pub struct Columns {
    pub numbers: Vec<u32>,
    pub beats: Vec<f64>,
    pub freezes: Vec<u8>,
    pub delays: Vec<u8>,
    pub counts: Vec<usize>,
}

/// How much of each column is lent.
pub type Rooms = [usize; 5];

/// A run over the front of each column, as long as its room.
#[inline(always)]
pub fn get_beat_infos_from_times(chart: &Chart, times: &[f64], columns: &mut Columns, rooms: Rooms) -> u32 {
    let numbers = &mut columns.numbers[..rooms[0]];
    let beats = &mut columns.beats[..rooms[1]];
    let freezes = &mut columns.freezes[..rooms[2]];
    let delays = &mut columns.delays[..rooms[3]];
    let counts = &mut columns.counts[..rooms[4]];
    each_over(
        chart,
        times.as_ptr(),
        times.len(),
        numbers.as_mut_ptr(),
        numbers.len(),
        beats.as_mut_ptr(),
        beats.len(),
        freezes.as_mut_ptr(),
        freezes.len(),
        delays.as_mut_ptr(),
        delays.len(),
        counts.as_mut_ptr(),
        counts.len(),
    )
}

/// The three calls, so that others can be put in their place.
#[derive(Clone, Copy)]
pub struct Calls {
    pub ask: fn(&Chart, f64) -> BeatInfo,
    pub ask_checked: fn(&Chart, f64) -> BeatInfo,
    pub run: fn(&Chart, &[f64], &mut Columns, Rooms) -> u32,
}

pub const PORT: Calls = Calls {
    ask: get_beat_info_from_time,
    ask_checked: get_beat_info_from_time_checked,
    run: get_beat_infos_from_times,
};

// ---- what is expected

/// Which beat it is at a time, read plainly from the rule: events are passed as long as they are over, and counted.
pub fn read(chart: &Chart, time: f64) -> BeatInfo {
    let elapsed = time + chart.global;
    let mut walker = Walker::new(chart, Cursor::fresh(chart.offset, chart.global).state);
    let mut count = 1;
    while let Some((row, rank)) = walker.next(None) {
        let begins = walker.time_at(row);
        if elapsed < begins {
            break;
        }
        if let Some((beat, lasts)) = walker.pause(rank)
            && elapsed < begins + lasts
        {
            return BeatInfo { number: 0, beat, is_in_freeze: rank == STOP, is_in_delay: rank == DELAY, count };
        }
        walker.pass(row, rank);
        count += 1;
    }
    let beats = walker.beats_a_second();
    let beat = (elapsed - walker.state.time).mul_add(beats, f64::from(walker.state.row) / 48.0);
    BeatInfo { number: 0, beat, is_in_freeze: false, is_in_delay: false, count }
}

impl BeatInfo {
    fn refused(number: u32) -> Self {
        Self { number, beat: 0.0, is_in_freeze: false, is_in_delay: false, count: 0 }
    }

    pub fn same(&self, other: &Self) -> bool {
        let words = |info: &Self| (info.number, info.beat.answer(), info.is_in_freeze, info.is_in_delay, info.count);
        words(self) == words(other)
    }
}

pub fn time_allowed(time: f64) -> bool {
    time.is_finite() && time.abs() <= power(50)
}

impl Columns {
    /// Of so many places each.
    pub fn new(places: usize) -> Self {
        Self {
            numbers: vec![0; places],
            beats: vec![0.0; places],
            freezes: vec![0; places],
            delays: vec![0; places],
            counts: vec![0; places],
        }
    }

    /// Numbers of every kind, with some places past the rooms.
    fn by_chance([numbers, beats, freezes, delays, counts]: Rooms, random: &mut Random) -> Self {
        let mut column = |room: usize| (0..room + PAST).map(|_| random.bits()).collect::<Vec<_>>();
        Self {
            numbers: column(numbers).into_iter().map(|bits| bits as u32).collect(),
            beats: column(beats).into_iter().map(f64::from_bits).collect(),
            freezes: column(freezes).into_iter().map(|bits| bits as u8).collect(),
            delays: column(delays).into_iter().map(|bits| bits as u8).collect(),
            counts: column(counts).into_iter().map(|bits| bits as usize).collect(),
        }
    }

    pub fn lay(&mut self, place: usize, info: BeatInfo) {
        self.numbers[place] = info.number;
        self.beats[place] = info.beat;
        self.freezes[place] = info.is_in_freeze.into();
        self.delays[place] = info.is_in_delay.into();
        self.counts[place] = info.count;
    }

    fn same(&self, other: &Self) -> bool {
        let answers = |column: &[f64]| column.iter().map(|number| number.answer()).collect::<Vec<_>>();
        let rest = |columns: &Self| (columns.numbers.clone(), columns.freezes.clone(), columns.delays.clone());
        rest(self) == rest(other) && self.counts == other.counts && answers(&self.beats) == answers(&other.beats)
    }
}

const PAST: usize = 4;

/// A chart, the number by which it is refused, and where it is not the original's timing and the seconds at which something changes.
struct Timed {
    chart: Chart,
    number: u32,
    timing: Option<TimingData>,
    moments: Vec<f64>,
}

impl Timed {
    fn new(chart: Chart) -> Self {
        let number = chart.number();
        let timing = (number == 0).then(|| chart.original());
        let moments = if number == 0 { moments(&chart) } else { vec![0.0] };
        Self { chart, number, timing, moments }
    }

    fn answer(&self, time: f64) -> BeatInfo {
        match (lowest([self.number, if time_allowed(time) { 0 } else { 4 }]), &self.timing) {
            (0, Some(timing)) => {
                let (original, read) = (original_info(timing, time), read(&self.chart, time));
                let agree = original.beat.answer() == read.beat.answer()
                    && (original.is_in_freeze, original.is_in_delay) == (read.is_in_freeze, read.is_in_delay);
                assert!(agree, "the reading: {:?}, time {time:?}: {original:?}, {read:?}", self.chart);
                assert!(read.count <= self.most(), "more than one round: {:?}, time {time:?}: {read:?}", self.chart);
                read
            }
            (number, _) => BeatInfo::refused(number),
        }
    }

    /// B + S + D + 2W + 1.
    fn most(&self) -> usize {
        let [tempos, stops, delays, warps] = self.chart.lengths();
        tempos + stops + delays + 2 * warps + 1
    }

    /// At what changes, beside it, within it, at the ends of what is taken and beyond them, or at any time.
    fn time(&self, random: &mut Random) -> f64 {
        let moment = self.moments[random.below(self.moments.len() as u64) as usize] - self.chart.global;
        match random.below(12) {
            0..4 => moment,
            4 => moment.moved(1),
            5 => moment.moved(-1),
            6 => moment + random.part(),
            7 => moment - random.part(),
            8 => (random.part() - 0.5) * power(random.below(52) as i32),
            9 => 0.0 * random.sign(),
            10 => power(50) * random.sign(),
            _ => [f64::NAN, f64::INFINITY, f64::NEG_INFINITY, power(50).moved(1), -power(50).moved(1), f64::MAX]
                [random.below(6) as usize],
        }
    }

    fn question(&self, calls: Calls, time: f64, found: &mut Found) {
        let (chart, wanted) = (&self.chart, self.answer(time));
        let mut check = |name: &str, got: BeatInfo| {
            found.check(wanted.same(&got), || format!("{chart:?}, time {time:?}: {wanted:?}, {name} {got:?}"));
        };
        check("port", (calls.ask)(chart, time));
        if self.number == 0 {
            check("checked", (calls.ask_checked)(chart, time));
        }
    }

    fn run(&self, calls: Calls, times: &[f64], rooms: Rooms, random: &mut Random, found: &mut Found) {
        let chart = &self.chart;
        let mut wanted = Columns::by_chance(rooms, random);
        let mut got = wanted.clone();
        let room = if rooms.iter().any(|room| *room < times.len()) { 7 } else { 0 };
        let number = lowest([self.number, room]);
        if number == 0 {
            times.iter().enumerate().for_each(|(place, time)| wanted.lay(place, self.answer(*time)));
        }
        let answer = (calls.run)(chart, times, &mut got, rooms);
        found.check(answer == number && got.same(&wanted), || {
            format!("{chart:?}, times {times:?}, rooms {rooms:?}: {number} {wanted:?}, port {answer} {got:?}")
        });
    }
}

/// The seconds, with the machine's offset, at which a sound timing's events are reached and are over; some of a long one.
fn moments(chart: &Chart) -> Vec<f64> {
    let mut walker = Walker::new(chart, Cursor::fresh(chart.offset, chart.global).state);
    let mut moments = vec![walker.state.time];
    while let Some((row, rank)) = walker.next(None) {
        moments.push(walker.time_at(row));
        walker.pass(row, rank);
        moments.push(walker.state.time);
    }
    moments
}

/// A timing in which all kinds meet on each of a few rows, warp ends among them; pauses of both signs, and none.
pub fn meeting(random: &mut Random) -> Chart {
    let (rows, gap) = (1 + random.below(6) as usize, 1 + random.below(100) as i32);
    let first = if random.below(2) == 0 { 0 } else { -gap };
    let beats: Vec<f32> = (0..rows).map(|place| (first + gap * place as i32) as f32 / 48.0).collect();
    let mut chart =
        Chart { offset: random.part() - 0.5, global: [0.0, 0.009][random.below(2) as usize], ..Chart::default() };
    for list in [TEMPOS, STOPS, DELAYS, WARPS] {
        let own: Vec<f32> = beats.iter().copied().filter(|beat| list != TEMPOS || *beat > 0.0).collect();
        let own = if list == TEMPOS { [vec![0.0], own].concat() } else { own };
        let values = own.iter().map(|_| match list {
            TEMPOS => (30.0 + random.part() * 300.0) * if random.below(6) == 0 { -1.0 } else { 1.0 },
            // a row or two on, before its own start, or none
            WARPS => f64::from(gap) * (random.below(4) as f64 - 1.0) / 48.0,
            _ => random.below(5) as f64 / 4.0 - 0.25,
        });
        chart.lists[list].1 = values.map(|value| value as f32).collect();
        chart.lists[list].0 = own;
    }
    chart
}

fn rooms(count: usize, random: &mut Random) -> Rooms {
    let mut rooms = [(); 5].map(|()| count + random.below(4) as usize);
    if random.below(4) == 0 {
        rooms[random.below(5) as usize] = count.saturating_sub(1 + random.below(2) as usize);
    }
    rooms
}

/// The same timing with tempos above 0, no pause below it, and no offset of the machine, whose coming and going would round: time does not fall then.
fn positive(mut chart: Chart) -> Chart {
    chart.global = 0.0;
    for list in [TEMPOS, STOPS, DELAYS] {
        chart.lists[list].1.iter_mut().for_each(|value| *value = value.abs());
    }
    chart
}

/// The time of a beat asked back: every event that the clock passed on the way to the beat is passed on the way to its time.
fn there_and_back(calls: Calls, chart: &Chart, beat: f64, found: &mut Found) {
    let there = clock::fresh_time_for_beat(chart, beat);
    if there.number == 0 && time_allowed(there.time) {
        let back = (calls.ask)(chart, there.time);
        found.check(back.number == 0 && back.count >= there.count, || {
            format!("{chart:?}, beat {beat:?}: {there:?}, back {back:?}")
        });
    }
}

/// Questions, runs, and times of beats asked back.
pub fn compare(work: Work, calls: Calls) -> [Found; 3] {
    let mut random = Random::new(work.seed, "by time");
    let [mut questions, mut runs, mut back] = [(); 3].map(|()| Found::default());
    for turn in 0..work.lists() / 4 {
        let chart = if turn % 3 == 2 { meeting(&mut random) } else { Chart::by_chance(turn, &mut random) };
        let timed = Timed::new(chart);
        for _ in 0..if timed.number == 0 { 40 } else { 4 } {
            timed.question(calls, timed.time(&mut random), &mut questions);
        }
        for _ in 0..3 {
            let count = random.below(20) as usize;
            let times: Vec<f64> = (0..count).map(|_| timed.time(&mut random)).collect();
            timed.run(calls, &times, rooms(count, &mut random), &mut random, &mut runs);
        }
        if timed.number == 0 {
            let chart = positive(timed.chart);
            chart.asked(10, &mut random).into_iter().for_each(|beat| there_and_back(calls, &chart, beat, &mut back));
        }
    }
    [questions, runs, back]
}

pub fn compare_all(work: Work, total: &mut Total) {
    let [questions, runs, back] = compare(work, PORT);
    questions.add("get_beat_info_from_time, tested and checked", total);
    runs.add("get_beat_infos_from_times", total);
    back.add("the time of a beat asked back", total);
}

/// Cases of runs, whose times are replayed one by one too.
pub fn stored_cases(cases: &mut Vec<Case>) {
    let mut random = Random::new(1, "stored times");
    let run = |turn: u64| {
        let chart = if turn % 3 == 2 { meeting(&mut random) } else { Chart::by_chance(turn, &mut random) };
        let timed = Timed::new(chart);
        let times: Vec<f64> = (0..random.below(8)).map(|_| timed.time(&mut random)).collect();
        let infos: Vec<BeatInfo> =
            if timed.number == 0 { times.iter().map(|time| timed.answer(*time)).collect() } else { Vec::new() };
        let mut case = Case::new(18);
        timed.chart.lists.iter().flat_map(|(beats, values)| [beats, values]).for_each(|column| case.column(column));
        case.column(&times);
        case.column(&infos.iter().map(|info| info.number).collect::<Vec<_>>());
        case.column(&infos.iter().map(|info| info.beat).collect::<Vec<_>>());
        case.column(&infos.iter().map(|info| u8::from(info.is_in_freeze)).collect::<Vec<_>>());
        case.column(&infos.iter().map(|info| u8::from(info.is_in_delay)).collect::<Vec<_>>());
        case.column(&infos.iter().map(|info| info.count).collect::<Vec<_>>());
        case.words([timed.chart.offset.word(), timed.chart.global.word(), timed.number.into()]);
        case.if_short()
    };
    cases.extend((0..).filter_map(run).take(stored::EACH));
}
