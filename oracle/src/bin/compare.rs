//! compare SEED SECONDS: the port against the original, bit for bit; a NaN equals any NaN.

use oracle::bench_clock;
use oracle::by_time;
use oracle::calls::{self, Call, Visit, called};
use oracle::cases::{Cases, LAST_ROW, Work};
use oracle::clock;
use oracle::edits;
use oracle::lookups;
use oracle::marked;
use oracle::mend_calls;
use oracle::numbers::Number;
use oracle::processing;
use oracle::random::Random;
use oracle::sheet;
use oracle::sm_stops;
use oracle::tally::{Tally, Total};
use oracle::{assembly, notes, speeds, tempo_text, tidying, warp_marks, warped};
use std::process::ExitCode;

fn main() -> ExitCode {
    let words: Vec<u64> =
        std::env::args().skip(1).map(|word| word.parse().expect("SEED and SECONDS are numbers")).collect();
    let work = Work { seed: words.first().copied().unwrap_or(1), seconds: words.get(1).copied().unwrap_or(10) };
    let mut total = Total::default();
    calls::visit_all(&mut Answers { work, total: &mut total });
    calls::visit_all(&mut Columns { work, total: &mut total });
    there_and_back::<called::note_row_to_beat, called::beat_to_note_row>(&mut total);
    there_and_back::<called::note_row_to_beat_f32, called::beat_to_note_row_f32>(&mut total);
    tidying::compare_all(work, &mut total);
    lookups::compare_all(work, &mut total);
    warp_marks::compare_all(work, &mut total);
    warped::compare_all(work, &mut total);
    processing::compare_all(work, &mut total);
    sm_stops::compare_all(work, &mut total);
    clock::compare_all(work, &mut total);
    marked::compare_all(work, &mut total);
    by_time::compare_all(work, &mut total);
    sheet::compare_all(work, &mut total);
    bench_clock::compare_all(work, &mut total);
    edits::compare_all(work, &mut total);
    speeds::compare_all(work, &mut total);
    assembly::compare_all(work, &mut total);
    notes::compare_all(work, &mut total);
    tempo_text::compare_all(work, &mut total);
    mend_calls::compare_all(work, &mut total);
    if total.end() { ExitCode::SUCCESS } else { ExitCode::FAILURE }
}

/// What each call answers.
struct Answers<'a> {
    work: Work,
    total: &'a mut Total,
}

impl Visit for Answers<'_> {
    fn visit<C: Call>(&mut self) {
        let mut tally = Tally::<C>::default();
        C::From::every(self.work, &mut |from| tally.give(from));
        tally.end(self.total);
    }
}

/// What each loop leaves in a column, at every pair of short lengths, and in the places past the column's end.
struct Columns<'a> {
    work: Work,
    total: &'a mut Total,
}

const PAST: usize = 4;

impl Visit for Columns<'_> {
    fn visit<C: Call>(&mut self) {
        let mut random = Random::new(self.work.seed, C::NAME);
        let (mut compared, mut shown) = (0, Vec::new());
        for (from_len, to_len) in (0..40).flat_map(|from| (0..40).map(move |to| (from, to))) {
            let from: Vec<_> = (0..from_len).map(|_| C::From::typical(&mut random)).collect();
            let mut original: Vec<_> = (0..to_len + PAST).map(|_| C::To::of_bits(random.bits())).collect();
            let mut port = original.clone();
            C::original_each(&from, &mut original[..to_len]);
            C::port_each(&from, &mut port[..to_len]);
            compared += port.len() as u64;
            for (place, (original, port)) in original.iter().zip(&port).enumerate() {
                if original.answer() != port.answer() {
                    let (original, port) = (original.shown(), port.shown());
                    shown.push(format!("{from_len} over {to_len}, place {place}: original {original}, port {port}"));
                }
            }
        }
        self.total.add(&format!("columns of {}", C::NAME), compared, shown.len() as u64, shown);
    }
}

/// The row of the beat of every row within the limit.
fn there_and_back<There: Call<From = i32>, Back: Call<From = There::To, To = i32>>(total: &mut Total) {
    let different = |row: &i32| Back::port(There::port(*row)) != Back::original(There::original(*row));
    let shown: Vec<_> = (-LAST_ROW..=LAST_ROW).filter(different).collect();
    let name = format!("{} of {}", Back::NAME, There::NAME);
    let lines = shown.iter().map(|row| format!("row {row}: port {}", Back::port(There::port(*row))));
    total.add(&name, 2 * LAST_ROW as u64 + 1, shown.len() as u64, lines);
}
