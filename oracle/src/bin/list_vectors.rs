//! list_vectors: the original's answers to a sample of lists, charts and timings, for the program `replay_lists`.

use oracle::{by_time, clock, lookups, notes, processing, sheet, sm_stops, speeds, stored, tempo_text, tidying};

fn main() {
    let mut cases = Vec::new();
    tidying::stored_cases(&mut cases);
    speeds::stored_cases(&mut cases);
    processing::stored_cases(&mut cases);
    sm_stops::stored_cases(&mut cases);
    lookups::stored_cases(&mut cases);
    clock::stored_cases(&mut cases);
    notes::stored_cases(&mut cases);
    tempo_text::stored_cases(&mut cases);
    by_time::stored_cases(&mut cases);
    sheet::stored_cases(&mut cases);
    stored::print(&cases);
}
