// The same from C++, with vectors that may be empty: data() of an empty one may be null, which marrighentu::column turns into an address that is not.
// Prints what it found, and ends with 1 where an answer is not the expected one.
#include <cstdint>
#include <cstdio>
#include <vector>

#include "marrighentu.h"

using marrighentu::column;

namespace {

struct List {
    std::vector<float> beats, values;
    explicit List(std::size_t room) : beats(room), values(room) {}
    void cut(std::size_t count) {
        beats.resize(count);
        values.resize(count);
        beats.shrink_to_fit();
        values.shrink_to_fit();
    }
};

int wrong = 0;

void expect(bool met, const char *what) {
    if (!met) {
        std::printf("not as expected: %s\n", what);
        wrong = 1;
    }
}

} // namespace

#define LIST(list) column((list).beats), (list).beats.size(), column((list).values), (list).values.size()

int main() {
    // 120 beats a minute, a warp of two beats on beat 4, and nothing else
    const std::vector<double> tempo_beats{0}, tempo_values{120}, warp_beats{4}, warp_lengths{2}, none;
    const std::vector<std::uint8_t> no_units, warp_marks{MARRIGHENTU_WRITTEN};
    constexpr std::size_t room = MARRIGHENTU_MOST_ENTRIES;
    List tempos(room), stops(room), delays(room), warps(room), scrolls(room), fakes(room);
    std::vector<float> speed_beats(room), speed_ratios(room), speed_delays(room);
    std::vector<std::uint8_t> speed_units(room), out_warp_marks(room, MARRIGHENTU_MADE);

    expect(marrighentu_version() == MARRIGHENTU_VERSION, "the header is that of the library");
    const marrighentu_assembled made = marrighentu_compute_timing_segments(
        MARRIGHENTU_SSC, column(tempo_beats), 1, column(tempo_values), 1, column(none), 0, column(none), 0, column(none), 0, column(none), 0,
        column(warp_beats), 1, column(warp_lengths), 1, column(warp_marks), 1, column(none), 0, column(none), 0, column(none), 0, column(no_units), 0,
        column(none), 0, column(none), 0, column(none), 0, column(none), 0, LIST(tempos), LIST(stops), LIST(delays), LIST(warps),
        column(out_warp_marks), room, column(speed_beats), room, column(speed_ratios), room, column(speed_delays), room, column(speed_units), room, LIST(scrolls), LIST(fakes));
    expect(made.number == MARRIGHENTU_TAKEN && made.tempos == 1 && made.warps == 1 && made.stops == 0, "the chart is taken");
    expect(out_warp_marks[0] == MARRIGHENTU_WRITTEN, "the warp was written");
    tempos.cut(made.tempos);
    stops.cut(made.stops);
    delays.cut(made.delays);
    warps.cut(made.warps);
    fakes.cut(made.fakes);
    expect(stops.beats.empty() && fakes.values.empty(), "lists that are empty");

    marrighentu_made fresh = marrighentu_cursor_new(0, 0);
    marrighentu_cursor cursor = fresh.cursor;
    const marrighentu_reply reply = marrighentu_lent_time_for_beat(&cursor, LIST(tempos), LIST(stops), LIST(delays), LIST(warps), 0, 0, 8);
    std::printf("beat 8 at %g s\n", reply.time);
    expect(reply.number == MARRIGHENTU_TAKEN && reply.time == 3.0, "the second of a beat");

    // a sheet without a row: nothing is asked, and nothing is written
    std::vector<std::int32_t> rows;
    std::vector<std::uint8_t> judged;
    const marrighentu_outcome outcome =
        marrighentu_judgable_rows(LIST(stops), LIST(delays), LIST(warps), LIST(fakes), column(rows), rows.size(), column(judged), judged.size());
    expect(outcome.number == MARRIGHENTU_TAKEN && outcome.count == 0, "a sheet without a row");

    std::printf(wrong ? "failed\n" : "all as expected\n");
    return wrong;
}
