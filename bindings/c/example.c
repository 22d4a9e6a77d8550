/* A chart through the C functions: assembly, the clock, with an end mark too, beat from time, the note sheet, and the second clock, the lookups, and stops for SM. Prints what it found, and ends with 1 where an answer is not the expected one. */
#include <stdio.h>
#include <string.h>

#include "marrighentu.h"

enum { ROOM = MARRIGHENTU_MOST_ENTRIES };

/* The columns of a timing, and how many entries each list has. */
typedef struct {
    float tempo_beats[ROOM], tempo_values[ROOM];
    float stop_beats[ROOM], stop_values[ROOM];
    float delay_beats[ROOM], delay_values[ROOM];
    float warp_beats[ROOM], warp_lengths[ROOM];
    uint8_t warp_marks[ROOM];
    float speed_beats[ROOM], speed_ratios[ROOM], speed_delays[ROOM];
    uint8_t speed_units[ROOM];
    float scroll_beats[ROOM], scroll_values[ROOM];
    float fake_beats[ROOM], fake_lengths[ROOM];
    marrighentu_assembled made;
    double offset, global_offset;
} timing;

static int wrong;

static void expect(bool met, const char *what) {
    if (!met) {
        printf("not as expected: %s\n", what);
        wrong = 1;
    }
}

/* Field by field, since a struct has bytes between its fields. */
static bool same_cursor(const marrighentu_cursor *a, const marrighentu_cursor *b) {
    const marrighentu_state *s = &a->state, *t = &b->state;
    return s->tempos == t->tempos && s->stops == t->stops && s->delays == t->delays && s->warps == t->warps && s->row == t->row
        && s->warping == t->warping && s->time == t->time && s->end == t->end && a->asked == b->asked;
}

/* The columns of a timing, and what every question of the clock takes. */
#define TIMING_COLUMNS(t)                                                                            \
    (t)->tempo_beats, (t)->made.tempos, (t)->tempo_values, (t)->made.tempos,                         \
    (t)->stop_beats, (t)->made.stops, (t)->stop_values, (t)->made.stops,                             \
    (t)->delay_beats, (t)->made.delays, (t)->delay_values, (t)->made.delays,                         \
    (t)->warp_beats, (t)->made.warps, (t)->warp_lengths, (t)->made.warps
#define CLOCK_COLUMNS(t) TIMING_COLUMNS(t), (t)->offset, (t)->global_offset

/* The columns that a lookup takes. */
#define WARP_COLUMNS(t)                                                                              \
    (t)->stop_beats, (t)->made.stops, (t)->stop_values, (t)->made.stops,                             \
    (t)->delay_beats, (t)->made.delays, (t)->delay_values, (t)->made.delays,                         \
    (t)->warp_beats, (t)->made.warps, (t)->warp_lengths, (t)->made.warps
#define LOOKUP_COLUMNS(t) WARP_COLUMNS(t), (t)->fake_beats, (t)->made.fakes, (t)->fake_lengths, (t)->made.fakes

int main(void) {
    /* a chart of an SM file: 120 beats a minute, a tempo of -120 from beat 4 to 8, which is a warp, a stop on beat 16, a fake on beat 20 */
    const double tempo_beats[] = {0, 4, 8}, tempo_values[] = {120, -120, 120};
    const double stop_beats[] = {16}, stop_values[] = {1};
    const double fake_beats[] = {20}, fake_lengths[] = {1};
    const double none[1] = {0};
    const uint8_t no_bytes[1] = {0};
    static timing chart;
    timing *t = &chart;

    t->made = marrighentu_compute_timing_segments(
        MARRIGHENTU_SM, tempo_beats, 3, tempo_values, 3, stop_beats, 1, stop_values, 1, none, 0, none, 0, none, 0, none, 0, no_bytes, 0,
        none, 0, none, 0, none, 0, no_bytes, 0, none, 0, none, 0, fake_beats, 1, fake_lengths, 1,
        t->tempo_beats, ROOM, t->tempo_values, ROOM, t->stop_beats, ROOM, t->stop_values, ROOM,
        t->delay_beats, ROOM, t->delay_values, ROOM, t->warp_beats, ROOM, t->warp_lengths, ROOM, t->warp_marks, ROOM,
        t->speed_beats, ROOM, t->speed_ratios, ROOM, t->speed_delays, ROOM, t->speed_units, ROOM,
        t->scroll_beats, ROOM, t->scroll_values, ROOM, t->fake_beats, ROOM, t->fake_lengths, ROOM);
    expect(t->made.number == MARRIGHENTU_TAKEN, "the chart is taken");
    expect(t->made.tempos == 1 && t->made.stops == 1 && t->made.warps == 1 && t->made.fakes == 1, "one of each list");
    t->offset = 0.0 + (double)t->made.offset;
    t->global_offset = 0.0;
    printf("warp at beat %g for %g beats, %s\n", (double)t->warp_beats[0], (double)t->warp_lengths[0],
        t->warp_marks[0] == MARRIGHENTU_MADE ? "made of a tempo or a stop" : "written");
    expect(t->warp_marks[0] == MARRIGHENTU_MADE, "the warp was made");

    /* the timing is tested once; then the player's question is asked, one cursor lent for each */
    expect(marrighentu_check_timing(CLOCK_COLUMNS(t)) == MARRIGHENTU_TAKEN, "the timing is taken");
    marrighentu_made made = marrighentu_cursor_new(t->offset, t->global_offset);
    expect(made.number == MARRIGHENTU_TAKEN && made.cursor.asked == INT32_MIN, "a fresh cursor");
    marrighentu_cursor cursor = made.cursor;
    const double beats[] = {2, 6, 12, 16, 17, 6};
    const double expected[] = {1, 2, 2, 4, 5.5, 2};
    for (size_t i = 0; i < sizeof beats / sizeof *beats; i++) {
        marrighentu_reply reply = marrighentu_lent_time_for_beat_checked(&cursor, CLOCK_COLUMNS(t), beats[i]);
        printf("beat %g at %g s, %zu steps\n", beats[i], reply.time, reply.count);
        expect(reply.number == MARRIGHENTU_TAKEN && reply.time == expected[i], "the second of a beat");
        expect(cursor.asked == (int32_t)beats[i] * 48, "the cursor is stored");
    }

    /* a refused question leaves the cursor as it was */
    marrighentu_cursor before = cursor;
    marrighentu_reply refused = marrighentu_lent_time_for_beat(&cursor, CLOCK_COLUMNS(t), 65536.5);
    expect(refused.number == MARRIGHENTU_BAD_BEAT && refused.count == 0, "a beat beyond the limit");
    expect(same_cursor(&before, &cursor), "the cursor after a refusal");

    /* many beats at once, one of them refused */
    const double asked[] = {0, 1e9, 17};
    uint32_t numbers[3];
    double times[3];
    size_t counts[3];
    uint32_t ran = marrighentu_lent_run(&cursor, CLOCK_COLUMNS(t), asked, 3, numbers, 3, times, 3, counts, 3);
    expect(ran == MARRIGHENTU_TAKEN && cursor.asked == 17 * 48, "a run");
    expect( numbers[0] == 0 && numbers[1] == MARRIGHENTU_BAD_BEAT && numbers[2] == 0, "a run's numbers");
    expect(times[0] == 0.0 && times[2] == 5.5 && counts[1] == 0, "a run's seconds");

    /* the end of the timing: the stop on beat 16 is its last event, and a beat behind it is one step from any cursor */
    marrighentu_mark_made ended = marrighentu_make_mark(CLOCK_COLUMNS(t));
    const marrighentu_mark mark = ended.mark;
    expect(ended.number == MARRIGHENTU_TAKEN && mark.row == 16 * 48 && mark.state.row == 16 * 48 && mark.state.time == 5.0, "the end mark");
    expect(marrighentu_check_marked_timing(mark, CLOCK_COLUMNS(t)) == MARRIGHENTU_TAKEN, "a timing with its mark");
    for (size_t i = 0; i < sizeof beats / sizeof *beats; i++) {
        marrighentu_cursor lent = made.cursor;
        marrighentu_answer plain = marrighentu_time_for_beat_checked(made.cursor, CLOCK_COLUMNS(t), beats[i]);
        marrighentu_answer player = marrighentu_time_for_beat_checked_marked(made.cursor, mark, CLOCK_COLUMNS(t), beats[i]);
        marrighentu_answer tested = marrighentu_time_for_beat_marked(made.cursor, mark, CLOCK_COLUMNS(t), beats[i]);
        marrighentu_reply reply = marrighentu_lent_time_for_beat_checked_marked(&lent, mark, CLOCK_COLUMNS(t), beats[i]);
        expect(player.time == expected[i] && tested.time == expected[i] && reply.time == expected[i], "the second of a beat, with a mark");
        expect(player.count == (beats[i] > 16 ? 1 : plain.count), "one step behind the mark, and on its row and before it as many as without");
        expect(tested.count == player.count && reply.count == player.count, "the steps of each form");
        expect(same_cursor(&lent, &player.cursor) && same_cursor(&lent, &tested.cursor), "the cursor after a marked question");
    }
    printf("beat 1000 at %g s, 1 step\n", marrighentu_lent_time_for_beat_checked_marked(&cursor, mark, CLOCK_COLUMNS(t), 1000).time);
    expect(cursor.state.row == mark.state.row && cursor.asked == 48000, "the cursor is in the mark's state");
    ran = marrighentu_lent_run_marked(&cursor, mark, CLOCK_COLUMNS(t), asked, 3, numbers, 3, times, 3, counts, 3);
    expect(ran == MARRIGHENTU_TAKEN && times[2] == 5.5 && counts[2] == 1 && numbers[1] == MARRIGHENTU_BAD_BEAT, "a marked run");
    marrighentu_made by_value = marrighentu_run_marked(made.cursor, mark, CLOCK_COLUMNS(t), asked, 3, numbers, 3, times, 3, counts, 3);
    expect(by_value.number == MARRIGHENTU_TAKEN && same_cursor(&by_value.cursor, &cursor) && counts[2] == 1, "a marked run by value");

    /* a mark of another timing, here of other offsets, is refused where everything is tested */
    t->offset += 0.5;
    expect(marrighentu_check_marked_timing(mark, CLOCK_COLUMNS(t)) == MARRIGHENTU_NOT_RISING, "a mark of other offsets");
    refused = marrighentu_lent_time_for_beat_marked(&cursor, mark, CLOCK_COLUMNS(t), 17);
    expect(refused.number == MARRIGHENTU_NOT_RISING && refused.count == 0, "a question with a mark of other offsets");
    t->offset -= 0.5;

    /* which beat it is at a second: before the warp, where it ends, in the stop, when that is over, and a second that is refused */
    const double seconds[] = {1, 2, 4.5, 5, 1e300}, found_beats[] = {2, 12, 16, 16, 0};
    const size_t over[] = {2, 4, 4, 5, 0};
    double info_beats[5];
    uint32_t info_numbers[5];
    uint8_t freezes[5], delayed[5];
    size_t info_counts[5];
    ran = marrighentu_get_beat_infos_from_times(
        CLOCK_COLUMNS(t), seconds, 5, info_numbers, 5, info_beats, 5, freezes, 5, delayed, 5, info_counts, 5);
    expect(ran == MARRIGHENTU_TAKEN, "many seconds");
    for (size_t i = 0; i < 5; i++) {
        marrighentu_beat_info one = marrighentu_get_beat_info_from_time(CLOCK_COLUMNS(t), seconds[i]);
        marrighentu_beat_info player = marrighentu_get_beat_info_from_time_checked(CLOCK_COLUMNS(t), seconds[i]);
        expect(one.beat == found_beats[i] && player.beat == found_beats[i] && info_beats[i] == found_beats[i], "the beat of a second");
        expect(one.is_in_freeze == (i == 2) && player.is_in_freeze == (i == 2) && freezes[i] == (i == 2), "in the stop");
        expect(!one.is_in_delay && !player.is_in_delay && delayed[i] == 0, "in no delay");
        expect(one.count == over[i] && player.count == over[i] && info_counts[i] == over[i], "the events that are over, and one");
        expect(one.number == (i == 4 ? MARRIGHENTU_BAD_VALUE : MARRIGHENTU_TAKEN) && player.number == one.number && info_numbers[i] == one.number, "its number");
        if (one.number == MARRIGHENTU_TAKEN) printf("at %g s it is beat %g%s\n", seconds[i], one.beat, one.is_in_freeze ? ", in a stop" : "");
    }

    /* the events one by one, as the second clock has them: a tempo, a warp, its end, a stop */
    int32_t event_rows[5];
    uint8_t event_kinds[5];
    double event_numbers[5];
    const int32_t fall_on[] = {0, 4 * 48, 12 * 48, 16 * 48};
    const uint8_t of_kind[] = {MARRIGHENTU_TEMPO, MARRIGHENTU_WARP, MARRIGHENTU_WARP_ENDS, MARRIGHENTU_STOP};
    const double bring[] = {120, 12, 12, 1};
    marrighentu_outcome outcome = marrighentu_lay_out_events(TIMING_COLUMNS(t), event_rows, 3, event_kinds, 5, event_numbers, 5);
    expect(outcome.number == MARRIGHENTU_NO_ROOM && outcome.count == 0, "a tempo, a stop and a warp need four places");
    outcome = marrighentu_lay_out_events(TIMING_COLUMNS(t), event_rows, 4, event_kinds, 5, event_numbers, 5);
    expect(outcome.number == MARRIGHENTU_TAKEN && outcome.count == 4, "four events");
    for (size_t i = 0; i < 4; i++) {
        printf("event on row %d: kind %u, %g\n", (int)event_rows[i], (unsigned)event_kinds[i], event_numbers[i]);
        expect(event_rows[i] == fall_on[i] && event_kinds[i] == of_kind[i] && event_numbers[i] == bring[i], "an event");
    }
    for (size_t i = 0; i < sizeof beats / sizeof *beats; i++) {
        marrighentu_bench_answer bench = marrighentu_bench_time_for_beat(
            CLOCK_COLUMNS(t), beats[i], event_rows, 5, event_kinds, 5, event_numbers, 5);
        marrighentu_answer fresh = marrighentu_get_time_for_beat(CLOCK_COLUMNS(t), beats[i]);
        expect(bench.number == MARRIGHENTU_TAKEN && bench.time == expected[i] && bench.laid == 4, "the second clock");
        expect(bench.time == fresh.time && bench.count == fresh.count, "the second clock and the first");
    }

    /* which notes of a sheet are judged: one in the warp and one in the fake are not */
    const int32_t rows[] = {0, 6 * 48, 12 * 48, 20 * 48 + 24};
    uint8_t judged[4];
    outcome = marrighentu_judgable_rows(LOOKUP_COLUMNS(t), rows, 4, judged, 4);
    expect(outcome.number == MARRIGHENTU_TAKEN && outcome.count == 4, "a sheet is taken");
    for (size_t i = 0; i < 4; i++) printf("row %d is %s\n", (int)rows[i], judged[i] ? "judged" : "not judged");
    expect(judged[0] == 1 && judged[1] == 0 && judged[2] == 1 && judged[3] == 0, "the judged rows");

    /* the note sheet has that, and of each row its second and its colour, by one cursor that goes along once */
    double sheet_times[4];
    uint8_t sheet_judged[4], snaps[4];
    marrighentu_sheet sheet = marrighentu_note_sheet(
        CLOCK_COLUMNS(t), t->fake_beats, t->made.fakes, t->fake_lengths, t->made.fakes, rows, 4, sheet_times, 4, sheet_judged, 4, snaps, 4);
    expect(sheet.number == MARRIGHENTU_TAKEN && sheet.count == 4 && sheet.steps == 4 + 4, "a note sheet: four events, and one step for each row");
    for (size_t i = 0; i < 4; i++) {
        marrighentu_answer alone = marrighentu_get_time_for_beat(CLOCK_COLUMNS(t), rows[i] / 48.0);
        expect(sheet_times[i] == alone.time && sheet_judged[i] == judged[i] && snaps[i] == (i == 3 ? 1 : 0), "a row of the sheet");
        printf("row %d at %g s, colour %u\n", (int)rows[i], sheet_times[i], (unsigned)snaps[i]);
    }
    const int32_t twice[] = {48, 48};
    sheet = marrighentu_note_sheet(
        CLOCK_COLUMNS(t), t->fake_beats, t->made.fakes, t->fake_lengths, t->made.fakes, twice, 2, sheet_times, 4, sheet_judged, 4, snaps, 4);
    expect(sheet.number == MARRIGHENTU_NOT_RISING && sheet.count == 0 && sheet.steps == 0, "a row twice");

    /* scrolls that lost their order are mended before they are assembled, and it is told what became of each */
    const double fallen_beats[] = {4.0, 0.0, 4.0}, fallen_values[] = {2.0, 1.0, 1.0};
    double mended_beats[3], mended_values[3];
    uint8_t fates[3];
    marrighentu_outcome mended = marrighentu_mend_scrolls(fallen_beats, 3, fallen_values, 3, mended_beats, 3, mended_values, 3, fates, 3);
    expect(mended.number == MARRIGHENTU_TAKEN && mended.count == 1 && mended_beats[0] == 0.0 && mended_values[0] == 1.0, "scrolls mended");
    expect(fates[0] == MARRIGHENTU_REPLACED && fates[1] == MARRIGHENTU_KEPT && fates[2] == MARRIGHENTU_MERGED, "the fate of each scroll");
    mended = marrighentu_mend_scrolls(fallen_beats, 3, fallen_values, 3, mended_beats, 3, mended_values, 3, fates, 2);
    expect(mended.number == MARRIGHENTU_NO_ROOM && mended.count == 0, "a room of fates that is too short");

    marrighentu_looked looked = marrighentu_is_judgable_at_beat(LOOKUP_COLUMNS(t), 6.0);
    expect(looked.number == MARRIGHENTU_TAKEN && !looked.yes, "a beat in the warp is not judged");

    /* or one at a time, as they come up: the lists are tested once, and then only the row is */
    expect(marrighentu_check_lookups(LOOKUP_COLUMNS(t)) == MARRIGHENTU_TAKEN, "the lookups take the lists");
    for (size_t i = 0; i < 4; i++) {
        looked = marrighentu_is_judgable_at_row_checked(LOOKUP_COLUMNS(t), rows[i]);
        expect(looked.number == MARRIGHENTU_TAKEN && looked.yes == (judged[i] == 1), "a row by itself");
    }
    looked = marrighentu_is_judgable_at_beat_checked(LOOKUP_COLUMNS(t), 65536.5);
    expect(looked.number == MARRIGHENTU_BAD_BEAT && !looked.yes, "a beat beyond the limit is not looked up");
    looked = marrighentu_is_warp_at_row_checked(WARP_COLUMNS(t), 6 * 48);
    expect(looked.number == MARRIGHENTU_TAKEN && looked.yes, "a row in the warp");
    looked = marrighentu_is_warp_at_beat_checked(WARP_COLUMNS(t), 12.0);
    expect(looked.number == MARRIGHENTU_TAKEN && !looked.yes, "the beat where the warp ends");

    /* how many rows the warp passes over; and of two that overlap, each row once */
    uint64_t warped = marrighentu_warped_rows(t->warp_beats, t->made.warps, t->warp_lengths, t->made.warps);
    printf("%u rows are warped\n", (unsigned)warped);
    expect(warped == 8 * 48, "the rows of the warp");
    const float overlapping_beats[] = {0, 4}, overlapping_lengths[] = {8, 1};
    expect(marrighentu_warped_rows(overlapping_beats, 2, overlapping_lengths, 2) == 384, "two warps that overlap");
    looked = marrighentu_is_fake_at_row_checked(t->fake_beats, t->made.fakes, t->fake_lengths, t->made.fakes, 20 * 48 + 24);
    expect(looked.number == MARRIGHENTU_TAKEN && looked.yes, "a row in the fake");
    looked = marrighentu_is_fake_at_beat_checked(t->fake_beats, t->made.fakes, t->fake_lengths, t->made.fakes, 6.0);
    expect(looked.number == MARRIGHENTU_TAKEN && !looked.yes, "a beat that is not fake");

    /* rows of the lists, one part behind another */
    int32_t store[8];
    uint8_t row_marks[] = {9, 9};
    marrighentu_stored stored = marrighentu_build_segment_row_storage(LOOKUP_COLUMNS(t), t->warp_marks, t->made.warps, store, 8, row_marks, 2);
    expect(stored.number == MARRIGHENTU_TAKEN && stored.stops == 1 && stored.delays == 0 && stored.warps == 1 && stored.fakes == 1, "the row store");
    expect(store[0] == 16 * 48 && store[1] == 4 * 48 && store[2] == 20 * 48, "the rows of the row store");
    expect(row_marks[0] == MARRIGHENTU_MADE && row_marks[1] == 9, "the mark of the warp's row");

    /* warps by their rows, each with its mark: of two on one row the last */
    const double marked_beats[] = {4, 0, 4}, marked_lengths[] = {1, 1, 2};
    const uint8_t marks[] = {MARRIGHENTU_WRITTEN, MARRIGHENTU_WRITTEN, MARRIGHENTU_MADE};
    double tidy_beats[3], tidy_lengths[3];
    uint8_t tidy_marks[3];
    marrighentu_outcome tidied = marrighentu_tidy_warp_segments(
        marked_beats, 3, marked_lengths, 3, marks, 3, tidy_beats, 3, tidy_lengths, 3, tidy_marks, 3);
    expect(tidied.number == MARRIGHENTU_TAKEN && tidied.count == 2, "two rows with a warp");
    expect(tidy_beats[0] == 0 && tidy_marks[0] == MARRIGHENTU_WRITTEN && tidy_beats[1] == 4 && tidy_lengths[1] == 2 && tidy_marks[1] == MARRIGHENTU_MADE, "each with its mark");

    /* the same timing as stops of an SM file */
    const float flat[] = {16.0f, 1.0f};
    float work[8];
    marrighentu_filled filled = marrighentu_convert_warps_and_delays_to_sm_stops(
        t->tempo_beats, t->made.tempos, t->tempo_values, t->made.tempos, flat, 2, t->delay_beats, t->made.delays, t->delay_values, t->made.delays,
        t->warp_beats, t->made.warps, t->warp_lengths, t->made.warps, work, 8);
    expect(filled.number == MARRIGHENTU_TAKEN && !filled.own && filled.count == 2, "stops for SM");
    for (size_t i = 0; i < filled.count && i < 4; i++) printf("SM stop at beat %g of %g s\n", (double)work[2 * i], (double)work[2 * i + 1]);
    expect(work[0] == 4.0f && work[1] == -4.0f && work[2] == 16.0f && work[3] == 1.0f, "the stops for SM");

    /* where notes are drawn: twice as far apart from beat 4 on, and standing still from beat 8 on */
    const float scroll_beats[] = {4.0f, 8.0f}, scroll_ratios[] = {2.0f, 0.0f};
    const double noted[] = {3, 5, 8.5, 1e9}, drawn[] = {3, 6, 12, 0};
    double prefix[2], positions[4];
    uint32_t drawn_numbers[4];
    outcome = marrighentu_build_scroll_prefix(scroll_beats, 2, scroll_ratios, 2, prefix, 2);
    expect(outcome.number == MARRIGHENTU_TAKEN && outcome.count == 2 && prefix[0] == 4.0 && prefix[1] == 12.0, "the prefix of the scrolls");
    outcome = marrighentu_get_displayed_beats(scroll_beats, 2, scroll_ratios, 2, noted, 4, drawn_numbers, 4, positions, 4);
    expect(outcome.number == MARRIGHENTU_TAKEN && outcome.count == 4, "many displayed beats");
    for (size_t i = 0; i < 4; i++) {
        marrighentu_displayed one = marrighentu_get_displayed_beat(scroll_beats, 2, scroll_ratios, 2, noted[i]);
        marrighentu_displayed player = marrighentu_get_displayed_beat_checked(scroll_beats, 2, scroll_ratios, 2, prefix, 2, noted[i]);
        expect(one.beat == drawn[i] && player.beat == drawn[i] && positions[i] == drawn[i], "a displayed beat");
        expect(one.number == drawn_numbers[i] && player.number == drawn_numbers[i], "its number");
        if (one.number == MARRIGHENTU_TAKEN) printf("beat %g is drawn at %g\n", noted[i], one.beat);
    }
    expect(drawn_numbers[3] == MARRIGHENTU_BAD_BEAT, "a beat that is not drawn");

    /* the beats of note data's rows, one measure of them empty */
    const uint8_t note_data[] = "1000\n0100\n,\n,\n0001\n";
    float row_beats[3];
    outcome = marrighentu_compute_row_to_beat(note_data, sizeof note_data - 1, row_beats, 3);
    expect(outcome.number == MARRIGHENTU_TAKEN && outcome.count == 3, "rows of note data");
    expect(row_beats[0] == 0.0f && row_beats[1] == 2.0f && row_beats[2] == 8.0f, "the beats of the rows");

    /* the tempos as text: a beat on its row, 63 one float below, the sign of -0 */
    const double text_beats[] = {0, 4.01, 8}, text_tempos[] = {120, 63, -0.0};
    const char text[] = "0.000000=120.000000,4.000000=62.999996,8.000000=-0.000000";
    uint8_t page[3 * MARRIGHENTU_TEMPO_TEXT_BYTES];
    outcome = marrighentu_format_bpm_segments_like_itg(text_beats, 3, text_tempos, 3, page, sizeof page);
    expect(outcome.number == MARRIGHENTU_TAKEN && outcome.count == sizeof text - 1 && memcmp(page, text, outcome.count) == 0, "the tempos as text");
    printf("%.*s\n", (int)outcome.count, (const char *)page);
    outcome = marrighentu_format_bpm_segments_like_itg(text_beats, 3, text_tempos, 3, page, sizeof text - 2);
    expect(outcome.number == MARRIGHENTU_NO_ROOM && outcome.count == 0, "a page that is too short by a byte");
    outcome = marrighentu_format_bpm_segments_f32_like_itg(t->tempo_beats, t->made.tempos, t->tempo_values, t->made.tempos, page, sizeof page);
    expect(outcome.number == MARRIGHENTU_TAKEN, "a timing's tempos as text");
    printf("%.*s\n", (int)outcome.count, (const char *)page);

    /* one rounding where two would lose the answer: (1 + e)(1 - e) - 1 with e = 2^-27 */
    expect(marrighentu_mul_add_f64(1 + 0x1p-27, 1 - 0x1p-27, -1) == -0x1p-54, "one rounding");
    expect(marrighentu_mul_add_f32(1 + 0x1p-13f, 1 - 0x1p-13f, -1) == -0x1p-26f, "one rounding at 32 bits");

    printf(wrong ? "failed\n" : "all as expected\n");
    return wrong;
}
