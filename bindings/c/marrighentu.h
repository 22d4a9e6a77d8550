/*
 * Chart timing for dance games, proved right: the port's functions for C.
 *
 * Link libmarrighentu.a, which `bindings/native-archive` makes in target/native; `bindings/native-archive --pack` packs it with this header.
 *
 * A column is a pointer and its length in numbers. A column that a call reads may be read-only and may be shared; one that it writes may overlap
 * no other. The pointer of an empty column must not be null: any other address will do, and marrighentu_column, or marrighentu::column of a C++ container,
 * gives one. That, and that each column is as long as is said, is all that a call asks; no number, list or cursor makes it do anything undefined, and
 * every call returns.
 *
 * A call answers a number: 0 where it is taken, else why it is refused (MARRIGHENTU_TOO_LONG and so on), the lowest that holds. After a refusal
 * every count is 0 and nothing that was lent has changed. A taken call fills the front of its rooms and leaves the rest as it was.
 */
#ifndef MARRIGHENTU_H
#define MARRIGHENTU_H

#include <stdbool.h>
#include <stddef.h>
#include <stdint.h>

#ifdef __cplusplus
extern "C" {
#endif

/* The version of this header, and of what is linked: 10,000 times its first number, 100 times its second, and its third. */
#define MARRIGHENTU_VERSION 100
#define MARRIGHENTU_VERSION_TEXT "0.1.0"
uint32_t marrighentu_version(void);

/* The address of a column that may be empty, and so null: the address itself, or another one, from which nothing is read. */
static inline const void *marrighentu_column(const void *column) {
    static const double none = 0;
    return column ? column : &none;
}

/* The same of a column that is written. */
static inline void *marrighentu_room(void *room) {
    static double none;
    return room ? room : &none;
}

/* Why a call is refused. */
enum marrighentu_refusal {
    MARRIGHENTU_TAKEN = 0,
    MARRIGHENTU_TOO_LONG = 1,    /* a list has more than 1,024 entries, made warps included, or note data more than 2^20 bytes */
    MARRIGHENTU_UNEVEN = 2,      /* the columns of a list differ in length, or a flat list is odd */
    MARRIGHENTU_BAD_BEAT = 3,    /* a beat beyond 65,536 or a row beyond 3,145,728 on either side, or one that is not finite */
    MARRIGHENTU_BAD_VALUE = 4,   /* a value, a unit or an offset beyond its limit, or a second beyond 2^50 on either side or not finite */
    MARRIGHENTU_NOT_RISING = 5,  /* rows of a list do not rise strictly, the tempos do not start at beat 0, or scroll beats fall where notes are drawn; an end mark of another timing */
    MARRIGHENTU_FALLS = 6,       /* scrolls or speeds out of order, so that an entry has no place */
    MARRIGHENTU_NO_ROOM = 7,     /* a result is longer than its room */
    MARRIGHENTU_NO_TEMPO = 8,    /* SM stops: a warp and no tempo */
    MARRIGHENTU_BAD_CURSOR = 9   /* a cursor that no question left behind */
};

enum { MARRIGHENTU_MOST_ENTRIES = 1024, MARRIGHENTU_ROWS_PER_BEAT = 48 };

/* Columns of this length hold the events of every timing. */
enum { MARRIGHENTU_MOST_EVENTS = 5 * MARRIGHENTU_MOST_ENTRIES };

/* So many bytes for each entry always hold a tempo list's text. */
enum { MARRIGHENTU_TEMPO_TEXT_BYTES = 33 };

/* The file format of a chart. */
enum marrighentu_format { MARRIGHENTU_SM = 0, MARRIGHENTU_SSC = 1 };

/* What a speed's delay is counted in. */
enum marrighentu_unit { MARRIGHENTU_BEATS = 0, MARRIGHENTU_SECONDS = 1 };

/* What becomes of an entry when its list is mended. */
enum marrighentu_fate {
    MARRIGHENTU_KEPT = 0,
    MARRIGHENTU_REPLACED = 1, /* a later entry is on its row */
    MARRIGHENTU_MERGED = 2    /* the last of its row, and near the one kept before */
};

/* The kinds of event, in the order in which they come on one row. A note on that row comes after a delay and before a stop. */
enum marrighentu_kind {
    MARRIGHENTU_WARP_ENDS = 0,
    MARRIGHENTU_TEMPO = 1,
    MARRIGHENTU_DELAY = 2,
    MARRIGHENTU_STOP = 3,
    MARRIGHENTU_WARP = 4
};

/* How far a walk through a timing has come: a place in each list, the row and the second of the last event passed, the beat where the
 * warp ends, and whether it is warping. */
typedef struct {
    size_t tempos;
    size_t stops;
    size_t delays;
    size_t warps;
    int32_t row;
    bool warping;
    double time;
    double end;
} marrighentu_state;

/* A cursor, which its holder lends for each question; marrighentu_cursor_new makes it. */
typedef struct {
    marrighentu_state state;
    int32_t asked; /* the row asked last; the least int32_t where none was */
} marrighentu_cursor;

/* A question's number, its second, the events it passed and one, and the cursor after it. */
typedef struct {
    uint32_t number;
    double time;
    size_t count;
    marrighentu_cursor cursor;
} marrighentu_answer;

/* The same of a question whose cursor is lent: the cursor after it stands in its own place. */
typedef struct {
    uint32_t number;
    double time;
    size_t count;
} marrighentu_reply;

/* A number and a cursor: of a new cursor, and of a run by value. */
typedef struct {
    uint32_t number;
    marrighentu_cursor cursor;
} marrighentu_made;

/* The end of a timing: the state of its walk after all events, and the greatest row among them; marrighentu_make_mark makes it. */
typedef struct {
    marrighentu_state state;
    int32_t row;
} marrighentu_mark;

/* A number and an end mark. */
typedef struct {
    uint32_t number;
    marrighentu_mark mark;
} marrighentu_mark_made;

/* A number, which beat it is at a time, whether a stop or a delay runs then, and the events that are over by then and one; after a refusal 0 and no. */
typedef struct {
    uint32_t number;
    double beat;
    bool is_in_freeze;
    bool is_in_delay;
    size_t count;
} marrighentu_beat_info;

/* A sheet's number, how many rows were written, and the events passed and one for each row, added up; after a refusal 0. */
typedef struct {
    uint32_t number;
    size_t count;
    size_t steps;
} marrighentu_sheet;

/* A question's number to the second clock, its second, the events it passed and one, and how many events were laid out. */
typedef struct {
    uint32_t number;
    double time;
    size_t count;
    size_t laid;
} marrighentu_bench_answer;

/* A lookup's number and answer; no after a refusal. */
typedef struct {
    uint32_t number;
    bool yes;
} marrighentu_looked;

/* A number, and how many entries were written; of a text, how many bytes. */
typedef struct {
    uint32_t number;
    size_t count;
} marrighentu_outcome;

/* A number, and the beat at which a note is drawn; 0 after a refusal. */
typedef struct {
    uint32_t number;
    double beat;
} marrighentu_displayed;

/* A number, and how many rows each part of the row store has. */
typedef struct {
    uint32_t number;
    size_t stops;
    size_t delays;
    size_t warps;
    size_t fakes;
} marrighentu_stored;

/* A number, the entries written to the work list, and whether the stops that were given are the answer instead. */
typedef struct {
    uint32_t number;
    size_t count;
    bool own;
} marrighentu_filled;

/* A number, how many tempos, stops and warps were written, and the seconds that stops before beat 0 come to. */
typedef struct {
    uint32_t number;
    size_t tempos;
    size_t stops;
    size_t warps;
    double offset;
} marrighentu_processed;

/* Of each list, how many of its raw entries were off the grid: their beats, narrowed to float, were not the float beats of their rows. Entries that the format
 * leaves out and warps that are made do not count, entries that others replace do. */
typedef struct {
    uint32_t tempos;
    uint32_t stops;
    uint32_t delays;
    uint32_t warps;
    uint32_t speeds;
    uint32_t scrolls;
    uint32_t fakes;
} marrighentu_moved;

/* A number, how many entries of each list were written, the seconds to add to the song's offset, and how many raw entries were off the grid. */
typedef struct {
    uint32_t number;
    size_t tempos;
    size_t stops;
    size_t delays;
    size_t warps;
    size_t speeds;
    size_t scrolls;
    size_t fakes;
    float offset;
    marrighentu_moved moved;
} marrighentu_assembled;

/* A beat on its row, and whether it was off the grid. */
typedef struct {
    double beat;
    bool off;
} marrighentu_quantized;

/* ---- rows and beats */

/* The beat of a row. */
double marrighentu_note_row_to_beat(int32_t row);

/* The row of a beat: the nearest, of two that are equally near the even one, held at the ends of an int32_t. */
int32_t marrighentu_beat_to_note_row(double beat);

/* The same at float: a row's beat, and a beat's row. */
float marrighentu_note_row_to_beat_f32(int32_t row);
int32_t marrighentu_beat_to_note_row_f32(float beat);

/* A beat moved to its row and back, by way of float as charts are read, and whether it was off the grid: whether its float was not, by value, the float beat of
 * its row. The double nearest to 1/3 is on the grid, and so is -0. */
marrighentu_quantized marrighentu_quantize(double beat);

/* The beat alone; and the same of a float. */
double marrighentu_quantize_beat(double beat);
float marrighentu_quantize_beat_f32(float beat);

/* The nearest whole number, of two that are equally near the even one, held at the ends of an int32_t; 0 for what is not finite. */
int32_t marrighentu_lrint_f64(double x);
int32_t marrighentu_lrint_f32(float x);

/* The nearest float, of two that are equally near the even one. */
float marrighentu_narrow_f64(double x);

/* Each of these for a column: as far as both columns go, and the rest is left as it was. */
void marrighentu_each_note_row_to_beat(
    const int32_t *rows, size_t rows_length,
    double *beats, size_t beats_length);
void marrighentu_each_note_row_to_beat_f32(
    const int32_t *rows, size_t rows_length,
    float *beats, size_t beats_length);
void marrighentu_each_beat_to_note_row(
    const double *beats, size_t beats_length,
    int32_t *rows, size_t rows_length);
void marrighentu_each_beat_to_note_row_f32(
    const float *beats, size_t beats_length,
    int32_t *rows, size_t rows_length);
void marrighentu_each_quantize_beat(
    const double *beats, size_t beats_length,
    double *quantised, size_t quantised_length);
void marrighentu_each_quantize_beat_f32(
    const float *beats, size_t beats_length,
    float *quantised, size_t quantised_length);
void marrighentu_each_lrint_f64(
    const double *from, size_t from_length,
    int32_t *to, size_t to_length);
void marrighentu_each_lrint_f32(
    const float *from, size_t from_length,
    int32_t *to, size_t to_length);
void marrighentu_each_narrow_f64(
    const double *from, size_t from_length,
    float *to, size_t to_length);

/* ---- assembly */

/* Where a warp came from: it was written, or SM processing made it. */
#define MARRIGHENTU_WRITTEN 0
#define MARRIGHENTU_MADE 1

/* The timing lists of a chart from its raw lists, in any order: tempos in beats a minute, stops and delays in seconds, warps and fakes in beats.
 * The format is MARRIGHENTU_SM, where tempos that are negative or beyond 9,999,999 and negative stops become warps, or MARRIGHENTU_SSC, where
 * tempos and stops that are not positive are left out; any other number is taken for SSC. A room of MARRIGHENTU_MOST_ENTRIES is always enough.
 * warp_marks has one mark for each given warp, and out_warp_marks gets that of each warp that is written: MARRIGHENTU_WRITTEN, or MARRIGHENTU_MADE, which every
 * warp has that this call makes. Of warps on one row the last counts, with its own mark, and made ones come behind the given. Refused with 1 for more than 1,024
 * marks, 2 for another number of them than warps, 4 for a mark that is none; MARRIGHENTU_NO_ROOM counts the room for marks too. */
marrighentu_assembled marrighentu_compute_timing_segments(
    uint32_t format,
    const double *tempo_beats, size_t tempo_beats_length,
    const double *tempo_values, size_t tempo_values_length,
    const double *stop_beats, size_t stop_beats_length,
    const double *stop_values, size_t stop_values_length,
    const double *delay_beats, size_t delay_beats_length,
    const double *delay_values, size_t delay_values_length,
    const double *warp_beats, size_t warp_beats_length,
    const double *warp_lengths, size_t warp_lengths_length,
    const uint8_t *warp_marks, size_t warp_marks_length,
    const double *speed_beats, size_t speed_beats_length,
    const double *speed_ratios, size_t speed_ratios_length,
    const double *speed_delays, size_t speed_delays_length,
    const uint8_t *speed_units, size_t speed_units_length,
    const double *scroll_beats, size_t scroll_beats_length,
    const double *scroll_values, size_t scroll_values_length,
    const double *fake_beats, size_t fake_beats_length,
    const double *fake_lengths, size_t fake_lengths_length,
    float *out_tempo_beats, size_t out_tempo_beats_length,
    float *out_tempo_values, size_t out_tempo_values_length,
    float *out_stop_beats, size_t out_stop_beats_length,
    float *out_stop_values, size_t out_stop_values_length,
    float *out_delay_beats, size_t out_delay_beats_length,
    float *out_delay_values, size_t out_delay_values_length,
    float *out_warp_beats, size_t out_warp_beats_length,
    float *out_warp_lengths, size_t out_warp_lengths_length,
    uint8_t *out_warp_marks, size_t out_warp_marks_length,
    float *out_speed_beats, size_t out_speed_beats_length,
    float *out_speed_ratios, size_t out_speed_ratios_length,
    float *out_speed_delays, size_t out_speed_delays_length,
    uint8_t *out_speed_units, size_t out_speed_units_length,
    float *out_scroll_beats, size_t out_scroll_beats_length,
    float *out_scroll_values, size_t out_scroll_values_length,
    float *out_fake_beats, size_t out_fake_beats_length,
    float *out_fake_lengths, size_t out_fake_lengths_length);

/* ---- the steps of assembly, each by itself, at double */

/* Entries by their rows: each beat on its row, rows that rise strictly, each with the value that came last. */
marrighentu_outcome marrighentu_tidy_row_segments(
    const double *beats, size_t beats_length,
    const double *values, size_t values_length,
    double *out_beats, size_t out_beats_length,
    double *out_values, size_t out_values_length);

/* Warps by their rows, as marrighentu_tidy_row_segments has entries: each row with the length and the mark of the warp that came last. Refused with the lowest number
 * that the list or its marks answer: 1 for more than 1,024 marks, 2 for another number of them than beats, 4 for a mark that is none; 7 counts all three rooms. */
marrighentu_outcome marrighentu_tidy_warp_segments(
    const double *beats, size_t beats_length,
    const double *lengths, size_t lengths_length,
    const uint8_t *marks, size_t marks_length,
    double *out_beats, size_t out_beats_length,
    double *out_lengths, size_t out_lengths_length,
    uint8_t *out_marks, size_t out_marks_length);

/* Changes of tempo: by beat, the last of equal beats, the first at beat 0, none that changes nothing; a tempo of 60 at 0 for none. */
marrighentu_outcome marrighentu_tidy_bpms(
    const double *beats, size_t beats_length,
    const double *tempos, size_t tempos_length,
    double *out_beats, size_t out_beats_length,
    double *out_tempos, size_t out_tempos_length);

/* Scrolls, and speeds, of which one that is near the one before it is left out; entries out of order are placed one by one, and may be refused with 6. */
marrighentu_outcome marrighentu_tidy_scroll_segments(
    const double *beats, size_t beats_length,
    const double *values, size_t values_length,
    double *out_beats, size_t out_beats_length,
    double *out_values, size_t out_values_length);
marrighentu_outcome marrighentu_tidy_speed_segments(
    const double *beats, size_t beats_length,
    const double *ratios, size_t ratios_length,
    const double *delays, size_t delays_length,
    const uint8_t *units, size_t units_length,
    double *out_beats, size_t out_beats_length,
    double *out_ratios, size_t out_ratios_length,
    double *out_delays, size_t out_delays_length,
    uint8_t *out_units, size_t out_units_length);

/* Tempos and stops as an SSC chart has them: those that are positive, and no warps. */
marrighentu_processed marrighentu_process_bpms_and_stops_ssc(
    const double *tempo_beats, size_t tempo_beats_length,
    const double *tempo_values, size_t tempo_values_length,
    const double *stop_beats, size_t stop_beats_length,
    const double *stop_values, size_t stop_values_length,
    double *out_tempo_beats, size_t out_tempo_beats_length,
    double *out_tempo_values, size_t out_tempo_values_length,
    double *out_stop_beats, size_t out_stop_beats_length,
    double *out_stop_values, size_t out_stop_values_length);

/* Tempos and stops as an SM chart has them, with the warps that negative and fast tempos and negative stops become. */
marrighentu_processed marrighentu_process_bpms_and_stops_sm(
    const double *tempo_beats, size_t tempo_beats_length,
    const double *tempo_values, size_t tempo_values_length,
    const double *stop_beats, size_t stop_beats_length,
    const double *stop_values, size_t stop_values_length,
    double *out_tempo_beats, size_t out_tempo_beats_length,
    double *out_tempo_values, size_t out_tempo_values_length,
    double *out_stop_beats, size_t out_stop_beats_length,
    double *out_stop_values, size_t out_stop_values_length,
    double *out_warp_beats, size_t out_warp_beats_length,
    double *out_warp_lengths, size_t out_warp_lengths_length);

/* ---- lists that lost their order */

/* Scrolls, and speeds, mended: in the order of their f64 rows, beats as given, of each row the last entry, without those near the one kept before (values, or
 * ratios and delays, less than a millionth apart, and of speeds the same unit). For each entry given, in the order given, its fate goes to out_fates:
 * MARRIGHENTU_KEPT, MARRIGHENTU_REPLACED or MARRIGHENTU_MERGED. A row whose last entry is merged has no entry left. The count is that of the mended list; mended
 * again, all its entries are kept, and assembly never refuses it with 6.
 * Refused with 1 to 4 for the list, and last with 7 where the shortest room has fewer places than there are entries kept, or out_fates fewer than entries given.
 */
marrighentu_outcome marrighentu_mend_scrolls(
    const double *beats, size_t beats_length,
    const double *values, size_t values_length,
    double *out_beats, size_t out_beats_length,
    double *out_values, size_t out_values_length,
    uint8_t *out_fates, size_t out_fates_length);
marrighentu_outcome marrighentu_mend_speeds(
    const double *beats, size_t beats_length,
    const double *ratios, size_t ratios_length,
    const double *delays, size_t delays_length,
    const uint8_t *units, size_t units_length,
    double *out_beats, size_t out_beats_length,
    double *out_ratios, size_t out_ratios_length,
    double *out_delays, size_t out_delays_length,
    uint8_t *out_units, size_t out_units_length,
    uint8_t *out_fates, size_t out_fates_length);

/* ---- the clock
 *
 * A timing is the columns of its tempos, stops, delays and warps as assembly writes them, and two offsets in seconds: the song's, with the offset that
 * assembly answered added, and the machine's. */

/* The number that a question answers for a timing, 0 to 5. */
uint32_t marrighentu_check_timing(
    const float *tempo_beats, size_t tempo_beats_length,
    const float *tempo_values, size_t tempo_values_length,
    const float *stop_beats, size_t stop_beats_length,
    const float *stop_values, size_t stop_values_length,
    const float *delay_beats, size_t delay_beats_length,
    const float *delay_values, size_t delay_values_length,
    const float *warp_beats, size_t warp_beats_length,
    const float *warp_lengths, size_t warp_lengths_length,
    double offset, double global_offset);

/* A cursor that was not asked yet, for a timing with these offsets. Offsets beyond 2^20 are refused with 4. */
marrighentu_made marrighentu_cursor_new(
    double offset, double global_offset);

/* At what second is this beat? Everything is tested: the timing, the beat, the cursor. The cursor is moved on; after a refusal it is as it was. */
marrighentu_reply marrighentu_lent_time_for_beat(
    marrighentu_cursor *cursor,
    const float *tempo_beats, size_t tempo_beats_length,
    const float *tempo_values, size_t tempo_values_length,
    const float *stop_beats, size_t stop_beats_length,
    const float *stop_values, size_t stop_values_length,
    const float *delay_beats, size_t delay_beats_length,
    const float *delay_values, size_t delay_values_length,
    const float *warp_beats, size_t warp_beats_length,
    const float *warp_lengths, size_t warp_lengths_length,
    double offset, double global_offset,
    double beat);

/* The same for a timing that marrighentu_check_timing took and that has not changed since: only the beat and the cursor are tested, so that
 * the cost does not grow with the lists. This is the question for a player. Over other lists it still returns and does nothing undefined.
 */
marrighentu_reply marrighentu_lent_time_for_beat_checked(
    marrighentu_cursor *cursor,
    const float *tempo_beats, size_t tempo_beats_length,
    const float *tempo_values, size_t tempo_values_length,
    const float *stop_beats, size_t stop_beats_length,
    const float *stop_values, size_t stop_values_length,
    const float *delay_beats, size_t delay_beats_length,
    const float *delay_values, size_t delay_values_length,
    const float *warp_beats, size_t warp_beats_length,
    const float *warp_lengths, size_t warp_lengths_length,
    double offset, double global_offset,
    double beat);

/* The second of each beat, with its number and count, in three columns; the timing and the cursor are tested once. A refused beat has number 3,
 * second 0 and count 0 and leaves the cursor as it was; the run itself is taken then. 7 where a column is shorter than the beats.
 * The answer is the run's number; the cursor is moved on past the last beat.
 */
uint32_t marrighentu_lent_run(
    marrighentu_cursor *cursor,
    const float *tempo_beats, size_t tempo_beats_length,
    const float *tempo_values, size_t tempo_values_length,
    const float *stop_beats, size_t stop_beats_length,
    const float *stop_values, size_t stop_values_length,
    const float *delay_beats, size_t delay_beats_length,
    const float *delay_values, size_t delay_values_length,
    const float *warp_beats, size_t warp_beats_length,
    const float *warp_lengths, size_t warp_lengths_length,
    double offset, double global_offset,
    const double *beats, size_t beats_length,
    uint32_t *numbers, size_t numbers_length,
    double *times, size_t times_length,
    size_t *counts, size_t counts_length);

/* The second of a beat from a fresh cursor. */
marrighentu_answer marrighentu_get_time_for_beat(
    const float *tempo_beats, size_t tempo_beats_length,
    const float *tempo_values, size_t tempo_values_length,
    const float *stop_beats, size_t stop_beats_length,
    const float *stop_values, size_t stop_values_length,
    const float *delay_beats, size_t delay_beats_length,
    const float *delay_values, size_t delay_values_length,
    const float *warp_beats, size_t warp_beats_length,
    const float *warp_lengths, size_t warp_lengths_length,
    double offset, double global_offset,
    double beat);

/* The questions and the run by a cursor that goes in by value and comes back with the answer. */
marrighentu_answer marrighentu_time_for_beat(
    marrighentu_cursor cursor,
    const float *tempo_beats, size_t tempo_beats_length,
    const float *tempo_values, size_t tempo_values_length,
    const float *stop_beats, size_t stop_beats_length,
    const float *stop_values, size_t stop_values_length,
    const float *delay_beats, size_t delay_beats_length,
    const float *delay_values, size_t delay_values_length,
    const float *warp_beats, size_t warp_beats_length,
    const float *warp_lengths, size_t warp_lengths_length,
    double offset, double global_offset,
    double beat);
marrighentu_answer marrighentu_time_for_beat_checked(
    marrighentu_cursor cursor,
    const float *tempo_beats, size_t tempo_beats_length,
    const float *tempo_values, size_t tempo_values_length,
    const float *stop_beats, size_t stop_beats_length,
    const float *stop_values, size_t stop_values_length,
    const float *delay_beats, size_t delay_beats_length,
    const float *delay_values, size_t delay_values_length,
    const float *warp_beats, size_t warp_beats_length,
    const float *warp_lengths, size_t warp_lengths_length,
    double offset, double global_offset,
    double beat);
marrighentu_made marrighentu_run(
    marrighentu_cursor cursor,
    const float *tempo_beats, size_t tempo_beats_length,
    const float *tempo_values, size_t tempo_values_length,
    const float *stop_beats, size_t stop_beats_length,
    const float *stop_values, size_t stop_values_length,
    const float *delay_beats, size_t delay_beats_length,
    const float *delay_values, size_t delay_values_length,
    const float *warp_beats, size_t warp_beats_length,
    const float *warp_lengths, size_t warp_lengths_length,
    double offset, double global_offset,
    const double *beats, size_t beats_length,
    uint32_t *numbers, size_t numbers_length,
    double *times, size_t times_length,
    size_t *counts, size_t counts_length);

/* ---- the clock with an end mark, for charts with long outros
 *
 * The mark is the state of a timing's walk after all its events, and the greatest row among them: not the last one, since a warp of negative length ends
 * before it starts. A beat on a higher row is answered from the mark, in one step and in a time that does not grow with the lists, and leaves the
 * cursor in the mark's state; any other is asked as without a mark. The seconds are the same, bit for bit, and marked questions may be mixed with others
 * in any order. Any change to a list or an offset makes a new mark. */

/* The end mark of a timing, which is tested as marrighentu_check_timing tests it. After a refusal the mark is one that no question is answered from. */
marrighentu_mark_made marrighentu_make_mark(
    const float *tempo_beats, size_t tempo_beats_length,
    const float *tempo_values, size_t tempo_values_length,
    const float *stop_beats, size_t stop_beats_length,
    const float *stop_values, size_t stop_values_length,
    const float *delay_beats, size_t delay_beats_length,
    const float *delay_values, size_t delay_values_length,
    const float *warp_beats, size_t warp_beats_length,
    const float *warp_lengths, size_t warp_lengths_length,
    double offset, double global_offset);

/* The timing's number, 0 to 5, and then 5 for a mark that is not that of these lists and offsets, to the bits of every field. The mark is made anew
 * for that. */
uint32_t marrighentu_check_marked_timing(
    marrighentu_mark mark,
    const float *tempo_beats, size_t tempo_beats_length,
    const float *tempo_values, size_t tempo_values_length,
    const float *stop_beats, size_t stop_beats_length,
    const float *stop_values, size_t stop_values_length,
    const float *delay_beats, size_t delay_beats_length,
    const float *delay_values, size_t delay_values_length,
    const float *warp_beats, size_t warp_beats_length,
    const float *warp_lengths, size_t warp_lengths_length,
    double offset, double global_offset);

/* The player's question with a mark, for a timing that marrighentu_make_mark took and that has not changed since: the beat and the cursor are tested. Over
 * another mark it still returns, and answers by that mark. */
marrighentu_reply marrighentu_lent_time_for_beat_checked_marked(
    marrighentu_cursor *cursor,
    marrighentu_mark mark,
    const float *tempo_beats, size_t tempo_beats_length,
    const float *tempo_values, size_t tempo_values_length,
    const float *stop_beats, size_t stop_beats_length,
    const float *stop_values, size_t stop_values_length,
    const float *delay_beats, size_t delay_beats_length,
    const float *delay_values, size_t delay_values_length,
    const float *warp_beats, size_t warp_beats_length,
    const float *warp_lengths, size_t warp_lengths_length,
    double offset, double global_offset,
    double beat);

/* The same with everything tested at each question, the mark as marrighentu_check_marked_timing tests it. */
marrighentu_reply marrighentu_lent_time_for_beat_marked(
    marrighentu_cursor *cursor,
    marrighentu_mark mark,
    const float *tempo_beats, size_t tempo_beats_length,
    const float *tempo_values, size_t tempo_values_length,
    const float *stop_beats, size_t stop_beats_length,
    const float *stop_values, size_t stop_values_length,
    const float *delay_beats, size_t delay_beats_length,
    const float *delay_values, size_t delay_values_length,
    const float *warp_beats, size_t warp_beats_length,
    const float *warp_lengths, size_t warp_lengths_length,
    double offset, double global_offset,
    double beat);

/* Many beats from the cursor on, as marrighentu_lent_run, with a mark. Refused with 1 to 5, with 5 for the mark, with 7 for the room, with 9 for the cursor,
 * in this order. */
uint32_t marrighentu_lent_run_marked(
    marrighentu_cursor *cursor,
    marrighentu_mark mark,
    const float *tempo_beats, size_t tempo_beats_length,
    const float *tempo_values, size_t tempo_values_length,
    const float *stop_beats, size_t stop_beats_length,
    const float *stop_values, size_t stop_values_length,
    const float *delay_beats, size_t delay_beats_length,
    const float *delay_values, size_t delay_values_length,
    const float *warp_beats, size_t warp_beats_length,
    const float *warp_lengths, size_t warp_lengths_length,
    double offset, double global_offset,
    const double *beats, size_t beats_length,
    uint32_t *numbers, size_t numbers_length,
    double *times, size_t times_length,
    size_t *counts, size_t counts_length);

/* The marked questions and the marked run by a cursor that goes in by value and comes back with the answer. */
marrighentu_answer marrighentu_time_for_beat_marked(
    marrighentu_cursor cursor,
    marrighentu_mark mark,
    const float *tempo_beats, size_t tempo_beats_length,
    const float *tempo_values, size_t tempo_values_length,
    const float *stop_beats, size_t stop_beats_length,
    const float *stop_values, size_t stop_values_length,
    const float *delay_beats, size_t delay_beats_length,
    const float *delay_values, size_t delay_values_length,
    const float *warp_beats, size_t warp_beats_length,
    const float *warp_lengths, size_t warp_lengths_length,
    double offset, double global_offset,
    double beat);
marrighentu_answer marrighentu_time_for_beat_checked_marked(
    marrighentu_cursor cursor,
    marrighentu_mark mark,
    const float *tempo_beats, size_t tempo_beats_length,
    const float *tempo_values, size_t tempo_values_length,
    const float *stop_beats, size_t stop_beats_length,
    const float *stop_values, size_t stop_values_length,
    const float *delay_beats, size_t delay_beats_length,
    const float *delay_values, size_t delay_values_length,
    const float *warp_beats, size_t warp_beats_length,
    const float *warp_lengths, size_t warp_lengths_length,
    double offset, double global_offset,
    double beat);
marrighentu_made marrighentu_run_marked(
    marrighentu_cursor cursor,
    marrighentu_mark mark,
    const float *tempo_beats, size_t tempo_beats_length,
    const float *tempo_values, size_t tempo_values_length,
    const float *stop_beats, size_t stop_beats_length,
    const float *stop_values, size_t stop_values_length,
    const float *delay_beats, size_t delay_beats_length,
    const float *delay_values, size_t delay_values_length,
    const float *warp_beats, size_t warp_beats_length,
    const float *warp_lengths, size_t warp_lengths_length,
    double offset, double global_offset,
    const double *beats, size_t beats_length,
    uint32_t *numbers, size_t numbers_length,
    double *times, size_t times_length,
    size_t *counts, size_t counts_length);

/* ---- beat from time */

/* Which beat is it at this second? Events are passed as long as they are over by then: each question walks from the start, and there is no cursor. While a stop
 * or a delay runs, the beat is that entry's own, with its mark, and the entry is not among those passed; else it goes on from the last event by the tempo in
 * force, in a single rounding, in a warp that never ends too. Pauses may be negative, so that time falls: the first event that has not come ends the walk.
 * Everything is tested: the timing as marrighentu_check_timing tests it, and the second, with 4 for one that is not finite or beyond 2^50.
 */
marrighentu_beat_info marrighentu_get_beat_info_from_time(
    const float *tempo_beats, size_t tempo_beats_length,
    const float *tempo_values, size_t tempo_values_length,
    const float *stop_beats, size_t stop_beats_length,
    const float *stop_values, size_t stop_values_length,
    const float *delay_beats, size_t delay_beats_length,
    const float *delay_values, size_t delay_values_length,
    const float *warp_beats, size_t warp_beats_length,
    const float *warp_lengths, size_t warp_lengths_length,
    double offset, double global_offset,
    double time);

/* The same for a timing that marrighentu_check_timing or marrighentu_make_mark took and that has not changed since: only the second is tested. This is the
 * question for a player, once a frame. Over other lists it still returns and does nothing undefined.
 */
marrighentu_beat_info marrighentu_get_beat_info_from_time_checked(
    const float *tempo_beats, size_t tempo_beats_length,
    const float *tempo_values, size_t tempo_values_length,
    const float *stop_beats, size_t stop_beats_length,
    const float *stop_values, size_t stop_values_length,
    const float *delay_beats, size_t delay_beats_length,
    const float *delay_values, size_t delay_values_length,
    const float *warp_beats, size_t warp_beats_length,
    const float *warp_lengths, size_t warp_lengths_length,
    double offset, double global_offset,
    double time);

/* Many seconds at once, in five columns: for each its number, its beat, 1 or 0 for a stop that runs and for a delay that runs, and its count. The timing is
 * tested once. A second that is refused has number 4 and zeros, and the run is taken all the same; 7 where a column is shorter than the seconds.
 */
uint32_t marrighentu_get_beat_infos_from_times(
    const float *tempo_beats, size_t tempo_beats_length,
    const float *tempo_values, size_t tempo_values_length,
    const float *stop_beats, size_t stop_beats_length,
    const float *stop_values, size_t stop_values_length,
    const float *delay_beats, size_t delay_beats_length,
    const float *delay_values, size_t delay_values_length,
    const float *warp_beats, size_t warp_beats_length,
    const float *warp_lengths, size_t warp_lengths_length,
    double offset, double global_offset,
    const double *times, size_t times_length,
    uint32_t *numbers, size_t numbers_length,
    double *beats, size_t beats_length,
    uint8_t *freezes, size_t freezes_length,
    uint8_t *delays, size_t delays_length,
    size_t *counts, size_t counts_length);

/* ---- the note sheet */

/* For each of a rising list of rows, however long, its second, 1 where a note there is judged and else 0, and its colour by number: the first that holds of 0 on a
 * beat, 1 for eighths, 2 for 12ths, 3 for 16ths, 4 for 24ths, 5 for 32nds, 6 for 48ths, 7 for 64ths, and 8 for the rest, which are 192nds. A sheet is one run of
 * a fresh cursor, without an end mark, and takes at most as many steps as there are tempos, stops, delays and, twice, warps, and one for each row.
 * Refused with 1 to 5 as marrighentu_check_timing and marrighentu_judgable_rows refuse the lists, with 3 for a row beyond 3,145,728, with 5 where a row is not above
 * the one before it, and last with 7 where the shortest of the three columns has fewer places than there are rows. No rows are a sheet of none.
 */
marrighentu_sheet marrighentu_note_sheet(
    const float *tempo_beats, size_t tempo_beats_length,
    const float *tempo_values, size_t tempo_values_length,
    const float *stop_beats, size_t stop_beats_length,
    const float *stop_values, size_t stop_values_length,
    const float *delay_beats, size_t delay_beats_length,
    const float *delay_values, size_t delay_values_length,
    const float *warp_beats, size_t warp_beats_length,
    const float *warp_lengths, size_t warp_lengths_length,
    double offset, double global_offset,
    const float *fake_beats, size_t fake_beats_length,
    const float *fake_lengths, size_t fake_lengths_length,
    const int32_t *rows, size_t rows_length,
    double *times, size_t times_length,
    uint8_t *judged, size_t judged_length,
    uint8_t *snaps, size_t snaps_length);

/* ---- the second clock, for tests and for people who want to see what happens when
 *
 * It lays out all events of a timing as one list, in three columns that are lent for it, and answers by running down that list. For a game there is the
 * clock above, which needs no room and keeps its place. */

/* All events of a timing in the order in which they fall, an entry of each column for each: its row, its kind (MARRIGHENTU_WARP_ENDS and so on), and what
 * it brings: a tempo its beats a minute, a stop or a delay its seconds, a warp and a warp's end the beat where it ends, which is the furthest end of all
 * warps so far. Warps that overlap end once. Rows may fall: a warp of negative length ends on a lower row than it begins. A timing without a tempo has
 * the one of 60 on row 0. The answer's count is the number of events.
 *
 * Each column needs an entry for each tempo (for one at least), stop and delay, and two for each warp, though some may stay as they were:
 * MARRIGHENTU_MOST_EVENTS are always enough. Refused with 1 to 5 as marrighentu_check_timing refuses, and last with 7 where the shortest column has fewer.
 */
marrighentu_outcome marrighentu_lay_out_events(
    const float *tempo_beats, size_t tempo_beats_length,
    const float *tempo_values, size_t tempo_values_length,
    const float *stop_beats, size_t stop_beats_length,
    const float *stop_values, size_t stop_values_length,
    const float *delay_beats, size_t delay_beats_length,
    const float *delay_values, size_t delay_values_length,
    const float *warp_beats, size_t warp_beats_length,
    const float *warp_lengths, size_t warp_lengths_length,
    int32_t *rows, size_t rows_length,
    uint8_t *kinds, size_t kinds_length,
    double *numbers, size_t numbers_length);

/* At what second is this beat? Lays out the events as marrighentu_lay_out_events does, then runs down them from the start as far as they come before the
 * beat: on a lower row, or on its row up to a delay. The first that does not ends the run, even where rows fall behind it. Refused as
 * marrighentu_get_time_for_beat refuses, and last with 7 for the room.
 */
marrighentu_bench_answer marrighentu_bench_time_for_beat(
    const float *tempo_beats, size_t tempo_beats_length,
    const float *tempo_values, size_t tempo_values_length,
    const float *stop_beats, size_t stop_beats_length,
    const float *stop_values, size_t stop_values_length,
    const float *delay_beats, size_t delay_beats_length,
    const float *delay_values, size_t delay_values_length,
    const float *warp_beats, size_t warp_beats_length,
    const float *warp_lengths, size_t warp_lengths_length,
    double offset, double global_offset,
    double beat,
    int32_t *rows, size_t rows_length,
    uint8_t *kinds, size_t kinds_length,
    double *numbers, size_t numbers_length);

/* ---- lookups: which notes are judged */

/* Whether a row is warped: the last warp at or before it reaches beyond it, and no positive stop or delay is on it. */
marrighentu_looked marrighentu_is_warp_at_row(
    const float *stop_beats, size_t stop_beats_length,
    const float *stop_values, size_t stop_values_length,
    const float *delay_beats, size_t delay_beats_length,
    const float *delay_values, size_t delay_values_length,
    const float *warp_beats, size_t warp_beats_length,
    const float *warp_lengths, size_t warp_lengths_length,
    int32_t row);

/* The same of a beat's row. */
marrighentu_looked marrighentu_is_warp_at_beat(
    const float *stop_beats, size_t stop_beats_length,
    const float *stop_values, size_t stop_values_length,
    const float *delay_beats, size_t delay_beats_length,
    const float *delay_values, size_t delay_values_length,
    const float *warp_beats, size_t warp_beats_length,
    const float *warp_lengths, size_t warp_lengths_length,
    double beat);

/* Whether a row is fake: the last fake at or before it reaches beyond it. */
marrighentu_looked marrighentu_is_fake_at_row(
    const float *fake_beats, size_t fake_beats_length,
    const float *fake_lengths, size_t fake_lengths_length,
    int32_t row);

/* The same of a beat's row. */
marrighentu_looked marrighentu_is_fake_at_beat(
    const float *fake_beats, size_t fake_beats_length,
    const float *fake_lengths, size_t fake_lengths_length,
    double beat);

/* Whether a note on a row is judged: the row is neither warped nor fake. */
marrighentu_looked marrighentu_is_judgable_at_row(
    const float *stop_beats, size_t stop_beats_length,
    const float *stop_values, size_t stop_values_length,
    const float *delay_beats, size_t delay_beats_length,
    const float *delay_values, size_t delay_values_length,
    const float *warp_beats, size_t warp_beats_length,
    const float *warp_lengths, size_t warp_lengths_length,
    const float *fake_beats, size_t fake_beats_length,
    const float *fake_lengths, size_t fake_lengths_length,
    int32_t row);

/* The same of a beat's row. */
marrighentu_looked marrighentu_is_judgable_at_beat(
    const float *stop_beats, size_t stop_beats_length,
    const float *stop_values, size_t stop_values_length,
    const float *delay_beats, size_t delay_beats_length,
    const float *delay_values, size_t delay_values_length,
    const float *warp_beats, size_t warp_beats_length,
    const float *warp_lengths, size_t warp_lengths_length,
    const float *fake_beats, size_t fake_beats_length,
    const float *fake_lengths, size_t fake_lengths_length,
    double beat);

/* The lowest number that one of the four lists answers a lookup by, 0 to 5. */
uint32_t marrighentu_check_lookups(
    const float *stop_beats, size_t stop_beats_length,
    const float *stop_values, size_t stop_values_length,
    const float *delay_beats, size_t delay_beats_length,
    const float *delay_values, size_t delay_values_length,
    const float *warp_beats, size_t warp_beats_length,
    const float *warp_lengths, size_t warp_lengths_length,
    const float *fake_beats, size_t fake_beats_length,
    const float *fake_lengths, size_t fake_lengths_length);

/* The six lookups for lists that marrighentu_check_lookups took and that have not changed since: each answers what the call without _checked does, and only
 * the row or beat is tested (3), so that the cost grows with the logarithm of the lists. These are the questions for a player, asked one at a time.
 * Over other lists they still return and do nothing undefined.
 */
marrighentu_looked marrighentu_is_warp_at_row_checked(
    const float *stop_beats, size_t stop_beats_length,
    const float *stop_values, size_t stop_values_length,
    const float *delay_beats, size_t delay_beats_length,
    const float *delay_values, size_t delay_values_length,
    const float *warp_beats, size_t warp_beats_length,
    const float *warp_lengths, size_t warp_lengths_length,
    int32_t row);

marrighentu_looked marrighentu_is_warp_at_beat_checked(
    const float *stop_beats, size_t stop_beats_length,
    const float *stop_values, size_t stop_values_length,
    const float *delay_beats, size_t delay_beats_length,
    const float *delay_values, size_t delay_values_length,
    const float *warp_beats, size_t warp_beats_length,
    const float *warp_lengths, size_t warp_lengths_length,
    double beat);

marrighentu_looked marrighentu_is_fake_at_row_checked(
    const float *fake_beats, size_t fake_beats_length,
    const float *fake_lengths, size_t fake_lengths_length,
    int32_t row);

marrighentu_looked marrighentu_is_fake_at_beat_checked(
    const float *fake_beats, size_t fake_beats_length,
    const float *fake_lengths, size_t fake_lengths_length,
    double beat);

marrighentu_looked marrighentu_is_judgable_at_row_checked(
    const float *stop_beats, size_t stop_beats_length,
    const float *stop_values, size_t stop_values_length,
    const float *delay_beats, size_t delay_beats_length,
    const float *delay_values, size_t delay_values_length,
    const float *warp_beats, size_t warp_beats_length,
    const float *warp_lengths, size_t warp_lengths_length,
    const float *fake_beats, size_t fake_beats_length,
    const float *fake_lengths, size_t fake_lengths_length,
    int32_t row);

marrighentu_looked marrighentu_is_judgable_at_beat_checked(
    const float *stop_beats, size_t stop_beats_length,
    const float *stop_values, size_t stop_values_length,
    const float *delay_beats, size_t delay_beats_length,
    const float *delay_values, size_t delay_values_length,
    const float *warp_beats, size_t warp_beats_length,
    const float *warp_lengths, size_t warp_lengths_length,
    const float *fake_beats, size_t fake_beats_length,
    const float *fake_lengths, size_t fake_lengths_length,
    double beat);

/* 1 for each row on which a note is judged and 0 for each other, for a whole note sheet: the lists are tested once, and rising rows are cheapest. */
marrighentu_outcome marrighentu_judgable_rows(
    const float *stop_beats, size_t stop_beats_length,
    const float *stop_values, size_t stop_values_length,
    const float *delay_beats, size_t delay_beats_length,
    const float *delay_values, size_t delay_values_length,
    const float *warp_beats, size_t warp_beats_length,
    const float *warp_lengths, size_t warp_lengths_length,
    const float *fake_beats, size_t fake_beats_length,
    const float *fake_lengths, size_t fake_lengths_length,
    const int32_t *rows, size_t rows_length,
    uint8_t *out, size_t out_length);

/* The rows of positive stops, positive delays, warps and fakes, one part behind another, each rising; and in a room of its own the mark of each row of the
 * warps' part. warp_marks has one mark for each warp, MARRIGHENTU_WRITTEN or MARRIGHENTU_MADE. Rows of warps that repeat stay, in the order given, each with its
 * mark. The marks are tested with the lists, and MARRIGHENTU_NO_ROOM counts their room too. */
marrighentu_stored marrighentu_build_segment_row_storage(
    const float *stop_beats, size_t stop_beats_length,
    const float *stop_values, size_t stop_values_length,
    const float *delay_beats, size_t delay_beats_length,
    const float *delay_values, size_t delay_values_length,
    const float *warp_beats, size_t warp_beats_length,
    const float *warp_lengths, size_t warp_lengths_length,
    const float *fake_beats, size_t fake_beats_length,
    const float *fake_lengths, size_t fake_lengths_length,
    const uint8_t *warp_marks, size_t warp_marks_length,
    int32_t *rows, size_t rows_length,
    uint8_t *row_marks, size_t row_marks_length);

/* How many rows warps pass over, each row once: the different rows r with start row <= r < start row + length in rows for some warp of a length above 0. Rows are
 * those of the beats and lengths at double, the start and the length each held at the ends of int32_t, the end itself not; so a warp without an end counts
 * 2,147,483,647 rows. It is meant for a timing's warps, whose rows rise, as marrighentu_compute_timing_segments writes them and marrighentu_check_timing takes them.
 * It refuses nothing and tests nothing: over warps whose rows fall it goes along the list once, and of each warp counts only the rows that lie behind every
 * earlier end, so that no row is counted twice and some may be left out; sort such a list by row first. Where one column is longer its last entries are not read.
 */
uint64_t marrighentu_warped_rows(
    const float *warp_beats, size_t warp_beats_length,
    const float *warp_lengths, size_t warp_lengths_length);

/* ---- stops for SM */

/* The stops that an SM file needs to play a timing without delays and warps. Stops and work list are flat: beat, seconds, beat, seconds.
 * Where the answer says `own`, the stops that were given are the result and nothing was written; else the first `count` pairs of the work list.
 */
marrighentu_filled marrighentu_convert_warps_and_delays_to_sm_stops(
    const float *tempo_beats, size_t tempo_beats_length,
    const float *tempo_values, size_t tempo_values_length,
    const float *stops, size_t stops_length,
    const float *delay_beats, size_t delay_beats_length,
    const float *delay_values, size_t delay_values_length,
    const float *warp_beats, size_t warp_beats_length,
    const float *warp_lengths, size_t warp_lengths_length,
    float *work, size_t work_length);

/* ---- where notes stand, and where they are drawn */

/* Where a note on a beat is drawn, in beats, by a timing's scrolls: before the first of them, and where there is none, at the beat itself; else
 * (beat - its beat) x its ratio behind the last scroll at or before the beat, the last of those on one beat. The list's beats may repeat and may not
 * fall (MARRIGHENTU_NOT_RISING). All is tested at each question, and the list is walked once.
 */
marrighentu_displayed marrighentu_get_displayed_beat(
    const float *scroll_beats, size_t scroll_beats_length,
    const float *scroll_ratios, size_t scroll_ratios_length,
    double beat);

/* For a player: tests a list of scrolls once, and writes for each how far the display has moved up to it. */
marrighentu_outcome marrighentu_build_scroll_prefix(
    const float *scroll_beats, size_t scroll_beats_length,
    const float *scroll_ratios, size_t scroll_ratios_length,
    double *prefix, size_t prefix_length);

/* The player's question, over scrolls and the prefix that marrighentu_build_scroll_prefix wrote for them: a search by halves. Only the beat is tested;
 * over another prefix it still returns, with a position that means nothing.
 */
marrighentu_displayed marrighentu_get_displayed_beat_checked(
    const float *scroll_beats, size_t scroll_beats_length,
    const float *scroll_ratios, size_t scroll_ratios_length,
    const double *prefix, size_t prefix_length,
    double beat);

/* Many beats at once: the scrolls are tested once. For each beat its number, MARRIGHENTU_BAD_BEAT where it is refused, and its position, 0 then. */
marrighentu_outcome marrighentu_get_displayed_beats(
    const float *scroll_beats, size_t scroll_beats_length,
    const float *scroll_ratios, size_t scroll_ratios_length,
    const double *beats, size_t beats_length,
    uint32_t *numbers, size_t numbers_length,
    double *positions, size_t positions_length);

/* The beat of each row of note data: measures between commas, the rows of a measure spread evenly over its four beats. A row is a line with a byte
 * in it that is not blank (9, 10, 12, 13 and 32 are); only a line feed, a comma or the end of the data ends one. A measure without rows writes nothing
 * and is four beats long. At most 2^20 bytes are taken; half as many places of room, rounded up, always do.
 */
marrighentu_outcome marrighentu_compute_row_to_beat(
    const uint8_t *note_data, size_t note_data_length,
    float *beats, size_t beats_length);

/* x * y + z with one rounding, as IEEE 754's fusedMultiplyAdd and C's fma, on every machine alike. */
double marrighentu_mul_add_f64(double x, double y, double z);
float marrighentu_mul_add_f32(float x, float y, float z);

/* ---- text */

/* A list of tempos as text: beat=tempo for each entry, in the order given, commas between, both with six decimals; nothing ends it, neither a line feed nor a 0.
 * A beat is moved to its row. A tempo is divided by 60 and multiplied again, at float, as the original does, so that 63 is written 62.999996; one that is not
 * finite is written 0.000000. Of two texts that are equally near the one with the even last digit is written, and a tempo of -0 keeps its sign.
 * The text fills the front of the page; a page of MARRIGHENTU_TEMPO_TEXT_BYTES for each entry is always long enough, and one that is just as long as the text too.
 * Refused are, by the limits of raw tempos, a beat that is not finite with 3 and a tempo beyond them with 4, and with 7 a text that is longer than its page.
 */
marrighentu_outcome marrighentu_format_bpm_segments_like_itg(
    const double *beats, size_t beats_length,
    const double *tempos, size_t tempos_length,
    uint8_t *page, size_t page_length);

/* The same of float columns, as assembly writes them. */
marrighentu_outcome marrighentu_format_bpm_segments_f32_like_itg(
    const float *beats, size_t beats_length,
    const float *tempos, size_t tempos_length,
    uint8_t *page, size_t page_length);

/* ---- the layout that the port's functions have: a compiler that lays a struct out otherwise is refused */

#ifdef __cplusplus
#define MARRIGHENTU_LAYOUT(test) static_assert(test, "layout")
#else
#define MARRIGHENTU_LAYOUT(test) _Static_assert(test, "layout")
#endif
MARRIGHENTU_LAYOUT(sizeof(size_t) == 8 && sizeof(bool) == 1);
MARRIGHENTU_LAYOUT(sizeof(marrighentu_state) == 56 && offsetof(marrighentu_state, warps) == 24);
MARRIGHENTU_LAYOUT(offsetof(marrighentu_state, row) == 32 && offsetof(marrighentu_state, warping) == 36);
MARRIGHENTU_LAYOUT(offsetof(marrighentu_state, time) == 40 && offsetof(marrighentu_state, end) == 48);
MARRIGHENTU_LAYOUT(sizeof(marrighentu_cursor) == 64 && offsetof(marrighentu_cursor, asked) == 56);
MARRIGHENTU_LAYOUT(sizeof(marrighentu_answer) == 88 && offsetof(marrighentu_answer, time) == 8);
MARRIGHENTU_LAYOUT(offsetof(marrighentu_answer, count) == 16 && offsetof(marrighentu_answer, cursor) == 24);
MARRIGHENTU_LAYOUT(sizeof(marrighentu_reply) == 24 && offsetof(marrighentu_reply, time) == 8 && offsetof(marrighentu_reply, count) == 16);
MARRIGHENTU_LAYOUT(sizeof(marrighentu_made) == 72 && offsetof(marrighentu_made, cursor) == 8);
MARRIGHENTU_LAYOUT(sizeof(marrighentu_mark) == 64 && offsetof(marrighentu_mark, row) == 56);
MARRIGHENTU_LAYOUT(sizeof(marrighentu_mark_made) == 72 && offsetof(marrighentu_mark_made, mark) == 8);
MARRIGHENTU_LAYOUT(sizeof(marrighentu_beat_info) == 32 && offsetof(marrighentu_beat_info, beat) == 8);
MARRIGHENTU_LAYOUT(offsetof(marrighentu_beat_info, is_in_freeze) == 16 && offsetof(marrighentu_beat_info, is_in_delay) == 17);
MARRIGHENTU_LAYOUT(offsetof(marrighentu_beat_info, count) == 24);
MARRIGHENTU_LAYOUT(sizeof(marrighentu_bench_answer) == 32 && offsetof(marrighentu_bench_answer, time) == 8);
MARRIGHENTU_LAYOUT(offsetof(marrighentu_bench_answer, count) == 16 && offsetof(marrighentu_bench_answer, laid) == 24);
MARRIGHENTU_LAYOUT(sizeof(marrighentu_looked) == 8 && offsetof(marrighentu_looked, yes) == 4);
MARRIGHENTU_LAYOUT(sizeof(marrighentu_outcome) == 16 && offsetof(marrighentu_outcome, count) == 8);
MARRIGHENTU_LAYOUT(sizeof(marrighentu_displayed) == 16 && offsetof(marrighentu_displayed, beat) == 8);
MARRIGHENTU_LAYOUT(sizeof(marrighentu_stored) == 40 && offsetof(marrighentu_stored, fakes) == 32);
MARRIGHENTU_LAYOUT(sizeof(marrighentu_filled) == 24 && offsetof(marrighentu_filled, own) == 16);
MARRIGHENTU_LAYOUT(sizeof(marrighentu_processed) == 40 && offsetof(marrighentu_processed, warps) == 24 && offsetof(marrighentu_processed, offset) == 32);
MARRIGHENTU_LAYOUT(sizeof(marrighentu_assembled) == 96 && offsetof(marrighentu_assembled, offset) == 64 && offsetof(marrighentu_assembled, moved) == 68);

#ifdef __cplusplus
}

namespace marrighentu {

/* The address of a container's numbers, as marrighentu_column has it: data() of an empty vector may be null. */
template <typename Container>
inline auto column(Container &numbers) -> decltype(numbers.data()) {
    alignas(8) static unsigned char none[8];
    return numbers.data() ? numbers.data() : reinterpret_cast<decltype(numbers.data())>(none);
}

} // namespace marrighentu
#endif

#endif
