// A timing: a chart's lists as assembly writes them, with its offsets, and the questions that are asked of it. Every answer is a proved call's.
//
//     const { number, timing } = Marrighentu.assemble(engine, file.charts[0].timing());     // number: 0, or why it is refused
//     timing.time(17)      -> { number, time }
//     timing.at(2.5)       -> { number, beat, freeze, delay, steps }
(function (root) {
    'use strict';

    const { lossy } = root.Marrighentu.text;
    const MOST_ENTRIES = 1024;
    const FORMATS = { sm: 0, ssc: 1 };

    // Each list with its columns' names in the C header, the beat first, and its fields' names here.
    const COLUMNS = {
        tempos: { tempo_beats: 'beat', tempo_values: 'value' },
        stops: { stop_beats: 'beat', stop_values: 'value' },
        delays: { delay_beats: 'beat', delay_values: 'value' },
        warps: { warp_beats: 'beat', warp_lengths: 'value' },
        speeds: { speed_beats: 'beat', speed_ratios: 'ratio', speed_delays: 'delay', speed_units: 'unit' },
        scrolls: { scroll_beats: 'beat', scroll_values: 'value' },
        fakes: { fake_beats: 'beat', fake_lengths: 'value' },
    };
    const LISTS = Object.keys(COLUMNS);
    const CLOCK = ['tempos', 'stops', 'delays', 'warps'];
    const LOOKUPS = ['stops', 'delays', 'warps', 'fakes'];
    const KINDS = ['warp ends', 'tempo', 'delay', 'stop', 'warp'];
    const SNAPS = ['4th', '8th', '12th', '16th', '24th', '32nd', '48th', '64th', '192nd'];

    // The columns of some lists, by the header's names.
    function columnsOf(lists, names) {
        const columns = {};
        for (const list of names) {
            for (const [column, field] of Object.entries(COLUMNS[list])) columns[column] = lists[list].map((entry) => entry[field]);
        }
        return columns;
    }

    // The front of columns that a call wrote, as entries.
    function entriesOf(answer, list, count) {
        const columns = Object.entries(COLUMNS[list]);
        return Array.from({ length: count }, (_, place) => Object.fromEntries(columns.map(([column, field]) => [field, answer[`out_${column}`][place]])));
    }

    // the lowest number that is a refusal, else 0
    const lowest = (numbers) => numbers.filter((number) => number !== 0).sort((one, other) => one - other)[0] ?? 0;

    class Timing {
        constructor(engine, lists, offset, global, moved) {
            this.engine = engine;
            this.lists = lists;
            this.offset = offset;
            this.global = global;
            this.moved = moved;
            // typed columns are lent at once, however long they are
            const typed = (names) => Object.fromEntries(Object.entries(columnsOf(lists, names)).map(([column, numbers]) => [column, Float32Array.from(numbers)]));
            this.clock = { ...typed(CLOCK), offset, global_offset: global };
            this.lookups = typed(LOOKUPS);
            const { scroll_beats, scroll_values } = typed(['scrolls']);
            this.scrolls = { scroll_beats, scroll_ratios: scroll_values };
        }

        // The number by which the clock or the lookups refuse it.
        number() {
            return lowest([this.engine.check_timing(this.clock), this.engine.check_lookups(this.lookups)]);
        }

        // At what second is this beat?
        time(beat) {
            return this.engine.get_time_for_beat({ ...this.clock, beat });
        }

        // The seconds of many beats, by one cursor; NaN for a beat that is refused.
        times(beats) {
            const { cursor } = this.engine.cursor_new(this.clock);
            const ran = this.engine.lent_run({ ...this.clock, cursor, beats, numbers: beats.length, times: beats.length, counts: beats.length });
            return Array.from(ran.times, (time, place) => (ran.numbers[place] === 0 ? time : NaN));
        }

        // Which beat is it at this second, and does a stop or a delay run?
        at(time) {
            const { number, beat, is_in_freeze: freeze, is_in_delay: delay, count: steps } = this.engine.get_beat_info_from_time({ ...this.clock, time });
            return { number, beat, freeze, delay, steps };
        }

        isWarped(beat) {
            return this.engine.is_warp_at_beat({ ...this.lookups, beat });
        }

        isFake(beat) {
            return this.engine.is_fake_at_beat({ ...this.lookups, beat });
        }

        isJudgable(beat) {
            return this.engine.is_judgable_at_beat({ ...this.lookups, beat });
        }

        // Where beats are drawn; none where the scrolls can't be drawn by.
        displayed(beats) {
            const shown = this.engine.get_displayed_beats({ ...this.scrolls, beats, numbers: beats.length, positions: beats.length });
            if (shown.number !== 0) return { number: shown.number, positions: Array.from(beats, () => null) };
            return { number: 0, positions: Array.from(shown.positions, (position, place) => (shown.numbers[place] === 0 ? position : null)) };
        }

        // Of each of rising rows its second, whether a note there is judged, and its colour's name.
        sheet(rows) {
            const { length } = rows;
            const sheet = this.engine.note_sheet({ ...this.clock, ...this.lookups, rows, times: length, judged: length, snaps: length });
            const of = (row, place) => ({ row, time: sheet.times[place], judged: sheet.judged[place] === 1, snap: SNAPS[sheet.snaps[place]] });
            return { number: sheet.number, rows: sheet.number === 0 ? Array.from(rows, of) : [] };
        }

        // All events in the order in which they fall.
        events() {
            const most = 5 * MOST_ENTRIES;
            const laid = this.engine.lay_out_events({ ...this.clock, rows: most, kinds: most, numbers: most });
            return Array.from({ length: laid.count }, (_, place) => ({ row: laid.rows[place], kind: KINDS[laid.kinds[place]], number: laid.numbers[place] }));
        }

        // How many rows the warps pass over, each once.
        warpedRows() {
            return this.engine.warped_rows(this.clock);
        }

        // The tempos as a song browser shows them.
        tempoText() {
            const { tempos } = this.lists;
            const columns = { beats: tempos.map((entry) => entry.beat), tempos: tempos.map((entry) => entry.value) };
            const { number, count, page } = this.engine.format_bpm_segments_f32_like_itg({ ...columns, page: 33 * tempos.length });
            return number === 0 ? lossy(page.subarray(0, count)) : null;
        }
    }

    // a warp's mark where it is made; 0 where it is written, as every warp of a file is
    const MADE = 1;

    // The timing of lists that were read, its warps with { made }. `global` is the machine's offset in seconds.
    function assemble(engine, read, global = 0) {
        const rooms = Object.fromEntries(LISTS.flatMap((list) => Object.keys(COLUMNS[list]).map((column) => [`out_${column}`, MOST_ENTRIES])));
        const marks = { warp_marks: new Uint8Array(read.lists.warps.length), out_warp_marks: MOST_ENTRIES };
        const made = engine.compute_timing_segments({ format: FORMATS[read.format], ...columnsOf(read.lists, LISTS), ...marks, ...rooms });
        if (made.number !== 0) return { number: made.number, timing: null };
        const lists = Object.fromEntries(LISTS.map((list) => [list, entriesOf(made, list, made[list])]));
        lists.warps.forEach((warp, place) => Object.assign(warp, { made: made.out_warp_marks[place] === MADE }));
        const timing = new Timing(engine, lists, read.offset + made.offset, global, made.moved);
        const number = timing.number();
        return { number, timing: number === 0 ? timing : null };
    }

    // What SM's processing writes of raw tempos and stops, the warps that it makes among it, each a list of { beat, value }.
    function processSm(engine, lists) {
        const names = ['tempos', 'stops', 'warps'];
        const most = lists.tempos.length + lists.stops.length + 1;
        const rooms = Object.fromEntries(names.flatMap((list) => Object.keys(COLUMNS[list]).map((column) => [`out_${column}`, most])));
        const made = engine.process_bpms_and_stops_sm({ ...columnsOf(lists, ['tempos', 'stops']), ...rooms });
        return Object.fromEntries(names.map((list) => [list, entriesOf(made, list, made[list])]));
    }

    root.Marrighentu = { ...root.Marrighentu, assemble, Timing, processSm, snaps: SNAPS };
})(globalThis);
