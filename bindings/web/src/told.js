// What is seen as JSON, in the form and the digits of `chart-picture --json --pass-over --events --notes`.
(function (root) {
    'use strict';

    const { text: { shownF32, shownF64 } } = root.Marrighentu;

    // A number is kept as its digits: those of an f32 are fewer.
    class Digits {
        constructor(text) {
            this.text = text;
        }
    }

    const f64 = (number) => (Number.isFinite(number) ? new Digits(shownF64(number)) : null);
    const f32 = (number) => (Number.isFinite(number) ? new Digits(shownF32(number)) : null);
    const isGroup = (value) => typeof value === 'object' && value !== null && !(value instanceof Digits);

    // U+007F is no printing character and stands as a number too
    const quote = (text) => JSON.stringify(text).replace(/\x7f/g, '\\u007f').replace(/\\b/g, '\\u0008').replace(/\\f/g, '\\u000c');

    // What holds no other group stands in one line.
    function write(value, depth) {
        if (value instanceof Digits) return value.text;
        if (!isGroup(value)) return typeof value === 'string' ? quote(value) : String(value);
        const list = Array.isArray(value);
        const [open, close] = list ? '[]' : '{}';
        const parts = list
            ? value.map((one) => write(one, depth + 1))
            : Object.entries(value).filter(([, one]) => one !== undefined).map(([name, one]) => `${quote(name)}: ${write(one, depth + 1)}`);
        if (!parts.length) return open + close;
        if (!Object.values(value).some(isGroup)) return open + parts.join(', ') + close;
        const feed = `\n${'  '.repeat(depth + 1)}`;
        return `${open}${feed}${parts.join(`,${feed}`)}\n${'  '.repeat(depth)}${close}`;
    }

    const pairs = (entries, name) => entries.map(({ beat, value, made }) => ({ beat: f32(beat), [name]: f32(value), made }));

    // Beats are f32 but for those written as rows.
    const beatOf = (beat) => (Math.fround(beat) === beat ? f32(beat) : f64(beat));

    const unitName = (unit) => (unit === 1 ? 'seconds' : 'beats');

    // The entries of the lists that were mended, as they are written, each with its fate.
    function mendedFields({ read, mended }) {
        const { scrolls, speeds } = read.lists;
        return {
            scrolls: scrolls.map(({ beat, value }, place) => ({ beat: f64(beat), times: f64(value), fate: mended.scrolls[place] })),
            speeds: speeds.map(({ beat, ratio, delay, unit }, place) => ({ beat: f64(beat), ratio: f64(ratio), delay: f64(delay), unit: unitName(unit), fate: mended.speeds[place] })),
        };
    }

    function timingFields(seen, asked) {
        const { timing, tidy, chart, read } = seen;
        const beatAtRow = (row) => f64(timing.engine.note_row_to_beat({ row }));
        return {
            chart: chart ? chart.number : null,
            own_timing: read.own,
            passed_over: read.faults,
            offset: f64(timing.offset),
            global_offset: f64(timing.global),
            tempos: pairs(tidy.tempos, 'beats_a_minute'),
            tempo_text: timing.tempoText(),
            stops: pairs(tidy.stops, 'seconds'),
            delays: pairs(tidy.delays, 'seconds'),
            warps: pairs(tidy.warps, 'beats'),
            warped_rows: timing.warpedRows(),
            speeds: tidy.speeds.map(({ beat, ratio, delay, unit }) => ({ beat: f32(beat), ratio: f32(ratio), delay: f32(delay), unit: unitName(unit) })),
            scrolls: pairs(tidy.scrolls, 'times'),
            fakes: pairs(tidy.fakes, 'beats'),
            moved: seen.moved.map(({ beat, to, by, ...entry }) => ({ ...entry, beat: beatOf(beat), to: beatOf(to), by: f64(by) })),
            beats: asked.beats.map(({ beat, row, time, displayed, ...marks }) => ({ beat: f64(beat), row, time: f64(time), displayed: f64(displayed), ...marks })),
            mended: seen.mended && mendedFields(seen),
            at: asked.times.length ? asked.times.map(({ time, beat, ...marks }) => ({ time: f64(time), beat: f64(beat), ...marks })) : undefined,
            events: timing.events().map(({ row, kind, number }) => ({ row, beat: beatAtRow(row), kind, number: kind.startsWith('warp') ? f64(number) : f32(number) })),
            notes: chart && !seen.noteFault
                ? seen.rows.map(({ row, beat, time, displayed, judged, snap, notes }) => ({
                      row, beat: f64(beat), time: f64(time), displayed: f64(displayed), judged, snap, notes: notes.map(({ lane, kind }) => ({ lane, kind })),
                  }))
                : undefined,
        };
    }

    // The document of a file and of what is seen of one chart, with beats and seconds that were asked; where it is refused, why.
    function jsonOf(name, seen, asked = { beats: [], times: [] }) {
        const { file } = seen;
        const charts = file.charts.map((chart) => ({
            number: chart.number,
            line: chart.line,
            steps_type: chart.stepsType,
            difficulty: chart.difficulty,
            meter: chart.meter,
            description: chart.description,
            own_timing: chart.own,
        }));
        const fields = { file: name, format: file.format, title: file.title, warnings: file.warnings, charts };
        return `${write({ ...fields, ...(seen.refused ? { refused: seen.refused } : timingFields(seen, asked)) }, 0)}\n`;
    }

    root.Marrighentu = { ...root.Marrighentu, jsonOf };
})(globalThis);
