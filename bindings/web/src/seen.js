// What a machine sees of a chart: worked out once, and then told as words, JSON or a picture. Only proved calls are asked.
//
//     const seen = Marrighentu.see(engine, file, 1, { mend: true });      // chart 1; 0 for the whole file
//     seen.refused      -> { number, line, what } where the chart can't be timed; else seen.timing, seen.tidy, seen.raw, seen.rows ..
(function (root) {
    'use strict';

    const { assemble, explained, mendRead, quantizedLists, fates, movedEntries, refusalMeanings } = root.Marrighentu;
    const LAST_ROW = 3145728;

    // The notes of each row together, with the row's second, whether it is judged, its colour and where it is drawn.
    function noteRows(timing, notes) {
        const far = notes.find((note) => note.row > LAST_ROW);
        if (far) return { rows: [], fault: { what: `note, line ${far.line}: row ${far.row} is above 3,145,728 (refusal 3)` } };
        const byRow = new Map();
        for (const note of notes) {
            if (byRow.has(note.row)) byRow.get(note.row).push(note);
            else byRow.set(note.row, [note]);
        }
        const sheet = timing.sheet([...byRow.keys()]);
        if (sheet.number !== 0) return { rows: [], fault: { what: `${refusalMeanings[sheet.number]} (refusal ${sheet.number})` } };
        const { beats } = timing.engine.each_note_row_to_beat({ rows: [...byRow.keys()], beats: byRow.size });
        const { positions } = timing.displayed(beats);
        return { rows: sheet.rows.map((of, place) => ({ ...of, beat: beats[place], displayed: positions[place], notes: byRow.get(of.row) })) };
    }

    // A beat that is asked: { beat, row, time, displayed, warped, fake, judged }, or { beat, number } where it is refused.
    function askBeat(timing, beat) {
        const { number, time } = timing.time(beat);
        if (number !== 0) return { beat, number };
        return {
            beat,
            row: timing.engine.beat_to_note_row({ beat }),
            time,
            displayed: timing.displayed([beat]).positions[0],
            warped: timing.isWarped(beat).yes,
            fake: timing.isFake(beat).yes,
            judged: timing.isJudgable(beat).yes,
        };
    }

    // A second that is asked: { time, beat, freeze, delay, steps }, or { time, number } where it is refused.
    function askTime(timing, time) {
        const { number, ...info } = timing.at(time);
        return number === 0 ? { time, ...info } : { time, number };
    }

    // The tempo in force on a beat: the last one that has begun, or the first.
    function tempoAt(timing, beat) {
        const { tempos } = timing.lists;
        return (tempos.findLast((tempo) => tempo.beat <= beat) ?? tempos[0]).value;
    }

    // The timing of lists that were read, with scrolls and speeds mended first where that is wanted and they can be.
    function timed(engine, read, global, mend) {
        const mended = mend ? mendRead(engine, read) : null;
        const { timing } = mended ? assemble(engine, mended.read, global) : {};
        return timing ? { number: 0, timing, mended: mended.fates } : assemble(engine, read, global);
    }

    function see(engine, file, number, { global = 0, mend = false } = {}) {
        const chart = file.charts[number - 1];
        const read = (chart ?? file).timing();
        const { number: refusal, timing, mended } = timed(engine, read, global, mend);
        const whole = { file, chart, read, global, mended };
        if (refusal !== 0) return { ...whole, refused: explained(engine, read, global, refusal) };
        const { notes = [], fault } = chart ? chart.notes() : {};
        const { rows, fault: far } = noteRows(timing, notes);
        const quantized = quantizedLists(engine, read);
        return { ...whole, timing, ...fates(engine, read, timing, quantized, mended), moved: movedEntries(read, quantized), rows, noteFault: fault ?? far };
    }

    root.Marrighentu = { ...root.Marrighentu, see, askBeat, askTime, tempoAt };
})(globalThis);
