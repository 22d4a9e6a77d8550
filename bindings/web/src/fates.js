// What became of each raw entry: kept, moved onto the grid, replaced, merged, made into a warp, or left out; in words. The tidy lists, the rows and what is off the
// grid are proved calls' answers; that an entry's place is looked up among them is not proved.
(function (root) {
    'use strict';

    const { text: { shown, shownF64 }, listWords, mendWords } = root.Marrighentu;

    const rowsOf = (engine, beats) => engine.each_beat_to_note_row({ beats, rows: beats.length }).rows;

    // Whether the format takes a tempo or a stop at all.
    function stays(format, { beat, value }) {
        if (!Number.isFinite(beat) || !Number.isFinite(value)) return false;
        return format === 'ssc' ? beat >= 0 && value > 0 : value !== 0;
    }

    // a difference in three digits
    const few = (number) => shownF64(Number(number.toExponential(2)));

    // Of each entry of each list the beat of its row, and whether it was off the grid.
    function quantizedLists(engine, read) {
        return Object.fromEntries(Object.entries(read.lists).map(([list, entries]) => [list, entries.map(({ beat }) => engine.quantize({ beat }))]));
    }

    // The entries off the grid, list by list in the order in which they are written; of each list as many as assembly counts.
    function movedEntries(read, quantized) {
        return Object.keys(listWords).flatMap((list) => {
            const { name, raw } = listWords[list];
            const moved = read.lists[list].flatMap((entry, place) => {
                const { beat: to, off } = quantized[list][place];
                if (!off || (raw && !stays(read.format, entry))) return [];
                return [{ list: name, entry: entry.number, line: entry.line, beat: entry.beat, to, by: to - entry.beat }];
            });
            // tempos are in order by beat: told as they are written
            return moved.sort((one, other) => one.line - other.line || one.entry - other.entry);
        });
    }

    const movedWords = ({ list, entry, line, beat, to, by }) =>
        `${list} ${entry}, line ${line}: beat ${shown(beat)} is off the grid, moved by ${few(by)} to beat ${shown(to)}`;

    // ---- what became of an entry that is not in the tidy list as it was written

    const LEFT_OUT = {
        sm: 'left out: its value is 0 or no number',
        ssc: 'left out: .ssc takes tempos and stops above 0 from beat 0 on',
    };

    // What SM makes a warp of.
    const BACKWARD = {
        tempos: ({ value }) => !(value > 0 && value <= 9999999) && 'made into a warp: it runs backward or too fast',
        stops: ({ value }) => value < 0 && 'made into a warp: it is below 0',
    };

    // An entry whose row is in the tidy list.
    function onItsRow(list, entry, found) {
        if (list === 'warps' && found.made) return ['replaced', 'replaced: SM made a warp on its row'];
        if (list === 'stops' && found.value !== entry.value) return ['kept', `kept in part: ${shown(found.value)} s are more than the warp owed`];
        if (list === 'tempos' && found.value !== entry.value) return ['warp', `a warp begins here, with the tempo behind it: ${shown(found.value)}`];
        return ['kept', 'kept'];
    }

    // An entry whose row is not; `warp` is the made warp that it falls into.
    function offItsRow(list, entry, row, isFirst, tidy, warp) {
        if (list === 'stops' && entry.beat < 0) return ['offset', 'before beat 0: it moves the offset'];
        if (list === 'tempos' && isFirst && tidy[0].value === entry.value) return ['kept', 'kept, from beat 0 on: it is the first'];
        if (warp && list === 'tempos') return ['warp', `falls into the warp at beat ${shown(warp.beat)}`];
        if (warp && list === 'stops') return ['warp', `works off what the warp at beat ${shown(warp.beat)} owes`];
        if (list === 'tempos') {
            const before = tidy.findLast((one) => one.row <= row);
            return ['merged', before?.value === entry.value ? 'merged: it is the tempo already' : 'merged: a later tempo counts from there on'];
        }
        if (list === 'scrolls' || list === 'speeds') return ['merged', 'merged: it is as the one before it'];
        return ['gone', 'not in the tidy list'];
    }

    // For each list its raw entries in the order of the text, with { row, to, moved, fate, words }; and its tidy entries, with { row }.
    // Of lists that were mended the fates are those of mending.
    function fates(engine, read, timing, quantized, mended = {}) {
        const tidy = {};
        for (const [list, entries] of Object.entries(timing.lists)) {
            const rows = rowsOf(engine, entries.map((entry) => entry.beat));
            tidy[list] = entries.map((entry, place) => ({ ...entry, row: rows[place] }));
        }
        const raw = {};
        for (const list of Object.keys(tidy)) raw[list] = fatesOf(engine, read, list, tidy, quantized[list], mended[list]);
        return { raw, tidy };
    }

    function fatesOf(engine, read, list, tidy, quantized, mended) {
        const entries = read.lists[list];
        const rows = rowsOf(engine, quantized.map(({ beat }) => beat));
        const there = new Map(tidy[list].map((entry) => [entry.row, entry]));
        const made = tidy.warps.filter((warp) => warp.made);
        const isTaken = (entry) => !listWords[list].raw || stays(read.format, entry);
        const first = entries.findIndex(isTaken);
        const last = new Map();
        entries.forEach((entry, place) => {
            if (isTaken(entry)) last.set(rows[place], place);
        });

        const fateOf = (entry, place) => {
            const row = rows[place];
            // assembly goes through f32, where two entries that mending kept may be one
            if (mended?.[place] === 'kept' && !there.has(row)) return ['merged', 'kept when it was mended, and merged when it was timed'];
            if (mended) return [mended[place], mendWords[mended[place]]];
            if (!isTaken(entry)) return ['left out', LEFT_OUT[read.format]];
            const warp = made.findLast((one) => one.row <= row && row <= one.row + one.value * 48);
            const backward = warp && BACKWARD[list]?.(entry);
            if (backward) return ['warp', backward];
            if (last.get(row) !== place) return ['replaced', `replaced by entry ${entries[last.get(row)].number}, on the same row`];
            const found = there.get(row);
            return found ? onItsRow(list, entry, found) : offItsRow(list, entry, row, place === first, tidy[list], warp);
        };
        const told = entries.map((entry, place) => {
            const [fate, said] = fateOf(entry, place);
            const { off, beat: to } = quantized[place];
            const moved = off && fate !== 'left out';
            return { ...entry, row: rows[place], to, moved, fate, words: moved ? `${said}; moved onto the grid, to beat ${shown(to)}` : said };
        });
        return told.sort((one, other) => one.line - other.line || one.number - other.number);
    }

    root.Marrighentu = { ...root.Marrighentu, quantizedLists, fates, movedEntries, movedWords };
})(globalThis);
