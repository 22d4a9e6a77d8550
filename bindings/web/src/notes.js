// The notes of a chart. Not proved; the row of a line is a sum with one rounding and a rounding to rows, by the proved calls.
(function (root) {
    'use strict';

    const { trimBytes, lossy, quoted } = root.Marrighentu.text;
    const { parts, COMMA, LF } = root.Marrighentu.tags;
    const KINDS = { 1: 'tap', 2: 'hold', 3: 'end', 4: 'roll', M: 'mine', L: 'lift', F: 'fake', K: 'keysound' };
    const LETTERS = Object.fromEntries(Object.entries(KINDS).map(([letter, kind]) => [kind, letter]));
    const AMPERSAND = 38;
    const CLOSING = { '[': 93, '{': 125, '<': 62 };

    // The lines of a measure that are not blank.
    function linesOf(bytes, measure) {
        return parts(bytes, measure, LF).map(([from, to]) => trimBytes(bytes, from, to)).filter(([from, to]) => from < to);
    }

    // What a line holds, lane by lane; what stands in brackets behind a note is passed over. The place of what is no note, if there is such.
    function lanes(bytes, [from, to], found) {
        let lane = 0;
        for (let at = from; at < to; at++) {
            const character = String.fromCharCode(bytes[at]);
            const kind = bytes[at] < 128 ? KINDS[character.toUpperCase()] : undefined;
            if (character === '0' || kind) {
                if (kind) found(lane, kind);
                lane++;
            } else if (lane > 0 && CLOSING[character]) {
                const closing = bytes.indexOf(CLOSING[character], at);
                if (closing < 0 || closing >= to) return at;
                at = closing;
            } else return at;
        }
        return -1;
    }

    // The notes of a value in the order of their rows, then lanes: { notes } or, of the first character that is no note, { fault }.
    function readNotes(engine, bytes, value, lineOf) {
        const notes = [];
        // each player of a routine chart has a part of its own
        for (const player of parts(bytes, value, AMPERSAND)) {
            for (const [measure, range] of parts(bytes, player, COMMA).entries()) {
                const lines = linesOf(bytes, range);
                // the measure's four beats are spread over its lines, in f32
                const start = Math.fround(Math.fround(measure) * 4);
                const apart = Math.fround(4 / Math.fround(lines.length));
                for (const [place, line] of lines.entries()) {
                    let row;
                    const wrong = lanes(bytes, line, (lane, kind) => {
                        row ??= engine.beat_to_note_row({ beat: engine.mul_add_f32({ x: place, y: apart, z: start }) });
                        notes.push({ row, lane, kind, line: lineOf(line[0]) });
                    });
                    if (wrong >= 0) {
                        const found = [...lossy(bytes.subarray(wrong, line[1]))][0];
                        return { fault: { at: wrong, what: `a note is wanted, one of 0 1 2 3 4 M L F K, found ${quoted(found)}` } };
                    }
                }
            }
        }
        return { notes: notes.sort((one, other) => one.row - other.row || one.lane - other.lane) };
    }

    root.Marrighentu = { ...root.Marrighentu, readNotes, noteLetters: LETTERS };
})(globalThis);
