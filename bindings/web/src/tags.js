// Tags: a text as a row of `#NAME:value;`, in one pass. Names and values are ranges of bytes, [from, to]. Not proved.
(function (root) {
    'use strict';

    const { trim, trimBytes, lossy } = root.Marrighentu.text;
    const [TAB, LF, CR, SPACE, HASH, COMMA, SLASH, COLON, SEMICOLON, BACKSLASH] = [9, 10, 13, 32, 35, 44, 47, 58, 59, 92];

    // Those that give an .ssc chart timing of its own.
    const TIMING = ['BPMS', 'STOPS', 'DELAYS', 'WARPS', 'SPEEDS', 'SCROLLS', 'FAKES', 'TIMESIGNATURES', 'LABELS', 'TICKCOUNTS', 'COMBOS', 'OFFSET'];
    const KNOWN = new Set([...TIMING, 'VERSION', 'NOTEDATA', 'NOTES', 'NOTES2', 'FREEZES']);
    const IS_TIMING = new Set(TIMING);

    // ASCII letters alone: no other letter becomes one of them
    const upper = (text) => text.replace(/[a-z]+/g, (letters) => letters.toUpperCase());
    const nameOf = (bytes, from, to) => upper(lossy(bytes.subarray(...trimBytes(bytes, from, to))));

    // Comments become spaces, so that all places stay as they are.
    function blankComments(bytes) {
        let at = 0;
        while (at < bytes.length) {
            if (bytes[at] === BACKSLASH) at += 2;
            else if (bytes[at] === SLASH && bytes[at + 1] === SLASH) {
                const end = bytes.indexOf(LF, at);
                bytes.fill(SPACE, at, end < 0 ? bytes.length : end);
                at = end < 0 ? bytes.length : end;
            } else at++;
        }
    }

    // Where a value that begins at a place ends, and where the text goes on behind it. A `#` at the beginning of a line ends one whose semicolon is missing.
    function valueEnd(bytes, from) {
        let lineBegins = false;
        for (let at = from; at < bytes.length; at++) {
            const byte = bytes[at];
            if (byte === BACKSLASH) {
                lineBegins = bytes[at + 1] === CR || bytes[at + 1] === LF;
                at++;
            } else if (byte === SEMICOLON) return [at, at + 1];
            else if (byte === HASH && lineBegins) return [at, at];
            else if (byte === CR || byte === LF) lineBegins = true;
            else if (byte !== SPACE && byte !== TAB) lineBegins = false;
        }
        return [bytes.length, bytes.length];
    }

    function nameEnd(bytes, from) {
        let at = from;
        while (at < bytes.length && ![COLON, SEMICOLON, CR, LF, HASH].includes(bytes[at])) at++;
        return at;
    }

    // The tags in their order, and the places of each `#` that begins none.
    function scan(bytes) {
        const [tags, loose] = [[], []];
        let at = bytes.indexOf(HASH);
        while (at >= 0) {
            const end = nameEnd(bytes, at + 1);
            let next = end;
            if (bytes[end] === COLON || bytes[end] === SEMICOLON) {
                const name = nameOf(bytes, at + 1, end);
                const [to, behind] = bytes[end] === COLON ? valueEnd(bytes, end + 1) : [end, end + 1];
                // NOTES2 is another name of NOTES
                tags.push({ known: !KNOWN.has(name) ? null : name === 'NOTES2' ? 'NOTES' : name, name, at, value: [bytes[end] === COLON ? end + 1 : end, to] });
                next = behind;
            } else loose.push(at);
            at = bytes.indexOf(HASH, next);
        }
        return { tags, loose };
    }

    // The fields of a value between colons, those with a backslash before them left out.
    function fields(bytes, [from, to]) {
        const found = [];
        let start = from;
        for (let at = from; at < to; at++) {
            if (bytes[at] === BACKSLASH) at++;
            else if (bytes[at] === COLON) {
                found.push([start, at]);
                start = at + 1;
            }
        }
        found.push([start, to]);
        return found;
    }

    // A value as words for a reader: trimmed, without the backslashes that hold characters.
    function words(bytes, [from, to]) {
        const kept = [];
        let held = false;
        for (let at = from; at < to; at++) {
            held = bytes[at] === BACKSLASH && !held;
            if (!held) kept.push(bytes[at]);
        }
        return trim(lossy(Uint8Array.from(kept)));
    }

    // ranges between a byte that parts them
    function parts(bytes, [from, to], by) {
        const found = [];
        let start = from;
        for (let at = from; at < to; at++) {
            if (bytes[at] === by) {
                found.push([start, at]);
                start = at + 1;
            }
        }
        found.push([start, to]);
        return found;
    }

    root.Marrighentu = { ...root.Marrighentu, tags: { blankComments, scan, fields, words, parts, upper, isTiming: (tag) => IS_TIMING.has(tag.known), COMMA, LF } };
})(globalThis);
