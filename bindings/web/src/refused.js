// Which entry a refusal is about: the list, the entry, its line in the file, the number and its limit, in words. The refusal itself is a proved call's.
(function (root) {
    'use strict';

    const { text: { shown, shownF64 }, assemble } = root.Marrighentu;

    const MOST_ENTRIES = 1024;
    const LAST_BEAT = { number: 65536, written: '65,536' };
    const LEAST = { number: 2 ** -20, written: '2^-20' };
    const MOST = { number: 2 ** 30, written: '2^30' };
    const MOST_OFFSET = { number: 2 ** 20, written: '2^20' };

    // What each number means; the C header says the same at more length.
    const MEANINGS = {
        1: 'a list has too many entries',
        2: 'the columns of a list differ in length',
        3: 'a beat beyond 65,536 or a row beyond 3,145,728',
        4: 'a value or an offset beyond its limit',
        5: 'beats that fall where they have to rise',
        6: 'scrolls or speeds out of order',
        7: 'a result is longer than its room',
    };

    // Each list's words, and its numbers with a name before and a unit behind. Tempos and stops are raw: one that is not 0 has a least size.
    const WORDS = {
        tempos: { name: 'tempo', raw: true, values: [['value', '', ' beats a minute']] },
        stops: { name: 'stop', raw: true, values: [['value', '', ' s']] },
        delays: { name: 'delay', raw: false, values: [['value', '', ' s']] },
        warps: { name: 'warp', raw: false, values: [['value', '', ' beats']] },
        speeds: { name: 'speed', raw: false, values: [['ratio', 'ratio ', ''], ['delay', 'delay ', '']] },
        scrolls: { name: 'scroll', raw: false, values: [['value', '', '']] },
        fakes: { name: 'fake', raw: false, values: [['value', '', ' beats']] },
    };

    // How a number breaks a limit: undefined where it does not.
    function above(number, limit) {
        if (!Number.isFinite(number)) return 'is not finite';
        if (number > limit.number) return `is above ${limit.written}`;
        if (number < -limit.number) return `is below -${limit.written}`;
        return undefined;
    }

    function below(number, limit) {
        if (number === 0 || Math.abs(number) >= limit.number) return undefined;
        return `is below ${limit.written}${number < 0 ? ' in size' : ''}`;
    }

    const named = (list, entry) => `${WORDS[list].name} ${entry.number}, line ${entry.line}`;

    function badBeat(list, entries) {
        for (const entry of entries) {
            const why = above(entry.beat, LAST_BEAT);
            if (why) return { line: entry.line, what: `${named(list, entry)}: beat ${shown(entry.beat)} ${why}` };
        }
        return undefined;
    }

    function badValue(list, entries) {
        const { raw, values } = WORDS[list];
        for (const entry of entries) {
            for (const [field, before, unit] of values) {
                const number = entry[field];
                const why = !raw ? above(number, MOST) : Number.isFinite(number) ? above(number, MOST) ?? below(number, LEAST) : undefined;
                if (why) return { line: entry.line, what: `${named(list, entry)}: ${before}${shown(number)}${unit} ${why}` };
            }
        }
        return undefined;
    }

    function tooLong(list, entries) {
        if (entries.length <= MOST_ENTRIES) return undefined;
        const line = entries.reduce((first, entry) => Math.min(first, entry.line), Infinity);
        return { line, what: `the ${list} from line ${line} on: ${entries.length} entries are above 1,024` };
    }

    // The first entry of scrolls or speeds that has no place, where the list alone is refused.
    function falling(engine, list, entries) {
        if (list !== 'scrolls' && list !== 'speeds') return undefined;
        const none = Object.fromEntries(Object.keys(WORDS).map((name) => [name, []]));
        const falls = (count) => assemble(engine, { format: 'ssc', offset: 0, lists: { ...none, [list]: entries.slice(0, count) } }).number === 6;
        if (!falls(entries.length)) return undefined;
        let [low, high] = [1, entries.length];
        while (low < high) {
            const middle = (low + high) >> 1;
            if (falls(middle)) high = middle;
            else low = middle + 1;
        }
        const entry = entries[low - 1];
        return { line: entry.line, what: `${named(list, entry)}: beat ${shown(entry.beat)} has no place, since the ${list} before it are out of order` };
    }

    function badOffset(read, global) {
        const name = read.offsetLine ? `offset, line ${read.offsetLine}` : 'offset';
        const why = above(read.offset, MOST_OFFSET);
        if (why) return { line: read.offsetLine, what: `${name}: ${shownF64(read.offset)} s ${why}` };
        const machine = above(global, MOST_OFFSET);
        if (machine) return { what: `the machine's offset: ${shownF64(global)} s ${machine}` };
        return { line: read.offsetLine, what: `${name}: ${shownF64(read.offset)} s with the stops before beat 0 is beyond 2^20` };
    }

    // { number, line, what }: why lists that were read are refused with this number, and in which line.
    function explained(engine, read, global, number) {
        const first = (find) => {
            for (const list of Object.keys(WORDS)) {
                const found = find(list, read.lists[list]);
                if (found) return found;
            }
            return undefined;
        };
        let found;
        if (number === 1) found = first(tooLong) ?? { what: `${read.lists.warps.length} warps and those that tempos and stops make are above 1,024 together` };
        else if (number === 3) found = first(badBeat);
        else if (number === 4) found = first(badValue) ?? badOffset(read, global);
        else if (number === 6) found = first((list, entries) => falling(engine, list, entries));
        found ??= { what: MEANINGS[number] };
        return { number, line: found.line, what: `${found.what} (refusal ${number})` };
    }

    root.Marrighentu = { ...root.Marrighentu, explained, listWords: WORDS, refusalMeanings: MEANINGS };
})(globalThis);
