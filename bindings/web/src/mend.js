// Scrolls and speeds that lost their order, mended by the proved calls, and what became of each of their entries.
(function (root) {
    'use strict';

    const FATES = ['kept', 'replaced', 'merged'];
    const WORDS = { kept: 'kept', replaced: 'replaced, a later entry is on its row', merged: 'merged, it is as the one kept before it' };

    const column = (entries, field) => entries.map((entry) => entry[field]);

    // { list, fates } of one list, its columns by their names in the header; null where it is refused.
    function mended(call, entries, fields) {
        const columns = Object.fromEntries(Object.entries(fields).flatMap(([name, field]) => [[name, column(entries, field)], [`out_${name}`, entries.length]]));
        const answer = call({ ...columns, out_fates: entries.length });
        if (answer.number !== 0) return null;
        const list = Array.from({ length: answer.count }, (_, place) => Object.fromEntries(Object.entries(fields).map(([name, field]) => [field, answer[`out_${name}`][place]])));
        return { list, fates: Array.from(answer.out_fates, (fate) => FATES[fate]) };
    }

    // What was read with both lists mended, and the fates of the entries as they were read; null where one of them is refused.
    function mendRead(engine, read) {
        const scrolls = mended(engine.mend_scrolls, read.lists.scrolls, { beats: 'beat', values: 'value' });
        const speeds = mended(engine.mend_speeds, read.lists.speeds, { beats: 'beat', ratios: 'ratio', delays: 'delay', units: 'unit' });
        if (!scrolls || !speeds) return null;
        return { read: { ...read, lists: { ...read.lists, scrolls: scrolls.list, speeds: speeds.list } }, fates: { scrolls: scrolls.fates, speeds: speeds.fates } };
    }

    root.Marrighentu = { ...root.Marrighentu, mendRead, mendWords: WORDS };
})(globalThis);
