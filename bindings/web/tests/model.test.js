// What a machine sees: the document against chart-picture's, what became of entries in words, refusals, the picture, and the time of a large chart.
'use strict';
const test = require('node:test');
const assert = require('node:assert');
const fs = require('fs');
const os = require('os');
const path = require('path');
const { root, read, engine, Marrighentu } = require('./load.js');
const { pictured, assertSaysTheSame, skip } = require('./pictured.js');
const { Chance, chartText, damaged } = require('./chance.js');
const { largeChart } = require('./large.js');

const { readChartFile, see, askBeat, askTime, tempoAt, jsonOf, picture, wholeSpan } = Marrighentu;
const seenOf = (text, format, chart = 0) => see(engine, readChartFile(engine, Buffer.from(text), format), chart);
const FILES = [
    ['bindings/picture/tests/example.ssc', [0, 1]], ['bindings/picture/tests/dozens.ssc', [0, 1, 2]], ['bindings/picture/tests/many.sm', [0, 1]], ['bindings/web/charts/pause-in-warp.sm', [0, 1]],
];

test('the document says what chart-picture says', { skip }, () => {
    const [beats, times] = [[4, 5.5, 17, -3, 0.1, 24.5, 101, 121], [-1, 0, 2.5, 2.75, 60]];
    for (const [name, charts] of FILES) {
        const file = readChartFile(engine, read(name), path.extname(name).slice(1));
        for (const chart of charts) {
            const seen = see(engine, file, chart);
            const asked = { beats: beats.map((beat) => askBeat(seen.timing, beat)), times: times.map((time) => askTime(seen.timing, time)) };
            const document = JSON.parse(jsonOf(name, seen, asked));
            assertSaysTheSame(document, pictured(path.join(root, name), chart, beats, times));
        }
    }
});

test('lists that lost their order are mended as chart-picture mends them', { skip }, () => {
    const folder = fs.mkdtempSync(path.join(os.tmpdir(), 'mended-'));
    const file = path.join(folder, 'fallen.ssc');
    const text = '#VERSION:0.83;#BPMS:0=120;#SCROLLS:4=1,8=2,0=2,0=3,12.01=2;#SPEEDS:8=2=0.5=0,4=2=0.5=0,0=1=0=1;';
    fs.writeFileSync(file, text);
    const seen = see(engine, readChartFile(engine, Buffer.from(text), 'ssc'), 0, { mend: true });
    const asked = { beats: [askBeat(seen.timing, 6)], times: [] };
    assertSaysTheSame(JSON.parse(jsonOf(file, seen, asked)), pictured(file, 0, [6], [], ['--mend']));
    assert.deepStrictEqual(seen.raw.scrolls.map(({ words }) => words), [
        'kept', 'kept', 'replaced, a later entry is on its row', 'kept', 'merged, it is as the one kept before it; moved onto the grid, to beat 12',
    ]);
    fs.rmSync(folder, { recursive: true });
});

test('the form and the digits are chart-picture\'s', () => {
    const seen = seenOf('#TITLE:a"\x7f\x08;\n#BPMS:0=174.3,4.01=60;#STOPS:8=0.1;', 'sm');
    const lines = jsonOf('a.sm', seen).split('\n');
    for (const line of [
        '  "title": "a\\"\\u007f\\u0008",', '  "warnings": [],', '    {"beat": 0, "beats_a_minute": 174.3},', '    {"beat": 8, "seconds": 0.1}',
        '    {"list": "tempo", "entry": 2, "line": 2, "beat": 4.01, "to": 4, "by": -0.010000228881835938}',
    ]) assert.ok(lines.includes(line), `${line} is not in\n${lines.join('\n')}`);
});

test('it is said of each entry what became of it', () => {
    const words = (seen, list) => seen.raw[list].map((entry) => entry.words);
    const ssc = seenOf('#BPMS:2=120,4=120,8=-5,8.01=60;#STOPS:4=1,4.001=2,5=0;#SCROLLS:0=1,4=1;#DELAYS:1=1;', 'ssc');
    assert.deepStrictEqual(words(ssc, 'tempos'), [
        'kept, from beat 0 on: it is the first', 'merged: it is the tempo already', 'left out: .ssc takes tempos and stops above 0 from beat 0 on', 'kept; moved onto the grid, to beat 8',
    ]);
    assert.deepStrictEqual(words(ssc, 'stops'), ['replaced by entry 2, on the same row', 'kept; moved onto the grid, to beat 4', 'left out: .ssc takes tempos and stops above 0 from beat 0 on']);
    assert.deepStrictEqual([words(ssc, 'scrolls'), words(ssc, 'delays')], [['kept', 'merged: it is as the one before it'], ['kept']]);

    const sm = seenOf('#BPMS:0=120,4=-120,8=120;#STOPS:-1=0.5,9=0.5,14=3,20=-1;#WARPS:4=1,40=2;', 'sm');
    assert.deepStrictEqual(words(sm, 'tempos'), ['kept', 'made into a warp: it runs backward or too fast', 'falls into the warp at beat 4']);
    assert.deepStrictEqual(words(sm, 'stops'), ['before beat 0: it moves the offset', 'works off what the warp at beat 4 owes', 'kept', 'made into a warp: it is below 0']);
    assert.deepStrictEqual(words(sm, 'warps'), ['replaced: SM made a warp on its row', 'kept']);
    assert.deepStrictEqual(sm.tidy.warps.map(({ beat, value, made }) => [beat, value, made]), [[4, 7, true], [20, 2, true], [40, 2, false]]);
    const endless = seenOf('#BPMS:0=120,4=-120;#STOPS:4=-1,4=0.5;', 'sm');
    assert.deepStrictEqual([words(endless, 'tempos')[1], words(endless, 'stops')[0]], ['made into a warp: it runs backward or too fast', 'made into a warp: it is below 0']);
    const behind = seenOf('#BPMS:0=120,4=90,5=60;#STOPS:4=-2;', 'sm');
    assert.deepStrictEqual(words(behind, 'tempos'), ['kept', 'a warp begins here, with the tempo behind it: 60', 'falls into the warp at beat 4']);
    const rest = seenOf('#BPMS:0=120,4=-120,8=120;#STOPS:9=3;', 'sm');
    assert.deepStrictEqual(words(rest, 'stops'), ['kept in part: 1.5 s are more than the warp owed']);
});

test('every entry that assembly counts as moved is told', () => {
    for (const [name] of FILES) {
        const seen = see(engine, readChartFile(engine, read(name)), 1);
        for (const [list, count] of Object.entries(seen.timing.moved)) assert.strictEqual(seen.moved.filter((entry) => `${entry.list}s` === list).length, count);
    }
});

test('a refusal has its entry and its line', () => {
    const { refused } = seenOf('#BPMS:0=120;\n#STOPS:1=1,\n2=1,\n3=1e-7;', 'sm');
    assert.deepStrictEqual(refused, { number: 4, line: 4, what: 'stop 3, line 4: 1e-7 s is below 2^-20 (refusal 4)' });
    const document = JSON.parse(jsonOf('a.sm', seenOf('#DELAYS:70000=1;', 'sm')));
    assert.strictEqual(document.refused.what, 'delay 1, line 1: beat 70000 is above 65,536 (refusal 3)');
});

test('notes that can\'t be read hinder nothing else', () => {
    const seen = seenOf('#BPMS:0=60;\n#NOTES:a:b:c:d:e:\n1\nx;', 'sm', 1);
    assert.match(seen.noteFault.what, /^a note is wanted/);
    assert.strictEqual(tempoAt(seen.timing, 3), 60);
    const far = seenOf(`#BPMS:0=60;\n#NOTES:a:b:c:d:e:\n${','.repeat(16385)}1;`, 'sm', 1);
    assert.strictEqual(far.noteFault.what, 'note, line 3: row 3145920 is above 3,145,728 (refusal 3)');
});

test('pictures are whole', () => {
    for (const [name, charts] of FILES) {
        for (const chart of charts) {
            for (const width of [358, 1212]) {
                const seen = see(engine, readChartFile(engine, read(name)), chart);
                const { svg, beats, heights } = picture(seen, { ...wholeSpan(seen), width });
                assertWellFormed(svg);
                assert.ok(!/NaN|undefined|Infinity/.test(svg), name);
                assert.ok(beats.has(0) && Number.isFinite(heights.y(0)));
            }
        }
    }
    const strange = seenOf('#TITLE:<a & b>;#BPMS:0=1e9;#WARPS:4=99999,150=-2;#SCROLLS:4=1,8=2,0=2;', 'ssc');
    const { svg } = picture(strange, { ...wholeSpan(strange), width: 700 });
    assertWellFormed(svg);
    assert.match(svg, />never ends<.*>no note can be drawn by these scrolls \(refusal 5\)</s);
});

test('charts of all kinds are seen, told and drawn', () => {
    const chance = new Chance(4);
    let timed = 0;
    for (let round = 0; round < 1500; round++) {
        const text = chance.is(3) ? damaged(chance, chartText(chance)) : chartText(chance);
        const file = readChartFile(engine, text, chance.one([undefined, 'sm', 'ssc']));
        const seen = see(engine, file, chance.below(file.charts.length + 1), { mend: chance.is(2) });
        const document = JSON.parse(jsonOf('a', seen));
        if (seen.refused) assert.ok(document.refused.number > 0);
        else {
            const { svg } = picture(seen, { ...wholeSpan(seen), width: 800 });
            assertWellFormed(svg);
            assert.ok(!/NaN|undefined|Infinity/.test(svg), `${text}`);
            for (const entries of Object.values(seen.raw)) for (const { words, fate } of entries) assert.ok(words && fate !== 'gone', `${text}: ${words}`);
            timed++;
        }
    }
    assert.ok(timed > 300, `${timed} are timed`);
});

// every tag that is opened is closed, in order
function assertWellFormed(svg) {
    const open = [];
    for (const [, closing, name, , ended] of svg.matchAll(/<(\/?)(\w+)((?: [\w:-]+="[^"<]*")*) ?(\/?)>/g)) {
        if (closing) assert.strictEqual(open.pop(), name);
        else if (!ended) open.push(name);
    }
    assert.deepStrictEqual(open, []);
    assert.strictEqual((svg.match(/</g) || []).length, [...svg.matchAll(/<(\/?)(\w+)((?: [\w:-]+="[^"<]*")*) ?(\/?)>/g)].length);
}

test('a chart of 1,000 tempos and 5,000 notes is seen and drawn quickly', () => {
    const bytes = Buffer.from(largeChart());
    const run = () => {
        const start = performance.now();
        const seen = see(engine, readChartFile(engine, bytes, 'ssc'), 1);
        picture(seen, { ...wholeSpan(seen), width: 1200 });
        assert.strictEqual(seen.timing.lists.tempos.length, 1000);
        assert.ok(seen.rows.length >= 5000);
        return performance.now() - start;
    };
    const took = Array.from({ length: 5 }, run);
    console.log(`1,000 tempos and 5,000 notes seen and drawn in node in ${took[0].toFixed(0)} ms at first, ${Math.min(...took).toFixed(0)} ms at best`);
    assert.ok(Math.min(...took) < 500, `${took}`);
});
