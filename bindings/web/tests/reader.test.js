// The reader of .sm and .ssc text against bindings/charts: example charts, charts by chance, damaged ones and any bytes. All that either tells has to be the same.
'use strict';
const test = require('node:test');
const assert = require('node:assert');
const fs = require('fs');
const path = require('path');
const { execFileSync } = require('child_process');
const { root, read, engine, Marrighentu } = require('./load.js');
const { Chance, anyText, chartText, damaged } = require('./chance.js');

const { readChartFile, assemble, explained, quantizedLists, movedEntries, movedWords, noteLetters, text: { quoted, parseF32, shown, shownF32, shownF64, trim } } = Marrighentu;
const rust = process.env.CHARTS_TOLD || path.join(root, 'target/bindings/debug/examples/told');
const EXAMPLES = ['bindings/picture/tests/example.ssc', 'bindings/picture/tests/dozens.ssc', 'bindings/picture/tests/many.sm', 'bindings/web/charts/pause-in-warp.sm'];

// ---- the lines of bindings/charts/examples/told.rs

const view = new DataView(new ArrayBuffer(8));
const bits = (numbers) => numbers.map((number) => {
    view.setFloat64(0, number);
    return view.getBigUint64(0).toString(16).padStart(16, '0');
}).join(',');
const faultWords = ({ line, column, what }) => `${line}:${column}: ${what}`;

function timingLines(timing) {
    const { lists, offset, own, faults } = timing;
    const lines = [`timing own ${own} offset ${bits([offset])}`];
    for (const name of ['tempos', 'stops', 'delays', 'warps', 'scrolls', 'fakes']) lines.push(`${name} ${lists[name].map(({ beat, value }) => bits([beat, value])).join(' ')}`);
    lines.push(`speeds ${lists.speeds.map(({ beat, ratio, delay, unit }) => bits([beat, ratio, delay, unit])).join(' ')}`);
    lines.push(...faults.map((fault) => `fault ${faultWords(fault)}`), ...movedEntries(timing, quantizedLists(engine, timing)).map((entry) => `moved ${movedWords(entry)}`));
    const { number } = assemble(engine, timing);
    if (number !== 0) lines.push(`refused ${explained(engine, timing, 0, number).what}`);
    return lines;
}

function told(format, bytes) {
    const file = readChartFile(engine, bytes, format);
    const lines = [`${bits([file.version])} ${file.format === 'sm' ? 'Sm' : 'Ssc'} ${quoted(file.title)}`, ...file.warnings.map((fault) => `warning ${faultWords(fault)}`), ...timingLines(file.timing())];
    for (const chart of file.charts) {
        const said = [chart.stepsType, chart.description, chart.difficulty, chart.meter].map(quoted).join(', ');
        lines.push(`chart ${chart.number} line ${chart.line} [${said}]`, ...timingLines(chart.timing()));
        const { notes, fault } = chart.notes();
        lines.push(fault ? `no notes ${faultWords(fault)}` : `notes ${notes.map(({ row, lane, kind, line }) => [row, lane, noteLetters[kind], line].join(',')).join(' ')}`);
    }
    return `${lines.join('\n')}\n`;
}

function compare(cases) {
    const input = cases.map(({ format, bytes }) => {
        const head = Buffer.alloc(5);
        head.write(format === 'sm' ? 's' : format === 'ssc' ? 'c' : '?');
        head.writeUInt32LE(bytes.length, 1);
        return Buffer.concat([head, bytes]);
    });
    const said = execFileSync(rust, { input: Buffer.concat(input), maxBuffer: 1 << 30 }).toString().split('\n.\n');
    assert.strictEqual(said.length, cases.length + 1);
    cases.forEach(({ format, bytes }, place) => assert.strictEqual(told(format, bytes), `${said[place]}\n`, `${format}: ${JSON.stringify(bytes.toString())}`));
}

const formats = [undefined, 'sm', 'ssc'];
const skip = fs.existsSync(rust) ? false : 'bindings/charts is not built: cargo is not installed';

test('example charts are read alike', { skip }, () => {
    compare(EXAMPLES.flatMap((name) => formats.map((format) => ({ format, bytes: read(name) }))));
});

test('charts by chance and damaged ones are read alike', { skip }, () => {
    const chance = new Chance(1);
    const examples = EXAMPLES.map((name) => read(name).subarray(0, 2000));
    compare(Array.from({ length: 3000 }, (_, place) => {
        const bytes = place % 3 ? chartText(chance) : chance.one(examples);
        return { format: formats[place % 7 % 3], bytes: chance.is(3) || place % 3 === 0 ? damaged(chance, bytes) : bytes };
    }));
});

test('any bytes are read alike', { skip }, () => {
    const chance = new Chance(2);
    compare(Array.from({ length: 8000 }, (_, place) => ({ format: formats[place % 3], bytes: anyText(chance) })));
});

test('numbers are read and written as Rust does it', () => {
    // by way of f64 these would fall half way between two f32, and be rounded to the even one
    assert.strictEqual(parseF32('1.00000005960464477540'), 1.0000001192092896);
    assert.strictEqual(parseF32('1.000000059604644775390625'), 1);
    assert.strictEqual(parseF32('1.00000005960464477538'), 1);
    assert.strictEqual(parseF32('-1.00000005960464477540'), -1.0000001192092896);
    assert.deepStrictEqual(['', '.', 'e5', '0x10', '1_0', '1e', ' 1'].map(parseF32), Array(7).fill(undefined));
    assert.deepStrictEqual(['5.', '.5', '+1e2', '-inf', 'NaN', 'Infinity'].map(parseF32), [5, 0.5, 100, -Infinity, NaN, Infinity]);
    assert.deepStrictEqual([0.1, 1e-7, 1e21, -0].map(shownF64), ['0.1', '0.0000001', '1000000000000000000000', '-0']);
    assert.deepStrictEqual([0.1, 16777216, 1e-7, 174.3].map((number) => shownF32(Math.fround(number))), ['0.1', '16777216', '0.0000001', '174.3']);
    assert.deepStrictEqual([1e-7, 2e9, 8.01, -0.01].map(shown), ['1e-7', '2000000000', '8.01', '-0.01']);
    assert.strictEqual(trim('\u0085\ufeff a\u00a0'), '\ufeff a');
    assert.strictEqual(quoted('a"\\\n\u0301\u00a0é'), '"a\\"\\\\\\n\\u{301}\\u{a0}é"');
});

test('time grows with the size only', () => {
    const full = (piece, before) => Buffer.from(before + piece.repeat((1 << 20) / piece.length));
    for (const bytes of [full('#A:\n', ''), full('#', ''), full('x,', '#BPMS:'), full('4=1,3=2,', '#BPMS:'), full('1\n', '#NOTES:a:b:c:d:e:'), full('//', '#BPMS:'), full('#NOTES:a:b:c;\n', '')]) {
        const start = performance.now();
        const file = readChartFile(engine, bytes);
        file.timing();
        file.charts[0]?.notes();
        assert.ok(performance.now() - start < 8000, `${bytes.subarray(0, 20)}: ${performance.now() - start} ms`);
    }
});
