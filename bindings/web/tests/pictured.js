// `chart-picture --json` of a file, and how far a document of the page says the same.
'use strict';
const fs = require('fs');
const path = require('path');
const assert = require('node:assert');
const { execFileSync } = require('child_process');
const { root } = require('./load.js');

const program = process.env.CHART_PICTURE || path.join(root, 'target/bindings/debug/chart-picture');
const skip = fs.existsSync(program) ? false : 'chart-picture is not built: cargo is not installed';

// Of a chart by its number, 0 for the whole file; beats and seconds that are asked, and more words of its command line.
function pictured(file, chart, beats = [], times = [], more = []) {
    const asked = [...(beats.length ? ['--beats', beats.join(',')] : []), ...(times.length ? ['--at', times.join(',')] : [])];
    const which = chart ? ['--chart', String(chart), '--notes'] : ['--header'];
    return JSON.parse(execFileSync(program, [file, '--json', '--pass-over', '--events', ...which, ...asked, ...more], { maxBuffer: 1 << 28 }));
}

// All that both say has to be the same; the page may say more of an entry, and leaves out no field but those that it is told.
function assertSaysTheSame(page, program, at = 'the document') {
    if (Array.isArray(program)) {
        assert.strictEqual(page.length, program.length, at);
        program.forEach((one, place) => assertSaysTheSame(page[place], one, `${at}[${place}]`));
    } else if (program !== null && typeof program === 'object') {
        const inBoth = Object.keys(program).filter((key) => key in page);
        assert.ok(inBoth.length > 0, at);
        if (at === 'the document') assert.deepStrictEqual(inBoth, Object.keys(program));
        inBoth.filter((key) => key !== 'file').forEach((key) => assertSaysTheSame(page[key], program[key], `${at}.${key}`));
    } else assert.ok(Object.is(page, program), `${at}: ${page} and ${program}`);
}

module.exports = { pictured, assertSaysTheSame, skip };
