// The original's stored answers are the module's, and a stored answer that is changed is found.
'use strict';
const test = require('node:test');
const assert = require('node:assert');
const { read, engine } = require('./load.js');
require('./replay.js');

const [leaf, lists] = ['crates/replay_leaf/stdin', 'crates/replay_lists/stdin'].map((name) => read(name).toString());
const countOf = (name) => Number(/^(\d+) replayed, 0 different/.exec(read(name).toString())[1]);

test('stored answers are the module\'s', () => {
    const { replayed, different, without } = replayStored(engine, leaf, lists);
    assert.deepStrictEqual(different, []);
    assert.strictEqual(replayed + without, countOf('crates/replay_leaf/stdout') + countOf('crates/replay_lists/stdout'));
    console.log(`${replayed} stored answers replayed, 0 different`);
});

test('a stored answer that is changed differs', () => {
    const changed = leaf.replace(/0000000002AAAAAB/, '0000000002AAAAAC');
    assert.match(replayStored(engine, changed, lists).different[0], /^lrint_f64, case \d+$/);
    const lines = lists.trim().split('\n');
    for (const place of [50, 52, 54, lines.length - 1]) {
        const spoiled = lines.map((line, at) => (at === place ? line.replace(/.$/, (last) => (last === '1' ? '2' : '1')) : line)).join('\n');
        assert.ok(replayStored(engine, leaf, spoiled).different.length > 0, `word ${place}`);
    }
});
