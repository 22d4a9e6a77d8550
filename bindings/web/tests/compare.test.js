// The comparison finds faults: a number of an answer that is another one, in a room's last place, in a lent cursor and in the answer itself.
'use strict';
const test = require('node:test');
const assert = require('node:assert');
const path = require('path');
const { spawnSync } = require('child_process');
const { root } = require('./load.js');

const hasCompiler = spawnSync(process.env.CC || 'cc', ['--version']).status === 0;
const compare = (name, spoiled) => {
    const env = { ...process.env, ...(spoiled === undefined ? {} : { SPOILED: String(spoiled) }) };
    return spawnSync(process.execPath, [path.join(root, 'bindings/web/compare.js'), '5', '12', `marrighentu_${name}`], { env, encoding: 'utf8' });
};

test('a number that differs is found', { skip: !hasCompiler }, () => {
    for (const name of ['note_row_to_beat', 'lent_time_for_beat', 'tidy_row_segments', 'get_beat_info_from_time', 'warped_rows']) {
        const right = compare(name);
        assert.match(right.stdout, /1 functions, 12 compared, \d+ of them taken, 0 different/, name);
        assert.strictEqual(right.status, 0);
        for (const spoiled of [0, 1]) {
            const wrong = compare(name, spoiled);
            assert.match(wrong.stdout, new RegExp(`marrighentu_${name}: number \\d+ of the answer differs`));
            assert.strictEqual(wrong.status, 1);
        }
    }
});
