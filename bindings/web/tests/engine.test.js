// The engine by itself: the header as its table, 01's played examples, and what it does with bad arguments.
'use strict';
const test = require('node:test');
const assert = require('node:assert');
const { engine, header, Marrighentu } = require('./load.js');

const none = { tempo_beats: [], tempo_values: [], stop_beats: [], stop_values: [], delay_beats: [], delay_values: [], warp_beats: [], warp_lengths: [] };
const timing = (lists) => ({ ...none, offset: 0, global_offset: 0, ...lists });

test('every function of the header is there', () => {
    const declared = [...header.matchAll(/\b(marrighentu_[a-z0-9_]+)\(/g)].map((found) => found[1]);
    const inline = new Set(['marrighentu_column', 'marrighentu_room']);
    const wanted = new Set(declared.filter((name) => !inline.has(name)));
    assert.deepStrictEqual(new Set(Object.keys(engine.functions)), wanted);
    for (const name of wanted) assert.strictEqual(typeof engine[name.replace('marrighentu_', '')], 'function', name);
});

test('structs are laid as a C compiler lays them', () => {
    const text = Marrighentu.header.plain('typedef struct { uint8_t a; double b; bool c; } one; typedef struct { bool d; one e; uint32_t f; } two;');
    const { one, two } = Marrighentu.header.structsOf(text);
    assert.deepStrictEqual([one.size, one.align, one.fields.map((field) => field.at)], [24, 8, [0, 8, 16]]);
    assert.deepStrictEqual([two.size, two.align, two.fields.map((field) => field.at)], [40, 8, [0, 8, 32]]);
});

test('beats have the seconds and steps of the played examples', () => {
    const stop = timing({ tempo_beats: [0], tempo_values: [120], stop_beats: [4], stop_values: [1] });
    const warp = timing({ tempo_beats: [0], tempo_values: [120], warp_beats: [4], warp_lengths: [2] });
    for (const [lists, beat, time, count] of [[stop, 4, 2, 2], [stop, 5, 3.5, 3], [warp, 5, 2, 3], [warp, 8, 3, 4]]) {
        const answer = engine.get_time_for_beat({ ...lists, beat });
        assert.deepStrictEqual([answer.number, answer.time, answer.count], [0, time, count]);
    }
});

test('a lent cursor comes back moved, and unchanged after a refusal', () => {
    const lists = timing({ tempo_beats: [0], tempo_values: [120], stop_beats: [4], stop_values: [1] });
    const fresh = engine.cursor_new({ offset: 0, global_offset: 0 }).cursor;
    const asked = engine.lent_time_for_beat({ ...lists, cursor: fresh, beat: 5 });
    assert.deepStrictEqual([asked.number, asked.time, asked.cursor.asked, asked.cursor.state.stops], [0, 3.5, 240, 1]);
    const refused = engine.lent_time_for_beat({ ...lists, cursor: asked.cursor, beat: NaN });
    assert.deepStrictEqual(refused, { number: 3, time: 0, count: 0, cursor: asked.cursor });
});

test('rooms keep what stands behind a result', () => {
    const room = [9, 9, 9, 9];
    const tidied = engine.tidy_row_segments({ beats: [4, 2, 4], values: [1, 3, 2], out_beats: room, out_values: room });
    assert.deepStrictEqual([tidied.number, tidied.count], [0, 2]);
    assert.deepStrictEqual([[...tidied.out_beats], [...tidied.out_values]], [[2, 4, 9, 9], [3, 2, 9, 9]]);
});

test('a parameter that is not given is told by its name', () => {
    assert.throws(() => engine.note_row_to_beat({}), /marrighentu_note_row_to_beat: row is not given/);
    assert.throws(() => engine.get_time_for_beat({ ...none, offset: 0, global_offset: 0 }), /beat is not given/);
});

test('the largest lists fit, and the memory grows only as far as one call needs', () => {
    const many = Array.from({ length: 1024 }, (_, at) => at);
    const ask = () => engine.get_time_for_beat({ ...timing({ tempo_beats: many, tempo_values: many.map(() => 120) }), beat: 2000 });
    assert.deepStrictEqual([ask().number, ask().time, ask().count], [0, 1000, 1025]);
});
