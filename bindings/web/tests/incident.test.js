// What once went wrong: the arrows that are told by the proved call, the machine in JavaScript beside it, and what the wrong one leaves to be judged.
'use strict';
const test = require('node:test');
const assert = require('node:assert');
const { read, engine, Marrighentu } = require('./load.js');
const { Chance } = require('./chance.js');

const { readChartFile, see, processSm, arrowsOf, diagram, incident: { arrowsTaken, walked, compareMachines } } = Marrighentu;
const arrows = arrowsOf(read('docs/state-diagram.txt').toString());
const chartOf = (text) => see(engine, readChartFile(engine, Buffer.from(text), 'sm'), 0);
const lawsOf = (text) => arrowsTaken(engine, chartOf(text).read).map(({ laws }) => laws.join(' '));

test('the charts that were once scored wrong take these arrows', () => {
    const start = '#BPMS:0=120,4=-120;#STOPS:8=';
    const before = ['opening-written', 'time-outside tempo_opens'];
    assert.deepStrictEqual(lawsOf(`${start}1;`), [...before, 'time-keeps stop-keeps pause_keeps', 'end_in_warp']);
    assert.deepStrictEqual(lawsOf(`${start}2;`), [...before, 'time-keeps stop-keeps pause_keeps', 'end_in_warp']);
    assert.deepStrictEqual(lawsOf(`${start}3;`), [...before, 'time-keeps stop_begins_again', 'end_in_warp']);
    assert.deepStrictEqual(lawsOf('#BPMS:0=120,4=-120,8=120;#STOPS:10=0.5;'), [...before, 'time-keeps tempo-keeps', 'time-keeps stop-keeps pause_keeps', 'end_in_warp']);
});

test('every other arrow is told too', () => {
    assert.deepStrictEqual(lawsOf('#BPMS:0=-120,4=60;#STOPS:8=1;'), ['opening_unwritten', 'time-outside tempo-written', 'time-outside stop-written', 'end-outside']);
    assert.deepStrictEqual(lawsOf('#BPMS:0=120;#STOPS:4=-1,5=2;'), ['opening-written', 'time-outside stop_opens', 'time-keeps stop-ends', 'end-outside']);
    assert.deepStrictEqual(lawsOf('#BPMS:0=120,9=60;#STOPS:4=-1;'), ['opening-written', 'time-outside stop_opens', 'time-ends tempo-written', 'end-outside']);
    // nothing is owed on beat 6, and the warp is open still
    assert.deepStrictEqual(lawsOf('#BPMS:0=120,6=60;#STOPS:4=-1;'), ['opening-written', 'time-outside stop_opens', 'time-keeps tempo-keeps', 'end_in_warp']);
    const charts = [
        '#BPMS:0=120,4=-120;#STOPS:8=3;', '#BPMS:0=-120,4=60;#STOPS:8=1;', '#BPMS:0=120;#STOPS:4=-1,5=2;', '#BPMS:0=120,9=60;#STOPS:4=-1;', '#BPMS:0=120,4=-120,8=120;#STOPS:10=0.5;',
    ];
    const told = new Set(charts.flatMap((text) => lawsOf(text).join(' ').split(' ')));
    assert.deepStrictEqual(arrows.map(({ law }) => law).filter((law) => !told.has(law)), []);
});

test('the machine in JavaScript is the proved one but for its one test', () => {
    const chance = new Chance(3);
    const list = (values) => Array.from({ length: chance.below(6) }, () => ({ beat: Math.fround(chance.below(200) / 8), value: Math.fround(chance.one(values)) }));
    let differ = 0;
    for (let round = 0; round < 2000; round++) {
        const lists = { tempos: list([120, 60, -120, -90, 1e7, 175.5, 0.5]), stops: list([0.5, 1, -1, -0.25, 2, 0.1]) };
        const right = walked(engine, lists, false);
        const proved = processSm(engine, lists);
        assert.deepStrictEqual(JSON.stringify(right), JSON.stringify(proved), JSON.stringify(lists));
        if (JSON.stringify(walked(engine, lists, true)) !== JSON.stringify(proved)) differ++;
    }
    assert.ok(differ > 100, `the wrong machine differs ${differ} times only`);
});

test('the wrong machine leaves notes to be judged that are warped', () => {
    const seen = see(engine, readChartFile(engine, read('bindings/web/charts/pause-in-warp.sm'), 'sm'), 1);
    assert.deepStrictEqual(seen.tidy.warps.map(({ beat, value, made }) => [beat, value, made]), [[4, 7, true]]);
    const { wrongLists, wronglyJudged } = compareMachines(engine, seen);
    assert.deepStrictEqual(wrongLists.warps, [{ beat: 4, value: 5 }]);
    assert.deepStrictEqual(wronglyJudged.map(({ beat }) => beat), [9, 9.5, 10, 10.5]);
    for (const { right, wrong } of wronglyJudged) assert.deepStrictEqual([right.judged, wrong.judged], [false, true]);
});

test('the diagram has every arrow and lights those that are taken', () => {
    for (const width of [330, 600]) {
        const drawn = diagram(arrows, width, ['time-keeps', 'stop-keeps'], true);
        for (const { law } of arrows) assert.ok(drawn.includes(`data-law="${law}"`), law);
        assert.deepStrictEqual([...drawn.matchAll(/data-law="([^"]+)" data-lit/g)].map((found) => found[1]), ['time-keeps', 'stop-keeps']);
    }
});
