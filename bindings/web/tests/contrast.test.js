// Letters and lines stand out from what is behind them in both colour schemes, as WCAG 2 asks: 4.5 to 1 for words, 3 to 1 for what is no word.
'use strict';
const test = require('node:test');
const assert = require('node:assert');
const { read } = require('./load.js');

const style = read('bindings/web/src/page/page.css').toString();
const variables = (block) => Object.fromEntries([...block.matchAll(/--([a-z-]+): (#[0-9a-f]{6});/g)].map(([, name, colour]) => [name, colour]));
const [light, dark] = [...style.matchAll(/:root \{([^}]*)\}/g)].map((found) => variables(found[1]));

function luminance(colour) {
    const [red, green, blue] = [1, 3, 5].map((at) => parseInt(colour.slice(at, at + 2), 16) / 255).map((part) => (part <= 0.04045 ? part / 12.92 : ((part + 0.055) / 1.055) ** 2.4));
    return 0.2126 * red + 0.7152 * green + 0.0722 * blue;
}

function contrast(one, other) {
    const [low, high] = [luminance(one), luminance(other)].sort((a, b) => a - b);
    return (high + 0.05) / (low + 0.05);
}

const WORDS = ['ink', 'pale', 'lit', 'accent', 'tempo', 'stop', 'delay', 'warp', 'made', 'fake', 'scroll'];

for (const [name, colours] of [['light', light], ['dark', { ...light, ...dark }]]) {
    test(`words stand out in the ${name} scheme`, () => {
        for (const word of WORDS) {
            for (const behind of ['paper', 'panel']) assert.ok(contrast(colours[word], colours[behind]) >= 4.5, `${word} on ${behind}: ${contrast(colours[word], colours[behind])}`);
        }
        for (const [word, behind] of [['ink', 'marked'], ['pale', 'marked'], ['lit', 'marked'], ['lit', 'state'], ['ink', 'state'], ['on-accent', 'accent']]) {
            assert.ok(contrast(colours[word], colours[behind]) >= 4.5, `${word} on ${behind}: ${contrast(colours[word], colours[behind])}`);
        }
        assert.ok(contrast(colours.edge, colours.paper) >= 3 && contrast(colours.edge, colours.panel) >= 3, 'the edges of fields');
    });
}

test('the colours of notes carry their letters', () => {
    const snaps = [...style.matchAll(/\.snap-\d \{ --snap: (#[0-9a-f]{6}); \}/g)].map((found) => found[1]);
    const [, letters] = /\.snap \{[^}]* color: (#[0-9a-f]{6});/.exec(style);
    assert.strictEqual(snaps.length, 9);
    for (const snap of snaps) assert.ok(contrast(letters, snap) >= 4.5, `${snap}: ${contrast(letters, snap)}`);
});
