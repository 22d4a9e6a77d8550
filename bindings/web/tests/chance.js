// Numbers by chance, the same ones for a seed on every machine, and texts of charts made with them.
'use strict';

class Chance {
    constructor(seed) {
        this.state = seed >>> 0;
    }

    next() {
        this.state = (this.state + 0x6d2b79f5) >>> 0;
        let mixed = Math.imul(this.state ^ (this.state >>> 15), this.state | 1);
        mixed ^= mixed + Math.imul(mixed ^ (mixed >>> 7), mixed | 61);
        return (mixed ^ (mixed >>> 14)) >>> 0;
    }

    below(limit) {
        return this.next() % limit;
    }

    one(list) {
        return list[this.below(list.length)];
    }

    is(of) {
        return this.below(of) === 0;
    }
}

// Pieces of any text, as bindings/charts has them, and more of what its parts are sensitive to.
const PIECES = [
    '#', ':', ';', ',', '=', '\\', '\n', '\r', '/', '//', ' ', '&', '[', ']', '{', '0', '1', '4', '-', '.5', 'e9', 'r', 'M', 'é', '\x01', '\x7f', '\u00a0', '\u0085', '\ufeff', '\u0301', '日', '\u{1f3b5}',
    '#BPMS:', '#STOPS:', '#SPEEDS:', '#NOTES:', '#NOTEDATA:', '#VERSION:0.8', '#OFFSET:', '#FAKES:', '#notes2:', '#FREEZES:', '#TITLE:', 'inf', 'nan', '1.00000005960464477540', '+', '"', '\t', '\v', '\f',
].map((piece) => Buffer.from(piece)).concat([Buffer.from([0xff]), Buffer.from([0xc3]), Buffer.from([0xe2, 0x82]), Buffer.from([0xed, 0xa0, 0x80])]);

function anyText(chance) {
    return Buffer.concat(Array.from({ length: chance.below(60) }, () => chance.one(PIECES)));
}

const number = (chance) => chance.one(['0', '1', '-1', '0.5', '120', '-120', '1e-7', '2e9', '1e39', 'x', 'inf', '', '60.000', '9999999.5', '0.001', ' 3 ', '1.5e1', '.25', '5.', '+2']);
const beat = (chance) => chance.one(['0', '4', '8.01', '1.3333', '-0.01', '70000', '96r', '17 R', '4.000', '12.5', '3.3333333', 'x', '1.00000005960464477540', '65536', String(chance.below(40)), `${chance.below(900)}r`]);

// A chart file of either format with lists of every kind, some of them damaged.
function chartText(chance) {
    const entry = (name) => [beat(chance), number(chance), ...(name === 'SPEEDS' ? [number(chance), chance.one(['0', '1', '2', ''])] : [])].slice(0, chance.is(20) ? 1 : 4).join('=');
    const list = (name) => `#${chance.is(9) ? name.toLowerCase() : name}:${Array.from({ length: chance.below(7) }, () => entry(name)).join(chance.one([',', ',\n', ' , ']))}${chance.is(8) ? '\n' : ';\n'}`;
    const lists = () => ['BPMS', 'STOPS', 'DELAYS', 'WARPS', 'SPEEDS', 'SCROLLS', 'FAKES', 'LABELS'].filter(() => chance.is(2)).map(list).join('') + (chance.is(3) ? `#OFFSET:${number(chance)};\n` : '');
    const line = () => Array.from({ length: 4 }, () => chance.one([...'00000000001234MLFKx'])).join('') + (chance.is(30) ? '[7]' : '');
    const notes = () => Array.from({ length: chance.below(4) }, () => Array.from({ length: chance.one([0, 1, 3, 4, 8, 12, 7]) }, () => line().replace(chance.is(9) ? '' : 'x', '0')).join('\n')).join('\n,\n');
    const head = `${chance.is(3) ? `#VERSION:${chance.one(['0.83', '0.69', 'x', '0.7', ''])};\n` : ''}#TITLE:a${chance.one(['', '\\:b', ' // no\n', '"é'])};\n${lists()}`;
    const charts = Array.from({ length: chance.below(3) }, () =>
        chance.is(2) ? `#NOTEDATA:;\n#STEPSTYPE:dance-single;\n#METER:${chance.below(12)};\n${chance.is(2) ? lists() : ''}#NOTES:\n${notes()};\n` : `#NOTES:\ndance-single:\nd:\nHard:\n9:\n0:\n${notes()}\n;\n`);
    return Buffer.from(head + charts.join(''));
}

// A text with some of its bytes gone, changed or twice.
function damaged(chance, text) {
    const parts = [];
    let at = 0;
    while (at < text.length) {
        const end = Math.min(at + 1 + chance.below(Math.max(Math.ceil(text.length / 4), 1)), text.length);
        parts.push(text.subarray(at, end));
        if (chance.is(3)) parts.push(chance.one(PIECES));
        at = chance.is(4) ? Math.max(end - chance.below(9), at + 1) : end + (chance.is(3) ? chance.below(5) : 0);
    }
    return Buffer.concat(parts);
}

module.exports = { Chance, anyText, chartText, damaged };
