// compare.js [SEED] [ROUNDS] [NAME]: every function of the header, or NAME alone, is asked the same of both, the WebAssembly module here and the native library
// in a program that is written from the header; the answers, the lent cursors and every room to its last place must have the same bits (any NaN is any other).
// SPOILED=PLACE, for the test that faults are found, changes one number of the module's last answer, counted from its end.
'use strict';
const fs = require('fs');
const path = require('path');
const { execFileSync } = require('child_process');
const { root, engine } = require('./tests/load.js');
const { Chance } = require('./tests/chance.js');

const [seed, rounds] = [Number(process.argv[2] || 1), Number(process.argv[3] || 200)];
const { functions, structs } = engine;
const names = Object.keys(functions);
const chosen = process.argv[4] ? [process.argv[4]] : names;
const spoiled = process.env.SPOILED === undefined ? -1 : Number(process.env.SPOILED);
const WIDTHS = { double: 8, float: 4, int32_t: 4, uint32_t: 4, uint64_t: 8, uint8_t: 1, bool: 1, size_t: 8 };

// ---- the program, written from the header

// the numbers of a value, each as [type, path]
function flat(type, at) {
    if (!structs[type]) return [[type, at]];
    return structs[type].fields.flatMap((field) => flat(field.type, `${at}.${field.name}`));
}

function caseOf(name, index) {
    const { result, parameters } = functions[name];
    const lines = [];
    const handed = [];
    const back = [];
    parameters.forEach(({ kind, type, name: key }) => {
        if (kind === 'number' || kind === 'struct' || kind === 'lent') {
            lines.push(`${type} ${key};`, ...flat(type, key).map(([own, at]) => `take(&${at}, sizeof(${own}));`));
            handed.push(kind === 'lent' ? `&${key}` : key);
            if (kind === 'lent') back.push(...flat(type, key).map(([own, at]) => `put(&${at}, sizeof(${own}));`));
        } else {
            lines.push(`uint32_t ${key}_n; ${type} *${key} = column(&${key}_n, sizeof(${type}));`);
            handed.push(key, `${key}_n`);
            if (kind === 'written') back.push(`put(${key}, ${key}_n * sizeof(${type}));`);
        }
    });
    if (result === 'void') lines.push(`${name}(${handed.join(', ')});`);
    else lines.push(`${result} r = ${name}(${handed.join(', ')});`, ...flat(result, 'r').map(([own, at]) => `put(&${at}, sizeof(${own}));`));
    return `case ${index}: {\n${[...lines, ...back].map((line) => `    ${line}`).join('\n')}\n} break;`;
}

const program = `#include "marrighentu.h"
#include <stdio.h>
#include <stdlib.h>
#include <string.h>

static void *lent[64];
static int lent_count;
static void take(void *to, size_t bytes) { if (bytes && fread(to, bytes, 1, stdin) != 1) exit(1); }
static void put(const void *from, size_t bytes) { if (bytes && fwrite(from, bytes, 1, stdout) != 1) exit(1); }
static void *column(uint32_t *length, size_t size) {
    take(length, 4);
    void *numbers = malloc(*length * size + 8);
    take(numbers, *length * size);
    return lent[lent_count++] = numbers;
}

int main(void) {
    uint32_t which;
    while (fread(&which, 4, 1, stdin) == 1) {
        switch (which) {
${names.map(caseOf).join('\n')}
        }
        while (lent_count) free(lent[--lent_count]);
    }
}
`;

// ---- what is asked

const dice = new Chance(seed);
const [next, below, one, chance] = [() => dice.next(), (limit) => dice.below(limit), (list) => dice.one(list), (of) => dice.is(of)];
const STRANGE = [NaN, Infinity, -Infinity, -0, 5e-324, 65536, -65536, 65536.00001, 2 ** 30, 2 ** 31, 2 ** 50, -(2 ** 50), 1e300];
const bits = new DataView(new ArrayBuffer(8));
function anyNumber() {
    bits.setUint32(0, next());
    bits.setUint32(4, next());
    return chance(2) ? one(STRANGE) : bits.getFloat64(0);
}

// One length for each list of a call, now and then another; columns without a list's name are one list. A calm question has lists as assembly writes them.
const FLAT = new Set(['stops']);
function lengths(calm) {
    const found = {};
    return (key) => {
        const list = key.includes('_') ? key.replace(/_[a-z]+$/, '') : '';
        found[list] ??= chance(6) ? one([0, 63, 64, 65, 300, 1024, calm ? 7 : 1025]) : below(12);
        // a flat list has a value behind each beat
        if (calm && FLAT.has(key)) return 2 * below(6);
        return !calm && chance(20) ? below(14) : found[list];
    };
}

function numbersOf(type, key, length, calm) {
    if (type === 'size_t' || type === 'uint32_t') return Array.from({ length }, () => below(1000));
    if (type === 'uint8_t') return Array.from({ length }, () => (!calm && chance(30) ? below(256) : below(key.includes('data') || key === 'notes' ? 128 : 2)));
    if (type === 'int32_t') {
        let row = -below(96);
        return Array.from({ length }, () => (row += !calm && chance(30) ? -below(100) : 1 + below(60)));
    }
    let beat = calm || chance(2) ? 0 : -below(4);
    const orderly = calm || chance(2);
    return Array.from({ length }, (_, at) => {
        if (!calm && chance(100)) return anyNumber();
        if (/beats$|^times$|^rows$/.test(key) || key === 'from') {
            if (at) beat += orderly ? (1 + below(200)) / 48 : (below(400) - 150) / 48;
            return !calm && chance(10) ? beat + 0.001 : beat;
        }
        const value = one([120, 60, 180, 0.5, 1, 2, -1, -120, 9999999, 10000000, 1e-3]) * (chance(3) ? below(100) / 37 + 0.01 : 1);
        return /values$|tempos$/.test(key) && key.startsWith('tempo') ? Math.abs(value) * (chance(20) ? -1 : 1) : value;
    });
}

function structOf(type) {
    return Object.fromEntries(structs[type].fields.map((field) => {
        if (structs[field.type]) return [field.name, structOf(field.type)];
        if (field.type === 'bool') return [field.name, chance(2)];
        if (field.type === 'double') return [field.name, chance(9) ? anyNumber() : below(100) / 8];
        return [field.name, field.type === 'int32_t' ? below(4000) - 10 : below(4)];
    }));
}

function numberOf(type, key, calm) {
    if (type === 'double' || type === 'float') {
        const value = !calm && chance(6) ? anyNumber() : key.includes('offset') ? below(9) / 8 - 0.5 : (below(9000) - 400) / 48;
        return type === 'float' ? Math.fround(value) : value;
    }
    if (type === 'bool') return chance(2);
    return type === 'int32_t' ? (!calm && chance(10) ? next() | 0 : below(9000) - 400) : below(3);
}

function question(name) {
    const [calm, roomy] = [!chance(3), !chance(4)];
    const sizes = lengths(calm);
    const given = {};
    for (const { kind, type, name: key } of functions[name].parameters) {
        if (kind === 'number') given[key] = numberOf(type, key, calm);
        else if (kind === 'read') given[key] = numbersOf(type, key, sizes(key), calm);
        else if (kind === 'written') given[key] = numbersOf(type, key, roomy ? one(type === 'uint8_t' ? [1100, 34000] : [1100, 1100, 5200]) : one([0, below(10), 20, 400]), calm);
        else given[key] = structOf(type);
    }
    // a mark and a cursor of the timing itself, as a caller has them, in most questions
    if ('mark' in given && !chance(4)) given.mark = engine.make_mark({ offset: 0, global_offset: 0, ...given }).mark;
    if ('cursor' in given && !chance(4)) given.cursor = engine.cursor_new({ offset: 0, global_offset: 0, ...given }).cursor;
    return given;
}

// ---- both answers, as numbers in the same order

function bytesOf(name, given) {
    const parts = [];
    const number = (type, value) => {
        const view = new DataView(new ArrayBuffer(8));
        if (type === 'double') view.setFloat64(0, value, true);
        else if (type === 'float') view.setFloat32(0, value, true);
        else if (type === 'size_t' || type === 'uint64_t') view.setBigUint64(0, BigInt(value), true);
        else view.setInt32(0, Number(value), true);
        parts.push(new Uint8Array(view.buffer, 0, WIDTHS[type]));
    };
    const value = (type, of) => (structs[type] ? structs[type].fields.forEach((field) => value(field.type, of[field.name])) : number(type, of));
    number('uint32_t', names.indexOf(name));
    for (const { kind, type, name: key } of functions[name].parameters) {
        if (kind !== 'read' && kind !== 'written') value(type, given[key]);
        else {
            number('uint32_t', given[key].length);
            given[key].forEach((entry) => number(type, entry));
        }
    }
    return Buffer.concat(parts);
}

function numbersIn(name, answer) {
    const { result, parameters } = functions[name];
    const found = [];
    const value = (type, of) => (structs[type] ? structs[type].fields.forEach((field) => value(field.type, of[field.name])) : found.push([type, Number(of)]));
    const lent = parameters.filter((one) => one.kind === 'lent' || one.kind === 'written');
    if (result !== 'void') value(result, structs[result] ? answer : lent.length ? answer.number : answer);
    for (const { kind, type, name: key } of lent) {
        if (kind === 'lent') value(type, answer[key]);
        else Array.from(answer[key]).forEach((entry) => found.push([type, Number(entry)]));
    }
    return found;
}

function readBack(view, at, type) {
    switch (type) {
        case 'double': return view.getFloat64(at, true);
        case 'float': return view.getFloat32(at, true);
        case 'int32_t': return view.getInt32(at, true);
        case 'uint32_t': return view.getUint32(at, true);
        case 'size_t': case 'uint64_t': return Number(view.getBigUint64(at, true));
        default: return view.getUint8(at);
    }
}

// ---- the run

const folder = path.join(root, 'target/web');
const [source, driver, library] = [path.join(folder, 'driver.c'), path.join(folder, 'driver'), path.join(root, 'target/native/libmarrighentu.a')];
const newer = (than) => fs.statSync(driver).mtimeMs > fs.statSync(than).mtimeMs;
const isBuilt = fs.existsSync(driver) && fs.readFileSync(source, 'utf8') === program && newer(library) && newer(path.join(root, 'bindings/c/marrighentu.h'));
if (!isBuilt) {
    fs.writeFileSync(source, program);
    execFileSync(process.env.CC || 'cc', ['-std=c11', '-O1', '-w', '-I', path.join(root, 'bindings/c'), source, library, '-o', driver]);
}

let compared = 0;
let different = 0;
let taken = 0;
const never = [];
for (const name of chosen) {
    const asked = [];
    let own = 0;
    for (let round = 0; round < rounds; round++) {
        const given = question(name);
        const answer = engine[name.slice('marrighentu_'.length)](given);
        // what has no number can't be refused
        if (typeof answer !== 'object' || !(answer.number > 0)) own++;
        asked.push({ given, wanted: numbersIn(name, answer) });
    }
    if (spoiled >= 0) {
        const { wanted } = asked[asked.length - 1];
        const place = wanted[wanted.length - 1 - (spoiled % wanted.length)];
        place[1] = Object.is(place[1], 0) ? -0 : 0;
    }
    taken += own;
    if (!own) never.push(name);
    const said = execFileSync(driver, { input: Buffer.concat(asked.map(({ given }) => bytesOf(name, given))), maxBuffer: 1 << 30 });
    const view = new DataView(said.buffer, said.byteOffset, said.byteLength);
    let at = 0;
    for (const { given, wanted } of asked) {
        compared++;
        const wrong = wanted.findIndex(([type, number]) => {
            const other = readBack(view, at, type);
            at += WIDTHS[type];
            return !Object.is(other, number);
        });
        if (wrong >= 0) {
            different++;
            console.log(`${name}: number ${wrong} of the answer differs, asked ${JSON.stringify(given).slice(0, 400)}`);
            break;
        }
    }
    if (at !== said.byteLength && !different) throw new Error(`${name}: the native program wrote ${said.byteLength} bytes, ${at} are read`);
}
// a function that is refused whatever is asked would be compared in name only
for (const name of never) console.log(`${name}: none of ${rounds} questions was taken`);
console.log(`${chosen.length} functions, ${compared} compared, ${taken} of them taken, ${different} different`);
process.exitCode = different || never.length ? 1 : 0;
