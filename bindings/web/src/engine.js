// The proved functions, called from JavaScript. The C header is the table: its declarations are read here, so that a function has the same name,
// parameters and results in both.
//
//     const engine = Marrighentu.engine(bytes, header);
//     engine.note_sheet({ tempo_beats: [0], tempo_values: [120], .., rows: [0, 48], times: 2, judged: 2, snaps: 2 })
//         -> { number: 0, count: 2, steps: 4, times: Float64Array, judged: Uint8Array, snaps: Uint8Array }
//
// A column that is read is an array of numbers; of one that is written the caller gives the length, or an array whose numbers stand in it before the
// call, and gets it back in the result under its name. Structs go in and come out as objects, sizes as numbers.
(function (root) {
    'use strict';

    const SIZES = { double: 8, float: 4, int32_t: 4, uint32_t: 4, uint64_t: 8, uint8_t: 1, bool: 1, size_t: 8 };
    const COLUMNS = { double: Float64Array, float: Float32Array, int32_t: Int32Array, uint32_t: Uint32Array, uint8_t: Uint8Array, size_t: BigUint64Array };
    const PREFIX = 'marrighentu_';

    // ---- the header, as structs and functions

    const plain = (header) => header.replace(/\/\*[\s\S]*?\*\//g, ' ').replace(/^\s*#.*$/gm, ' ');

    // the fields of a struct with their places, as a C compiler lays them
    function layout(fields, structs) {
        let size = 0;
        let align = 1;
        const laid = fields.map(({ type, name }) => {
            const own = structs[type] ? structs[type].align : SIZES[type];
            const bytes = structs[type] ? structs[type].size : SIZES[type];
            size = Math.ceil(size / own) * own;
            align = Math.max(align, own);
            const field = { type, name, at: size };
            size += bytes;
            return field;
        });
        return { fields: laid, size: Math.ceil(size / align) * align, align };
    }

    function structsOf(text) {
        const structs = {};
        for (const [, body, name] of text.matchAll(/typedef struct \{([^}]*)\} (\w+);/g)) {
            const fields = [...body.matchAll(/(\w+) (\w+);/g)].map(([, type, field]) => ({ type, name: field }));
            structs[name] = layout(fields, structs);
        }
        return structs;
    }

    // a parameter is a column (a pointer, and its length behind it), a struct that is lent, a struct by value, or a number
    function parameter(said, structs) {
        const [, constant, type, star, name] = /^(const )?(\w+) (\*?)(\w+)$/.exec(said.trim());
        if (!star) return { kind: structs[type] ? 'struct' : 'number', type, name };
        if (structs[type]) return { kind: 'lent', type, name };
        return { kind: constant ? 'read' : 'written', type, name };
    }

    function functionsOf(text, structs) {
        const functions = {};
        for (const [, result, name, said] of text.matchAll(/^(\w+) (marrighentu_\w+)\(([^)]*)\);/gm)) {
            const given = said.trim() === 'void' ? [] : said.split(',').map((one) => parameter(one, structs));
            const lengths = new Set(given.filter((one) => one.kind === 'read' || one.kind === 'written').map((one) => one.name + '_length'));
            functions[name] = { result, parameters: given.filter((one) => !lengths.has(one.name)) };
        }
        return functions;
    }

    // ---- calls

    // Places in the module's memory, one behind the other, given back together when a call is over.
    class Room {
        constructor(memory, from) {
            this.memory = memory;
            this.at = from;
        }

        take(bytes) {
            const place = Math.ceil(this.at / 8) * 8;
            this.at = place + Math.max(bytes, 8);
            const missing = this.at - this.memory.buffer.byteLength;
            if (missing > 0) this.memory.grow(Math.ceil(missing / 65536));
            return place;
        }
    }

    function readNumber(view, type, at) {
        switch (type) {
            case 'double': return view.getFloat64(at, true);
            case 'float': return view.getFloat32(at, true);
            case 'int32_t': return view.getInt32(at, true);
            case 'uint32_t': return view.getUint32(at, true);
            case 'uint8_t': return view.getUint8(at);
            case 'bool': return view.getUint8(at) !== 0;
            default: return Number(view.getBigUint64(at, true));
        }
    }

    function writeNumber(view, type, at, value) {
        switch (type) {
            case 'double': return view.setFloat64(at, value, true);
            case 'float': return view.setFloat32(at, value, true);
            case 'int32_t': return view.setInt32(at, value, true);
            case 'uint32_t': return view.setUint32(at, value, true);
            case 'uint8_t': return view.setUint8(at, value);
            case 'bool': return view.setUint8(at, value ? 1 : 0);
            default: return view.setBigUint64(at, BigInt(value), true);
        }
    }

    function readStruct(view, structs, type, at) {
        const found = {};
        for (const field of structs[type].fields) {
            found[field.name] = structs[field.type] ? readStruct(view, structs, field.type, at + field.at) : readNumber(view, field.type, at + field.at);
        }
        return found;
    }

    function writeStruct(view, structs, type, at, value) {
        for (const field of structs[type].fields) {
            if (structs[field.type]) writeStruct(view, structs, field.type, at + field.at, value[field.name]);
            else writeNumber(view, field.type, at + field.at, value[field.name]);
        }
    }

    // a column's numbers at a place of the memory
    function columnAt(memory, type, at, length) {
        return new COLUMNS[type](memory.buffer, at, length);
    }

    function engine(bytes, header) {
        const text = plain(header);
        const structs = structsOf(text);
        const functions = functionsOf(text, structs);
        const module = new WebAssembly.Module(bytes);
        const instance = new WebAssembly.Instance(module, {});
        const memory = instance.exports.memory;
        const free = instance.exports.__heap_base.value;
        const calls = { functions, structs };

        for (const [name, { result, parameters }] of Object.entries(functions)) {
            const call = instance.exports[name];
            if (!call) continue;
            // a struct of up to 8 bytes comes back as a number of 64 bits; of more by a place that is handed over first
            const struct = structs[result];
            const byPlace = struct && struct.size > 8;

            calls[name.slice(PREFIX.length)] = (given = {}) => {
                const room = new Room(memory, free);
                const handed = [];
                const answer = struct ? room.take(struct.size) : 0;
                if (byPlace) handed.push(answer);
                const back = [];
                for (const { kind, type, name: key } of parameters) {
                    const value = given[key];
                    if (value === undefined) throw new TypeError(`${name}: ${key} is not given`);
                    if (kind === 'number') {
                        handed.push(type === 'size_t' || type === 'uint64_t' ? BigInt(value) : value);
                    } else if (kind === 'struct' || kind === 'lent') {
                        const at = room.take(structs[type].size);
                        writeStruct(new DataView(memory.buffer), structs, type, at, value);
                        if (kind === 'lent') back.push(() => [key, readStruct(new DataView(memory.buffer), structs, type, at)]);
                        handed.push(at);
                    } else {
                        const length = typeof value === 'number' ? value : value.length;
                        const at = room.take(length * SIZES[type]);
                        const column = columnAt(memory, type, at, length);
                        if (typeof value === 'number') column.fill(type === 'size_t' ? 0n : 0);
                        else if (type === 'size_t') column.set(Array.from(value, BigInt));
                        else column.set(value);
                        if (kind === 'written') {
                            back.push(() => {
                                const numbers = columnAt(memory, type, at, length);
                                return [key, type === 'size_t' ? Array.from(numbers, Number) : numbers.slice()];
                            });
                        }
                        handed.push(at, BigInt(length));
                    }
                }
                const said = call(...handed);
                const view = new DataView(memory.buffer);
                if (struct && !byPlace) view.setBigUint64(answer, BigInt.asUintN(64, said), true);
                const rooms = back.map((of) => of());
                if (!struct) {
                    const number = typeof said === 'bigint' ? Number(BigInt.asUintN(64, said)) : result === 'uint32_t' ? said >>> 0 : said;
                    return rooms.length ? { number, ...Object.fromEntries(rooms) } : number;
                }
                return { ...readStruct(view, structs, result, answer), ...Object.fromEntries(rooms) };
            };
        }
        return calls;
    }

    root.Marrighentu = { ...root.Marrighentu, engine, header: { plain, structsOf, functionsOf } };
})(globalThis);
