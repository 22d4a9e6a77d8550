// Bytes of a file as text, places in it, and numbers as Rust reads and writes them. Not proved; held against bindings/charts by running both.
(function (root) {
    'use strict';

    const LOSSY = new TextDecoder('utf-8', { ignoreBOM: true });

    // ---- characters

    // White space as Unicode has it; String.trim takes a byte-order mark besides, and leaves a next-line character.
    const FAR_BLANK = /[\u1680\u2000-\u200a\u2028\u2029\u202f\u205f\u3000]/;

    function isBlank(text, at) {
        const code = text.charCodeAt(at);
        if (code < 0x85) return code === 32 || (code >= 9 && code <= 13);
        return code === 0x85 || code === 0xa0 || (code >= 0x1680 && FAR_BLANK.test(text[at]));
    }

    function trimStart(text) {
        let at = 0;
        while (at < text.length && isBlank(text, at)) at++;
        return text.slice(at);
    }

    function trimEnd(text) {
        let end = text.length;
        while (end > 0 && isBlank(text, end - 1)) end--;
        return text.slice(0, end);
    }

    const trim = (text) => trimEnd(trimStart(text));

    const isSpace = (byte) => byte === 32 || byte === 9 || byte === 10 || byte === 12 || byte === 13;

    // a range of bytes without the white space of ASCII around it
    function trimBytes(bytes, from, to) {
        while (from < to && isSpace(bytes[from])) from++;
        while (to > from && isSpace(bytes[to - 1])) to--;
        return [from, to];
    }

    const lossy = (bytes) => LOSSY.decode(bytes);

    // how many bytes a text takes in UTF-8
    function width(text) {
        let bytes = 0;
        for (const character of text) {
            const code = character.codePointAt(0);
            bytes += code < 0x80 ? 1 : code < 0x800 ? 2 : code < 0x10000 ? 3 : 4;
        }
        return bytes;
    }

    // What a lead byte asks of the bytes behind it: how many, and between which the first of them lies.
    function sequence(lead) {
        if (lead < 0x80) return [0];
        if (lead >= 0xc2 && lead <= 0xdf) return [1, 0x80, 0xbf];
        if (lead >= 0xe0 && lead <= 0xef) return [2, lead === 0xe0 ? 0xa0 : 0x80, lead === 0xed ? 0x9f : 0xbf];
        if (lead >= 0xf0 && lead <= 0xf4) return [3, lead === 0xf0 ? 0x90 : 0x80, lead === 0xf4 ? 0x8f : 0xbf];
        return null;
    }

    // the place of the first byte that is no UTF-8, or the end
    function validUpTo(bytes, from, to) {
        let at = from;
        while (at < to) {
            const found = sequence(bytes[at]);
            if (!found) return at;
            const [more, low, high] = found;
            for (let next = 1; next <= more; next++) {
                const byte = bytes[at + next];
                const [least, most] = next === 1 ? [low, high] : [0x80, 0xbf];
                if (at + next >= to || byte < least || byte > most) return at;
            }
            at += more + 1;
        }
        return to;
    }

    const ESCAPES = { '\0': '\\0', '\t': '\\t', '\n': '\\n', '\r': '\\r', '"': '\\"', '\\': '\\\\' };

    // a text between quotation marks, with what can't be printed as numbers
    function quoted(text) {
        const inside = text.replace(/["\\]|[\p{C}\p{Z}\p{Grapheme_Extend}]/gu, (found) => {
            if (found === ' ') return found;
            return ESCAPES[found] ?? `\\u{${found.codePointAt(0).toString(16)}}`;
        });
        return `"${inside}"`;
    }

    // ---- places

    // So many bytes lie between two counts of characters.
    const BLOCK = 64;

    // Tells lines and columns, both from 1, columns in characters, without a walk over the text.
    class Places {
        constructor(bytes) {
            this.bytes = bytes;
            this.starts = [0];
            for (let at = bytes.indexOf(10); at >= 0; at = bytes.indexOf(10, at + 1)) this.starts.push(at + 1);
            this.before = new Uint32Array(Math.ceil(bytes.length / BLOCK) + 1);
            for (let block = 1; block < this.before.length; block++) {
                this.before[block] = this.before[block - 1] + this.characters((block - 1) * BLOCK, Math.min(block * BLOCK, bytes.length));
            }
        }

        characters(from, to) {
            let count = 0;
            for (let at = from; at < to; at++) if ((this.bytes[at] & 0xc0) !== 0x80) count++;
            return count;
        }

        counted(at) {
            const block = Math.floor(at / BLOCK);
            return this.before[block] + this.characters(block * BLOCK, at);
        }

        line(at) {
            let [low, high] = [0, this.starts.length];
            while (low < high) {
                const middle = (low + high) >> 1;
                if (this.starts[middle] <= at) low = middle + 1;
                else high = middle;
            }
            return low;
        }

        place(at) {
            const line = this.line(at);
            return { line, column: this.counted(at) - this.counted(this.starts[line - 1]) + 1 };
        }
    }

    // ---- numbers

    const NUMBER = /^[+-]?(\d+\.?\d*|\.\d+)([eE][+-]?\d+)?$/;
    const WORD = /^([+-]?)(inf|infinity|nan)$/i;

    // a number of f64, infinities and NaN among them; undefined where it is none
    function parseF64(text) {
        if (NUMBER.test(text)) return Number(text);
        const word = WORD.exec(text);
        if (!word) return undefined;
        if (word[2].toLowerCase() === 'nan') return NaN;
        return word[1] === '-' ? -Infinity : Infinity;
    }

    // The next f32 on the side of a number.
    function besideF32(narrow, towards) {
        const float = new Float32Array([narrow]);
        const bits = new Int32Array(float.buffer);
        if (narrow === 0) return towards > 0 ? 2 ** -149 : -(2 ** -149);
        bits[0] += towards > narrow === narrow > 0 ? 1 : -1;
        return float[0];
    }

    // Whether decimal digits are above, at or below an f64 that is not 0: 1, 0 or -1, by whole numbers.
    function compareDigits(text, number) {
        const [, sign, whole, part, power] = /^([+-]?)(\d*)\.?(\d*)(?:[eE]([+-]?\d+))?$/.exec(text);
        let ten = Number(power ?? 0) - part.length;
        let digits = BigInt(whole + part) * (sign === '-' ? -1n : 1n);
        // a number of this size has no bit below 2^-1074; so many times 2 it is whole
        let scaled = number;
        let two = 0;
        while (!Number.isInteger(scaled)) {
            scaled *= 2;
            two++;
        }
        let other = BigInt(scaled);
        digits <<= BigInt(two);
        if (ten > 0) digits *= 10n ** BigInt(ten);
        else other *= 10n ** BigInt(-ten);
        return digits > other ? 1 : digits < other ? -1 : 0;
    }

    // The f32 nearest to decimal digits. By way of f64 a number that falls half way between two would be rounded twice.
    function parseF32(text) {
        const number = parseF64(text);
        if (number === undefined || !Number.isFinite(number)) return number;
        const narrow = Math.fround(number);
        if (narrow === number || !Number.isFinite(narrow)) return narrow;
        const other = besideF32(narrow, number);
        if (number - narrow !== other - number) return narrow;
        const side = compareDigits(text, number);
        if (side === 0) return narrow;
        return side > 0 ? Math.max(narrow, other) : Math.min(narrow, other);
    }

    // Digits without a power of ten.
    function plain(digits) {
        const found = /^(-?)(\d)(?:\.(\d+))?e([+-]\d+)$/.exec(digits);
        if (!found) return digits;
        const [, sign, first, rest = '', power] = found;
        const all = first + rest;
        const point = 1 + Number(power);
        if (point <= 0) return `${sign}0.${'0'.repeat(-point)}${all}`;
        if (point >= all.length) return sign + all + '0'.repeat(point - all.length);
        return `${sign}${all.slice(0, point)}.${all.slice(point)}`;
    }

    // The fewest digits that give a number back, without a power of ten; at f32 those that give the f32 back.
    const shownF64 = (number) => (Object.is(number, -0) ? '-0' : plain(String(number)));

    function digitsF32(number) {
        for (let digits = 1; digits <= 9; digits++) {
            const text = number.toPrecision(digits);
            if (Math.fround(Number(text)) === number) return String(Number(text));
        }
        return String(number);
    }

    const shownF32 = (number) => (Object.is(number, -0) ? '-0' : Number.isFinite(number) ? plain(digitsF32(number)) : rustWord(number));
    const rustWord = (number) => (Number.isNaN(number) ? 'NaN' : number > 0 ? 'inf' : '-inf');

    // a number that went through f32, in few digits: very small and very large ones by a power of ten
    function shown(number) {
        const narrow = Math.fround(number);
        const size = Math.abs(narrow);
        if (narrow === 0 || !Number.isFinite(narrow) || (size >= Math.fround(1e-5) && size < Math.fround(1e16))) return shownF32(narrow);
        const [digits, power] = Number(digitsF32(narrow)).toExponential().split('e');
        return `${digits}e${Number(power)}`;
    }

    root.Marrighentu = {
        ...root.Marrighentu,
        text: { trim, trimStart, trimEnd, trimBytes, lossy, width, validUpTo, quoted, Places, parseF64, parseF32, shownF64, shownF32, shown },
    };
})(globalThis);
