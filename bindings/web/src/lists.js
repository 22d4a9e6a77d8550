// The entries of a chart's lists, read as rssp reads them. What can't be read is noted with its place. Not proved.
(function (root) {
    'use strict';

    const { trim, trimStart, trimEnd, width, quoted, parseF32, parseF64 } = root.Marrighentu.text;

    // a part of an entry and its place in bytes
    function trimmed({ text, at }) {
        const front = trimStart(text);
        return { text: trimEnd(front), at: at + width(text.slice(0, text.length - front.length)) };
    }

    function split(part) {
        let at = part.at;
        return part.text.split('=').map((text) => {
            const found = { text, at };
            at += width(text) + 1;
            return found;
        });
    }

    // Of an entry with control characters among its text these are gone.
    function cleaned(text) {
        return trim(/[\x00-\x08\x0b\x0c\x0e-\x1f]/.test(text) ? text.replace(/[\x00-\x1f\x7f-\x9f]/g, '') : text);
    }

    // Entries between commas. Empty ones are none: a list may be empty, and a comma may end it.
    function entries(list, at) {
        const found = [];
        let next = at;
        for (const piece of list.split(',')) {
            const text = cleaned(piece);
            if (text !== '') found.push({ text, at: trimmed({ text: piece, at: next }).at, number: found.length + 1 });
            next += width(piece) + 1;
        }
        return found;
    }

    class Reader {
        constructor() {
            this.faults = [];
        }

        wrong(at, what, found) {
            this.faults.push({ at, what: `${what}, found ${quoted(found)}` });
        }

        // A beat as f32, or a row with an `r` behind it; undefined where it is neither.
        beat(part) {
            const { text, at } = trimmed(part);
            const rows = /[rR]$/.test(text);
            const number = parseF32(rows ? trimEnd(text.slice(0, -1)) : text);
            if (number === undefined || !Number.isFinite(number)) {
                this.wrong(at, 'a beat is wanted', text);
                return undefined;
            }
            return rows ? number / 48 : number;
        }

        // A number as it is read, and through f32. One that is not finite is told, and so is one that no f32 holds.
        value(part) {
            const { text, at } = trimmed(part);
            const number = parseF64(text);
            if (number === undefined) {
                this.wrong(at, 'a number is wanted', text);
                return undefined;
            }
            const narrow = Math.fround(number);
            if (!Number.isFinite(narrow)) this.wrong(at, 'a finite number is wanted', text);
            return { number, narrow };
        }

        pairs(list, at, kept) {
            const found = [];
            for (const entry of entries(list, at)) {
                const equals = entry.text.indexOf('=');
                if (equals < 0) {
                    this.wrong(entry.at, 'a beat and a value are wanted, as 4=120', entry.text);
                    continue;
                }
                const beat = this.beat({ text: entry.text.slice(0, equals), at: entry.at });
                if (beat === undefined) continue;
                const value = this.value({ text: entry.text.slice(equals + 1), at: entry.at + width(entry.text.slice(0, equals)) + 1 });
                if (value !== undefined && kept(value)) found.push({ beat, value: value.narrow, number: entry.number, at: entry.at });
            }
            return found;
        }

        // Tempos, in order by beat and stable. Processing drops those that are not finite.
        tempos(list, at) {
            return this.pairs(list, at, () => true).sort((one, other) => one.beat - other.beat);
        }

        segments(list, at) {
            return this.pairs(list, at, ({ number }) => Number.isFinite(number));
        }

        // Fakes that are not positive are left out.
        fakes(list, at) {
            return this.pairs(list, at, ({ number, narrow }) => Number.isFinite(number) && narrow > 0);
        }

        // A speed's unit is 1, seconds, where it is written so, else 0, beats. One that is neither is told, and so is what stands behind it.
        speed(entry) {
            const parts = split(entry).map(trimmed);
            if (parts.length < 3) {
                this.wrong(entry.at, 'a beat, a ratio, a delay and a unit are wanted, as 4=1.5=0.25=0', entry.text);
                return undefined;
            }
            const beat = this.beat(parts[0]);
            const ratio = beat === undefined ? undefined : this.value(parts[1]);
            const delay = ratio === undefined ? undefined : this.value(parts[2]);
            if (delay === undefined) return undefined;
            const unit = parts[3];
            if (unit && unit.text !== '0' && unit.text !== '1') this.wrong(unit.at, 'a unit is wanted, 0 for beats or 1 for seconds', unit.text);
            if (parts[4]) this.wrong(parts[4].at, 'a speed has four numbers', parts[4].text);
            return { beat, ratio: ratio.narrow, delay: delay.narrow, unit: unit && unit.text === '1' ? 1 : 0, number: entry.number, at: entry.at };
        }

        speeds(list, at) {
            return entries(list, at).map((entry) => this.speed(entry)).filter((speed) => speed !== undefined);
        }

        // An offset in seconds, 0 where none can be read.
        offset(text, at) {
            const part = trimmed({ text, at });
            if (part.text === '') return 0;
            const number = parseF64(part.text);
            if (number !== undefined && Number.isFinite(number)) return number;
            this.wrong(part.at, 'a number of seconds is wanted', part.text);
            return 0;
        }
    }

    root.Marrighentu = { ...root.Marrighentu, ListReader: Reader };
})(globalThis);
