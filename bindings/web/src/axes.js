// Scales of a picture, their marks, and numbers in few digits.
(function (root) {
    'use strict';

    const { shownF64 } = root.Marrighentu.text;

    // At most three decimals, without zeros behind, and from 10,000 on with commas.
    function short(number) {
        const [whole, part = ''] = shownF64(Number(number.toFixed(3))).split('.');
        const digits = whole.replace(/^-/, '');
        const grouped = digits.length < 5 ? digits : digits.replace(/\B(?=(\d{3})+$)/g, ',');
        const text = part ? `${grouped}.${part}` : grouped;
        return whole.startsWith('-') && text !== '0' ? `-${text}` : text;
    }

    // A step of 1, 2 or 5 times a power of ten, so that at most so many fit a span.
    function markStep(span, most) {
        const power = 10 ** Math.floor(Math.log10(span / most));
        return [1, 2, 5, 10].map((times) => times * power).find((step) => span / step <= most) ?? span;
    }

    function marks(low, high, step) {
        const found = [];
        for (let place = Math.ceil(low / step); place * step <= high && found.length < 1000; place++) found.push(place * step);
        return found;
    }

    // Beats along the picture.
    class Beats {
        constructor(from, to, left, right) {
            Object.assign(this, { from, to, left, right });
        }

        x(beat) {
            return this.left + (Math.min(Math.max(beat, this.from), this.to) - this.from) * this.scale;
        }

        // the beat under a place, within what is drawn
        beatAt(x) {
            return Math.min(Math.max(this.from + (x - this.left) / this.scale, this.from), this.to);
        }

        get scale() {
            return (this.right - this.left) / (this.to - this.from);
        }

        has(beat) {
            return this.from <= beat && beat <= this.to;
        }

        // The least step of beats, or doubling of a measure, that is so wide.
        step(least) {
            const parts = [0.25, 0.5, 1, 2];
            let step = parts.find((part) => part * this.scale >= least) ?? 4;
            while (step * this.scale < least) step *= 2;
            return step;
        }
    }

    // Numbers as heights, even or by powers.
    class Heights {
        constructor(numbers, top, bottom, mayUsePowers = false) {
            let [low, high] = [Infinity, -Infinity];
            for (const number of numbers) {
                low = Math.min(low, number);
                high = Math.max(high, number);
            }
            this.powers = mayUsePowers && low > 0 && high / low > 8;
            const air = this.powers ? (high / low) ** 0.08 : high > low ? (high - low) * 0.06 : Math.max(Math.abs(high) * 0.1, 0.5);
            [this.low, this.high] = this.powers ? [low / air, high * air] : [low - air, high + air];
            Object.assign(this, { top, bottom });
        }

        y(number) {
            const part = this.powers ? Math.log(number / this.low) / Math.log(this.high / this.low) : (number - this.low) / (this.high - this.low);
            return this.bottom - Math.min(Math.max(part, 0), 1) * (this.bottom - this.top);
        }

        marks() {
            const most = Math.max((this.bottom - this.top) / 30, 2);
            if (!this.powers) return marks(this.low, this.high, markStep(this.high - this.low, most));
            const found = [];
            for (let power = Math.floor(Math.log10(this.low)); 10 ** power <= this.high; power++) if (10 ** power >= this.low) found.push(10 ** power);
            return found.filter((_, place) => place % Math.ceil(found.length / most) === 0);
        }
    }

    root.Marrighentu = { ...root.Marrighentu, axes: { short, marks, Beats, Heights } };
})(globalThis);
