// The picture: time against beat, tempos, strips of stops, delays, warps and fakes, and where scrolls draw the beats, over one axis of beats.
// Colours are variables of CSS, `var(--stop)`; a file that is saved has their values in place.
(function (root) {
    'use strict';

    const { axes: { short, marks, Beats, Heights } } = root.Marrighentu;
    const LAST = 65536;
    const SMALL = 11;
    const STRIP = 26;
    // No usual sans-serif is wider on the average.
    const WIDTH_OF_A_CHARACTER = 0.62;

    // XML has no other control characters than three.
    const ENTITIES = { '&': '&amp;', '<': '&lt;', '>': '&gt;', '"': '&quot;' };
    const escaped = (text) => text.replace(/[&<>"\x00-\x08\x0b\x0c\x0e-\x1f\ufffe\uffff]/g, (found) => ENTITIES[found] ?? '\ufffd');


    // A whole picture of its parts; `label` is what a screen reader says of it.
    function framed(width, height, label, parts) {
        const size = `viewBox="0 0 ${width} ${height}" width="${width}" height="${height}"`;
        const head = `<svg xmlns="http://www.w3.org/2000/svg" ${size} font-family="system-ui, sans-serif" role="img" aria-label="${escaped(label)}">`;
        return `${head}${parts.join('\n')}</svg>\n`;
    }

    // ---- shapes

    class Svg {
        constructor() {
            this.parts = [];
        }

        words(x, y, text, { fill = 'ink', anchor = 'start', size = SMALL } = {}) {
            this.parts.push(`<text x="${x.toFixed(1)}" y="${y.toFixed(1)}" font-size="${size}" fill="var(--${fill})" text-anchor="${anchor}">${escaped(text)}</text>`);
        }

        path(path, attributes) {
            this.parts.push(`<path d="${path}" ${attributes}/>`);
        }

        line(points, colour, more = '') {
            this.path(`M${points.map(([x, y]) => `${x.toFixed(1)} ${y.toFixed(1)}`).join('L')}`, `fill="none" stroke="var(--${colour})" stroke-width="1.6" stroke-linejoin="round" ${more}`);
        }

        rect(left, top, right, bottom, attributes, title = '') {
            const place = `x="${left.toFixed(1)}" y="${top.toFixed(1)}" width="${Math.max(right - left, 1).toFixed(1)}" height="${(bottom - top).toFixed(1)}"`;
            this.parts.push(title ? `<rect ${place} ${attributes}><title>${escaped(title)}</title></rect>` : `<rect ${place} ${attributes}/>`);
        }

        document(width, height, label) {
            return framed(width, height, label, [`<rect width="${width}" height="${height}" fill="var(--paper)"/>`, ...this.parts]);
        }
    }

    // Words in a row that never overlap, those that weigh most first.
    function nameSpaced(svg, y, named, right, fill) {
        const taken = [];
        for (const { x, words } of named.sort((one, other) => other.weight - one.weight).slice(0, 400)) {
            const [from, to] = [x, x + words.length * SMALL * WIDTH_OF_A_CHARACTER + 6];
            if (to > right + 20 || taken.some(([start, end]) => from < end && start < to)) continue;
            taken.push([from, to]);
            svg.words(x, y, words, { fill });
        }
    }

    // ---- what is drawn

    // All beats on which something happens, from measure to measure. SM's last warp may never end.
    function wholeSpan(seen) {
        let [first, last] = [0, 12];
        const take = (beat) => {
            if (Math.abs(beat) > LAST) return;
            first = Math.min(first, beat);
            last = Math.max(last, beat);
        };
        for (const [list, entries] of Object.entries(seen.timing.lists)) {
            for (const { beat, value } of entries) {
                take(beat);
                if (list === 'warps' || list === 'fakes') take(beat + value);
            }
        }
        if (seen.rows.length) take(seen.rows[seen.rows.length - 1].beat);
        const measure = (beat) => Math.floor(beat / 4) * 4;
        return { from: Math.max(measure(first), -LAST), to: Math.min(measure(last) + 4, LAST) };
    }

    // Beats at which the line of time bends: each event's row and the rows beside it, so that a pause shows as a step.
    function bends(lists, beats) {
        const found = new Set([beats.from, beats.to]);
        const add = (beat) => {
            const row = Math.round(beat * 48);
            for (const one of [row - 1, row, row + 1]) if (beats.has(one / 48)) found.add(one / 48);
        };
        for (const list of ['tempos', 'stops', 'delays', 'warps']) lists[list].forEach((entry) => add(entry.beat));
        lists.warps.forEach((entry) => add(entry.beat + entry.value));
        return Float64Array.from(found).sort();
    }

    // Warps and fakes as spans of beats; a warp of negative length goes back.
    const spanOf = ({ beat, value }) => (value < 0 ? [beat + value, beat] : [beat, Math.min(beat + value, LAST)]);

    const warpWords = ({ value, beat }) => (value < 0 ? `${short(value)} back` : beat + value > LAST ? 'never ends' : short(value));

    function strips(tidy) {
        const pause = (name) => ({ beat, value }) => ({ from: beat, words: `${short(value)} s`, title: `${name} at beat ${short(beat)}: ${short(value)} seconds`, weight: Math.abs(value) });
        const span = (name, words) => (entry) => {
            const [from, to] = spanOf(entry);
            return { from, to, words: words(entry), title: `${name} at beat ${short(entry.beat)} for ${short(entry.value)} beats`, weight: to - from };
        };
        return [
            { name: 'stop', colour: 'stop', items: tidy.stops.map(pause('stop')) },
            { name: 'delay', colour: 'delay', items: tidy.delays.map(pause('delay')) },
            { name: 'warp', colour: 'warp', items: tidy.warps.filter((warp) => !warp.made).map(span('warp', warpWords)) },
            { name: 'made warp', colour: 'made', items: tidy.warps.filter((warp) => warp.made).map(span('warp that SM made', warpWords)) },
            { name: 'fake', colour: 'fake', items: tidy.fakes.map(span('fake', ({ value }) => short(value))) },
        ].filter((strip) => strip.items.length);
    }

    function drawStrip(svg, beats, top, { name, colour, items }) {
        const [low, bottom] = [top + 13, top + STRIP - 3];
        const shown = items.filter(({ from, to }) => (to === undefined ? beats.has(from) : from < beats.to && to > beats.from));
        svg.words(beats.left - 6, bottom - 1, name, { fill: colour, anchor: 'end' });
        svg.path(`M${beats.left} ${top + STRIP}H${beats.right}`, 'stroke="var(--grid)"');
        for (const { from, to, title } of shown) {
            const left = beats.x(from);
            svg.rect(left, low, to === undefined ? left + 2 : beats.x(to), bottom, `fill="var(--${colour})"`, title);
        }
        nameSpaced(svg, top + 11, shown.map((item) => ({ ...item, x: beats.x(item.from) })), beats.right, colour);
    }

    function drawScale(svg, beats, heights, unit) {
        for (const mark of heights.marks()) {
            const y = heights.y(mark);
            svg.path(`M${beats.left} ${y.toFixed(1)}H${beats.right}`, 'stroke="var(--grid)"');
            const text = short(mark);
            svg.words(beats.left - 6, y + 4, text.length > 9 ? mark.toExponential(0) : text, { anchor: 'end' });
        }
        svg.words(beats.left, heights.top - 6, unit, { fill: 'pale' });
    }

    function drawMeasures(svg, beats, top, bottom) {
        const step = beats.step(52);
        for (const beat of marks(beats.from, beats.to, step)) {
            svg.path(`M${beats.x(beat).toFixed(1)} ${top}V${bottom}`, 'stroke="var(--grid)"');
            svg.words(beats.x(beat), bottom + 15, short(beat), { anchor: 'middle' });
        }
        svg.words(beats.left - 6, bottom + 15, 'beat', { anchor: 'end' });
    }

    function drawBands(svg, beats, top, bottom, tidy) {
        const shade = (entry, colour) => {
            const [from, to] = spanOf(entry);
            if (from < beats.to && to > beats.from) svg.rect(beats.x(from), top, beats.x(to), bottom, `fill="var(--${colour})" fill-opacity="0.14"`);
        };
        tidy.warps.forEach((warp) => shade(warp, warp.made ? 'made' : 'warp'));
        tidy.fakes.forEach((fake) => shade(fake, 'fake'));
    }

    function drawTempos(svg, beats, top, bottom, tempos) {
        const spans = tempos.map(({ beat, value }, place) => ({ value, from: place ? beat : -Infinity, to: tempos[place + 1]?.beat ?? Infinity }));
        const shown = spans.filter(({ from, to }) => from < beats.to && to > beats.from);
        const heights = new Heights(shown.map((tempo) => tempo.value), top, bottom, true);
        drawScale(svg, beats, heights, `tempo in beats a minute${heights.powers ? ', logarithmic' : ''}`);
        const points = shown.flatMap(({ value, from, to }) => [[beats.x(from), heights.y(value)], [beats.x(to), heights.y(value)]]);
        svg.line(points, 'tempo');
        const named = shown.map(({ value, from, to }) => ({ x: beats.x(from) + 2, words: short(value), weight: beats.x(to) - beats.x(from) }));
        nameSpaced(svg, bottom + 11, named, beats.right, 'tempo');
    }

    // The displayed beat against the beat, and dashed where it would be without scrolls.
    function drawScrolled(svg, beats, top, bottom, timing) {
        const asked = [beats.from, ...timing.lists.scrolls.map(({ beat }) => beat).filter((beat) => beats.has(beat)), beats.to];
        const { number, positions } = timing.displayed(asked);
        if (number !== 0) {
            svg.words(beats.left + 8, (top + bottom) / 2, `no note can be drawn by these scrolls (refusal ${number})`);
            return;
        }
        const heights = new Heights([...positions, beats.from, beats.to], top, bottom);
        drawScale(svg, beats, heights, 'drawn at beat (dashed: without scrolls)');
        svg.line([beats.from, beats.to].map((beat) => [beats.x(beat), heights.y(beat)]), 'pale', 'stroke-dasharray="5 4"');
        svg.line(asked.map((beat, place) => [beats.x(beat), heights.y(positions[place])]), 'scroll');
    }

    // { svg, beats, heights, bottom }: the picture, and where its beats and seconds are in it.
    function picture(seen, { from, to, width }) {
        const { timing, tidy } = seen;
        const beats = new Beats(from, to, width < 600 ? 62 : 78, width - 14);
        const svg = new Svg();
        const time = { top: 24, bottom: width < 600 ? 214 : 264 };
        const tempo = { top: time.bottom + 26, bottom: time.bottom + 106 };
        const all = strips(tidy);
        const below = tempo.bottom + 18;
        const scrolled = timing.lists.scrolls.length > 0;
        const end = below + all.length * STRIP;
        const bottom = scrolled ? end + 116 : end;

        drawMeasures(svg, beats, time.top, bottom);
        drawBands(svg, beats, time.top, tempo.bottom, tidy);
        const line = bends(timing.lists, beats);
        const times = timing.times(line);
        const heights = new Heights(times, time.top, time.bottom);
        drawScale(svg, beats, heights, 'time in seconds');
        svg.line(times.map((second, place) => [beats.x(line[place]), heights.y(second)]), 'ink');
        drawTempos(svg, beats, tempo.top, tempo.bottom, timing.lists.tempos);
        all.forEach((strip, place) => drawStrip(svg, beats, below + place * STRIP, strip));
        if (scrolled) drawScrolled(svg, beats, end + 26, end + 116, timing);
        const label = `time against beat, beats ${short(from)} to ${short(to)}`;
        return { svg: svg.document(width, bottom + 24, label), beats, heights, bottom: bottom + 24 };
    }

    root.Marrighentu = { ...root.Marrighentu, picture, wholeSpan, escaped, framed, Svg };
})(globalThis);
