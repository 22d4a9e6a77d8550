// The states of SM timing and every arrow between them, of docs/state-diagram.txt, as a ladder: Closed on the left, Open on the right, an arrow a rung.
(function (root) {
    'use strict';

    const { escaped, framed } = root.Marrighentu;
    const TOP = 34;
    const SIZE = 11.5;
    const LINE = 14;
    // No usual sans-serif is wider on the average.
    const CHARACTER = 0.56 * SIZE;

    // The lines of the file as arrows.
    function arrowsOf(text) {
        const lines = text.split('\n').filter((line) => line.trim() && !line.startsWith('#'));
        return lines.map((line) => {
            const [from, to, comes, where, follows, writes, law] = line.split('|').map((part) => part.trim());
            return { from, to, comes, where, follows, writes, law };
        });
    }

    // A rung's line from lane to lane, or out of a lane and back.
    function rung({ from, to }, y, left, right) {
        const way = `${from} ${to}`;
        if (way === 'Closed Closed') return `M${left} ${y - 9}C${left + 42} ${y - 12} ${left + 42} ${y + 12} ${left + 2} ${y + 9}`;
        if (way === 'Open Open') return `M${right} ${y - 9}C${right - 42} ${y - 12} ${right - 42} ${y + 12} ${right - 2} ${y + 9}`;
        if (way === 'Closed Open') return `M${left} ${y}H${right - 2}`;
        if (from === 'begin') return `M${left + 34} ${y}H${left + 2}`;
        if (to === 'end') return from === 'Closed' ? `M${left} ${y}H${left + 32}` : `M${right} ${y}H${right - 32}`;
        return `M${right} ${y}H${left + 2}`;
    }

    // Where a rung's words stand, and how wide they may be: in the middle of a line across, else beside the loop.
    function wordsAt({ from, to }, left, right) {
        const across = new Set([from, to.replace('no ', '')]).size === 2 && from !== 'begin' && to !== 'end';
        if (across) return { x: (left + right) / 2, anchor: 'middle', room: right - left - 50 };
        return { x: from === 'Open' ? right - 44 : left + 44, anchor: from === 'Open' ? 'end' : 'start', room: right - left - 52 };
    }

    // Words in lines of at most so many characters.
    function wrapped(words, most) {
        const lines = [''];
        for (const word of words.split(' ')) {
            const longer = `${lines.at(-1)} ${word}`.trim();
            if (longer.length <= most || lines.at(-1) === '') lines[lines.length - 1] = longer;
            else lines.push(word);
        }
        return lines;
    }

    // What an arrow says above its line.
    function headOf({ to, comes, where }) {
        if (to.startsWith('no ')) return `no arrow: ${comes} ${where}`;
        return where === 'always' ? comes : `${comes}: ${where}`;
    }

    function tip(name, colour) {
        const place = 'viewBox="0 0 10 10" refX="9" refY="5" markerWidth="9" markerHeight="9" markerUnits="userSpaceOnUse" orient="auto"';
        return `<marker id="${name}" ${place}><path d="M0 0L10 5L0 10z" fill="var(--${colour})"/></marker>`;
    }

    function drawArrow(arrow, { y, head, x, anchor }, left, right, isLit) {
        const missing = arrow.to.startsWith('no ');
        const stroke = `fill="none" stroke="var(--${isLit ? 'lit' : 'pale'})"`;
        const letters = `font-size="${SIZE}" font-weight="${isLit ? 600 : 400}" fill="var(--${isLit ? 'lit' : 'ink'})" text-anchor="${anchor}"`;
        const text = (at, words) => `<text x="${x}" y="${at}" ${letters}>${escaped(words)}</text>`;
        const dashes = missing ? ' stroke-dasharray="6 5"' : '';
        const line = `<path d="${rung(arrow, y, left, right)}" ${stroke} stroke-width="${isLit ? 3 : 1.3}"${dashes} marker-end="url(#${isLit ? 'lit-tip' : 'tip'})"/>`;
        const cross = missing ? `<path d="M${right - 22} ${y - 7}l14 14m0 -14l-14 14" ${stroke} stroke-width="2"/>` : '';
        const above = head.map((words, place) => text(y - 6 - LINE * (head.length - 1 - place), words));
        return `<g data-law="${arrow.law}"${isLit ? ' data-lit="yes"' : ''}>${line}${cross}${above.join('')}${text(y + LINE, arrow.law)}</g>`;
    }

    // A state is as high as the ladder.
    function drawState(name, x, lane, bottom, isHere) {
        const colours = `fill="var(--${isHere ? 'state' : 'panel'})" stroke="var(--${isHere ? 'lit' : 'pale'})" stroke-width="${isHere ? 2.5 : 1}"`;
        const box = `<rect x="${x}" y="${TOP - 10}" width="${lane - 2}" height="${bottom - TOP + 12}" rx="8" ${colours}/>`;
        return `${box}<text x="${x + lane / 2 - 1}" y="${TOP - 16}" font-size="13" font-weight="600" fill="var(--ink)" text-anchor="middle">${name}</text>`;
    }

    // The picture with the arrows of some laws lit, and the state that is reached.
    function diagram(arrows, width, lit = [], open = false) {
        const lane = width < 500 ? 46 : 84;
        const [left, right] = [lane, width - lane];
        let bottom = TOP;
        const rungs = arrows.map((arrow) => {
            const { x, anchor, room } = wordsAt(arrow, left, right);
            const head = wrapped(headOf(arrow), room / CHARACTER);
            const y = bottom + LINE * head.length + 6;
            bottom = y + LINE + 8;
            return { y, head, x, anchor };
        });
        const parts = [
            `<defs>${tip('tip', 'pale')}${tip('lit-tip', 'lit')}</defs>`,
            drawState('Closed', 1, lane, bottom, !open),
            drawState('Open', right, lane, bottom, open),
            ...arrows.map((arrow, place) => drawArrow(arrow, rungs[place], left, right, lit.includes(arrow.law))),
        ];
        return framed(width, bottom + 6, `the states Closed and Open and the arrows between them; lit: ${lit.join(', ') || 'none'}`, parts);
    }

    root.Marrighentu = { ...root.Marrighentu, arrowsOf, diagram };
})(globalThis);
