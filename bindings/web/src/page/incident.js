// The panel of what once went wrong: the arrows that light up as a chart's changes are passed, and its notes by the proved timing and by the wrong machine.
(function (root) {
    'use strict';

    const { readChartFile, see, arrowsOf, diagram, Svg } = root.Marrighentu;
    const { axes: { short, marks, Beats }, incident: { arrowsTaken, compareMachines } } = root.Marrighentu;
    const LAST_BEAT = 16;
    // the law of the arrow that is not there
    const NO_ARROW = 'pause_keeps';

    // The notes on their beats, filled where they are judged, over the warps.
    function noteLine(width, lists, notes, cursor) {
        const beats = new Beats(0, LAST_BEAT, 12, width - 12);
        const svg = new Svg();
        for (const { beat, value } of lists.warps) {
            svg.rect(beats.x(beat), 8, beats.x(beat + value), 52, 'fill="var(--made)" fill-opacity="0.22"', `warp at beat ${short(beat)} for ${short(value)} beats`);
        }
        for (const { beat, value } of lists.stops) {
            svg.rect(beats.x(beat), 8, beats.x(beat) + 2, 52, 'fill="var(--stop)"', `stop at beat ${short(beat)}: ${short(value)} seconds`);
        }
        for (const { beat, judged, wrong } of notes) {
            const colour = wrong ? 'stop' : 'ink';
            const fill = judged ? `var(--${colour})` : 'none';
            svg.path(`M${beats.x(beat) - 4} 30l4 -5l4 5l-4 5z`, `fill="${fill}" stroke="var(--${colour})" stroke-width="${wrong ? 2 : 1.2}"`);
        }
        for (const beat of marks(0, LAST_BEAT, 4)) svg.words(beats.x(beat), 68, short(beat), { anchor: 'middle' });
        svg.path(`M${beats.x(cursor).toFixed(1)} 4V56`, 'stroke="var(--lit)" stroke-width="2"');
        return svg.document(width, 74, `${notes.filter(({ judged }) => judged).length} of ${notes.length} rows are judged`);
    }

    class Incident {
        constructor(engine, { chart, arrows, beat, before, next, said, diagramHolder, right, wrong, wrongly }) {
            Object.assign(this, { beat, said, diagramHolder, right, wrong });
            this.arrows = arrowsOf(arrows);
            const seen = see(engine, readChartFile(engine, chart, 'sm'), 1);
            this.taken = arrowsTaken(engine, seen.read);
            this.lists = seen.timing.lists;
            this.compared = compareMachines(engine, seen);
            beat.addEventListener('input', () => this.draw());
            before.addEventListener('click', () => this.go((at) => this.taken.findLast((change) => change.beat < at)));
            next.addEventListener('click', () => this.go((at) => this.taken.find((change) => change.beat > at)));
            const left = this.compared.wronglyJudged;
            const places = left.map(({ beat: at, wrong: by }) => `beat ${short(at)} (second ${short(by.time)})`).join(', ');
            wrongly.textContent = `The wrong machine leaves ${left.length} rows to be judged that are warped and that nobody can reach: ${places}.`;
        }

        go(find) {
            const change = find(Number(this.beat.value));
            this.beat.value = Math.min(change ? change.beat : this.beat.value, LAST_BEAT);
            this.draw();
        }

        draw() {
            const at = Number(this.beat.value);
            const change = this.taken.findLast(({ beat }) => beat <= at || (beat === Infinity && at === LAST_BEAT));
            const warped = this.lists.warps.some(({ beat, value }) => beat <= at && at < beat + value);
            const taken = change.laws.filter((law) => law !== NO_ARROW).join(', then ');
            const missing = change.laws.includes(NO_ARROW) ? ' The pause ends no warp: that arrow is not there.' : '';
            const where = Number.isFinite(change.beat) ? `, on beat ${short(change.beat)}` : '';
            this.said.textContent = `Beat ${short(at)} is in ${warped ? 'the' : 'no'} warp. Last came ${change.words}${where}, by ${taken}.${missing}`;
            this.diagramHolder.innerHTML = diagram(this.arrows, this.diagramHolder.clientWidth || 340, change.laws, change.open);
            const { notes, wrongLists } = this.compared;
            const width = this.right.clientWidth || 340;
            const byRight = notes.map(({ beat, right }) => ({ beat, judged: right.judged }));
            const byWrong = notes.map(({ beat, right, wrong }) => ({ beat, judged: wrong.judged, wrong: wrong.judged && !right.judged }));
            this.right.innerHTML = noteLine(width, this.lists, byRight, at);
            this.wrong.innerHTML = noteLine(width, wrongLists, byWrong, at);
        }
    }

    root.Marrighentu = { ...root.Marrighentu, Incident };
})(globalThis);
