// A place in the song, moved along the picture by beats and along the slider by seconds, and all that is known of it.
(function (root) {
    'use strict';

    const { askBeat, askTime, tempoAt, axes: { short } } = root.Marrighentu;
    const ROW = 1 / 48;

    const yes = (truth) => (truth ? 'yes' : 'no');

    // What is read at a beat and a second.
    function reading(timing, beat, time) {
        const at = askBeat(timing, beat);
        const { freeze, delay } = askTime(timing, time);
        return [
            ['beat', short(beat)],
            ['second', short(time)],
            ['tempo', short(tempoAt(timing, beat))],
            ['stop running', yes(freeze)],
            ['delay running', yes(delay)],
            ['warped', yes(at.warped)],
            ['fake', yes(at.fake)],
            ['judged', yes(at.judged)],
            ['drawn at', at.displayed === null ? 'not drawn' : short(at.displayed)],
        ];
    }

    class Cursor {
        // `moved` is called with the beat after each move.
        constructor({ picture, along, readout, moved }) {
            Object.assign(this, { picture, along, readout, moved });
            this.line = Object.assign(document.createElement('div'), { className: 'cursor' });
            this.dot = Object.assign(document.createElement('div'), { className: 'dot' });
            along.addEventListener('input', () => this.toTime(Number(along.value)));
            picture.addEventListener('pointerdown', (event) => {
                picture.setPointerCapture(event.pointerId);
                this.toPlace(event);
            });
            picture.addEventListener('pointermove', (event) => {
                if (picture.hasPointerCapture(event.pointerId)) this.toPlace(event);
            });
            picture.addEventListener('keydown', (event) => this.byKey(event));
        }

        // Over another picture: of the same timing the cursor stays where it is, of another one on its beat, where that is drawn.
        over(timing, drawn) {
            const stays = timing === this.timing && drawn.beats.has(this.beat);
            Object.assign(this, { timing, drawn });
            this.picture.append(this.line, this.dot);
            const { from, to } = drawn.beats;
            const [start, end] = timing.times([from, to]);
            this.along.min = Math.min(start, end);
            this.along.max = Math.max(start, end);
            this.picture.setAttribute('aria-valuemin', from);
            this.picture.setAttribute('aria-valuemax', to);
            if (stays) this.put(this.beat, this.time);
            else this.toBeat(Math.min(Math.max(this.beat ?? 0, from), to));
        }

        toPlace(event) {
            this.toBeat(this.drawn.beats.beatAt(event.clientX - this.picture.getBoundingClientRect().left));
        }

        byKey(event) {
            const { from, to } = this.drawn.beats;
            const step = event.shiftKey ? ROW : 0.25;
            const row = Math.round(this.beat * 48) / 48;
            const next = {
                ArrowLeft: row - step, ArrowDown: row - step, ArrowRight: row + step, ArrowUp: row + step, PageDown: row - 4, PageUp: row + 4, Home: from, End: to,
            }[event.key];
            if (next === undefined) return;
            event.preventDefault();
            this.toBeat(Math.min(Math.max(next, from), to));
        }

        toBeat(beat) {
            const { number, time } = this.timing.time(beat);
            if (number === 0) this.put(beat, time);
        }

        toTime(time) {
            const { number, beat } = this.timing.at(time);
            if (number === 0) this.put(beat, time);
        }

        put(beat, time) {
            Object.assign(this, { beat, time });
            const { beats, heights, bottom } = this.drawn;
            const x = beats.x(beat);
            this.line.style.transform = `translateX(${x}px)`;
            this.line.style.height = `${bottom - 24}px`;
            this.dot.style.transform = `translate(${x - 4}px, ${heights.y(time) - 4}px)`;
            this.along.value = time;
            this.along.setAttribute('aria-valuetext', `second ${short(time)}, beat ${short(beat)}`);
            this.picture.setAttribute('aria-valuenow', beat);
            this.picture.setAttribute('aria-valuetext', `beat ${short(beat)}, second ${short(time)}`);
            this.read(reading(this.timing, beat, time));
            this.moved(beat);
        }

        read(pairs) {
            if (!this.readout.children.length) {
                this.readout.append(...pairs.map(([name]) => {
                    const pair = document.createElement('div');
                    pair.append(Object.assign(document.createElement('dt'), { textContent: name }), document.createElement('dd'));
                    return pair;
                }));
            }
            pairs.forEach(([name, value], place) => {
                const said = this.readout.children[place].lastChild;
                said.dataset.name = name;
                said.textContent = value;
            });
        }
    }

    root.Marrighentu = { ...root.Marrighentu, Cursor };
})(globalThis);
