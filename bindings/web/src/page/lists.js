// The tables: each list as it is timed and as it is written, and the note sheet.
(function (root) {
    'use strict';

    const { Rows, axes: { short }, text: { shown, shownF64 }, listWords, noteLetters, snaps } = root.Marrighentu;
    const LANES = ['←', '↓', '↑', '→'];
    const VALUES = { tempos: 'beats a minute', stops: 'seconds', delays: 'seconds', warps: 'beats', speeds: 'ratio', scrolls: 'times', fakes: 'beats' };
    const CHANGED = 'changed';

    const capital = (word) => word[0].toUpperCase() + word.slice(1);
    const valueOf = ({ value, ratio, delay, unit }) => (ratio === undefined ? short(value) : `${short(ratio)}, over ${short(delay)} ${unit === 1 ? 's' : 'beats'}`);

    function element(name, className, content) {
        const one = document.createElement(name);
        one.className = className;
        one.append(content);
        return one;
    }

    function changedWords(changed, made) {
        const entries = changed ? 'These entries are not timed as they are written' : 'Every entry is timed as it is written';
        return `${entries}; SM made ${made} warp${made === 1 ? '' : 's'}.`;
    }

    // An entry in two lines: where it stands, and what became of it.
    function fateCell(list, entry) {
        const where = `${listWords[list].name} ${entry.number}, line ${entry.line}: beat ${shown(entry.beat)}, ${valueOf(entry)}`;
        const plain = entry.fate === 'kept' && !entry.moved;
        const both = element('span', 'two', element('span', '', where));
        both.append(element('span', plain ? 'fate' : 'fate changed', entry.words));
        return both;
    }

    class Tables {
        constructor({ choice, said, tidyTitle, tidy, raw, notes, notesSaid }) {
            Object.assign(this, { choice, said, tidyTitle, notesSaid });
            this.raw = new Rows(raw, 'entries as they are written', 62);
            this.tidy = new Rows(tidy, 'the list as it is timed', 28);
            this.notes = new Rows(notes, 'the note sheet', 28);
            choice.addEventListener('change', () => this.showList());
        }

        show(seen) {
            this.seen = seen;
            const changed = this.changed();
            const options = [[CHANGED, `What was changed (${changed.length})`], ...Object.keys(VALUES).map((list) => [list, `${capital(list)} (${seen.tidy[list].length})`])];
            const before = this.choice.value;
            this.choice.replaceChildren(...options.map(([value, words]) => new Option(words, value)));
            this.choice.value = before || (changed.length ? CHANGED : 'tempos');
            this.showList();
            this.showNotes();
        }

        // The raw entries that are not timed as they are written, of all lists.
        changed() {
            return Object.entries(this.seen.raw).flatMap(([list, entries]) => entries.filter(({ fate, moved }) => fate !== 'kept' || moved).map((entry) => [list, entry]));
        }

        showList() {
            const list = this.choice.value;
            const { seen } = this;
            const entries = list === CHANGED ? this.changed() : seen.raw[list].map((entry) => [list, entry]);
            const timed = list === CHANGED ? seen.tidy.warps.filter(({ made }) => made) : seen.tidy[list];
            this.raw.show(['Entry'], entries.length, (place) => [fateCell(...entries[place])]);
            this.tidyTitle.textContent = list === CHANGED ? 'Warps that SM made' : 'As the machine times it';
            this.tidyTitle.hidden = !timed.length;
            const unit = capital(VALUES[list] ?? VALUES.warps);
            const origins = timed.some(({ made }) => made !== undefined);
            this.tidy.show(['Beat', unit, ...(origins ? ['Origin'] : [])], timed.length, (place) => {
                const { beat, made } = timed[place];
                return [shownF64(beat), valueOf(timed[place]), ...(origins ? [made ? 'made by SM' : 'written'] : [])];
            });
            this.said.textContent = list === CHANGED ? changedWords(entries.length, timed.length) : `${entries.length} written, ${timed.length} timed.`;
            if (list === 'warps') this.said.textContent += ` They pass over ${seen.timing.warpedRows()} rows, each counted once.`;
        }

        showNotes() {
            const { rows, noteFault, chart } = this.seen;
            const most = rows.reduce((count, { notes }) => Math.max(count, notes.at(-1).lane + 1), 0);
            const judged = rows.filter((row) => row.judged).length;
            if (noteFault) this.notesSaid.textContent = `The notes can't be read: ${noteFault.line ? `line ${noteFault.line}: ` : ''}${noteFault.what}`;
            else if (!rows.length) this.notesSaid.textContent = chart ? 'This chart has no notes.' : 'The whole file has no notes of its own.';
            else this.notesSaid.textContent = `${rows.length} rows with notes, ${judged} of them judged.`;
            this.notes.show(['Beat', 'Second', 'Notes', 'Colour', 'Judged', 'Drawn at'], rows.length, (place) => {
                const { beat, time, notes, snap, judged: counts, displayed } = rows[place];
                return [short(beat), short(time), laneMarks(notes, most, snap), snapMark(snap), counts ? 'yes' : 'no', displayed === null ? '' : short(displayed)];
            });
        }

        // The last row of notes at or before a beat stands out.
        markBeat(beat) {
            const { rows } = this.seen;
            let [low, high] = [0, rows.length];
            while (low < high) {
                const middle = (low + high) >> 1;
                if (rows[middle].beat <= beat) low = middle + 1;
                else high = middle;
            }
            this.notes.mark(low - 1);
        }
    }

    const snapClass = (snap) => `snap snap-${snaps.indexOf(snap)}`;
    const snapMark = (snap) => element('span', snapClass(snap), snap);

    // A sign for each lane: an arrow or a letter for a note, a dot for none.
    function laneMarks(notes, count, snap) {
        const lanes = element('span', 'lanes', '');
        for (let lane = 0; lane < count; lane++) {
            const note = notes.find((one) => one.lane === lane);
            const sign = !note ? '·' : note.kind === 'tap' && count === 4 ? LANES[lane] : noteLetters[note.kind];
            lanes.append(element('span', note ? snapClass(snap) : 'none', sign));
        }
        lanes.setAttribute('aria-label', notes.map(({ lane, kind }) => `${kind} in lane ${lane + 1}`).join(', '));
        return lanes;
    }

    root.Marrighentu = { ...root.Marrighentu, Tables };
})(globalThis);
