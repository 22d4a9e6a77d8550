// A long list of rows of one height, of which only those in sight are in the document.
(function (root) {
    'use strict';

    // rows that are seen at once, and those before and behind them that are kept ready
    const IN_SIGHT = 10;
    const SPARE = 4;

    // `label` is what it is called, `height` is a row's in pixels.
    class Rows {
        constructor(holder, label, height) {
            Object.assign(this, { height, top: 0 });
            this.holder = holder;
            holder.className = 'rows';
            holder.setAttribute('role', 'table');
            holder.setAttribute('aria-label', label);
            this.head = document.createElement('div');
            this.head.className = 'head';
            this.head.setAttribute('role', 'row');
            this.view = document.createElement('div');
            this.view.className = 'view';
            this.view.tabIndex = 0;
            this.view.setAttribute('role', 'rowgroup');
            this.view.setAttribute('aria-label', `${label}, scrolls`);
            this.space = document.createElement('div');
            this.space.className = 'space';
            this.view.append(this.space);
            holder.replaceChildren(this.head, this.view);
            this.view.addEventListener('scroll', () => {
                this.top = this.view.scrollTop;
                this.draw();
            });
        }

        // So many rows under the names of their columns; `cellsOf` gives the cells of one, each a text or an element.
        show(heads, count, cellsOf) {
            // to scroll makes the browser lay out all of the page
            if (this.top > 0) this.view.scrollTop = 0;
            Object.assign(this, { count, cellsOf, marked: -1, top: 0, first: -1 });
            this.head.replaceChildren(...heads.map((name) => cell('columnheader', name)));
            this.holder.setAttribute('aria-rowcount', count + 1);
            this.holder.hidden = count === 0;
            this.space.style.height = `${count * this.height}px`;
            this.view.style.height = `${Math.min(count, IN_SIGHT) * this.height}px`;
            this.draw();
        }

        // Brings a row into sight and marks it; none where it is -1. The browser is not asked where anything stands, so that nothing is laid out anew.
        mark(place) {
            if (place === this.marked) return;
            this.lineOf(this.marked)?.classList.remove('marked');
            this.marked = place;
            const [from, seen] = [place * this.height, Math.min(this.count, IN_SIGHT) * this.height];
            if (place >= 0 && (from < this.top || from + this.height > this.top + seen)) {
                this.top = Math.min(Math.max(from - seen / 2, 0), this.count * this.height - seen);
                this.view.scrollTop = this.top;
                this.draw();
            }
            this.lineOf(place)?.classList.add('marked');
        }

        lineOf(place) {
            return this.space.children[place - this.first];
        }

        draw() {
            const first = Math.max(Math.floor(this.top / this.height) - SPARE, 0);
            if (first === this.first) return;
            this.first = first;
            const last = Math.min(first + IN_SIGHT + 2 * SPARE + 1, this.count);
            const rows = [];
            for (let place = first; place < last; place++) {
                const row = document.createElement('div');
                row.className = place === this.marked ? 'line marked' : 'line';
                row.setAttribute('role', 'row');
                row.setAttribute('aria-rowindex', place + 2);
                row.style.height = `${this.height}px`;
                row.style.transform = `translateY(${place * this.height}px)`;
                row.append(...this.cellsOf(place).map((content) => cell('cell', content)));
                rows.push(row);
            }
            this.space.replaceChildren(...rows);
        }
    }

    function cell(role, content) {
        const one = document.createElement('span');
        one.setAttribute('role', role);
        one.append(content);
        return one;
    }

    root.Marrighentu = { ...root.Marrighentu, Rows };
})(globalThis);
