// The page: files and examples in, what is seen of a chart out, and the two files that can be saved.
(function (root) {
    'use strict';

    const { engine: engineOf, readChartFile, see, askBeat, askTime, picture, wholeSpan, jsonOf, refusalMeanings } = root.Marrighentu;
    const { Cursor, Tables, Incident, axes: { short }, text: { parseF64, shownF64 } } = root.Marrighentu;
    const byId = (id) => document.getElementById(id);
    const textOf = (id) => byId(id).textContent;

    // the last beat that is timed
    const LAST = 65536;

    // The example that is shown first has all that a chart may have.
    const EXAMPLES = [
        { id: 'chart-dozens', name: 'dozens.ssc', chart: 2, words: 'some dozens of changes' },
        { id: 'chart-example', name: 'example.ssc', chart: 1, words: 'one change of each kind' },
        { id: 'chart-many', name: 'many.sm', chart: 1, words: 'more than three hundred tempos' },
        { id: 'chart-pause', name: 'pause-in-warp.sm', chart: 1, words: 'a pause in a warp' },
    ];

    const engine = engineOf(Uint8Array.from(atob(textOf('wasm')), (byte) => byte.charCodeAt(0)), textOf('header'));
    const bytesOf = (text) => new TextEncoder().encode(text);
    // the file that is shown, what is seen of it, and what was asked
    let [shown, seen, asked] = [null, null, { beats: [], times: [] }];
    let span = null;

    const tables = new Tables({
        choice: byId('list'), said: byId('list-said'), tidyTitle: byId('tidy-title'), tidy: byId('tidy'), raw: byId('raw'), notes: byId('notes'), notesSaid: byId('notes-said'),
    });
    const cursor = new Cursor({ picture: byId('picture'), along: byId('along'), readout: byId('readout'), moved: (beat) => tables.markBeat(beat) });
    const incident = new Incident(engine, {
        chart: bytesOf(textOf('chart-pause')), arrows: textOf('arrows'), beat: byId('incident-beat'), before: byId('before'), next: byId('next'),
        said: byId('incident-said'), diagramHolder: byId('diagram'), right: byId('right-machine'), wrong: byId('wrong-machine'), wrongly: byId('wrongly'),
    });

    // ---- a file and its charts

    const formatOf = (name) => /\.(sm|ssc)$/i.exec(name)?.[1].toLowerCase();

    function open(name, bytes, chart = 1) {
        const file = readChartFile(engine, bytes, formatOf(name));
        shown = { name, file };
        const named = ({ number, stepsType, difficulty, meter }) => [`${number}:`, stepsType, difficulty, meter].filter((word) => word !== '').join(' ');
        byId('chart').replaceChildren(new Option('the whole file', 0));
        for (const one of file.charts) byId('chart').append(new Option(named(one), one.number));
        byId('chart').value = Math.min(chart, file.charts.length);
        byId('list').value = '';
        showChart();
    }

    function showChart() {
        const number = Number(byId('chart').value);
        seen = see(engine, shown.file, number, { mend: byId('mend').checked });
        asked = { beats: [], times: [] };
        byId('asked').replaceChildren();
        byId('asked-said').textContent = '';
        const { file } = shown;
        const whose = number === 0 ? 'the whole file' : `chart ${number} of ${file.charts.length}, ${seen.read.own ? 'its own timing' : "the file's timing"}`;
        const title = file.title ? `${file.title} (${shown.name}, .${file.format})` : `${shown.name} (.${file.format})`;
        byId('said').textContent = `${title}: ${whose}${seen.refused ? '' : `, offset ${shownF64(seen.timing.offset)} s`}`;
        const passedOver = seen.read.faults.map((fault) => ({ ...fault, what: `${fault.what}; passed over` }));
        showStrange([...file.warnings, ...passedOver].sort((one, other) => one.line - other.line || one.column - other.column));
        byId('refused').hidden = !seen.refused;
        byId('seen').hidden = Boolean(seen.refused);
        if (seen.refused) byId('refused-why').textContent = `${seen.refused.what[0].toUpperCase()}${seen.refused.what.slice(1)}. Nothing of it is timed.`;
        else {
            span = wholeSpan(seen);
            tables.show(seen);
            draw();
        }
    }

    function showStrange(faults) {
        const most = 100;
        byId('strange').hidden = !faults.length;
        const lines = faults.slice(0, most).map(({ line, column, what }) => `line ${line}, column ${column}: ${what}`);
        if (faults.length > most) lines.push(`and ${faults.length - most} more`);
        byId('strange-list').replaceChildren(...lines.map((words) => Object.assign(document.createElement('li'), { textContent: words })));
    }

    // ---- the picture

    function draw() {
        const holder = byId('picture');
        const drawn = picture(seen, { ...span, width: holder.clientWidth || 340 });
        holder.innerHTML = drawn.svg;
        byId('from').value = span.from;
        byId('to').value = span.to;
        cursor.over(seen.timing, drawn);
    }

    function zoom() {
        const [from, to] = [byId('from'), byId('to')].map((field) => parseF64(field.value.trim()));
        if (from >= -LAST && from < to && to <= LAST) span = { from, to };
        draw();
    }

    // Draws up to a beat that was not in the picture.
    function widen(beat) {
        const measure = Math.floor(beat / 4) * 4;
        span = { from: Math.max(Math.min(span.from, measure), -LAST), to: Math.min(Math.max(span.to, measure + 4), LAST) };
        draw();
    }

    // ---- questions

    function ask(field, answer, words, kept, move) {
        const number = parseF64(field.value.trim());
        const said = byId('asked-said');
        const found = number === undefined ? undefined : answer(seen.timing, number);
        if (!found) said.textContent = `A number is wanted, found “${field.value}”.`;
        else if (found.number) said.textContent = `Refused: ${refusalMeanings[found.number]} (refusal ${found.number}).`;
        else {
            kept.push(found);
            said.textContent = words(found);
            byId('asked').append(Object.assign(document.createElement('li'), { textContent: words(found) }));
            if (found.beat < span.from || found.beat > span.to) widen(found.beat);
            move(number);
        }
    }

    const judgedWords = ({ warped, fake, judged }) => (judged ? 'judged' : `${[warped && 'warped', fake && 'fake'].filter(Boolean).join(' and ')}, not judged`);
    const beatWords = (found) => `Beat ${short(found.beat)}, row ${found.row}: second ${found.time}, ${judgedWords(found)}${found.displayed === null ? '' : `, drawn at ${short(found.displayed)}`}`;
    const runs = ({ freeze, delay }) => (freeze ? ', a stop runs' : delay ? ', a delay runs' : '');
    const timeWords = (found) => `Second ${short(found.time)}: beat ${found.beat}${runs(found)}`;

    // ---- files that are saved

    function save(name, type, text) {
        const link = Object.assign(document.createElement('a'), { download: name, href: URL.createObjectURL(new Blob([text], { type })) });
        link.click();
        setTimeout(() => URL.revokeObjectURL(link.href), 1000);
    }

    const bare = () => shown.name.replace(/\.[^.]*$/, '');

    // The picture with its colours in place of their names.
    function svg() {
        const style = getComputedStyle(document.documentElement);
        return picture(seen, { ...span, width: 1280 }).svg.replace(/var\((--[a-z-]+)\)/g, (_, name) => style.getPropertyValue(name).trim());
    }

    // ---- what is listened to

    async function take(file) {
        if (!file) return;
        const bytes = await file.arrayBuffer().catch(() => null);
        if (bytes) open(file.name, new Uint8Array(bytes));
        else byId('said').textContent = `${file.name} can't be read.`;
    }

    byId('example').replaceChildren(...EXAMPLES.map(({ words, id }) => new Option(words, id)));
    byId('example').addEventListener('change', () => openExample(byId('example').value));
    byId('file').addEventListener('change', ({ target }) => {
        take(target.files[0]);
        // the same file may be chosen again, once it is changed
        target.value = '';
    });
    byId('chart').addEventListener('change', showChart);
    byId('mend').addEventListener('change', showChart);
    byId('whole').addEventListener('click', () => {
        span = wholeSpan(seen);
        draw();
    });
    byId('save-svg').addEventListener('click', () => save(`${bare()}.svg`, 'image/svg+xml', svg()));
    byId('save-json').addEventListener('click', () => save(`${bare()}.json`, 'application/json', jsonOf(shown.name, seen, asked)));
    const askedBeat = () => ask(byId('ask-beat'), askBeat, beatWords, asked.beats, (beat) => cursor.toBeat(beat));
    const askedTime = () => ask(byId('ask-time'), askTime, timeWords, asked.times, (time) => cursor.toTime(time));
    for (const [id, then] of [['ask-beat', askedBeat], ['ask-time', askedTime], ['from', zoom], ['to', zoom]]) byId(id).addEventListener('change', then);
    for (const name of ['dragover', 'dragleave', 'drop']) {
        document.addEventListener(name, (event) => {
            event.preventDefault();
            document.body.classList.toggle('over', name === 'dragover');
            if (name === 'drop') take(event.dataTransfer.files[0]);
        });
    }
    let width = document.body.clientWidth;
    new ResizeObserver(() => {
        if (document.body.clientWidth === width) return;
        width = document.body.clientWidth;
        if (!seen.refused) draw();
        incident.draw();
    }).observe(document.body);

    function openExample(id) {
        const { name, chart } = EXAMPLES.find((example) => example.id === id);
        open(name, bytesOf(textOf(id)), chart);
    }

    openExample(EXAMPLES[0].id);
    incident.draw();
})(globalThis);
