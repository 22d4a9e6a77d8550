// A file and its charts: which timing a chart has, and what is told of the text. Reading refuses nothing. Not proved.
//
//     const file = Marrighentu.readChartFile(engine, bytes, 'sm');      // or 'ssc', or undefined: the text tells it
//     file.charts[0].timing()      -> { lists, offset, offsetLine, own, faults }
//     file.charts[0].notes()       -> { notes } or { fault }
(function (root) {
    'use strict';

    const { text, tags: { blankComments, scan, fields, words, upper, isTiming }, ListReader, readNotes } = root.Marrighentu;

    // From this version on an .ssc chart may have timing of its own; and the version of a file that names none.
    const SPLIT_TIMING = Math.fround(0.7);
    const VERSION = Math.fround(0.83);

    // Each list, the tag that has it, and how it is read.
    const LISTS = [
        ['tempos', 'BPMS', 'tempos'],
        ['stops', 'STOPS', 'segments'],
        ['delays', 'DELAYS', 'segments'],
        ['warps', 'WARPS', 'segments'],
        ['speeds', 'SPEEDS', 'speeds'],
        ['scrolls', 'SCROLLS', 'segments'],
        ['fakes', 'FAKES', 'fakes'],
    ];

    const byPlace = (one, other) => one.line - other.line || one.column - other.column;

    class ChartFile {
        constructor(engine, bytes, format) {
            this.engine = engine;
            this.bytes = new Uint8Array(bytes);
            blankComments(this.bytes);
            this.places = new text.Places(this.bytes);
            const { tags, loose } = scan(this.bytes);
            this.tags = tags;
            this.format = format ?? (tags.some((tag) => tag.known === 'VERSION' || tag.known === 'NOTEDATA') ? 'ssc' : 'sm');
            this.warnings = [];
            if (loose.length) this.warn(loose[0], `this # begins no tag${loose.length > 1 ? `, and ${loose.length - 1} more` : ''}`);
            this.findCharts();
            this.findVersion();
            this.findOwners();
            this.tellStrange();
            this.warnings.sort(byPlace);
        }

        fault({ at, what }) {
            return { ...this.places.place(at), what };
        }

        warn(at, what) {
            this.warnings.push(this.fault({ at, what }));
        }

        // A chart of an .ssc file begins at a #NOTEDATA, and one of an .sm file is a #NOTES.
        findCharts() {
            const { tags, bytes } = this;
            const first = tags.findIndex((tag) => tag.known === 'NOTEDATA' || tag.known === 'NOTES');
            this.header = tags.slice(0, first < 0 ? tags.length : first);
            if (this.format === 'sm') {
                this.charts = tags.filter((tag) => tag.known === 'NOTES').map((tag, place) => new Chart(this, place + 1, [tag], fields(bytes, tag.value)));
            } else {
                const starts = tags.flatMap((tag, at) => (tag.known === 'NOTEDATA' ? [at] : []));
                this.charts = starts.map((start, place) => new Chart(this, place + 1, tags.slice(start, starts[place + 1]), []));
            }
        }

        findVersion() {
            this.version = VERSION;
            const tag = this.format === 'ssc' && this.last(this.header, 'VERSION');
            if (!tag) return;
            const version = text.parseF32(words(this.bytes, tag.value));
            if (version !== undefined && Number.isFinite(version)) this.version = version;
            else this.warn(tag.at, 'no version can be read, 0.83 is taken');
        }

        findOwners() {
            const split = this.format === 'ssc' && this.version >= SPLIT_TIMING;
            for (const chart of this.charts) chart.own = split && chart.tags.some(isTiming);
        }

        // What is no fault and yet may not be what its author meant.
        tellStrange() {
            const noTempo = (tags) => {
                const tag = this.last(tags, 'BPMS');
                if (!tag) return true;
                const [from, to] = text.trimBytes(this.bytes, ...tag.value);
                return from === to;
            };
            if ((!this.charts.length || this.charts.some((chart) => !chart.own)) && noTempo(this.header)) {
                this.warn(0, 'the file has no #BPMS: 60 beats a minute are taken');
            }
            for (const chart of this.charts) {
                const { at } = chart.tags[0];
                if (chart.own && noTempo(chart.tags)) this.warn(at, `chart ${chart.number} has timing of its own and no #BPMS: 60 beats a minute are taken`);
                if (this.format === 'sm' && chart.fields.length < 6) this.warn(at, `chart ${chart.number}: six fields are wanted, found ${chart.fields.length}`);
            }
            for (const [place, tag] of this.tags.entries()) {
                const inHeader = place < this.header.length;
                if (this.format === 'sm' && isTiming(tag) && !inHeader) this.warn(tag.at, 'this timing tag stands behind a chart and is passed over');
                if (inHeader && tag.known === 'FREEZES') this.warn(tag.at, '#FREEZES is passed over: stops are read from #STOPS');
            }
            for (const section of [this.header, ...this.charts.map((chart) => chart.tags)]) {
                const seen = new Set();
                for (const tag of section.filter(isTiming)) {
                    if (seen.has(tag.known)) this.warn(tag.at, 'this tag stands here again: the last one counts');
                    seen.add(tag.known);
                }
            }
        }

        last(tags, known) {
            return tags.findLast((tag) => tag.known === known);
        }

        named(tags, name) {
            const tag = tags.findLast((one) => one.name === upper(name));
            return tag && words(this.bytes, tag.value);
        }

        get title() {
            return this.named(this.header, 'TITLE') ?? '';
        }

        // The whole file's timing, which charts without one of their own have.
        timing() {
            return this.resolved(this.header, false);
        }

        resolved(tags, own) {
            const reader = new ListReader();
            const lists = {};
            for (const [list, known, how] of LISTS) {
                const value = this.textOf(reader, this.last(tags, known));
                const found = value ? reader[how](value.text, value.at) : [];
                lists[list] = found.map(({ at, ...entry }) => ({ ...entry, line: this.places.line(at) }));
            }
            // a chart without an offset of its own has the file's
            const tag = this.last(tags, 'OFFSET') ?? this.last(this.header, 'OFFSET');
            const said = this.textOf(reader, tag);
            return {
                format: this.format,
                lists,
                offset: said ? reader.offset(said.text, said.at) : 0,
                offsetLine: tag && this.places.line(tag.at),
                own,
                faults: reader.faults.map((fault) => this.fault(fault)).sort(byPlace),
            };
        }

        // A value as text. One that is no UTF-8 is passed over as a whole.
        textOf(reader, tag) {
            if (!tag) return undefined;
            const [from, to] = tag.value;
            const valid = text.validUpTo(this.bytes, from, to);
            if (valid === to) return { text: text.lossy(this.bytes.subarray(from, to)), at: from };
            reader.faults.push({ at: valid, what: "this tag's value is not UTF-8 from here on" });
            return undefined;
        }
    }

    class Chart {
        constructor(file, number, tags, itsFields) {
            this.file = file;
            this.number = number;
            this.tags = tags;
            this.fields = itsFields;
        }

        // A field of an .sm chart, or a tag of an .ssc chart; empty where it is not said.
        said(field, name) {
            const { file } = this;
            if (file.format === 'ssc') return file.named(this.tags, name) ?? '';
            return this.fields[field] ? words(file.bytes, this.fields[field]) : '';
        }

        get line() {
            return this.file.places.line(this.tags[0].at);
        }

        get stepsType() {
            return this.said(0, 'STEPSTYPE');
        }

        get description() {
            return this.said(1, 'DESCRIPTION');
        }

        get difficulty() {
            return this.said(2, 'DIFFICULTY');
        }

        get meter() {
            return this.said(3, 'METER');
        }

        // Its own timing, or else the whole file's; entries that can't be read are passed over and told as faults.
        timing() {
            return this.own ? this.file.resolved(this.tags, true) : this.file.timing();
        }

        notes() {
            const { file } = this;
            const value = file.format === 'sm' ? this.fields[5] : file.last(this.tags, 'NOTES')?.value;
            if (!value) return { notes: [] };
            const read = readNotes(file.engine, file.bytes, value, (at) => file.places.line(at));
            return read.fault ? { fault: file.fault(read.fault) } : read;
        }
    }

    const readChartFile = (engine, bytes, format) => new ChartFile(engine, bytes, format);
    root.Marrighentu = { ...root.Marrighentu, readChartFile };
})(globalThis);
