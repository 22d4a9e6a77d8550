// What once went wrong: in a patched copy a warp closed early when a pause fell inside it. Here a chart's changes go past SM's machine one by one.
//
// Which arrow is taken at a change is told by the proved call, which is asked about the first changes of the chart alone. The wrong machine is JavaScript: the port's
// arrows with the one test of `any_pause_closes.edit` (crates/process_sm_machine/must-fail-more), a program that the prover refuses.
(function (root) {
    'use strict';

    const { Timing, processSm } = root.Marrighentu;
    const f32 = Math.fround;

    // ---- the changes

    // The tempo at the opening, and the changes behind it by beat, a tempo before a stop on its beat.
    function walkOf({ tempos, stops }) {
        const sorted = (list) => [...list].sort((one, other) => one.beat - other.beat);
        const byBeat = sorted(tempos);
        const used = Math.max(byBeat.filter(({ beat }) => beat <= 0).length, 1);
        const changes = [
            ...byBeat.slice(used).map((entry) => ({ kind: 'tempo', ...entry })),
            ...sorted(stops).filter(({ beat }) => beat >= 0).map((entry) => ({ kind: 'stop', ...entry })),
        ];
        return { opening: byBeat.slice(0, used), changes: changes.sort((one, other) => one.beat - other.beat) };
    }

    // ---- the proved machine, by its answers

    const listsOf = (opening, changes) => ({
        tempos: [...opening, ...changes.filter(({ kind }) => kind === 'tempo')],
        stops: changes.filter(({ kind }) => kind === 'stop'),
    });

    // Whether a warp is open where the walk has come to a beat: a stop below 0 there goes into an open one, and else makes one of its own. A warp that begins on
    // that beat and owes nothing under a tempo that fits leaves no trace in what is written, and is told as none.
    function isOpen(engine, lists, beat) {
        const probed = { tempos: lists.tempos, stops: [...lists.stops, { beat, value: -1 }] };
        return processSm(engine, probed).warps.length === processSm(engine, lists).warps.length;
    }

    function lawOfTime(before, after) {
        if (!before) return 'time-outside';
        return after ? 'time-keeps' : 'time-ends';
    }

    function lawOfChange(kind, before, after, stopWritten) {
        if (kind === 'tempo') return before ? 'tempo-keeps' : after ? 'tempo_opens' : 'tempo-written';
        if (!before) return after ? 'stop_opens' : 'stop-written';
        if (!after) return 'stop-ends';
        return stopWritten ? 'stop_begins_again' : 'stop-keeps';
    }

    // The arrows that a chart's changes take, change by change: { beat, words, laws, open }. A pause that ends no warp meets the arrow that is not there.
    function arrowsTaken(engine, read) {
        const { opening, changes } = walkOf(read.lists);
        let [lists, open] = [listsOf(opening, []), false];
        // a tempo that is not written leaves 60 in its place
        const written = processSm(engine, lists).tempos[0].value === (opening.at(-1)?.value ?? 60);
        const taken = [{ beat: 0, words: 'the opening', laws: [written ? 'opening-written' : 'opening_unwritten'], open }];
        changes.forEach((change, place) => {
            const { kind, beat, value } = change;
            const next = listsOf(opening, changes.slice(0, place + 1));
            const reached = isOpen(engine, lists, beat);
            const after = isOpen(engine, next, beat);
            const stopWritten = processSm(engine, next).stops.length > processSm(engine, lists).stops.length;
            const laws = [lawOfTime(open, reached), lawOfChange(kind, reached, after, stopWritten)];
            if (laws[1] === 'stop-keeps' && value > 0) laws.push('pause_keeps');
            taken.push({ beat, words: kind === 'tempo' ? `a tempo of ${value}` : `a stop of ${value} s`, laws, open: after });
            [lists, open] = [next, after];
        });
        taken.push({ beat: Infinity, words: 'the end', laws: [open ? 'end_in_warp' : 'end-outside'], open: false });
        return taken;
    }

    // ---- the machine in JavaScript, right or wrong by one test

    const fits = (tempo) => tempo > 0 && tempo <= 9999999;

    // What the walk writes. `anyPauseCloses`: a pause closes a warp whatever is owed.
    function walked(engine, lists, anyPauseCloses) {
        const { opening, changes } = walkOf(lists);
        const written = { tempos: [], stops: [], warps: [] };
        const quantized = (beat) => engine.quantize_beat_f32({ beat });
        const put = (list, beat, value) => written[list].push({ beat: quantized(beat), value });
        const putWarp = (from, to) => {
            if (to > from) put('warps', from, quantized(f32(to - from)));
        };
        const tempoAfter = ({ start, former }) => {
            if (tempo !== former) put('tempos', start, tempo);
        };
        const settled = (owed) => f32(beat - f32(f32(owed * tempo) / 60));
        let tempo = opening.at(-1)?.value ?? 60;
        let [beat, warp] = [0, null];
        if (fits(tempo)) put('tempos', 0, tempo);

        const pass = (to) => {
            if (warp && tempo <= 9999999) warp.owed = f32(warp.owed + f32(f32(f32(to - beat) * 60) / tempo));
            beat = to;
            if (!warp || !fits(tempo) || !(warp.owed > 0)) return;
            putWarp(warp.start, settled(warp.owed));
            tempoAfter(warp);
            warp = null;
        };
        const meetTempo = (value) => {
            if (!warp && !fits(value)) warp = { start: beat, former: tempo, owed: 0 };
            else if (!warp) put('tempos', beat, value);
            tempo = value;
        };
        const meetStop = (value) => {
            if (!warp) {
                if (value < 0) warp = { start: beat, former: tempo, owed: value };
                else put('stops', beat, value);
                return;
            }
            const rest = f32(warp.owed + value);
            if (!(value > 0 && (anyPauseCloses || rest > 0))) {
                warp.owed = rest;
                return;
            }
            putWarp(warp.start, beat);
            put('stops', beat, rest);
            if (fits(tempo)) tempoAfter(warp);
            warp = fits(tempo) ? null : { start: beat, former: warp.former, owed: 0 };
        };

        for (const change of changes) {
            pass(change.beat);
            if (change.kind === 'tempo') meetTempo(change.value);
            else meetStop(change.value);
        }
        if (warp) {
            putWarp(warp.start, fits(tempo) ? settled(warp.owed) : 99999999);
            tempoAfter(warp);
        }
        return { ...written, tempos: tidiedTempos(engine, written.tempos) };
    }

    // Tempos as processing leaves them: the first on beat 0, none that changes nothing.
    function tidiedTempos(engine, tempos) {
        const [beats, values] = [tempos.map(({ beat }) => beat), tempos.map(({ value }) => value)];
        const tidy = engine.tidy_bpms({ beats, tempos: values, out_beats: beats.length + 1, out_tempos: beats.length + 1 });
        return Array.from({ length: tidy.count }, (_, place) => ({ beat: tidy.out_beats[place], value: tidy.out_tempos[place] }));
    }

    // A chart's notes by the proved timing and by the wrong machine's lists, row by row; { right, wrong } each with time and judged.
    function compareMachines(engine, seen) {
        const rows = seen.rows.map(({ row }) => row);
        const lists = { ...seen.timing.lists, ...walked(engine, seen.read.lists, true) };
        const wrong = new Timing(engine, lists, seen.timing.offset, seen.timing.global);
        const sheet = wrong.sheet(rows).rows;
        const notes = seen.rows.map((right, place) => ({ row: right.row, beat: right.beat, right, wrong: sheet[place] }));
        return { notes, wrongLists: lists, wronglyJudged: notes.filter(({ right, wrong: other }) => other.judged && !right.judged) };
    }

    root.Marrighentu = { ...root.Marrighentu, incident: { arrowsTaken, walked, compareMachines } };
})(globalThis);
