// The original's stored answers (crates/replay_leaf/stdin, crates/replay_lists/stdin), asked of an engine again. It runs in node and in a page alike.
//
//     replayStored(engine, leafText, listsText)      -> { replayed, different: [..], without }: a line for each that differs, and how many have no C function
'use strict';

const ROOM = 300;
const LEAF = {
    a: ['lrint_f64', 'x'], b: ['lrint_f32', 'x'], c: ['narrow_f64', 'x'], d: ['note_row_to_beat', 'row'], e: ['note_row_to_beat_f32', 'row'],
    f: ['beat_to_note_row', 'beat'], g: ['beat_to_note_row_f32', 'beat'], h: ['quantize_beat', 'beat'], i: ['quantize_beat_f32', 'beat'],
};
// the calls whose stored columns, numbers and answers stand in the header's order
const LISTS = {
    1: 'tidy_row_segments', 2: 'tidy_bpms', 3: 'tidy_scroll_segments', 4: 'tidy_speed_segments', 5: 'process_bpms_and_stops_ssc', 6: 'process_bpms_and_stops_sm',
    7: 'convert_warps_and_delays_to_sm_stops', 8: 'build_segment_row_storage', 10: 'judgable_rows', 12: 'run', 14: 'compute_row_to_beat',
    15: 'format_bpm_segments_like_itg', 16: 'format_bpm_segments_f32_like_itg', 18: 'get_beat_infos_from_times', 19: 'note_sheet',
};

// Stored words, read as numbers of the header's types.
class Words {
    constructor(words, structs) {
        Object.assign(this, { words, structs, at: 0 });
        this.doubles = new Float64Array(words.buffer);
        this.floats = new Float32Array(words.buffer);
        this.ints = new Int32Array(words.buffer);
    }

    number(type, at) {
        if (type === 'double') return this.doubles[at];
        if (type === 'float') return this.floats[2 * at];
        if (type === 'int32_t') return this.ints[2 * at];
        if (type === 'uint8_t') return Number(this.words[at] % 256n);
        if (type === 'bool') return this.words[at] === 1n;
        // a made-up cursor has places beyond every list
        return this.words[at] > BigInt(Number.MAX_SAFE_INTEGER) ? this.words[at] : Number(this.words[at]);
    }

    take(type) {
        if (!this.structs[type]) return this.number(type, this.at++);
        return Object.fromEntries(this.structs[type].fields.map((field) => [field.name, this.take(field.type)]));
    }

    column(type) {
        const length = Number(this.words[this.at++]);
        return Array.from({ length }, () => this.take(type));
    }
}

function isSame(one, other) {
    if (typeof one === 'object') return Object.keys(one).every((key) => isSame(one[key], other[key]));
    return Object.is(typeof one === 'bigint' ? Number(one) : one, other);
}
const untouched = (type) => (type === 'double' || type === 'float' ? 1.5 : 77);
// a room holds what is stored, and past that what was there before
const isRoom = (room, stored, type) => Array.from(room).every((number, place) => Object.is(number, place < stored.length ? stored[place] : untouched(type)));

// What stored words leave out: the original's warps have no marks, so that each is a written one.
const UNMARKED = { warp_marks: ({ warp_beats }) => warp_beats.map(() => 0), row_marks: ({ warps }) => Array(warps).fill(0) };

// A call in the header's order: columns, numbers, cursors, and the answer.
function replayCall(engine, words, name) {
    const { result, parameters } = engine.functions[`marrighentu_${name}`];
    const [given, rooms] = [{}, {}];
    for (const { kind, type, name: key } of parameters) {
        if (kind === 'read') given[key] = UNMARKED[key] ? UNMARKED[key](given) : words.column(type);
        else if (kind === 'written') {
            rooms[key] = { type, stored: UNMARKED[key] ?? words.column(type) };
            given[key] = Array(ROOM).fill(untouched(type));
        }
    }
    for (const { kind, type, name: key } of parameters) if (kind === 'number') given[key] = words.take(type);
    for (const { kind, type, name: key } of parameters) if (kind === 'struct') given[key] = words.take(type);
    const wanted = engine.structs[result] ? words.take(result) : { number: words.take(result) };
    const answer = engine[name](given);
    const isLeft = ([key, { type, stored }]) => isRoom(answer[key], typeof stored === 'function' ? stored(wanted) : stored, type);
    return isSame(wanted, answer) && Object.entries(rooms).every(isLeft);
}

const columnsOf = (engine, words, name) => Object.fromEntries(engine.functions[`marrighentu_${name}`].parameters.filter(({ kind }) => kind === 'read').map(({ type, name: key }) => [key, words.column(type)]));

// The six lookups of a row and of a beat, and their twins for lists that were tested.
function replayLookups(engine, words) {
    const lists = columnsOf(engine, words, 'is_judgable_at_row');
    const given = { ...lists, row: words.take('int32_t'), beat: words.take('double') };
    const checked = engine.check_lookups(lists) === 0;
    return ['is_warp', 'is_fake', 'is_judgable'].flatMap((what) => [`${what}_at_row`, `${what}_at_beat`]).map((name) => {
        const wanted = words.take('marrighentu_looked');
        return isSame(wanted, engine[name](given)) && (!checked || isSame(wanted, engine[`${name}_checked`](given)));
    }).every(Boolean);
}

// A question to a cursor and to a fresh one, by both clocks, with the end mark, and by the forms for a player.
function replayQuestion(engine, words) {
    const lists = columnsOf(engine, words, 'get_time_for_beat');
    const given = { ...lists, offset: words.take('double'), global_offset: words.take('double'), beat: words.take('double') };
    given.cursor = words.take('marrighentu_cursor');
    const number = words.take('uint32_t');
    const [answer, fresh] = [words.take('marrighentu_answer'), words.take('marrighentu_answer')];
    const { cursor, ...reply } = answer;
    const lent = (name) => isSame({ ...reply, cursor }, engine[name](given));
    const bench = engine.bench_time_for_beat({ ...given, rows: 1100, kinds: 1100, numbers: 1100 });
    const marked = engine.time_for_beat_marked({ ...given, cursor: engine.cursor_new(given).cursor, mark: engine.make_mark(given).mark });
    return engine.check_timing(given) === number
        && isSame(answer, engine.time_for_beat(given)) && lent('lent_time_for_beat') && isSame(fresh, engine.get_time_for_beat(given))
        && isSame({ number: fresh.number, time: fresh.time, count: fresh.count }, bench)
        && marked.number === fresh.number && Object.is(marked.time, fresh.time) && (marked.count === 1 || marked.count === fresh.count)
        && (number !== 0 || (isSame(answer, engine.time_for_beat_checked(given)) && lent('lent_time_for_beat_checked')));
}

// Beats drawn by scrolls, one by one and all at once.
function replayDisplayed(engine, words) {
    const scrolls = { scroll_beats: words.column('float'), scroll_ratios: words.column('float') };
    const [beats, numbers, positions, prefix] = [words.column('double'), words.column('uint32_t'), words.column('double'), words.column('double')];
    const number = words.take('uint32_t');
    const built = engine.build_scroll_prefix({ ...scrolls, prefix: Array(ROOM).fill(1.5) });
    const shown = engine.get_displayed_beats({ ...scrolls, beats, numbers: Array(ROOM).fill(77), positions: Array(ROOM).fill(1.5) });
    const each = beats.map((beat, place) => {
        const wanted = { number: numbers[place], beat: positions[place] };
        const player = () => engine.get_displayed_beat_checked({ ...scrolls, prefix: built.prefix, beat });
        return isSame(wanted, engine.get_displayed_beat({ ...scrolls, beat })) && (number !== 0 || isSame(wanted, player()));
    });
    return each.every(Boolean) && built.number === number && built.count === prefix.length && isRoom(built.prefix, prefix, 'double') && shown.number === number
        && (number !== 0 || (shown.count === beats.length && isRoom(shown.numbers, numbers, 'uint32_t') && isRoom(shown.positions, positions, 'double')));
}

function replayStored(engine, leafText, listsText) {
    const found = { replayed: 0, different: [], without: 0 };
    const took = (same, name) => {
        found.replayed++;
        if (!same) found.different.push(`${name}, case ${found.replayed}`);
    };
    const wordsOf = (texts) => new Words(BigUint64Array.from(texts, (text) => BigInt(`0x${text}`)), engine.structs);
    for (const line of leafText.trim().split('\n')) {
        const [letter, ...bits] = line.split(' ');
        const [name, key] = LEAF[letter];
        const { result, parameters } = engine.functions[`marrighentu_${name}`];
        const words = wordsOf(bits);
        took(Object.is(engine[name]({ [key]: words.take(parameters[0].type) }), words.take(result)), name);
    }
    const words = wordsOf(listsText.trim().split('\n'));
    for (let cases = words.take('size_t'); cases > 0; cases--) {
        const call = words.take('size_t');
        if (call === 9) took(replayLookups(engine, words), 'lookups');
        else if (call === 11) took(replayQuestion(engine, words), 'a question');
        else if (call === 13) took(replayDisplayed(engine, words), 'displayed beats');
        else if (call === 17) {
            // a single number as text, which no C function writes
            words.take('float');
            words.column('uint8_t');
            found.without++;
        } else took(replayCall(engine, words, LISTS[call]), LISTS[call]);
    }
    if (words.at !== words.words.length) found.different.push(`the stored words do not end where the cases do: ${words.at}`);
    return found;
}

globalThis.replayStored = replayStored;
