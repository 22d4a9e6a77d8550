// The page in headless Chromium, opened from a file: what it shows of dropped charts against chart-picture, the keyboard, both colour schemes, two widths, a large
// chart's time, and the stored answers by the page's own module. SCREENSHOTS=FOLDER keeps pictures of it at both widths in both schemes.
'use strict';
const test = require('node:test');
const assert = require('node:assert');
const fs = require('fs');
const os = require('os');
const path = require('path');
const { pathToFileURL } = require('url');
const { root, read, Marrighentu } = require('./load.js');
const { Chromium, found } = require('./chromium.js');
const { pictured, assertSaysTheSame, skip: noPicture } = require('./pictured.js');
const { largeChart } = require('./large.js');

const program = found();
const page_ = path.join(root, 'target/web/page.html');
const skip = !program ? 'chromium is not installed' : fs.existsSync(page_) ? false : 'the page is not built';
const { short } = Marrighentu.axes;
const scratch = fs.mkdtempSync(path.join(os.tmpdir(), 'page-'));
const WIDTHS = [390, 1280];
const DROPPED = [
    ['bindings/picture/tests/example.ssc', [1, 0]], ['bindings/picture/tests/dozens.ssc', [1, 2]], ['bindings/picture/tests/many.sm', [1]], ['bindings/web/charts/pause-in-warp.sm', [1]],
];
const REACHED = [
    'file', 'example', 'chart', 'mend', 'picture', 'along', 'ask-beat', 'ask-time', 'from', 'to', 'whole', 'save-svg', 'save-json', 'list', 'view', 'before', 'next', 'incident-beat',
];
let [browser, page] = [null, null];

test.before(async () => {
    if (skip) return;
    browser = new Chromium(program);
    page = await browser.page();
    await browser.send('Browser.setDownloadBehavior', { behavior: 'allow', downloadPath: scratch });
    await page.screen(1280, 900, 'light');
    await page.open(pathToFileURL(page_).href);
});

test.after(async () => {
    if (browser) await browser.close();
    fs.rmSync(scratch, { recursive: true, force: true });
});

// A file that a button saves.
async function saved(button, name) {
    const file = path.join(scratch, name);
    fs.rmSync(file, { force: true });
    await page.value(`document.getElementById('${button}').click()`);
    const end = Date.now() + 10000;
    while (!fs.existsSync(file) || fs.statSync(file).size === 0) {
        if (Date.now() > end) throw new Error(`${name} is not saved`);
        await new Promise((resolve) => setTimeout(resolve, 20));
    }
    return fs.readFileSync(file, 'utf8');
}

const readout = (name) => page.value(`document.querySelector('#readout dd[data-name="${name}"]').textContent`);
const cells = (id) => page.value(`[...document.querySelectorAll('#${id} .line')].map((line) => [...line.children].map((cell) => cell.textContent))`);

async function dropped(name) {
    await page.drop(path.join(root, name));
    await page.until(`document.getElementById('said').textContent.includes(${JSON.stringify(path.basename(name))})`);
}

test('without a file an example is shown', { skip }, async () => {
    assert.match(await page.text('said'), /^Some dozens \(dozens\.ssc, \.ssc\): chart 2 of 2, its own timing, offset -0\.25 s$/);
    assert.ok(await page.value("document.querySelectorAll('#picture svg path').length") > 10);
    assert.ok(await page.value("document.querySelectorAll('#notes .line').length") > 5);
    assert.match(await page.text('proof'), /not proved[\s\S]*PROVED\.md[\s\S]*pause_keeps_warp/);
});

test('dropped charts show the numbers of chart-picture', { skip: skip || noPicture }, async () => {
    const [beats, times] = [[4, 17, 24.5], [2.75, 6]];
    for (const [name, charts] of DROPPED) {
        await dropped(name);
        for (const chart of charts) {
            await page.choose('chart', chart);
            const wanted = pictured(path.join(root, name), chart, beats, times);
            for (const [place, beat] of beats.entries()) {
                await page.type('ask-beat', beat);
                const { time, row, judged, warped, displayed } = wanted.beats[place];
                assert.ok((await page.text('asked-said')).startsWith(`Beat ${short(beat)}, row ${row}: second ${time}, ${judged ? 'judged' : ''}`), `${name}: beat ${beat}`);
                assert.deepStrictEqual(
                    [await readout('second'), await readout('judged'), await readout('warped'), await readout('drawn at')],
                    [short(time), judged ? 'yes' : 'no', warped ? 'yes' : 'no', short(displayed)]);
            }
            for (const [place, time] of times.entries()) {
                await page.type('ask-time', time);
                const { beat, freeze, delay } = wanted.at[place];
                assert.ok((await page.text('asked-said')).startsWith(`Second ${short(time)}: beat ${beat}`), `${name}: second ${time}`);
                assert.deepStrictEqual([await readout('beat'), await readout('stop running'), await readout('delay running')], [short(beat), freeze ? 'yes' : 'no', delay ? 'yes' : 'no']);
            }
            for (const [list, field] of [['tempos', 'beats_a_minute'], ['stops', 'seconds'], ['delays', 'seconds'], ['warps', 'beats'], ['scrolls', 'times'], ['fakes', 'beats']]) {
                await page.choose('list', list);
                const shown = (await cells('tidy')).map(([beat, value]) => [Number(beat), value]);
                const rows = wanted[list].slice(0, shown.length).map((entry) => [entry.beat, short(entry[field])]);
                assert.ok(shown.length > 0 || wanted[list].length === 0, `${name}: ${list}`);
                assert.deepStrictEqual(shown, rows, `${name}: ${list}`);
            }
            await page.choose('list', 'warps');
            assert.ok((await page.text('list-said')).includes(` ${wanted.warped_rows} rows`), `${name}: warped rows`);
            assert.ok((await page.text('said')).endsWith(`, offset ${wanted.offset} s`), `${name}: offset`);
            await page.type('ask-beat', 0);
            const notes = await cells('notes');
            const rows = (wanted.notes ?? []).slice(0, notes.length).map((row) => [short(row.beat), short(row.time), row.snap, row.judged ? 'yes' : 'no', short(row.displayed)]);
            assert.deepStrictEqual(notes.map(([beat, second, , snap, judged, drawn]) => [beat, second, snap, judged, drawn]), rows, `${name}: notes`);
            const document = JSON.parse(await saved('save-json', path.basename(name).replace(/\.\w+$/, '.json')));
            assertSaysTheSame(document, pictured(path.join(root, name), chart, [...beats, 0], times));
        }
    }
});

test('a file is chosen by the button, and a chart that is refused is told by its entry', { skip }, async () => {
    const file = path.join(scratch, 'tiny.sm');
    fs.writeFileSync(file, '#BPMS:0=120,4=fast;\n#STOPS:1=1,\n2=1,\n3=0.0000001;');
    const { root: { nodeId } } = await page.send('DOM.getDocument');
    const input = await page.send('DOM.querySelector', { nodeId, selector: '#file' });
    await page.send('DOM.setFileInputFiles', { files: [file], nodeId: input.nodeId });
    await page.until("!document.getElementById('refused').hidden");
    assert.strictEqual(await page.text('refused-why'), 'Stop 3, line 4: 1e-7 s is below 2^-20 (refusal 4). Nothing of it is timed.');
    assert.match(await page.text('strange-list'), /line 1, column 15: a number is wanted, found "fast"; passed over/);
    assert.strictEqual(await page.value("document.getElementById('seen').hidden"), true);
    await page.choose('example', 'chart-pause');
    assert.strictEqual(await page.value("document.getElementById('seen').hidden"), false);
    assert.match(await page.text('list-said'), /SM made 1 warp\.$/);
    assert.deepStrictEqual(await cells('tidy'), [['4', '7', 'made by SM']]);
});

test('scrolls that lost their order are refused, and mended where that is wanted', { skip }, async () => {
    const file = path.join(scratch, 'fallen.ssc');
    fs.writeFileSync(file, '#VERSION:0.83;#BPMS:0=120;\n#SCROLLS:4=1,8=2,\n0=2,9=5;');
    await page.drop(file);
    await page.until("!document.getElementById('refused').hidden");
    assert.match(await page.text('refused-why'), /^Scroll 4, line 3: beat 9 has no place, since the scrolls before it are out of order \(refusal 6\)/);
    await page.value("document.getElementById('mend').click()");
    await page.until("document.getElementById('refused').hidden");
    await page.choose('list', 'scrolls');
    assert.deepStrictEqual(await cells('tidy'), [['0', '2'], ['4', '1'], ['8', '2'], ['9', '5']]);
    await page.value("document.getElementById('mend').click()");
    await page.choose('example', 'chart-pause');
});

test('a picture is saved whole, with its colours in it', { skip }, async () => {
    const svg = await saved('save-svg', 'pause-in-warp.svg');
    assert.ok(svg.startsWith('<svg xmlns=') && svg.endsWith('</svg>\n') && !svg.includes('var(') && svg.includes('made warp'));
});

test('it is used by the keyboard, and what has the focus is seen', { skip }, async () => {
    await page.choose('example', 'chart-dozens');
    const reached = [];
    for (let turn = 0; turn < 45; turn++) {
        await page.key('Tab');
        const now = await page.value(`(() => {
            const one = document.activeElement;
            const shown = one.id === 'file' ? one.parentElement : one;
            return [one.id || one.className || one.tagName, getComputedStyle(shown).outlineStyle !== 'none' && parseFloat(getComputedStyle(shown).outlineWidth) >= 2];
        })()`);
        if (now[0] === 'BODY') continue;
        assert.ok(now[1], `${now[0]} has no visible focus`);
        reached.push(now[0]);
    }
    for (const id of REACHED) assert.ok(reached.includes(id), `${id} is not reached: ${reached}`);

    await page.value("document.getElementById('picture').focus()");
    await page.key('Home');
    const beats = [await readout('beat')];
    for (const [key, modifiers] of [['ArrowRight'], ['ArrowRight', 8], ['PageUp'], ['ArrowLeft'], ['End']]) {
        await page.key(key, modifiers);
        beats.push(await readout('beat'));
    }
    assert.deepStrictEqual(beats, ['0', '0.25', '0.271', '4.271', '4.021', '192']);
    await page.value("document.getElementById('along').focus()");
    const before = await readout('second');
    await page.key('ArrowLeft');
    assert.notStrictEqual(await readout('second'), before);
    const labels = await page.value(`[...document.querySelectorAll('input, select, button, [tabindex]')].map((one) => {
        const label = one.labels?.[0]?.textContent || one.getAttribute('aria-label') || one.textContent || '';
        return [one.outerHTML.slice(0, 80), label.trim()];
    })`);
    for (const [control, label] of labels) assert.ok(label, `${control} has no label`);
});

test('the cursor is dragged, and in a stop time goes on', { skip }, async () => {
    await page.choose('example', 'chart-example');
    const { left, top, width } = await page.value(`(() => {
        const box = () => document.getElementById('picture').getBoundingClientRect();
        scrollTo(0, scrollY + box().top - 100);
        const { left, top, width } = box();
        return { left, top, width };
    })()`);
    const mouse = (type, x) => page.send('Input.dispatchMouseEvent', { type, x, y: top + 80, button: 'left', buttons: 1, clickCount: 1 });
    await mouse('mousePressed', left + width * 0.3);
    const first = Number(await readout('beat'));
    await mouse('mouseMoved', left + width * 0.6);
    const second = Number(await readout('beat'));
    await mouse('mouseReleased', left + width * 0.6);
    assert.ok(first > 4 && second > first + 5, `${first}, ${second}`);
    await page.send('Input.dispatchTouchEvent', { type: 'touchStart', touchPoints: [{ x: left + width * 0.3, y: top + 80 }] });
    await page.send('Input.dispatchTouchEvent', { type: 'touchMove', touchPoints: [{ x: left + width * 0.4, y: top + 80 }] });
    await page.send('Input.dispatchTouchEvent', { type: 'touchEnd', touchPoints: [] });
    const touched = Number(await readout('beat'));
    assert.ok(touched > first && touched < second, `${touched}`);
    // the stop of one second on beat 4 begins at 2.25
    for (const [time, beat, stop] of [[2.2, '3.9', 'no'], [2.5, '4', 'yes'], [3, '4', 'yes'], [3.5, '4.5', 'no']]) {
        await page.value(`{ const along = document.getElementById('along'); along.value = ${time}; along.dispatchEvent(new Event('input')); }`);
        assert.deepStrictEqual([await readout('beat'), await readout('stop running')], [beat, stop]);
    }
});

test('the arrows light up as the cursor passes the changes', { skip }, async () => {
    const lit = () => page.value("[...document.querySelectorAll('#diagram [data-lit]')].map((one) => one.dataset.law)");
    const seen = [];
    await page.value("{ const beat = document.getElementById('incident-beat'); beat.value = 0; beat.dispatchEvent(new Event('input')); }");
    for (let turn = 0; turn < 5; turn++) {
        seen.push([await page.value("Number(document.getElementById('incident-beat').value)"), (await lit()).join(' ')]);
        await page.value("document.getElementById('next').click()");
    }
    assert.deepStrictEqual(seen, [[0, 'opening-written'], [4, 'time-outside tempo_opens'], [8, 'time-keeps tempo-keeps'], [9, 'time-keeps stop-keeps pause_keeps'], [16, 'end_in_warp']]);
    assert.match(await page.text('wrongly'), /leaves 4 rows to be judged .*: beat 9 .*, beat 9\.5 .*, beat 10 .*, beat 10\.5 /);
});

// Words whose colour stands out by less than 4.5 to 1 from the nearest background behind them; pictures' words stand on the paper or on a state.
const FAINT = `(() => {
    const numbers = (colour) => colour.match(/[\\d.]+/g).map(Number);
    const part = (of) => (of / 255 <= 0.04045 ? of / 255 / 12.92 : ((of / 255 + 0.055) / 1.055) ** 2.4);
    const light = (colour) => numbers(colour).slice(0, 3).map(part).reduce((sum, one, place) => sum + one * [0.2126, 0.7152, 0.0722][place], 0);
    const behind = (one) => {
        for (let at = one; at; at = at.parentElement) {
            const { backgroundColor } = getComputedStyle(at);
            if ((numbers(backgroundColor)[3] ?? 1) === 1) return backgroundColor;
        }
        return 'rgb(255, 255, 255)';
    };
    const faint = [];
    for (const one of document.querySelectorAll('body *')) {
        const own = [...one.childNodes].some((node) => node.nodeType === 3 && node.textContent.trim());
        if (!own || !one.getClientRects().length || ['SCRIPT', 'STYLE', 'OPTION'].includes(one.tagName)) continue;
        const style = getComputedStyle(one);
        const [low, high] = [light(one instanceof SVGElement ? style.fill : style.color), light(behind(one))].sort((a, b) => a - b);
        if ((high + 0.05) / (low + 0.05) < 4.5) faint.push(one.textContent.slice(0, 30) + ' ' + style.color + ' on ' + behind(one));
    }
    return faint;
})()`;

test('both schemes and both widths', { skip }, async () => {
    await page.choose('example', 'chart-dozens');
    const backs = [];
    for (const scheme of ['light', 'dark']) {
        for (const width of WIDTHS) {
            await page.screen(width, 900, scheme);
            assert.deepStrictEqual(await page.value(FAINT), [], `${scheme}, ${width}`);
            const [content, seen, whole] = await page.value('[document.documentElement.scrollWidth, document.documentElement.clientWidth, innerWidth]');
            assert.ok(content <= seen && whole === width, `${scheme}: ${content} in ${seen} of ${width}`);
            if (process.env.SCREENSHOTS) await screenshot(width, scheme);
        }
        backs.push(await page.value('getComputedStyle(document.body).backgroundColor'));
    }
    assert.deepStrictEqual(backs, ['rgb(255, 255, 255)', 'rgb(20, 24, 29)']);
    const moving = "getComputedStyle(document.querySelector('#diagram path')).transitionDuration";
    assert.notStrictEqual(await page.value(moving), '0s');
    await page.screen(1280, 900, 'light', 'reduce');
    assert.strictEqual(await page.value(moving), '0s');
    await page.screen(1280, 900, 'light');
});

async function screenshot(width, scheme) {
    const height = await page.value('document.documentElement.scrollHeight');
    const { data } = await page.send('Page.captureScreenshot', { format: 'png', captureBeyondViewport: true, clip: { x: 0, y: 0, width, height, scale: 1 } });
    fs.writeFileSync(path.join(process.env.SCREENSHOTS, `page-${width}-${scheme}.png`), Buffer.from(data, 'base64'));
}

// Shows a file and lays out the page; the milliseconds that it took, and those of the page's own thread, which other work on the machine does not change much.
async function showing(name, bytes) {
    const busy = async () => (await page.send('Performance.getMetrics')).metrics.find((one) => one.name === 'TaskDuration').value * 1000;
    await page.value(`globalThis.given = new DataTransfer(); given.items.add(new File([${JSON.stringify(bytes)}], ${JSON.stringify(name)}))`);
    const before = await busy();
    const took = await page.value(`(async () => {
        const input = document.getElementById('file');
        input.files = given.files;
        const start = performance.now();
        input.dispatchEvent(new Event('change'));
        const soon = () => new Promise((resolve) => {
            const { port1, port2 } = new MessageChannel();
            port1.onmessage = resolve;
            port2.postMessage(0);
        });
        while (!document.getElementById('said').textContent.includes(${JSON.stringify(name)})) await soon();
        document.body.getBoundingClientRect();
        return performance.now() - start;
    })()`);
    return { took, busy: (await busy()) - before };
}

test('a chart of 1,000 tempos and 5,000 notes is shown within a tenth of a second', { skip }, async () => {
    await page.send('Performance.enable', { timeDomain: 'threadTicks' });
    const runs = [];
    for (let turn = 0; turn < 6; turn++) runs.push(await showing(`large-${turn}.ssc`, largeChart()));
    assert.match(await page.text('notes-said'), /^50\d\d rows with notes/);
    const move = await page.value(`(() => {
        const box = document.getElementById('picture');
        const start = performance.now();
        for (let turn = 0; turn < 50; turn++) box.dispatchEvent(new KeyboardEvent('keydown', { key: turn % 2 ? 'ArrowLeft' : 'PageUp' }));
        return (performance.now() - start) / 50;
    })()`);
    const least = (name) => Math.min(...runs.map((run) => run[name]));
    const figures = (name) => `${runs[0][name].toFixed(0)} ms at first, ${least(name).toFixed(0)} at best`;
    console.log(`1,000 tempos and 5,000 notes shown in ${figures('busy')}, of a processor, ${figures('took')} by the clock; a move of the cursor takes ${move.toFixed(1)} ms`);
    // twice what is promised, and by the clock ten times, for a machine with much other work
    assert.ok(least('busy') < 200 && least('took') < 1000 && move < 100, `${JSON.stringify(runs)}, ${move}`);
    await page.choose('example', 'chart-dozens');
});

test('the stored answers are those of the page\'s own module', { skip }, async () => {
    await page.value(read('bindings/web/tests/replay.js').toString());
    const [leaf, lists] = ['crates/replay_leaf/stdin', 'crates/replay_lists/stdin'].map((name) => JSON.stringify(read(name).toString()));
    const { replayed, different } = await page.value(`(() => {
        const text = (id) => document.getElementById(id).textContent;
        return replayStored(Marrighentu.engine(Uint8Array.from(atob(text('wasm')), (byte) => byte.charCodeAt(0)), text('header')), ${leaf}, ${lists});
    })()`);
    assert.deepStrictEqual(different, []);
    console.log(`${replayed} stored answers replayed in the browser, 0 different`);
});

test('it says nothing on its console and asks for nothing but itself', { skip }, async () => {
    assert.deepStrictEqual(page.noise, []);
    assert.deepStrictEqual([...new Set(page.asked)].filter((url) => !url.startsWith('blob:')), [pathToFileURL(page_).href]);
});
