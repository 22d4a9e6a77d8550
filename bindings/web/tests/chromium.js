// Headless Chromium over its debugging pipe: messages of JSON, a 0 byte behind each.
'use strict';
const fs = require('fs');
const os = require('os');
const path = require('path');
const { spawn, spawnSync } = require('child_process');

const NAMES = ['chromium', 'chromium-browser', 'google-chrome'];
const WORDS = ['--headless=new', '--no-sandbox', '--disable-gpu', '--no-first-run', '--disable-dev-shm-usage', '--disable-background-networking', '--remote-debugging-pipe'];
const WAIT = 20000;

// The browser that is installed; undefined where there is none.
function found() {
    const names = process.env.CHROMIUM ? [process.env.CHROMIUM] : NAMES;
    return names.find((name) => spawnSync(name, ['--version']).status === 0);
}

class Chromium {
    constructor(program) {
        this.folder = fs.mkdtempSync(path.join(os.tmpdir(), 'chromium-'));
        this.process = spawn(program, [...WORDS, `--user-data-dir=${this.folder}`, 'about:blank'], { stdio: ['ignore', 'ignore', 'ignore', 'pipe', 'pipe'] });
        this.number = 0;
        this.waiting = new Map();
        this.listeners = [];
        let rest = '';
        this.process.stdio[4].setEncoding('utf8').on('data', (text) => {
            const parts = (rest + text).split('\0');
            rest = parts.pop();
            parts.forEach((part) => this.heard(JSON.parse(part)));
        });
        this.process.stdio[3].on('error', () => {});
    }

    heard(message) {
        const waiting = this.waiting.get(message.id);
        if (!waiting) return this.listeners.forEach((listener) => listener(message));
        this.waiting.delete(message.id);
        clearTimeout(waiting.timer);
        return message.error ? waiting.reject(new Error(`${waiting.method}: ${message.error.message}`)) : waiting.resolve(message.result);
    }

    send(method, params = {}, sessionId = undefined) {
        const id = ++this.number;
        return new Promise((resolve, reject) => {
            const timer = setTimeout(() => reject(new Error(`${method}: no answer`)), WAIT);
            this.waiting.set(id, { method, resolve, reject, timer });
            this.process.stdio[3].write(`${JSON.stringify({ id, method, params, sessionId })}\0`);
        });
    }

    async page() {
        const { targetId } = await this.send('Target.createTarget', { url: 'about:blank' });
        const { sessionId } = await this.send('Target.attachToTarget', { targetId, flatten: true });
        const page = new Page(this, sessionId);
        for (const domain of ['Page', 'Runtime', 'Network', 'Log', 'DOM']) await page.send(`${domain}.enable`);
        return page;
    }

    async close() {
        const ended = new Promise((resolve) => this.process.once('exit', resolve));
        this.process.stdio[3].write(`${JSON.stringify({ id: ++this.number, method: 'Browser.close' })}\0`);
        const timer = setTimeout(() => this.process.kill('SIGKILL'), 5000);
        await ended;
        clearTimeout(timer);
        fs.rmSync(this.folder, { recursive: true, force: true, maxRetries: 5, retryDelay: 200 });
    }
}

class Page {
    // `noise` is what the page says on its console, `asked` the addresses that it asks for.
    constructor(browser, session) {
        Object.assign(this, { browser, session, noise: [], asked: [] });
        browser.listeners.push(({ method, params, sessionId }) => {
            if (sessionId !== session) return;
            if (method === 'Runtime.consoleAPICalled') this.noise.push(params.args.map((one) => one.value ?? one.description).join(' '));
            if (method === 'Runtime.exceptionThrown') this.noise.push(params.exceptionDetails.exception?.description ?? params.exceptionDetails.text);
            if (method === 'Log.entryAdded') this.noise.push(params.entry.text);
            if (method === 'Network.requestWillBeSent') this.asked.push(params.request.url);
        });
    }

    send(method, params) {
        return this.browser.send(method, params, this.session);
    }

    async open(url) {
        const loaded = new Promise((resolve) => this.browser.listeners.push(({ method, sessionId }) => method === 'Page.loadEventFired' && sessionId === this.session && resolve()));
        await this.send('Page.navigate', { url });
        await loaded;
    }

    // The value of an expression, or what a promise of it comes to.
    async value(expression) {
        const { result, exceptionDetails } = await this.send('Runtime.evaluate', { expression, awaitPromise: true, returnByValue: true });
        if (exceptionDetails) throw new Error(exceptionDetails.exception?.description ?? exceptionDetails.text);
        return result.value;
    }

    text(id) {
        return this.value(`document.getElementById(${JSON.stringify(id)}).innerText`);
    }

    // Until an expression holds.
    async until(expression) {
        const end = Date.now() + WAIT;
        while (!(await this.value(expression))) {
            if (Date.now() > end) throw new Error(`it never came to ${expression}`);
            await new Promise((resolve) => setTimeout(resolve, 20));
        }
    }

    async key(key, modifiers = 0) {
        const code = { Tab: 9, Enter: 13, PageUp: 33, PageDown: 34, End: 35, Home: 36, ArrowLeft: 37, ArrowUp: 38, ArrowRight: 39, ArrowDown: 40 }[key];
        const one = { key, code: key, windowsVirtualKeyCode: code, modifiers };
        await this.send('Input.dispatchKeyEvent', { type: 'keyDown', ...one, ...(key === 'Enter' && { text: '\r' }) });
        await this.send('Input.dispatchKeyEvent', { type: 'keyUp', ...one });
    }

    // Puts a number into a field as a person does.
    async type(id, text) {
        await this.value(`{ const field = document.getElementById('${id}'); field.focus(); field.select(); }`);
        await this.send('Input.insertText', { text: String(text) });
        await this.key('Enter');
    }

    async choose(id, value) {
        await this.value(`{ const choice = document.getElementById('${id}'); choice.value = '${value}'; choice.dispatchEvent(new Event('change')); }`);
    }

    async drop(file) {
        const data = { items: [], files: [file], dragOperationsMask: 1 };
        for (const type of ['dragEnter', 'dragOver', 'drop']) await this.send('Input.dispatchDragEvent', { type, x: 60, y: 60, data });
    }

    async screen(width, height, scheme, motion = 'no-preference') {
        await this.send('Emulation.setDeviceMetricsOverride', { width, height, deviceScaleFactor: 1, mobile: width < 600 });
        await this.send('Emulation.setEmulatedMedia', { features: [{ name: 'prefers-color-scheme', value: scheme }, { name: 'prefers-reduced-motion', value: motion }] });
        await this.value('new Promise((resolve) => requestAnimationFrame(() => requestAnimationFrame(resolve)))');
    }
}

module.exports = { Chromium, found };
