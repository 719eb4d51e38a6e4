// A headless Chromium, spoken to through a pipe, and a plain static server for it.
import { spawn, spawnSync } from 'node:child_process';
import fs from 'node:fs';
import os from 'node:os';
import path from 'node:path';

const NAMES = ['chromium', 'chromium-browser', 'google-chrome'];
// No sandbox, since tests run as root; WebGL2 in software; no name is looked up.
const FLAGS = ['--headless=new', '--no-sandbox', '--use-angle=swiftshader', '--enable-unsafe-swiftshader',
    '--no-first-run', '--disable-background-networking', '--host-resolver-rules=MAP * ~NOTFOUND, EXCLUDE 127.0.0.1',
    '--window-size=1520,760', '--remote-debugging-pipe'];

/** The name of a Chromium that is there, else undefined. */
export const findChromium = () => NAMES.find((name) => spawnSync(name, ['--version']).status === 0);

/** `python3 -m http.server` over a folder: its process, and the address. */
export function serve(folder) {
    const server = spawn('python3', ['-u', '-m', 'http.server', '0', '--bind', '127.0.0.1', '--directory', folder],
        { stdio: ['ignore', 'pipe', 'ignore'] });
    return new Promise((resolve, reject) => {
        // Read to its end: a pipe that is closed after the port would end the server.
        server.stdout.on('data', (text) => {
            const found = /port (\d+)/.exec(String(text));
            if (found) resolve({ server, address: `http://127.0.0.1:${found[1]}` });
        });
        server.on('exit', () => reject(new Error('python3 -m http.server didn\'t start')));
    });
}

export class Chromium {
    #process;
    #profile;
    #session;
    #waiting = new Map();
    #said = '';
    #number = 0;

    static async start(name) {
        const browser = new Chromium(name);
        const { targetId } = await browser.ask('Target.createTarget', { url: 'about:blank' });
        const { sessionId } = await browser.ask('Target.attachToTarget', { targetId, flatten: true });
        browser.#session = sessionId;
        await browser.ask('Page.enable');
        await browser.ask('Network.enable');
        return browser;
    }

    constructor(name) {
        this.#profile = fs.mkdtempSync(path.join(os.tmpdir(), 'maskcull-chromium-'));
        this.#process = spawn(name, [...FLAGS, `--user-data-dir=${this.#profile}`],
            { stdio: ['ignore', 'ignore', 'ignore', 'pipe', 'pipe'] });
        this.#process.stdio[4].on('data', (bytes) => this.#hear(String(bytes)));
    }

    ask(method, params = {}) {
        const id = ++this.#number;
        this.#process.stdio[3].write(`${JSON.stringify({ id, method, params, sessionId: this.#session })}\0`);
        return new Promise((resolve, reject) => this.#waiting.set(id, { resolve, reject }));
    }

    /** The value of an expression in the page, once it is there. */
    async evaluate(expression) {
        const { result, exceptionDetails } = await this.ask('Runtime.evaluate',
            { expression, awaitPromise: true, returnByValue: true });
        if (exceptionDetails) throw new Error(exceptionDetails.exception?.description ?? exceptionDetails.text);
        return result.value;
    }

    async screenshot(file) {
        const { data } = await this.ask('Page.captureScreenshot', { format: 'png' });
        fs.writeFileSync(file, Buffer.from(data, 'base64'));
    }

    async stop() {
        const ended = new Promise((resolve) => this.#process.once('exit', resolve));
        this.ask('Browser.close').catch(() => {});
        await ended;
        fs.rmSync(this.#profile, { recursive: true, force: true });
    }

    #hear(text) {
        const messages = (this.#said + text).split('\0');
        this.#said = messages.pop();
        for (const message of messages.map((it) => JSON.parse(it))) {
            const waiting = this.#waiting.get(message.id);
            this.#waiting.delete(message.id);
            if (message.error) waiting?.reject(new Error(message.error.message));
            else waiting?.resolve(message.result);
        }
    }
}
