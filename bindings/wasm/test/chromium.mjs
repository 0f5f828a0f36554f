/* Chromium, by the DevTools protocol over a pipe. */
import { Browser } from './browser.mjs';
import { Connection } from './connection.mjs';

const PROGRAM = process.env.CHROMIUM ?? 'chromium';
const WORDS = [
    '--headless=new',
    '--no-sandbox',
    '--disable-gpu',
    '--disable-dev-shm-usage',
    '--no-first-run',
    '--remote-debugging-pipe',
    'about:blank',
];
// (the browser's own keys go by their codes)
const CODES = { Tab: 9 };
const STREAMS = ['ignore', 'ignore', 'ignore', 'pipe', 'pipe'];
const DOMAINS = ['Page', 'Runtime', 'DOM', 'Log', 'Network', 'Accessibility'];

/* The channel over the streams of a child: each text ends in a zero. */
const pipe = ([, , , input, output]) => (receive) => {
    let rest = '';
    output.setEncoding('utf8').on('data', (text) => {
        const parts = (rest + text).split('\0');
        rest = parts.pop();
        parts.forEach(receive);
    });
    return (text) => input.write(`${text}\0`);
};

export class Chromium extends Browser {
    #connection;
    #sessionId;

    #send(method, params) {
        return this.#connection.send(method, params, { sessionId: this.#sessionId });
    }

    async start({ width, height }) {
        const words = [`--user-data-dir=${this.profile}`, ...WORDS];
        const { stdio } = this.spawn(PROGRAM, words, STREAMS);
        this.#connection = await Connection.open(pipe(stdio), ({ method, params }) => {
            if (/Runtime.(consoleAPICalled|exceptionThrown)|Log.entryAdded/.test(method)) {
                this.logs.push(JSON.stringify(params));
            }
        });
        await this.#attach();
        for (const domain of DOMAINS) await this.#send(`${domain}.enable`);
        const size = { width, height, deviceScaleFactor: 1, mobile: false };
        await this.#send('Emulation.setDeviceMetricsOverride', size);
    }

    /* Says all that follows to the page. */
    async #attach() {
        const { targetInfos } = await this.#connection.send('Target.getTargets');
        const { targetId } = targetInfos.find(({ type }) => type === 'page');
        const target = { targetId, flatten: true };
        const { sessionId } = await this.#connection.send('Target.attachToTarget', target);
        this.#sessionId = sessionId;
    }

    async open(address) {
        const { errorText } = await this.#send('Page.navigate', { url: address });
        if (errorText) throw new Error(`${address}: ${errorText}`);
    }

    async run(expression) {
        const words = { expression, awaitPromise: true, returnByValue: true };
        const { result, exceptionDetails } = await this.#send('Runtime.evaluate', words);
        if (exceptionDetails) throw new Error(exceptionDetails.exception?.description);
        return result.value;
    }

    async choose(selector, files) {
        const { root } = await this.#send('DOM.getDocument');
        const { nodeId } = await this.#send('DOM.querySelector', { nodeId: root.nodeId, selector });
        await this.#send('DOM.setFileInputFiles', { nodeId, files });
    }

    async press(key) {
        const windowsVirtualKeyCode = CODES[key];
        for (const type of ['keyDown', 'keyUp']) {
            const text = key.length === 1 && type === 'keyDown' ? key : undefined;
            const event = { type, key, text, windowsVirtualKeyCode };
            await this.#send('Input.dispatchKeyEvent', event);
        }
    }

    async count(role, name) {
        const { nodes } = await this.#send('Accessibility.getFullAXTree');
        const told = nodes.filter((node) => !node.ignored && node.role?.value === role);
        if (name === undefined) return told.length;
        return told.filter((node) => (node.name?.value ?? '') === name).length;
    }

    async picture() {
        return (await this.#send('Page.captureScreenshot', { format: 'png' })).data;
    }

    async quit() {
        await this.#connection.send('Browser.close');
    }
}
