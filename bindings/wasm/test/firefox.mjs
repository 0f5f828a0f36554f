/* Firefox, by WebDriver BiDi. */
import { Browser } from './browser.mjs';
import { Connection } from './connection.mjs';
import { connect } from './websocket.mjs';

const PROGRAM = process.env.FIREFOX ?? 'firefox-esr';
const WORDS = ['--headless', '--no-remote', '--remote-debugging-port', '0', 'about:blank'];
const EVENTS = ['log.entryAdded', 'network.fetchError', 'network.responseCompleted'];
// (the protocol has numbers of its own for keys that give no character)
const KEYS = { Tab: '\uE004', Enter: '\uE007', ArrowUp: '\uE013', ArrowDown: '\uE015' };

/* The address at which Firefox says that it listens. */
const addressOf = (child) =>
    new Promise((done, fail) => {
        let said = '';
        child.stderr.setEncoding('utf8').on('data', (text) => {
            said += text;
            const [, address] = said.match(/BiDi listening on ws:(\S+)\n/) ?? [];
            if (address) done(`http:${address}/session`);
        });
        child.once('exit', () => fail(new Error(`${PROGRAM} has ended:\n${said}`)));
    });

/* The value that the protocol describes. */
function valueOf({ type, value }) {
    if (type === 'array') return value.map(valueOf);
    if (type !== 'object') return type === 'null' ? null : value;
    return Object.fromEntries(value.map(([name, described]) => [name, valueOf(described)]));
}

export class Firefox extends Browser {
    #connection;
    #context;

    #send(method, params) {
        return this.#connection.send(method, { context: this.#context, ...params });
    }

    #hear({ method, params }) {
        if (method === 'network.responseCompleted' && params.response.status < 400) return;
        this.logs.push(JSON.stringify(params));
    }

    async start({ width, height }) {
        const words = ['--profile', this.profile, ...WORDS];
        const child = this.spawn(PROGRAM, words, ['ignore', 'ignore', 'pipe']);
        const address = await addressOf(child);
        const channel = (receive) => connect(address, receive);
        this.#connection = await Connection.open(channel, (event) => this.#hear(event));
        await this.#connection.send('session.new', { capabilities: {} });
        const { contexts } = await this.#connection.send('browsingContext.getTree');
        this.#context = contexts[0].context;
        await this.#connection.send('session.subscribe', { events: EVENTS });
        await this.#send('browsingContext.setViewport', { viewport: { width, height } });
    }

    async open(address) {
        await this.#send('browsingContext.navigate', { url: address, wait: 'interactive' });
    }

    async run(expression) {
        const words = { expression, awaitPromise: true, target: { context: this.#context } };
        const { result, exceptionDetails } = await this.#connection.send('script.evaluate', words);
        if (exceptionDetails) throw new Error(exceptionDetails.text);
        return valueOf(result);
    }

    async #find(locator) {
        return (await this.#send('browsingContext.locateNodes', { locator })).nodes;
    }

    async choose(selector, files) {
        const [{ sharedId }] = await this.#find({ type: 'css', value: selector });
        await this.#send('input.setFiles', { element: { sharedId }, files });
    }

    async press(key) {
        const value = KEYS[key] ?? key;
        const actions = ['keyDown', 'keyUp'].map((type) => ({ type, value }));
        const keys = { type: 'key', id: 'keys', actions };
        await this.#send('input.performActions', { actions: [keys] });
    }

    async count(role, name) {
        return (await this.#find({ type: 'accessibility', value: { role, name } })).length;
    }

    async picture() {
        return (await this.#send('browsingContext.captureScreenshot')).data;
    }

    async quit() {
        await this.#connection.send('browser.close');
    }
}
