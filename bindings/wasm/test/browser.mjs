/* A browser without a window, with one page, as page.mjs asks for it. The classes that extend this
 * one speak the protocol of a browser:
 *
 *     start({ width, height })    starts the browser, with a page of that size
 *     open(address)               opens an address in its page
 *     run(expression)             gives the value of an expression there, once it has settled
 *     choose(selector, paths)     chooses files for an input
 *     press(key)                  presses and releases a key, by its name in KeyboardEvent
 *     count(role, name)           counts what a screen reader is told of with this role and name
 *                                 (any name where that isn't given)
 *     picture()                   gives the page's picture, a PNG file in base64
 *     quit()                      asks the browser to end
 */
import { spawn } from 'node:child_process';
import { once } from 'node:events';
import { mkdtempSync, rmSync, writeFileSync } from 'node:fs';
import { tmpdir } from 'node:os';
import { join } from 'node:path';

export class Browser {
    /* What the page has written to its console, its errors, and files that could not be loaded. */
    logs = [];
    profile = mkdtempSync(join(tmpdir(), 'browser-'));
    #child;

    /* Starts a browser and opens an address. */
    static async browse(address, size = { width: 1200, height: 800 }) {
        const page = new this();
        await page.start(size);
        await page.open(address);
        return page;
    }

    /* Runs the browser's program, which keeps all that it writes in the profile. */
    spawn(program, words, stdio) {
        const env = { ...process.env, HOME: this.profile };
        this.#child = spawn(program, words, { stdio, env });
        // (also where a test has failed)
        process.once('exit', () => this.#child.kill());
        return this.#child;
    }

    /* Waits until an expression is true. */
    async until(expression) {
        for (let round = 0; round < 600; round++) {
            if (await this.run(expression).catch(() => false)) return;
            await new Promise((done) => setTimeout(done, 50));
        }
        throw new Error(`never: ${expression}\n${this.logs.join('\n')}`);
    }

    /* Writes the page's picture to a file. */
    async screenshot(path) {
        writeFileSync(path, Buffer.from(await this.picture(), 'base64'));
    }

    async close() {
        const ended = once(this.#child, 'exit');
        await this.quit();
        await ended;
        rmSync(this.profile, { recursive: true, force: true, maxRetries: 5 });
    }
}
