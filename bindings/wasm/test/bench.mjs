/* node bench.mjs CLOCK FILE..: the processor time of a decoding by the module, as a ratio to that
 * by the native library, of which CLOCK is the program of clock.c. The two run in turn, and the
 * least of nine rounds of three counts. The module's time has a copy of the file and of the
 * pixels. */
import { spawnSync } from 'node:child_process';
import { readFileSync } from 'node:fs';
import { basename } from 'node:path';
import { load } from '../dist/node.mjs';

const [clock, ...files] = process.argv.slice(2);
const zaxbriar = await load();
const LAYOUTS = { stored: 0, rgba: 3 };

function ours(jpeg, layout) {
    const start = process.cpuUsage();
    zaxbriar.decode(jpeg, { layout });
    const { user, system } = process.cpuUsage(start);
    return (user + system) / 1000;
}

const native = (path, layout) =>
    Number(spawnSync(clock, [path, '3', `${LAYOUTS[layout]}`]).stdout.toString());

for (const path of files) {
    const jpeg = readFileSync(path);
    const cells = Object.keys(LAYOUTS).map((layout) => {
        const least = { ours: Infinity, native: Infinity };
        for (let round = 0; round < 9; round++) {
            least.native = Math.min(least.native, native(path, layout));
            for (let again = 0; again < 3; again++) {
                least.ours = Math.min(least.ours, ours(jpeg, layout));
            }
        }
        const ratio = (least.ours / least.native).toFixed(2);
        return `${ratio} (${least.ours.toFixed(1)} ms to ${least.native.toFixed(1)})`;
    });
    console.log(`| ${basename(path)} | ${cells.join(' | ')} |`);
}
