/* Decodes away from the page, for images.mjs: a request is the address of a file, and its answer
 * { address, blob }, where `blob` is a BMP file of the picture, or null. */
import { load } from '../zaxbriar.mjs';
import { BMP_OPTIONS, bmpOf } from './bmp.mjs';

const OPTIONS = { ...BMP_OPTIONS, maxPixels: 100e6, maxBytes: 400e6 };
const loaded = load();

async function pictureOf(address) {
    const response = await fetch(address);
    if (!response.ok) throw new Error(`${address}: ${response.status}`);
    const zaxbriar = await loaded;
    return zaxbriar.decode(await response.arrayBuffer(), OPTIONS);
}

onmessage = async ({ data: address }) => {
    let blob = null;
    try {
        blob = bmpOf(await pictureOf(address));
    } catch (error) {
        console.info(`${address}: ${error.code ?? error.name}: ${error.message}`);
    }
    postMessage({ address, blob });
};
