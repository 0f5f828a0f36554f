/* Decodes away from the page, for canvases.mjs: a request is { index, address }, with the address
 * of a file, and has an answer { index, bitmap } each time that much more of the file is there. */
import { load } from '../zaxbriar.mjs';

const OPTIONS = { layout: 'rgba', upright: true, maxPixels: 100e6, maxBytes: 400e6 };
const loaded = load();

async function show(address, tell) {
    const response = await fetch(address);
    if (!response.ok) throw new Error(`${response.status}`);
    const zaxbriar = await loaded;
    for await (const { picture, pixels } of zaxbriar.showStream(response.body, OPTIONS)) {
        tell(await createImageBitmap(new ImageData(pixels, picture.width, picture.height)));
    }
}

onmessage = async ({ data: { index, address } }) => {
    try {
        await show(address, (bitmap) => postMessage({ index, bitmap }, [bitmap]));
    } catch (error) {
        console.info(`${address}: ${error.code ?? error.name}: ${error.message}`);
    }
};
