/* The browser's own decoder away from the page: answers as web/worker.mjs does, with the pixels of
 * createImageBitmap and getImageData. A canvas is kept for pictures of its size. */
const UNCHANGED = {
    imageOrientation: 'none',
    colorSpaceConversion: 'none',
    premultiplyAlpha: 'none',
};
let context;

function contextOf({ width, height }) {
    if (context?.canvas.width !== width || context.canvas.height !== height) {
        const canvas = new OffscreenCanvas(width, height);
        context = canvas.getContext('2d', { willReadFrequently: true });
    }
    return context;
}

onmessage = async ({ data: { file } }) => {
    const start = performance.now();
    const image = await createImageBitmap(file, UNCHANGED);
    const { width, height } = image;
    const drawn = contextOf(image);
    drawn.drawImage(image, 0, 0);
    image.close();
    const pixels = drawn.getImageData(0, 0, width, height).data.buffer;
    const milliseconds = performance.now() - start;
    postMessage({ pixels, milliseconds }, [pixels]);
};
