/* Shows the images of a page that the browser can't show, as lossless JPEG files (of which Chromium
 * shows none, and Firefox those of 8 bits):
 *
 *     <script type="module" src="zaxbriar/examples/images.mjs"></script>
 *
 * An <img> whose file the browser refuses is given the picture that the decoder makes of it, and
 * stays what it is for scripts, styles and screen readers. One whose file the decoder refuses too
 * stays as it is. A file on another server must be sent with leave to read it (CORS), and a policy
 * (CSP) of the page must allow images from `blob:`. */
const worker = new Worker(new URL('images-worker.mjs', import.meta.url), { type: 'module' });
const waiting = new Map();

/* The address that each image has been given here. */
const given = new WeakMap();

/* Gives images a picture, whose memory is free again once all of them have read it. */
async function give(images, blob) {
    const picture = URL.createObjectURL(blob);
    for (const image of images) {
        given.set(image, picture);
        image.removeAttribute('srcset');
        image.src = picture;
    }
    await Promise.allSettled(images.map((image) => image.decode()));
    URL.revokeObjectURL(picture);
}

worker.onmessage = ({ data: { address, blob } }) => {
    // (one that has another file by now keeps it)
    const images = [...waiting.get(address)].filter((image) => image.currentSrc === address);
    waiting.delete(address);
    if (blob) give(images, blob);
};

function repair(image) {
    const address = image.currentSrc;
    const isBroken = image.complete && image.naturalWidth === 0;
    if (!isBroken || !address || given.get(image) === address) return;
    const images = waiting.get(address);
    if (images) {
        images.add(image);
    } else {
        waiting.set(address, new Set([image]));
        worker.postMessage(address);
    }
}

/* Repairs an image that has been loaded, unless the browser can decode it. (Firefox says that an
 * image is loaded where it has read the header alone.) */
function check(image) {
    image.decode().catch(() => repair(image));
}

for (const image of document.images) {
    if (image.complete) check(image);
}
for (const event of ['load', 'error']) {
    const heard = ({ target }) => target instanceof HTMLImageElement && check(target);
    // (such an event doesn't rise from the image, but is seen on its way down)
    document.addEventListener(event, heard, true);
}
