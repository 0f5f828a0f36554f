/* Draws JPEG files into canvases of a page while they arrive:
 *
 *     <canvas data-jpeg="photo.jpg" role="img" aria-label="a harbour"></canvas>
 *     <script type="module" src="zaxbriar/examples/canvases.mjs"></script>
 *
 * A canvas gets the size of the picture. One whose file the decoder refuses stays as it is, and of
 * a damaged file the part before its fault is shown. A file on another server must be sent with
 * leave to read it (CORS). */
const worker = new Worker(new URL('canvases-worker.mjs', import.meta.url), { type: 'module' });
const canvases = [...document.querySelectorAll('canvas[data-jpeg]')];

worker.onmessage = ({ data: { index, bitmap } }) => {
    const canvas = canvases[index];
    canvas.width = bitmap.width;
    canvas.height = bitmap.height;
    canvas.getContext('bitmaprenderer').transferFromImageBitmap(bitmap);
};
for (const [index, { dataset }] of canvases.entries()) {
    worker.postMessage({ index, address: new URL(dataset.jpeg, document.baseURI).href });
}
