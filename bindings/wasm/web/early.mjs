/* The picture of a file while that is read, where that takes long, as from a camera, another
 * machine or a service that fetches it first. */

/* How many milliseconds a file is read before there is a picture of its part, and between two. */
const PATIENCE = 300;

/* How many times as many bytes there are for the next one, where it is decoded anew. */
const GROWTH = 1.25;

/* Reads a file into `jpeg`. A call reads on until a picture is due, with `growth` times as many
 * bytes as there were, and gives all that are there; or null once the file is read. */
export function reading(file, jpeg) {
    const reader = file.stream().getReader();
    let count = 0;
    return async (growth = 1) => {
        const time = performance.now() + PATIENCE;
        const least = growth * count;
        for (;;) {
            const { value, done } = await reader.read();
            if (done) return null;
            jpeg.set(value, count);
            count += value.length;
            if (performance.now() >= time && count >= least) return jpeg.subarray(0, count);
        }
    };
}

/* Whether lines as they are stored have all that a canvas shows, upright. */
const isPlain = ({ process, orientation, format, precision }) =>
    process === 'sequential' && orientation === 1 && precision === 8 && format !== 'cmyk';

/* A canvas of a picture, of which nothing is there yet. */
function canvasOf({ width, height }) {
    const canvas = new OffscreenCanvas(width, height);
    const context = canvas.getContext('2d');
    context.fillStyle = '#808080';
    context.fillRect(0, 0, width, height);
    return { canvas, context };
}

/* Lines of grey or of colours as a strip of a canvas. */
function stripOf(lines, { width, components }) {
    const strip = new ImageData(width, lines.length);
    const data = strip.data.fill(255);
    const [green, blue] = components === 1 ? [0, 0] : [1, 2];
    let to = 0;
    for (const line of lines) {
        for (let from = 0; from < line.length; from += components, to += 4) {
            data[to] = line[from];
            data[to + 1] = line[from + green];
            data[to + 2] = line[from + blue];
        }
    }
    return strip;
}

/* Shows the lines of a picture while its bytes come, each decoded once. Answers false if those that
 * are there bring none, as where each component has a scan of its own. */
async function showLines({ zaxbriar, read, tell }, picture, bytes) {
    let drawing = null;
    let lines = [];
    async function* pieces() {
        for (let count = 0; bytes; bytes = await read()) {
            yield bytes.subarray(count);
            count = bytes.length;
            // (all lines that these bytes bring are there)
            if (rows.lines === 0) break;
            if (lines.length === 0) continue;
            drawing ??= canvasOf(picture);
            const strip = stripOf(lines, picture);
            drawing.context.putImageData(strip, 0, rows.lines - lines.length);
            lines = [];
            tell(bytes, await createImageBitmap(drawing.canvas));
        }
        throw new Error('the lines that remain are not needed');
    }
    const rows = zaxbriar.rows(pieces());
    try {
        for await (const line of rows) lines.push(line);
    } catch {
        // (a file that can't be read says so again)
    }
    return rows.lines > 0;
}

/* Shows a picture while `read` reads its file: `tell` is given bytes that are there, and what they
 * bring as an ImageBitmap. `draw` makes one of what `fed` shows. */
export async function showEarly(calls, fed) {
    const { read, tell, draw } = calls;
    try {
        for (let bytes; (bytes = await read(GROWTH)); ) {
            fed.feed(bytes.subarray(fed.byteLength));
            const picture = fed.info();
            if (!picture) continue;
            if (isPlain(picture) && (await showLines(calls, picture, bytes))) return;
            tell(bytes, draw(fed.show()));
        }
    } catch {
        // (why a file is refused is found once all of it is there)
    } finally {
        fed.free();
    }
}
