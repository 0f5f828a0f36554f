/* The page: a list of files, of which one is shown. Each is decoded by the worker when it is added,
 * and again when it is chosen: pictures that aren't shown aren't kept. The worker also draws them,
 * so that a large one doesn't hold the page. */
import { Decoder } from './decoder.mjs';
import { rowsText } from './words.mjs';

const at = (id) => document.getElementById(id);
const tell = (text) => (at('status').textContent = text);

const decoder = new Decoder(() => {
    document.body.dataset.workers = Number(document.body.dataset.workers ?? 0) + 1;
    return new Worker(new URL('worker.mjs', import.meta.url), { type: 'module' });
});

/* Puts a picture that the worker has drawn into the canvas. */
function put(bitmap) {
    const canvas = at('canvas');
    canvas.width = bitmap.width;
    canvas.height = bitmap.height;
    canvas.getContext('bitmaprenderer').transferFromImageBitmap(bitmap);
}

let zoom = 1;

function setZoom(factor) {
    // (1 / 256 of 65,535 columns fits; a side is seen where it has a pixel)
    zoom = Math.min(Math.max(factor, 1 / 256), 32);
    const canvas = at('canvas');
    canvas.style.width = `${Math.max(canvas.width * zoom, 1)}px`;
    canvas.style.height = `${Math.max(canvas.height * zoom, 1)}px`;
    canvas.classList.toggle('grown', zoom > 1);
    at('scale').textContent = `${Math.round(zoom * 1000) / 10} %`;
}

const ZOOMS = {
    in: () => setZoom(zoom * 2),
    out: () => setZoom(zoom / 2),
    whole: () => setZoom(1),
    fit: () => {
        // (a scroll bar of the size so far would take room)
        setZoom(0);
        const { width, height } = at('canvas');
        const room = [at('view').clientWidth / width, (innerHeight * 0.75) / height];
        setZoom(Math.min(1, ...room));
    },
};
const KEYS = { '+': 'in', '=': 'in', '-': 'out', 1: 'whole', 0: 'fit' };

const COLOURS = { 1: 'grey', 3: 'red, green, blue', 4: 'cyan, magenta, yellow, black' };

/* What the first of three components names by its factors, where the others have 1×1. */
const SAMPLINGS = {
    '1×1': '4:4:4',
    '2×1': '4:2:2',
    '2×2': '4:2:0',
    '1×2': '4:4:0',
    '4×1': '4:1:1',
};

/* The names of metadata. */
const METADATA = {
    exif: 'Exif',
    xmp: 'XMP',
    extendedXmp: 'Extended XMP',
    iptc: 'IPTC',
    icc: 'ICC profile',
    thumbnail: 'Thumbnail',
};

const counted = (bytes) => (bytes ? `${bytes.toLocaleString('en')} bytes` : 'none');

/* A time by the browser's clock, which may be a millisecond off at each end. */
const timeOf = (milliseconds) =>
    milliseconds < 1 ? 'less than 2 ms' : `${Math.round(milliseconds)} ms`;

/* The name of the sampling factors, or else the factors. */
function samplingOf({ sampling }) {
    const factors = sampling.map(({ horizontal, vertical }) => `${horizontal}×${vertical}`);
    const [first, ...others] = factors;
    const isNamed = others.length === 2 && others.every((it) => it === '1×1');
    return (isNamed && SAMPLINGS[first]) || factors.join(', ');
}

/* The orientation that the file has, and the size that the picture has once it is turned. */
function orientationOf({ orientation, width, height }) {
    return orientation > 4 ? `${orientation}: shown as ${height} × ${width}` : `${orientation}`;
}

function factsOf(file, { picture, metadata, milliseconds }) {
    const facts = { File: file.name, Length: counted(file.size) };
    if (picture) {
        facts.Size = `${picture.width} × ${picture.height} pixels`;
        facts.Process = picture.process;
        facts.Colours = COLOURS[picture.components];
        facts.Samples = `${picture.precision} bits`;
        facts.Sampling = samplingOf(picture);
        facts.Orientation = orientationOf(picture);
    }
    for (const [kind, name] of metadata ? Object.entries(METADATA) : []) {
        facts[name] = counted(metadata.bytes[kind]);
    }
    if (milliseconds !== undefined) facts['Decoded in'] = timeOf(milliseconds);
    return facts;
}

function showFacts(facts) {
    const lines = Object.entries(facts).flatMap(([name, value]) => {
        const term = document.createElement('dt');
        const text = document.createElement('dd');
        term.textContent = name;
        text.textContent = value;
        return [term, text];
    });
    at('facts').replaceChildren(...lines);
}

/* What is said of a fault: what it means, what is shown, and its name and text. */
function showFault(reply) {
    at('error').hidden = !reply.fault;
    if (!reply.fault) return at('error').replaceChildren();
    const meaning = document.createElement('strong');
    meaning.textContent = reply.sentence;
    const name = document.createElement('small');
    name.textContent = `${reply.fault}: ${reply.text}`;
    const shown = 'The part before that is shown; the rest is grey.';
    const rest = reply.isPartial ? ` ${shown} ${rowsText(reply)}` : '';
    return at('error').replaceChildren(meaning, `${rest} `, name);
}

/* What is told of a file: shown, shown in part, or refused. */
function statusOf({ fault, sentence, isPartial, isEarly }) {
    if (isEarly) return 'shown while it is read';
    if (!fault) return 'shown';
    return `${isPartial ? 'shown in part' : 'not shown'}: ${sentence}`;
}

/* The state of the page. */
function stateOf({ fault, isPartial, isEarly }) {
    if (isEarly) return 'early';
    if (!fault) return 'shown';
    return isPartial ? 'partial' : 'refused';
}

const entries = [];
let chosen = null;

/* Scrolls the list, and not the page, until an entry of it is seen. */
function reveal({ button }) {
    const list = at('files');
    const [seen, room] = [button, list].map((it) => it.getBoundingClientRect());
    list.scrollTop += Math.max(seen.bottom - room.bottom, 0) - Math.max(room.top - seen.top, 0);
}

/* What the picture's name says of how much of it is there. */
const EXTENTS = { early: ', so far', partial: ', in part', shown: '' };

/* The file of which a picture so far is shown. */
let early = null;

/* Puts an answer on the page. */
function show(entry, reply) {
    const isFirst = early !== entry;
    early = reply.isEarly ? entry : null;
    if (reply.bitmap) put(reply.bitmap);
    showFault(reply);
    showFacts(factsOf(entry.file, reply));
    const { texts = [], thumbnail } = reply.metadata ?? {};
    at('xmp').hidden = texts.length === 0;
    at('xmp').querySelector('pre').textContent = texts.join('\n\n');
    at('thumbnail').hidden = !thumbnail;
    const name = `thumbnail of ${entry.file.name}`;
    at('thumbnail').onclick = () => open([new File([thumbnail], name)]);
    const state = stateOf(reply);
    at('shown').hidden = state === 'refused';
    if (!at('shown').hidden) {
        const { width, height } = at('canvas');
        const label = `${entry.file.name}${EXTENTS[state]}, ${width} by ${height} pixels`;
        at('canvas').setAttribute('aria-label', label);
        // (someone may have zoomed the picture so far)
        if (isFirst) ZOOMS.fit();
    }
    reveal(entry);
    if (isFirst || !reply.isEarly) tell(`${entry.file.name}: ${statusOf(reply)}`);
    document.body.dataset.state = state;
}

async function decodeEntry(entry) {
    const isChosen = () => entry === chosen;
    if (isChosen()) document.body.dataset.state = 'working';
    const showEarly = (reply) => (isChosen() ? show(entry, reply) : reply.bitmap.close());
    const reply = await decoder.decode(entry.file, isChosen, showEarly);
    const size = reply.picture && `${reply.picture.width} × ${reply.picture.height}`;
    const parts = [!reply.fault || reply.isPartial ? size : null, reply.sentence];
    entry.note.textContent = parts.filter(Boolean).join('. ');
    entry.button.classList.toggle('refused', Boolean(reply.fault));
    entry.isDone = true;
    const isRefused = reply.fault && !reply.isPartial;
    if (isChosen() && (reply.bitmap || isRefused)) show(entry, reply);
    // (it was chosen while it was decoded, and hasn't been drawn)
    else if (isChosen()) choose(entry);
    else reply.bitmap?.close();
}

function choose(entry) {
    chosen?.button.removeAttribute('aria-current');
    chosen = entry;
    entry.button.setAttribute('aria-current', 'true');
    if (entry.isDone) decodeEntry(entry);
    decoder.hasten(entry.file);
}

function add(file) {
    const entry = { file, isDone: false };
    entry.button = document.createElement('button');
    entry.button.type = 'button';
    entry.button.textContent = file.name;
    entry.note = document.createElement('small');
    entry.note.textContent = 'waiting';
    entry.button.append(entry.note);
    entry.button.onclick = () => choose(entry);
    const item = document.createElement('li');
    item.append(entry.button);
    at('files').append(item);
    entries.push(entry);
    return entry;
}

function open(files) {
    const added = [...files].map(add);
    if (added.length === 0) return;
    at('work').hidden = false;
    choose(added[0]);
    added.forEach(decodeEntry);
    decoder.hasten(chosen.file);
}

at('file').onchange = (event) => {
    open(event.target.files);
    // (so that the same file can be chosen again)
    event.target.value = '';
};
/* Opens the photograph that lies beside the page, and its first part as a file that is cut. */
async function openSample() {
    try {
        const response = await fetch('rocket.jpg');
        if (!response.ok) throw new Error(`${response.status}`);
        const photograph = await response.blob();
        const part = photograph.slice(0, photograph.size * 0.6);
        open([new File([photograph], 'rocket.jpg'), new File([part], 'rocket, cut.jpg')]);
    } catch (error) {
        tell(`The photograph could not be fetched: ${error.message}`);
    }
}
at('sample').onclick = openSample;
at('zoom').onclick = (event) => ZOOMS[event.target.dataset.zoom]?.();
at('view').onkeydown = (event) => {
    if (event.ctrlKey || event.metaKey || event.altKey || !KEYS[event.key]) return;
    event.preventDefault();
    ZOOMS[KEYS[event.key]]();
};
at('files').onkeydown = (event) => {
    const step = { ArrowDown: 1, ArrowUp: -1 }[event.key];
    const index = entries.findIndex(({ button }) => button === document.activeElement);
    const next = entries[index + (step ?? 0)];
    if (!step || index < 0 || !next) return;
    event.preventDefault();
    next.button.focus();
};
for (const [name, isOver] of [
    ['dragover', true],
    ['dragleave', false],
    ['drop', false],
]) {
    document.addEventListener(name, (event) => {
        event.preventDefault();
        at('drop').classList.toggle('over', isOver);
        if (name === 'drop') open(event.dataTransfer.files);
    });
}
document.addEventListener('paste', (event) => open(event.clipboardData.files));

if ('serviceWorker' in navigator) {
    // (a page that isn't served over HTTPS or from this machine has none)
    navigator.serviceWorker.register('offline.js').catch(() => {});
}
document.body.dataset.state = 'ready';
