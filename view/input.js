// What comes into the page: files that are dropped or picked, what a page has embedded, pointers and keys.
'use strict';

const KEYS = [
    ['←', 'the step before', 'stepBack', ['ArrowLeft', 'k']],
    ['→', 'the next step', 'stepOn', ['ArrowRight', 'j']],
    ['Page Up', 'a page of lines back', 'pageBack', ['PageUp']],
    ['Page Down', 'a page of lines on', 'pageOn', ['PageDown']],
    ['Home', 'the first step', 'first', ['Home']],
    ['End', 'the last step', 'last', ['End']],
    ['c', 'the next crossing or exception', 'wayOn', ['c']],
    ['C', 'the crossing or exception before', 'wayBack', ['C']],
    ['x', 'the next exception', 'exceptionOn', ['x']],
    ['X', 'the exception before', 'exceptionBack', ['X']],
    ['d', 'the next difference of two traces', 'differenceOn', ['d']],
    ['D', 'the difference before', 'differenceBack', ['D']],
    ['/', 'find: a step (884), an address (0x200040), a register (r3, r3=2a), a function or any text', 'find', ['/']],
    ['n', 'the next find', 'findOn', ['n']],
    ['N', 'the find before', 'findBack', ['N']],
    ['+', 'zoom in', 'zoomIn', ['+', '=']],
    ['-', 'zoom out', 'zoomOut', ['-']],
    ['0', 'show the whole run', 'showAll', ['0']],
    ['h', 'move the chart left', 'panBack', ['h']],
    ['l', 'move the chart right', 'panOn', ['l']],
    ['f', 'fold equal lines, or show each', 'fold', ['f']],
    ['t', 'light or dark', 'theme', ['t']],
    ['o', 'open files', 'open', ['o']],
    ['b', 'open a trace beside the first one', 'beside', ['b']],
    ['?', 'these keys', 'help', ['?']],
];
const ACTION_OF_KEY = new Map(KEYS.flatMap(([, , action, names]) => names.map((name) => [name, action])));

function bytesOfBase64(text) {
    const binary = atob(text.trim());
    const bytes = new Uint8Array(binary.length);
    for (let at = 0; at < binary.length; at++) bytes[at] = binary.charCodeAt(at);
    return bytes;
}

async function inflated(bytes) {
    const stream = new Blob([bytes]).stream().pipeThrough(new DecompressionStream('deflate'));
    return new Uint8Array(await new Response(stream).arrayBuffer());
}

// The files that `tools/picture` put into the page. Names of functions may say of which trace they are.
async function embeddedFiles() {
    const files = [];
    for (const script of document.querySelectorAll('script[data-name]')) {
        const { name, trace } = script.dataset;
        const place = trace === undefined ? undefined : Number(trace);
        files.push({ name, place, bytes: await inflated(bytesOfBase64(script.textContent)) });
    }
    return files;
}

async function bytesOfFiles(list) {
    const read = async (file) => ({ name: file.name, bytes: new Uint8Array(await file.arrayBuffer()) });
    return Promise.all([...list].map(read));
}

// What a file is, by how it begins: a sweep, names of functions, or a trace.
function kindOfFile(bytes) {
    const start = textOf(bytes, 0, Math.min(bytes.length, 200));
    if (bytes[0] === 0x7f) return 'elf';
    if (/^step,status,k,what\b/i.test(start)) return 'sweep';
    if (SYMBOL_LINE.test(start.split(/\r?\n/)[0].trim())) return 'symbols';
    return 'trace';
}

function listenToFiles(page) {
    const input = byId('files');
    input.addEventListener('change', async () => {
        await page.take(await bytesOfFiles(input.files), page.isBeside);
        input.value = '';
    });
    document.addEventListener('dragover', (event) => event.preventDefault());
    document.addEventListener('drop', async (event) => {
        event.preventDefault();
        await page.take(await bytesOfFiles(event.dataTransfer.files), false);
    });
}

function listenToKeys(page) {
    document.addEventListener('keydown', (event) => {
        if (event.ctrlKey || event.metaKey || event.altKey || event.target.closest('input, dialog')) return;
        if (event.target.closest('#details') && SCROLLING_KEYS.has(event.key)) return;
        const action = ACTION_OF_KEY.get(event.key) || (event.target.closest('#lines') && LIST_KEYS.get(event.key));
        if (!action || !page.do(action)) return;
        event.preventDefault();
    });
    document.addEventListener('click', (event) => {
        const button = event.target.closest('[data-do]');
        if (button) page.do(button.dataset.do);
    });
    byId('search').addEventListener('submit', (event) => {
        event.preventDefault();
        page.search(byId('words').value, false);
    });
    byId('words').addEventListener('keydown', (event) => {
        if (event.key === 'Escape') byId('chart').focus();
        if (event.key !== 'Enter' || !event.shiftKey) return;
        event.preventDefault();
        page.search(byId('words').value, true);
    });
}

const SCROLLING_KEYS = new Set(['PageUp', 'PageDown', 'Home', 'End']);
const LIST_KEYS = new Map([['ArrowUp', 'stepBack'], ['ArrowDown', 'stepOn']]);

// A press selects, a drag moves the chart, two fingers and the wheel zoom.
function listenToChart(page) {
    const { chart } = page;
    const { canvas } = chart;
    const down = new Map();
    let moved = 0;
    canvas.addEventListener('pointerdown', (event) => {
        canvas.setPointerCapture(event.pointerId);
        down.set(event.pointerId, event.offsetX);
        moved = 0;
    });
    canvas.addEventListener('pointermove', (event) => {
        if (!down.has(event.pointerId)) return;
        const before = down.get(event.pointerId);
        moved += Math.abs(event.offsetX - before);
        if (down.size === 2) pinch(chart, down, event);
        else if (moved > 3) chart.pan(before - event.offsetX);
        down.set(event.pointerId, event.offsetX);
        page.redraw();
    });
    canvas.addEventListener('pointerup', (event) => {
        if (down.size === 1 && moved <= 3) page.select(chart.cellAt(event.offsetX));
        down.delete(event.pointerId);
    });
    canvas.addEventListener('pointercancel', (event) => down.delete(event.pointerId));
    canvas.addEventListener('wheel', (event) => wheelChart(page, event), { passive: false });
}

function pinch(chart, down, event) {
    const [other] = [...down].filter(([pointer]) => pointer !== event.pointerId).map(([, x]) => x);
    const before = Math.abs(down.get(event.pointerId) - other);
    const after = Math.abs(event.offsetX - other);
    if (before > 10 && after > 10) chart.zoom(after / before, (event.offsetX + other) / 2);
}

// Where the page itself scrolls, the wheel alone stays the page's.
function wheelChart(page, event) {
    const isAcross = Math.abs(event.deltaX) > Math.abs(event.deltaY) || event.shiftKey;
    const scrolls = document.documentElement.scrollHeight > window.innerHeight + 1;
    if (!isAcross && scrolls && !event.ctrlKey) return;
    event.preventDefault();
    const unit = event.deltaMode ? 20 : 1;
    if (isAcross) page.chart.pan((event.deltaX || event.deltaY) * unit);
    else page.chart.zoom(Math.exp(-event.deltaY * unit / 300), event.offsetX);
    page.redraw();
}
