// The chart: for each trace a Secure and a Non-secure lane over the same axis. Thread mode stands at the line between
// the lanes, and each nested exception one row further out. Far out, each pixel column is filled by how many of its
// cells a row has; near, each run of code is a bar with its name, and each way between sides an arrow with its kind.
'use strict';

const ROW_HEIGHT = 20;
const TITLE_HEIGHT = 18;
const RULER_HEIGHT = 16;
const TICK_ROOM = 80;
const CROSSING_HEIGHT = 26;
const CLOSEST = 160;
const DETAILED_CELLS = 6000;
const COLOURS = [
    'ink', 'quiet', 'line', 'paper', 'secure', 'nonsecure', 'secure-ink', 'nonsecure-ink', 'on-bar', 'mark', 'differ',
];
const TEXT_FONT = '12px system-ui, sans-serif';

class Chart {
    constructor(canvas, page) {
        this.canvas = canvas;
        this.page = page;
        this.context = canvas.getContext('2d');
        this.left = 0;
        this.scale = 1;
        this.panels = [];
        this.colours = {};
    }

    get axis() {
        return this.page.axis;
    }

    // Pixels of the axis, beside the names of the rows.
    get span() {
        return Math.max(1, this.width - this.gutter);
    }

    get gutter() {
        return this.width < 600 ? 58 : 104;
    }

    // Takes size and colours anew, and where each row stands.
    layOut() {
        this.width = this.canvas.clientWidth;
        let top = RULER_HEIGHT;
        this.panels = this.axis.tracks.map((track) => {
            const panel = panelOf(track, top);
            top = panel.end + 6;
            return panel;
        });
        this.height = top;
        this.canvas.style.height = `${top}px`;
        fitCanvas(this.canvas, this.width, top);
        this.takeColours();
        this.clamp();
    }

    takeColours() {
        const style = getComputedStyle(document.documentElement);
        for (const name of COLOURS) this.colours[name] = style.getPropertyValue(`--${name}`).trim();
    }

    clamp() {
        const least = this.span / Math.max(1, this.axis.count);
        this.scale = Math.max(least, Math.min(CLOSEST, this.scale));
        this.left = Math.max(0, Math.min(this.left, this.axis.count - this.span / this.scale));
    }

    showAll() {
        this.left = 0;
        this.scale = 0;
        this.clamp();
    }

    xOf(cell) {
        return this.gutter + (cell - this.left) * this.scale;
    }

    cellAt(x) {
        const cell = Math.floor(this.left + (x - this.gutter) / this.scale);
        return Math.max(0, Math.min(this.axis.count - 1, cell));
    }

    shows(cell) {
        return this.left <= cell && cell < this.left + this.span / this.scale;
    }

    zoom(factor, x) {
        const cell = this.left + (x - this.gutter) / this.scale;
        this.scale *= factor;
        this.clamp();
        this.left = cell - (x - this.gutter) / this.scale;
        this.clamp();
    }

    pan(pixels) {
        this.left += pixels / this.scale;
        this.clamp();
    }

    // Moves as little as puts a cell into view, with some room on both sides.
    reveal(cell) {
        const cells = this.span / this.scale;
        const room = Math.min(cells / 5, 8);
        if (cell < this.left + room) this.left = cell - Math.max(room, cells / 3);
        else if (cell + 1 > this.left + cells - room) this.left = cell + 1 - cells + Math.max(room, cells / 3);
        this.clamp();
    }

    draw() {
        const { context } = this;
        context.fillStyle = this.colours.paper;
        context.fillRect(0, 0, this.width, this.height);
        if (!this.axis.count) return;
        const from = Math.max(0, Math.floor(this.left));
        const to = Math.min(this.axis.count, Math.ceil(this.left + this.span / this.scale));
        context.save();
        context.beginPath();
        context.rect(this.gutter, 0, this.span, this.height);
        context.clip();
        this.drawMarks();
        this.drawRuler();
        for (const panel of this.panels) {
            if (to - from <= DETAILED_CELLS) drawNear(this, panel, from, to);
            else drawFar(this, panel);
        }
        this.drawSelection();
        context.restore();
        for (const panel of this.panels) this.drawNames(panel);
    }

    // Where the traces differ first.
    drawMarks() {
        const { first } = this.page.comparison;
        if (first < 0) return;
        const x = this.xOf(first);
        this.context.fillStyle = this.colours.differ;
        this.context.fillRect(x, 0, Math.max(2, Math.min(this.scale, 3)), this.height);
        this.context.font = TEXT_FONT;
        this.context.textBaseline = 'alphabetic';
        this.context.fillText('≠ first difference', x + 6, this.panels[0].top + 11);
    }

    // The numbers of steps, above all. Cells of folded steps stand for more than one, so these needn't be round.
    drawRuler() {
        const { context } = this;
        context.font = TEXT_FONT;
        context.textAlign = 'left';
        context.textBaseline = 'middle';
        const cells = Math.max(1, roundStep(TICK_ROOM / this.scale));
        const last = Math.min(this.axis.count - 1, this.left + this.span / this.scale);
        for (let cell = Math.ceil(this.left / cells) * cells; cell <= last; cell += cells) {
            const x = this.xOf(cell);
            context.fillStyle = this.colours.line;
            context.fillRect(x, 0, 1, this.height);
            context.fillStyle = this.colours.quiet;
            context.fillText(this.axis.starts[cell].toLocaleString('en'), x + 4, RULER_HEIGHT / 2);
        }
    }

    drawSelection() {
        const { context } = this;
        const x = this.xOf(this.page.cell);
        const width = Math.max(3, this.scale);
        context.strokeStyle = this.colours.mark;
        context.lineWidth = 2;
        context.strokeRect(x - (this.scale < 3 ? 1 : 0), 1, width, this.height - 2);
    }

    drawNames(panel) {
        const { context, colours } = this;
        const isNarrow = this.gutter < 80;
        context.textBaseline = 'middle';
        context.textAlign = 'left';
        context.font = `bold ${TEXT_FONT}`;
        context.fillStyle = colours.ink;
        if (this.panels.length > 1) {
            context.fillText(clip(context, panel.track.trace.name, this.gutter - 8), 4, panel.top + 8);
        }
        for (const row of panel.rows) {
            context.font = row.level ? TEXT_FONT : `bold ${TEXT_FONT}`;
            context.fillStyle = row.side === SECURE ? colours['secure-ink'] : colours['nonsecure-ink'];
            const side = isNarrow ? ['S', 'NS'][row.side] : SIDE_NAMES[row.side];
            const name = row.level ? `${isNarrow ? '' : 'handler '}${isNarrow ? 'h' : ''}${row.level}` : side;
            context.fillText(name, row.level ? 18 : 4, row.y + ROW_HEIGHT / 2);
        }
    }
}

// The least of 1, 2, 5, 10, 20 and so on that isn't below a number.
function roundStep(least) {
    const power = 10 ** Math.floor(Math.log10(Math.max(1, least)));
    return [1, 2, 5, 10].map((factor) => factor * power).find((step) => step >= least);
}

// Where the rows of one trace stand: levels of the Secure side upwards from the line between the sides, levels of the
// Non-secure side downwards.
function panelOf(track, top) {
    const depth = (side) => track.used.reduce((most, band) => (
        (band >= LEVELS ? NONSECURE : SECURE) === side ? Math.max(most, band % LEVELS) : most), 0);
    const rows = [];
    let y = top + TITLE_HEIGHT;
    for (let level = depth(SECURE); level >= 0; level--, y += ROW_HEIGHT) rows.push({ side: SECURE, level, y });
    y += CROSSING_HEIGHT;
    for (let level = 0; level <= depth(NONSECURE); level++, y += ROW_HEIGHT) rows.push({ side: NONSECURE, level, y });
    const yOfBand = new Float64Array(256).fill(-1);
    for (const row of rows) yOfBand[bandOf(row.side, row.level)] = row.y;
    return { track, top, rows, yOfBand, end: y };
}

// Gives a canvas as many pixels as the screen has for it.
function fitCanvas(canvas, width, height) {
    const ratio = window.devicePixelRatio || 1;
    canvas.width = Math.round(width * ratio);
    canvas.height = Math.round(height * ratio);
    canvas.getContext('2d').setTransform(ratio, 0, 0, ratio, 0, 0);
}

// As much of a text as is at most so wide, or nothing.
function clip(context, text, width) {
    if (width < 12 || !text) return '';
    if (context.measureText(text).width <= width) return text;
    let length = Math.floor(width / 6);
    while (length > 0 && context.measureText(`${text.slice(0, length)}…`).width > width) length--;
    return length > 1 ? `${text.slice(0, length)}…` : '';
}

// Each pixel column of a row, as strong as its share of the column's cells.
function drawFar(chart, panel) {
    const { context, colours } = chart;
    const { track, yOfBand } = panel;
    const counts = new Uint32Array(256);
    const cellFrom = (x) => Math.max(0, Math.floor(chart.left + (x - chart.gutter) / chart.scale));
    for (let x = chart.gutter; x < chart.width; x++) {
        const from = cellFrom(x);
        const to = Math.min(chart.axis.count, Math.max(from + 1, cellFrom(x + 1)));
        if (from >= chart.axis.count) break;
        track.countInto(counts, from, to);
        for (const band of track.used) {
            if (!counts[band]) continue;
            context.globalAlpha = 0.3 + 0.7 * Math.min(1, counts[band] / (to - from));
            context.fillStyle = band >= LEVELS ? colours.nonsecure : colours.secure;
            context.fillRect(x, yOfBand[band] + 2, 1, ROW_HEIGHT - 4);
        }
    }
    context.globalAlpha = 1;
    drawTicks(chart, panel);
}

// A tick in each pixel column in which code crosses between the sides.
function drawTicks(chart, panel) {
    const { context } = chart;
    const { turns } = panel.track;
    const y = lineBetween(panel);
    context.fillStyle = chart.colours.ink;
    let x = chart.gutter;
    while (x < chart.width) {
        const at = lastAtMost(turns, turns.length, chart.left + (x - chart.gutter) / chart.scale) + 1;
        if (at >= turns.length) return;
        x = Math.max(x, Math.floor(chart.xOf(turns[at])));
        if (x < chart.width) context.fillRect(x, y + 8, 1, CROSSING_HEIGHT - 16);
        x++;
    }
}

function lineBetween(panel) {
    return panel.rows.find((row) => row.side === NONSECURE).y - CROSSING_HEIGHT;
}
