// A sweep as a map: one square for each arrival step of the interrupt, in reading order. Its colour and letter are
// the class of what differed there; a pale square with a dot is a step at which both runs agree.
'use strict';

const AGREES = 'agree';
const SWEEP_COLOURS = ['#b3175d', '#2a6fb0', '#c8690e', '#3d8b40', '#7a4fb5', '#8a6d1a', '#0f8a8a', '#a33a2a'];
const COLUMN_COUNTS = [10, 20, 25, 40, 50, 100, 200, 250, 500];
const SQUARE = 11;
const LEAST_SQUARE = 5;
const MANY_ROWS = 20000;
const LABEL_HEIGHT = 14;
const WHERE_SHOWN = 6;

// The rows of a sweep. A field may stand in quotation marks, with those inside doubled.
function readSweep(text) {
    const rows = text.split(/\r?\n/).slice(1).filter((line) => line.trim()).map((line) => {
        const fields = line.match(/("([^"]|"")*"|[^,]*)(,|$)/g).map((field) => (
            field.replace(/,$/, '').replace(/^"(.*)"$/, '$1').replace(/""/g, '"').trim()));
        return { step: Number(fields[0]), status: fields[1], k: fields[2] || '', what: fields[3] || '' };
    });
    return rows.filter((row) => Number.isFinite(row.step)).sort((one, other) => one.step - other.step);
}

function classOf(row) {
    if (row.status === '0') return AGREES;
    return row.status === '1' ? row.what || 'differ' : `status ${row.status}`;
}

// The classes, the most frequent first, each with the rows that it has.
function classesOf(rows) {
    const found = new Map();
    rows.forEach((row, at) => {
        const name = classOf(row);
        if (!found.has(name)) found.set(name, []);
        found.get(name).push(at);
    });
    const names = [...found.keys()].sort((one, other) => found.get(other).length - found.get(one).length);
    const others = names.filter((name) => name !== AGREES);
    return names.map((name) => ({
        name,
        rows: found.get(name),
        letter: name === AGREES ? '·' : String.fromCharCode(65 + others.indexOf(name) % 26),
        colour: name === AGREES ? null : SWEEP_COLOURS[others.indexOf(name) % SWEEP_COLOURS.length],
    }));
}

// Places in a list as ranges of steps: `884 to 909, 1190`.
function rangesOf(rows, places) {
    const ranges = [];
    for (const place of places) {
        const last = ranges[ranges.length - 1];
        if (last && last.to === place - 1) last.to = place;
        else ranges.push({ from: place, to: place });
    }
    return ranges.map(({ from, to }) => ({
        place: from, text: from === to ? String(rows[from].step) : `${rows[from].step} to ${rows[to].step}`,
    }));
}

function sentenceOfArrival(row) {
    if (row.status === '0') return `Arrival at step ${row.step}: both runs agree.`;
    if (row.status !== '1') return `Arrival at step ${row.step}: status ${row.status} ${row.what}`.trim();
    return `Arrival at step ${row.step}: the runs differ at step ${row.k}, in ${row.what}.`;
}

class SweepMap {
    constructor(container, rows) {
        this.rows = rows;
        this.classes = classesOf(rows);
        this.classOfRow = new Map(this.classes.flatMap((kind) => kind.rows.map((row) => [row, kind])));
        this.chosen = Math.max(0, rows.findIndex((row) => row.status !== '0'));
        this.canvas = element('canvas', {
            tabindex: '0', role: 'img', 'aria-label': 'Map of the sweep', 'aria-describedby': 'arrival',
        });
        this.told = element('p', { id: 'arrival', class: 'row', 'aria-live': 'polite' });
        container.replaceChildren(this.told, this.legend(), this.canvas,
            element('p', {}, 'On the map arrow keys move, and c and C go to where the class changes.'));
        this.listen();
        this.layOut();
        this.choose(this.chosen);
    }

    get summary() {
        const agreeing = this.classes.find((kind) => kind.name === AGREES);
        const count = agreeing ? agreeing.rows.length : 0;
        return `${plural(this.rows.length, 'arrival step')}: ${count.toLocaleString('en')} agree`;
    }

    legend() {
        const rows = this.classes.map((kind) => {
            const ranges = rangesOf(this.rows, kind.rows);
            const links = ranges.slice(0, WHERE_SHOWN).flatMap(({ place, text }, at) => [at ? ', ' : '',
                element('button', { type: 'button', class: 'link', onclick: () => this.choose(place) }, text)]);
            if (ranges.length > WHERE_SHOWN) links.push(`, and ${ranges.length - WHERE_SHOWN} more`);
            return [this.swatch(kind), kind.name, kind.rows.length.toLocaleString('en'), element('span', {}, ...links)];
        });
        return table('What differs', ['', 'What', 'Steps', 'Arrival steps'], rows);
    }

    swatch(kind) {
        const made = element('span', { class: 'swatch' }, kind.letter);
        made.style.background = kind.colour || 'var(--line)';
        made.style.color = kind.colour ? '#fff' : 'var(--ink)';
        return made;
    }

    layOut() {
        const width = this.canvas.clientWidth;
        const room = width - 60;
        const least = this.rows.length > MANY_ROWS ? LEAST_SQUARE : SQUARE;
        const fitting = COLUMN_COUNTS.filter((count) => room / count >= least);
        this.columns = Math.max(10, ...fitting.slice(-1));
        this.size = Math.min(18, Math.floor(room / this.columns));
        const height = Math.ceil(this.rows.length / this.columns) * this.size + 4;
        this.canvas.style.height = `${height}px`;
        fitCanvas(this.canvas, width, height);
        this.width = width;
        this.height = height;
        this.draw();
    }

    draw() {
        const context = this.canvas.getContext('2d');
        const style = getComputedStyle(document.documentElement);
        const colour = (name) => style.getPropertyValue(name).trim();
        context.clearRect(0, 0, this.width, this.height);
        context.font = TEXT_FONT;
        context.textBaseline = 'middle';
        const [ink, pale] = [colour('--ink'), colour('--line')];
        this.rows.forEach((row, at) => this.drawSquare(context, at, ink, pale));
        context.strokeStyle = colour('--mark');
        context.lineWidth = 2;
        context.strokeRect(this.xOf(this.chosen) - 1, this.yOf(this.chosen) - 1, this.size + 1, this.size + 1);
    }

    drawSquare(context, at, ink, pale) {
        const kind = this.classOfRow.get(at);
        const [x, y] = [this.xOf(at), this.yOf(at)];
        context.fillStyle = kind.colour || pale;
        context.fillRect(x, y, this.size - 1, this.size - 1);
        context.textAlign = 'right';
        context.fillStyle = ink;
        const labelled = this.columns * Math.ceil(LABEL_HEIGHT / this.size);
        if (at % labelled === 0) context.fillText(String(this.rows[at].step), 52, y + this.size / 2);
        if (!kind.colour || this.size < 11) return;
        context.textAlign = 'center';
        context.fillStyle = '#fff';
        context.fillText(kind.letter, x + (this.size - 1) / 2, y + this.size / 2);
    }

    xOf(at) {
        return 60 + at % this.columns * this.size;
    }

    yOf(at) {
        return 2 + Math.floor(at / this.columns) * this.size;
    }

    rowAt(x, y) {
        const column = Math.floor((x - 60) / this.size);
        const row = Math.floor((y - 2) / this.size) * this.columns + column;
        return column >= 0 && column < this.columns && row >= 0 && row < this.rows.length ? row : -1;
    }

    choose(at) {
        if (!this.rows.length) return;
        this.chosen = Math.max(0, Math.min(this.rows.length - 1, at));
        const row = this.rows[this.chosen];
        this.told.replaceChildren(this.swatch(this.classOfRow.get(this.chosen)), ` ${sentenceOfArrival(row)}`);
        this.draw();
    }

    // The next row of another class.
    nextChange(move) {
        const kind = this.classOfRow.get(this.chosen);
        let at = this.chosen;
        while (at >= 0 && at < this.rows.length && this.classOfRow.get(at) === kind) at += move;
        return at >= 0 && at < this.rows.length ? at : this.chosen;
    }

    listen() {
        const under = (event) => {
            const at = this.rowAt(event.offsetX, event.offsetY);
            if (at >= 0) this.choose(at);
        };
        this.canvas.addEventListener('pointermove', under);
        this.canvas.addEventListener('pointerdown', under);
        this.canvas.addEventListener('keydown', (event) => {
            const moves = {
                ArrowLeft: -1, ArrowRight: 1, ArrowUp: -this.columns, ArrowDown: this.columns,
                Home: -this.rows.length, End: this.rows.length,
            };
            if (event.key in moves) this.choose(this.chosen + moves[event.key]);
            else if (event.key === 'c' || event.key === 'C') this.choose(this.nextChange(event.key === 'c' ? 1 : -1));
            else return;
            event.preventDefault();
        });
    }
}
