// The list of lines around the step that is shown. There are only as many elements as are seen, whatever a trace's
// length.
'use strict';

const LINE_HEIGHT = 22;
const SIDE_BY_SIDE = 1000;

class Lines {
    constructor(container, page) {
        this.container = container;
        this.page = page;
        this.top = 0;
        this.dragged = 0;
        container.addEventListener('wheel', (event) => this.wheel(event), { passive: false });
        container.addEventListener('click', (event) => this.click(event));
        followDrag(container, (pixels) => this.scroll(pixels));
    }

    // Whether the lines of two traces stand below each other, as they don't fit side by side.
    get isStacked() {
        return this.page.axis.tracks.length > 1 && this.container.clientWidth < SIDE_BY_SIDE;
    }

    get lineHeight() {
        return this.isStacked ? 2 * LINE_HEIGHT - 2 : LINE_HEIGHT;
    }

    get capacity() {
        return Math.max(3, Math.floor(this.container.clientHeight / this.lineHeight));
    }

    reveal(cell) {
        const room = Math.min(3, Math.floor(this.capacity / 3));
        if (cell < this.top + room) this.top = cell - room;
        if (cell >= this.top + this.capacity - room) this.top = cell - this.capacity + room + 1;
        this.clamp();
    }

    clamp() {
        this.top = Math.max(0, Math.min(this.top, this.page.axis.count - this.capacity));
    }

    scroll(pixels) {
        this.dragged += pixels;
        const lines = Math.trunc(this.dragged / this.lineHeight);
        if (!lines) return;
        this.dragged -= lines * this.lineHeight;
        this.top += lines;
        this.clamp();
        this.draw();
    }

    wheel(event) {
        event.preventDefault();
        this.scroll(event.deltaMode ? event.deltaY * this.lineHeight : event.deltaY);
    }

    click(event) {
        const line = event.target.closest('[data-cell]');
        if (line) this.page.select(Number(line.dataset.cell));
    }

    draw() {
        const { axis } = this.page;
        const lines = [];
        const end = Math.min(axis.count, this.top + this.capacity);
        for (let cell = this.top; cell < end; cell++) lines.push(this.line(cell));
        this.container.style.setProperty('--line-height', `${this.lineHeight}px`);
        this.container.classList.toggle('stacked', this.isStacked);
        this.container.replaceChildren(...lines);
        this.container.setAttribute('aria-activedescendant', `line-${this.page.cell}`);
    }

    line(cell) {
        const { page } = this;
        const { axis } = page;
        const isDifferent = page.comparison.differs(cell);
        const count = axis.lastOf(cell) - axis.starts[cell] + 1;
        const step = element('span', { class: 'step' }, String(axis.starts[cell]),
            axis.isFolded && count > 1 ? element('small', {}, ` ×${count.toLocaleString('en')}`) : null);
        const mark = axis.tracks.length > 1 ? element('span', { class: 'mark' }, isDifferent ? '≠' : '') : null;
        const texts = axis.tracks.map((track) => this.text(track, cell));
        return element('div', {
            role: 'option', id: `line-${cell}`, 'data-cell': cell, 'aria-selected': String(cell === page.cell),
            'aria-posinset': cell + 1, 'aria-setsize': axis.count, class: isDifferent ? 'line differs' : 'line',
        }, step, mark, element('span', { class: 'texts' }, ...texts));
    }

    text(track, cell) {
        const { trace } = track;
        const row = track.rows[cell];
        if (row === undefined || row === NO_ROW) return element('span', { class: 'text' }, 'no line');
        const side = trace.sideOf(row) === SECURE ? 'secure' : 'nonsecure';
        const badge = element('span', { class: `badge ${side}` }, side === 'secure' ? 'S' : 'N');
        const name = this.nameOf(track, cell);
        const isNew = cell === this.top || name !== this.nameOf(track, cell - 1);
        return element('span', { class: 'text' }, badge, ...lineParts(trace, row),
            isNew && name ? element('span', { class: 'symbol' }, name) : null);
    }

    // The function of a cell's instruction; it is told where it begins.
    nameOf(track, cell) {
        const row = track.rows[cell];
        if (row === undefined || row === NO_ROW || track.trace.kinds[row] !== KIND.RAN) return '';
        const { symbols, pcs } = track.trace;
        return symbols.name(symbols.at(pcs[row]));
    }
}

function lineParts(trace, row) {
    if (trace.kinds[row] === KIND.TAKEN) {
        const taken = trace.takenAt(trace.takenAtRow(row));
        const name = `exception ${taken.number}, ${exceptionName(taken.number)}`;
        return [element('b', {}, name), ` LR ${hex(taken.link)} `, faultOf(trace, row)];
    }
    if (trace.kinds[row] !== KIND.RAN) {
        return [element('i', {}, KIND_LABELS[trace.kinds[row]]), ' ', faultOf(trace, row)];
    }
    const { text, listed, stores } = trace.instruction(row);
    const nameOf = (register) => (register === SP ? 'sp' : REGISTER_NAMES[register]);
    const changes = listed.map(({ register, value }) => `${nameOf(register)}=${hex(value)}`);
    const written = stores.map(({ address, size, value }) => `[${hex(address)}].${size}=${hex(value)}`);
    const effects = [...changes, ...written].join(' ');
    const words = `${hex(trace.pcs[row])} ${text} `;
    return effects ? [words, element('span', { class: 'effects' }, `${effects} `)] : [words];
}

// The first fault that a row's further lines have, as those of the view `full`.
function faultOf(trace, row) {
    const found = /^ +(fault .+)$/m.exec(trace.further(row));
    return found ? element('span', { class: 'effects' }, found[1]) : null;
}

// Tells `move` the vertical pixels of a drag by touch or pen; a mouse has its wheel.
function followDrag(container, move) {
    let y = 0;
    container.addEventListener('pointerdown', (event) => { y = event.clientY; });
    container.addEventListener('pointermove', (event) => {
        if (event.pointerType === 'mouse' || !event.pressure) return;
        move(y - event.clientY);
        y = event.clientY;
    });
}
