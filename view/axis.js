// The axis that all traces of the page share. It is made of cells: a step, or where equal lines are folded as many
// steps as no trace has another line in. What is drawn is drawn over cells, and traces beside each other stay in
// step.
'use strict';

const NO_ROW = 0xffffffff;
const NO_BAND = 0xff;
const BLOCK_CELLS = 256;
const BAND_COUNT = 2 * LEVELS;

class Axis {
    constructor(traces, isFolded) {
        this.isFolded = isFolded;
        this.starts = isFolded ? mergedStarts(traces) : everyStep(traces);
        this.count = this.starts.length;
        this.lastStep = traces.reduce((last, trace) => Math.max(last, trace.lastStep), -1);
        this.tracks = traces.map((trace) => new Track(trace, this));
    }

    cellOfStep(step) {
        return Math.max(0, lastAtMost(this.starts, this.count, step));
    }

    lastOf(cell) {
        return cell + 1 < this.count ? this.starts[cell + 1] - 1 : this.lastStep;
    }
}

function everyStep(traces) {
    const first = traces.reduce((least, trace) => Math.min(least, trace.count ? trace.steps[0] : least), NO_ROW);
    const last = traces.reduce((most, trace) => Math.max(most, trace.lastStep), -1);
    const starts = new Uint32Array(last < 0 ? 0 : last - first + 1);
    for (let at = 0; at < starts.length; at++) starts[at] = first + at;
    return starts;
}

// The steps at which a row of any trace begins, each once.
function mergedStarts(traces) {
    const lists = traces.map((trace) => trace.steps.subarray(0, trace.count));
    if (lists.length === 1) return lists[0];
    // A trace that ends before another has no row from its end on.
    const ends = traces.map((trace) => trace.lastStep + 1)
        .filter((end) => traces.some((trace) => trace.lastStep >= end));
    const all = new Uint32Array(lists.reduce((sum, list) => sum + list.length, 0) + ends.length);
    let at = 0;
    for (const list of [...lists, ends]) {
        all.set(list, at);
        at += list.length;
    }
    all.sort();
    let count = 0;
    for (let place = 0; place < all.length; place++) {
        if (!place || all[place] !== all[place - 1]) all[count++] = all[place];
    }
    return all.subarray(0, count);
}

// A trace on the axis: its row in each cell, where that is drawn, and counts over blocks of cells for what is drawn
// small.
class Track {
    constructor(trace, axis) {
        this.trace = trace;
        this.rows = new Uint32Array(axis.count);
        this.bands = new Uint8Array(axis.count);
        this.place(axis);
        this.used = [];
        this.sums = this.countBlocks();
        this.turns = this.cellsOfWays();
    }

    place(axis) {
        const { trace } = this;
        let row = -1;
        for (let cell = 0; cell < axis.count; cell++) {
            while (row + 1 < trace.count && trace.steps[row + 1] <= axis.starts[cell]) row++;
            const isThere = row >= 0 && axis.starts[cell] <= trace.lastStep;
            this.rows[cell] = isThere ? row : NO_ROW;
            this.bands[cell] = isThere ? trace.bands[row] : NO_BAND;
        }
    }

    // For each band, how many cells of it stand before each block.
    countBlocks() {
        const blocks = Math.ceil(this.bands.length / BLOCK_CELLS);
        const sums = Array.from({ length: BAND_COUNT }, () => new Uint32Array(blocks + 1));
        for (let block = 0; block < blocks; block++) {
            for (let band = 0; band < BAND_COUNT; band++) sums[band][block + 1] = sums[band][block];
            const end = Math.min(this.bands.length, (block + 1) * BLOCK_CELLS);
            for (let cell = block * BLOCK_CELLS; cell < end; cell++) {
                if (this.bands[cell] !== NO_BAND) sums[this.bands[cell]][block + 1]++;
            }
        }
        for (let band = 0; band < BAND_COUNT; band++) if (sums[band][blocks]) this.used.push(band);
        return sums;
    }

    // The cells behind which code leaves its side or level.
    cellsOfWays() {
        const { trace, rows } = this;
        const cells = new Uint32Array(rows.length);
        let count = 0;
        for (let cell = 0; cell < rows.length; cell++) {
            const isLast = cell + 1 >= rows.length || rows[cell + 1] !== rows[cell];
            if (rows[cell] !== NO_ROW && isLast && trace.ways[rows[cell]]) cells[count++] = cell;
        }
        return cells.slice(0, count);
    }

    // How many cells of each band stand in cells `from` to `to`, into `counts`.
    countInto(counts, from, to) {
        counts.fill(0);
        if (to - from < 2 * BLOCK_CELLS) {
            for (let cell = from; cell < to; cell++) counts[this.bands[cell]]++;
            return;
        }
        const first = Math.floor(from / BLOCK_CELLS);
        const last = Math.floor(to / BLOCK_CELLS);
        for (const band of this.used) counts[band] = this.sums[band][last] - this.sums[band][first];
    }

    // The first cell behind `cell` (or before it, backwards) from which code leaves as `accepts` says, or -1.
    findTurn(cell, isBackwards, accepts) {
        const { turns, trace, rows } = this;
        let at = lastAtMost(turns, turns.length, isBackwards ? cell - 1 : cell) + (isBackwards ? 0 : 1);
        for (; at >= 0 && at < turns.length; at += isBackwards ? -1 : 1) {
            if (accepts(trace.ways[rows[turns[at]]])) return turns[at];
        }
        return -1;
    }
}

// Where two traces have another line: whether a cell differs, and the next one that does. Before both have begun nothing
// is compared.
class Comparison {
    constructor(axis) {
        this.axis = axis;
        const [one, other] = axis.tracks;
        this.one = one;
        this.other = other;
        this.isMade = axis.tracks.length === 2 && one.trace.showsAll === other.trace.showsAll;
        this.begin = this.isMade ? axis.cellOfStep(Math.max(one.trace.steps[0], other.trace.steps[0])) : 0;
        this.first = this.isMade ? this.next(-1) : -1;
    }

    differs(cell) {
        if (!this.isMade || cell < this.begin) return false;
        const row = this.one.rows[cell];
        const otherRow = this.other.rows[cell];
        if (row === NO_ROW || otherRow === NO_ROW) return row !== otherRow;
        return !this.one.trace.sameAs(row, this.other.trace, otherRow);
    }

    next(cell) {
        for (let at = cell + 1; at < this.axis.count; at++) if (this.differs(at)) return at;
        return -1;
    }

    before(cell) {
        for (let at = cell - 1; at >= 0; at--) if (this.differs(at)) return at;
        return -1;
    }
}
