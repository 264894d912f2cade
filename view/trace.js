// A trace, read once from its bytes into rows that fill typed arrays. A row is a line, or a run of lines that are
// equal but for their number (a core that sleeps or is locked, a loop to itself). The text of a row stays in the
// bytes.
//
// The three views are read: `ns`, `all`, and lines with further lines below them that begin with a space, which
// belong to the line above them and are shown as they are.
'use strict';

const CHECKPOINT_ROWS = 256;

function countLines(bytes) {
    let count = 1;
    for (let at = 0; at < bytes.length; at++) if (bytes[at] === LINE_FEED) count++;
    return count;
}

class Trace {
    constructor(name, bytes) {
        this.name = name;
        this.bytes = bytes;
        // The names of its functions, which the page gives it before it is shown.
        this.symbols = null;
        const lines = countLines(bytes);
        this.starts = new Uint32Array(lines);
        // Where a row ends, where its line does if further lines follow, and where its registers and stores begin.
        this.ends = new Uint32Array(lines);
        this.lineEnds = new Uint32Array(lines);
        this.effects = new Uint32Array(lines);
        this.steps = new Uint32Array(lines);
        this.kinds = new Uint8Array(lines);
        this.bands = new Uint8Array(lines);
        this.pcs = new Uint32Array(lines);
        this.ways = new Uint8Array(lines);
        // Of each row the innermost active exception as it ran, and of each exception what follows.
        this.innermost = new Int32Array(lines).fill(-1);
        this.takenRows = [];
        this.takenNumbers = [];
        this.takenLinks = [];
        this.takenTails = [];
        this.takenOuter = [];
        this.takenEnds = [];
        this.checkpoints = [];
        this.count = 0;
        this.lastStep = -1;
        this.unread = 0;
        this.showsAll = false;
        this.hasFurther = false;
    }

    addTaken(row, number, link, isTail, outer) {
        this.takenRows.push(row);
        this.takenNumbers.push(number);
        this.takenLinks.push(link);
        this.takenTails.push(isTail);
        this.takenOuter.push(outer);
        this.takenEnds.push(-1);
        return this.takenRows.length - 1;
    }

    endTaken(taken, row) {
        this.takenEnds[taken] = row;
    }

    takenAt(taken) {
        return {
            row: this.takenRows[taken], number: this.takenNumbers[taken], link: this.takenLinks[taken],
            isTail: this.takenTails[taken], outer: this.takenOuter[taken], end: this.takenEnds[taken],
        };
    }

    // Takes an exception, and all inside it, one level out: it was a tail-chain of the one that it stood in.
    raise(taken, endRow) {
        const before = this.takenOuter[taken];
        this.takenTails[taken] = true;
        this.takenOuter[taken] = this.takenOuter[before];
        this.takenEnds[before] = this.takenRows[taken];
        for (let row = this.takenRows[taken] + 1; row < endRow; row++) {
            const side = this.bands[row] >= LEVELS ? NONSECURE : SECURE;
            this.bands[row] = bandOf(side, Math.max(0, this.bands[row] % LEVELS - 1));
        }
    }

    sideOf(row) {
        return this.bands[row] >= LEVELS ? NONSECURE : SECURE;
    }

    // Whether it goes on from a state: then exceptions may be active that it doesn't show.
    get beginsLater() {
        return this.count > 0 && this.steps[0] > 0;
    }

    // The last step of a row.
    lastOf(row) {
        return row + 1 < this.count ? this.steps[row + 1] - 1 : this.lastStep;
    }

    // The line of a row without its number.
    bodyStart(row) {
        return this.bytes.indexOf(SPACE, this.starts[row]) + 1;
    }

    line(row) {
        return textOf(this.bytes, this.bodyStart(row), this.lineEnds[row]);
    }

    further(row) {
        const end = this.lineEnds[row];
        return end < this.ends[row] ? textOf(this.bytes, end + 1, this.ends[row]) : '';
    }

    // What a line with an instruction says.
    instruction(row) {
        const start = this.bodyStart(row) + (this.showsAll ? 4 : 2);
        const words = textOf(this.bytes, start, this.effects[row]).trim();
        const code = words.slice(9, words.indexOf(' ', 9));
        const listed = [];
        this.eachListed(row, (register, value) => listed.push({ register, value }));
        return { code, text: words.slice(10 + code.length), listed, stores: this.storesOf(row) };
    }

    // The registers as they are known after a row, by going on from the checkpoint before it.
    registersAfter(row) {
        const from = Math.floor(row / CHECKPOINT_ROWS);
        const registers = this.checkpoints[from].copy();
        for (let at = from * CHECKPOINT_ROWS; at <= row; at++) this.follow(registers, at);
        return registers;
    }

    // The side that code is on behind a row, and so whose stack pointer is in use.
    sideAfter(row) {
        if (row + 1 < this.count) return this.sideOf(row + 1);
        if (this.ways[row] === WAY.SG) return SECURE;
        return this.sideOf(row);
    }

    // What a row makes of the registers.
    follow(registers, row) {
        if (this.kinds[row] === KIND.CLOSED) {
            registers.forgetBehindClosed(row);
        } else if (this.kinds[row] === KIND.TAKEN) {
            const taken = this.takenAtRow(row);
            registers.take(this.takenLinks[taken], this.takenTails[taken], row, toldOfEntry(this.further(row)));
        } else if (this.kinds[row] === KIND.RAN) {
            this.followListed(registers, row);
        }
    }

    // Calls `tell(register, value)` for each register that a row lists.
    eachListed(row, tell) {
        eachRegister(this.bytes, this.effects[row], this.lineEnds[row], tell);
    }

    storesOf(row) {
        return storesIn(this.bytes, this.effects[row], this.lineEnds[row]);
    }

    followListed(registers, row) {
        const side = this.sideAfter(row);
        let listsStack = false;
        this.eachListed(row, (register, value) => {
            if (register === SP) listsStack = true;
            registers.set(register === SP ? SP + side : register, value, row, SURE.LISTED);
        });
        const from = this.sideOf(row);
        if (side === from) return;
        if (!listsStack) registers.crossStack(from, side, row);
        else if (this.movesStack(row)) registers.forget(SP + from, row);
    }

    // Whether a row that goes to the other side leaves another stack pointer behind on its own, which no line lists: a
    // load of PC that moves it, a call, which stores its frame, or a return to where PSP is in use.
    movesStack(row) {
        if (this.ways[row] === WAY.CALL || /^(pop|ldm|ldr)/.test(this.instruction(row).text)) return true;
        if (this.ways[row] !== WAY.EXCEPTION_RETURN) return false;
        const parts = this.innermost[row] < 0 ? null : exceptionReturn(this.takenLinks[this.innermost[row]]);
        return !parts || parts.thread && parts.processStack;
    }

    takenAtRow(row) {
        return lastAtMost(this.takenRows, this.takenRows.length, row);
    }

    // Whether two rows of two traces have the same text but for the number.
    sameAs(row, other, otherRow) {
        const from = this.bodyStart(row);
        const otherFrom = other.bodyStart(otherRow);
        return sameBytes(this.bytes, from, this.ends[row], other.bytes, otherFrom, other.ends[otherRow]);
    }
}

function sameBytes(bytes, from, to, others, othersFrom, othersTo) {
    if (to - from !== othersTo - othersFrom) return false;
    for (let at = from, other = othersFrom; at < to; at++, other++) {
        if (bytes[at] !== others[other]) return false;
    }
    return true;
}
