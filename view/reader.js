// Reads a trace's bytes into rows, some at a time, so that the page stays alive while a long one is read.
'use strict';

// What stands before the text of an instruction has at least so many bytes.
const LEAST_HEAD = 16;

// Whether what stands behind the letter of a line is of its form, as far as it is read here.
function isWhole(bytes, kind, at, end) {
    if (kind === undefined || at > end) return false;
    if (kind === KIND.RAN) return end - at >= 16 && bytes[at] === SPACE && bytes[at + 9] === SPACE;
    if (kind !== KIND.TAKEN) return at === end || bytes[at] < SPACE;
    return /^ \d{1,3} [0-9a-f]{8}\s*$/.test(textOf(bytes, at, end));
}

class Reader {
    constructor(trace) {
        this.trace = trace;
        this.at = 0;
        this.levels = new Levels(trace);
        this.registers = new Registers();
        this.lastBody = 0;
        // Of the row before: its code, where its branch goes if a register or its text says so, and whether it
        // returned.
        this.code = 0;
        this.isWide = false;
        this.branchValue = -1;
        this.hasClosed = false;
        this.expected = [NOWHERE];
    }

    // Reads lines for about so many milliseconds. Says whether some are left.
    readFor(milliseconds) {
        const { bytes } = this.trace;
        const until = performance.now() + milliseconds;
        while (this.at < bytes.length) {
            for (let lines = 0; lines < 2000 && this.at < bytes.length; lines++) {
                let end = bytes.indexOf(LINE_FEED, this.at);
                if (end < 0) end = bytes.length;
                this.readLine(this.at, end);
                this.at = end + 1;
            }
            if (performance.now() > until) return true;
        }
        this.finish();
        return false;
    }

    get share() {
        return this.trace.bytes.length ? this.at / this.trace.bytes.length : 1;
    }

    finish() {
        this.close();
    }

    readLine(from, end) {
        const { bytes, trace } = this;
        if (from === end) return;
        if (this.trace.bytes[from] === SPACE) {
            if (trace.count) trace.ends[trace.count - 1] = end;
            trace.hasFurther = true;
            return;
        }
        this.readStep(from, end);
    }

    // A line `NUMBER [SIDE ]KIND..`; one that isn't is counted, and passed over.
    readStep(from, end) {
        const { bytes } = this.trace;
        let at = from;
        let step = 0;
        for (; bytes[at] >= 48 && bytes[at] <= 57; at++) step = step * 10 + bytes[at] - 48;
        const body = at + 1;
        const isAll = (bytes[body] === 115 || bytes[body] === 110) && bytes[body + 1] === SPACE;
        const kindAt = isAll ? body + 2 : body;
        const kind = KIND_OF_LETTER.get(bytes[kindAt]);
        const isLine = at > from && bytes[at] === SPACE && isWhole(bytes, kind, kindAt + 1, end);
        if (!isLine || step <= this.trace.lastStep) {
            this.trace.unread++;
            return;
        }
        this.trace.lastStep = step;
        if (this.isRepeated(kind, body, end)) return;
        this.open(step, kind, isAll ? (bytes[body] === 115 ? SECURE : NONSECURE) : -1, from, end);
        this.lastBody = body;
        this.readParts(kindAt + 2, end);
    }

    // Whether a line is the one of the row before, so that the row stands for it as well.
    isRepeated(kind, body, end) {
        const { bytes, starts, ends, kinds, count } = this.trace;
        if (!count || kind === KIND.TAKEN || kinds[count - 1] !== kind || bytes[end + 1] === SPACE) return false;
        return sameBytes(bytes, body, end, bytes, this.lastBody, ends[count - 1]);
    }

    // Begins a row. Its side is now known, so the one before it can be finished.
    open(step, kind, side, from, end) {
        const { trace } = this;
        const row = trace.count;
        if (side >= 0) trace.showsAll = true;
        trace.starts[row] = from;
        trace.ends[row] = end;
        trace.lineEnds[row] = end;
        trace.effects[row] = kind === KIND.RAN ? effectsFrom(trace.bytes, from + LEAST_HEAD, end) : end;
        trace.steps[row] = step;
        trace.kinds[row] = kind;
        const shown = side >= 0 ? side : kind === KIND.CLOSED ? SECURE : NONSECURE;
        trace.bands[row] = bandOf(shown, 0);
        trace.count = row + 1;
        this.close(shown);
        this.checkpoint();
        if (kind === KIND.CLOSED && !this.hasClosed) this.expected = this.placesBehindCall(row - 1);
        this.hasClosed = this.hasClosed || kind === KIND.CLOSED;
    }

    readParts(at, end) {
        const { trace } = this;
        const row = trace.count - 1;
        const side = trace.sideOf(row);
        this.code = 0;
        if (trace.kinds[row] === KIND.RAN) this.readInstruction(row, at);
        // The step of an entry belongs to the code that was interrupted, or whose return ended in it.
        trace.innermost[row] = this.levels.top;
        trace.bands[row] = trace.kinds[row] === KIND.CLOSED ? bandOf(SECURE, 0) : bandOf(side, this.levels.level);
        if (trace.kinds[row] === KIND.TAKEN) {
            let number = 0;
            for (; trace.bytes[at] !== SPACE; at++) number = number * 10 + trace.bytes[at] - 48;
            this.levels.take(row, side, number, hexAt(trace.bytes, at + 1, 8), this.nextPlaces(row - 1));
            trace.ways[row] = WAY.EXCEPTION;
            this.hasClosed = false;
        }
    }

    readInstruction(row, at) {
        const { bytes, pcs } = this.trace;
        pcs[row] = hexAt(bytes, at, 8);
        this.isWide = bytes[at + 13] !== SPACE;
        this.code = hexAt(bytes, at + 9, this.isWide ? 8 : 4);
        if (this.hasClosed) this.levels.settleBehindClosed(row, pcs[row], this.expected);
        this.hasClosed = false;
        this.levels.settle(row, pcs[row]);
        const register = branchRegister(this.code, this.isWide);
        this.branchValue = -1;
        if (register >= 0) this.branchValue = this.valueBefore(row, register);
    }

    // A register's value as a row finds it, where it is known: the rows before are followed first.
    valueBefore(row, register) {
        const place = register === 14 ? LR : register;
        if (register === 13 || register === 15) return -1;
        return this.registers.isKnown(place) ? this.registers.values[place] : -1;
    }

    // Where code may go on behind a row: at the next address, at the one that its text ends with, or where a register
    // says.
    nextPlaces(behind) {
        const { trace } = this;
        const row = behind >= 0 && trace.kinds[behind] === KIND.SLEPT ? behind - 1 : behind;
        if (row < 0 || trace.kinds[row] !== KIND.RAN) return [NOWHERE];
        const places = [trace.pcs[row] + (this.isWide ? 4 : 2)];
        const end = trace.lineEnds[row];
        if (trace.bytes[end - 10] === 48 && trace.bytes[end - 9] === 120) places.push(hexAt(trace.bytes, end - 8, 8));
        if (this.branchValue >= 0) places.push(this.branchValue & ~1);
        return places;
    }

    // Where code may go on behind steps that aren't shown: Secure code that was called returns to LR.
    placesBehindCall(row) {
        const link = this.registers.isKnown(LR) ? this.registers.values[LR] & ~1 : NOWHERE;
        return [...this.nextPlaces(row), link];
    }

    // Finishes the row before the one that was begun, which is on side `next`: how it left, and the registers.
    close(next = -1) {
        const { trace } = this;
        const row = next < 0 ? trace.count - 1 : trace.count - 2;
        if (row < 0) return;
        const from = trace.sideOf(row);
        if (trace.kinds[row] === KIND.RAN) {
            trace.ways[row] = trace.showsAll || next < 0 || next === from ? this.wayOf(row, next) : WAY.INTO_CLOSED;
        } else if (trace.kinds[row] === KIND.CLOSED && next === NONSECURE) {
            trace.ways[row] = WAY.OUT_OF_CLOSED;
        }
        if (trace.ways[row] === WAY.EXCEPTION_RETURN) this.levels.leave(row);
        trace.follow(this.registers, row);
    }

    // How an instruction leaves. Behind the last row `next` is below 0, and no return is told.
    wayOf(row, next) {
        const from = this.trace.sideOf(row);
        if (isSg(this.code, this.isWide) && from === NONSECURE && next !== NONSECURE) return WAY.SG;
        if (next >= 0 && next !== from) return this.wayAcross(row, from);
        return this.mayBeHandler && this.isReturnWithin(row) ? WAY.EXCEPTION_RETURN : WAY.NONE;
    }

    wayAcross(row, from) {
        if (from === SECURE) {
            if (isBlxns(this.code, this.isWide)) return WAY.CALL;
            if (isBxns(this.code, this.isWide) && !(this.branchValue >= EXC_RETURN_LOW)) return WAY.RETURN;
            return WAY.EXCEPTION_RETURN;
        }
        if (this.branchValue >= EXC_RETURN_LOW) return WAY.EXCEPTION_RETURN;
        if (this.branchValue >= FNC_RETURN_LOW || !this.mayBeHandler) return WAY.FNC_RETURN;
        return this.listsOthers(row) ? WAY.EXCEPTION_RETURN : WAY.FNC_RETURN;
    }

    // Whether a handler may run: one whose entry was seen, or one that was entered before the trace begins.
    get mayBeHandler() {
        return this.levels.level > 0 || this.trace.beginsLater;
    }

    // Whether an instruction of a handler, behind which its side goes on, returned from it: a branch to such a value,
    // or a load of PC behind which more differs than it writes itself. Where no entry was seen, so little is known of
    // registers that more than it writes has to be listed.
    isReturnWithin(row) {
        const isBranch = branchRegister(this.code, this.isWide) >= 0;
        const move = stackMoveOfLoad(this.code, this.isWide);
        if (isBranch && this.branchValue >= 0) return this.branchValue >= EXC_RETURN_LOW;
        if (!this.levels.level) return (isBranch || move >= 0) && this.listsOthers(row);
        return move >= 0 && (this.movesStackOtherwise(row, move) || this.listsOthers(row));
    }

    movesStackOtherwise(row, move) {
        const place = SP + this.trace.sideOf(row);
        let value = -1;
        this.trace.eachListed(row, (register, listed) => { if (register === SP) value = listed; });
        if (value < 0) return move > 0;
        return !this.registers.isKnown(place) || value !== (this.registers.values[place] + move) >>> 0;
    }

    // Whether a branch to a register or a load of PC lists a register that it doesn't write itself.
    listsOthers(row) {
        const own = registersOfBranch(this.code, this.isWide);
        let found = false;
        this.trace.eachListed(row, (register) => {
            const bit = register === LR ? 14 : register;
            if (register !== SP && !(own >>> bit & 1)) found = true;
        });
        return found;
    }

    // Keeps the registers as they are before the row that was begun, at every so many rows.
    checkpoint() {
        const row = this.trace.count - 1;
        if (row >= 0 && row % CHECKPOINT_ROWS === 0 && this.trace.checkpoints.length <= row / CHECKPOINT_ROWS) {
            this.trace.checkpoints.push(this.registers.copy());
        }
    }
}
