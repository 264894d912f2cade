// Which code runs at each step: Thread mode, or which exception's handler inside which other one.
//
// A trace says that an exception was taken and with which LR, and it shows the branch of a return; it doesn't say
// which exceptions are active. This follows them, as far as the lines tell: a return that ended in another entry (a
// tail-chain) is known by that entry's LR or number, else by where the code goes on later.
'use strict';

const LEVELS = 8;
const NOWHERE = 0xffffffff;

// A place of the chart: a side and a level of it.
function bandOf(side, level) {
    return side * LEVELS + Math.min(level, LEVELS - 1);
}

// Where code may go on that was left at `expected`: there, or behind an instruction that became the exception.
function goesOn(expected, pc) {
    return expected.some((address) => address !== NOWHERE && pc >= address && pc - address <= 4);
}

class Levels {
    constructor(trace) {
        this.trace = trace;
        // The exceptions that are active, innermost last: `taken` is its number in the trace's list.
        this.active = [];
        this.background = [NOWHERE];
        this.doubtful = -1;
    }

    get level() {
        return this.active.length;
    }

    get top() {
        return this.level ? this.active[this.level - 1].taken : -1;
    }

    // Whether the entry with this LR follows a return that failed or found another exception.
    isTailChain(side, number, parts) {
        if (!this.level) return false;
        if (parts.thread || parts.secureFrame !== (side === SECURE)) return true;
        const top = this.trace.takenAt(this.top);
        return top.number === number && exceptionReturn(top.link).secureHandler === parts.secureHandler;
    }

    // Follows an entry in a row, where code was to go on at one of `expected`.
    take(row, side, number, link, expected) {
        const parts = exceptionReturn(link);
        const isTail = this.isTailChain(side, number, parts);
        let resume = expected;
        if (isTail) {
            do resume = this.end(row).resume; while (parts.thread && this.level);
        }
        const isDoubtful = !isTail && this.level >= 2;
        const taken = this.trace.addTaken(row, number, link, isTail, this.top);
        this.active.push({ taken, resume, isDoubtful });
    }

    // Ends the innermost exception.
    end(row) {
        const left = this.active.pop();
        this.trace.endTaken(left.taken, row);
        return left;
    }

    // Follows a return from the innermost exception.
    leave(row) {
        if (!this.level) return;
        const left = this.end(row);
        this.doubtful = left.isDoubtful ? left.taken : -1;
        this.background = left.resume;
    }

    // Behind a return: where the code goes on elsewhere than where the innermost exception was said to have come, but
    // where the one outside it came, the entry that was taken for a nested one was a tail-chain.
    settle(row, pc) {
        if (this.doubtful < 0) return;
        const taken = this.doubtful;
        this.doubtful = -1;
        const outer = this.active[this.level - 1];
        if (!outer || goesOn(this.background, pc) || !goesOn(outer.resume, pc)) return;
        this.active.pop();
        this.trace.raise(taken, row);
    }

    // In the view `ns`, behind steps that aren't shown: the code that goes on may be that of an outer level.
    settleBehindClosed(row, pc, expected) {
        if (goesOn(expected, pc)) return;
        for (let level = this.level - 1; level >= 0; level--) {
            if (!goesOn(this.active[level].resume, pc)) continue;
            while (this.level > level) this.leave(row);
            this.doubtful = -1;
            return;
        }
        // None is known. A handler that Secure code was interrupted for has returned to it.
        while (this.level && exceptionReturn(this.trace.takenAt(this.top).link).secureFrame) this.leave(row);
        this.doubtful = -1;
    }
}
