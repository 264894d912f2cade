// The register file as a trace tells it: each register's last value, the row that gave it, and how sure it is.
//
// A line lists the registers that differ after its step. Where one changes without being listed (the entry of an
// exception, all that Secure code does in the view `ns`) this says by rule what it is, or that it isn't known.
'use strict';

class Registers {
    constructor() {
        this.values = new Uint32Array(REGISTER_COUNT);
        this.rows = new Int32Array(REGISTER_COUNT).fill(-1);
        this.sure = new Uint8Array(REGISTER_COUNT);
    }

    copy() {
        const other = new Registers();
        other.values.set(this.values);
        other.rows.set(this.rows);
        other.sure.set(this.sure);
        return other;
    }

    set(register, value, row, sure) {
        this.values[register] = value;
        this.rows[register] = row;
        this.sure[register] = sure;
    }

    forget(register, row) {
        this.set(register, 0, row, SURE.UNKNOWN);
    }

    isKnown(register) {
        return this.sure[register] >= SURE.BY_RULE;
    }

    // Secure code that isn't shown may have changed all but the Non-secure stack pointer, which it reaches by name
    // alone.
    forgetBehindClosed(row) {
        for (let register = 0; register < REGISTER_COUNT; register++) {
            if (this.sure[register] !== SURE.UNKNOWN) this.forget(register, row);
        }
    }

    // A register that an entry keeps in one case and changes in another.
    doubt(register, row) {
        if (this.sure[register] === SURE.UNKNOWN) return;
        this.set(register, this.values[register], row, SURE.PERHAPS);
    }

    // The handler's R0 to R12 and flags. A Non-secure handler finds zeros, in R4 to R11 where Secure code was
    // interrupted. A Secure one finds them as they were on a board of v8.0, and zeros on v8.1; which of both the trace
    // may have told. A return that ended in this entry may have loaded R4 to R11 before.
    takeGeneral(parts, isTail, row, told) {
        const isCleared = told ? told.clearsScratch : !parts.secureHandler;
        for (const register of [0, 1, 2, 3, 12, APSR]) {
            if (isCleared) this.set(register, 0, row, SURE.BY_RULE);
            else if (!told) this.doubt(register, row);
        }
        for (let register = 4; register <= 11; register++) {
            if (!parts.secureHandler && parts.secureFrame) this.set(register, 0, row, SURE.BY_RULE);
            else if (isTail) this.doubt(register, row);
        }
    }

    // The stack pointers: frames lie below that of the interrupted code, at a place that the trace may have told, and
    // the handler runs on MSP of its side.
    takeStacks(parts, isTail, row, told) {
        const background = SP + (parts.secureFrame ? SECURE : NONSECURE);
        const handler = SP + (parts.secureHandler ? SECURE : NONSECURE);
        if (isTail) {
            this.forget(background, row);
            this.forget(handler, row);
            return;
        }
        if (told && told.base >= 0) {
            this.set(background, told.base, row, SURE.BY_RULE);
        } else if (this.isKnown(background)) {
            const more = parts.secureFrame && !parts.secureHandler ? 0x28 : 0;
            this.set(background, ((this.values[background] - 0x20 & ~4) - more) >>> 0, row, SURE.BY_RULE);
        }
        if (parts.processStack) this.forget(handler, row);
    }

    // `told` is what lines of the view `full` tell of the entry, or null.
    take(linkValue, isTail, row, told) {
        const parts = exceptionReturn(linkValue);
        this.takeGeneral(parts, isTail, row, told);
        this.takeStacks(parts, isTail, row, told);
        this.set(LR, linkValue, row, SURE.LISTED);
    }

    // Where a step goes to the other side and its line lists no SP, both stack pointers in use have the same value.
    crossStack(from, to, row) {
        if (this.isKnown(SP + from)) this.set(SP + to, this.values[SP + from], row, SURE.BY_RULE);
    }
}

// The place where the parts behind an instruction's text begin, or `to`. No text has an equals sign.
function effectsFrom(bytes, from, to) {
    for (let at = from; at < to; at++) {
        if (bytes[at] !== EQUALS) continue;
        while (bytes[at - 1] !== SPACE) at--;
        return at;
    }
    return to;
}

// Which register stands at `at`: its number, 13 for SP, -1 for a store.
function registerAt(bytes, at) {
    switch (bytes[at]) {
        case 114: {
            const first = bytes[at + 1] - 48;
            return bytes[at + 2] === EQUALS ? first : first * 10 + bytes[at + 2] - 48;
        }
        case 115: return SP;
        case 108: return LR;
        case 97: return APSR;
        default: return -1;
    }
}

// Calls `tell(register, value)` for each register that is listed in bytes `from` to `to`.
function eachRegister(bytes, from, to, tell) {
    for (let at = from; at < to; at++) {
        const register = registerAt(bytes, at);
        while (at < to && bytes[at] !== EQUALS) at++;
        if (register >= 0) tell(register, hexAt(bytes, at + 1, 8));
        while (at < to && bytes[at] !== SPACE) at++;
    }
}

// The stores that are listed in bytes `from` to `to`.
function storesIn(bytes, from, to) {
    const stores = [];
    for (let at = from; at < to; at++) {
        if (bytes[at] === 91) {
            const size = bytes[at + 11] - 48;
            stores.push({ address: hexAt(bytes, at + 1, 8), size, value: hexAt(bytes, at + 13, 8) });
        }
        while (at < to && bytes[at] !== SPACE) at++;
    }
    return stores;
}
