// The frames of a step: with their words as the lines of the view `full` have them; or of an entry worked out by the
// rules, where the trace has no such lines.
'use strict';

const INTEGRITY_SIGNATURE = 0xfefa125b;
const WORKED_OUT = 'The frame, worked out from what the trace tells: it lists no words of frames';
const FRAME_LINE = /^ +(from )?(additional )?frame (\w+) ([0-9a-f]{8}) (.+)$/;
// An entry of the view `full` has one of these, and each frame that was written has a line, too.
const ENTRY_LINE = /^ +(interrupted|tail-chain) /m;
const WORD_NAMES = { lr: 'LR', pc: 'return address', retpsr: 'RETPSR' };

// The frames of a row, each with a caption and its words from the lowest address up. Of an entry whose frame was
// written before it there is none.
function framesOf(trace, row) {
    const further = trace.further(row);
    const told = [['from ', 'that was taken'], ['', 'that was written']]
        .map(([from, what]) => toldFrame(further, from, what)).filter(Boolean);
    if (trace.kinds[row] !== KIND.TAKEN || ENTRY_LINE.test(further)) return told;
    const words = workedOut(trace, row);
    return words ? [{ caption: WORKED_OUT, words }] : [];
}

// What the view `full` tells of an entry for the registers behind it: whether R0 to R3, R12 and the flags are zero, and
// where the frames begin, or -1. Of another view it is null.
function toldOfEntry(further) {
    if (!ENTRY_LINE.test(further)) return null;
    const frame = toldFrame(further, '', '');
    return { clearsScratch: /^ +cleared r0-r/m.test(further), base: frame ? parseInt(frame.words[0].address, 16) : -1 };
}

function toldFrame(further, from, what) {
    const words = [];
    let stack = '';
    for (const line of further.split('\n')) {
        const found = FRAME_LINE.exec(line);
        if (!found || (found[1] || '') !== from) continue;
        const told = toldWords(parseInt(found[4], 16), found[5].split(' '));
        stack = found[3];
        // The additional frame lies below the basic one.
        if (found[2]) words.unshift(...told);
        else words.push(...told);
    }
    return words.length ? { caption: `The frame ${what}, on ${stack}`, words } : null;
}

// Words `r0=00c0ffd1`, or of an additional frame the first two without a name.
function toldWords(base, texts) {
    return texts.map((text, at) => {
        const [value, name] = text.split('=').reverse();
        const what = name ? WORD_NAMES[name] || name.toUpperCase() : at ? 'nothing' : 'integrity signature';
        return { address: hex(base + 4 * at >>> 0), value, what };
    });
}

// The frame of an entry, from what was known before it.
function workedOut(trace, row) {
    const taken = trace.takenAt(trace.takenAtRow(row));
    if (taken.isTail) return null;
    const parts = exceptionReturn(taken.link);
    const before = row ? trace.registersAfter(row - 1) : new Registers();
    const place = SP + (parts.secureFrame ? SECURE : NONSECURE);
    const stack = before.isKnown(place) ? before.values[place] : -1;
    const base = stack < 0 ? -1 : (stack - 0x20 & ~4) >>> 0;
    const words = basicWords(trace, taken, before, stack);
    const hasMore = parts.secureFrame && !parts.secureHandler;
    if (hasMore) words.unshift(...additionalWords(before));
    const first = hasMore ? -0x28 : 0;
    return words.map((word, at) => ({
        address: base < 0 ? '' : hex(base + first + 4 * at), value: word.value, what: word.what,
    }));
}

function wordOf(registers, register, what) {
    const isKnown = registers.sure[register] !== SURE.UNKNOWN;
    return { value: isKnown ? hex(registers.values[register]) : '', what };
}

function additionalWords(before) {
    const words = [
        { value: hex(INTEGRITY_SIGNATURE), what: 'integrity signature' }, { value: '00000000', what: 'nothing' },
    ];
    for (let register = 4; register <= 11; register++) words.push(wordOf(before, register, `R${register}`));
    return words;
}

function basicWords(trace, taken, before, stack) {
    const words = [0, 1, 2, 3, 12].map((register) => wordOf(before, register, `R${register}`));
    words.push(wordOf(before, LR, 'LR'), returnWord(trace, taken), statusWord(trace, taken, before, stack));
    return words;
}

// The return address isn't in the trace, but where the code went on after the return is.
function returnWord(trace, taken) {
    const next = taken.end + 1;
    const isSeen = taken.end >= 0 && next < trace.count && trace.kinds[next] === KIND.RAN
        && trace.ways[taken.end] === WAY.EXCEPTION_RETURN;
    if (!isSeen) return { value: '', what: 'return address: no return is seen' };
    return { value: hex(trace.pcs[next]), what: `return address: where the code went on at step ${trace.steps[next]}` };
}

function statusWord(trace, taken, before, stack) {
    if (!before.isKnown(APSR) || stack < 0) return { value: '', what: 'RETPSR' };
    const number = taken.outer < 0 ? 0 : trace.takenNumbers[taken.outer];
    const value = before.values[APSR] | 1 << 24 | (stack & 4 ? 1 << 9 : 0) | number;
    return { value: hex(value), what: 'RETPSR, if no IT block was interrupted' };
}
