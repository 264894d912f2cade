// What a step is, in words and tables: a plain value that the page shows. Nothing here knows the page.
'use strict';

function plural(count, word) {
    return `${count.toLocaleString('en')} ${word}${count === 1 ? '' : 's'}`;
}

// The exceptions that are active as a row runs, innermost first.
function activeAt(trace, row) {
    const found = [];
    for (let taken = trace.innermost[row]; taken >= 0; taken = trace.takenOuter[taken]) found.push(taken);
    return found;
}

function modeOf(trace, row) {
    const names = activeAt(trace, row).map((taken) => exceptionName(trace.takenNumbers[taken]));
    if (names.length) return `handler of ${names.join(', inside that of ')}`;
    return trace.showsAll && !trace.beginsLater ? 'Thread mode' : 'Thread mode, as far as the trace tells';
}

// A sentence on what happened.
function sentenceOf(trace, row) {
    const side = SIDE_NAMES[trace.sideOf(row)];
    switch (trace.kinds[row]) {
        case KIND.CLOSED: return 'Not shown: the step looked at Secure state.';
        case KIND.SLEPT: return 'The core sleeps: nothing woke it.';
        case KIND.LOCKED: return 'The core is locked.';
        case KIND.TAKEN: return sentenceOfEntry(trace, row, side);
        default: return sentenceOfWay(trace, row, side);
    }
}

function sentenceOfEntry(trace, row, side) {
    const taken = trace.takenAt(trace.takenAtRow(row));
    const parts = exceptionReturn(taken.link);
    const handler = SIDE_NAMES[parts.secureHandler ? SECURE : NONSECURE];
    const how = taken.isTail ? ', by tail-chain: a return ended in this entry' : '';
    return `${side} code is interrupted: exception ${taken.number} (${exceptionName(taken.number)}) is taken, `
        + `and its handler is ${handler}${how}.`;
}

function sentenceOfWay(trace, row, side) {
    const way = trace.ways[row];
    const where = `${side} code runs`;
    if (way === WAY.NONE) return `${where}.`;
    const to = row + 1 < trace.count && trace.sideOf(row + 1) !== trace.sideOf(row)
        ? `, to ${SIDE_NAMES[trace.sideOf(row + 1)]} code` : '';
    return `${where}, and leaves: ${WAY_NAMES[way]}${to}.`;
}

function flagsOf(value) {
    return 'NZCVQ'.split('').map((letter, at) => (value >>> 31 - at & 1 ? letter : letter.toLowerCase())).join(' ');
}

const SURE_NOTES = ['', 'as before, if the entry kept it', 'by the rules of an entry or a crossing', ''];

// All registers after a row: name, value, whether it changed, and since which step it is so.
function registersOf(trace, row) {
    const after = trace.registersAfter(row);
    const list = [];
    for (let register = 0; register < REGISTER_COUNT; register++) {
        const isKnown = after.sure[register] !== SURE.UNKNOWN;
        const since = after.rows[register] < 0 ? -1 : trace.steps[after.rows[register]];
        list.push({
            name: REGISTER_NAMES[register],
            value: isKnown ? hex(after.values[register]) : '',
            isChanged: after.rows[register] === row && after.sure[register] === SURE.LISTED,
            since,
            note: SURE_NOTES[after.sure[register]],
            flags: register === APSR && isKnown ? flagsOf(after.values[register]) : '',
        });
    }
    return list;
}

// The registers that a line lists, with what they were.
function changesOf(trace, row, listed) {
    const before = row ? trace.registersAfter(row - 1) : new Registers();
    const side = trace.sideAfter(row);
    return listed.map(({ register, value }) => {
        const place = register === SP ? SP + side : register;
        const old = before.sure[place] === SURE.UNKNOWN ? '' : hex(before.values[place]);
        const stack = register === SP && side !== trace.sideOf(row) ? ', of the side that the code went to' : '';
        return { name: REGISTER_NAMES[place], before: old, after: hex(value), note: stack };
    });
}

// The bits of EXC_RETURN in words.
function linkOf(link) {
    const parts = exceptionReturn(link);
    const side = (isSecure) => SIDE_NAMES[isSecure ? SECURE : NONSECURE];
    const spsel = parts.processStack ? 1 : 0;
    const isFramed = !parts.defaultStacking || (parts.secureFrame && !parts.secureHandler);
    const meanings = [
        ['S', parts.secureFrame, `the frame is on a ${side(parts.secureFrame)} stack`],
        ['DCRS', parts.defaultStacking, `R4 to R11 are in ${isFramed ? 'the' : 'no'} additional frame`],
        ['Mode', parts.thread, parts.thread ? 'to Thread mode' : 'to a handler'],
        ['SPSEL', parts.processStack, `SPSEL of the ${side(parts.secureHandler)} side was ${spsel}`],
        ['ES', parts.secureHandler, `the handler is ${side(parts.secureHandler)}`],
    ];
    return meanings.map(([name, isOne, meaning]) => ({ name, value: isOne ? '1' : '0', meaning }));
}

function placeOf(trace, row, { code, text }) {
    return { address: hex(trace.pcs[row]), code, text, name: trace.symbols.nameOf(trace.pcs[row]) };
}

// All that the page shows of a row.
function describe(trace, row) {
    const kind = trace.kinds[row];
    const ran = kind === KIND.RAN ? trace.instruction(row) : null;
    const entry = kind === KIND.TAKEN ? trace.takenAt(trace.takenAtRow(row)) : null;
    return {
        step: trace.steps[row],
        last: trace.lastOf(row),
        sentence: sentenceOf(trace, row),
        side: kind === KIND.CLOSED ? '' : SIDE_NAMES[trace.sideOf(row)],
        mode: kind === KIND.CLOSED ? '' : modeOf(trace, row),
        where: ran ? placeOf(trace, row, ran) : null,
        changes: ran ? changesOf(trace, row, ran.listed) : [],
        stores: ran ? ran.stores : [],
        entry: entry ? { ...entry, bits: linkOf(entry.link) } : null,
        frames: framesOf(trace, row),
        registers: registersOf(trace, row),
        further: trace.further(row),
    };
}
