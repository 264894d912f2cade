// Finds steps: by number, address, register, function or text.
'use strict';

const REGISTER_WORDS = new Map([
    ...Array.from({ length: 13 }, (_, number) => [`r${number}`, number]), ['sp', SP], ['lr', LR], ['apsr', APSR],
]);

// What a search asks for: a step to go to, or a test of rows. Nothing where the words are empty.
function readSearch(words, traces) {
    const text = words.trim();
    if (!text) return null;
    if (/^\d{1,7}$/.test(text)) return { step: Number(text) };
    const step = /^step\s+(\d{1,8})$/i.exec(text);
    if (step) return { step: Number(step[1]) };
    const digits = /^(?:0x)?([0-9a-f]{8})$/i.exec(text) || /^0x([0-9a-f]{1,8})$/i.exec(text);
    const address = digits && parseInt(digits[1], 16);
    if (digits) return { what: `address ${hex(address)}`, test: testOfAddress(address) };
    const register = /^([a-z]+\d*)(?:=(?:0x)?([0-9a-f]{1,8}))?$/i.exec(text);
    const number = register && REGISTER_WORDS.get(register[1].toLowerCase());
    if (number !== undefined && number !== null) return { what: text, test: testOfRegister(number, register[2]) };
    const isName = traces.some((trace) => trace.symbols.has(text));
    if (isName) return { what: `function ${text}`, test: testOfFunction(text) };
    return { what: `text "${text}"`, test: testOfText(text) };
}

function testOfAddress(address) {
    return (trace, row) => {
        if (trace.kinds[row] !== KIND.RAN) return false;
        return trace.pcs[row] === address || trace.storesOf(row).some((store) => store.address === address);
    };
}

function testOfRegister(register, digits) {
    const wanted = digits === undefined ? -1 : parseInt(digits, 16);
    return (trace, row) => {
        if (trace.kinds[row] !== KIND.RAN) return false;
        let isFound = false;
        trace.eachListed(row, (listed, value) => {
            if (listed === register && (wanted < 0 || value === wanted)) isFound = true;
        });
        return isFound;
    };
}

// A row that comes into a function from elsewhere.
function testOfFunction(name) {
    const isIn = ({ kinds, pcs, symbols }, row) => row >= 0 && kinds[row] === KIND.RAN
        && symbols.name(symbols.at(pcs[row])) === name;
    return (trace, row) => isIn(trace, row) && !isIn(trace, row - 1);
}

// Bytes are compared, so that a long trace isn't made into text. Letters count as small ones.
function testOfText(text) {
    const wanted = new TextEncoder().encode(text.toLowerCase());
    return (trace, row) => holds(trace.bytes, trace.bodyStart(row), trace.ends[row], wanted);
}

const SMALL_LETTER = new Uint8Array(256).map((_, byte) => (byte >= 65 && byte <= 90 ? byte + 32 : byte));

function holds(bytes, from, to, wanted) {
    for (let at = from; at + wanted.length <= to; at++) {
        let same = 0;
        while (same < wanted.length && SMALL_LETTER[bytes[at + same]] === wanted[same]) same++;
        if (same === wanted.length) return true;
    }
    return false;
}

// The next cell behind `cell`, or before it backwards, in which a row of a trace passes the test; -1 where none does.
function findCell(axis, cell, isBackwards, test) {
    const move = isBackwards ? -1 : 1;
    for (let at = cell + move; at >= 0 && at < axis.count; at += move) {
        if (axis.tracks.some((track) => isNewRow(track, at) && test(track.trace, track.rows[at]))) return at;
    }
    return -1;
}

// Whether a cell is the first one of its row.
function isNewRow(track, cell) {
    return track.rows[cell] !== NO_ROW && (!cell || track.rows[cell - 1] !== track.rows[cell]);
}
