// What every part of the page stands on: bytes of a trace read as numbers, names of registers, kinds and crossings.
// Nothing here knows the page.
'use strict';

const LINE_FEED = 10;
const SPACE = 32;
const EQUALS = 61;

// The kinds of a step, as the letter of its line says.
const KIND = { RAN: 0, TAKEN: 1, SLEPT: 2, LOCKED: 3, CLOSED: 4 };
const KIND_OF_LETTER = new Map([
    [78, KIND.RAN], [88, KIND.TAKEN], [90, KIND.SLEPT], [76, KIND.LOCKED], [83, KIND.CLOSED],
]);

// How a step leaves a side, or a level of nesting.
const WAY = {
    NONE: 0, SG: 1, RETURN: 2, CALL: 3, EXCEPTION: 4, EXCEPTION_RETURN: 5, FNC_RETURN: 6, INTO_CLOSED: 7,
    OUT_OF_CLOSED: 8,
};
const WAY_NAMES = [
    '', 'SG', 'return (BXNS)', 'call (BLXNS)', 'exception', 'exception return', 'FNC_RETURN',
    'into what is not shown', 'out of what is not shown',
];
const WAY_LABELS = ['', 'SG', 'return', 'call', 'exception', 'exc. return', 'FNC_RETURN', 'not shown', 'not shown'];

const SECURE = 0;
const NONSECURE = 1;
const SIDE_NAMES = ['Secure', 'Non-secure'];

// The register file as a trace tells it: the stack pointer in use of each side has a place of its own.
const REGISTER_NAMES = [
    'r0', 'r1', 'r2', 'r3', 'r4', 'r5', 'r6', 'r7', 'r8', 'r9', 'r10', 'r11', 'r12',
    'sp (Secure)', 'sp (Non-secure)', 'lr', 'apsr',
];
const REGISTER_COUNT = REGISTER_NAMES.length;
const SP = 13;
const LR = 15;
const APSR = 16;

// How well a register's value is known.
const SURE = { UNKNOWN: 0, PERHAPS: 1, BY_RULE: 2, LISTED: 3 };

const EXCEPTION_NAMES = new Map([
    [2, 'NMI'], [3, 'HardFault'], [4, 'MemManage'], [5, 'BusFault'], [6, 'UsageFault'], [7, 'SecureFault'],
    [11, 'SVCall'], [14, 'PendSV'], [15, 'SysTick'],
]);

function exceptionName(number) {
    return EXCEPTION_NAMES.get(number) || (number >= 16 ? `interrupt ${number - 16}` : `exception ${number}`);
}

const HEX_VALUE = new Int8Array(256).fill(-1);
for (let digit = 0; digit < 16; digit++) {
    HEX_VALUE['0123456789abcdef'.charCodeAt(digit)] = digit;
    HEX_VALUE['0123456789ABCDEF'.charCodeAt(digit)] = digit;
}

// The number that `count` hexadecimal digits at `at` make. Who calls knows that digits stand there.
function hexAt(bytes, at, count) {
    let value = 0;
    for (let i = 0; i < count; i++) value = (value << 4) | HEX_VALUE[bytes[at + i]];
    return value >>> 0;
}

function hex(value) {
    return (value >>> 0).toString(16).padStart(8, '0');
}

const ASCII = new TextDecoder('utf-8');

function textOf(bytes, from, to) {
    return ASCII.decode(bytes.subarray(from, to));
}

// The last place of an ascending list whose value is at most `value`, or -1.
function lastAtMost(list, count, value) {
    let low = 0;
    let high = count;
    while (low < high) {
        const middle = (low + high) >>> 1;
        if (list[middle] <= value) low = middle + 1;
        else high = middle;
    }
    return low - 1;
}

// EXC_RETURN by its bits.
function exceptionReturn(value) {
    return {
        secureFrame: (value >>> 6 & 1) === 1,
        defaultStacking: (value >>> 5 & 1) === 1,
        thread: (value >>> 3 & 1) === 1,
        processStack: (value >>> 2 & 1) === 1,
        secureHandler: (value & 1) === 1,
    };
}
