// What the code of a branch tells that its line doesn't: by which ways it may leave a side or a handler.
'use strict';

const SG_CODE = 0xe97fe97f;
// LDR.W PC, [SP], #4
const LOAD_PC_FROM_STACK = 0xf85dfb04;
const FNC_RETURN_LOW = 0xfefffffe;
const EXC_RETURN_LOW = 0xff000000;

function ones(bits) {
    let count = 0;
    for (let rest = bits; rest; rest &= rest - 1) count++;
    return count;
}

// The register that BX, BXNS, BLX or BLXNS branches to, or -1 where the code is none of these.
function branchRegister(code, isWide) {
    return !isWide && (code & 0xff03) === 0x4700 ? code >>> 3 & 15 : -1;
}

const isSg = (code, isWide) => isWide && code === SG_CODE;
const isBxns = (code, isWide) => !isWide && (code & 0xff87) === 0x4704;
const isBlxns = (code, isWide) => !isWide && (code & 0xff87) === 0x4784;

// What a load of PC itself does to SP, in bytes; -1 where the code loads no PC.
function stackMoveOfLoad(code, isWide) {
    if (!isWide) return (code & 0xff00) === 0xbd00 ? 4 * (ones(code & 0xff) + 1) : -1;
    const isMultiple = ((code >>> 16) & 0xffd0) === 0xe890 || ((code >>> 16) & 0xffd0) === 0xe910;
    if (isMultiple && code & 0x8000) return (code >>> 16) === 0xe8bd ? 4 * ones(code & 0xdfff) : 0;
    if (code === LOAD_PC_FROM_STACK) return 4;
    const isLoadOfPc = ((code >>> 16) & 0xff70) === 0xf850 && (code & 0xf000) === 0xf000;
    return isLoadOfPc ? 0 : -1;
}

// Which of R0 to R12 and LR a branch to a register or a load of PC itself may write, as bits: LR by BLX and BLXNS.
function registersOfBranch(code, isWide) {
    if (branchRegister(code, isWide) >= 0) return code & 0x80 ? 1 << 14 : 0;
    if (!isWide) return code & 0xff;
    return ((code >>> 16) & 0xfe00) === 0xe800 ? code & 0x5fff : 0;
}
