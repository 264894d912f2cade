"""What the words of `tzrun pair` mean: the kinds of crossings, and of each difference its meaning, its usual cause, its
cure, and what writes it.
"""

import collections
import re

KINDS = {
    "return": "a return (bxns)",
    "call": "a call of Non-secure code (blxns)",
    "excreturn": "a return from a Secure handler",
    "chain": "a Non-secure exception in place of a Secure handler's return",
    "preempt": "a Non-secure exception that interrupts Secure code",
    "refused": "a look at Secure state that the core refused",
    "bxns": "a return (bxns), perhaps from a Secure handler: the trace doesn't tell",
}

# What a difference means, where it comes from as a rule, and its cure.
Told = collections.namedtuple("Told", "meaning cause cure")

# What to do where each secret has an answer of its own.
OWN_ANSWER = (
    "compare images that differ in another caller's key alone; then build both with 0 in its place, which by itself "
    "hides an answer that this caller wasn't to have"
)

TIME = Told(
    "one run comes out of Secure code and the other doesn't: Non-secure code sees when it is back",
    "how many steps Secure code takes depends on the secret: a comparison or a loop that ends early, or a branch",
    "go one way of equally many steps: look at all of it, gather the differences by OR, and decide once at the end",
)
ALONE = {
    "return": TIME,
    "excreturn": TIME,
    "chain": TIME,
    "call": Told(
        "one run calls Non-secure code and the other doesn't: Non-secure code sees that it is called, and when",
        "a call that is made for some secrets alone, or after another number of steps",
        "call Non-secure code at the same step, whatever the secret is, or not at all",
    ),
    "preempt": Told(
        "a Non-secure exception interrupts one run and not the other: Non-secure code sees when its interrupt comes",
        "a mask, or the priority of a Secure handler, that is set for some secrets alone or after another number of "
        "steps; or an interrupt of the Non-secure side that Secure code pends for some secrets alone",
        "set and restore masks, and pend interrupts, at the same steps, whatever the secret is",
    ),
    "refused": Told(
        "the core refuses a step of Non-secure code in one run and not in the other",
        "Non-secure code tried to return to Secure code that hadn't called it, and what happens to stand on top of "
        "the Secure stack decides",
        "seal each Secure stack before Non-secure code runs: two words 0xfef5eda5 on top of it",
    ),
}
SCRATCH = Told(
    "Non-secure code has it at its next instruction",
    "a register that Secure code has worked with isn't cleared. Where it is the answer (R0 to R3), the answer itself "
    "depends on the secret, or Secure code has read for its caller what the caller may not read",
    "C: give the function the attribute cmse_nonsecure_entry and compile it by -mcmse. Assembly: clear R0 to R3 and "
    "R12, as far as they aren't the answer, before bxns. Where it is the answer, compare two secrets that have the "
    f"same one; where each secret has its own, as of a cipher, {OWN_ANSWER}. Read an address "
    "or an index of the caller's once, and look at it before it is used",
)
# Of such a register at a call of Non-secure code.
PASSED = Told(
    SCRATCH.meaning,
    "an argument of the call (R0 to R3) depends on the secret, or a register that Secure code has worked with isn't "
    "cleared before the call",
    "C: call by a type with the attribute cmse_nonsecure_call and compile it by -mcmse. Assembly: clear R0 to R3 and "
    "R12, as far as they aren't arguments, before blxns. Where it is an argument, give the callee nothing that "
    "depends on the secret",
)
KEPT = Told(
    "Non-secure code has it at its next instruction",
    "Secure code has worked with a register of its caller and doesn't give the caller's word back, or it calls or "
    "returns to Non-secure code with a word of its own in it",
    "push what is used of R4 to R11 at the begin and pop it before the return; save and clear them before blxns",
)
WHATS = {
    "way": Told(
        "both runs go to Non-secure code at this step, in different ways: another kind of crossing, another "
        "exception, or another LR of its handler",
        "one run returns where the other calls or is interrupted, or a Secure handler runs in one of them alone",
        "cross at the same step in the same way, whatever the secret is",
    ),
    "lr": Told(
        "LR differs: Non-secure code has it at its next instruction",
        "Secure code goes back by another register than LR, and leaves an address or a word of its own in LR",
        "return by bxns lr; before any other way to Non-secure code clear LR",
    ),
    "apsr": Told(
        "the flags differ, or the IT state or T, which no line shows: Non-secure code branches by them",
        "the flags are those of the last comparison of Secure code",
        "C: the attribute cmse_nonsecure_entry with -mcmse does it. Assembly: msr apsr of a register that has no "
        "secret, behind the last instruction that sets flags",
    ),
    "pc": Told(
        "Non-secure code goes on at another address",
        "the secret chooses the place: a table of functions to call, or a return address that was changed",
        "have one target, and let the secret choose none",
    ),
    "bytes": Told(
        "a byte of Non-secure memory differs",
        "Secure code stores to its caller's memory what depends on the secret, often a struct that is copied whole, or "
        "what it has read for its caller, who may not read it; or the SAU has made memory Non-secure in which a secret "
        "still stands",
        "store field by field what the caller is to have, and nothing else; read an address or an index of the "
        "caller's once, and look at it before it is used; clear memory before it becomes Non-secure. Where the answer "
        f"is stored there and each secret has its own, {OWN_ANSWER}",
    ),
    "sp": Told(
        "MSP_NS or PSP_NS differs",
        "Secure code writes a stack pointer of the Non-secure side, as when it switches tasks",
        "write the one that the Non-secure side had, or one that doesn't depend on the secret",
    ),
    "limit": Told(
        "MSPLIM_NS or PSPLIM_NS differs",
        "Secure code writes a stack limit of the Non-secure side",
        "write the one that the Non-secure side had, or one that doesn't depend on the secret",
    ),
    "control": Told(
        "CONTROL_NS differs: the privilege of Non-secure code, or its stack",
        "Secure code writes CONTROL_NS",
        "write the one that the Non-secure side had, or one that doesn't depend on the secret",
    ),
    "mask": Told(
        "PRIMASK, BASEPRI or FAULTMASK of a side differs: Non-secure code sees which of its interrupts come",
        "a way out that leaves a mask set, or that restores it from a variable which has something else by then",
        "keep the mask's old value in a variable or register of its own, and restore it on one way out (mrs at the "
        "begin, msr at the end); or don't mask at all",
    ),
    "sau": Told(
        "the SAU differs: which memory is Non-secure",
        "Secure code opens or closes a region depending on the secret, or leaves SAU_RNR at another number",
        "set the SAU up once, before Non-secure code runs",
    ),
    "mpu": Told(
        "the MPU of the Non-secure side differs",
        "Secure code writes MPU_NS (0xe002ed90 and on) depending on the secret",
        "leave it to the Non-secure side, or write the same, whatever the secret is",
    ),
    "vtor": Told(
        "VTOR_NS differs: where the Non-secure vector table is",
        "Secure code writes 0xe002ed08 depending on the secret",
        "write it once, before Non-secure code runs",
    ),
    "ccr": Told(
        "CCR of the Non-secure side differs",
        "Secure code writes 0xe002ed14 depending on the secret",
        "write it once, before Non-secure code runs",
    ),
    "fault": Told(
        "a fault register that Non-secure code can read differs",
        "a fault in Secure code while AIRCR.BFHFNMINS is 1, which gives BusFault and HardFault to the Non-secure "
        "side; or Secure code writes the fault registers of the Non-secure side",
        "leave BFHFNMINS 0; look at an address before it is used, so that Secure code doesn't fault",
    ),
    "exceptions": Told(
        "an exception differs: pending, active, enabled, its priority or its side",
        "Secure code pends, enables or disables an interrupt, or changes a priority, depending on the secret",
        "do it at the same step whatever the secret is, or before Non-secure code runs",
    ),
    "systick": Told(
        "a SysTick differs: whether it counts, or how far it is",
        "Secure code starts, stops or sets a timer depending on the secret, or reads SYST_CSR, which clears COUNTFLAG",
        "write and read timers at the same steps, whatever the secret is",
    ),
    "sleep": Told(
        "the exclusive monitor, the event flag or the sleep differs: Non-secure code sees it by strex and by wfe",
        "an ldrex, sev or wfe of Secure code that depends on the secret, and no clrex behind it",
        "clrex on each way out; sev and wfe at the same steps, whatever the secret is",
    ),
    "mover": Told(
        "the Non-secure channel of the mover differs: Non-secure code reads its registers, and sees what it moves",
        "Secure code writes that channel (0xe002ec00 and on) depending on the secret, or runs another number of steps, in "
        "which the channel moves on",
        "leave that channel to the Non-secure side; take the same number of steps, whatever the secret is",
    ),
}
# Of a byte that differs where an interrupt comes between.
INTERRUPTED = Told(
    WHATS["bytes"].meaning,
    "Secure code stores to its caller's memory what depends on the secret, and means to clear or overwrite it later. "
    "The interrupt comes before that",
    "work in Secure memory, on the stack, and store to the caller's memory once it is decided what the caller is to "
    "have",
)
# Of a byte that no store of the runs tells, on a board with a mover.
MOVED = Told(
    WHATS["bytes"].meaning,
    "a word that depends on the secret stands in Non-secure memory for some steps, and the Non-secure channel of the "
    "mover has moved it on meanwhile, masks or not. Or the Secure channel moves such a word there",
    "work in Secure memory, and store to the caller's memory once it is decided what the caller is to have; have the "
    "Secure channel move that alone",
)
MASKS = r" cpsi[de] | msr (primask|basepri|basepri_max|faultmask)(_ns)?,"
# What writes a part of the public state: instructions of Secure code, and addresses of its stores.
WRITERS = {
    "alone preempt": MASKS,
    "sp": r" msr (msp|psp|sp)_ns,",
    "limit": r" msr (msp|psp)lim_ns,",
    "control": r" msr control_ns,",
    "mask": MASKS,
    "sau": r" \[e000ed[de]",
    "mpu": r" \[e002ed[9abc]",
    "vtor": r" \[e002ed0[89ab]",
    "ccr": r" \[e002ed1[4567]",
    "fault": r" \[e00[02]ed(2[89a-f]|3[4-9ab])| X [3-6] ",
    "exceptions": r" \[e00[02](e[1-7]|ed0[4-7c-f]|ed(1[89a-f]|2[0-7])|ef00)| X ",
    "systick": r" \[e00[02]e01",
    "mover": r" \[e002ec0",
    "sleep": r" (ldrex|ldaex|strex|stlex)[bh]? | clrex| sev| wf[ei]| X ",
}


def told_of(what, kinds=()):
    """What there is to tell of a difference, at crossings of these kinds."""
    first, *more = what.split()
    if first == "bytes" and "preempt" in kinds:
        return INTERRUPTED
    if first == "alone":
        return ALONE.get(more[0] if more else "", TIME)
    if first in WHATS:
        return WHATS[first]
    if re.fullmatch(r"r([4-9]|1[01])", first):
        return KEPT
    return PASSED if "call" in kinds else SCRATCH
