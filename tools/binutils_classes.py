# The classes of tools/compare_binutils: by which rule a text or a code of GNU binutils differs from ours, and
# how many do.
import collections
import re

CONDITIONS = "eq ne cs cc mi pl vs vc hi ls ge lt gt le al".split()
NAMES = {"sl": "r10", "fp": "r11", "ip": "r12"}
BARRIERS = {"sy": 15, "st": 14, "ld": 13, "ish": 11, "ishst": 10, "ishld": 9, "un": 7, "nsh": 7, "unst": 6, "nshst": 6,
            "nshld": 5, "osh": 3, "oshst": 2, "oshld": 1}
HINTS = {"sevl": 5, "pacbti": 13, "bti": 15, "esb": 16, "psb": 17, "tsb": 18, "csdb": 20, "clearbhb": 22, "pac": 29,
         "aut": 45}

# What GNU's text is made ours by: the class, a pattern, and what stands for it, or a function of the match, our
# text and the address.
SPELLINGS = [
    ("mov r8, r8", r"^nop\s+@ \(mov r8, r8\)$", "mov r8, r8"),
    ("comments", r"\s*([@;].*|<UNPREDICTABLE>)$", ""),
    ("registers by other names", r"\b(sl|fp|ip)\b", lambda m, ours, at: NAMES[m[1]]),
    ("suffix .n", r"^(\w+)\.n\b", r"\1"),
    ("ldmia and stmia", r"^(ldm|stm)ia\b", r"\1"),
    ("push.w and pop.w", r"^(stmdb|ldm\.w) sp!, ", lambda m, ours, at: {"s": "push.w ", "l": "pop.w "}[m[1][0]]),
    ("rsb without .w", r"^rsb(s?)(?= )", r"rsb\1.w"),
    ("negs", r"^negs (\w+, \w+)$", r"rsbs \1, #0"),
    ("adr as a sum", r"^(addw?|subw) (\w+), pc, #(\d+)$", lambda m, ours, at: adr_of(m, at)),
    ("targets of fewer digits", r"\b0x([0-9a-f]{1,7})$", lambda m, ours, at: "0x" + m[1].zfill(8)),
    ("bkpt and svc", r"^(bkpt|svc) (?:0x)?(\d\w*)$",
     lambda m, ours, at: f"{m[1]} #{int(m[2], 16 if m[1] == 'bkpt' else 10)}"),
    ("status registers by other names", r"\b(C?PSR)(_f)?\b", lambda m, ours, at: {"PSR": "xpsr"}.get(m[1], "apsr")),
    ("special registers in capitals", r"^(mrs|msr) (.*[A-Z].*)$", lambda m, ours, at: m[0].lower()),
    ("barriers by name", r"^([di][sm]b) (\w+)$", lambda m, ours, at: f"{m[1]} #{BARRIERS.get(m[2])}"),
    ("barriers of their own name", r"^(ssbb|pssbb|dfb)$",
     lambda m, ours, at: "dsb #" + {"ssbb": "0", "pssbb": "4", "dfb": "12"}[m[1]]),
    ("hints", r"^(nop(?:\.w)? \{|dbg #)?(\w+)\b.*$", lambda m, ours, at: hint_of(m, ours)),
    ("preloads", r"^pl[di] .*$", "pld"),
    ("loads by PC as user loads", r"^ldr(\w*)t( \w+, \[pc, )", r"ldr\1.w\2"),
    ("offsets of 0", r"#-0\b", "#0"),
    ("offsets of 0", r"\[(\w+)\]", lambda m, ours, at: f"[{m[1]}, #0]" if f"[{m[1]}, #0]" in ours else m[0]),
    ("operands left out", r"^(\S+) (\w+), (.*)$", lambda m, ours, at: with_operand(m, ours)),
]
# Why the table refuses a code that objdump reads: the class, and what GNU's assembler tells of objdump's text.
REFUSALS = [
    ("SP or PC where neither may stand", r"r1[35] not allowed here|only SUBS PC|constant \(\w+\) after fixup"
     r"|with PC-relative addressing|(shift value over|only LSL shift).* in thumb mode"),
    ("lists of registers", r"in register list|^ARM register expected"),
    ("registers that overlap", r"having the base register in|may not be the same|is UNKNOWN$|overlaps one of"
     r"|rdhi and rdlo must be different"),
    ("fields of bits that don't fit", r"bit-field extends|immediate value out of range"),
    ("special registers of other cores", r"^syntax error -- `m(rs|sr)|^Banked registers"),
    ("cps of no flag, or of a", r"missing CPS flags|'A' form of this instruction"),
    ("instructions of other cores", r"selected processor does not support|bad instruction `v"),
    ("loads and stores of no size", r"bad instruction `\w+\?\?"),
    ("an index with more than a shift", r"^invalid operands"),
]
# The same, where GNU's assembler gives that code too: the class, and objdump's text.
TAKEN = [
    ("blx to Arm code", r"^blx 0x"),
    ("instructions of other cores", r"^setend "),
    ("preloads that write back", r"^pl[di] .*(\]!|\], #)"),
    ("registers that overlap", r"^ldrd (\w+), \1,|^(?:strex|stlex)\w* (\w+), (?:\2,|\w+, \[\2\b)"),
    ("SP or PC where neither may stand", r"^(?:(?:lda|stl|strex|tt)\w*|bl?x(?:ns)?|mov\.w(?= \w+, \w+, )|add(?= pc, pc))"
     r" [^\[]*\b(?:sp|pc)\b"),
]

# Texts of ours that one of the assemblers refuses, with what it tells, and those of which GNU takes another code.
REFUSED_BY_ASM = [("adr.w to an odd address", r"^adr\.w \w+, 0x\w+[13579bdf] A4$")]
REFUSED_BY_GNU = [
    ("pld without operands", r"^pld missing expression"),
    ("hint", r"^hint.* bad instruction"),
    ("movs.w with a shift of low registers", r"^movs\.w r[0-7], r[0-7], .*cannot honor width suffix"),
    ("words read into PC from odd places", r"^ldr\.w pc, \[pc, .*must be 4-byte aligned"),
]
CHOSEN_BY_GNU = [
    ("constants of 3 bits in 8 bits", r"^(adds|subs) (\w+), \2, #[0-7]$"),
    ("an offset of 0 added, not taken away", r"#0(\]!?)?$"),
]


def without_condition(gnu, ours, condition):
    """GNU's text in a block of a condition without it, and with the `s` of ours."""
    found = re.match(r"^(\w+?)%s((?:\.[nw])?)(?= |$)" % condition, gnu)
    mnemonic = ours.split(" ")[0]
    if not found or re.sub(r"\.[nw]$", "", mnemonic) == re.sub(r"\.[nw]$", "", gnu.split(" ")[0]):
        return gnu
    name = found[1] + ("s" if (found[1] + "s", mnemonic) in ((mnemonic, mnemonic), ("negs", "rsbs")) else "")
    return name + found[2] + gnu[found.end():]


def adr_of(match, at):
    """The text of a sum with PC as that of `adr`."""
    offset = int(match[3]) * (-1 if match[1] == "subw" else 1)
    return f"adr{'' if match[1] == 'add' else '.w'} {match[2]}, 0x{(at + 4 & ~3) + offset:08x}"


def hint_of(match, ours):
    """The text of a hint that has another name, or none."""
    if not ours.startswith("hint"):
        return match[0]
    number = HINTS.get(match[2]) if not match[1] else int(match[2]) + (240 if match[1][0] == "d" else 0)
    return f"{ours.split()[0]} #{number}"


def with_operand(match, ours):
    """The text with the register that is written and read, where ours has it and GNU's hasn't."""
    mnemonic, register, rest = match.groups()
    full = (f"{mnemonic} {register}, {register}, {rest}", f"muls {register}, {rest}, {register}")
    return ours if ours in full and mnemonic == ours.split()[0] else match[0]


class Tally:
    """How many differences each class has, with an example, and those of no class."""

    def __init__(self):
        self.counts = collections.Counter()
        self.examples = {}
        self.unknown = []

    def note(self, part, name, example):
        self.counts[part, name] += 1
        self.examples.setdefault((part, name), example)

    def put(self, part, names, example):
        """Puts a difference in the first of the classes, where there is one."""
        if names:
            self.note(part, names[0], example)
        else:
            self.unknown.append(f"{part}: {example}")

    def show(self):
        for (part, name), count in sorted(self.counts.items()):
            print(f"{part}: {name}: {count}: {self.examples[part, name]}")
        for line in self.unknown[:20]:
            print("no class: " + line)
        print(f"differences in classes: {sum(self.counts.values())}, in none: {len(self.unknown)}")
