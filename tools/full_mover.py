"""The mover: the channels of both sides, as far as stores to their registers tell them."""

from full_lines import digit, Fact, word
from full_machine import NONSECURE, SECURE, plus

SRC, DST, COUNT, CTRL = 0xC00, 0xC04, 0xC08, 0xC0C
GO, DONE, ERROR, PENDS = 1, 2, 4, 8
WRITTEN = 0xFF09
SAU_FIRST, SAU_LAST = 0xDD0, 0xDE3


class Channel:
    """The channel of a side."""

    def __init__(self, side):
        self.side = side
        self.words = {SRC: 0, DST: 0, COUNT: 0, CTRL: 0}

    def write(self, offset, value):
        masks = {SRC: ~3, DST: ~3, COUNT: 0xFFFF, CTRL: WRITTEN}
        self.words[offset] = value & masks[offset] & 0xFFFFFFFF

    def told(self, kind, **fields):
        return Fact(kind, {"side": self.side, **fields})

    def move(self, memory, pend):
        """The lines of the move of a step, which it makes."""
        control, lines, ends = self.words[CTRL], [], 0
        if not control & GO:
            return []
        if not self.words[COUNT]:
            ends = DONE
        else:
            places = {"address": word(self.words[SRC]), "base": word(self.words[DST])}
            allowed = memory.board.allows(self.side, self.words[SRC]) and memory.board.allows(self.side, self.words[DST], True)
            moved = memory.read(self.words[SRC]) if allowed else None
            lines.append(self.told("moved", **places, value=word(moved) if allowed else "ERROR"))
            ends = self.passed(memory, moved) if allowed else ERROR
        if ends:
            self.words[CTRL] = control & ~GO | ends
        if ends == DONE:
            lines.append(self.told("moves done"))
        number = control >> 8 & 0xFF
        if ends and control & PENDS and pend(number, self.side):
            lines.append(self.told("moves pend", number=digit(number)))
        return lines

    def passed(self, memory, moved):
        """A word that is moved; how the channel ends by that."""
        memory.write(self.words[DST], 4, moved)
        for offset in (SRC, DST):
            self.words[offset] = plus(self.words[offset], 4)
        self.words[COUNT] -= 1
        return 0 if self.words[COUNT] else DONE


class Mover:
    """Both channels. They aren't known any more once one moves behind a store to a register of the SAU, which says what is Non-secure."""

    def __init__(self, board):
        self.is_there, self.is_known, self.unit_stays = board.has_mover, True, True
        self.channels = {side: Channel(side) for side in (SECURE, NONSECURE)}

    def write(self, view, offset, value):
        if self.is_there and offset in (SRC, DST, COUNT, CTRL):
            self.channels[view].write(offset, value)
        elif self.is_there and SAU_FIRST <= offset <= SAU_LAST:
            self.unit_stays = False

    def read(self, view, offset):
        """The word of a register; None of one that isn't the mover's, or isn't known."""
        return self.channels[view].words.get(offset) if self.is_known else None

    def moves(self, side, memory, pend):
        """The lines of the moves of a step that begins in the state of a side; None where they aren't known."""
        moving = [self.channels[it] for it in (SECURE, NONSECURE) if side == SECURE or it == NONSECURE]
        if not self.unit_stays and any(it.words[CTRL] & GO for it in moving):
            self.is_known = False
        return [line for it in moving for line in it.move(memory, pend)] if self.is_known else None
