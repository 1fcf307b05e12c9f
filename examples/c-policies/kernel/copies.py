"""Copies of pointers that may be NULL. The host's verifier takes a test of one for that one alone, so the copies are made
again where it isn't NULL.

Clang tests one register and goes on with another, or with a cell of the stack, where it holds the same. What is known
here ends at each place to which a jump leads.
"""
from . import slots

POINTER_ANSWERS = (1, 195, 1007, 1011, 1012)	# helpers that answer a pointer or NULL
IS_NULL, IS_NOT_NULL = 0x15, 0x55
LOADS, NUMBER_STORES, STORES, ALU, LONG_ALU = 1, 2, 3, 4, 7


class Copies:
    """Which registers and cells of the stack hold the pointer that a call answered, before each instruction."""

    def __init__(self, instructions):
        targets = {one.target for one in instructions if one.target is not None}
        self.before, known = [], {}
        for at, one in enumerate(instructions):
            known = {} if at in targets else known
            self.before.append(dict(known))
            known = known_after(one, known, at)

    def of_tested(self, one, at):
        """The other places that hold what is tested for NULL there."""
        known = self.before[at]
        if one.code not in (IS_NULL, IS_NOT_NULL) or one.number != 0 or one.target is None or one.dst not in known:
            return []
        return [place for place, call in known.items() if call == known[one.dst] and place != one.dst]


def known_after(one, known, at):
    """What is known after an instruction: registers are numbers, cells of the stack pairs, and each has its call."""
    known, kind = dict(known), one.code & 7
    if one.code == slots.CALL:
        known = {place: call for place, call in known.items() if place not in range(6)}
        if one.src == 0 and one.number in POINTER_ANSWERS:
            known[0] = at
    elif kind in (NUMBER_STORES, STORES):
        store(one, known)
    elif kind in (LOADS, ALU, LONG_ALU) or one.code == slots.WIDE:
        source = ("cell", one.offset) if one.code == 0x79 and one.src == 10 else one.src if one.code == 0xbf and one.offset == 0 else None
        call = known.get(source)
        known.pop(one.dst, None)
        if call is not None:
            known[one.dst] = call
    return known


def store(one, known):
    """A store may change cells of the stack that overlap; one through another pointer than r10 may change all."""
    for place in [place for place in known if isinstance(place, tuple)]:
        if one.dst != 10 or -8 < place[1] - one.offset < 8:
            known.pop(place)
    if one.code == 0x7b and one.dst == 10 and one.src in known:
        known["cell", one.offset] = known[one.src]


def tested(one, places):
    """The test, and where the pointer isn't NULL its copies again."""
    again = [slots.store(10, place[1], one.dst) if isinstance(place, tuple) else slots.move(place, one.dst) for place in places]
    if one.code == IS_NULL:
        return [one, *again]
    past = slots.Instruction(IS_NULL, one.dst, 0, len(again) + 1, 0)
    return [past, *again, slots.Instruction(slots.GOTO, target=one.target)]
