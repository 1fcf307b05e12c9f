"""The mask of a task has all CPUs, so what clang made of other masks isn't reached from it, and is left out."""
from . import slots

EQUAL, NOT_EQUAL = (0x15, 0x16), (0x55, 0x56)


def follow_masks(lists, targets, loads, number):
    """Puts the one way in the place of a comparison with what these lists load, and leaves out what isn't reached."""
    known = set()
    for at, instructions in enumerate(lists):
        known = set() if at in targets else known
        one = instructions[-1] if instructions else None
        if at in loads:
            known.add(one.dst)
        elif one and one.code in EQUAL + NOT_EQUAL and one.dst in known:
            is_taken = (one.number == number) == (one.code in EQUAL)
            lists[at] = [slots.Instruction(slots.GOTO, place=one.place, target=one.target)] if is_taken else []
        elif instructions:
            known -= written_by(instructions)
    reached = reached_lists(lists)
    return [instructions if at in reached else [] for at, instructions in enumerate(lists)]


def written_by(instructions):
    """The registers that instructions write; a call writes the first six."""
    written = set()
    for one in instructions:
        written |= set(range(6)) if one.code == slots.CALL else {one.dst}
    return written


def reached_lists(lists):
    reached, todo = set(), [0]
    while todo:
        at = todo.pop()
        if at in reached or at >= len(lists):
            continue
        reached.add(at)
        todo += [one.target for one in lists[at] if one.target is not None]
        todo += [at + 1] * goes_on(lists[at])
    return reached


def goes_on(instructions):
    """Whether the next list may come next. A jump without a target may lead past the last instruction."""
    if not instructions or any(one.is_jump() and one.target is None for one in instructions):
        return True
    last = instructions[-1]
    return last.code != slots.EXIT and (last.target is None or last.code not in (slots.GOTO, slots.LONG_GOTO))
