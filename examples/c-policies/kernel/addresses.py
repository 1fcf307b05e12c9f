"""Which registers of a callback hold the address of a variable, as far back as only one way leads."""
from . import slots
from .globals import holds_variables


def variable_addresses(read):
    """Before each instruction, for each such register its symbol and a distance from it."""
    targets = {one.target for one, _ in read if one.target is not None}
    before, known = [], {}
    for at, (one, symbol) in enumerate(read):
        known = {} if at in targets else dict(known)
        before.append(known)
        known = known_after(one, symbol, known)
    return before


def known_after(one, symbol, known):
    known = dict(known)
    if one.code == slots.CALL:
        return {register: place for register, place in known.items() if register > 5}
    if one.code & 7 in (2, 3, 5, 6):
        return known
    source = known.get(one.src) if one.code == 0xbf and one.offset == 0 else None
    known.pop(one.dst, None)
    if one.code == slots.WIDE and symbol and symbol.section and holds_variables(symbol.section):
        known[one.dst] = symbol, one.number
    elif source:
        known[one.dst] = source
    return known
