"""Timers of a policy: each element of an array map whose value has a struct bpf_timer is one, as long as the policy runs.

The two numbers of a struct bpf_timer are that of the timer, counted from 1, and that of its function, as common.bpf.h
has them. `init` writes the first. The one callback `timer` finds the value by the number, and goes on as its function.
"""
from dataclasses import dataclass

from . import slots

FIRST_FUNCTION = 2	# 0 is a timer before bpf_timer_init, 1 one without a function
NUMBER, FUNCTION = 0, 8	# where these are in a struct bpf_timer


@dataclass
class TimerMap:
    """A map whose elements are timers: its symbol, the number of the first, how many, and where one is in its value."""

    symbol: object
    first: int
    count: int
    offset: int

    def names(self):
        """A name for each of its timers."""
        name = self.symbol.name
        return [name] if self.count == 1 else [f"{name}_{key}" for key in range(self.count)]


def timer_offset(types, number):
    """Where a struct bpf_timer is in what has that type, or None."""
    kind, name, _, members = types.plain(number)
    if name == "bpf_timer":
        return 0
    for _, of, offset in members if kind in (4, 5) else []:
        found = timer_offset(types, of)
        if found is not None:
            return offset + found
    return None


def lookup(policy, shape, key_cell):
    """The element of a map whose key is in a cell of the stack, in r0."""
    number = policy.number_of_map(shape.symbol)
    lines = [slots.move(2, 10), slots.add_number(2, -key_cell), slots.wide_number(1, number, 5), slots.call(1)]
    return [*lines, slots.skip_if_not_zero(0, 1), slots.Instruction(slots.EXIT)]


def numbers_of_timers(policy, key_cell):
    """What writes the number of each timer into its value."""
    for shape in policy.timers:
        for key in range(shape.count):
            yield slots.Instruction(0x62, 10, 0, -key_cell, key)
            yield from lookup(policy, shape, key_cell)
            yield slots.Instruction(0x7a, 0, 0, shape.offset + NUMBER, shape.first + key + 1)
