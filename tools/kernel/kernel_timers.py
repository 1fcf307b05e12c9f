"""Timers of a policy as those of a kernel: the elements of a map of their own, after the policy's maps.

The callback `timer` becomes the second function of the program of init, which makes the timers, as a kernel sets a
function by its place in the same program.
"""
from kernel import slots

INIT, SET_FUNCTION, START, CANCEL = 169, 170, 171, 172
PINNED = 2		# a flag of a start: on the CPU that starts it
MONOTONIC = 1
OF_FUNCTION = 4		# what an instruction loads that has this in the place of its source


class Timers:
    """How many timers a policy has, and the number of their map."""

    def __init__(self, policy):
        self.count, self.map = len(policy.get("timer", [])), len(policy.get("map", []))

    def lookup(self, cell):
        """The element whose number is in a cell of the stack, in r0."""
        return [slots.move(2, 10), slots.add_number(2, cell), slots.wide_number(1, self.map, 5), slots.call(1)]

    def call(self, number, cell, more):
        """A call of a kernel's function for the timer whose number is in r1; -22 where there is none."""
        called = [slots.move(1, 0), *more, slots.call(number), slots.Instruction(0xbf, 0, 0, 32)]
        past = sum(one.size() for one in called) + 1
        lines = [slots.Instruction(0x63, 10, 1, cell), *self.lookup(cell), slots.Instruction(0x15, 0, 0, past, 0)]
        return [*lines, *called, slots.Instruction(slots.GOTO, 0, 0, 1), slots.move_number(0, -22)]

    def start(self, cell, ns_cell):
        more = [slots.load(2, 10, ns_cell), slots.move_number(3, PINNED)]
        return [slots.store(10, ns_cell, 2), *self.call(START, cell, more)]

    def cancel(self, cell):
        return self.call(CANCEL, cell, [])

    def made(self, cell, second):
        """Makes each timer, for the beginning of init; the function is `second` slots from the beginning of the program."""
        lines = []
        for number in range(self.count):
            lines += [slots.Instruction(0x62, 10, 0, cell, number), *self.lookup(cell), *exit_if(0x55)]
            lines += [slots.move(6, 0), slots.move(1, 6), slots.wide_number(2, self.map, 5), slots.move_number(3, MONOTONIC)]
            lines += [slots.call(INIT), *exit_if(0x15), slots.move(1, 6)]
            at = sum(one.size() for one in lines)
            lines += [slots.wide_number(2, second - at - 1, OF_FUNCTION), slots.call(SET_FUNCTION), *exit_if(0x15)]
        return lines


def exit_if(goes_on):
    """Ends init, unless r0 is other than 0, or is 0, as the code of the jump says; with -1 where it is 0."""
    wrong = [slots.move_number(0, -1)] * (goes_on == 0x55) + [slots.Instruction(slots.EXIT)]
    return [slots.Instruction(goes_on, 0, 0, len(wrong), 0), *wrong]
