"""Which registers of a callback point to a task, and how deep its stack is used, whether or not it is safe.

Control is followed forward once, as jumps here go forward. Where two ways meet, what one of them knows is kept.
"""
from . import slots

TASKS = {"enable": 1, "select_cpu": 1, "enqueue": 1, "running": 1, "stopping": 1, "dispatch": 2, "tick": 1, "runnable": 1,
         "dequeue": 1, "quiescent": 1, "set_weight": 1}
TASK = "task"
TASK_ANSWERS = (1007, 1011, 1012)	# helpers that answer a task, or 0
LOADS, NUMBER_STORES, STORES, ALU, LONG_ALU = 1, 2, 3, 4, 7


class Registers:
    """What is known before each instruction: a register is a task, or a distance in bytes above r10; a cell of the stack, by
    its place, is a task."""

    def __init__(self, callback, instructions):
        self.before = [{} for _ in instructions]
        self.depth = 0
        first = {10: 0}
        if callback in TASKS:
            first[TASKS[callback]] = TASK
        if instructions:
            self.before[0] = first
        for at, one in enumerate(instructions):
            after = self.known_after(one, dict(self.before[at]))
            for following in slots.successors(instructions, at):
                self.before[following] = {**after, **self.before[following]}

    def tasks(self, at):
        """The registers that point to a task before an instruction."""
        return {place for place, fact in self.before[at].items() if fact == TASK and isinstance(place, int)}

    def known_after(self, one, state):
        """What is known after an instruction."""
        kind = one.code & 7
        if one.code == slots.CALL:
            state = {place: fact for place, fact in state.items() if place not in range(6)}
            if one.number in TASK_ANSWERS:
                state[0] = TASK
        elif kind == LOADS:
            self.load(one, state)
        elif kind in (NUMBER_STORES, STORES):
            self.store(one, state)
        elif kind in (ALU, LONG_ALU) or one.code == slots.WIDE:
            self.compute(one, state)
        return state

    def use(self, place):
        """The stack is used down to that place."""
        if -512 <= place < 0:
            self.depth = max(self.depth, -(place // 8) * 8)

    def load(self, one, state):
        base = state.get(one.src)
        state.pop(one.dst, None)
        if isinstance(base, int):
            self.use(base + one.offset)
            if cell_at(base + one.offset) in state and one.code == 0x79:
                state[one.dst] = TASK

    def store(self, one, state):
        base = state.get(one.dst)
        if isinstance(base, int):
            self.use(base + one.offset)
            state.pop(cell_at(base + one.offset), None)
            if one.code == 0x7b and state.get(one.src) == TASK:
                state[cell_at(base + one.offset)] = TASK

    def compute(self, one, state):
        before = state.pop(one.dst, None)
        if one.code == 0xbf and one.offset == 0 and one.src in state:
            state[one.dst] = state[one.src]
        elif one.code in (0x07, 0x17) and isinstance(before, int):
            state[one.dst] = before + (one.number if one.code == 0x07 else -one.number)
            self.use(state[one.dst])


def cell_at(place):
    return "cell", place // 8
