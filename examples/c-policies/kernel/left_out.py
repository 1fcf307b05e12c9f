"""A callback that is left out, as a policy of its own that is only verified.

No run here calls it, but its mistakes are to be seen: it is verified in the place of running, with arguments of the
kinds that the kernel gives it.
"""
from . import names, slots
from .callback import Callback
from .globals import Globals, holds_variables
from .policy import Policy

PLACE = "running"	# the callback in whose place it is verified
STRUCT = 8		# cells of a struct
TASK_BY_PID = 1007
CREATE_DSQ, NR_QUEUED = 1001, 1008	# both take a number and answer one


class OfLeftOut(Callback):
    def __init__(self, policy, function):
        super().__init__(policy, PLACE, [function], False)
        self.arguments = names.ARGUMENTS[policy.member]
        self.struct_cell = self.cells(STRUCT) if "struct" in self.arguments else None

    def prologue(self):
        """What comes first, and then r6 is a task, r7 one that may be NULL, and r8 a number; arguments are made of them."""
        before = [*super().prologue(), slots.move(6, 1), slots.load(8, 6, names.FIELDS["se.sum_exec_runtime"])]
        if "task or NULL" in self.arguments:
            before += [slots.Instruction(0x61, 1, 6, names.FIELDS["pid"]), slots.call(TASK_BY_PID), slots.move(7, 0)]
        if self.struct_cell:
            before += [slots.store(10, -self.struct_cell + 8 * at, 8) for at in range(STRUCT)]
        for register, kind in enumerate(self.arguments, 1):
            before += self.argument(register, kind)
        return before

    def instead(self, one, symbol, tasks):
        if one.code == slots.CALL and symbol is None and one.number == CREATE_DSQ and self.policy.member in names.SLEEPING:
            one.number = NR_QUEUED
        return super().instead(one, symbol, tasks)

    def argument(self, register, kind):
        if kind == "struct":
            return [slots.move(register, 10), slots.add_number(register, -self.struct_cell)]
        return [slots.move(register, {"task": 6, "task or NULL": 7, "number": 8}[kind])]


class LeftOut(Policy):
    """The policy of one callback of a whole one. It has maps and variables of its own."""

    def __init__(self, whole, data, member, function_name):
        self.member, self.function_name = member, function_name
        super().__init__(whole.source, data, whole.kept_settings(), whole.rules)

    def read(self):
        self.globals = Globals(self.elf)
        function = next(one for one in self.elf.symbols if one.name == self.function_name)
        for _, symbol in self.read_function(function):
            if symbol and symbol.section and holds_variables(symbol.section):
                self.globals.add(symbol.section)
        callback = OfLeftOut(self, function)
        code, instructions = slots.written(callback.prologue(), callback.all_lists())
        self.callbacks[PLACE], self.instructions[PLACE] = code, instructions

    def place(self, callback, slot):
        return super().place(callback, slot).removesuffix(callback) + self.member
