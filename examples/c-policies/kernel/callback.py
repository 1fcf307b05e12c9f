"""Turns a callback of the kernel's form into one of the host's, instruction by instruction."""
from . import names, slots
from .addresses import variable_addresses
from .all_cpus import follow_masks
from .copies import Copies, tested
from .globals import holds_variables
from .registers import Registers
from .timers import numbers_of_timers

VARIABLES = 0	# the map that has them, if any does
SIGNED_LOAD = 0x81	# of 32 bits, from version 4 on; of a task the host takes unsigned loads alone
ACCESSES = (0x61, 0x62, 0x63, 0x69, 0x6a, 0x6b, 0x71, 0x72, 0x73, 0x79, 0x7a, 0x7b, SIGNED_LOAD)
KEEPS = (0x63, 0x7b)	# stores of 4 and 8 bytes
CPU_AT_HAND = "bpf_get_smp_processor_id"
NEVER_THERE = (1 << 63) + 16	# the number of a queue that no policy can have; that of message 0


def stack_depth(instructions):
    """How many bytes below r10 the function uses, as clang writes it: r10, or a copy that is moved next."""
    lowest, copies = 0, set()
    for one in instructions:
        kind = one.code & 7
        if kind in (1, 2, 3) and (one.src if kind == 1 else one.dst) == 10:
            lowest = min(lowest, one.offset)
        if one.code == 0xbf and one.src == 10:
            copies.add(one.dst)
        elif one.code == 0x07 and one.dst in copies:
            lowest = min(lowest, one.number)
            copies.discard(one.dst)
    return -(lowest // 8) * 8


def reads_second_argument(instructions):
    """Whether r2 is read before anything writes it, as the lines are."""
    for one in instructions:
        kind = one.code & 7
        reads_source = kind in (1, 3) or kind in (4, 5, 6, 7) and one.code & 8
        if reads_source and one.src == 2 or kind in (2, 3) and one.dst == 2:
            return True
        if one.code == slots.CALL or kind in (1, 4, 7, 0) and one.dst == 2:
            return False
    return False


def is_error(one, symbol):
    return one.code == slots.CALL and symbol is not None and symbol.name in names.HELPERS


def go_on_if_zero(target, place, rules):
    """After init_task: enable comes next if it answered 0. Else the policy is refused, as in a kernel: by Linux rules with
    that answer, by plain rules by a call with a fault."""
    jump = slots.Instruction(0x16, 0, 0, 0, 0, place, target)
    with_answer = [slots.move(1, 0), *slots.sign_extended(1), slots.move_number(2, 0), slots.call(1010)]
    with_fault = [slots.wide_number(1, 1 << 63), slots.call(1008)]
    failed = [*(with_answer if rules == "linux" else with_fault), slots.Instruction(slots.EXIT)]
    return [jump, *slots.noted("init_task didn't answer 0, so the policy is refused", failed)]


class Callback:
    """One callback under way. What it refuses and warns of goes to the policy."""

    def __init__(self, policy, name, functions, has_init_task):
        self.policy, self.name = policy, name
        self.read = [policy.read_function(function) for function in functions]
        instructions = [one for read in self.read for one, _ in read]
        self.used = max([0, *(stack_depth([one for one, _ in read]) for read in self.read)])
        named = [symbol.section for read in self.read for _, symbol in read if symbol and symbol.section]
        self.uses_globals = any(holds_variables(section) for section in named) or name == "init" and policy.has_values()
        self.globals_cell = self.cell() if self.uses_globals else None
        self.task_cell = self.cell() if has_init_task else None
        self.first_cell = self.cell() if self.asks_for_cpu() and name != "init" else None
        self.key_cell = self.cell() if name == "init" and policy.timers else None
        self.pid_cell = None
        wants_arguments = has_init_task and reads_second_argument([one for one, _ in self.read[0]])
        self.arguments_cell = self.cells(2) if wants_arguments else None
        if instructions:
            self.look_at_stack(instructions[0])

    def refuse(self, one, text):
        self.policy.refuse(f"{one.place}: {self.name}: {text}")

    def look_at_stack(self, one):
        if self.used > 512:
            self.refuse(one, f"{self.used} bytes of stack are wanted, with those for the address of the variables; there are 512")

    def cell(self):
        """Eight bytes below all that is used, as their distance below r10."""
        self.used += 8
        return self.used

    def cells(self, count):
        """The lowest of `count` cells."""
        return [self.cell() for _ in range(count)][-1]

    def asks_for_cpu(self):
        return any(symbol and symbol.name == CPU_AT_HAND for read in self.read for _, symbol in read)

    def lists(self, read):
        """For each instruction of a function those that take its place."""
        changed = []
        read, loop = slots.forward(read)
        if loop:
            self.refuse(loop, "a loop that clang didn't write out: take bpf_for or bpf_repeat, or a constant number of rounds")
        instructions = [one for one, _ in read]
        registers, copies, variables = Registers(self.name, instructions), Copies(instructions), variable_addresses(read)
        all_cpus = names.constant("cpus_ptr", self.policy.rules)
        masks = {at for at, one in enumerate(instructions) if all_cpus and one.code == 0x79 and self.field_name(one) == "cpus_ptr"}
        for at, (one, symbol) in enumerate(read):
            others, tasks = copies.of_tested(one, at), registers.tasks(at)
            if others:
                changed.append(tested(one, others))
            elif one.code in KEEPS and one.src in tasks and self.is_number(variables[at].get(one.dst), one.offset):
                changed.append(self.kept_pid(one))
            else:
                changed.append(self.instead(one, symbol, tasks))
            for new in changed[-1]:
                new.place = one.place
            if is_error(one, symbol):
                changed[-1] = slots.noted(self.message_before(changed, [one.target for one, _ in read], at), changed[-1])
        targets = {one.target for one in instructions if one.target is not None}
        return follow_masks(changed, targets, masks, all_cpus[0]) if masks else changed

    def message_before(self, lists, targets, at):
        """The message of a call of scx_bpf_error: that in r1, as far back as only one way leads."""
        while at > 0 and at not in targets:
            at -= 1
            loaded = [one for one in lists[at] if one.note and one.code == slots.WIDE]
            if loaded:
                return loaded[-1].note
        return "scx_bpf_error: the number says which message, as the head of this file has it"

    def all_lists(self):
        """Those of the function; of init_task and enable, those of both, one after the other."""
        lists = self.lists(self.read[0]) if self.read else [[slots.move_number(0, 0)], [slots.Instruction(slots.EXIT)]]
        if self.task_cell is None:
            return lists
        count = len(lists)
        for instructions in lists:
            if instructions and instructions[-1].code == slots.EXIT:
                instructions[-1:] = go_on_if_zero(count, instructions[-1].place, self.policy.rules)
        second = self.lists(self.read[1]) if len(self.read) > 1 else [[slots.Instruction(slots.EXIT)]]
        second = slots.moved(second, count)
        second[0] = [slots.load(1, 10, -self.task_cell), *second[0]]
        return lists + second

    def instead(self, one, symbol, tasks):
        if one.code == slots.WIDE and symbol:
            return self.address(one, symbol)
        if one.code == slots.CALL and (symbol or one.src == 1):
            return self.kernel_call(one, symbol)
        if one.code == slots.CALL and one.number == names.KICK and self.name in names.WITHOUT_KICKS:
            self.policy.warn(f"{one.place}: warning: scx_bpf_kick_cpu in {self.name} is left out: no task runs or waits yet", f"kick in {self.name}")
            return [slots.move_number(0, 0)]
        if one.code == slots.GOTO and one.target is None:
            return self.note(one)
        if one.code in slots.ATOMIC:
            self.refuse(one, "an atomic operation on a type: call a function, as __sync_fetch_and_add")
        if one.code in ACCESSES or one.code == 0x07 and one.dst in tasks:
            return self.field(one)
        if one.code == slots.EXIT and self.name == "init":
            return [*slots.sign_extended(0), one]	# a kernel takes 32 bits
        if one.code == slots.EXIT and self.name == "select_cpu":
            return [slots.Instruction(0xbc, 0, 0), one]	# w0 = w0, as a kernel takes 32 bits
        return [one]

    def address(self, one, symbol):
        section = symbol.section
        if section is None:
            self.refuse(one, f"the address of '{symbol.name}', which a loader would have to know")
        elif section.name == ".maps":
            return [slots.wide_number(one.dst, self.policy.map_number(symbol, one), 5)]
        elif section.name.startswith(".rodata.str"):
            number = self.policy.message_number(symbol, one)
            return slots.noted(self.policy.said_at(number), [slots.wide_number(one.dst, number)])
        elif holds_variables(section):
            start = self.policy.globals.starts[section.name] + symbol.value + one.number
            return [slots.load(one.dst, 10, -self.globals_cell), slots.add_number(one.dst, start)]
        else:
            function = self.policy.function_at(symbol, one.number)
            if function in self.policy.timer_functions:
                number = self.policy.number_of_function(function)
                return slots.noted(f"the number of {function.name}", [slots.wide_number(one.dst, number)])
            self.refuse(one, f"the address of '{function.name}': nothing here calls a function that it is given")
        return [one]

    def kernel_call(self, one, symbol):
        name = symbol.name.removeprefix("__COMPAT_") if symbol else "a function"
        if symbol and symbol.section is None and name == CPU_AT_HAND:
            return self.cpu_at_hand(one)
        if symbol and symbol.section is None and name in names.HELPERS:
            return [slots.call(names.HELPERS[name])]
        if symbol and symbol.section is None:
            self.refuse(one, f"{names.SHOWN.get(name, name)} isn't here: {names.advice_for(name, names.in_file(self.policy.source))}")
        else:
            self.refuse(one, "a call of a function that clang didn't put in its place; declare it 'static __always_inline'")
        return [one]

    def cpu_at_hand(self, one):
        """The CPU of dispatch, of init 0, else that of the task."""
        self.policy.warn(f"{one.place}: warning: {CPU_AT_HAND} is the CPU of dispatch, and elsewhere that on which the task runs or ran last; Linux rules have it", CPU_AT_HAND)
        if self.name == "init":
            return [slots.move_number(0, 0)]
        kept = slots.load(0, 10, -self.first_cell)
        return [kept] if self.name == "dispatch" else [kept, slots.Instruction(0x61, 0, 0, names.FIELDS["thread_info.cpu"])]

    def note(self, one):
        if one.number in names.NOTES:
            said = names.NOTES[one.number].format(rounds=self.policy.rounds)
            self.policy.warn(f"{one.place}: warning: {said}", one.number)
        return []

    def is_number(self, variable, distance):
        """Whether a store at a distance from a symbol is one to a variable that is a number."""
        if variable is None:
            return False
        symbol, start = variable[0], variable[0].value + variable[1] + distance
        found = next((one for one in self.policy.elf.objects_in(symbol.section) if one.value == start), None)
        return found is not None and self.policy.types.is_integer(found.name)

    def kept_pid(self, one):
        """Keeps the pid of a task, or 0, where the C keeps its address as a number."""
        self.policy.warn(f"{one.place}: warning: the address of a task that is kept as a number is its pid", "address of a task")
        self.pid_cell = self.pid_cell or self.cell()
        self.look_at_stack(one)
        pid = [slots.Instruction(0x15, one.src, 0, 1, 0), slots.Instruction(0x61, one.src, one.src, names.FIELDS["pid"])]
        return [slots.store(10, -self.pid_cell, one.src), *pid, one, slots.load(one.src, 10, -self.pid_cell)]

    def field_name(self, one):
        """The name of the field of a task that an instruction loads or stores, or None."""
        found = self.policy.field_at(one.offset)
        return found and found[0]

    def field(self, one):
        """A load, a store, or a sum that may make the address of a field."""
        number = one.number if one.code == 0x07 else one.offset
        found = self.policy.field_at(number)
        if found is None:
            return [one]
        name, start = found
        constant = self.constant(name)
        if constant and one.code & 7 == 1:
            if constant[1]:
                self.policy.warn(f"{one.place}: warning: p->{name} is {constant[0]}: {constant[1]}", name)
            return [slots.move_number(one.dst, constant[0])]
        offset = names.offset_of(name, self.policy.rules)
        if offset is None:
            self.refuse(one, f"p->{name} isn't here: {names.said(names.NO_FIELD, name, self.policy.rules) or 'the host has nothing like it'}")
            return [one]
        if one.code == 0x07:
            self.refuse(one, f"the address of p->{name}: read the field where it is used, not by its address")
            return [one]
        if name in names.FIELD_NOTES and self.policy.rules == "plain":
            self.policy.warn(f"{one.place}: warning: p->{name} is {names.FIELD_NOTES[name]}", name)
        one.offset = offset + number - start
        if one.code == SIGNED_LOAD:
            one.code = 0x61
            return [one, slots.Instruction(0xbf, one.dst, one.dst, 32)]
        return [one]

    def constant(self, name):
        """The number in the place of a field that the host hasn't, and what to warn of, or None."""
        if name == "nr_cpus_allowed" and self.policy.cpus:
            bound = "a task with `cpus` in the workload may have fewer" if self.policy.rules == "linux" else None
            return self.policy.cpus, bound
        return names.constant(name, self.policy.rules)

    def zeros(self, cell, count, register):
        """A struct of zeros on the stack, to which a register points."""
        stores = [slots.Instruction(0x7a, 10, 0, -cell + 8 * at, 0) for at in range(count)]
        return [*stores, slots.move(register, 10), slots.add_number(register, -cell)]

    def prologue(self):
        """What comes before the callback: the address of the variables is looked up, and kept on the stack."""
        count = names.CALLBACKS[self.name]
        before = []
        if self.uses_globals:
            cell = -self.globals_cell
            before += [slots.move(6 + at, 1 + at) for at in range(count)]
            before += [slots.Instruction(0x62, 10, 0, cell, 0), slots.move(2, 10), slots.add_number(2, cell)]
            before += [slots.wide_number(1, VARIABLES, 5), slots.call(1), slots.skip_if_not_zero(0, 1)]
            before += [slots.Instruction(slots.EXIT), slots.store(10, cell, 0)]
            before = slots.noted("by build: looks up the policy's variables", before)
            if self.name == "init":
                before += slots.noted("by build: values of variables at the start", self.policy.globals.stores())
            before += slots.noted("by build: the arguments again", [slots.move(1 + at, 6 + at) for at in range(count)])
        if self.key_cell:
            before += slots.noted("by build: the numbers of timers", list(numbers_of_timers(self.policy, self.key_cell)))
        if self.first_cell:
            before += slots.noted("by build: keeps the first argument", [slots.store(10, -self.first_cell, 1)])
        if self.arguments_cell:
            before += slots.noted("by build: the second argument of init_task, zeros", self.zeros(self.arguments_cell, 2, 2))
        if self.task_cell:
            before += slots.noted("by build: keeps the task for enable", [slots.store(10, -self.task_cell, 1)])
        return before
