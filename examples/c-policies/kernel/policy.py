"""Makes a policy of an object whose C is in the kernel's form, with all that it refuses and warns of."""
import bisect
import os
import re
from itertools import islice

from . import names, slots
from .btf import Types, read_lines
from .callback import Callback, NEVER_THERE
from .elf import FUNCTION, Elf, text_at
from .globals import GREATEST, Globals, holds_variables
from .maps import KINDS, Map, is_one_copy, refusal, ring, unknown
from .timer_callback import OfTimers
from .timers import FIRST_FUNCTION, TimerMap, timer_offset
from held import MOST, comment_of
from listing import tables, with_text

PARTS = {"enable": ["init_task", "enable"]}
ENQ_LAST = 2		# this flag of a policy
FOR_USER_SPACE = ("syscall",)	# sections whose programs user space runs


def does_nothing(symbol):
    """Whether a function only computes an answer."""
    found, _ = slots.read(symbol.section.content[symbol.value:symbol.value + symbol.size])
    return all(one.code & 7 in (4, 7) or one.code == slots.EXIT for one in found)


class Policy:
    """A policy under way, from the object to the text of a policy file."""

    header = "scx/common.bpf.h"

    def __init__(self, source, data, settings, rules, ops=None):
        self.source, self.settings, self.rules, self.ops = source, dict(settings), rules, ops
        self.refusals, self.warnings, self.warned = [], [], set()
        self.elf = Elf(data)
        self.messages, self.maps, self.callbacks, self.instructions = [], [], {}, {}
        self.value_types, self.stored = {}, set()	# of maps by name: the types of values, and those of task storage
        self.name, self.timeout, self.has_enq_last = "", 0, False
        self.left_out = {}
        self.keeps_idle, self.timers, self.timer_functions = False, [], []
        self.cpus = self.settings.pop("cpus", None)
        self.tasks = self.settings.pop("tasks", names.TASKS)
        self.rounds = self.settings.pop("loops", names.ROUNDS)
        with open(source, errors="replace") as file:
            self.lines_of_source = file.read().splitlines()
        btf, lines = self.elf.named(".BTF"), self.elf.named(".BTF.ext")
        has_functions = any(one.kind == FUNCTION for one in self.elf.symbols)
        if btf is None or lines is None and has_functions:
            self.refuse(f"{source}: no types and lines are in the object; compile it with -g")
            return
        self.types = Types(btf.content)
        self.lines = read_lines(lines.content, self.types) if lines else {}
        task = self.types.struct("task_struct")
        self.fields = sorted(self.types.fields(task)) if task else []
        self.read()

    def refuse(self, text):
        if text not in self.refusals:
            self.refusals.append(text)

    def warn(self, text, kind=None):
        """Says it once, or once for each kind."""
        if (kind or text) not in self.warned:
            self.warned.add(kind or text)
            self.warnings.append(text)

    def read(self):
        self.globals = Globals(self.elf)
        for name, number in self.settings.items():
            if refusal := self.globals.set(name, number):
                self.refuse(refusal)
        ops = self.find_ops()
        if ops is None:
            return
        functions = self.read_ops(ops)
        self.look_at_sections(functions)
        self.find_timers()
        self.follow([*functions.values()])
        if self.globals.size > GREATEST:
            self.refuse(f"{self.source}: variables of {self.globals.size} bytes; an element of a map holds {GREATEST}: put arrays into a map")
        else:
            self.translate(functions)

    def follow(self, functions):
        """Finds the variables that functions use, and the functions that timers get, whose variables count too."""
        for function in functions:
            for one, symbol in self.read_function(function):
                if symbol and symbol.section and holds_variables(symbol.section):
                    self.globals.add(symbol.section)
                elif self.timers and symbol and one.code == slots.WIDE and symbol.section and symbol.section.name != ".maps":
                    found = self.function_at(symbol, one.number)
                    if found.kind == FUNCTION and found not in self.timer_functions:
                        self.timer_functions.append(found)
                        functions.append(found)

    def find_timers(self):
        """Gives the elements of maps that are timers their numbers."""
        section = self.elf.named(".maps")
        for symbol in self.elf.objects_in(section) if section and self.rules == "linux" else []:
            pointed, numbers = self.said_of_map(symbol)
            offset = timer_offset(self.types, pointed.get("value", 0))
            if offset is None:
                continue
            first, place, entries = sum(one.count for one in self.timers), self.place_of_text(symbol.name), numbers.get("max_entries", 0)
            if names.MAP_KINDS.get(numbers.get("type")) != "ARRAY" or first + entries > names.TIMERS:
                self.refuse(f"{place}: {symbol.name}: timers are in values of array maps, and a policy has {names.TIMERS} of them at most")
            else:
                self.timers.append(TimerMap(symbol, first, entries, offset))

    def said_of_map(self, symbol):
        """What the definition of a map says: its types and its numbers, by their names."""
        types = self.types
        pointed = {name: types.plain(of)[2] for name, of, _ in types.members(types.of_variable(symbol.name))}
        return pointed, {name: types.plain(of)[3][0][2] for name, of in pointed.items() if types.plain(of)[0] == 3}

    def number_of_function(self, function):
        return FIRST_FUNCTION + self.timer_functions.index(function)

    # What the policy is.

    def find_ops(self):
        found = [one for section in self.elf.sections if section.name in (".struct_ops", ".struct_ops.link") for one in self.elf.objects_in(section)]
        if other := next((one for one in found if self.type_of(one) != "sched_ext_ops"), None):
            self.refuse(f"{self.place_of_text(other.name)}: {other.name} is no policy of sched_ext, but a {self.type_of(other)}")
            return None
        chosen = [one for one in found if self.ops in (None, one.name)]
        if len(chosen) == 1:
            return chosen[0]
        if found:
            last = self.place_of_text(found[-1].name)
            self.refuse(f"{last}: {' and '.join(one.name for one in found)} are struct_ops; build makes one policy of a file: say which, as --ops {found[0].name}")
        else:
            self.refuse(f"{self.source}: no struct_ops: SCX_OPS_DEFINE says which function is which callback")
        return None

    def type_of(self, ops):
        """The name of the type of a struct_ops."""
        return self.types.plain(self.types.of_variable(ops.name))[1]

    def read_ops(self, ops):
        """The functions that are callbacks here, by their names."""
        functions = {}
        members = self.types.members(self.types.of_variable(ops.name))
        content = ops.section.content[ops.value:ops.value + ops.size]
        for member, of, offset in members:
            symbol = self.elf.relocations.get((ops.section.name, ops.value + offset))
            if symbol:
                self.take_function(ops, functions, member, self.function_at(symbol, int.from_bytes(content[offset:offset + 8], "little")))
            elif member == "name":
                self.take_name(ops, text_at(content + b"\0", offset))
            else:
                number = int.from_bytes(content[offset:offset + self.types.size(of)], "little")
                self.take_number(ops, functions, member, number)
        if self.has_enq_last and "enqueue" not in functions:
            self.refuse(f"{self.place_of_text(ops.name)}: flags: SCX_OPS_ENQ_LAST wants enqueue, as in a kernel")
        return functions

    def function_at(self, symbol, number):
        """The function itself, where its section and a place in it may be given."""
        if symbol.kind == FUNCTION:
            return symbol
        inside = (one for one in self.elf.symbols if one.kind == FUNCTION and one.section is symbol.section and one.value == symbol.value + number)
        return next(inside, symbol)

    def has_callback(self, member):
        if self.rules != "linux" and member in names.OF_LINUX:
            return False
        return member in names.CALLBACKS or member == "init_task"

    def take_function(self, ops, functions, member, symbol):
        place = f"{self.place_of_text(symbol.name)}: {member}"
        if self.has_callback(member):
            functions[member] = symbol
        elif member in names.LEFT_OUT:
            self.warn(f"{self.place_of_text(symbol.name)}: warning: {member} is left out: {names.LEFT_OUT[member]}")
            self.left_out[member] = symbol.name
        elif does_nothing(symbol):
            self.warn(f"{self.place_of_text(symbol.name)}: warning: {member} is left out: it does nothing")
        else:
            self.refuse(f"{place} isn't here: {names.said(names.NO_CALLBACK, member, self.rules) or 'the host has nothing like it'}")

    def take_name(self, ops, name):
        if re.fullmatch(r"[a-z][a-z0-9_]{0,15}", name):
            self.name = name
        elif name:
            self.warn(f"{self.place_of_text(ops.name)}: warning: the name {quoted(name)} is left out: here it has 1 to 16 characters, a to z, 0 to 9 and _, a letter first")

    def take_number(self, ops, functions, member, number):
        place = self.place_of_text(ops.name)
        if member == "timeout_ms":
            self.timeout = number
            if number > 30000:
                self.refuse(f"{place}: timeout_ms is {number}; it is 30000 at most")
        self.has_enq_last |= member == "flags" and bool(number & ENQ_LAST)
        for bit in range(64):
            if member == "flags" and number >> bit & 1:
                name = names.FLAGS[bit] if bit < len(names.FLAGS) else f"flag {bit}"
                if name == "SCX_OPS_KEEP_BUILTIN_IDLE" and "update_idle" in functions:
                    self.keeps_idle = True
                elif name in names.FLAGS_OF_NO_MEANING:
                    self.warn(f"{place}: warning: {name} means nothing here: {names.said(names.FLAGS_OF_NO_MEANING, name, self.rules)}")
                else:
                    self.refuse(f"{place}: flags: {name} isn't here")

    def look_at_sections(self, functions):
        """Functions of the object that nothing calls."""
        taken = {(one.section.name, one.value) for one in functions.values() if one.section}
        for one in self.elf.symbols:
            if one.kind != FUNCTION or one.section is None or one.section.name == ".text":
                continue
            is_callback = one.section.name.startswith("struct_ops")
            if not is_callback and does_nothing(one):
                self.warn(f"{self.place_of_text(one.name)}: warning: '{one.name}' is in the section {one.section.name}, and left out: it does nothing")
            elif one.section.name in FOR_USER_SPACE:
                self.warn(f"{self.place_of_text(one.name)}: warning: '{one.name}' is in the section {one.section.name}, and left out: nothing here runs it")
            elif not is_callback:
                self.refuse(f"{self.place_of_text(one.name)}: '{one.name}' is in the section {one.section.name}, which nothing here would run")
            elif (one.section.name, one.value) not in taken and not self.is_named_in_ops(one):
                self.warn(f"{self.place_of_text(one.name)}: warning: '{one.name}' is no callback of the policy, and left out")

    def is_named_in_ops(self, function):
        named = (one for (section, _), one in self.elf.relocations.items() if section.startswith(".struct_ops"))
        return any(one.section is function.section for one in named)

    # Places in C.

    def place_of_text(self, name):
        """Where the source has a name as a word of its own, at a definition rather than a use."""
        forms = [rf"\bBPF_STRUCT_OPS\w*\(\s*{re.escape(name)}\b", rf"\b{re.escape(name)}\s+SEC\b", rf"\bSCX_OPS_DEFINE\(\s*{re.escape(name)}\b", rf"\b{re.escape(name)}\b"]
        for form in forms:
            for number, line in enumerate(self.lines_of_source, 1):
                if re.search(form, line):
                    return f"{self.source}:{number}"
        return self.source

    def line_of(self, section, slot):
        lines = self.lines.get(section, [])
        at = bisect.bisect_right(lines, slot, key=lambda line: line[0])
        if at == 0:
            return self.source
        file = lines[at - 1][1]
        is_source = os.path.realpath(file) == os.path.realpath(self.source)
        shown = self.source if is_source else min(file, os.path.relpath(file), key=len)
        return f"{shown}:{lines[at - 1][2]}"

    def instruction_at(self, callback, slot):
        """The instruction in a slot of a callback, or None."""
        instructions = self.instructions.get(callback, [])
        return instructions[slot] if slot < len(instructions) else None

    def kept_settings(self):
        """Those that are no variables."""
        return [("cpus", self.cpus), ("tasks", self.tasks), ("loops", self.rounds)]

    def place(self, callback, slot):
        one = self.instruction_at(callback, slot)
        return f"{one.place if one and one.place else self.source}: {callback}"

    def note(self, callback, slot):
        """Why build wrote an instruction, or the message of scx_bpf_error; nothing if it is clang's alone."""
        one = self.instruction_at(callback, slot)
        return one.note if one else ""

    def comment(self, callback, slot):
        """What an instruction is for: its line of C, or why build wrote it."""
        one = self.instruction_at(callback, slot)
        return (one.note or with_text(one.place)) if one else ""

    # What callbacks ask for.

    def read_function(self, function):
        """Instructions of a function, each with the symbol of which it wants the address, or None."""
        start, end = function.value, function.value + function.size
        section = function.section
        found, numbers = slots.read(section.content[start:end])
        read = []
        for one, slot in zip(found, numbers):
            one.place = self.line_of(section.name, start // 8 + slot)
            read.append((one, self.elf.relocations.get((section.name, start + 8 * slot))))
        return read

    def field_at(self, offset):
        """The name and the beginning of the field of a task at an offset, or None where a task has none there."""
        if not names.FIRST_FIELD <= offset < names.FIRST_FIELD + 4096:
            return None
        for start, size, name in self.fields:
            if start <= offset < start + size and start >= names.FIRST_FIELD:
                return name, start
        return "..", offset

    def first_message(self):
        """The number of the first message: by plain rules that of a queue that is never there."""
        return 1 if self.rules == "linux" else NEVER_THERE

    def message_number(self, symbol, one):
        """The number of a message."""
        at = symbol.value + one.number
        message = text_at(symbol.section.content, at)
        if (message, one.place) not in self.messages:
            self.messages.append((message, one.place))
        return self.first_message() + self.messages.index((message, one.place))

    def said_at(self, number):
        """The message that has a number, with its line."""
        message, place = self.messages[number - self.first_message()]
        name = "scx_bpf_exit" if "scx_bpf_exit" in self.line_at(place) else "scx_bpf_error"
        return f"{name} at {place}: {quoted(message)}"

    def line_at(self, place):
        """The line of the source at a place, or nothing."""
        number = place.rpartition(":")[2]
        lines = self.lines_of_source
        return lines[int(number) - 1] if number.isdecimal() and 0 < int(number) <= len(lines) else ""

    def map_number(self, symbol, one):
        start = symbol.value + (one.number if symbol.kind != 1 else 0)
        return self.number_of_map(next((each for each in self.elf.objects_in(symbol.section) if each.value == start), symbol))

    def number_of_map(self, found):
        if found.name not in [one.name for one in self.maps]:
            self.maps.append(self.read_map(found))
        return [one.name for one in self.maps].index(found.name) + (self.globals.size > 0)

    def name_of_map(self, number):
        """The name of a map, as words that follow its number."""
        known = ["the variables"] * (self.globals.size > 0) + [one.name for one in self.maps]
        return f" ({known[number]})" if number < len(known) else ""

    def read_map(self, symbol):
        """A map, as C says it."""
        place, name = self.place_of_text(symbol.name), symbol.name
        pointed, numbers = self.said_of_map(symbol)
        kind = names.MAP_KINDS.get(numbers.get("type"), f"of the number {numbers.get('type')}")
        entries, size = numbers.get("max_entries", 0), numbers.get("value_size") or self.types.size(pointed.get("value", 0))
        key = numbers.get("key_size") or self.types.size(pointed.get("key", 0))
        is_shared = is_one_copy(kind, entries, size, self.rules)
        self.value_types[name] = None if kind in ("QUEUE", "STACK") and self.rules == "plain" else pointed.get("value")
        if kind == "TASK_STORAGE":
            self.stored.add(name)
            made = Map(name, self.tasks + 1, size, key=key)	# pids are counted from 1
        elif kind == "ARRAY" or is_shared:
            made = Map(name, entries, size, key=key)
        elif kind in ("QUEUE", "STACK") and self.rules == "plain":
            made = ring(name, entries, size)
        elif kind in KINDS and self.rules == "linux":
            made = Map(name, entries, size, KINDS[kind], key)
        else:
            self.refuse(f"{place}: {name}: {unknown(kind)}")
            return Map(name, 1, 8)
        if is_shared:
            self.warn(f"{place}: warning: {name} is an array of one copy, which all CPUs share")
        if wrong := refusal(made):
            self.refuse(f"{place}: {name}: {wrong}")
        return made

    # The policy file.

    def names_of_maps(self):
        """A comment for each map: the names of the numbers in its values."""
        if self.globals.size:
            yield comment_of(0, "variables", self.globals.numbers(self.types))
        for number, one in enumerate(self.maps, self.globals.size > 0):
            of = self.value_types.get(one.name)
            yield comment_of(number, one.name, islice(self.types.numbers(of), MOST) if of else [], one.name in self.stored)

    def has_values(self):
        return any(True for _ in self.globals.stores())

    def is_wanted(self, name):
        """Whether a callback is there though the policy names no function for it."""
        return name == "init" and (self.has_values() or bool(self.timers)) or name == "timer" and bool(self.timer_functions)

    def translate(self, functions):
        for name in names.CALLBACKS:
            parts = [part for part in PARTS.get(name, [name]) if part in functions]
            if not parts and not self.is_wanted(name):
                continue
            of_functions = [functions[part] for part in parts]
            callback = OfTimers(self) if name == "timer" else Callback(self, name, of_functions, "init_task" in parts)
            code, instructions = slots.written(callback.prologue(), callback.all_lists())
            self.callbacks[name], self.instructions[name] = code, instructions
            if len(code) > 8 * 4096:
                self.refuse(f"{self.source}: {name}: {len(code) // 8} slots; a callback has 4096 at most: write fewer rounds out")

    def text(self, program):
        lines = ["# Made of C in the kernel's form by examples/c-policies/build."]
        for number, (message, place) in enumerate(self.messages):
            what = f"Message {1 + number}:" if self.rules == "linux" else f"The queue {NEVER_THERE + number} is never there:"
            lines.append(f"# {what} {place} says {quoted(message)}")
        lines += self.names_of_maps()
        if self.name:
            lines.append(f'name = "{self.name}"')
        if self.timeout:
            lines.append(f"timeout_ms = {self.timeout}")
        if self.rules == "linux":
            lines.append('rules = "linux"')
        if self.keeps_idle:
            lines.append("keep_idle = 1")
        maps = [Map("", 1, self.globals.size)] * (self.globals.size > 0) + self.maps
        lines += [one.text() for one in maps]
        lines += [f"\n[[timer]]{named(name)}" for shape in self.timers for name in shape.names()]
        codes = {callback: self.callbacks[callback] for callback in names.CALLBACKS if callback in self.callbacks}
        return "\n".join([*lines, "", *tables(codes, self.comment, program)]) + "\n"


def named(name):
    """The line that names a timer, if a policy file may have that name."""
    return f'\nname = "{name}"' if re.fullmatch(r"[a-z][a-z0-9_]{0,15}", name) else ""


def quoted(message):
    return '"' + "".join(one if one.isprintable() else f"\\x{ord(one):02x}" for one in message) + '"'
