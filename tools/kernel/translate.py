"""Turns a policy and a workload of scxsim into the lines that guest.c reads.

A callback is taken instruction by instruction. Arguments are loaded from the context, a field of a task is the
kernel's own at its offset there, and helpers are functions of the kernel. Which registers point to tasks is what
scxsim explain says; where it refuses a callback, kernel/registers.py. A policy by Linux rules has flags of inserts whose
numbers differ by version: they become those of the kernel at hand.
"""
import re
import subprocess
import tempfile
import tomllib
from pathlib import Path

from kernel_timers import Timers
from kernel_types import KernelTypes, NoCounterpart
from kernel import slots
from kernel.registers import Registers

ARGUMENTS = {"init": 0, "enable": 1, "select_cpu": 3, "enqueue": 2, "dispatch": 2, "running": 1, "stopping": 2,
             "tick": 1, "dequeue": 2, "runnable": 2, "quiescent": 2, "update_idle": 2, "set_weight": 2, "timer": 1}
ANSWERED = ("init", "select_cpu")
LOADS = (0x61, 0x69, 0x71, 0x79, 0x81, 0x89, 0x91)
FIELDS = {0: "pid", 4: "scx.weight", 8: "scx.slice", 16: "scx.dsq_vtime", 24: "thread_info.cpu", 32: "se.sum_exec_runtime"}
GROUP, CPUS = 28, 40
# The kernel's weights of the nice values -20 to 19, where 1024 is that of 0.
NICE = [88761, 71755, 56483, 46273, 36291, 29154, 23254, 18705, 14949, 11916, 9548, 7620, 6100, 4904, 3906, 3121, 2501, 1991,
        1586, 1277, 1024, 820, 655, 526, 423, 335, 272, 215, 172, 137, 110, 87, 70, 56, 45, 36, 29, 23, 18, 15]
EXIT_VALUE = 24		# bytes that the exit callback keeps: kind, code and time
MAP_TYPES = {"hash": 1, "array": 2, "percpu": 6, "queue": 22, "stack": 23}	# the kernel's numbers of the kinds of maps
INSERT_FLAGS = {"SCX_ENQ_PREEMPT": 32, "SCX_ENQ_HEAD": 48}	# the bits that these have here
LOST_BY_CALLS = re.compile(r"\br[0-5](?:\.\.r[0-5])? [^,]*(?:, )?")	# what explain says of r0 to r5
ANSWERS_0 = slots.move_number(0, 0).bytes() + slots.Instruction(slots.EXIT).bytes()


def output_of(*words):
    return subprocess.run(words, stdout=subprocess.PIPE, text=True).stdout


def known(scxsim, policy):
    """Of each callback that is accepted here: of each slot the registers that point to tasks, the slots at which a task is
    kept beyond a call, and how deep the stack is used."""
    found, callback = {}, None
    for line in output_of(scxsim, "explain", policy).splitlines():
        if verdict := re.match(r"(\w+) (ok|refused) \d+", line):
            callback = verdict[1] if verdict[2] == "ok" else None
            if callback:
                found[callback] = ({}, set(), 0)
        elif callback and (instruction := re.match(r" *(\d+)  (\S.*?)(?:  +(.*))?$", line)):
            tasks, keeps, depth = found[callback]
            slot, facts = int(instruction[1]), instruction[3] or ""
            tasks[slot] = task_registers(facts)
            if re.search(r"\btask\b", LOST_BY_CALLS.sub("", facts)):
                keeps.add(slot)
            deepest = max([0, *(int(number) for number in re.findall(r"stack -(\d+)", facts))])
            found[callback] = (tasks, keeps, max(depth, -(-deepest // 8) * 8))
    return found


def guessed(callback, code):
    """The same of one callback without explain, as of one that is refused."""
    instructions, numbers = slots.read(code)
    found = Registers(callback, instructions)
    return {slot: found.tasks(at) for at, slot in enumerate(numbers)}, set(numbers), found.depth


def task_registers(facts):
    registers = set()
    for first, last in re.findall(r"\br(\d+)(?:\.\.r(\d+))? task(?! or)", facts):
        registers.update(range(int(first), int(last or first) + 1))
    return registers


def rules_of(policy):
    """The rules for which a policy file is."""
    return policy.get("rules", "plain")


class Callback:
    def __init__(self, types, name, code, facts, policy):
        self.types, self.name, self.rules, self.timers = types, name, rules_of(policy), Timers(policy)
        self.tasks, self.keeps, self.used = facts
        self.read, self.slots = slots.read(code)
        calls = [one.number for one in self.read if one.code == slots.CALL]
        self.chooses, self.asks = 1005 in calls, 1006 in calls
        self.claimed, self.chosen = (self.cell(), self.cell()) if self.chooses else (None, None)
        self.previous, self.flags = (self.cell(), self.cell()) if self.chooses and name == "select_cpu" else (None, None)
        self.asked, self.mask, self.bit = (self.cell(), self.cell(), self.cell()) if self.asks else (None, None, None)
        self.held = self.cells_of_tasks()
        self.pid = self.cell() if len(self.held) > len(set(self.held)) else None
        self.answer = self.cell() if self.held and name in ANSWERED else None
        self.text = self.cell() if 1010 in calls else None
        self.makes_timers = name == "init" and self.timers.count > 0
        wants_timer = self.makes_timers or 1017 in calls or 1018 in calls
        self.timer, self.ns = (self.cell(), self.cell()) if wants_timer else (None, None)
        self.second = 0
        if self.used > 512:
            raise NoCounterpart(f"{name}: 512 bytes of stack don't hold what the kernel's form keeps there")

    def cell(self):
        """The offset of eight bytes below all that is used."""
        self.used += 8
        return -self.used

    def cells_of_tasks(self):
        """The cell of each task that is asked for by its pid. Calls share a cell where no earlier task is kept."""
        shared, cells = None, []
        for one, slot in zip(self.read, self.slots):
            if one.code != slots.CALL or one.number != 1007:
                continue
            if slot not in self.keeps:
                shared = shared or self.cell()
            cells.append(self.cell() if slot in self.keeps else shared)
        return cells

    def kernel_call(self, name):
        return slots.Instruction(slots.CALL, 0, 2, 0, self.types.function(name))

    def field(self, offset):
        if offset not in FIELDS:
            raise NoCounterpart(f"{self.name}: a kernel's task has no counterpart of byte {offset}")
        return self.types.offset("task_struct", FIELDS[offset])

    def prologue(self):
        """Arguments come in the context; a truth value in one byte of eight. Of a timer the key is its number."""
        before = [slots.load(number, 1, 8 * number - 8) for number in range(ARGUMENTS[self.name], 0, -1)]
        if self.name == "timer":
            before = [slots.Instruction(0x61, 1, 2, 0)]
        if self.makes_timers:
            before = self.timers.made(self.timer, self.second)
        if self.name in ("stopping", "update_idle"):
            before.append(slots.Instruction(0x54, 2, 0, 0, 1))
        if self.previous:
            before += [slots.store(10, self.previous, 2), slots.store(10, self.flags, 3)]
        for cell in [self.claimed] * self.chooses + sorted(set(self.held)):
            before.append(slots.Instruction(0x7a, 10, 0, cell, 0))
        return before

    def code(self):
        held = iter(self.held)
        lists = [self.instead(one, slot, held) for one, slot in zip(self.read, self.slots)]
        return slots.written(self.prologue(), lists)[0]

    def instead(self, one, slot, held):
        tasks, kind = self.tasks.get(slot, set()), one.code & 7
        if one.code == slots.CALL:
            return self.helper(one.number, held)
        if one.code == slots.EXIT:
            return self.release() + [slots.move_number(0, 0)] * (self.name == "timer") + [one]
        if one.code in LOADS and one.src in tasks:
            return self.load_field(one)
        if kind in (2, 3) and one.dst in tasks:
            one.offset = self.field(one.offset)
        return [one]

    def load_field(self, one):
        if one.offset == GROUP:
            group = self.types.offset("task_struct", "sched_task_group")
            number = self.types.offset("task_group", "css.id")
            # 1 is the number of the root, and 2 of the first group.
            return [slots.load(one.dst, one.src, group), slots.Instruction(0x61, one.dst, one.dst, number), slots.Instruction(0x04, one.dst, 0, 0, -2)]
        if one.offset == CPUS:
            return [slots.load(one.dst, one.src, self.types.offset("task_struct", "cpus_ptr")), slots.load(one.dst, one.dst, 0)]
        one.offset = self.field(one.offset)
        return [one]

    def release(self):
        """Gives tasks that were asked for by their pids back."""
        lines = [slots.store(10, self.answer, 0)] if self.answer else []
        for cell in sorted(set(self.held)):
            lines += self.release_cell(cell)
        return lines + ([slots.load(0, 10, self.answer)] if self.answer else [])

    def release_cell(self, cell):
        return [slots.load(1, 10, cell), slots.Instruction(0x15, 1, 0, 1, 0), self.kernel_call("bpf_task_release")]

    def ask_task(self, cell):
        """The task with a pid. The task that was in its cell before is given back."""
        lines = []
        if self.held.count(cell) > 1:
            lines = [slots.store(10, self.pid, 1), *self.release_cell(cell), slots.load(1, 10, self.pid)]
        return [*lines, self.kernel_call("bpf_task_from_pid"), slots.store(10, cell, 0)]

    def helper(self, number, held):
        if number in (1, 5):
            return [slots.call(number)]
        if number == 1001:
            return [slots.Instruction(0xb4, 2, 0, 0, -1), self.kernel_call("scx_bpf_create_dsq"), slots.Instruction(0xbf, 0, 0, 32)]
        if number in (1002, 1003):
            name = "scx_bpf_dsq_insert" + ("_vtime" if number == 1003 else "")
            return [*self.insert_flags(4 if number == 1002 else 5), self.kernel_call(name), slots.move_number(0, 0)]
        if number == 1004:
            return [self.kernel_call("scx_bpf_dsq_move_to_local"), slots.Instruction(0x54, 0, 0, 0, 1)]
        if number == 1005:
            return self.choose()
        if number == 1006:
            return self.ask_idle()
        if number == 1007:
            return self.ask_task(next(held))
        if number == 1008:
            return [self.kernel_call("scx_bpf_dsq_nr_queued"), slots.Instruction(0xbf, 0, 0, 32)]
        return self.linux_helper(number) if self.rules == "linux" else [slots.call(number)]

    def linux_helper(self, number):
        """A helper that Linux rules alone have, but for pick_idle, whose mask is no number there."""
        is_true = slots.Instruction(0x54, 0, 0, 0, 1)
        if number == 1009:
            return [self.kernel_call("scx_bpf_kick_cpu"), slots.move_number(0, 0)]
        if number == 1010:
            return [*self.no_text(), self.kernel_call("scx_bpf_exit_bstr"), slots.move_number(0, 0)]
        if number == 1011:
            return [self.kernel_call("scx_bpf_cpu_curr")]
        if number == 1012:
            return [self.kernel_call("scx_bpf_dsq_peek")]
        if number == 1013:
            return [self.kernel_call("scx_bpf_task_running"), is_true]
        if number == 1014:
            return [self.kernel_call("scx_bpf_task_cpu"), slots.Instruction(0xbf, 0, 0, 32)]
        if number == 1015:
            raise NoCounterpart(f"{self.name}: a kernel's mask of CPUs is no number, as pick_idle takes one")
        if number == 1016:
            return [self.kernel_call("scx_bpf_test_and_clear_cpu_idle"), is_true]
        if number == 1017:
            return self.timers.start(self.timer, self.ns)
        if number == 1018:
            return self.timers.cancel(self.timer)
        if number == 1019:
            mask = slots.load(3, 1, self.types.offset("task_struct", "cpus_ptr"))
            return [mask, slots.move(1, 2), slots.move(2, 3), self.kernel_call("bpf_cpumask_test_cpu"), is_true]
        return [slots.call(number)]

    def no_text(self):
        """An empty text in r2, with one argument that it doesn't use in r3 and r4."""
        lines = [slots.Instruction(0x7a, 10, 0, self.text, 0), slots.move(2, 10), slots.add_number(2, self.text)]
        return [*lines, slots.move(3, 2), slots.move_number(4, 8)]

    def insert_flags(self, register):
        """Puts the kernel's numbers of flags in place of ours. r0 is free, as a call comes next."""
        lines = []
        for name, bit in INSERT_FLAGS.items() if self.rules == "linux" else ():
            number = self.types.flag(name)
            if number != 1 << bit:
                other = [slots.wide_number(0, ~(1 << bit)), slots.Instruction(0x5f, register, 0)]
                other += [slots.wide_number(0, number), slots.Instruction(0x4f, register, 0)]
                lines += [slots.move(0, register), slots.Instruction(0x77, 0, 0, 0, bit), slots.Instruction(0x57, 0, 0, 0, 1)]
                lines += [slots.Instruction(0x15, 0, 0, sum(one.size() for one in other), 0), *other]
        return lines

    def choose(self):
        """The kernel's choice claims a processor that is idle, and says so in a byte."""
        if self.previous:
            lines = [slots.load(2, 10, self.previous), slots.load(3, 10, self.flags)]
        else:
            lines = [slots.Instruction(0x61, 2, 1, self.field(24)), slots.move_number(3, 0)]
        lines += [slots.move(4, 10), slots.add_number(4, self.claimed), self.kernel_call("scx_bpf_select_cpu_dfl")]
        return lines + [slots.Instruction(0xbf, 0, 0, 32), slots.store(10, self.chosen, 0)]

    def ask_idle(self):
        """1 for the processor that was claimed; else what the mask of idle ones says."""
        ask = [self.kernel_call("scx_bpf_get_idle_cpumask"), slots.store(10, self.mask, 0), slots.load(1, 10, self.asked), slots.move(2, 0)]
        ask += [self.kernel_call("bpf_cpumask_test_cpu"), slots.Instruction(0x54, 0, 0, 0, 1), slots.store(10, self.bit, 0)]
        ask += [slots.load(1, 10, self.mask), self.kernel_call("scx_bpf_put_idle_cpumask"), slots.load(0, 10, self.bit)]
        lines = [slots.store(10, self.asked, 1)]
        if self.chooses:
            lines += [slots.Instruction(0x71, 0, 10, self.claimed), slots.Instruction(0x15, 0, 0, 4, 0), slots.load(0, 10, self.chosen)]
            lines += [slots.Instruction(0x5d, 0, 1, 2), slots.move_number(0, 1), slots.Instruction(slots.GOTO, 0, 0, len(ask))]
        return lines + ask


def exit_code(types, number):
    """Keeps kind, code and time of the exit in the last map."""
    lines = [slots.load(1, 1, 0), slots.Instruction(0x61, 6, 1, types.offset("scx_exit_info", "kind"))]
    lines += [slots.load(7, 1, types.offset("scx_exit_info", "exit_code")), slots.Instruction(0x62, 10, 0, -4, 0)]
    lines += [slots.move(2, 10), slots.add_number(2, -4), slots.wide_number(1, number, 5), slots.call(1)]
    lines += [slots.Instruction(0x15, 0, 0, 5, 0), slots.move(8, 0), slots.store(8, 0, 6), slots.store(8, 8, 7), slots.call(5), slots.store(8, 16, 0)]
    return slots.written(lines + [slots.Instruction(slots.EXIT)], [])[0]


def code_of(scxsim, policy, callback):
    """The slots of a callback, whichever way they are written, or None."""
    if callback in policy.get("slots", {}):
        return bytes.fromhex("".join(policy["slots"][callback].split()))
    if callback not in policy.get("code", {}):
        return None
    with tempfile.NamedTemporaryFile("w", suffix=".asm") as file:
        file.write(policy["code"][callback])
        file.flush()
        return subprocess.run([scxsim, "asm", file.name], stdout=subprocess.PIPE).stdout


def ops_lines(types, policy, more=()):
    """The lines for a policy before its programs, with its maps, that of its timers and more maps."""
    start = types.offset("bpf_struct_ops_sched_ext_ops", "data")
    members = dict(types.members("sched_ext_ops"))
    yield f"ops {types.struct('bpf_struct_ops_sched_ext_ops')} {types.size('bpf_struct_ops_sched_ext_ops')} {types.struct('sched_ext_ops')}"
    yield from map_lines(policy.get("map", []))
    if "timer" in policy:
        yield f"timers {len(policy['timer'])}"
    yield from map_lines(more)
    flags = types.flag("SCX_OPS_SWITCH_PARTIAL") | (types.flag("SCX_OPS_KEEP_BUILTIN_IDLE") if policy.get("keep_idle") else 0)
    yield f"set {start + members['flags']} 8 {flags}"
    yield f"set {start + members['timeout_ms']} 4 {policy.get('timeout_ms', 0)}"
    yield f"name {start + members['name']} {policy.get('name', 'policy')}"


def mask_of(cpus):
    """The CPUs that a list such as 0-3,8 says, a bit for each."""
    mask = 0
    for part in cpus.split(","):
        first, _, last = part.partition("-")
        mask |= (2 << int(last or first)) - (1 << int(first))
    return mask


def map_lines(maps):
    """For each map the kernel's number of its kind, the bytes of a key, and how many values it has, of how many bytes."""
    for one in maps:
        kind = one.get("kind", "array")
        if kind not in MAP_TYPES:
            raise NoCounterpart(f"a kernel has no map of kind {kind}")
        key_size = 0 if kind in ("queue", "stack") else one.get("key_size", 4)
        yield f"map {MAP_TYPES[kind]} {key_size} {one['entries']} {one['value_size']}"


def map_tables(policy):
    """The tables of a policy's maps, as a policy file has them."""
    for one in policy.get("map", []):
        yield "[[map]]"
        yield from (f'{key} = "{value}"' if key == "kind" else f"{key} = {value}" for key, value in one.items())


def program_line(types, callback, code):
    """The line for a program that is in the kernel's form."""
    start, member = types.offset("bpf_struct_ops_sched_ext_ops", "data"), "init" if callback == "timer" else callback
    number, offset = next((number, offset) for number, (name, offset) in enumerate(types.members("sched_ext_ops")) if name == member)
    return f"program {callback} {number} {start + offset} {int(member == 'init')} {code.hex()}"


def translated(types, callback, code, facts, policy, second=0):
    """A callback for the kernel. Where jumps lead to nothing it stays as it is, as a kernel looks at jumps first."""
    try:
        made = Callback(types, callback, code, facts.get(callback) or guessed(callback, code), policy)
        made.second = second
        return made.code()
    except slots.JumpToNothing:
        return code


def init_lines(types, name, codes, facts, policy):
    """The lines for the program of init and the function of timers after it, by these codes of init and of timer."""
    init, timer = codes.get("init") or ANSWERS_0, codes.get("timer") or ANSWERS_0
    second = len(translated(types, "init", init, facts, policy)) // 8
    first = translated(types, "init", init, facts, policy, second)
    yield program_line(types, name, first + translated(types, "timer", timer, facts, policy))
    yield f"second {second}"


def callback_lines(types, callback, codes, facts, policy):
    """The lines for a callback; those for init and timer are of one program where there are timers."""
    if "timer" in policy and callback in ("init", "timer"):
        return list(init_lines(types, callback, codes, facts, policy))
    return [program_line(types, callback, translated(types, callback, codes[callback], facts, policy))]


def policy_lines(types, scxsim, path):
    """The lines for a policy with all its callbacks."""
    policy, facts = tomllib.loads(Path(path).read_text()), known(scxsim, path)
    yield from ops_lines(types, policy, [{"entries": 1, "value_size": EXIT_VALUE}])
    has_timers, codes = "timer" in policy, {callback: code_of(scxsim, policy, callback) for callback in ARGUMENTS}
    for callback in ARGUMENTS:
        is_there = codes[callback] is not None or callback == "init" and has_timers
        if is_there and callback != "timer":
            yield from callback_lines(types, callback, codes, facts, policy)
    yield program_line(types, "exit", exit_code(types, len(policy.get("map", [])) + has_timers))


def nice_of(weight):
    """The nice value whose weight is nearest."""
    return min(range(40), key=lambda at: abs(NICE[at] * 100 / 1024 - weight)) - 20


def workload_lines(path, by_groups, rules):
    """Weights are nice values: by Linux rules those of the tasks, else those of their groups, or weights of cgroups."""
    workload = tomllib.loads(Path(path).read_text())
    if "change" in workload or any("cpu_max" in group for group in workload["group"]):
        raise NoCounterpart("changes of weights and cpu_max are not passed on to a kernel")
    names = [group["name"] for group in workload["group"]]
    weights = [group.get("weight", 100) for group in workload["group"]]
    for group, weight in zip(workload["group"], weights):
        yield f"group {names.index(group['parent']) if 'parent' in group else -1} {weight if by_groups else 100}"
    for task in workload["task"]:
        group = names.index(task["group"])
        nice = 0 if by_groups else nice_of(task.get("weight", 100) if rules == "linux" else weights[group])
        times = f"{task.get('start', 0)} {task.get('run', 0)} {task.get('sleep', 0)}"
        yield f"task {task['name']} {group} {nice} {times} {mask_of(task.get('cpus', '0-63'))}"
    yield f"go {workload['cpus']} {workload['ms']}"
