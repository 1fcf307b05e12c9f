"""Code that does nothing of use. Each function adds some lines."""
from . import workloads
from .host import CALLBACKS, FIELDS, IMMEDIATES, INSERTING, LINUX_CALLBACKS, MAYBE, NUMBER, NUMBERS, TASK, WITH_TASK
from .assembler import CONDITIONS, OPERATORS, SWAPS
from .programs import look_up, null_tested


def set_number(code):
    register = code.free()
    if code.random.random() < 0.3:
        code.add(f"w{register} = {code.random.choice(IMMEDIATES)}")
        code.kinds[register] = NUMBER
    else:
        code.set(register, code.random.choice(NUMBERS + [code.random.randrange(2**64)]))


def compute(code):
    register, width = code.number(writable=True), code.random.choice("rw")
    operator = code.random.choice(list(OPERATORS))
    if code.random.random() < 0.5:
        operand = f"{width}{code.number()}"
    else:
        operand = code.random.choice(IMMEDIATES + [code.random.randrange(-(2**31), 2**31)])
    code.add(f"{width}{register} {operator}= {operand}")


def convert(code):
    source = code.number()
    target = code.free()
    code.add(code.random.choice([
        f"r{target} = r{source}", f"w{target} = w{source}", f"r{target} = (s8)r{source}",
        f"r{target} = (s16)r{source}",
        f"r{target} = (s32)r{source}", f"w{target} = (s8)w{source}", f"w{target} = (s16)w{source}"]))
    code.kinds[target] = NUMBER


def turn(code):
    register = code.number(writable=True)
    swap = code.random.choice(list(SWAPS)) + code.random.choice(["16", "32", "64"])
    code.add(code.random.choice([f"r{register} = -r{register}", f"w{register} = -w{register}",
                                 f"r{register} = {swap} r{register}", f"r{register} = {swap} r{register}"]))


def operand_of(code):
    return f"r{code.number()}" if code.random.random() < 0.6 else str(code.random.choice(IMMEDIATES))


def store_cell(code):
    """Writes a cell at once, or in pieces."""
    operand, below = operand_of(code), code.cell()
    size = code.random.choice([8, 8, 4, 2, 1])
    for at in range(below, below - 8, -size):
        code.add(f"*(u{size * 8} *)(r10 - {at}) = {operand}")
    code.stack[below] = NUMBER


def load_cell(code):
    """Reads a part of a cell that was written."""
    written = [below for below, kind in code.stack.items() if kind == NUMBER]
    if not written:
        return store_cell(code)
    register, size = code.free(), code.random.choice([1, 2, 4, 8])
    at = code.random.choice(written) - size * code.random.randrange(8 // size)
    sign = code.random.choice("us") if size < 8 else "u"
    code.add(f"r{register} = *({sign}{size * 8} *)(r10 - {at})")
    code.kinds[register] = NUMBER


def store_by_pointer(code):
    """Writes a cell by a pointer that was moved."""
    operand, below = code.number(), code.cell()
    register = code.free(operand)
    moved = code.random.randrange(0, below + 1)
    code.add(f"r{register} = r10", f"r{register} += -{moved}")
    if code.random.random() < 0.3:
        further = code.random.randrange(0, 513 - moved)
        code.add(f"r{register} -= {further}")
        moved += further
    offset = moved - below
    code.add(f"*(u64 *)(r{register} {'-' if offset < 0 else '+'} {abs(offset)}) = r{operand}")
    code.kinds.pop(register, None)
    code.stack[below] = NUMBER


def store_pointer(code):
    """Keeps a pointer in a cell, and fetches it."""
    pointers = [register for register, kind in code.kinds.items() if kind in (TASK, MAYBE)] + [10]
    register, below, target = code.random.choice(pointers), code.cell(), code.free()
    code.add(f"*(u64 *)(r10 - {below}) = r{register}", f"r{target} = *(u64 *)(r10 - {below})")
    kind = code.kinds.pop(register) if register == target else code.kinds.get(register)
    code.kinds.pop(target, None)
    code.stack.pop(below, None)
    if kind:
        code.kinds[target] = code.stack[below] = kind


def read_field(code):
    register = code.free()
    code.fetch_field(register, code.random.choice(FIELDS))


def write_field(code):
    number = code.number()
    register = code.free(number)
    code.fetch(code.task, register)
    code.add(f"*(u64 *)(r{register} + {code.random.choice([8, 16])}) = r{number}")


def element_access(code):
    """A size in bytes and an offset that lie in an element of the map in r0."""
    value_size = code.policy.maps[code.kinds[0][1]][1]
    size = code.random.choice([each for each in (1, 2, 4, 8) if each <= value_size])
    return size, size * code.random.randrange(value_size // size)


def use_element(code):
    """Reads or writes r0, an element."""
    size, offset = element_access(code)
    part = f"*(u{size * 8} *)(r0 + {min(offset, 32767 // size * size)})"
    use = code.random.randrange(4)
    if use == 0:
        code.add(f"{part} = {code.random.choice(IMMEDIATES)}")
    elif use == 1:
        code.add(f"{part} = r{code.number(0)}")
    else:
        register = code.free(0)
        code.add(f"r{register} = {part}")
        code.kinds[register] = NUMBER
        if use == 3:
            code.add(f"r{register} += {code.random.choice(IMMEDIATES)}", f"{part} = r{register}")


def move_element(code):
    """Moves r0, an element, and reads through the moved pointer."""
    size, offset = element_access(code)
    register = code.free(0)
    code.add("r%d = r0" % register, f"r{register} += {offset}", f"r{register} = *(u{size * 8} *)(r{register} + 0)")
    code.kinds[register] = NUMBER


def look_further(code):
    """Takes a key out of r0, an element, and looks up another."""
    if code.policy.maps[code.kinds[0][1]][1] < 4:
        return use_element(code)
    number = code.random.randrange(len(code.policy.maps))
    code.add("r2 = r0", f"r1 = map {number}")
    code.call(1)
    null_tested(code, lambda: use_element(code), ("element", number))


def work_on_map(code):
    if not code.policy.maps:
        return set_number(code)
    number = code.random.randrange(len(code.policy.maps))
    entries = code.policy.maps[number][0]
    key = code.random.choice([0, entries - 1, code.random.randrange(entries), entries, -1, f"r{code.number()}"])
    found = code.random.choice([use_element, use_element, use_element, move_element, look_further])
    look_up(code, number, key, found)


def read_clock(code):
    code.call(5)


def ask_length(code):
    if not code.policy.queues or code.callback == "init":
        return read_clock(code)
    code.set(1, code.random.choice(code.policy.queues))
    code.call(1008)


def ask_idle(code):
    if not code.policy.tracks_idle:
        return read_clock(code)
    code.set(1, code.random.randrange(code.plan.processors))
    code.call(1006)


def kick(code):
    code.set(1, code.random.randrange(code.plan.processors))
    code.set(2, code.random.choice([0, 1, 2, 2]))
    code.call(1009)


def ask_choice(code):
    if not code.policy.tracks_idle:
        return read_clock(code)
    code.fetch(code.task, 1)
    code.call(1005)


def use_task(code):
    """Reads r0, a task, and may give it another virtual time."""
    register = code.free(0)
    code.load_field(register, 0, code.random.choice(FIELDS))
    if code.random.random() < 0.1:
        code.add(f"*(u64 *)(r0 + 16) = r{register}")


def ask_task(code):
    if code.random.random() < 0.7:
        code.set(1, code.random.choice([0, 1, 2, 2**32 + 1, code.random.randrange(2 * len(code.plan.tasks))]))
    else:
        code.add(f"r1 = r{code.number()}")
        code.kinds[1] = NUMBER
    code.call(1007)
    null_tested(code, lambda: use_task(code), TASK)


def use_before(code):
    """Reads the task that ran before, and may give it another slice."""
    code.fetch(code.before, 0)
    null_tested(code, lambda: use_task(code), TASK)


def comparison(code):
    width = code.random.choice("rw")
    register = code.number()
    operand = f"{width}{code.number()}" if code.random.random() < 0.4 else code.random.choice(IMMEDIATES)
    return f"{width}{register} {code.random.choice(list(CONDITIONS))} {operand}"


def branch(code):
    """Lines that are jumped over, and perhaps others that are done instead."""
    if not code.depth:
        return compute(code)
    code.depth -= 1
    over = code.label()
    code.add(f"if {comparison(code)} goto {over}")
    before = code.state()
    add_noise(code, code.random.randrange(1, 4))
    if code.random.random() < 0.4:
        end, after = code.label(), code.state()
        code.add(f"{code.random.choice(['goto', 'gotol'])} {end}", f"{over}:")
        code.go_back(before)
        add_noise(code, code.random.randrange(1, 4))
        code.add(f"{end}:")
        code.join(after)
    else:
        code.add(f"{over}:")
        code.join(before)
    code.depth += 1


def jump_over(code):
    """Lines to which control never comes, some of which would be refused."""
    over = code.label()
    code.add(f"{code.random.choice(['goto', 'gotol'])} {over}")
    code.add(*code.random.sample(["r0 = r9", "r10 = 5", "call 77", "r1 = map 15", "r2 = 7 ll",
                                  "*(u64 *)(r10 + 8) = 1",
                                  "r3 *= r10", "if r4 > 5 goto +0", "exit"], code.random.randrange(1, 4)))
    code.add(f"{over}:")


POLICY = CALLBACKS + LINUX_CALLBACKS
ANY = POLICY + ["plain"]
NOISE = [
    (4, set_number, ANY), (10, compute, ANY), (4, convert, ANY),
    (3, turn, ANY), (4, store_cell, ANY), (4, load_cell, ANY),
    (2, store_by_pointer, ANY), (1, store_pointer, ANY), (5, branch, ANY),
    (1, jump_over, ANY), (4, read_field, WITH_TASK), (1, write_field, ["enable", "stopping", "tick", "runnable", "quiescent"]),
    (6, work_on_map, POLICY), (2, read_clock, POLICY), (2, ask_length, POLICY), (2, ask_idle, INSERTING),
    (1, ask_choice, ["select_cpu", "enqueue"]), (2, ask_task, POLICY[1:]), (3, use_before, ["dispatch"]),
]


def add_noise(code, count):
    noise = NOISE + workloads.LINUX_NOISE
    usable = [(weight, add) for weight, add, callbacks in noise if code.callback in callbacks]
    for add in code.random.choices([add for _, add in usable], [weight for weight, _ in usable], k=count):
        add(code)
