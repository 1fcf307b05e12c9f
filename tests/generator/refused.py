"""Programs that the verifier refuses: steps that go wrong."""
import re

from .host import CALLBACKS, IMMEDIATES, INSERTING, NUMBERS, WITH_TASK
from .assembler import CONDITIONS, OPERATORS
from .policies import built_in, busy_code, fair, fifo, ordered, ornament


def add_lines(*lines):
    """A step that adds these lines; in them N is a register with a number, U one that holds nothing, T the task."""
    def step(code):
        text = "\n".join(lines)
        number = code.number()
        unset = [each for each in range(10) if each not in code.kinds]
        names = {"N": f"{number}", "U": f"{code.random.choice(unset) if unset else number}"}
        if "rT" in text:
            names["T"] = "5"
            code.fetch(code.task, 5)
        out = code.label()
        for name, register in names.items():
            text = re.sub(rf"\b([rw]){name}\b", rf"\g<1>{register}", text)
        code.add(*text.replace("OUT", out).replace("SKIP", code.label()).split("\n"))
        if "OUT:" not in lines and "OUT" in "\n".join(lines):
            code.add(f"{out}:")
    return step


LOOK_UP = ["*(u32 *)(r10 - 4) = 0", "r2 = r10", "r2 += -4", "r1 = map 0", "call 1"]
ELEMENT = LOOK_UP + ["if r0 == 0 goto OUT"]
ASK = ["r1 = 1", "call 1007"]
REFUSED_LINES = {
    "BackJump": [["goto -1"], ["SKIP:", "rN += 1", "if rN < 5 goto SKIP"], ["gotol -1"], ["if rN == 7 goto -2"]],
    "OutOfProgram": [["goto +20000"], ["if rN != 3 goto +30000"], ["gotol +100000"], ["goto +32767"]],
    "IntoWide": [["goto +1", "rN = 5 ll"], ["if rN > 5 goto +1", "rN = 4294967296 ll"], ["gotol +1", "r0 = map 0"]],
    "UnusableRegister": [
        ["r0 = rU"], ["rU += 1"], ["rN += rU"], ["w0 = wU"], ["rU = -rU"], ["rU = be16 rU"],
        ["r3 = 5", "call 5", "r0 = r3"], ["*(u64 *)(r10 - 16) = rU"], ["r0 = *(u8 *)(rU + 0)"],
        ["*(u8 *)(rU + 0) = 5"], ["if rU == 0 goto OUT"], ["if rN > rU goto OUT"],
        ["r3 = 5", "if rN == 0 goto OUT", "r3 = r10", "OUT:", "r3 += 1"],
        ["call 5", "if rN > 5 goto OUT", "r5 = 1", "OUT:", "r0 = r5"],
        ["r4 = r10", "if rN == 0 goto SKIP", "r4 += -8", "SKIP:", "*(u64 *)(r4 - 8) = 1"],
        ["r9 = r10", "r9 += -16", "if rN == 0 goto SKIP", "r9 = r10", "SKIP:", "r0 = r9"]],
    "WritesFrame": [["r10 = 0"], ["r10 += -8"], ["w10 = 1"], ["r10 = 5 ll"], ["r10 = map 0"], ["r10 = le16 r10"],
                    ["r10 = *(u64 *)(r10 - 8)"], ["r10 = rN"], ["r10 = -r10"], ["w10 ^= wN"]],
    "UnwrittenStack": [
        ["r0 = *(u64 *)(r10 - 512)"], ["*(u32 *)(r10 - 512) = 1", "r0 = *(u64 *)(r10 - 512)"],
        ["*(u8 *)(r10 - 511) = 1", "r0 = *(u16 *)(r10 - 512)"],
        ["*(u64 *)(r10 - 512) = r10", "r0 = *(u32 *)(r10 - 512)"],
        ["*(u64 *)(r10 - 512) = r10", "*(u8 *)(r10 - 512) = 0", "r0 = *(u64 *)(r10 - 512)"],
        ["if rN == 3 goto OUT", "*(u64 *)(r10 - 504) = 1", "OUT:", "r0 = *(u64 *)(r10 - 504)"],
        ["*(u64 *)(r10 - 504) = r10", "if rN == 3 goto OUT", "*(u64 *)(r10 - 504) = 1", "OUT:",
         "r0 = *(u64 *)(r10 - 504)"],
        ["r1 = r10", "r1 += -512", "r0 = *(s8 *)(r1 + 3)"],
        ["*(u16 *)(r10 - 4) = 0", "*(u64 *)(r10 - 16) = r10", "r2 = r10", "r2 += -16", "r1 = map 0", "call 1"],
        ["r2 = r10", "r2 += -500", "r1 = map 0", "call 1"]],
    "OutOfBounds": [
        ["*(u64 *)(r10 + 0) = 0"], ["r0 = *(u8 *)(r10 - 513)"], ["*(u64 *)(r10 - 520) = 1"], ["r0 = *(u8 *)(rN + 0)"],
        ["*(u32 *)(rN + 4) = 1"], ["r1 = map 0", "r0 = *(u64 *)(r1 + 0)"], ["r1 = r10", "r1 += 8"],
        ["r1 = r10", "r1 -= 513"], ["r1 = r10", "r1 += -2147483648"],
        ["r1 = r10", "r1 += -8", "*(u64 *)(r1 + 8) = 0"], ELEMENT + ["r1 = *(u64 *)(r0 + 4096)"],
        ELEMENT + ["r0 += 4097"], ELEMENT + ["r0 -= 1"], ELEMENT + ["r0 = *(u8 *)(r0 - 1)"],
        LOOK_UP + ["if r0 != 0 goto OUT", "r1 = *(u8 *)(r0 + 0)"],
        ASK + ["if r0 != 0 goto OUT", "r1 = *(u32 *)(r0 + 0)"], ["*(u64 *)(r10 + 32767) = rN"],
        ["r0 = *(s32 *)(r10 + 4)"]],
    "Misaligned": [
        ["*(u64 *)(r10 - 12) = 0"], ["*(u16 *)(r10 - 15) = rN"], ["r0 = *(u32 *)(r10 - 18)"],
        ["r1 = r10", "r1 += -13", "*(u32 *)(r1 + 0) = 1"], ELEMENT + ["r1 = *(u16 *)(r0 + 1)"],
        ELEMENT + ["*(u32 *)(r0 + 2) = rN"],
        ["*(u64 *)(r10 - 8) = 0", "r2 = r10", "r2 += -6", "r1 = map 0", "call 1"]],
    "NullNotTested": [
        LOOK_UP + ["r1 = *(u8 *)(r0 + 0)"], LOOK_UP + ["*(u8 *)(r0 + 0) = 1"], ASK + ["r1 = *(u32 *)(r0 + 0)"],
        LOOK_UP + ["r9 = r0", "if r0 == 0 goto OUT", "r1 = *(u8 *)(r9 + 0)"], ASK + ["*(u64 *)(r0 + 16) = 5"],
        LOOK_UP + ["r2 = r0", "r1 = map 0", "call 1"], LOOK_UP + ["r0 += 1"],
        LOOK_UP + ["if r0 == 0 goto OUT", "OUT:", "r1 = *(u8 *)(r0 + 0)"]],
    "PointerArithmetic": [
        ["r1 = r10", "r1 *= 2"], ["r1 = r10", "w1 += 4"], ["r1 = r10", "r1 += rN"], ["r1 = r10", "r1 = -r1"],
        ["w1 = w10"], ["r1 = r10", "r1 = le16 r1"], ["r1 = (s8)r10"], ["r1 = map 0", "r1 += 1"], ["rN += r10"],
        ["r1 = r10", "r1 s>>= 2"], ELEMENT + ["r0 |= 1"], LOOK_UP + ["r0 += rN"], ["r0 = 1", "r0 -= r10"],
        ASK + ["r0 += 8"], ["r1 = r10", "r1 -= r10"]],
    "PointerCompare": [
        ["if r10 == 1 goto OUT"], ["if r10 > 0 goto OUT"], ["if w10 == 0 goto OUT"], ["if rN == r10 goto OUT"],
        ["if r10 != rN goto OUT"], ["if r10 & 0 goto OUT"], LOOK_UP + ["if r0 == 5 goto OUT"],
        ["r1 = map 0", "if r1 s> 0 goto OUT"], LOOK_UP + ["if w0 != 0 goto OUT"], ASK + ["if r0 >= 1 goto OUT"]],
    "PointerStore": [
        ["*(u32 *)(r10 - 12) = r10"], ["*(u8 *)(r10 - 12) = r10"], ELEMENT + ["*(u8 *)(r0 + 0) = r10"],
        ELEMENT + ["*(u8 *)(r0 + 0) = r0"], ["r1 = map 0", "*(u16 *)(r10 - 12) = r1"],
        ASK + ["*(u32 *)(r10 - 12) = r0"], ASK + ["if r0 == 0 goto OUT", "*(u64 *)(r0 + 8) = r10"]],
    "TaskField": [[*ASK, "if r0 == 0 goto OUT", line] for line in [
        "r1 = *(u32 *)(r0 + 8)", "r1 = *(u64 *)(r0 + 0)", "r1 = *(u8 *)(r0 + 4)", "r1 = *(s32 *)(r0 + 4)",
        "*(u32 *)(r0 + 0) = 1", "*(u32 *)(r0 + 28) = 1", "*(u64 *)(r0 + 32) = rN", "r1 = *(u64 *)(r0 + 40)",
        "r1 = *(u32 *)(r0 - 4)", "*(u32 *)(r0 + 8) = 1", "*(u32 *)(r0 + 24) = 1", "r1 = *(s32 *)(r0 + 24)",
        "r1 = *(u16 *)(r0 + 16)", "*(u32 *)(r0 + 4) = rN", "r1 = *(s32 *)(r0 + 0)"]],
    "UnknownHelper": [["call 77"], ["call 0"], ["call -1"], ["call 2"], ["call 1000"], ["call 1009"],
                      ["call 2147483647"]],
    "BadArgument": [
        ["r1 = 0", "r2 = r10", "r2 += -8", "call 1"], ["r1 = map 0", "r2 = 0", "call 1"],
        ["r1 = map 0", "r2 = map 0", "call 1"], ["r1 = r10", "call 1007"], ["r1 = map 0", "call 1008"],
        ["r1 = r10", "call 1008"], ["call 5", "call 1008"], ["r1 = map 0", "r2 = r1", "call 1"],
        ASK + ["r1 = r0", "call 1007"], LOOK_UP + ["r1 = r0", "call 1008"]],
    "UnknownMap": [["r1 = map 16"], ["r1 = map -1"], ["r1 = map 2147483647"], ["r1 = map 15"]],
}
REFUSED_OF_TASK = {
    "TaskField": [["r1 = *(u64 *)(rT + 4)"], ["*(u32 *)(rT + 4) = 1"], ["r1 = *(u32 *)(rT + 32767)"]],
    "PointerArithmetic": [["rT += 8"], ["rT <<= 1"]],
    "PointerCompare": [["if rT == rT goto OUT"], ["if rT < 9 goto OUT"]],
    "PointerStore": [["*(u32 *)(r10 - 12) = rT"], ["*(u64 *)(rT + 16) = rT"]],
}
NOT_HERE = {1001: CALLBACKS[1:], 1002: ["init", "enable", "running", "stopping"],
            1003: ["init", "enable", "running", "stopping"],
            1004: ["init", "enable", "select_cpu", "enqueue", "running", "stopping"],
            1005: ["init", "enable", "dispatch", "running", "stopping"],
            1006: ["init", "enable", "running", "stopping"]}


def unsafe(name):
    """A sort that the verifier refuses for the fault of that name."""
    def generate(random, plan):
        policy = ornament(random.choice([fifo, fair, ordered, built_in, busy_code])(random, plan))
        if not policy.maps:
            policy.map(4, random.choice([8, 16]))
        callback = random.choice(CALLBACKS)
        of_task = REFUSED_OF_TASK.get(name, []) if callback in WITH_TASK else []
        lines = random.choice(REFUSED_LINES[name] + of_task)
        policy.do_somewhere(callback, add_lines(*lines))
        return policy
    return generate


def falling_off(random, plan):
    """The last instruction is neither exit nor a jump."""
    policy = fifo(random, plan)
    line = random.choice(["r0 = 0", "if r0 == 0 goto +0", "call 5", "r0 = 5 ll", "*(u8 *)(r10 - 1) = 0"])
    policy.do(random.choice(CALLBACKS), lambda code: code.add("r0 = 0"))
    return cut_end(policy, random, line)


def cut_end(policy, random, line):
    """The policy with another last line in one callback."""
    callback = random.choice(sorted(policy.steps))
    programs = policy.programs()
    programs[callback][-1] = line
    policy.programs = lambda: programs
    return policy


def not_here(random, plan):
    """A helper that the callback may not call."""
    policy = ornament(random.choice([fifo, fair, built_in])(random, plan))
    number = random.choice(sorted(NOT_HERE))
    callback = random.choice(NOT_HERE[number])
    policy.do_somewhere(callback, lambda code: code.add("r1 = 0", f"call {number}"))
    return policy


BAD_INSERTS = [["r2 = 0", "r3 = 0", "r4 = 0", "call 1002"], ["r2 = r10", "r3 = 0", "r4 = 0", "r5 = 0", "call 1003"],
               ["r2 = 0", "r3 = 0", "r4 = r10", "call 1002"], ["r2 = 0", "r3 = 0", "r4 = 0", "r5 = r10", "call 1003"],
               ["call 1005"]]


def bad_insert(random, plan):
    """A helper for tasks that gets something else."""
    policy = fifo(random, plan)
    policy.map(1, 8)
    first, lines = random.choice(["task", "r1 = 0", "r1 = r10", "r1 = map 0", "call 5"]), random.choice(BAD_INSERTS)

    def step(code):
        if first == "task":
            code.fetch(code.task or code.before, 1)
        else:
            code.add(first)
        code.add(*lines)
    policy.do_somewhere(random.choice(INSERTING), step)
    return policy


def bad_answer(random, plan):
    """r0 holds no number where a callback answers one."""
    policy = fifo(random, plan)
    policy.map(1, 8)
    callback = random.choice(["init", "select_cpu"])
    lines = random.choice([["r0 = r10"], ["r0 = map 0"], LOOK_UP, ASK if callback == "select_cpu" else LOOK_UP])
    if callback == "select_cpu" and random.random() < 0.5:
        policy.do(callback, lambda code: code.add("exit"))
    else:
        policy.do(callback, lambda code: code.add(*lines, "exit"))
    return policy


def random_line(random):
    """Some instruction, whatever it does."""
    def register():
        return random.choice([0, 0, 1, 1, 2, 3, 4, 5, 6, 7, 10])
    width = random.choice("rrrw")
    bits = random.choice([8, 16, 32, 64])
    return random.choice([
        f"{width}{register()} {random.choice(list(OPERATORS))}= {random.choice(IMMEDIATES)}",
        f"r{register()} = r{register()}",
        f"{width}{register()} {random.choice(list(OPERATORS))}= {width}{register()}",
        f"r{register()} = {random.choice(NUMBERS)} ll",
        f"r{register()} = {random.choice([0, 1, 5, -8])}",
        f"r{register()} = *(u{bits} *)(r{register()} + {random.choice([0, 4, 8, 16])})",
        f"*(u{bits} *)(r10 - {random.choice([4, 8, 16, 24, 512])}) = r{register()}",
        f"r{register()} = *(u{bits} *)(r10 - 8)",
        f"if r{register()} {random.choice(list(CONDITIONS))} {random.choice([0, 0, 1])} goto +{random.randrange(4)}",
        f"r{register()} = map {random.choice([0, 0, 1])}",
        f"call {random.choice([1, 5, 1002, 1004, 1006, 1007, 1008])}", "r0 = 0"])


def any_lines(random, plan):
    """Programs of instructions at random, which are refused for many causes."""
    policy = fifo(random, plan)
    policy.map(4, 16)
    for callback in random.sample(CALLBACKS, random.randrange(1, 4)):
        count = random.randrange(1, 12)
        policy.do_somewhere(callback, lambda code: code.add(*[random_line(random) for _ in range(count)]))
    return policy
