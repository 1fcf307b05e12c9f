"""Policies that hold tasks."""
from .host import GLOBAL, LOCAL, LOCAL_ON, NUMBER, PID, TASK
from .programs import look_up, null_tested
from .steps import constant, given, insert, modulo
from .policies import SLICES, Policy


def into_ring(ring, counts, entries):
    """Puts the task's pid into a ring."""
    def found(code):
        first = keep_element(code)
        code.add("r3 = *(u64 *)(r0 + 8)", f"r3 &= {entries - 1}")
        code.kinds[3] = NUMBER
        look_up(code, ring, "r3", lambda code: put(code, first))

    def put(code, first):
        code.fetch_field(2, PID)
        code.add("*(u64 *)(r0 + 0) = r2", f"r1 = {first}", "r2 = *(u64 *)(r1 + 8)", "r2 += 1",
                 "*(u64 *)(r1 + 8) = r2")
    return lambda code: look_up(code, counts, 0, found)


def keep_element(code):
    """Copies r0, an element, to r9, and answers its name; the verifier knows it there."""
    code.add("r9 = r0")
    code.kinds.pop(9, None)
    code.reserved.add(9)
    return "r9"


def out_of_ring(ring, counts, entries, hand_out):
    """Takes a pid out of the ring, and hands out its task."""
    def found(code):
        out = code.label()
        first = keep_element(code)
        code.add("r3 = *(u64 *)(r0 + 0)", "r2 = *(u64 *)(r0 + 8)", f"if r3 == r2 goto {out}", f"r3 &= {entries - 1}")
        empty = code.state()
        code.kinds[3] = NUMBER
        look_up(code, ring, "r3", lambda code: take(code, first))
        code.add(f"{out}:")
        code.join(empty)

    def take(code, first):
        code.add("r1 = *(u64 *)(r0 + 0)", f"r2 = *(u64 *)({first} + 0)", "r2 += 1", f"*(u64 *)({first} + 0) = r2")
        code.call(1007)
        null_tested(code, lambda: hand_out(code), TASK)
    return lambda code: look_up(code, counts, 0, found)


def held_task(code):
    """The place of the task in r0."""
    below = code.cell()
    code.reserved.add(-below)
    code.add(f"*(u64 *)(r10 - {below}) = r0")
    code.stack[below] = TASK
    return -below


def hand_out_step(queue, slice_left, vtime=None, flags=constant(0)):
    return insert(queue, slice_left, vtime=vtime, flags=flags, task=held_task)


def some_hand_out(policy):
    random, processors = policy.random, policy.plan.processors
    queue = random.choice([constant(LOCAL), constant(LOCAL), constant(GLOBAL), modulo(given, processors, LOCAL_ON)])
    return hand_out_step(queue, constant(random.choice(SLICES[2:])))


def ring(random, plan, hand_out=None):
    """Tasks are held, and dispatch takes them out of a ring of pids."""
    policy = Policy(random, plan)
    entries = 4
    while entries < len(plan.tasks):
        entries *= 2
    pids, counts = policy.map(entries, 8), policy.map(1, 16)
    policy.do("enqueue", into_ring(pids, counts, entries))
    for _ in range(random.choice([1, 1, 2])):
        step = hand_out(policy) if hand_out else some_hand_out(policy)
        policy.do("dispatch", once_more(pids, counts, entries, step))
    return policy


def once_more(pids, counts, entries, hand_out):
    """Takes a task out of the ring, then gives r9 back."""
    def step(code):
        out_of_ring(pids, counts, entries, hand_out)(code)
        code.reserved.discard(9)
    return step


def marked(random, plan):
    """Tasks are held, and dispatch looks which of the first are marked as such."""
    policy = Policy(random, plan)
    marks = policy.map(len(plan.tasks) + 1, 8)
    policy.do("enqueue", mark(marks, 1))
    for pid in range(1, 1 + min(len(plan.tasks), 8)):
        policy.do("dispatch", take_marked(marks, pid, some_hand_out(policy)))
    if random.random() < 0.7:
        policy.do("select_cpu", mark(marks, 0))
    return policy


def mark(marks, number):
    def found(code):
        code.add(f"*(u64 *)(r0 + 0) = {number}")

    def step(code):
        code.fetch_field(3, PID)
        look_up(code, marks, "r3", found)
    return step


def take_marked(marks, pid, hand_out):
    def found(code):
        out = code.label()
        code.add("r1 = *(u64 *)(r0 + 0)", f"if r1 == 0 goto {out}", "*(u64 *)(r0 + 0) = 0")
        unmarked = code.state()
        code.set(1, pid)
        code.call(1007)
        null_tested(code, lambda: hand_out(code), TASK)
        code.add(f"{out}:")
        code.join(unmarked)
    return lambda code: look_up(code, marks, pid, found)
