"""Expressions and steps. An expression sets one register to a number, for which it may use r0; a step adds what a
callback is there for."""
from .host import ANSWERING, NUMBER, TASK, VTIME
from .programs import look_up, null_tested


def constant(number):
    return lambda code, register: code.set(register, number)


def field(which):
    return lambda code, register: code.fetch_field(register, which)


def given(code, register):
    """The number that the callback was called with."""
    code.fetch(code.number_given if code.number_given else code.processor, register)


def modulo(expression, count, base):
    """One of `count` numbers from `base` on."""
    def take(code, register):
        expression(code, register)
        code.add(f"r{register} %= {count}")
        if base < 2**31:
            code.add(f"r{register} += {base}")
        else:
            code.add(f"r0 = {base} ll", f"r{register} += r0")
            code.kinds[0] = NUMBER
    return take


def insert(queue, slice_left, vtime=None, flags=constant(0), task=None):
    """Inserts the task at hand, or the one at the place that `task` answers."""
    def step(code):
        place = task(code) if task else code.task
        numbers = [(2, queue), (3, slice_left)] + ([(4, vtime), (5, flags)] if vtime else [(4, flags)])
        arguments = [(1, lambda code, register: code.fetch(place, register))] + numbers
        code.random.shuffle(arguments)
        for register, expression in arguments:
            expression(code, register)
        code.call(1003 if vtime else 1002)
    return step


def either(expression, condition, first, second=None):
    """Does one step where the condition holds of the number, else the other."""
    def step(code):
        other, end = code.label(), code.label()
        expression(code, 1)
        code.add(f"if r1 {condition} goto {other}")
        before = code.state()
        if second:
            second(code)
        after = code.state()
        code.add(f"goto {end}", f"{other}:")
        code.go_back(before)
        first(code)
        code.add(f"{end}:")
        code.join(after)
    return step


def create(queue):
    def step(code):
        code.set(1, queue)
        code.call(1001)
    return step


def call_with(number, helper):
    def step(code):
        code.set(1, number)
        code.call(helper)
    return step


def move_first(queues):
    """Moves the front of the first of the queues that isn't empty."""
    def step(code):
        out = code.label()
        for queue in queues:
            code.set(1, queue)
            code.call(1004)
            if queue != queues[-1]:
                code.add(f"if r0 != 0 goto {out}")
        code.add(f"{out}:")
    return step


def move_own(base, count):
    """Moves the front of the queue that goes with the processor."""
    def step(code):
        modulo(given, count, base)(code, 1)
        code.call(1004)
    return step


def move_longer(first, second):
    def step(code):
        code.set(1, first)
        code.call(1008)
        code.add("r9 = r0")
        code.set(1, second)
        code.call(1008)
        code.kinds[9] = NUMBER
        code.add("r1 = r9", "r2 = r0")
        shorter, end = code.label(), code.label()
        code.add(f"if r1 < r2 goto {shorter}", f"r1 = {first} ll", f"goto {end}", f"{shorter}:", f"r1 = {second} ll",
                 f"{end}:")
        code.call(1004)
    return step


def move_in_turn(number, base, count):
    """Moves from the queues one after another, by a count in a map."""
    def found(code):
        code.add("r1 = *(u64 *)(r0 + 0)", "r1 += 1", "*(u64 *)(r0 + 0) = r1")
        code.kinds[1] = NUMBER
        modulo(lambda code, register: code.add("r1 = r1"), count, base)(code, 1)
        code.call(1004)
    return lambda code: look_up(code, number, 0, found)


def lengthen(slice_left):
    """Gives the task before another slice."""
    def found(code):
        code.set(1, slice_left)
        code.add("*(u64 *)(r0 + 8) = r1")

    def step(code):
        code.fetch(code.before, 0)
        null_tested(code, lambda: found(code), TASK)
    return step


def count_up(number, key, condition=None, then=None):
    """Counts in a map, and does `then` where the condition holds of the count."""
    def found(code):
        code.add("r1 = *(u64 *)(r0 + 0)", "r1 += 1", "*(u64 *)(r0 + 0) = r1")
        code.kinds[1] = NUMBER
        if then:
            either(lambda code, register: code.add("r1 = r1"), condition, then)(code)

    def step(code):
        if isinstance(key, int):
            return look_up(code, number, key, found)
        key(code, 3)
        look_up(code, number, "r3", found)
    return step


def raise_now(number):
    """Brings the virtual time in a map up to that of the task."""
    def found(code):
        out = code.label()
        code.fetch_field(2, VTIME)
        code.add("r1 = *(u64 *)(r0 + 0)", "r3 = r1", "r3 -= r2", f"if r3 s>= 0 goto {out}", "*(u64 *)(r0 + 0) = r2",
                 f"{out}:")
        code.kinds |= {1: NUMBER, 3: NUMBER}
    return lambda code: look_up(code, number, 0, found)


def catch_up(number, slice_left):
    """Brings the task's virtual time up to a slice less than the one in a map."""
    def found(code):
        out = code.label()
        code.fetch(code.task, 3)
        code.add("r1 = *(u64 *)(r0 + 0)", f"r1 += -{slice_left}", "r2 = *(u64 *)(r3 + 16)", "r2 -= r1",
                 f"if r2 s>= 0 goto {out}", "*(u64 *)(r3 + 16) = r1", f"{out}:")
        code.kinds |= {1: NUMBER, 2: NUMBER}
    return lambda code: look_up(code, number, 0, found)


def charge(slice_left):
    """Adds what the task used of its slice to its virtual time, by its weight."""
    def step(code):
        code.fetch(code.task, 1)
        code.add(f"r2 = {slice_left}", "r3 = *(u64 *)(r1 + 8)", "r2 -= r3", "r2 *= 100", "r3 = *(u32 *)(r1 + 4)",
                 "r2 /= r3", "r3 = *(u64 *)(r1 + 16)", "r3 += r2", "*(u64 *)(r1 + 16) = r3")
        code.kinds |= {2: NUMBER, 3: NUMBER}
    return step


def store_field(which, expression):
    def step(code):
        expression(code, 2)
        code.fetch(code.task, 1)
        code.add(f"*(u64 *)(r1 + {which[0]}) = r2")
    return step


def answer(expression):
    """Sets what select_cpu answers."""
    def step(code):
        expression(code, 1)
        code.answer = code.keep(1)
    return step


def default_choice(code, register):
    code.fetch(code.task, 1)
    code.call(1005)
    code.add(f"r{register} = r0")
    code.kinds[register] = NUMBER


def answer_idle(processors):
    """The first of these processors that is idle, else where the task ran last."""
    def step(code):
        given(code, 1)
        code.answer = code.keep(1)
        below = code.cell()
        code.fetch(code.answer, 1)
        code.add(f"*(u64 *)(r10 - {below}) = r1")
        out = code.label()
        for processor in processors:
            code.set(1, processor)
            code.call(1006)
            after = code.label()
            code.add(f"if r0 == 0 goto {after}", f"*(u64 *)(r10 - {below}) = {processor}", f"goto {out}", f"{after}:")
        code.add(f"{out}:")
        code.reserved.add(-below)
        code.stack[below] = NUMBER
        code.answer = -below
    return step


def insert_where_idle(step):
    """Does the step where the processor that is answered is idle."""
    def asked(code):
        code.fetch(code.answer, 1)
        code.call(1006)
        either(lambda code, register: code.add("r1 = r0"), "!= 0", step)(code)
    return asked


def leave(code):
    """Ends the callback."""
    if code.callback in ANSWERING:
        code.add("r0 = 0")
    code.add("exit")


def finish(code):
    if code.answer is not None:
        code.fetch(code.answer, 0)
    elif code.callback == "select_cpu":
        code.fetch(code.number_given, 0)
    elif code.callback == "init":
        code.add("r0 = 0")
    elif code.callback == "plain":
        code.add(f"r0 = r{code.number()}")
    code.add("exit")
