"""Programs that grow, with what the verifier knows at their end."""
from .host import GIVEN, NUMBER, NUMBERS, WITH_TASK


class Code:
    """The lines of a program. `kinds` has what each register holds, and `stack` what eight bytes of the stack
    do, by how far they begin below r10; what isn't there may not be read. A place is a register's number, or
    how far below r10 a cell is, as a negative number; those in `reserved` are left alone."""

    def __init__(self, policy, callback):
        self.policy, self.plan, self.random, self.callback = policy, policy.plan, policy.random, callback
        self.lines, self.labels, self.depth = [], 0, 2
        self.kinds, self.stack, self.reserved = dict(GIVEN[callback]), {}, set()
        self.task = self.keep(1) if callback in WITH_TASK else None
        self.number_given = self.keep(2) if self.kinds.get(2) == NUMBER else None
        self.processor = self.keep(1) if callback == "dispatch" else None
        self.before = self.keep(2) if callback == "dispatch" else None
        self.answer = None

    def add(self, *lines):
        self.lines += lines

    def label(self):
        self.labels += 1
        return f"L{self.labels}"

    def state(self):
        return dict(self.kinds), dict(self.stack)

    def go_back(self, state):
        self.kinds, self.stack = dict(state[0]), dict(state[1])

    def join(self, state):
        """Keeps what is known on both ways."""
        self.kinds = {key: kind for key, kind in self.kinds.items() if state[0].get(key) == kind}
        self.stack = {key: kind for key, kind in self.stack.items() if state[1].get(key) == kind}

    def free(self, *without):
        """A register that may be written."""
        return self.random.choice([each for each in range(10) if each not in self.reserved and each not in without])

    def cell(self):
        """How far below r10 a cell is that may be written; the uppermost one is for keys."""
        return self.random.choice([each for each in range(16, 513, 8) if -each not in self.reserved])

    def set(self, register, number):
        if -(2**31) <= number < 2**31 and self.random.random() < 0.9:
            self.add(f"r{register} = {number}")
        else:
            self.add(f"r{register} = {number} ll")
        self.kinds[register] = NUMBER

    def number(self, *without, writable=False):
        """A register that holds a number; one is set where there is none."""
        known = [each for each, kind in self.kinds.items()
                 if kind == NUMBER and each not in without and not (writable and each in self.reserved)]
        if known and self.random.random() < 0.9:
            return self.random.choice(known)
        register = self.free(*without)
        self.set(register, self.random.choice(NUMBERS))
        return register

    def keep(self, register):
        """Copies what a register holds to a place where it stays."""
        free = [each for each in range(6, 9) if each not in self.reserved]
        if free and self.random.random() < 0.8:
            place = self.random.choice(free)
            self.add(f"r{place} = r{register}")
            self.kinds[place] = self.kinds[register]
        else:
            below = self.cell()
            place = -below
            self.add(f"*(u64 *)(r10 - {below}) = r{register}")
            self.stack[below] = self.kinds[register]
        self.reserved.add(place)
        return place

    def fetch(self, place, register):
        if place > 0:
            self.add(f"r{register} = r{place}")
            self.kinds[register] = self.kinds[place]
        else:
            self.add(f"r{register} = *(u64 *)(r10 - {-place})")
            self.kinds[register] = self.stack[-place]

    def fetch_field(self, register, field):
        self.fetch(self.task, register)
        self.load_field(register, register, field)

    def load_field(self, register, task, field):
        self.add(f"r{register} = *(u{field[1]} *)(r{task} + {field[0]})")
        self.kinds[register] = NUMBER

    def call(self, number):
        self.add(f"call {number}")
        self.kinds = {key: kind for key, kind in self.kinds.items() if key > 5}
        self.kinds[0] = NUMBER


def look_up(code, number, key, found):
    """Looks up the element with the key, a number or a register's name, and adds what `found` does with it."""
    below = code.random.choice([4, 8])
    code.add(f"*(u32 *)(r10 - {below}) = {key}", "r2 = r10", f"r2 += -{below}", f"r1 = map {number}")
    code.call(1)
    null_tested(code, lambda: found(code), ("element", number))


def null_tested(code, found, kind):
    """Adds what `found` does on the side where r0 isn't 0."""
    out = code.label()
    if code.random.random() < 0.8:
        code.add(f"if r0 == 0 goto {out}")
    else:
        there = code.label()
        code.add(f"if r0 != 0 goto {there}", f"goto {out}", f"{there}:")
    null = code.state()
    code.kinds[0] = kind
    found()
    code.add(f"{out}:")
    code.join(null)
