"""Policies: maps, queues, and the steps of each callback."""
from . import workloads
from .host import CALLBACKS, GLOBAL, GROUP, LINUX_CALLBACKS, LOCAL, LOCAL_ON, PID, PREVIOUS, RUN, SLICE, VTIME, WEIGHT
from .programs import Code
from .noise import add_noise, write_field
from .steps import (
    answer, answer_idle, catch_up, charge, constant, count_up, create, default_choice, either, field, finish,
    given, insert, insert_where_idle, leave, lengthen, modulo, move_first, move_in_turn, move_longer, move_own,
    raise_now, store_field
)


class Policy:
    def __init__(self, random, plan):
        self.random, self.plan = random, plan
        self.maps, self.queues, self.steps, self.timeout = [], [], {}, None
        self.timers, self.keeps_idle, self.tracks_idle = 0, None, True
        self.noise = random.choice([0, 0, 0, 1, 2, 4])

    def map(self, entries, value_size):
        self.maps.append((entries, value_size))
        return len(self.maps) - 1

    def do(self, callback, *steps):
        self.steps.setdefault(callback, []).extend(steps)

    def do_somewhere(self, callback, step):
        steps = self.steps.setdefault(callback, [])
        steps.insert(self.random.randrange(len(steps) + 1), step)

    def own_queues(self, count):
        """Creates queues with numbers in a row, and answers the first."""
        base = self.random.choice([0, 0, 1, 7, 120, 1000, 2**31 - 3, 2**32 + 5, 2**63 - 20])
        self.queues += range(base, base + count)
        self.do("init", *[create(queue) for queue in self.queues])
        return base

    def program(self, callback):
        code = Code(self, callback)
        for step in self.steps[callback]:
            add_noise(code, self.random.randrange(self.noise + 1))
            step(code)
        add_noise(code, self.random.randrange(self.noise + 1))
        finish(code)
        return code.lines

    def programs(self):
        return {callback: self.program(callback) for callback in CALLBACKS + LINUX_CALLBACKS
                if callback in self.steps}


MS = 10**6
SLICES = [0, 1, MS // 2, MS, MS, 2 * MS, 2 * MS, 3 * MS + 1, 5 * MS, 20 * MS, 20 * MS + MS // 2, 100 * MS]


def some_slice(random):
    return random.choice([constant(random.choice(SLICES)), constant(random.choice(SLICES)), field(SLICE),
                          modulo(field(random.choice([PID, WEIGHT])), 4 * MS, MS)])


PREEMPT, HEAD = 2**32, 2**48  # flags that Linux rules alone know


def some_flags(random):
    if workloads.LINUX and random.random() < 0.4:
        return constant(random.choice([PREEMPT, HEAD, PREEMPT + 1, HEAD + 1, PREEMPT + HEAD]))
    return random.choice([constant(0), constant(0), constant(1)])


def some_queue(random, base, count):
    return constant(base) if count == 1 else modulo(field(random.choice([PID, GROUP, WEIGHT, PREVIOUS])), count, base)


def some_move(policy, base, count):
    random, queues = policy.random, list(range(base, base + count))
    if random.random() < 0.5:
        random.shuffle(queues)
    moves = [move_first(queues)]
    if count > 1:
        moves.append(lambda code: (move_own(base, count)(code), move_first(queues)(code)))
        moves.append(lambda code: (move_longer(*queues[:2])(code), move_first(queues)(code)))
        if policy.maps and policy.maps[0][1] >= 8:
            moves.append(move_in_turn(0, base, count))
    return random.choice(moves)


def some_vtime(random):
    return random.choice([field(VTIME), field(PID), field(WEIGHT), field(RUN), field(GROUP), constant(0),
                          modulo(field(RUN), 7 * MS, 0)])


def ornament(policy):
    """Adds what a policy may have besides."""
    random = policy.random
    for _ in range(random.choice([0, 0, 1, 2])):
        policy.map(random.choice([1, 4, 64, 1000]), random.choice([8, 16, 24, 1, 2, 4, 6, 64, 500]))
    counting = [number for number, (_, size) in enumerate(policy.maps) if size >= 8 and number > 0]
    for callback in random.sample(["enable", "running", "stopping"], random.randrange(3)):
        if counting:
            number = random.choice(counting)
            policy.do(callback, count_up(number, random.choice([0, field(PID), field(GROUP)])))
        else:
            policy.do(callback, lambda code: add_noise(code, 3))
    if random.random() < 0.15:
        policy.do("running", store_field(SLICE, constant(random.choice(SLICES[2:]))))
    if random.random() < 0.3 and "select_cpu" not in policy.steps:
        policy.do("select_cpu", some_answer(policy))
    if random.random() < 0.15 and "dispatch" in policy.steps:
        policy.do_somewhere("dispatch", lengthen(random.choice(SLICES)))
    if random.random() < 0.2:
        policy.timeout = random.choice([5, 20, 100, 1000, 30000])
    return policy


def some_answer(policy):
    random, processors = policy.random, policy.plan.processors
    few = random.sample(range(processors), min(processors, random.randrange(1, 6)))
    return random.choice([answer(default_choice), answer(given), answer(constant(random.randrange(processors))),
                          answer(modulo(field(PID), processors, 0)), answer_idle(few)])


def fifo(random, plan):
    """Queues in order of arrival."""
    policy = Policy(random, plan)
    count = random.choice([1, 1, 1, 2, 3, 4])
    base = policy.own_queues(count)
    if count > 1:
        policy.map(1, 8)
    policy.do("enqueue", insert(some_queue(random, base, count), some_slice(random), flags=some_flags(random)))
    policy.do("dispatch", some_move(policy, base, count))
    return policy


def fair(random, plan):
    """Queues by virtual time that grows by what tasks ran, as scx_simple has it."""
    policy = Policy(random, plan)
    now, count, slice_left = policy.map(1, 8), random.choice([1, 1, 2, 3]), random.choice([MS, 2 * MS, 20 * MS])
    base = policy.own_queues(count)
    if random.random() < 0.8:
        policy.do("enqueue", catch_up(now, slice_left))
    policy.do("enqueue", insert(some_queue(random, base, count), constant(slice_left), vtime=field(VTIME),
                                flags=some_flags(random)))
    policy.do("dispatch", move_first(list(range(base, base + count))))
    policy.do("running", raise_now(now))
    policy.do("stopping", charge(slice_left))
    return policy


def ordered(random, plan):
    """A queue by a number of the task."""
    policy = Policy(random, plan)
    base = policy.own_queues(1)
    policy.do("enqueue", insert(constant(base), some_slice(random), vtime=some_vtime(random),
                                flags=some_flags(random)))
    policy.do("dispatch", move_first([base]))
    return policy


def assorted(random, plan):
    """Up to 16 queues, of which some go by virtual time."""
    policy = Policy(random, plan)
    count = random.randrange(2, 17)
    base = policy.own_queues(count)
    half = count // 2
    which = random.choice([PID, GROUP])
    policy.do("enqueue", either(
        modulo(field(which), 2, 0), "== 0",
        insert(some_queue(random, base, half), some_slice(random)),
        insert(some_queue(random, base + half, count - half), some_slice(random), vtime=some_vtime(random))))
    policy.do("dispatch", some_move(policy, base, count))
    return policy


def some_local(random, plan):
    processors = plan.processors
    return random.choice([constant(GLOBAL), constant(LOCAL), constant(LOCAL_ON + random.randrange(processors)),
                          modulo(field(PREVIOUS), processors, LOCAL_ON), modulo(field(PID), processors, LOCAL_ON)])


def built_in(random, plan):
    """The queues that are there: GLOBAL and those of processors."""
    policy = Policy(random, plan)
    if random.random() < 0.5:
        policy.do("enqueue", insert(some_local(random, plan), some_slice(random)))
    else:
        policy.do("enqueue", either(given, "== 0", insert(some_local(random, plan), some_slice(random)),
                                    insert(some_local(random, plan), some_slice(random), flags=constant(1))))
    return policy


def selecting(random, plan):
    """A policy that inserts tasks as they wake."""
    base = random.choice([fifo, built_in, ordered])
    policy, queue = base(random, plan), some_local(random, plan)
    if base is fifo and random.random() < 0.3:
        queue = constant(policy.queues[0])
    policy.do("select_cpu", some_answer(policy))
    step = insert(queue, some_slice(random))
    policy.do("select_cpu", random.choice([step, insert_where_idle(step), either(field(PID), "> 2", step)]))
    return policy


def partial(random, plan):
    """Some callbacks of a policy."""
    policy = ornament(random.choice([fifo, fair, assorted, built_in, selecting])(random, plan))
    for callback in random.sample(sorted(policy.steps), random.randrange(len(policy.steps) + 1)):
        if callback != "init" or random.random() < 0.3:
            del policy.steps[callback]
    return policy


def busy_code(random, plan):
    """All seven callbacks, with much code that does nothing of use."""
    policy = ornament(random.choice([fifo, fair, ordered, built_in, selecting])(random, plan))
    policy.map(random.choice([1, 16]), random.choice([8, 32, 64]))
    for callback in CALLBACKS:
        policy.do_somewhere(callback, lambda code: add_noise(code, random.randrange(3, 12)))
    if random.random() < 0.3:
        policy.do_somewhere(random.choice(["enable", "running", "stopping"]), write_field)
    return policy


def long_code(random, plan):
    """One callback with hundreds of instructions, or thousands."""
    policy = random.choice([fifo, fair, built_in])(random, plan)
    policy.map(8, 64)
    policy.noise = 0
    callback, count = random.choice(CALLBACKS), random.choice([100, 200, 400, 800])
    policy.do_somewhere(callback, lambda code: add_noise(code, count))
    return policy


def leaving(random, plan):
    """A policy in which a callback ends early for some."""
    policy = random.choice([fifo, fair, ordered, built_in])(random, plan)
    callback = random.choice(["enqueue", "running", "stopping", "enable"])
    policy.do_somewhere(callback, either(field(random.choice([PID, RUN])),
                                         random.choice(["== 1", "s> 3000000", "& 4"]), leave))
    return ornament(policy)


def nothing(random, plan):
    """No callbacks."""
    return Policy(random, plan)
