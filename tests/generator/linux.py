"""What policies by Linux rules have besides: callbacks, timers, and calls of the helpers that only these rules know."""
from .host import GLOBAL, LINUX_CALLBACKS, RUNNING_CALLBACKS, SLICE, TASK, WITH_TASK
from .programs import null_tested
from .noise import add_noise, kick, use_task
from .steps import constant, store_field

MS = 10**6
DELAYS = [0, 1, MS // 2, MS, MS + 1, 2 * MS, 3 * MS, 10 * MS, 50 * MS, 2**63]


def some_processor(code):
    """One of the workload, or, seldom, the next one."""
    return code.random.randrange(code.plan.processors + (code.random.random() < 0.02))


def seldom(code, lines):
    """These lines where the clock is at one millisecond alone, as the policy would be over else."""
    over = code.label()
    code.call(5)
    code.add(f"r0 /= {MS}", f"if r0 != {code.random.randrange(1, 2 + code.plan.ms)} goto {over}")
    before = code.state()
    lines()
    code.add(f"{over}:")
    code.join(before)


def ends(code):
    code.set(1, code.random.choice([0, 1, -1, 77, 2**63, code.random.randrange(2**64)]))
    code.set(2, code.random.choice([0, 0, 1, 2**64 - 1]))
    code.call(1010)


def end(code):
    seldom(code, lambda: ends(code))


def ask_here(code):
    code.call(8)


def ask_current(code):
    code.set(1, some_processor(code))
    code.call(1011)
    null_tested(code, lambda: use_task(code), TASK)


def peek(code):
    queues = code.policy.queues
    if not queues or code.callback == "init":
        return ask_here(code)
    code.set(1, GLOBAL if code.random.random() < 0.02 else code.random.choice(queues))
    code.call(1012)
    null_tested(code, lambda: use_task(code), TASK)


def ask_running(code):
    code.fetch(code.task, 1)
    code.call(code.random.choice([1013, 1014]))


def ask_allowed(code):
    code.fetch(code.task, 1)
    code.set(2, some_processor(code))
    code.call(1019)


def draw(code):
    code.call(7)


def tracks(code):
    """Whether the host tracks idle processors; at times it is asked though it doesn't."""
    return code.policy.tracks_idle or code.random.random() < 0.01


def pick_idle(code):
    if not tracks(code):
        return kick(code)
    code.set(1, code.random.choice([2**64 - 1, 0, 1, 2, 6, code.random.randrange(2**64)]))
    code.set(2, 2 if code.random.random() < 0.02 else code.random.randrange(2))
    code.call(1015)


def claim_idle(code):
    if not tracks(code):
        return kick(code)
    code.set(1, some_processor(code))
    code.call(1016)


def some_timer(code):
    return code.random.randrange(code.policy.timers + (code.random.random() < 0.02))


def start_timer(code):
    if not code.policy.timers:
        return ask_here(code)
    code.set(1, some_timer(code))
    code.set(2, code.random.choice(DELAYS))
    code.call(1017)


def cancel_timer(code):
    if not code.policy.timers:
        return ask_here(code)
    code.set(1, some_timer(code))
    code.call(1018)


HEARING = ["enable", "select_cpu", "enqueue", "dispatch", "running", "stopping"] + LINUX_CALLBACKS
LINUX_NOISE = [
    (3, kick, RUNNING_CALLBACKS), (2, ask_here, ["init"] + HEARING), (2, ask_current, ["init"] + HEARING),
    (2, peek, ["init"] + HEARING), (2, ask_running, WITH_TASK), (2, ask_allowed, WITH_TASK),
    (2, draw, ["init"] + HEARING), (2, pick_idle, RUNNING_CALLBACKS),
    (2, claim_idle, RUNNING_CALLBACKS), (2, start_timer, ["init"] + HEARING), (1, cancel_timer, ["init"] + HEARING),
    (0.3, end, HEARING),
]


def some_noise(code):
    add_noise(code, code.random.randrange(4))


def add_calls(policy):
    """Gives a policy callbacks that hear more, and timers."""
    random = policy.random
    policy.timers = random.choice([0, 0, 1, 2, 3, 16])
    heard = [callback for callback in LINUX_CALLBACKS if random.random() < 0.4]
    if policy.timers and "timer" not in heard and random.random() < 0.8:
        heard.append("timer")
    policy.keeps_idle = random.choice([None, True, True, False])
    policy.tracks_idle = bool(policy.keeps_idle) or "update_idle" not in heard
    if policy.timers:
        policy.do("init", start_timer)
    for callback in heard:
        policy.do(callback, some_noise)
    if "timer" in heard:
        policy.do("timer", *random.choice([[kick], [start_timer], [kick, start_timer], [start_timer, start_timer]]))
    if "tick" in heard and random.random() < 0.5:
        policy.do("tick", store_field(SLICE, constant(random.choice([0, 0, 1, MS, 2 * MS, 20 * MS]))))
    if "dequeue" in heard and random.random() < 0.4:
        policy.do("dequeue", store_field(SLICE, constant(random.choice([1, MS, 3 * MS]))))
    if "update_idle" in heard and random.random() < 0.5:
        policy.do("update_idle", kick)
    return policy
