"""Policies under which tasks wait too long."""
from .host import GLOBAL, GROUP, LOCAL, LOCAL_ON, PID, WEIGHT
from .steps import constant, field, insert, leave, modulo, move_first
from .policies import MS, SLICES, Policy, fair, fifo, ordered, some_queue, some_slice
from .run_faults import when


def stall(random, plan):
    policy = random.choice([forgetting, endless, unserved, strict, pinned])(random, plan)
    policy.timeout = random.choice([1, 1, 2, 3, 5, 10, 20, max(1, plan.ms // 3)])
    return policy


def forgetting(random, plan):
    """Some task is inserted nowhere."""
    policy = random.choice([fifo, fair, ordered])(random, plan)
    policy.steps["enqueue"].insert(0, when(policy, leave, "enqueue"))
    return policy


def endless(random, plan):
    """Slices without end."""
    policy = Policy(random, plan)
    base = policy.own_queues(1)
    policy.do("enqueue", insert(constant(random.choice([base, GLOBAL, LOCAL])), constant(2**64 - 1)))
    policy.do("dispatch", move_first([base]))
    return policy


def unserved(random, plan):
    """A queue from which nobody is moved."""
    policy = Policy(random, plan)
    base = policy.own_queues(2)
    policy.do("enqueue", insert(some_queue(random, base, 2), some_slice(random)))
    policy.do("dispatch", move_first([base]))
    return policy


def strict(random, plan):
    """Whoever has the least number goes first."""
    policy = Policy(random, plan)
    base = policy.own_queues(1)
    policy.do("enqueue", insert(constant(base), constant(MS), vtime=field(random.choice([PID, GROUP, WEIGHT]))))
    policy.do("dispatch", move_first([base]))
    return policy


def pinned(random, plan):
    """All tasks on few processors."""
    policy = Policy(random, plan)
    policy.do("enqueue", insert(modulo(field(PID), min(2, plan.processors), LOCAL_ON),
                                constant(random.choice(SLICES))))
    return policy
