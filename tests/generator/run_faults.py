"""Faults at run time: a policy that works, and a step that goes wrong once its time has come."""
from .host import GLOBAL, GROUP, LOCAL, LOCAL_ON, NUMBER, PID, RUN, TASK, VTIME, WITH_TASK
from .programs import null_tested
from .steps import answer, call_with, constant, count_up, create, either, field, insert, modulo, move_first
from .policies import (
    MS, Policy, built_in, fair, fifo, ordered, ornament, some_answer, some_local, some_slice, some_vtime
)
from .holding import hand_out_step, held_task, ring, some_hand_out


def when(policy, step, callback):
    """Does the step at once, at a time, for one task, or from some call on."""
    random, plan = policy.random, policy.plan
    choices = ["at once", "time", "count"] + (["task"] if callback in WITH_TASK else [])
    choice = random.choice(choices)
    if choice == "time":
        moment = random.randrange(plan.ms) * MS
        return lambda code: either(clock_above(moment), "!= 0", step)(code)
    if choice == "count":
        return count_up(policy.map(1, 8), 0, f"> {random.randrange(20)}", step)
    if choice == "task":
        return either(field(PID), f"== {random.randrange(1, 1 + len(plan.tasks))}", step)
    return step


def clock_above(moment):
    """1 where the clock is past the moment, in nanoseconds."""
    def take(code, register):
        code.call(5)
        below, end = code.label(), code.label()
        code.add(f"r{register} = {moment} ll", f"if r0 < r{register} goto {below}", f"r{register} = 1", f"goto {end}",
                 f"{below}:", f"r{register} = 0", f"{end}:")
        code.kinds[register] = NUMBER
    return take


def unknown_queue(policy):
    """A number that is no queue's."""
    return policy.random.choice([9, 5000, 2**40, 2**62 + 1, 2**63, 2**63 + 3, 2**63 + 2**61])


def other_processor(policy):
    """A number that is no processor's."""
    return policy.random.choice([policy.plan.processors, 64, 1000, 2**32, 2**61])


def with_fault(make, callbacks, bases=(fifo, fair, built_in)):
    """A sort in which one of the callbacks has the step that `make` answers."""
    def generate(random, plan):
        policy = random.choice(bases)(random, plan)
        callback = random.choice(callbacks)
        step = make(policy)
        if callback == "select_cpu" and not policy.steps.get(callback):
            policy.do(callback, some_answer(policy))
        if callback == "enqueue":
            policy.steps.setdefault(callback, []).insert(0, when(policy, step, callback))
        else:
            policy.do_somewhere(callback, when(policy, step, callback))
        return ornament(policy)
    return generate


def with_hand_out(make):
    """A sort in which dispatch hands out a held task in a wrong way."""
    def generate(random, plan):
        def hand_out(policy):
            right, wrong = some_hand_out(policy), make(policy)
            return either(read_field_of_r0(PID), f"== {random.randrange(1, 1 + len(plan.tasks))}", wrong, right)
        return ring(random, plan, hand_out)
    return generate


def read_field_of_r0(which):
    return lambda code, register: code.load_field(register, 0, which)


def any_of(*generators):
    return lambda random, plan: random.choice(generators)(random, plan)


def insert_nowhere(policy):
    return insert(constant(unknown_queue(policy)), some_slice(policy.random),
                  policy.random.choice([None, field(VTIME)]))


def hand_out_nowhere(policy):
    return hand_out_step(constant(unknown_queue(policy)), constant(MS), policy.random.choice([None, constant(5)]))


def move_from_nowhere(policy):
    wrong = policy.random.choice([unknown_queue(policy), GLOBAL, LOCAL, LOCAL_ON])
    return call_with(wrong, 1004)


def length_of_nowhere(policy):
    return call_with(policy.random.choice([unknown_queue(policy), GLOBAL, LOCAL, LOCAL_ON + 1]), 1008)


def insert_twice(policy):
    step = insert(constant(policy.random.choice([GLOBAL, LOCAL])), some_slice(policy.random))
    return lambda code: (step(code), step(code))


def insert_other(policy):
    """Inserts the task with some pid, which isn't the one at hand for most."""
    pid = policy.random.randrange(1, 1 + len(policy.plan.tasks))
    step = insert(constant(GLOBAL), constant(MS), task=held_task)

    def asked(code):
        code.set(1, pid)
        code.call(1007)
        null_tested(code, lambda: step(code), TASK)
    return asked


def insert_before(policy):
    """Inserts the task before, which isn't held."""
    step = insert(constant(policy.random.choice([LOCAL, GLOBAL])), constant(MS), task=held_task)

    def asked(code):
        code.fetch(code.before, 0)
        null_tested(code, lambda: step(code), TASK)
    return asked


def mixed_order(random, plan):
    """Some tasks by virtual time, others by arrival, into one queue."""
    policy = Policy(random, plan)
    base = policy.own_queues(1)
    first = insert(constant(base), some_slice(random))
    second = insert(constant(base), some_slice(random), vtime=some_vtime(random))
    if random.random() < 0.5:
        first, second = second, first
    choices = [either(field(PID), f"== {1 + random.randrange(len(plan.tasks))}", first, second),
               either(clock_above(random.randrange(plan.ms) * MS), "!= 0", first, second),
               either(modulo(field(GROUP), 2, 0), "== 1", first, second)]
    policy.do("enqueue", random.choice(choices))
    policy.do("dispatch", move_first([base]))
    return ornament(policy)


def mixed_order_at_wake(random, plan):
    policy = ordered(random, plan)
    policy.do("select_cpu", insert(constant(policy.queues[0]), some_slice(random)))
    return policy


def mixed_hand_out(random, plan):
    """Dispatch puts held tasks into a queue, some in the other way."""
    policy = ring(random, plan, lambda policy: either(
        read_field_of_r0(PID), "== 2", hand_out_step(constant(0), constant(MS)),
        hand_out_step(constant(0), constant(MS), vtime=constant(random.randrange(99)))))
    policy.queues.append(0)
    policy.do("init", create(0))
    if random.random() < 0.5:
        policy.do("dispatch", move_first([0]))
    return policy


def vtime_into_built_in(policy):
    return insert(some_local(policy.random, policy.plan), some_slice(policy.random), vtime=field(VTIME))


def vtime_hand_out(policy):
    queue = constant(policy.random.choice([GLOBAL, LOCAL, LOCAL_ON]))
    return hand_out_step(queue, constant(MS), vtime=constant(7))


def wrong_answer(random, plan):
    """select_cpu answers no processor, for one task or for all."""
    policy = random.choice([fifo, fair, built_in])(random, plan)
    expression = random.choice([constant(other_processor(policy)), constant(2**64 - 1), field(PID), field(RUN)])
    policy.do("select_cpu", answer(expression))
    return ornament(policy)


def insert_for_nobody(policy):
    return insert(constant(LOCAL_ON + other_processor(policy)), some_slice(policy.random))


def hand_out_to_nobody(policy):
    return hand_out_step(constant(LOCAL_ON + other_processor(policy)), constant(MS))


def idle_of_nobody(policy):
    return call_with(other_processor(policy), 1006)


def wrong_flags(policy):
    flags = constant(policy.random.choice([2, 3, -1, 2**32]))
    return insert(some_local(policy.random, policy.plan), some_slice(policy.random), flags=flags)


def hand_out_with_flags(policy):
    return hand_out_step(constant(LOCAL), constant(MS), flags=constant(policy.random.choice([2, 2**63])))


def several_faults(policy):
    """An insert with more than one fault, of which one is named."""
    random = policy.random
    queue = random.choice([unknown_queue(policy), LOCAL_ON + other_processor(policy), GLOBAL])
    return insert(constant(queue), constant(0), random.choice([None, constant(0)]), constant(random.choice([0, 2])))


def failing_init(random, plan):
    """init creates a queue that can't be, or answers another number than 0."""
    policy = random.choice([fifo, fair])(random, plan)
    choice = random.randrange(5)
    if choice == 0:
        policy.do("init", create(policy.queues[0]))
    elif choice == 1:
        policy.do("init", create(random.choice([2**63, GLOBAL, LOCAL, 2**64 - 1])))
    elif choice == 2:
        policy.do("init", *[create(2000 + number) for number in range(17)])
    elif choice == 3:
        policy.do("init", length_of_nowhere(policy))
    else:
        number = random.choice([1, -1, -22, 2**63, 2**63 - 1, 2**32])
        policy.do("init", lambda code: (code.set(0, number), code.add("exit")))
    return policy


def failing_enable(random, plan):
    policy = random.choice([fifo, fair])(random, plan)
    policy.do("enable", when(policy, length_of_nowhere(policy), "enable"))
    return policy
