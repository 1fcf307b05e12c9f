"""Pairs: of each sort the bytes of a policy file and of a workload file."""
import re
import tomllib
from random import Random
from . import workloads

from .host import CALLBACKS, INSERTING
from .assembler import slots_of
from .programs import Code
from .linux import add_calls
from .noise import add_noise
from .steps import finish
from .policies import (
    Policy, assorted, built_in, busy_code, fair, fifo, leaving, long_code, nothing, ordered, ornament, partial,
    selecting
)
from .holding import marked, ring
from .run_faults import (
    any_of, failing_enable, failing_init, hand_out_nowhere, hand_out_to_nobody, hand_out_with_flags,
    idle_of_nobody, insert_before, insert_for_nobody, insert_nowhere, insert_other, insert_twice,
    length_of_nowhere, mixed_hand_out, mixed_order, mixed_order_at_wake, move_from_nowhere, several_faults,
    vtime_hand_out, vtime_into_built_in, with_fault, with_hand_out, wrong_answer, wrong_flags
)
from .stalls import stall
from .refused import REFUSED_LINES, any_lines, bad_answer, bad_insert, falling_off, not_here, random_line, unsafe
from .texts import document, policy_values, text_of
from .workloads import Plan, some_workload
from .policy_faults import BAD_SLOTS, POLICY_FAULTS, faulty_text, undecodable_bytes
from .workload_faults import WORKLOAD_FAULTS
from .text_faults import CHANGES, MOST_BYTES, nested_arrays, not_utf8, padded, spoil


def workable(generate, shape=None):
    """A workload, and a policy for it that `generate` makes."""
    def pair(random):
        workload = some_workload(random, shape)
        policy = generate(random, Plan(workload))
        return document(random, policy_values(random, policy)), document(random, workload)
    pair.generate = generate
    return pair


def adorn(policy):
    """Adds what a policy may have besides, by the rules that it goes by."""
    return ornament(add_calls(policy) if workloads.LINUX else policy)


def some_policy(random, plan):
    return adorn(random.choice([fifo, fair, ordered, assorted, built_in, selecting, ring, marked])(random, plan))


def faulting(*generators):
    return workable(any_of(*generators))


def ornamented(generate):
    return workable(lambda random, plan: adorn(generate(random, plan)))


def faulty_policy(first):
    """A policy file with that fault, or with more."""
    def pair(random):
        workload = some_workload(random)
        values = policy_values(random, some_policy(random, Plan(workload)))
        for name in [first] + random.choice([[], [], [], random.sample(sorted(POLICY_FAULTS), 2)]):
            random.choice(POLICY_FAULTS[name][1])(random, values)
        if random.random() < 0.05:
            WORKLOAD_FAULTS["missing"](random, workload)
        return document(random, values), document(random, workload)
    return pair


def faulty_workload(random):
    workload = some_workload(random)
    values = policy_values(random, some_policy(random, Plan(workload)))
    names = sorted(WORKLOAD_FAULTS)
    for name in random.sample(names, 1) + random.choice([[], [], [], [], [], random.sample(names, 2)]):
        WORKLOAD_FAULTS[name](random, workload)
    return document(random, values), document(random, workload)


def changed_text(change):
    """A good pair, of which one text is changed."""
    def pair(random):
        policy, workload = workable(some_policy)(random)
        if random.random() < 0.6:
            return change(random, policy), workload
        return policy, change(random, workload)
    return pair


def changed_policy(random):
    policy, workload = workable(any_of(fifo, fair, busy_code, ring, partial))(random)
    for _ in range(random.choice([1, 1, 1, 2, 4])):
        policy = random.choice(CHANGES)(random, policy) if policy else policy
    return policy, workload


def changed_workload(random):
    policy, workload = workable(some_policy)(random)
    return policy, random.choice(CHANGES[:3])(random, workload)


def other_lines(random):
    """A good pair with the line ends of another system, or with more keys quoted."""
    policy, workload = workable(some_policy)(random)
    if random.random() < 0.5:
        policy = policy.replace("\n", "\r\n")
    if random.random() < 0.5:
        workload = workload.replace("\n", "\r\n")
    return policy, re.sub(r"^(name|group|ms) =", r'"\1" =', workload, flags=re.MULTILINE)


WAKING = ["select_cpu", "enqueue"]
SORTS = [  # weight, name, and what makes a pair: those that run, those that go wrong as they run, and refused ones
    (60, "fifo", ornamented(fifo)),
    (60, "fair", ornamented(fair)),
    (30, "ordered", ornamented(ordered)),
    (45, "assorted", ornamented(assorted)),
    (45, "built-in queues", ornamented(built_in)),
    (40, "ring of held tasks", ornamented(ring)),
    (25, "marked held tasks", ornamented(marked)),
    (60, "selecting", ornamented(selecting)),
    (40, "leaving", workable(leaving)),
    (40, "partial", workable(partial)),
    (60, "busy code", workable(busy_code)),
    (15, "long code", workable(long_code)),
    (8, "all tasks", workable(any_of(fifo, fair, ordered, ring, built_in), (64, 1024, 40, 300))),
    (4, "nothing", ornamented(nothing)),
    (20, "other lines", other_lines),

    (24, "no queue to insert into", faulting(with_fault(insert_nowhere, WAKING), with_hand_out(hand_out_nowhere))),
    (14, "no queue to move from", faulting(with_fault(move_from_nowhere, ["dispatch"]))),
    (24, "no queue to ask the length of", faulting(with_fault(length_of_nowhere, CALLBACKS[2:]))),
    (14, "a second insert", faulting(with_fault(insert_twice, WAKING))),
    (14, "another task", faulting(with_fault(insert_other, WAKING))),
    (14, "a task not held", faulting(with_fault(insert_other, ["dispatch"]),
                                     with_fault(insert_before, ["dispatch"]))),
    (32, "the other order", faulting(mixed_order, mixed_order, mixed_order_at_wake, mixed_hand_out)),
    (20, "built-in queue by vtime", faulting(with_fault(vtime_into_built_in, WAKING), with_hand_out(vtime_hand_out))),
    (16, "answer of no processor", faulting(wrong_answer)),
    (16, "insert for no processor", faulting(with_fault(insert_for_nobody, WAKING),
                                             with_hand_out(hand_out_to_nobody))),
    (14, "is no processor idle", faulting(with_fault(idle_of_nobody, INSERTING))),
    (16, "unknown flags", faulting(with_fault(wrong_flags, WAKING), with_hand_out(hand_out_with_flags))),
    (10, "several faults", faulting(with_fault(several_faults, WAKING))),
    (12, "init fails", faulting(failing_init)),
    (6, "enable fails", faulting(failing_enable)),
    (60, "stall", faulting(stall)),

    *[(7, f"verify {name}", workable(unsafe(name))) for name in REFUSED_LINES],
    (5, "verify FallsOff", workable(falling_off)),
    (7, "verify HelperNotHere", workable(not_here)),
    (6, "verify BadArgument of tasks", workable(bad_insert)),
    (6, "verify BadReturn", workable(bad_answer)),
    (20, "any lines", workable(any_lines)),

    *[(weight, f"policy {name}", faulty_policy(name)) for name, (weight, _) in POLICY_FAULTS.items()],
    (100, "workload", faulty_workload),
    (24, "not TOML", changed_text(spoil)),
    (4, "nested", changed_text(nested_arrays)),
    (5, "not UTF-8", changed_text(not_utf8)),
    (4, "large", changed_text(padded)),
    (80, "changed policy", changed_policy),
    (30, "changed workload", changed_workload),
]


def as_bytes(text):
    return text if isinstance(text, bytes) else text.encode(errors="surrogatepass")


class Pair:
    """Pair number `number` of a seed: its sort and the bytes of its files."""

    def __init__(self, seed, number):
        random = Random(f"{seed} {number}")
        _, self.sort, make = random.choices(SORTS, [weight for weight, _, _ in SORTS])[0]
        policy, workload = make(random)
        head = f"# sort: {self.sort} (pair {number} of seed {seed})\n"
        if workloads.LINUX:
            tick = Random(f"{seed} {number} tick").choice([0, 0, 1, 2, 4, 10, 100])
            head += f'rules = "linux"\ntick_ms = {tick}\n'
        self.policy, self.workload = head.encode() + as_bytes(policy), as_bytes(workload)
        # a file that was padded to the limit keeps to it
        if len(self.policy) in range(MOST_BYTES + 1, MOST_BYTES + len(head) + 1):
            self.policy = self.policy[:-len(head)]
        self.random = random

    def alone(self):
        """Files for asm, for dis and exec, and again for these: a text, slots, and damaged slots."""
        random = self.random
        lines = random.choice([plain_lines, plain_lines, callback_lines])(random, self.policy)
        text = random.choice([text_of, text_of, text_of, lambda random,
                              lines: random.choice(CHANGES)(random, text_of(random, lines))])(random, lines)
        if random.random() < 0.15:
            text = faulty_text(random)
        slots = slots_of(lines) or slots_of(plain_lines(random, self.policy))
        return {"text.asm": as_bytes(text), "slots.bin": slots, "damaged.bin": damaged(random, slots)}


def plain_lines(random, _policy):
    """A program that is given nothing."""
    plan = Plan({"cpus": 1, "ms": 1, "task": [{}]})
    code = Code(Policy(random, plan), "plain")
    add_noise(code, random.choice([1, 5, 10, 20, 60]))
    if random.random() < 0.1:
        code.add(*[random_line(random) for _ in range(3)])
    finish(code)
    return code.lines


def callback_lines(random, policy):
    """The lines of a callback of the policy file, if it has any."""
    try:
        code = tomllib.loads(policy.decode())["code"]
        texts = [text for text in code.values() if isinstance(text, str)]
    except (ValueError, KeyError, AttributeError, RecursionError):
        texts = []
    return random.choice(texts).splitlines() if texts else plain_lines(random, policy)


def damaged(random, slots):
    """The slots with some bits turned, bytes cut off, or a faulty slot in between."""
    choice = random.randrange(4)
    if choice == 0:
        return undecodable_bytes(random)
    if choice == 1:
        return slots[:random.randrange(len(slots) + 1)]
    at = random.randrange(len(slots) // 8 + 1) * 8
    if choice == 2:
        return slots[:at] + random.choice(BAD_SLOTS[random.choice(list(BAD_SLOTS))]) + slots[at:]
    found = bytearray(slots)
    for _ in range(random.choice([1, 1, 2, 3])):
        found[random.randrange(len(found))] ^= 1 << random.randrange(8)
    return bytes(found)
