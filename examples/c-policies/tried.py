"""Runs a workload under a policy that was built, and says in words of C why the policy was ejected or its run refused."""
import re
import subprocess

EJECTED = re.compile(r"policy ejected (at \d+ ms): (.*)")
AT_SLOT = re.compile(r"((?:fault|exit) -?\d+) in (\w+) at slot (\d+)(.*)")
BEFORE_EVENTS = re.compile(r": error: (\w+), slot (\d+): (.*)")
MANY_QUEUES = re.compile(r"((?:\d+, ){4})(?:\d+, )+(\d+)$")
FOUND = re.compile(r"no task left .*", re.M)

# What to write in C, by what is wrong.
ADVICE = [
    (r"no queue \d+", "create the queue in init, by scx_bpf_create_dsq, or name one that is there"),
    (r"is no queue of the policy", "GLOBAL and the queues of CPUs need no move, and have no length; name a queue that init creates"),
    (r"a second insert in one call", "insert the task once: return after the first insert"),
    (r"isn't the task at hand", "insert only the task that the callback is given"),
    (r"isn't held", "insert in dispatch only tasks that enqueue took and inserted nowhere"),
    (r"tasks wait in .* (by virtual time|in order of arrival)", "fill a queue by scx_bpf_dsq_insert_vtime alone, or never by it"),
    (r"by virtual time into", "insert there by scx_bpf_dsq_insert, or by virtual time into a queue that init creates"),
    (r"no CPU", "compare the number with that of the CPUs first"),
    (r"queue \d+ is there", "create each queue once"),
    (r"16 queues are there", "create 16 queues at most"),
    (r"a queue's number is below", "number the queues from 0"),
    (r"tracks idle CPUs itself", "set keep_idle: the flag SCX_OPS_KEEP_BUILTIN_IDLE, or DEFINE_KEEP_IDLE() of scx.h"),
    (r"no task left held|in held", "insert each task in enqueue, or later in dispatch"),
    (r"no task left", "move its tasks in dispatch, by scx_bpf_dsq_move_to_local"),
    (r"refused: init", "init and init_task answer 0 if all is well"),
]


def advice_on(text, header):
    """What to do about what was said, with the names of this form of C."""
    advice = next((advice for form, advice in ADVICE if re.search(form, text)), "")
    return advice.replace("scx_bpf_", "") if header == "scx.h" else advice


def with_advice(text, reason, header):
    advice = advice_on(reason, header)
    return "\n".join([text, *([f"      = {advice}"] if advice else [])])


def ejection(made, when, why, said):
    """An ejection with its place in C: at an instruction, or because a task waited too long."""
    found = AT_SLOT.fullmatch(why)
    if found:
        what, callback, slot, rest = found.groups()
        note = made.note(callback, int(slot))
        reason = "" if note or what.startswith("exit") else rest
        rest = f"{rest.partition(':')[0]}: {note}" if note else MANY_QUEUES.sub(r"\1.., \2", rest)
        return with_advice(f"{made.place(callback, int(slot))}: ejected {when}: {what}{rest}", reason, made.header)
    queue = FOUND.search(said)
    below = f"\n      = {queue[0]}" if queue else ""
    wait = queue[0] if queue else said.splitlines()[1]
    return with_advice(f"{made.source}: ejected {when}: {why}{below}", wait, made.header)


def refused(made, said, errors):
    """A run that is refused, with its place in C if a callback is to blame that comes before the first event."""
    first = said.splitlines()[0]
    if first.startswith("refused: workload"):
        return errors.rstrip() or first
    found = BEFORE_EVENTS.search(errors)
    if not found:
        return with_advice(f"{made.source}: {first}", first, made.header)
    callback, slot, reason = found.groups()
    note = made.note(callback, int(slot))
    return with_advice(f"{made.place(callback, int(slot))}: {first}: {note or reason}", "" if note else reason, made.header)


def tried(made, program, policy, workload):
    """What went wrong as the workload ran, as a list of at most one refusal. OSError if it can't be read."""
    done = subprocess.run([program, "why", policy, workload], capture_output=True, text=True)
    if done.returncode not in (0, 1):
        raise OSError((done.stdout + done.stderr).strip().removeprefix("failed: "))
    if done.returncode == 1:
        return [refused(made, done.stdout, done.stderr)]
    found = EJECTED.match(done.stdout)
    return [ejection(made, *found.groups(), done.stdout)] if found else []
