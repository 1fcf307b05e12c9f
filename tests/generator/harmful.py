"""Policies by Linux rules that do as much harm as they can: they kick in every callback, preempt each other, hold
claims, give and take slices, start all timers each millisecond, and some end themselves or have a fault; and what a trace
has to be, whatever they do."""
import json
import re
import tomllib

from .workloads import some_cpus

MS = 10**6
LOCAL, GLOBAL, LOCAL_ON = 2**63 + 2, 2**63 + 1, 3 * 2**62
PREEMPT, HEAD = 2**32, 2**48
CALLBACKS = ["enable", "select_cpu", "enqueue", "dispatch", "running", "stopping", "tick", "dequeue",
             "runnable", "quiescent", "update_idle", "set_weight", "timer"]
RUNS = [callback for callback in CALLBACKS if callback not in ("enable", "set_weight")]  # in which CPUs may be kicked
BEGINNING = ("enable", "update_idle", "set_weight")  # also called as a policy begins, when its end is a refusal
WITHOUT_TASK = ("init", "dispatch", "update_idle", "timer")


class Harm:
    """Lines of one policy; `calm` is how often nothing is done that may end it."""

    def __init__(self, random, cpus):
        self.random, self.cpus = random, cpus
        self.calm = random.choice([0, 0, 0.002, 0.02])
        self.labels = 0
        self.timers = random.choice([0, 0, 1, 3, 16])
        self.keeps_idle = random.choice([None, False, True, True])
        self.tracks = True  # whether the host tracks idle CPUs

    def cpu(self):
        return self.random.randrange(self.cpus)

    def kick(self):
        return [f"r1 = {self.cpu()}", f"r2 = {self.random.choice([0, 1, 2, 2])}", "call 1009"]

    def kick_all(self):
        flags = self.random.choice([0, 1, 2])
        return [line for cpu in range(min(self.cpus, 8)) for line in (f"r1 = {cpu}", f"r2 = {flags}", "call 1009")]

    def start_all(self):
        """Starts all timers for the next millisecond."""
        return [line for timer in range(self.timers) for line in (f"r1 = {timer}", "r2 = 0", "call 1017")]

    def cancel(self):
        return [f"r1 = {self.random.randrange(self.timers)}", "call 1018"] if self.timers else self.read()

    def claim(self):
        return [f"r1 = {self.cpu()}", "call 1016"]

    def claim_all(self):
        return [line for cpu in range(min(self.cpus, 8)) for line in (f"r1 = {cpu}", "call 1016")]

    def pick(self):
        return [f"r1 = {self.random.choice([-1, 0, 2, 5, 2**62])} ll", f"r2 = {self.random.randrange(2)}", "call 1015"]

    def read(self):
        return self.random.choice([["call 8"], [f"r1 = {self.cpu()}", "call 1011"], ["r1 = 0", "call 1012"], ["call 5"],
                                   ["r1 = 0", "call 1008"], ["call 7"]])

    def read_task(self):
        return self.random.choice([["r1 = r6", "call 1013"], ["r1 = r6", "call 1014"], ["r1 = *(u64 *)(r6 + 40)"],
                                   ["r1 = r6", f"r2 = {self.cpu()}", "call 1019"]])

    def change_task(self):
        slices = [0, 0, 1, MS, 2 * MS, 20 * MS, 2**64 - 1]
        return [f"r1 = {self.random.choice(slices)} ll", "*(u64 *)(r6 + 8) = r1"]

    def end(self):
        code = self.random.choice([0, -1, 1, 7, -2**63, 2**63 - 1, -22])
        return [f"r1 = {code} ll", "r2 = 0", "call 1010"]

    def fault(self):
        return self.random.choice([["r1 = 64", "r2 = 0", "call 1009"], ["r1 = 0", "r2 = 3", "call 1009"],
                                   ["r1 = 64", "call 1016"], ["r1 = 0", "r2 = 2", "call 1015"], ["r1 = 64", "call 1011"],
                                   ["r1 = 9", "call 1012"]])

    def seldom(self, lines):
        """These lines in some calls alone: where the lowest bits of the clock are so."""
        self.labels += 1
        over = f"over{self.labels}"
        return ["call 5", f"r0 /= {MS}", f"r0 &= {self.random.choice([1, 3, 7, 15])}", f"if r0 != 0 goto {over}", *lines, f"{over}:"]

    def later(self, lines):
        """These lines once the policy has begun, seldom."""
        self.labels += 1
        over = f"over{self.labels}"
        return ["call 5", f"if r0 == 0 goto {over}", *self.seldom(lines), f"{over}:"]

    def steps(self, callback):
        kinds = [self.read, self.read]
        if callback in RUNS:
            kinds += [self.kick, self.kick, self.kick_all, self.start_all, self.cancel]
        if callback in RUNS and self.tracks:
            kinds += [self.claim, self.claim_all, self.pick]
        if callback not in WITHOUT_TASK:
            kinds += [self.read_task, self.change_task]
        lines = []
        for _ in range(self.random.randrange(4)):
            made = self.random.choice(kinds)()
            lines += made if self.random.random() < 0.6 else self.seldom(made)
        if callback not in ("enable", "init") and self.random.random() < self.calm * 10:
            ending = self.end if callback == "set_weight" else self.random.choice([self.end, self.fault])
            lines += (self.later if callback in BEGINNING else self.seldom)(ending())
        return lines

    def insert(self):
        """An insert of the task in r6."""
        queue = self.random.choice([0, 0, 0, LOCAL, LOCAL_ON + self.cpu(), GLOBAL])
        slice = self.random.choice([0, 1, MS, 2 * MS, 20 * MS])
        flags = self.random.choice([0, 0, 1, PREEMPT, PREEMPT, HEAD, PREEMPT + HEAD, PREEMPT + HEAD + 1])
        if queue == 0 and self.by_vtime:
            return ["r1 = r6", f"r2 = {queue}", f"r3 = {slice}", "r4 = *(u64 *)(r6 + 16)", f"r5 = {flags} ll", "call 1003"]
        return ["r1 = r6", f"r2 = {queue} ll", f"r3 = {slice}", f"r4 = {flags} ll", "call 1002"]

    def hand_out(self, tasks):
        """An insert of some task, which is late unless that one is held."""
        self.labels += 1
        over = f"over{self.labels}"
        return [f"r1 = {self.random.randrange(tasks) + 1}", "call 1007", f"if r0 == 0 goto {over}", "r6 = r0", *self.insert(), f"{over}:"]

    def program(self, callback, tasks):
        lines = [] if callback == "dispatch" else ["r6 = r1"]
        lines += self.steps(callback)
        if callback == "select_cpu":
            if self.random.random() < 0.3:
                lines += self.insert()
            lines += self.steps(callback) + [f"r0 = {self.cpu()}"]
        if callback == "enqueue" and self.random.random() < 0.9:
            lines += self.insert() + self.steps(callback)
        if callback == "dispatch":
            for _ in range(self.random.randrange(3)):
                lines += self.hand_out(tasks)
            lines += ["r1 = 0", "call 1004"] + self.steps(callback)
        if callback == "timer":
            lines += self.start_all() + (self.kick_all() if self.random.random() < 0.7 else [])
        return lines + ["exit"]

    def policy(self, tasks):
        random = self.random
        self.by_vtime = random.random() < 0.3
        has = [callback for callback in CALLBACKS if random.random() < 0.75]
        # A policy may ask the host for idle CPUs that it doesn't track, which is a fault.
        self.tracks = "update_idle" not in has or bool(self.keeps_idle)
        code = {"init": ["r1 = 0", "call 1001", *self.start_all(), "r0 = 0", "exit"]}
        code |= {callback: self.program(callback, tasks) for callback in has}
        if random.random() < 0.9 and "dispatch" not in code:
            code["dispatch"] = self.program("dispatch", tasks)
        head = f'rules = "linux"\ntimeout_ms = {random.choice([3, 50, 30000])}\ntick_ms = {random.choice([0, 0, 1, 4, 100])}\n'
        if self.keeps_idle is not None:
            head += f"keep_idle = {int(self.keeps_idle)}\n"
        if self.timers:
            head += f"timer = [{', '.join(['{}'] * self.timers)}]\n"
        order = sorted(code, key=lambda callback: (["init"] + CALLBACKS).index(callback))
        return head + "[code]\n" + "".join(f'{name} = """\n' + "\n".join(code[name]) + '\n"""\n' for name in order)


def harmful(random, most_cpus=64):
    """The text of a policy, and of a workload for it with no more CPUs than that."""
    cpus = min(random.choice([1, 1, 2, 2, 3, 8, 64]), most_cpus)
    ms = random.randrange(1, {64: 3, 8: 20}.get(cpus, 40))
    tasks = [{"name": f"t{at}", "group": "g", "start": random.randrange(4)} for at in range(random.randrange(1, 9))]
    for task in tasks:
        if random.random() < 0.6:
            task |= {"run": random.randrange(1, 5), "sleep": random.randrange(1, 5)}
        if random.random() < 0.3:
            task["weight"] = random.choice([1, 100, 10000])
        if random.random() < 0.3:
            task["cpus"] = some_cpus(random, cpus)
    group = {"name": "g"} | ({"cpu_max": "3000 10000"} if random.random() < 0.3 else {})
    seed = [f"seed = {random.choice([1, 2**63 - 1])}"] if random.random() < 0.3 else []
    lines = [f"cpus = {cpus}", f"ms = {ms}", *seed, "[[group]]", *(f"{key} = {json.dumps(value)}" for key, value in group.items())]
    for task in tasks:
        lines += ["[[task]]", *(f"{key} = {json.dumps(value)}" for key, value in task.items())]
    for _ in range(random.choice([0, 0, 1, 4])):
        lines += ["[[change]]", f"at = {random.randrange(ms + 1)}", f'task = "{random.choice(tasks)["name"]}"',
                  f"weight = {random.choice([1, 100, 10000])}"]
    return Harm(random, cpus).policy(len(tasks)), "\n".join(lines) + "\n"


LINE = re.compile(r"(\d+) (?:(wake|sleep) (\S+)|insert (\S+) ((?:queue|local) \d+|global|held|builtin|parked)|move (\S+) local (\d+)"
                  r"|(run|stop) (\S+) cpu (\d+)|idle cpu (\d+)|weight (\S+) \d+|eject (?:fault \d+|exit -?\d+|stall \S+))")
QUEUES = ("queue", "local", "global", "held")


def cpus_of(text):
    """The CPUs on which each bound task of a workload may run, as words, by its name."""
    allowed = {}
    for task in tomllib.loads(text)["task"]:
        if "cpus" in task:
            ends = [part.split("-") for part in task["cpus"].split(",")]
            allowed[task["name"]] = {str(cpu) for part in ends for cpu in range(int(part[0]), int(part[-1]) + 1)}
    return allowed


def is_allowed(allowed, task, cpu):
    return task not in allowed or not cpu or cpu in allowed[task]


def fault_of(trace, workload):
    """What is wrong with a trace, or None: each task is in one place and on a CPU on which it may run, a CPU runs one
    task, a policy is ejected once."""
    allowed = cpus_of(workload)
    at, on, sleeping, clock, ejected = {}, {}, set(), 0, False
    for line in trace.splitlines():
        found = LINE.fullmatch(line)
        if not found:
            return f"no line of a trace: {line}"
        now, woken, who, comes, queue, moved, to, turn, turned, cpu, idle, weighed = found.groups()
        if int(now) < clock or int(now) > clock and (sleeping or "hand" in at.values()):
            return f"a task is nowhere before: {line}"
        clock = int(now)
        if not is_allowed(allowed, comes or moved or turned, to or cpu or (queue or "").partition("local ")[2]):
            return f"a task is where it may not run: {line}"
        place = at.get(who or comes or moved or turned or weighed, "asleep")
        if woken == "wake":
            good, at[who] = place == "asleep", "hand"
        elif woken == "sleep":
            good = place != "asleep" and place != "hand"
            if place.startswith("cpu"):
                sleeping.add(who)
            else:
                at[who] = "asleep"
        elif comes:
            good = (place in ("hand", "held", "parked") or queue == "parked" and (place.startswith("local") or place == "builtin")
                    or queue == "builtin" and ejected and place != "asleep" and not place.startswith("cpu"))
            at[comes] = queue
        elif moved:
            good, at[moved] = place.startswith("queue") or place in ("global", "builtin"), f"local {to}"
        elif turn == "run":
            good = place == f"local {cpu}" and cpu not in on
            at[turned], on[cpu] = f"cpu {cpu}", turned
        elif turn == "stop":
            good = place == f"cpu {cpu}" and on.pop(cpu, None) == turned
            at[turned] = "asleep" if turned in sleeping else "hand"
            sleeping.discard(turned)
        elif idle:
            good = idle not in on
        elif weighed:
            good = True
            if place.startswith(QUEUES) and not ejected:  # it leaves its queue, and is put again
                at[weighed] = "hand"
        else:
            good, ejected = not ejected, True
        if not good:
            return f"a task or a CPU is elsewhere: {line}"
    return None
