"""Whole runs of scxsim beside the plain simulator of bench/plain_machine.rs, for bench/figures.py.

`runs`: three policies with three workloads, each as `run` and as `report`. The workloads of bench/workloads have 1
processor and 2 tasks (w1), 8 and 64 (w8), 64 and 1024 (w64), some of which sleep. `simple` is scx_simple by virtual
time, with slices of 20 ms, `short` the same with 1 ms, `fifo` its FIFO form. Instructions are those of one further
millisecond, as the difference of two lengths. Before that both have to write the same bytes, of these files and of all
pairs of examples/policies and examples/workloads. `times`: nanoseconds of processor time of one further millisecond, and
lines of a trace a second.

`growth`: what one further millisecond of `report` takes as one thing grows, and the exponent: by which power of it
the instructions grow, of the line through all points where both are logarithms, and between the last two. Of tasks
all but one sleep, or all but one wait for a processor with slices of 20 ms, or they take turns on eight, a
millisecond each, by virtual time. Busy processors have a task each, which is looked at every 20 ms; idle ones have
none, under a policy with `dispatch`, which they ask, and under one without. Milliseconds are those of a whole run of
w1, of which the last two fifths count. Slots are those of `stopping`, done once in a millisecond.
"""
import math
import os
import subprocess

from counting import TOP, counted, seconds, write

COMMANDS = ("run", "report")
LENGTHS = {"w1": (4000, 12000), "w8": (1000, 3000), "w64": (200, 600)}
LONG = {"w1": 1_000_000, "w8": 100_000, "w64": 10_000}  # milliseconds for times
TIMES = 3
TRACED = {(1, 2): 1_000_000, (8, 64): 300_000, (64, 1024): 40_000}  # CPUs and tasks, and milliseconds
LINES = 2  # of a trace under slices of 2 ms, for each CPU and millisecond
ASLEEP = 1_000_000  # a start that isn't reached


def text_of(*place):
    with open(os.path.join(TOP, *place)) as file:
        return file.read()


def policies():
    """The texts of the three policies."""
    simple = text_of("examples", "policies", "simple_vtime.toml")
    short = "".join(
        line.replace("20000000", "1000000", 1) if line.startswith("r3 = 20000000") else line
        for line in simple.splitlines(keepends=True)
    )
    return {"simple": simple, "short": short, "fifo": text_of("examples", "policies", "simple.toml")}


def lasting(workload, ms):
    """The text of a workload that lasts that long."""
    return "".join("ms = %d\n" % ms if line.startswith("ms = ") else line for line in workload.splitlines(keepends=True))


class Programs:
    """scxsim and the plain simulator, on files in a folder."""

    def __init__(self, scxsim, plain, folder):
        self.heads = [[scxsim], [plain, "simulate"]]
        self.folder = folder

    def commands(self, command, policy, workload):
        """The words of both for a policy and a workload, which are texts."""
        paths = [write(self.folder, name, text) for name, text in (("policy", policy), ("workload", workload))]
        return [[*head, command, *paths] for head in self.heads]

    def check(self, command, policy, workload):
        """Both have to write the same, and to end in the same way."""
        runs = [subprocess.run(words, capture_output=True) for words in self.commands(command, policy, workload)]
        ours, plain = [(run.returncode, run.stdout) for run in runs]
        assert ours == plain, (command, policy, workload)

    def counts(self, command, policy, workload, lengths):
        """Instructions of one further millisecond, of both."""
        found = []
        for ms in lengths:
            found.append([counted(words) for words in self.commands(command, policy, lasting(workload, ms))])
        return [(long - short) / (lengths[1] - lengths[0]) for short, long in zip(*found)]

    def times(self, command, policy, workload, ms):
        """The seconds of a workload that lasts that long, of both: the best of some runs, without their start."""
        taken = []
        for length in (1, ms):
            commands = self.commands(command, policy, lasting(workload, length))
            found = [[seconds(words, subprocess.DEVNULL)[0] for words in commands] for _ in range(TIMES)]
            taken.append([min(times) for times in zip(*found)])
        return [after - before for before, after in zip(*taken)]


def check_examples(programs):
    """All pairs of examples, as both commands."""
    texts = []
    for kind in ("policies", "workloads"):
        names = sorted(os.listdir(os.path.join(TOP, "examples", kind)))
        texts.append([text_of("examples", kind, name) for name in names if name.endswith(".toml")])
    pairs = [(policy, workload) for policy in texts[0] for workload in texts[1]]
    for policy, workload in pairs:
        for command in COMMANDS:
            programs.check(command, policy, workload)
    print("same     %d pairs of examples, run and report" % len(pairs), flush=True)


def measure_runs(scxsim, plain, folder):
    programs = Programs(scxsim, plain, folder)
    check_examples(programs)
    for name, policy in policies().items():
        for shape, lengths in LENGTHS.items():
            workload = text_of("bench", "workloads", shape + ".toml")
            for command in COMMANDS:
                programs.check(command, policy, lasting(workload, lengths[1]))
                ours, others = programs.counts(command, policy, workload, lengths)
                print("%-8s %-8s %-5s %12.0f %12.0f %7.2f" % (command, name, shape, ours, others, ours / others), flush=True)


def measure_times(scxsim, plain, folder):
    programs = Programs(scxsim, plain, folder)
    for name, policy in policies().items():
        for shape, ms in LONG.items():
            workload = text_of("bench", "workloads", shape + ".toml")
            for command in COMMANDS:
                ours, others = (1e9 * taken / ms for taken in programs.times(command, policy, workload, ms))
                print("%-8s %-8s %-5s %12.0f %8.0f %7.2f" % (command, name, shape, ours, others, ours / others), flush=True)
    policy = text_of("examples", "policies", "short_slices.toml")
    for (cpus, tasks), ms in TRACED.items():
        taken = programs.times("run", policy, crowd(cpus, tasks), ms)
        figures = [LINES * cpus * ms / time for time in taken]
        print("lines a second %3d CPUs %12.0f %12.0f %7.2f" % (cpus, *figures, figures[1] / figures[0]), flush=True)


def crowd(cpus, tasks, others=""):
    """A workload of tasks that never sleep, with `others` after each but the first."""
    lines = ["cpus = %d\nms = 1\n[[group]]\nname = \"g\"\n" % cpus]
    for number in range(tasks):
        lines.append("[[task]]\nname = \"t%d\"\ngroup = \"g\"\n%s" % (number, others if number else ""))
    return "".join(lines)


def asleep(cpus):
    """A workload in which no task wakes."""
    return crowd(cpus, 1) + "start = %d\n" % ASLEEP


def turns(slots):
    """Two tasks take turns, a millisecond each, and as one stops a program of that size is done."""
    return """[code]
enqueue = '''
r2 = 9223372036854775809 ll
r3 = 1000000
r4 = 0
call 1002
exit
'''
stopping = '''
%sexit
'''
""" % ((slots - 1) * "r3 = 7\n")


def growths():
    """By what grows, its sizes: for each a policy, a workload, and two lengths."""
    fifo, short = (policies()[name] for name in ("fifo", "short"))
    tasks, cpus = (16, 64, 256, 1024), (1, 4, 16, 64)
    return {
        "tasks asleep": [(n, fifo, crowd(1, n, "start = %d\n" % ASLEEP), (400, 2400)) for n in tasks],
        "tasks waiting": [(n, fifo, crowd(1, n), (400, 2400)) for n in tasks],
        "tasks taking turns": [(n, short, crowd(8, n), (200, 1000)) for n in tasks],
        "processors busy": [(n, fifo, crowd(n, n), (400, 1600)) for n in cpus],
        "processors that ask": [(n, fifo, asleep(n), (400, 1600)) for n in cpus],
        "processors idle": [(n, turns(1), asleep(n), (400, 1600)) for n in cpus],
        "milliseconds": [
            (n, fifo, text_of("bench", "workloads", "w1.toml"), (3 * n // 5, n)) for n in (1000, 10_000, 100_000, 1_000_000)
        ],
        "slots": [(n, turns(n), crowd(1, 2), (200, 600)) for n in (1, 16, 256, 4096)],
    }


def exponent(sizes, counts):
    """The slope of the line through the points, where both are logarithms."""
    across, up = ([math.log(number) for number in numbers] for numbers in (sizes, counts))
    middle, level = (sum(numbers) / len(numbers) for numbers in (across, up))
    area = sum((x - middle) * (y - level) for x, y in zip(across, up))
    return area / sum((x - middle) ** 2 for x in across)


def measure_growth(scxsim, plain, folder):
    programs = Programs(scxsim, plain, folder)
    for name, points in growths().items():
        found = []
        for size, policy, workload, lengths in points:
            programs.check("report", policy, lasting(workload, lengths[0]))
            found.append(programs.counts("report", policy, workload, lengths))
            print("growth   %-20s %8d %12.1f %12.1f" % (name, size, *found[-1]), flush=True)
        sizes = [point[0] for point in points]
        exponents = [exponent(sizes, counts) for counts in zip(*found)]
        last = [exponent(sizes[-2:], counts[-2:]) for counts in zip(*found)]
        print("growth   %-20s exponent %12.2f %12.2f" % (name, *exponents), flush=True)
        print("growth   %-20s   at end %12.2f %12.2f" % (name, *last), flush=True)
