"""Reads what `perf sched script` writes of a recording that `perf sched record` made."""

import re
from collections.abc import Iterable
from dataclasses import dataclass, field

from scxlab.errors import LabError
from scxlab.recording import Burst, Recording

# `typist 812 [002] 17.250001: sched:sched_switch: ..`; of a task that has ended the number is -1.
LINE = re.compile(r"\s*(?P<comm>\S.*?)\s+(?P<pid>-?\d+)(?:/\d+)?\s+\[(?P<cpu>\d+)\].*?\s(?P<at>\d+\.\d+):\s+"
                  r"(?:sched:)?(?P<event>sched_\w+):\s+(?P<told>.*)")
# With the plugins of libtraceevent perf writes a task as `comm:pid [prio]`, without them as `comm=.. pid=..`.
SWITCH = re.compile(r"prev_comm=(?P<comm>.*) prev_pid=(?P<pid>\d+) .*prev_state=(?P<state>\S+) ==> "
                    r"next_comm=(?P<next_comm>.*) next_pid=(?P<next_pid>\d+)")
SHORT_SWITCH = re.compile(r"(?P<comm>.*):(?P<pid>\d+) \[\d+\] (?P<state>\S+) ==> "
                          r"(?P<next_comm>.*):(?P<next_pid>\d+) \[\d+\]")
WAKE = re.compile(r"comm=(?P<comm>.*) pid=(?P<pid>\d+)")
SHORT_WAKE = re.compile(r"(?P<comm>.*):(?P<pid>\d+) \[\d+\]")
WAKES = {"sched_waking", "sched_wakeup", "sched_wakeup_new"}
IDLE = "0"
LONGEST_NAME = 16
# The beginning of a line, up to its event, is shorter.
LONGEST_HEAD = 500


@dataclass
class Task:
    """One task of a kernel: its bursts so far, and since when it runs and where."""

    comm: str
    bursts: list[Burst] = field(default_factory=list)
    since: float | None = None
    cpu: int = 0

    @property
    def is_awake(self) -> bool:
        return bool(self.bursts) and self.bursts[-1].slept is None

    def wake(self, at: float) -> None:
        if not self.is_awake:
            self.bursts.append(Burst(at))

    def run(self, at: float, cpu: int) -> None:
        """It begins to run, and so it is awake, though nothing told of it."""
        self.wake(at)
        self.since, self.cpu = at, cpu

    def stop(self, at: float) -> None:
        self.bursts[-1].ran += at - (at if self.since is None else self.since)
        self.since = None

    def sleep(self, at: float) -> None:
        self.bursts[-1].slept = at


class Reader:
    """Takes the lines one after another. Times are in milliseconds from the first line on. perf begins and ends with
    one processor after another."""

    def __init__(self, unit: int) -> None:
        self.unit, self.tasks = unit, dict[str, Task]()
        self.begin: float | None = None
        self.at, self.cpu, self.unread = 0.0, 0, 0
        self.first, self.last = dict[int, float](), dict[int, float]()

    def line(self, text: str) -> None:
        match = LINE.match(text)
        if not match:
            self.unread += 1
            return
        seconds, self.cpu = float(match["at"]), int(match["cpu"])
        self.begin = seconds if self.begin is None else self.begin
        # The difference of two binary fractions may be a bit less than what perf wrote.
        self.at = round((seconds - self.begin) * 1_000_000 / self.unit, 6)
        self.first.setdefault(self.cpu, self.at)
        self.last[self.cpu] = self.at
        if match["event"] == "sched_switch":
            self.switch(match["told"])
        elif match["event"] in WAKES:
            self.wake(match["told"])

    def switch(self, told: str) -> None:
        match = SWITCH.match(told) or SHORT_SWITCH.match(told)
        if not match:
            self.unread += 1
            return
        if match["pid"] != IDLE:
            self.stop(self.task(match["pid"], match["comm"]), match["state"])
        if match["next_pid"] != IDLE:
            self.task(match["next_pid"], match["next_comm"]).run(self.at, self.cpu)

    def stop(self, task: Task, state: str) -> None:
        """A task stops. One of which nothing was seen before has run since the recording of its processor began; of
        another that wasn't seen to begin the lines were lost. In a state that begins with R it would run on."""
        if task.since is None:
            task.run(self.at if task.bursts else self.first[self.cpu], self.cpu)
        task.stop(self.at)
        if not state.startswith("R"):
            task.sleep(self.at)

    def wake(self, told: str) -> None:
        match = WAKE.match(told) or SHORT_WAKE.match(told)
        if match:
            self.task(match["pid"], match["comm"]).wake(self.at)
        else:
            self.unread += 1

    def task(self, pid: str, comm: str) -> Task:
        known = self.tasks.setdefault(pid, Task(comm))
        known.comm = comm
        return known

    def finish(self) -> None:
        """Who runs at the end has run until its processor's recording ended."""
        for task in self.tasks.values():
            if task.since is not None:
                task.stop(max(task.since, self.last[task.cpu]))


def read_perf(name: str, lines: Iterable[str], unit: int) -> Recording:
    """The recording of a text of `perf sched script`; `unit` microseconds of it are a millisecond."""
    reader = Reader(unit)
    for text in lines:
        if text.strip():
            reader.line(text)
    reader.finish()
    if not reader.tasks:
        raise LabError(f"{name}: has no line of sched_switch as perf sched script writes them")
    bursts = {name_of(task.comm, pid): task.bursts for pid, task in reader.tasks.items()}
    recording = Recording(len(reader.last), reader.at, bursts)
    idle = [name for name in bursts if not recording.ran(name)]
    recording.losses.append("priorities, and on which processors a task may run, aren't in a workload")
    if idle:
        recording.losses.append(f"{len(idle)} tasks that woke and didn't run aren't here")
    if reader.unread:
        recording.losses.append(f"{reader.unread} lines say nothing that is known here")
    return recording.without(idle)


def name_of(comm: str, pid: str) -> str:
    """A name as workloads have them: the command's, as far as that can be, and the number of the process."""
    plain = re.sub(r"[^a-z0-9]+", "_", comm.lower()).strip("_")
    plain = plain if plain[:1].isalpha() else f"t_{plain}"
    return f"{plain[: LONGEST_NAME - len(pid) - 1].rstrip('_')}_{pid}"


def is_perf(lines: Iterable[str]) -> bool:
    """Whether one of these lines is an event of the scheduler."""
    return any(LINE.match(text[:LONGEST_HEAD]) for text in lines)
