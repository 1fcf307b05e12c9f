"""Reads a file of rt-app, the load generator: tasks that run and sleep in phases."""

import json
import re
from collections.abc import Iterable, Iterator
from dataclasses import dataclass
from typing import Any

from scxlab.errors import LabError
from scxlab.recording import Burst, Recording

# rt-app takes comments, and a number or another ending after the name of an event, since keys are unique in JSON.
COMMENT = re.compile(r'("(?:[^"\\]|\\.)*")|/\*.*?\*/|//[^\n]*', re.S)
EVENT = re.compile(r"(run|sleep)(?!time).*")
# Keys of `global` that change nothing of the load.
OF_LOGS = {"calibration", "logdir", "logstats", "log_basename", "log_format", "log_size", "ftrace", "gnuplot",
           "lock_pages", "pi_enabled"}
FOR_EVER = -1
MOST_STEPS, MOST_INSTANCES, MOST_US = 1_000_000, 1024, 10**12
LONGEST_NAME = 16
NO_CPUS = "a file of rt-app doesn't say how many processors there are; here is one"

Table = dict[str, Any]


@dataclass(frozen=True)
class Phase:
    """Runs and sleeps in microseconds, one after another, `loop` times."""

    steps: list[tuple[str, int]]
    loop: int


class Faulty(Exception):
    """What is wrong, after the key at which it is."""


def read_rt_app(name: str, lines: Iterable[str], unit: int) -> Recording:
    """The recording that each task makes alone on a CPU; `unit` microseconds of the file are a millisecond."""
    try:
        plan = json.loads(COMMENT.sub(r"\1", "".join(lines)), object_pairs_hook=table_of)
        tasks, duration = tasks_of(table_at(plan, "the file")), duration_of(plan)
        bursts = {task: bursts_of(task, phases, loop, duration) for task, (phases, loop) in tasks.items()}
    except json.JSONDecodeError as error:
        raise LabError(f"{name}: is no JSON: {error}") from error
    except Faulty as fault:
        raise LabError(f"{name}: {fault}") from fault
    end = max(map(last_of, bursts.values())) if duration == MOST_US else duration
    idle = [task for task, each in bursts.items() if not each]
    losses = [NO_CPUS, *(f"{task}: doesn't run, and isn't here" for task in idle)]
    for burst in (burst for each in bursts.values() for burst in each):
        burst.woke, burst.ran = burst.woke / unit, burst.ran / unit
        burst.slept = None if burst.slept is None else burst.slept / unit
    return Recording(1, end / unit, bursts, losses).without(idle)


def last_of(bursts: list[Burst]) -> float:
    """When the last of some bursts ended."""
    return bursts[-1].woke + bursts[-1].ran if bursts else 0


def table_of(pairs: list[tuple[str, Any]]) -> Table:
    """A table of JSON; a key that is given twice is named."""
    table = dict(pairs)
    for key in table:
        if sum(key == other for other, _ in pairs) > 1:
            raise Faulty(f"{key}: twice")
    return table


def refuse_others(table: Table, known: set[str], place: str) -> None:
    for key in table:
        if key not in known:
            raise Faulty(f"{place}{key}: no workload has it")


def table_at(value: Any, place: str) -> Table:
    if not isinstance(value, dict):
        raise Faulty(f"{place}: wrong type")
    return value


def number_at(table: Table, key: str, default: int, place: str, least: int, most: int) -> int:
    value = table.get(key, default)
    if type(value) is not int:
        raise Faulty(f"{place}.{key}: wrong type")
    if not least <= value <= most:
        raise Faulty(f"{place}.{key}: out of range")
    return value


def duration_of(plan: Table) -> int:
    """For how many microseconds the tasks go on at most."""
    told = table_at(plan.get("global", {}), "global")
    refuse_others(told, OF_LOGS | {"duration", "default_policy"}, "global.")
    if told.get("default_policy", "SCHED_OTHER") != "SCHED_OTHER":
        raise Faulty("global.default_policy: no workload has another than SCHED_OTHER")
    seconds = number_at(told, "duration", FOR_EVER, "global", FOR_EVER, MOST_US // 1_000_000)
    return MOST_US if seconds == FOR_EVER else seconds * 1_000_000


def tasks_of(plan: Table) -> dict[str, tuple[list[Phase], int]]:
    """The phases of each task by its name in a workload, and how often they are done."""
    tasks: dict[str, tuple[list[Phase], int]] = {}
    refuse_others(plan, {"tasks", "global"}, "")
    for key, value in table_at(plan.get("tasks", {}), "tasks").items():
        task, place = table_at(value, f"tasks.{key}"), f"tasks.{key}"
        count = number_at(task, "instance", 1, place, 1, MOST_INSTANCES)
        for name in names_of(key, count):
            if name in tasks:
                raise Faulty(f"{place}: another task is {name} too")
            tasks[name] = phases_of(task, place)
    if not tasks:
        raise Faulty("tasks: missing")
    return tasks


def names_of(key: str, count: int) -> Iterator[str]:
    """A name as workloads have them for each instance, with its number if there are several."""
    plain = re.sub(r"[^a-z0-9]+", "_", key.lower()).strip("_")
    plain = plain if plain[:1].isalpha() else f"t_{plain}".rstrip("_")
    for number in range(1, count + 1):
        ending = f"_{number}" if count > 1 else ""
        yield plain[: LONGEST_NAME - len(ending)].rstrip("_") + ending


def phases_of(task: Table, place: str) -> tuple[list[Phase], int]:
    """The phases of a task, or the one that it is itself, and how often they are done."""
    if "phases" not in task:
        return [phase_of(task, place, FOR_EVER, {"instance"})], 1
    refuse_others(task, {"phases", "instance", "loop"}, f"{place}.")
    phases = table_at(task["phases"], f"{place}.phases")
    return ([phase_of(table_at(phase, f"{place}.phases.{key}"), f"{place}.phases.{key}", 1)
             for key, phase in phases.items()], number_at(task, "loop", FOR_EVER, place, FOR_EVER, MOST_US))


def phase_of(phase: Table, place: str, loop: int, others: Iterable[str] = ()) -> Phase:
    events = {key: match[1] for key in phase if (match := EVENT.fullmatch(key))}
    refuse_others(phase, {"loop", *others, *events}, f"{place}.")
    steps = [(event, number_at(phase, key, 0, place, 0, MOST_US)) for key, event in events.items()]
    return Phase(steps, number_at(phase, "loop", loop, place, FOR_EVER, MOST_US))


def steps_of(phases: list[Phase], loop: int) -> Iterator[tuple[str, int]]:
    """The runs and sleeps of a task in their order, which may go on for ever."""
    for _ in rounds(loop):
        for phase in phases:
            for _ in rounds(phase.loop):
                yield from phase.steps or [("sleep", 0)]
        # A round without a step ends too.
        yield "sleep", 0


def rounds(loop: int) -> Iterator[int]:
    return iter(int, 1) if loop == FOR_EVER else iter(range(loop))


def bursts_of(task: str, phases: list[Phase], loop: int, duration: int) -> list[Burst]:
    """The bursts of a task, in microseconds: it wakes with a run, and sleeps when it has run."""
    bursts: list[Burst] = []
    at = 0
    for number, (event, length) in enumerate(steps_of(phases, loop)):
        if number == MOST_STEPS:
            raise Faulty(f"{task}: more than {MOST_STEPS} runs and sleeps; give a duration, or longer ones")
        if at >= duration:
            break
        if event == "run" and length:
            if not bursts or bursts[-1].slept is not None:
                bursts.append(Burst(at))
            bursts[-1].ran += min(length, duration - at)
        elif event == "sleep" and length and bursts and bursts[-1].slept is None:
            bursts[-1].slept = at
        at += length
    else:
        if bursts and bursts[-1].slept is None:
            bursts[-1].slept = at
    return bursts
